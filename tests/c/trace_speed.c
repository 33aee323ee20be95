/* Times a whole trace through ogr_trace_feed beside the same in C, alternating, in one process: the median of ours/C, the middle half of
 * the rounds and their ends, and nanoseconds a sample. rust/trace-speed compiles it. */
#define _POSIX_C_SOURCE 200809L
#include <stdio.h>
#include <stdlib.h>
#include <time.h>

#include "trace_loop.h"

enum { MOST_ROUNDS = 1001 };
static uint16_t first[OGR_MOST_SAMPLES], second[OGR_MOST_SAMPLES];

static struct ogr_trace ours(struct ogr_trace trace, const uint16_t *x, const uint16_t *y, size_t len)
{
    return ogr_trace_feed(trace, x, len, y, len).trace;
}

/* A small generator of random numbers. */
static uint32_t word(void)
{
    static uint64_t state = 1;
    state = state * UINT64_C(6364136223846793005) + UINT64_C(1442695040888963407);
    return (uint32_t)(state >> 33);
}

/* Clocks of which neither is the faster for long, so that a lead seldom rises. */
static uint32_t apart(void) { return word() % 65536; }

/* Clocks of nearly one frequency, read a little early or late; one is made faster below, and its lead rises every few samples. */
static uint32_t alike(void) { return 43000 + word() % 16; }

static void make_rows(uint32_t (*gain)(void), uint32_t faster)
{
    uint32_t x = 0, y = 0;
    for (size_t i = 0; i < OGR_MOST_SAMPLES; i++) {
        first[i] = (uint16_t)(x += gain() + faster);
        second[i] = (uint16_t)(y += gain());
    }
}

static double timed(trace_loop *loop, struct ogr_trace *out)
{
    struct timespec begin, end;
    clock_gettime(CLOCK_MONOTONIC, &begin);
    *out = loop((struct ogr_trace){0}, first, second, OGR_MOST_SAMPLES);
    clock_gettime(CLOCK_MONOTONIC, &end);
    return ((double)(end.tv_sec - begin.tv_sec) * 1e9 + (double)(end.tv_nsec - begin.tv_nsec)) / OGR_MOST_SAMPLES;
}

static bool equal(struct ogr_trace a, struct ogr_trace b)
{
    return a.samples == b.samples && a.first.total == b.first.total && a.first.last == b.first.last && a.second.total == b.second.total &&
           a.second.last == b.second.last && a.first_leads.ticks == b.first_leads.ticks && a.first_leads.at == b.first_leads.at &&
           a.second_leads.ticks == b.second_leads.ticks && a.second_leads.at == b.second_leads.at;
}

static int by_size(const void *a, const void *b)
{
    const double x = *(const double *)a, y = *(const double *)b;
    return (x > y) - (x < y);
}

static void beside(const char *trace, const char *name, trace_loop *loop, size_t rounds)
{
    static double in_c[MOST_ROUNDS], by_ours[MOST_ROUNDS], ratios[MOST_ROUNDS];
    for (size_t i = 0; i < rounds; i++) {
        struct ogr_trace right, got;
        /* which goes first alternates, so that neither always finds the other's traces */
        if (i % 2 == 0)
            in_c[i] = timed(loop, &right);
        by_ours[i] = timed(ours, &got);
        if (i % 2 == 1)
            in_c[i] = timed(loop, &right);
        ratios[i] = by_ours[i] / in_c[i];
        if (!equal(right, got)) {
            printf("trace-speed: the answers differ\n");
            exit(1);
        }
    }
    qsort(in_c, rounds, sizeof *in_c, by_size);
    qsort(by_ours, rounds, sizeof *by_ours, by_size);
    qsort(ratios, rounds, sizeof *ratios, by_size);
    const size_t last = rounds - 1;
    printf("%-8s %-10s %7.3f  %6.3f to %.3f  %6.3f to %.3f  %7.2f %8.2f\n", trace, name, ratios[last / 2], ratios[last / 4],
           ratios[last * 3 / 4], ratios[0], ratios[last], in_c[last / 2], by_ours[last / 2]);
}

int main(int words, char **word)
{
    const size_t asked = words > 1 ? strtoul(word[1], NULL, 10) : 51;
    const size_t rounds = asked == 0 ? 1 : asked > MOST_ROUNDS ? MOST_ROUNDS : asked;
    printf("%-8s %-10s %7s  %-15s  %-15s  %7s %8s\n", "clocks", "in C", "ratio", "middle half", "all", "C ns", "ours ns");
    make_rows(apart, 0);
    beside("apart", "by value", trace_by_value, rounds);
    beside("apart", "in place", trace_in_place, rounds);
    make_rows(alike, 1);
    beside("alike", "by value", trace_by_value, rounds);
    beside("alike", "in place", trace_in_place, rounds);
    return 0;
}
