/* For calls.c: a trace of two counters, fed in parts. */
#ifndef TRACE_H
#define TRACE_H

#include "check.h"

/* Every number of a trace but its padding. */
static void trace_is(struct place here, struct ogr_trace_fed got, uint32_t refusal, struct ogr_trace want)
{
    const char *call = "ogr_trace_feed";
    same(here, call, "the refusal", got.refusal, refusal);
    same(here, call, "how many samples there are", got.trace.samples, want.samples);
    same(here, call, "the first total", got.trace.first.total, want.first.total);
    same(here, call, "the first's last count", got.trace.first.last, want.first.last);
    same(here, call, "the second total", got.trace.second.total, want.second.total);
    same(here, call, "the second's last count", got.trace.second.last, want.second.last);
    same(here, call, "the first's lead", got.trace.first_leads.ticks, want.first_leads.ticks);
    same(here, call, "where the first leads", got.trace.first_leads.at, want.first_leads.at);
    same(here, call, "the second's lead", got.trace.second_leads.ticks, want.second_leads.ticks);
    same(here, call, "where the second leads", got.trace.second_leads.at, want.second_leads.at);
}

/* The first goes 500 a sample and passes zero; the second stands still, then goes 65,535, and stands again. So the first leads by 500 and
 * 1,000, and the second from then on, by less and less. */
static const uint16_t firsts[] = {64736, 65236, 200, 700, 1200}, seconds[] = {9, 9, 9, 8, 8};
enum { SAMPLES = 5 };
static const struct ogr_trace no_trace, whole_trace = {5, {2000, 1200}, {65535, 8}, {1000, 2}, {64035, 3}};

static void trace_in_parts(void)
{
    trace_is(HERE, ogr_trace_feed(no_trace, firsts, SAMPLES, seconds, SAMPLES), 0, whole_trace);
    for (size_t cut = 0; cut <= SAMPLES; cut++)
        for (size_t next = cut; next <= SAMPLES; next++) {
            struct ogr_trace trace = ogr_trace_feed(no_trace, firsts, cut, seconds, cut).trace;
            same(HERE, "ogr_trace_feed", "how many samples there are", trace.samples, cut);
            trace = ogr_trace_feed(trace, firsts + cut, next - cut, seconds + cut, next - cut).trace;
            trace_is(HERE, ogr_trace_feed(trace, firsts + next, SAMPLES - next, seconds + next, SAMPLES - next), 0, whole_trace);
        }
    trace_is(HERE, ogr_trace_feed(no_trace, firsts, 1, seconds, 1), 0, (struct ogr_trace){1, {0, 64736}, {0, 9}, {0, 0}, {0, 0}});
    trace_is(HERE, ogr_trace_feed(no_trace, NULL, 0, NULL, 0), 0, no_trace);
    trace_is(HERE, ogr_trace_feed(whole_trace, NULL, 0, NULL, 0), 0, whole_trace);
    /* leads that are reached again keep their first sample */
    const uint16_t up[] = {0, 7, 7, 14}, down[] = {0, 0, 7, 7};
    trace_is(HERE, ogr_trace_feed(no_trace, up, 4, down, 4), 0, (struct ogr_trace){4, {14, 14}, {7, 7}, {7, 1}, {0, 0}});
    trace_is(HERE, ogr_trace_feed(no_trace, down, 4, up, 4), 0, (struct ogr_trace){4, {7, 7}, {14, 14}, {0, 0}, {7, 1}});
}

/* Rows of unequal length come before a trace too long, and the state stays. */
static void trace_refused(void)
{
    const struct ogr_trace full = {OGR_MOST_SAMPLES, {1, 2}, {3, 4}, {5, 6}, {7, 8}};
    struct ogr_trace trace = full;
    for (size_t len = 0; len < SAMPLES; len++) {
        trace_is(HERE, ogr_trace_feed(whole_trace, firsts, len, seconds, SAMPLES), OGR_BAD_ROWS, whole_trace);
        trace_is(HERE, ogr_trace_feed(full, firsts, SAMPLES, seconds, len), OGR_BAD_ROWS, full);
    }
    trace_is(HERE, ogr_trace_feed(no_trace, firsts, 1, NULL, 0), OGR_BAD_ROWS, no_trace);
    trace_is(HERE, ogr_trace_feed(full, firsts, 1, seconds, 1), OGR_TRACE_LONG, full);
    trace_is(HERE, ogr_trace_feed(full, NULL, 0, NULL, 0), 0, full);
    trace.samples = OGR_MOST_SAMPLES - SAMPLES + 1;
    trace_is(HERE, ogr_trace_feed(trace, firsts, SAMPLES, seconds, SAMPLES), OGR_TRACE_LONG, trace);
    same(HERE, "ogr_trace_feed", "the last sample", ogr_trace_feed(trace, firsts, 4, seconds, 4).trace.samples, OGR_MOST_SAMPLES);
    for (uint32_t over = OGR_MOST_SAMPLES + 1; over > OGR_MOST_SAMPLES; over *= 2) {
        trace.samples = over;
        trace_is(HERE, ogr_trace_feed(trace, NULL, 0, NULL, 0), OGR_TRACE_LONG, trace);
        trace_is(HERE, ogr_trace_feed(trace, firsts, 1, seconds, 1), OGR_TRACE_LONG, trace);
        trace_is(HERE, ogr_trace_feed(trace, firsts, 1, seconds, 0), OGR_BAD_ROWS, trace);
    }
}

/* States that no trace has: without samples but with numbers, and totals that wrap. */
static void trace_forged(void)
{
    const uint16_t ones[] = {1, 2}, zeros[] = {0, 0};
    const struct ogr_trace begun = {0, {100, 77}, {90, 88}, {10, 9}, {3, 8}};
    trace_is(HERE, ogr_trace_feed(begun, ones, 2, zeros, 2), 0, (struct ogr_trace){2, {101, 2}, {90, 0}, {11, 1}, {3, 8}});
    trace_is(HERE, ogr_trace_feed(begun, NULL, 0, NULL, 0), 0, begun);
    const struct ogr_trace wraps = {7, {UINT64_MAX, 0}, {UINT64_MAX - 1, 65535}, {0, 0}, {UINT64_MAX - 2, 3}};
    trace_is(HERE, ogr_trace_feed(wraps, ones, 1, zeros, 1), 0,
             (struct ogr_trace){8, {0, 1}, {UINT64_MAX, 0}, {0, 0}, {UINT64_MAX, 7}});
    trace_is(HERE, ogr_trace_feed(wraps, zeros, 1, ones, 1), 0,
             (struct ogr_trace){8, {UINT64_MAX, 0}, {0, 1}, {UINT64_MAX, 7}, {UINT64_MAX - 2, 3}});
}

static void trace_difference(void)
{
    const struct { uint64_t first, second; int64_t less; } totals[] = {
        {0, 0, 0}, {7, 5, 2}, {5, 7, -2}, {UINT64_MAX, UINT64_MAX - 1, 1}, {UINT64_MAX - 1, UINT64_MAX, -1},
        {INT64_MAX, 0, INT64_MAX}, {0, INT64_MAX, -INT64_MAX}, {(uint64_t)INT64_MAX + 1, 0, INT64_MAX},
        {0, (uint64_t)INT64_MAX + 1, -INT64_MAX}, {UINT64_MAX, 0, INT64_MAX}, {0, UINT64_MAX, -INT64_MAX}};
    GIVES((uint64_t)ogr_trace_difference(whole_trace), (uint64_t)(2000 - 65535));
    for (size_t i = 0; i < sizeof totals / sizeof *totals; i++) {
        const struct ogr_trace trace = {1, {totals[i].first, 2}, {totals[i].second, 3}, {4, 5}, {6, 7}};
        GIVES((uint64_t)ogr_trace_difference(trace), (uint64_t)totals[i].less);
    }
}

#endif
