/* For calls.c and its headers: what a call has to tell, and what every word of the row that was lent to it has to be afterwards. */
#ifndef CHECK_H
#define CHECK_H

#include <inttypes.h>
#include <stdio.h>
#include <string.h>

#include "ogruspinu.h"

/* What a lent word holds before a call. */
#define BLANK UINT32_C(0xA5A55A5A)

/* Where a check stands. */
struct place {
    const char *file;
    int line;
};
#define HERE ((struct place){__FILE__, __LINE__})

enum { ROOM = 64 };
static uint32_t row[ROOM];
static int checks, failures;

static void same(struct place here, const char *call, const char *what, uint64_t got, uint64_t want)
{
    checks++;
    if (got == want)
        return;
    failures++;
    printf("%s:%d: %s: %s is %" PRIu64 " and should be %" PRIu64 "\n", here.file, here.line, call, what, got, want);
}

static void blank_row(void)
{
    for (size_t i = 0; i < ROOM; i++)
        row[i] = BLANK;
}

/* The words wanted stand at the front, and all behind them is blank. */
static void row_is(struct place here, const char *call, const uint32_t *want, size_t count)
{
    char what[24];
    for (size_t i = 0; i < ROOM; i++) {
        snprintf(what, sizeof what, "word %zu", i);
        same(here, call, what, row[i], i < count ? want[i] : BLANK);
    }
}

static void told(struct place here, const char *call, uint64_t got, uint32_t number, uint32_t carried)
{
    same(here, call, "the number", ogr_number(got), number);
    same(here, call, "what it carries", ogr_carried(got), carried);
}

/* A plain number. */
#define GIVES(call, want) same(HERE, #call, "the answer", (call), (want))

/* An answer: these words, and no others. */
#define ANSWERS(call, ...)                                                        \
    do {                                                                          \
        const uint32_t want_[] = {__VA_ARGS__};                                   \
        blank_row();                                                              \
        told(HERE, #call, (call), 0, 0);                                      \
        row_is(HERE, #call, want_, sizeof want_ / sizeof *want_);             \
    } while (0)

#define REFUSES(call, number, carried)                                            \
    do {                                                                          \
        blank_row();                                                              \
        told(HERE, #call, (call), (number), (carried));                       \
        row_is(HERE, #call, NULL, 0);                                         \
    } while (0)

/* Every row of fewer words than needed is refused; the call names its row's length `len`. */
#define NO_ROOM(needed, call)                                                     \
    do {                                                                          \
        for (size_t len = 0; len < (needed); len++)                               \
            REFUSES(call, OGR_NO_ROOM, (needed));                                 \
    } while (0)

#endif
