/* For calls.c: the PLL sequence, recorded and a step at a time. */
#ifndef SEQUENCE_H
#define SEQUENCE_H

#include "check.h"

/* Kind, word, value. */
typedef uint32_t access[3];

/* A run that sees others' lock bits before its own, and one that never sees its own: what is read, and every access made. */
static const struct ogr_pll_plan locking = {OGR_PLL_DDR, true, 40, 2, 2, 250, 9};
static const uint32_t locking_reads[] = {UINT32_MAX, UINT32_MAX, UINT32_MAX, 0, 5, 2, 0x10};
static const access locking_log[] = {
    {0, 1, UINT32_MAX}, {1, 1, 0xFFFA8FFF}, {0, 5, UINT32_MAX}, {1, 5, 0xFFCFA22F}, {0, 1, UINT32_MAX},
    {1, 1, 0xFFFFFFF5}, {0, 1, 0}, {1, 1, 1}, {1, 1, 0}, {0, 3, 5}, {0, 3, 2}, {0, 1, 0x10}, {1, 1, 0}};
static const struct ogr_pll_plan clear = {OGR_PLL_ARM, false, 13, 2, 6, 750, 2};
static const uint32_t clear_reads[] = {0, 5, 2, 0x10, 6, 0, 1, 0};
static const access clear_log[] = {
    {0, 0, 0}, {1, 0, 0xD000}, {0, 4, 5}, {1, 4, 0x2EE265}, {0, 0, 2}, {1, 0, 0x10},
    {0, 0, 0x10}, {1, 0, 0x11}, {1, 0, 0x10}, {0, 3, 6}, {0, 3, 0}};
enum { LOCKING = 13, CLEAR = 11 };

/* Plans with one number each that does not fit, and one with none that does. */
static const struct ogr_pll_plan wide[] = {{OGR_PLL_IO, false, 128, 15, 15, 1023, 1}, {OGR_PLL_IO, false, 127, 16, 15, 1023, 1},
                                           {OGR_PLL_IO, false, 127, 15, 16, 1023, 1}, {OGR_PLL_IO, false, 127, 15, 15, 1024, 1},
                                           {3, false, 127, 15, 15, 1023, 1}, {255, true, 255, 255, 255, 65535, 65535}};
enum { WIDE = sizeof wide / sizeof *wide };
static const struct ogr_pll_plan no_polls = {3, false, 128, 16, 16, 1024, 0};
static const struct ogr_pll_plan widest = {OGR_PLL_IO, true, 127, 15, 15, 1023, 65535};

/* ---- Recorded ---- */

enum { ACCESSES = 20 };

/* The accesses wanted stand at the front of the three rows, and all behind them is blank. */
static void seq_is(struct place here, struct ogr_pll_plan plan, const uint32_t *reads, size_t reads_len, const size_t room[3],
                   struct ogr_pll_ran want, const access *log)
{
    uint32_t rows[3][ACCESSES];
    for (size_t i = 0; i < 3 * ACCESSES; i++)
        rows[i / ACCESSES][i % ACCESSES] = BLANK;
    const struct ogr_pll_ran got = ogr_pll_seq(plan, reads, reads_len, rows[0], room[0], rows[1], room[1], rows[2], room[2]);
    same(here, "ogr_pll_seq", "the refusal", got.refusal, want.refusal);
    same(here, "ogr_pll_seq", "the end", got.end, want.end);
    same(here, "ogr_pll_seq", "how many accesses there are", got.accesses, want.accesses);
    for (size_t i = 0; i < 3 * ACCESSES; i++) {
        const size_t at = i / 3, part = i % 3;
        same(here, "ogr_pll_seq", "the log", rows[part][at], log && at < want.accesses ? log[at][part] : BLANK);
    }
}

static struct ogr_pll_ran ran(enum ogr_end end, size_t accesses) { return (struct ogr_pll_ran){0, end, accesses}; }
static struct ogr_pll_ran not_ran(enum ogr_refusal why, size_t accesses) { return (struct ogr_pll_ran){why, 0, accesses}; }

static void pll_seq_locks(void)
{
    const size_t enough[] = {OGR_MOST_ACCESSES(7), 14, ACCESSES}, none[] = {0, 0, 0};
    seq_is(HERE, locking, locking_reads, 7, enough, ran(OGR_END_LOCKED, LOCKING), locking_log);
    seq_is(HERE, locking, locking_reads, 7, none, not_ran(OGR_NO_ROOM, 13), NULL);
    for (size_t i = 0; i < 3; i++) {
        size_t short_row[] = {13, 13, 13};
        short_row[i] = 12;
        seq_is(HERE, locking, locking_reads, 7, short_row, not_ran(OGR_NO_ROOM, 13), NULL);
    }
}

/* After two clear polls no more is read. Where the words end, so does the run; room is asked for as if it did not. */
static void pll_seq_does_not_lock(void)
{
    const size_t room[] = {14, 14, 14}, few[] = {13, 13, 13}, six[] = {6, 6, 6}, five[] = {6, 6, 5};
    seq_is(HERE, clear, clear_reads, 8, room, ran(OGR_END_TIMED_OUT, CLEAR), clear_log);
    seq_is(HERE, clear, clear_reads, 8, few, not_ran(OGR_NO_ROOM, 14), NULL);
    seq_is(HERE, clear, clear_reads, 5, room, ran(OGR_END_STARVED, 10), clear_log);
    seq_is(HERE, clear, clear_reads, 3, room, ran(OGR_END_STARVED, 6), clear_log);
    seq_is(HERE, clear, NULL, 0, six, ran(OGR_END_STARVED, 0), NULL);
    seq_is(HERE, clear, NULL, 0, five, not_ran(OGR_NO_ROOM, 6), NULL);
}

static void pll_seq_is_not_started(void)
{
    const size_t room[] = {13, 13, 13}, none[] = {0, 0, 0};
    for (size_t i = 0; i < WIDE; i++) {
        seq_is(HERE, wide[i], locking_reads, 7, room, not_ran(OGR_BAD_FIELD, 0), NULL);
        seq_is(HERE, wide[i], locking_reads, 7, none, not_ran(OGR_BAD_FIELD, 0), NULL);
    }
    seq_is(HERE, no_polls, locking_reads, 7, room, not_ran(OGR_BAD_LIMIT, 0), NULL);
    seq_is(HERE, no_polls, locking_reads, 7, none, not_ran(OGR_BAD_LIMIT, 0), NULL);
    seq_is(HERE, widest, locking_reads, 7, none, not_ran(OGR_NO_ROOM, 13), NULL);
}

/* ---- A step at a time ---- */

static void step_is(struct place here, const char *call, struct ogr_pll_step got, struct ogr_pll_step want)
{
    const struct ogr_pll_plan *g = &got.run.plan, *w = &want.run.plan;
    same(here, call, "the refusal", got.refusal, want.refusal);
    same(here, call, "the request", got.request, want.request);
    same(here, call, "the word's number", got.number, want.number);
    same(here, call, "the value", got.value, want.value);
    same(here, call, "the run's PLL", g->pll, w->pll);
    same(here, call, "the run's boot mode", g->bypassed, w->bypassed);
    same(here, call, "the run's FDIV", g->fdiv, w->fdiv);
    same(here, call, "the run's charge pump", g->charge_pump, w->charge_pump);
    same(here, call, "the run's resistor", g->loop_resistor, w->loop_resistor);
    same(here, call, "the run's lock count", g->lock_count, w->lock_count);
    same(here, call, "the polls left", g->polls, w->polls);
    same(here, call, "the rows done", got.run.done, want.run.done);
    same(here, call, "the run's word", got.run.word, want.run.word);
}

static struct ogr_pll_step nothing(enum ogr_refusal why, struct ogr_pll_run run)
{
    return (struct ogr_pll_step){why, OGR_NOTHING, 0, 0, run};
}

/* A start that asks for the first read, of the PLL's own word. */
static struct ogr_pll_step begun(struct ogr_pll_plan plan)
{
    return (struct ogr_pll_step){0, OGR_READ, plan.pll, 0, {plan, 1, 0}};
}

static struct ogr_pll_step not_begun(enum ogr_refusal why, struct ogr_pll_plan plan)
{
    return nothing(why, (struct ogr_pll_run){plan, 255, 0});
}

/* Does what a run asks for, access by access as in the log. After a write the word handed in is another than the one written. */
static struct ogr_pll_step stepped(struct place here, struct ogr_pll_step step, const access *log, size_t count)
{
    for (size_t i = 0; i < count; i++) {
        const bool write = log[i][0] == OGR_WRITE;
        same(here, "ogr_pll_step", "the refusal", step.refusal, 0);
        same(here, "ogr_pll_step", "the kind", step.request, log[i][0]);
        same(here, "ogr_pll_step", "the word's number", step.number, log[i][1]);
        same(here, "ogr_pll_step", "the value", step.value, write ? log[i][2] : 0);
        step = ogr_pll_step(step.run, write ? ~log[i][2] : log[i][2]);
    }
    return step;
}

/* After the end every step gives the end again, whatever word it is handed. */
static void ends_as(struct place here, struct ogr_pll_step end, struct ogr_pll_step want)
{
    step_is(here, "the last ogr_pll_step", end, want);
    step_is(here, "one ogr_pll_step more", ogr_pll_step(end.run, UINT32_MAX), want);
    step_is(here, "ogr_pll_step once more", ogr_pll_step(ogr_pll_step(end.run, 0).run, 1), want);
}

static void pll_steps(void)
{
    struct ogr_pll_plan left = locking;
    left.polls = 7;
    const struct ogr_pll_step start = ogr_pll_start(locking), end = {0, OGR_LOCKED, 0, 0, {left, 12, 0}};
    step_is(HERE, "ogr_pll_start", start, begun(locking));
    ends_as(HERE, stepped(HERE, start, locking_log, LOCKING), end);
}

static void pll_steps_time_out(void)
{
    struct ogr_pll_plan left = clear;
    left.polls = 0;
    const struct ogr_pll_step start = ogr_pll_start(clear);
    step_is(HERE, "ogr_pll_start", start, begun(clear));
    ends_as(HERE, stepped(HERE, start, clear_log, CLEAR), nothing(OGR_LOCK_TIMEOUT, (struct ogr_pll_run){left, 9, 0}));
}

/* What a refused start gives is no run, and no step makes one of it. */
static void pll_steps_from_no_run(void)
{
    const struct ogr_pll_run none = {no_polls, 255, 0}, marked = {widest, 255, 0};
    ends_as(HERE, ogr_pll_step(ogr_pll_start(no_polls).run, 0), nothing(OGR_BAD_FIELD, none));
    ends_as(HERE, ogr_pll_step(ogr_pll_start_once(widest, 7).step.run, 0), nothing(OGR_BAD_FIELD, marked));
}

/* A number that no run has is refused at each place, and comes back with the rest of the run as it was. */
static void pll_steps_from_forged_runs(void)
{
    const uint8_t done[] = {13, 64, 254, 255};
    for (size_t i = 0; i < WIDE; i++) {
        const struct ogr_pll_run forged = {wide[i], 3, 0x12345678};
        ends_as(HERE, ogr_pll_step(forged, 7), nothing(OGR_BAD_FIELD, forged));
    }
    for (size_t i = 0; i < sizeof done; i++) {
        const struct ogr_pll_run forged = {widest, done[i], BLANK};
        ends_as(HERE, ogr_pll_step(forged, 7), nothing(OGR_BAD_FIELD, forged));
    }
    const struct ogr_pll_run locked = {widest, 12, 0};
    ends_as(HERE, ogr_pll_step(locked, 7), (struct ogr_pll_step){0, OGR_LOCKED, 0, 0, locked});
}

/* ---- Starts ---- */

static void once_is(struct place here, struct ogr_pll_plan plan, uint32_t marks, struct ogr_pll_step want, uint32_t after)
{
    const struct ogr_pll_started got = ogr_pll_start_once(plan, marks);
    step_is(here, "ogr_pll_start_once", got.step, want);
    same(here, "ogr_pll_start_once", "the marks", got.marks, after);
}

/* A mark is set by an answer, stands in the way of the same PLL alone, and is looked at last. */
static void pll_starts_once(void)
{
    const struct ogr_pll_plan plan = {OGR_PLL_IO, false, 66, 2, 4, 250, 1};
    const uint32_t own = OGR_MARK(OGR_PLL_IO), others = OGR_MARK(OGR_PLL_ARM) | OGR_MARK(OGR_PLL_DDR), all = own | others;
    once_is(HERE, plan, 0, begun(plan), own);
    once_is(HERE, plan, others, begun(plan), all);
    once_is(HERE, plan, ~all, begun(plan), ~all | own);
    once_is(HERE, plan, own, not_begun(OGR_ALREADY, plan), own);
    once_is(HERE, plan, UINT32_MAX, not_begun(OGR_ALREADY, plan), UINT32_MAX);
    for (size_t i = 0; i < WIDE; i++)
        once_is(HERE, wide[i], all, not_begun(OGR_BAD_FIELD, wide[i]), all);
    once_is(HERE, no_polls, all, not_begun(OGR_BAD_LIMIT, no_polls), all);
    once_is(HERE, no_polls, ~all, not_begun(OGR_BAD_LIMIT, no_polls), ~all);
}

static void pll_starts_unchecked(void)
{
    step_is(HERE, "ogr_pll_start", ogr_pll_start(widest), begun(widest));
    for (size_t i = 0; i < WIDE; i++)
        step_is(HERE, "ogr_pll_start", ogr_pll_start(wide[i]), not_begun(OGR_BAD_FIELD, wide[i]));
    step_is(HERE, "ogr_pll_start", ogr_pll_start(no_polls), not_begun(OGR_BAD_LIMIT, no_polls));
}

#endif
