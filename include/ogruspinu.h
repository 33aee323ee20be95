/*
 * Ogruspinu: the clock arithmetic of a Zynq-7000, proved, for programs in C and C++.
 *
 * Link libarchive.a, which `rust/archive` writes to crates/archive/out/. It is for x86-64 Linux alone.
 *
 * Frequencies are whole Hertz in 32 bits, and every quotient is rounded down. A row of words is lent as a pointer and its length in
 * words. The pointer may be null where the length is 0; a row that is written must not overlap another of the same call.
 *
 * A call that can refuse returns 64 bits. ogr_number() of them is 0 for an answer, else the refusal's number. ogr_carried() of them is
 * what the refusal carries, 0 where it carries nothing. An answer stands at the front of the lent row `out`, and what lies behind it
 * stays as it was; of ogr_uart_list alone, which is lent records, ogr_carried() of an answer is how many there are. The calls of the PLL
 * sequence and ogr_trace_feed return a struct instead, whose `refusal` is 0 or the number. A struct goes in by value; the caller's own is
 * never changed.
 *
 * A refusal writes nothing. A row `out` that is too short is refused before anything else is looked at: OGR_NO_ROOM, which carries the
 * words needed. So `out_len` 0 asks how long a row has to be. ogr_gem looks at the row of clocks before that, and rows whose length
 * depends on what is asked (ogr_uart_list, ogr_pll_seq) have their own order.
 */
#ifndef OGRUSPINU_H
#define OGRUSPINU_H

#include <stdbool.h>
#include <stddef.h>
#include <stdint.h>

#ifdef __cplusplus
extern "C" {
#endif

/* The refusals, by the numbers of documents 01 and 02. */
enum ogr_refusal {
    OGR_BAD_IMAGE = 1,     /* the image is not OGR_IMAGE_WORDS long */
    OGR_DIVISOR_ZERO = 2,  /* a checked divisor field is 0; carries its ogr_module */
    OGR_OVERFLOW = 3,      /* crystal times FDIV of a PLL that is not bypassed does not fit 32 bits; carries OGR_MODULE_PLL */
    OGR_ZERO_INPUT = 4,    /* crystal 0 in a PLL setting by target */
    OGR_MUL_RANGE = 5,     /* the multiplier is not one of 13 to 66; carries it */
    OGR_ZERO_TARGET = 6,   /* the target is 0 */
    OGR_BAD_MAX = 7,       /* the largest divisor is 0 */
    OGR_NO_PAIR = 8,       /* no UART candidate exists */
    OGR_NO_ROOM = 9,       /* a lent row is too short; carries how many words or records are needed */
    OGR_SPEED = 10,        /* the I2C input is above 5632 times the frequency aimed at */
    OGR_LOCK_TIMEOUT = 11, /* the PLL is unlocked at the last allowed poll */
    OGR_BAD_LIMIT = 12,    /* the poll limit is 0 */
    OGR_ALREADY = 13,      /* a once-only PLL start is repeated */
    OGR_ZERO_CLOCK = 14,   /* the crystal is 0 where ratios are asked for */
    /* 15 to 17 are document 02's; no call here gives them yet. */
    OGR_BAD_SETTINGS = 15, /* a settings record breaks a rule; carries the offset */
    OGR_NEWER = 16,        /* a settings record of a later version */
    OGR_NOT_YOURS = 17,    /* a word that the party does not hold, or cannot claim */
    OGR_BAD_ROWS = 18,     /* rows of lengths that do not belong together */
    OGR_TRACE_LONG = 19,   /* a part would make its trace longer than OGR_MOST_SAMPLES samples */
    OGR_BAD_FIELD = 20     /* a number does not fit its field, or there is no such PLL or IO clock */
};

/* What OGR_DIVISOR_ZERO and OGR_OVERFLOW carry. The order of the checks is another: document 01's text. */
enum ogr_module {
    OGR_MODULE_PLL,
    OGR_MODULE_DDR,
    OGR_MODULE_ARM,
    OGR_MODULE_SMC,
    OGR_MODULE_QSPI,
    OGR_MODULE_SDIO,
    OGR_MODULE_UART,
    OGR_MODULE_SPI,
    OGR_MODULE_PCAP,
    OGR_MODULE_CAN,
    OGR_MODULE_FPGA,
    OGR_MODULE_TRACE,
    OGR_MODULE_GEM0,
    OGR_MODULE_GEM1
};

/* Where an evaluation's row has which clock, in Hertz but for the CPU's ratio and OGR_CLOCK_TRACE_EMIO. */
enum ogr_clock {
    OGR_CLOCK_ARM_PLL,
    OGR_CLOCK_IO_PLL,
    OGR_CLOCK_DDR_PLL,
    OGR_CLOCK_CPU_REF,   /* the ARM PLL's output, whatever the source field selects */
    OGR_CLOCK_CPU_RATIO, /* 0 is 4:2:1, 1 is 6:2:1 */
    OGR_CLOCK_CPU_1X,
    OGR_CLOCK_CPU_2X,
    OGR_CLOCK_CPU_3X2X,
    OGR_CLOCK_CPU_6X4X,
    OGR_CLOCK_DDR_REF,
    OGR_CLOCK_DDR_3X,
    OGR_CLOCK_DDR_2X,
    OGR_CLOCK_IO_REF,
    OGR_CLOCK_SMC,
    OGR_CLOCK_QSPI,
    OGR_CLOCK_SDIO,
    OGR_CLOCK_UART,
    OGR_CLOCK_SPI,
    OGR_CLOCK_CAN,
    OGR_CLOCK_PCAP,
    OGR_CLOCK_TRACE,      /* 0 where trace is EMIO's */
    OGR_CLOCK_TRACE_EMIO, /* 1 where trace is EMIO's: it has no clock then; else 0 */
    OGR_CLOCK_FPGA0,
    OGR_CLOCK_FPGA1,
    OGR_CLOCK_FPGA2,
    OGR_CLOCK_FPGA3,
    OGR_CLOCK_WORDS
};

/* The IO clocks that can be updated. */
enum ogr_io_clock {
    OGR_IO_SMC,
    OGR_IO_QSPI,
    OGR_IO_SDIO,
    OGR_IO_UART,
    OGR_IO_SPI,
    OGR_IO_CAN,
    OGR_IO_PCAP
};

/* The PLLs by number. */
enum ogr_pll { OGR_PLL_ARM, OGR_PLL_DDR, OGR_PLL_IO };

/* A PLL's mark: it was started by ogr_pll_start_once. */
#define OGR_MARK(pll) (UINT32_C(1) << (pll))

/* What the host is to do for a run of the PLL sequence. */
enum ogr_request {
    OGR_READ,
    OGR_WRITE,
    OGR_LOCKED, /* nothing more: the PLL is in use */
    OGR_NOTHING /* nothing more: the call refused */
};

/* How a recorded run ended. */
enum ogr_end {
    OGR_END_LOCKED,
    OGR_END_TIMED_OUT, /* every poll allowed was clear */
    OGR_END_STARVED    /* another word was to be read, and there was none */
};

/* What a run of the PLL sequence is to do. */
struct ogr_pll_plan {
    uint8_t pll;   /* an ogr_pll */
    bool bypassed; /* the chip was booted with its PLLs bypassed */
    uint8_t fdiv;
    uint8_t charge_pump;
    uint8_t loop_resistor;
    uint16_t lock_count;
    uint16_t polls; /* how many polls of the lock bit may be made; the last of them, if clear, is already OGR_LOCK_TIMEOUT */
};

/* A run between two steps. It is handed on as it came; one that was changed is a run like any other, or refused. */
struct ogr_pll_run {
    struct ogr_pll_plan plan; /* polls: those that are left */
    uint8_t done;             /* how many rows of document 01's sequence are done, at most 12 */
    uint32_t word;            /* what was last read or written */
};

/* What a start or a step gives. */
struct ogr_pll_step {
    uint32_t refusal; /* 0, or an ogr_refusal */
    uint32_t request; /* what the host is to do, an ogr_request */
    uint32_t number;  /* the image's word to be read or written, else 0 */
    uint32_t value;   /* what is to be written there, else 0 */
    struct ogr_pll_run run;
};

/* What a once-only start gives. */
struct ogr_pll_started {
    struct ogr_pll_step step;
    uint32_t marks; /* after the start; as given where it refused */
};

/* What a recorded run gives. */
struct ogr_pll_ran {
    uint32_t refusal; /* 0, or an ogr_refusal */
    uint32_t end;     /* an ogr_end; 0 where refused */
    size_t accesses;  /* how many were written to the rows; with OGR_NO_ROOM how long the rows have to be, else 0 where refused */
};

/* A channel of a trace. */
struct ogr_trace_channel {
    uint64_t total; /* ticks since the first sample */
    uint16_t last;  /* the last count */
};

/* The most ticks by which one channel was ahead of the other, at any sample. */
struct ogr_trace_lead {
    uint64_t ticks; /* 0 where it never was */
    uint32_t at;    /* the first sample at which it was so many, counted from 0 over the whole trace */
};

/* A trace so far: all zeros before its first part. It is kept, or stored, between two parts; every value of it is taken. */
struct ogr_trace {
    uint32_t samples;
    struct ogr_trace_channel first;
    struct ogr_trace_channel second;
    struct ogr_trace_lead first_leads;
    struct ogr_trace_lead second_leads;
};

/* What a part of a trace gives. */
struct ogr_trace_fed {
    uint32_t refusal;       /* 0, or an ogr_refusal */
    struct ogr_trace trace; /* for the next part; as given where refused */
};

/* Words of an image: word i is the SLCR register at offset 0x100 + 4i. */
#define OGR_IMAGE_WORDS 50

/* The PL clocks, and the numbers of a table of their ratios: OGR_RATIO(i, j) is where the numerator of clock i to clock j stands; the
 * denominator is the next. */
#define OGR_PL_CLOCKS 4
#define OGR_RATIO_NUMBERS 32
#define OGR_RATIO(i, j) (2 * (OGR_PL_CLOCKS * (i) + (j)))

/* The most viable baud pairs that there can be. */
#define OGR_MOST_BAUD_PAIRS 251

/* The most accesses that a recorded run can make: so many words read, and 6 writes. */
#define OGR_MOST_ACCESSES(reads_len) ((size_t)(reads_len) + 6)

/* The most samples of a trace. */
#define OGR_MOST_SAMPLES 16777216

/* The I2C bus: its nominal frequencies in Hertz, and those that ogr_i2c aims at. */
#define OGR_I2C_NORMAL_NOMINAL 100000
#define OGR_I2C_FAST_NOMINAL 400000
#define OGR_I2C_NORMAL_AIM 90000
#define OGR_I2C_FAST_AIM 384600

/* A UART pair: baud = reference / (cd * (bdiv + 1)), with the error as a fraction of the baud rate asked for. */
struct ogr_baud_divisors {
    uint16_t cd;
    uint8_t bdiv;
    float error;
};

/* 0 for an answer, else the refusal's number. */
static inline uint32_t ogr_number(uint64_t told) { return (uint32_t)told; }

/* What the refusal carries; of an answer of ogr_uart_list, how many pairs there are. */
static inline uint32_t ogr_carried(uint64_t told) { return (uint32_t)(told >> 32); }

/* ---- Two-stage dividers ---- */

/*
 * The divisors d0 and d1 from 1 to `largest` whose reference/(d0 d1) is nearest to `target`. Ties go to the smallest d0; then, if
 * any is not below the target, to the largest d1 of those, else to the smallest d1.
 * out: 2 words, d0 and d1.
 * Refusals: OGR_NO_ROOM (2); OGR_ZERO_TARGET; then OGR_BAD_MAX.
 */
uint64_t ogr_two_stage(uint32_t reference, uint32_t target, uint32_t largest, uint32_t *out, size_t out_len);

/* reference/(div0 div1), in Hertz; 0 where a divisor is 0. Refuses nothing. */
uint32_t ogr_two_stage_frequency(uint32_t reference, uint32_t div0, uint32_t div1);

/* ---- I2C ---- */

/*
 * The divisors a from 1 to 4 and b from 1 to 64 whose input/(22ab) is nearest to OGR_I2C_NORMAL_AIM, or to OGR_I2C_FAST_AIM if `fast`:
 * what the nominal frequency asks for. Ties go to the smaller a, then to the smaller b.
 * out: 2 words, the register values a-1 and b-1.
 * Refusals: OGR_NO_ROOM (2); OGR_SPEED.
 */
uint64_t ogr_i2c(uint32_t input, bool fast, uint32_t *out, size_t out_len);

/* The speed of two register values: input/(22 (div_a + 1) (div_b + 1)), in Hertz. Refuses nothing. */
uint32_t ogr_i2c_speed(uint32_t input, uint8_t div_a, uint8_t div_b);

/* ---- Triple timer counter ---- */

/*
 * The least k with reference/(2^k frequency) at most 65,535, and that quotient.
 * out: 2 words, k and the ticks. The prescaler is off where k is 0; its field is k-1 elsewhere.
 * Refusals: OGR_NO_ROOM (2); OGR_ZERO_TARGET.
 */
uint64_t ogr_ttc(uint32_t reference, uint32_t frequency, uint32_t *out, size_t out_len);

/* ---- PLL settings ---- */

/*
 * The manual's setting for a multiplier.
 * out: 4 words, FDIV, charge pump, resistor and lock count.
 * Refusals: OGR_NO_ROOM (4); OGR_MUL_RANGE, carrying the multiplier.
 */
uint64_t ogr_pll_mul(uint32_t multiplier, uint32_t *out, size_t out_len);

/*
 * The same for the multiplier target/crystal.
 * Refusals: OGR_NO_ROOM (4); OGR_ZERO_INPUT; OGR_MUL_RANGE, carrying the multiplier.
 */
uint64_t ogr_pll_target(uint32_t crystal, uint32_t target, uint32_t *out, size_t out_len);

/* ---- The PLL sequence ---- */

/*
 * Sets a PLL up and waits for its lock, one register access a step, for a host that has the registers. Nothing is lent: the run goes
 * in and comes back by value.
 *
 *     struct ogr_pll_step step = ogr_pll_start(plan);
 *     while (step.request == OGR_READ || step.request == OGR_WRITE) {
 *         uint32_t word = 0;
 *         if (step.request == OGR_READ)
 *             word = registers[step.number];
 *         else
 *             registers[step.number] = step.value;
 *         step = ogr_pll_step(step.run, word);
 *     }
 *     return step.refusal;
 *
 * Starts a run whatever was started before, marks nothing, and takes the first step: the first read is asked for.
 * Refusals: OGR_BAD_LIMIT for polls 0; OGR_BAD_FIELD for a PLL that is none of ogr_pll, FDIV over 127, charge pump or resistor over
 * 15, or lock count over 1023. A start that is refused asks for OGR_NOTHING, and its run, with `done` 255, is one that no step takes.
 */
struct ogr_pll_step ogr_pll_start(struct ogr_pll_plan plan);

/*
 * The same for a PLL that is not marked as started; it is from then on, even if the run times out. `marks` has the OGR_MARK of each PLL
 * that was started, and the marks that come back have this PLL's too. Any other bit is ignored and comes back as it was.
 * Refusals: those of ogr_pll_start; then OGR_ALREADY. None changes a mark.
 */
struct ogr_pll_started ogr_pll_start_once(struct ogr_pll_plan plan, uint32_t marks);

/*
 * The next step of a run, once the host has done what it was asked for. `word` is what it read; after a write it is ignored. After
 * OGR_LOCKED each step gives OGR_LOCKED again.
 * Refusals, which ask for OGR_NOTHING: OGR_LOCK_TIMEOUT at the last poll allowed if it is clear, and again at every step of the run that
 * comes back with it; OGR_BAD_FIELD for a run whose numbers no run has, which comes back as it was.
 */
struct ogr_pll_step ogr_pll_step(struct ogr_pll_run run, uint32_t word);

/*
 * The whole sequence, recorded over the words that the registers give when read, in their order. Nothing is marked as started, and what
 * was started before does not matter. A run that times out or starves is an answer here, told by `end`.
 * kinds, numbers, values: of each access OGR_READ or OGR_WRITE, the image's word, and the value read or written. The accesses stand at
 * the front of the rows, and what lies behind them stays.
 * Refusals: OGR_BAD_LIMIT and OGR_BAD_FIELD as in ogr_pll_start; then OGR_NO_ROOM where a row is shorter than
 * OGR_MOST_ACCESSES(reads_len), which `accesses` then is.
 */
struct ogr_pll_ran ogr_pll_seq(struct ogr_pll_plan plan, const uint32_t *reads, size_t reads_len, uint32_t *kinds, size_t kinds_len,
                               uint32_t *numbers, size_t numbers_len, uint32_t *values, size_t values_len);

/* ---- UART ---- */

/*
 * The pair with the least error for a baud rate, the first divider on a tie.
 * out: 3 words, the clock divisor, the baud divider and the bits of the error as a float.
 * Refusals: OGR_NO_ROOM (3); OGR_NO_PAIR.
 */
uint64_t ogr_uart(uint32_t reference, uint32_t baud, uint32_t *out, size_t out_len);

/*
 * Every pair with an error below half a percent, in rising order of the divider. ogr_carried() is how many there are; at most
 * OGR_MOST_BAUD_PAIRS. None is the answer 0. Records behind them stay as they were.
 * Refusals: OGR_NO_ROOM where there are more pairs than records, carrying how many pairs there are.
 */
uint64_t ogr_uart_list(uint32_t reference, uint32_t baud, struct ogr_baud_divisors *records, size_t records_len);

/* ---- Clocks ---- */

/*
 * Every clock that an image of the SLCR's clock registers gives. A PLL gives the crystal times its FDIV, or the crystal itself where it
 * is bypassed: where bit 4 of its control word is 1, whatever the other bits are.
 * out: OGR_CLOCK_WORDS words, as ogr_clock orders them.
 * Refusals: OGR_NO_ROOM (OGR_CLOCK_WORDS); OGR_BAD_IMAGE; OGR_DIVISOR_ZERO with OGR_MODULE_PLL; OGR_OVERFLOW; OGR_DIVISOR_ZERO with the
 * first module of Arm, Ddr, Smc, Qspi, Sdio, Uart, Spi, Pcap, Can, Trace, Fpga that has a divisor 0. An FDIV is checked under bypass too,
 * and Trace's divisor under EMIO.
 */
uint64_t ogr_clocks(uint32_t crystal, const uint32_t *image, size_t image_len, uint32_t *out, size_t out_len);

/*
 * The exact ratio of every two PL clocks. A clock is its PLL's output over both divisors, as ogr_clocks has it but for the rounding: with
 * outputs s and products of divisors p, clock i to clock j is s_i p_j to s_j p_i in lowest terms. The crystal cancels, so that an error of
 * its own is in no ratio. A clock to itself is 1 to 1, no number is 0, and none is over 504063 (127 times 63 times 63).
 * out: OGR_RATIO_NUMBERS numbers of 64 bits, numerator and denominator of clock 0 to clocks 0, 1, 2, 3, then of clock 1, and so on.
 * Refusals: OGR_NO_ROOM (OGR_RATIO_NUMBERS); those of ogr_clocks but its own OGR_NO_ROOM, in its order; OGR_ZERO_CLOCK.
 */
uint64_t ogr_ratios(uint32_t crystal, const uint32_t *image, size_t image_len, uint64_t *out, size_t out_len);

/*
 * The reference clock of Ethernet 0, or 1 if `second`: of a row that ogr_clocks filled, and of the controller's register word, which is
 * word 16 or 17 of an image.
 * out: 1 word, Hertz.
 * Refusals: OGR_NO_ROOM (OGR_CLOCK_WORDS) where the row of clocks is shorter than that; OGR_NO_ROOM (1); OGR_DIVISOR_ZERO with
 * OGR_MODULE_GEM0 or OGR_MODULE_GEM1.
 */
uint64_t ogr_gem(bool second, uint32_t word, const uint32_t *clocks, size_t clocks_len, uint32_t *out, size_t out_len);

/*
 * Sets one IO clock, an ogr_io_clock, in a row that ogr_clocks filled. No other word changes.
 * Refusals: OGR_NO_ROOM (OGR_CLOCK_WORDS); OGR_BAD_FIELD where there is no such IO clock.
 */
uint64_t ogr_io_update(uint32_t which, uint32_t hertz, uint32_t *clocks, size_t clocks_len);

/*
 * The CPU's clocks after its set-up from the ARM PLL's output: 6:2:1 if `six`, else 4:2:1. 2x and 3x2x are multiples of 1x here, as in
 * the original, and not quotients as in ogr_clocks.
 * out: 4 words, 1x, 2x, 3x2x and 6x4x.
 * Refusals: OGR_NO_ROOM (4); OGR_DIVISOR_ZERO with OGR_MODULE_ARM; OGR_BAD_FIELD for a divisor over 63.
 */
uint64_t ogr_cpu_init(uint32_t pll, bool six, uint32_t divisor, uint32_t *out, size_t out_len);

/*
 * The DDR's clocks after its set-up: the reference over each divisor.
 * out: 2 words, 3x and 2x.
 * Refusals: OGR_NO_ROOM (2); OGR_DIVISOR_ZERO with OGR_MODULE_DDR where either is 0; OGR_BAD_FIELD where either is over 63.
 */
uint64_t ogr_ddr_init(uint32_t reference, uint32_t div_3x, uint32_t div_2x, uint32_t *out, size_t out_len);

/* ---- Traces ---- */

/*
 * A part of a trace: the counts of two counters of 16 bits, such as two channels of a triple timer counter, read at the same moments.
 * The trace so far goes in and comes back, so that it may be fed in parts of any length; nothing depends on how it was cut.
 *
 *     struct ogr_trace trace = {0};
 *     while (more(&first, &second, &len)) {
 *         struct ogr_trace_fed fed = ogr_trace_feed(trace, first, len, second, len);
 *         if (fed.refusal != 0)
 *             return fed.refusal;
 *         trace = fed.trace;
 *     }
 *
 * A channel's total is the sum of the steps from each count to the next, modulo 65,536. It is the ticks that really passed wherever fewer
 * than 65,536 pass between neighbouring samples: so OGR_MOST_SAMPLES hold ten hours of clocks below 30.5 MHz, and a prescaler brings
 * a faster clock there (ogr_ttc). At each sample the first leads by its total less the second's, or by 0 where that is not positive, and
 * the second the other way round; at sample 0 both lead by 0. The greatest lead is kept with the first sample that reached it.
 *
 * A part of length 0 changes nothing. A state that no trace has is a state like any other: where `samples` is 0 the part's first counts are
 * steps from themselves, whatever `last` is, and the totals go on from those given, modulo 2 to the 64.
 * Refusals, after which the state is as it was given: OGR_BAD_ROWS where the rows differ in length; then OGR_TRACE_LONG where the samples
 * so far and those of the part are more than OGR_MOST_SAMPLES, of a part of length 0 too.
 */
struct ogr_trace_fed ogr_trace_feed(struct ogr_trace trace, const uint16_t *first, size_t first_len, const uint16_t *second,
                                    size_t second_len);

/*
 * The first total less the second. Totals that are further apart than 63 bits hold, which no trace can make, give the largest number with
 * its sign. Refuses nothing.
 */
int64_t ogr_trace_difference(struct ogr_trace trace);

#ifdef __cplusplus
}
#endif

#endif
