/* Calls every function of the archive from C: document 01's cases, each refusal with what it carries, rows too short, and words that
 * have to stay. */
#include "check.h"
#include "sequence.h"
#include "trace.h"

static void two_stage(void)
{
    ANSWERS(ogr_two_stage(1000000000, 12288000, 63, row, ROOM), 3, 27);
    ANSWERS(ogr_two_stage(8, 3, 4, row, 2), 1, 2);
    ANSWERS(ogr_two_stage(5, 1, 63, row, 2), 1, 5);
    ANSWERS(ogr_two_stage(10, 100, 63, row, 2), 1, 1);
    ANSWERS(ogr_two_stage(1000000, 1, 10, row, 2), 10, 10);
    ANSWERS(ogr_two_stage(0, 7, 9, row, 2), 1, 1);
    ANSWERS(ogr_two_stage(UINT32_MAX, 1, UINT32_MAX, row, 2), 1, UINT32_MAX);
    REFUSES(ogr_two_stage(5, 0, 63, row, ROOM), 6, 0);
    REFUSES(ogr_two_stage(5, 0, 0, row, ROOM), 6, 0);
    REFUSES(ogr_two_stage(5, 1, 0, row, ROOM), 7, 0);
    NO_ROOM(2, ogr_two_stage(8, 3, 4, row, len));
    NO_ROOM(2, ogr_two_stage(8, 0, 0, row, len));
    REFUSES(ogr_two_stage(8, 3, 4, NULL, 0), 9, 2);
    GIVES(ogr_two_stage_frequency(1000000000, 3, 27), 12345679);
    GIVES(ogr_two_stage_frequency(UINT32_MAX, 65536, 65536), 0);
    GIVES(ogr_two_stage_frequency(UINT32_MAX, 1, 1), UINT32_MAX);
    GIVES(ogr_two_stage_frequency(7, 0, 1), 0);
    GIVES(ogr_two_stage_frequency(7, 1, 0), 0);
}

static void i2c(void)
{
    ANSWERS(ogr_i2c(111111111, false, row, ROOM), 0, 55);
    ANSWERS(ogr_i2c(506880000, false, row, 2), 3, 63);
    REFUSES(ogr_i2c(506880001, false, row, 2), 10, 0);
    ANSWERS(ogr_i2c(2166067200, true, row, 2), 3, 63);
    REFUSES(ogr_i2c(2166067201, true, row, 2), 10, 0);
    NO_ROOM(2, ogr_i2c(111111111, false, row, len));
    NO_ROOM(2, ogr_i2c(UINT32_MAX, true, row, len));
    for (uint32_t a = 1; a <= 4; a++) {
        GIVES(ogr_i2c_speed(22 * a * 64 * OGR_I2C_NORMAL_AIM, (uint8_t)(a - 1), 63), OGR_I2C_NORMAL_AIM);
        GIVES(ogr_i2c_speed(22 * a * 64 * OGR_I2C_FAST_AIM, (uint8_t)(a - 1), 63), OGR_I2C_FAST_AIM);
    }
    GIVES(OGR_I2C_NORMAL_NOMINAL / 1000, 100);
    GIVES(OGR_I2C_FAST_NOMINAL / 1000, 400);
    GIVES(ogr_i2c_speed(111111111, 0, 55), 90187);
    GIVES(ogr_i2c_speed(22 * 256 * 256, 255, 255), 1);
    GIVES(ogr_i2c_speed(22 * 256 * 256 - 1, 255, 255), 0);
}

static void ttc(void)
{
    ANSWERS(ogr_ttc(UINT32_MAX, 1, row, ROOM), 16, 65535);
    ANSWERS(ogr_ttc(65535, 1, row, 2), 0, 65535);
    ANSWERS(ogr_ttc(65536, 1, row, 2), 1, 32768);
    ANSWERS(ogr_ttc(10, 11, row, 2), 0, 0);
    REFUSES(ogr_ttc(10, 0, row, 2), 6, 0);
    NO_ROOM(2, ogr_ttc(10, 11, row, len));
    NO_ROOM(2, ogr_ttc(10, 0, row, len));
}

static void pll_settings(void)
{
    ANSWERS(ogr_pll_mul(13, row, ROOM), 13, 2, 6, 750);
    ANSWERS(ogr_pll_mul(47, row, 4), 47, 3, 12, 250);
    ANSWERS(ogr_pll_mul(66, row, 4), 66, 2, 4, 250);
    REFUSES(ogr_pll_mul(12, row, 4), 5, 12);
    REFUSES(ogr_pll_mul(67, row, 4), 5, 67);
    REFUSES(ogr_pll_mul(UINT32_MAX, row, 4), 5, UINT32_MAX);
    NO_ROOM(4, ogr_pll_mul(13, row, len));
    NO_ROOM(4, ogr_pll_mul(12, row, len));
    ANSWERS(ogr_pll_target(33333333, 1333333320, row, ROOM), 40, 2, 2, 250);
    ANSWERS(ogr_pll_target(33333333, 1333333319, row, 4), 39, 2, 2, 250);
    REFUSES(ogr_pll_target(0, 5, row, 4), 4, 0);
    REFUSES(ogr_pll_target(1, UINT32_MAX, row, 4), 5, UINT32_MAX);
    REFUSES(ogr_pll_target(33333333, 0, row, 4), 5, 0);
    NO_ROOM(4, ogr_pll_target(33333333, 1333333320, row, len));
    NO_ROOM(4, ogr_pll_target(0, 5, row, len));
}

static void uart(void)
{
    ANSWERS(ogr_uart(48000, 9600, row, ROOM), 1, 4, 0);
    ANSWERS(ogr_uart(24000, 9600, row, 3), 1, 4, 0x3F000000);
    REFUSES(ogr_uart(23999, 9600, row, 3), 8, 0);
    REFUSES(ogr_uart(48000, 0, row, 3), 8, 0);
    NO_ROOM(3, ogr_uart(48000, 9600, row, len));
    NO_ROOM(3, ogr_uart(23999, 9600, row, len));
}

enum { RECORDS = 4 };
static struct ogr_baud_divisors records[RECORDS];

/* The pairs wanted stand at the front, and the records behind them are as they were lent. */
static void list_is(struct place here, uint32_t reference, uint32_t baud, size_t room, uint32_t number, uint32_t carried,
                    const struct ogr_baud_divisors *want, size_t count)
{
    const struct ogr_baud_divisors before = {0x5A5A, 0xA5, -1.0f};
    for (size_t i = 0; i < RECORDS; i++)
        records[i] = before;
    told(here, "ogr_uart_list", ogr_uart_list(reference, baud, records, room), number, carried);
    for (size_t i = 0; i < RECORDS; i++) {
        const struct ogr_baud_divisors *wanted = i < count ? &want[i] : &before;
        same(here, "ogr_uart_list", "cd", records[i].cd, wanted->cd);
        same(here, "ogr_uart_list", "bdiv", records[i].bdiv, wanted->bdiv);
        same(here, "ogr_uart_list", "the error", memcmp(&records[i].error, &wanted->error, sizeof(float)) == 0, true);
    }
}

static void uart_list(void)
{
    const struct ogr_baud_divisors exact[] = {{2, 4, 0.0f}, {1, 9, 0.0f}};
    const struct ogr_baud_divisors off[] = {{2, 4, 10.0f / 9600.0f}, {1, 9, 10.0f / 9600.0f}};
    list_is(HERE, 96000, 9600, 4, 0, 2, exact, 2);
    list_is(HERE, 96000, 9600, 2, 0, 2, exact, 2);
    list_is(HERE, 96100, 9600, 3, 0, 2, off, 2);
    list_is(HERE, 96000, 9600, 1, 9, 2, NULL, 0);
    list_is(HERE, 96000, 9600, 0, 9, 2, NULL, 0);
    list_is(HERE, 24000, 9600, 4, 0, 0, NULL, 0);
    list_is(HERE, 96000, 0, 0, 0, 0, NULL, 0);
}

static uint32_t image[OGR_IMAGE_WORDS + 1];

/* Every PLL times 1 and every divisor 1. */
static void plain_image(void)
{
    const size_t used[] = {8, 16, 17, 18, 19, 20, 21, 22, 23, 25, 26, 28, 32, 36, 40};
    memset(image, 0, sizeof image);
    image[0] = image[1] = image[2] = 0x1000;
    image[9] = 0x04100000;
    for (size_t i = 0; i < sizeof used / sizeof *used; i++)
        image[used[i]] = 0x00100100;
}

static void clocks(void)
{
    plain_image();
    ANSWERS(ogr_clocks(1000, image, 50, row, ROOM), 1000, 1000, 1000, 1000, 0, 250, 500, 500, 1000, 1000, 1000, 1000, 1000,
            1000, 1000, 1000, 1000, 1000, 1000, 1000, 1000, 0, 1000, 1000, 1000, 1000);
    REFUSES(ogr_clocks(1000, image, 49, row, 26), 1, 0);
    REFUSES(ogr_clocks(1000, image, 51, row, 26), 1, 0);
    REFUSES(ogr_clocks(1000, NULL, 0, row, 26), 1, 0);
    NO_ROOM(26, ogr_clocks(1000, image, 50, row, len));
    NO_ROOM(26, ogr_clocks(1000, image, 49, row, len));
    image[0] = 0x2000;
    image[1] = 0x3000;
    image[2] = 0x5000;
    image[8] = 0x00000230;
    image[23] = 0x00300220;
    image[25] = 0x00000170;
    image[28] = 0x01B00300;
    image[36] = 0x00200130;
    image[49] = 1;
    ANSWERS(ogr_clocks(100, image, 50, row, 26), 200, 500, 300, 200, 1, 41, 83, 125, 250, 300, 300, 300, 500,
            500, 500, 500, 500, 500, 33, 500, 0, 1, 6, 500, 150, 500);
    plain_image();
    image[28] = 0x01B00300;
    blank_row();
    GIVES(ogr_clocks(1000000000, image, 50, row, 26), 0);
    GIVES(row[OGR_CLOCK_FPGA0], 12345679);
    image[1] = 127 << 12;
    GIVES(ogr_clocks(33818640, image, 50, row, 26), 0);
    GIVES(row[OGR_CLOCK_DDR_2X], 4294967280);
    REFUSES(ogr_clocks(33818641, image, 50, row, 26), 3, 0);
}

/* Bit 4 of a PLL's word bypasses it, and it alone: the crystal comes out, and no crystal is too large. FDIV 0 is refused all the same. */
static void bypassed_plls(void)
{
    uint32_t clocks[OGR_CLOCK_WORDS];
    plain_image();
    image[0] = 0x2010;
    GIVES(ogr_clocks(1, image, 50, row, 26), 0);
    GIVES(row[OGR_CLOCK_ARM_PLL], 1);
    image[0] = 2 << 12 | 0x0B;
    image[1] = 3 << 12 | 0x10;
    image[2] = 5 << 12;
    ANSWERS(ogr_clocks(100, image, 50, row, 26), 200, 500, 100, 200, 0, 50, 100, 100, 200, 100, 100, 100, 500,
            500, 500, 500, 500, 500, 500, 500, 500, 0, 500, 500, 500, 500);
    GIVES(ogr_clocks(100, image, 50, clocks, OGR_CLOCK_WORDS), 0);
    ANSWERS(ogr_gem(false, 0x00100130, clocks, OGR_CLOCK_WORDS, row, 1), 100);
    for (size_t pll = 0; pll < 3; pll++) {
        plain_image();
        image[pll] = 127 << 12;
        REFUSES(ogr_clocks(UINT32_MAX, image, 50, row, 26), 3, 0);
        image[pll] |= 0x10;
        GIVES(ogr_clocks(UINT32_MAX, image, 50, row, 26), 0);
        GIVES(row[OGR_CLOCK_ARM_PLL], UINT32_MAX);
        GIVES(row[OGR_CLOCK_IO_PLL], UINT32_MAX);
        GIVES(row[OGR_CLOCK_DDR_PLL], UINT32_MAX);
        image[pll] = 0x10;
        REFUSES(ogr_clocks(1000, image, 50, row, 26), 2, OGR_MODULE_PLL);
    }
}

/* Zeros come in from the last checked field to the first, and each one takes the blame from those after it. */
static void zero_divisors(void)
{
    static const struct { uint8_t word, bit, module; } fields[] = {
        {40, 20, 10}, {40, 8, 10}, {36, 20, 10}, {36, 8, 10}, {32, 20, 10}, {32, 8, 10}, {28, 20, 10}, {28, 8, 10},
        {25, 8, 11}, {23, 20, 9}, {23, 8, 9}, {26, 8, 8}, {22, 8, 7}, {21, 8, 6}, {20, 8, 5}, {19, 8, 4}, {18, 8, 3},
        {9, 26, 1}, {9, 20, 1}, {8, 8, 2}};
    plain_image();
    image[25] |= 0x40;
    for (size_t i = 0; i < sizeof fields / sizeof *fields; i++) {
        image[fields[i].word] &= ~(UINT32_C(63) << fields[i].bit);
        REFUSES(ogr_clocks(1000, image, 50, row, 26), 2, fields[i].module);
    }
    image[0] = 2 << 12;
    REFUSES(ogr_clocks(UINT32_MAX, image, 50, row, 26), 3, 0);
    image[1] = 0;
    REFUSES(ogr_clocks(UINT32_MAX, image, 50, row, 26), 2, 0);
}

/* Sources and divisors that differ: 5 over 81, 3 over 1, 2 over 6, 2 over 6. One to one on the diagonal, turned round across it, and the
 * crystal in none. */
static void ratios(void)
{
    static const uint64_t right[OGR_RATIO_NUMBERS] = {1, 1, 5, 243, 5, 27, 5, 27, 243, 5, 1, 1, 9, 1, 9, 1,
                                                      27, 5, 1, 9, 1, 1, 1, 1, 27, 5, 1, 9, 1, 1, 1, 1};
    uint64_t table[OGR_RATIO_NUMBERS + 1];
    plain_image();
    image[0] = 2 << 12;
    image[1] = 3 << 12;
    image[2] = 5 << 12;
    image[28] = 0x01B00300;
    image[32] = 0x00100130;
    image[36] = 0x00200320;
    image[40] = 0x00300220;
    for (uint32_t crystal = 1; crystal <= UINT32_MAX / 5; crystal = crystal * 8 + 1) {
        memset(table, 0xA5, sizeof table);
        GIVES(ogr_ratios(crystal, image, 50, table, OGR_RATIO_NUMBERS + 1), 0);
        GIVES(memcmp(table, right, sizeof right), 0);
        GIVES(table[OGR_RATIO_NUMBERS], UINT64_C(0xA5A5A5A5A5A5A5A5));
    }
    GIVES(table[OGR_RATIO(2, 0)], 27);
    GIVES(table[OGR_RATIO(2, 0) + 1], 5);
    /* bypassed, a PLL gives the crystal: now FPGA 1 to FPGA 0 is 1 over 1 to 5 over 81 */
    image[1] |= 0x10;
    GIVES(ogr_ratios(1, image, 50, table, OGR_RATIO_NUMBERS), 0);
    GIVES(table[OGR_RATIO(1, 0)], 81);
    GIVES(table[OGR_RATIO(1, 0) + 1], 5);

    memset(table, 0xA5, sizeof table);
    for (size_t len = 0; len < OGR_RATIO_NUMBERS; len++)
        GIVES(ogr_ratios(0, NULL, 0, table, len), 9 | (uint64_t)OGR_RATIO_NUMBERS << 32);
    GIVES(ogr_ratios(0, image, 49, table, OGR_RATIO_NUMBERS), 1);
    GIVES(ogr_ratios(UINT32_MAX, image, 50, table, OGR_RATIO_NUMBERS), 3);
    GIVES(ogr_ratios(0, image, 50, table, OGR_RATIO_NUMBERS), 14);
    image[40] = 0x00300020;
    GIVES(ogr_ratios(0, image, 50, table, OGR_RATIO_NUMBERS), 2 | (uint64_t)OGR_MODULE_FPGA << 32);
    for (size_t i = 0; i <= OGR_RATIO_NUMBERS; i++)
        GIVES(table[i], UINT64_C(0xA5A5A5A5A5A5A5A5));
}

/* Of a row whose PLLs give 200, 300 and 100: the source's PLL over both divisors, whatever EMIO's bit is. */
static void gem(void)
{
    const struct { uint32_t word, hertz; } words[] = {
        {0x00200300, 16}, {0x00200310, 16}, {0x00200320, 33}, {0x00200330, 50}, {0x00200360, 33}, {0x03F03F20, 0}, {0xFC1FC10F, 100}};
    uint32_t clocks[OGR_CLOCK_WORDS];
    plain_image();
    image[0] = 0x2000;
    image[1] = 0x3000;
    GIVES(ogr_clocks(100, image, 50, clocks, OGR_CLOCK_WORDS), 0);
    for (size_t i = 0; i < sizeof words / sizeof *words; i++) {
        ANSWERS(ogr_gem(false, words[i].word, clocks, OGR_CLOCK_WORDS, row, 1), words[i].hertz);
        ANSWERS(ogr_gem(true, words[i].word, clocks, OGR_CLOCK_WORDS, row, ROOM), words[i].hertz);
    }
    REFUSES(ogr_gem(false, 0x00200020, clocks, OGR_CLOCK_WORDS, row, 1), 2, OGR_MODULE_GEM0);
    REFUSES(ogr_gem(true, 0x00000100, clocks, OGR_CLOCK_WORDS, row, 1), 2, OGR_MODULE_GEM1);
    NO_ROOM(1, ogr_gem(false, 0x00200320, clocks, OGR_CLOCK_WORDS, row, len));
    NO_ROOM(1, ogr_gem(true, 0, clocks, OGR_CLOCK_WORDS, row, len));
    NO_ROOM(OGR_CLOCK_WORDS, ogr_gem(false, 0x00200320, clocks, len, row, 1));
    NO_ROOM(OGR_CLOCK_WORDS, ogr_gem(true, 0, clocks, len, row, 0));
    REFUSES(ogr_gem(true, 0, NULL, 0, NULL, 0), OGR_NO_ROOM, OGR_CLOCK_WORDS);
}

static void io_update(void)
{
    const uint32_t first = OGR_CLOCK_SMC;
    for (uint32_t which = OGR_IO_SMC; which <= OGR_IO_PCAP; which++) {
        uint32_t want[OGR_CLOCK_WORDS];
        for (size_t i = 0; i < OGR_CLOCK_WORDS; i++)
            want[i] = i == first + which ? 77 : BLANK;
        blank_row();
        told(HERE, "ogr_io_update", ogr_io_update(which, 77, row, OGR_CLOCK_WORDS), 0, 0);
        row_is(HERE, "ogr_io_update", want, OGR_CLOCK_WORDS);
    }
    REFUSES(ogr_io_update(7, 77, row, 26), 20, 0);
    REFUSES(ogr_io_update(UINT32_MAX, 77, row, 26), 20, 0);
    NO_ROOM(26, ogr_io_update(OGR_IO_UART, 77, row, len));
    NO_ROOM(26, ogr_io_update(7, 77, row, len));
}

static void set_up(void)
{
    ANSWERS(ogr_cpu_init(1333333320, true, 2, row, ROOM), 111111110, 222222220, 333333330, 666666660);
    ANSWERS(ogr_cpu_init(1000, false, 3, row, 4), 83, 166, 166, 333);
    ANSWERS(ogr_cpu_init(UINT32_MAX, false, 1, row, 4), 1073741823, 2147483646, 2147483646, UINT32_MAX);
    REFUSES(ogr_cpu_init(1000, true, 0, row, 4), 2, 2);
    REFUSES(ogr_cpu_init(1000, true, 64, row, 4), 20, 0);
    NO_ROOM(4, ogr_cpu_init(1000, true, 1, row, len));
    NO_ROOM(4, ogr_cpu_init(1000, true, 0, row, len));
    ANSWERS(ogr_ddr_init(1000, 2, 3, row, ROOM), 500, 333);
    ANSWERS(ogr_ddr_init(UINT32_MAX, 63, 1, row, 2), 68174084, UINT32_MAX);
    REFUSES(ogr_ddr_init(1000, 0, 64, row, 2), 2, 1);
    REFUSES(ogr_ddr_init(1000, 64, 0, row, 2), 2, 1);
    REFUSES(ogr_ddr_init(1000, 64, 1, row, 2), 20, 0);
    REFUSES(ogr_ddr_init(1000, 1, 64, row, 2), 20, 0);
    NO_ROOM(2, ogr_ddr_init(1000, 2, 3, row, len));
    NO_ROOM(2, ogr_ddr_init(1000, 0, 64, row, len));
}

int main(void)
{
    void (*const all[])(void) = {two_stage, i2c, ttc, pll_settings, pll_seq_locks, pll_seq_does_not_lock,
                                 pll_seq_is_not_started, pll_steps, pll_steps_time_out, pll_steps_from_no_run, pll_steps_from_forged_runs,
                                 pll_starts_once, pll_starts_unchecked, uart, uart_list, clocks, bypassed_plls, zero_divisors, ratios, gem,
                                 io_update, set_up, trace_in_parts, trace_refused, trace_forged, trace_difference};
    for (size_t i = 0; i < sizeof all / sizeof *all; i++)
        all[i]();
    printf("calls.c: %d checks, %d failed\n", checks, failures);
    return failures != 0;
}
