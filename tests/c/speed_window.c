/* The speed window: what is found at the edges and in random windows, by document 02 pair for pair; and that init sets it. */
#include "call.h"

#include "ch32_i2c_blocking.h"

#include <string.h>

#define MOST UINT32_MAX

struct pair {
    uint32_t factor, divider; /* 0, 0: none */
};

/* Input clock, window, and what is found in it. */
static const struct {
    uint32_t input, lowest, highest;
    struct pair found;
} edges[] = {
    {36000000, 95000, 100000, {2, 180}},
    {36000000, 100000, 100000, {2, 180}},
    {36000000, 400000, 400000, {3, 30}},
    {36000000, 100001, 100001, {0, 0}},
    {300003, 100001, 100001, {3, 1}},
    {300000, 100000, 100000, {0, 0}}, /* no speed of factor 3 */
    {600000, 100000, 100000, {0, 0}}, /* nor of factor 2 with divider 3 */
    {800000, 100000, 100000, {2, 4}},
    {1200000, 0, MOST, {3, 1}},
    {1200001, 0, MOST, {3, 2}},
    {1200003, 400001, 400001, {0, 0}},
    {81900000, 0, 10000, {2, 4095}},
    {81900001, 0, 10000, {0, 0}},
    {30000000, 400000, 400000, {3, 25}}, /* and not 25, 3 */
    {10000000, 400000, 400000, {25, 1}},
    {36000000, 387097, 399999, {0, 0}}, /* between two speeds */
    {36000000, 387096, 387097, {3, 31}},
    {0, 0, 0, {2, 4}},
    {0, 0, MOST, {2, 4}},
    {0, 1, MOST, {0, 0}},
    {36000000, 0, 0, {0, 0}},
    {MOST, 0, MOST, {3, 3580}},
    {MOST, 0, 100000, {0, 0}},
    {MOST, MOST, MOST, {0, 0}},
    {36000000, 100000, 95000, {0, 0}}, /* upside down */
    {36000000, MOST, 0, {0, 0}},
};

static uint64_t number_of(struct pair p)
{
    return p.factor == 0 ? ending(CH32_I2C_NO_SUCH_SPEED) : (uint64_t)p.divider << 16 | (uint64_t)p.factor << 32;
}

static int is_right(uint64_t input, uint64_t lowest, uint64_t highest, struct pair p)
{
    const uint64_t clocks = (uint64_t)p.factor * p.divider;
    if (lowest * clocks > input || input > highest * clocks)
        return 0;
    return p.factor == 2 ? input <= 100000 * clocks : 100000 * clocks < input && input <= 400000 * clocks;
}

/* Every pair is looked at; those of a smaller factor, and of a smaller divider, come first. */
static struct pair looked_for(uint32_t input, uint32_t lowest, uint32_t highest)
{
    static const uint32_t factors[] = {2, 3, 25};
    struct pair best = {0, 0};
    unsigned i;
    for (i = 0; i < 3; i++) {
        struct pair p = {factors[i], factors[i] == 2 ? 4 : 1};
        for (; p.divider <= 4095; p.divider++) {
            const int faster = (uint64_t)input * p.factor * p.divider < (uint64_t)input * best.factor * best.divider;
            if (is_right(input, lowest, highest, p) && (best.factor == 0 || faster))
                best = p;
        }
    }
    return best;
}

/* ---- what becomes of a pair ---- */

/* The word that init writes to CKCFGR, or 0x10000 times the number with which it refuses. */
static uint32_t set_by_init(uint8_t chip, uint32_t input, uint64_t found)
{
    uint8_t block[CH32_I2C_BLOCK_SIZE];
    uint32_t word = 0;
    uint64_t next = ch32_i2c_init_begin(block, sizeof block, chip, input, ch32_i2c_frequency_of(found, input), ch32_i2c_duty_of(found));
    if (ch32_i2c_kind_of(next) == CH32_I2C_KIND_END)
        return 0x10000u * ch32_i2c_end_of(next);
    for (; ch32_i2c_kind_of(next) != CH32_I2C_KIND_END; next = ch32_i2c_init_step(block, sizeof block, (uint16_t)chance(0x10000)))
        if (ch32_i2c_kind_of(next) == CH32_I2C_KIND_WRITE && ch32_i2c_register_of(next) == CH32_I2C_CKCFGR)
            word = ch32_i2c_value_of(next);
    return word;
}

static uint32_t word_of(uint8_t chip, uint32_t input, struct pair p)
{
    if (input == 0 || p.factor == 0)
        return 0x10000u * CH32_I2C_INVALID_FREQUENCY;
    if (chip & CH32_I2C_CHIP_CH32V4 && input < 4000000)
        return 0x10000u * CH32_I2C_INPUT_TOO_SLOW;
    return p.divider | (p.factor == 2 ? 0 : p.factor == 3 ? 0x8000u : 0xc000u);
}

static void find(uint32_t input, uint32_t lowest, uint32_t highest, struct pair wanted)
{
    const uint64_t found = ch32_i2c_speed_window(input, lowest, highest);
    unsigned chip;
    check(found == number_of(wanted), "%lu in %lu to %lu: got %#llx", (unsigned long)input, (unsigned long)lowest, (unsigned long)highest,
          (unsigned long long)found);
    check(ch32_i2c_divider_of(found) == wanted.divider && ch32_i2c_factor_of(found) == wanted.factor, "the pair taken apart");
    for (chip = 0; chip < 4; chip++)
        check(set_by_init((uint8_t)chip, input, found) == word_of((uint8_t)chip, input, wanted), "%lu in %lu to %lu: not set on chip %u",
              (unsigned long)input, (unsigned long)lowest, (unsigned long)highest, chip);
}

/* A window around a speed that some pair makes, or any. */
static void random_window(void)
{
    const uint32_t factor = chance(2) ? 2 : chance(2) ? 3 : 25, speed = factor == 2 ? 1 + chance(100000) : 100001 + chance(300000);
    const uint32_t most = MOST / (factor * speed), wide = chance(3) ? chance(3) : chance(speed);
    uint32_t input = factor * speed * (1 + chance(most < 4095 ? most : 4095)), lowest = speed - (wide < speed ? wide : speed);
    if (chance(4) == 0)
        input = chance(2) ? chance(MOST) : 1000000 * (1 + chance(144));
    find(input, lowest, speed, looked_for(input, lowest, speed));
}

/* What docs/USING.md says of pairs of factor 2 that were not found: the divider that init writes for them. */
static void set_as_told(uint32_t input, uint32_t divider, uint32_t frequency, uint32_t written)
{
    const uint64_t wanted = number_of((struct pair){2, divider});
    check(ch32_i2c_frequency_of(wanted, input) == frequency && set_by_init(CH32_I2C_CHIP_V3, input, wanted) == written,
          "%lu by 2 times %lu: not as told", (unsigned long)input, (unsigned long)divider);
}

/* All of them from one divider to another, at this input clock. */
static void all_set(uint32_t input, uint32_t first, uint32_t last)
{
    uint32_t divider;
    for (divider = first; divider <= last; divider++)
        if (set_by_init(CH32_I2C_CHIP_V3, input, number_of((struct pair){2, divider})) != divider)
            break;
    check(divider == last + 1, "%lu by 2 times %lu: not set", (unsigned long)input, (unsigned long)divider);
}

static void factor_2(void)
{
    set_as_told(8000000, 3999, 1001, 3997);
    set_as_told(1000000, 4095, 123, 4066);
    set_as_told(100, 45, 2, 25);
    all_set(1000000, 5, 707);
    all_set(33600000, 168, 4095);
}

/* ---- the one-line call ---- */

static void one_line(uint8_t chip, uint32_t input, uint32_t lowest, uint32_t highest, unsigned end, uint32_t word)
{
    uint16_t memory[18];
    struct ch32_i2c_port port = ch32_i2c_mapped_port(chip, (uintptr_t)memory);
    const uint64_t found = ch32_i2c_speed_window(input, lowest, highest);
    memset(memory, 0, sizeof memory);
    check(ch32_i2c_init_in_window(&port, input, lowest, highest) == end, "init in a window: another end than %u", end);
    check(memory[2 * CH32_I2C_CKCFGR] == word && (memory[2 * CH32_I2C_CTLR1] != 0) == (end == 0), "init in a window: CKCFGR is %#x",
          memory[2 * CH32_I2C_CKCFGR]);
    check(ch32_i2c_init_in_window_whole(&port, input, lowest, highest) == (end == 0 ? found : ending(end)), "init in a window: the whole end");
}

/* Numbers that are none of a window's have no pair. */
static void helpers(void)
{
    static const uint64_t others[] = {0x001400, 0x0002000401, 0x0003001e0502, 0x000300000003, 0x0019000403ull << 8};
    unsigned i;
    check(CH32_I2C_NO_SUCH_SPEED == 20, "20");
    for (i = 0; i < sizeof others / sizeof *others; i++)
        check(ch32_i2c_divider_of(others[i]) == 0 && ch32_i2c_factor_of(others[i]) == 0 && ch32_i2c_frequency_of(others[i], 36000000) == 0,
              "a pair in %#llx", (unsigned long long)others[i]);
    check(ch32_i2c_frequency_of(number_of((struct pair){3, 31}), 36000000) == 387097 && ch32_i2c_frequency_of(number_of((struct pair){2, 180}), 36000000) == 100000,
          "the frequency, rounded up");
    check(ch32_i2c_frequency_of(number_of((struct pair){2, 4}), 1) == 1 && ch32_i2c_frequency_of(number_of((struct pair){2, 4}), 0) == 0 &&
              ch32_i2c_frequency_of(number_of((struct pair){3, 3580}), MOST) == 399904,
          "the frequency of 1, 0 and the most");
    check(ch32_i2c_duty_of(number_of((struct pair){25, 1})) == CH32_I2C_DUTY_16_9 && ch32_i2c_duty_of(number_of((struct pair){3, 25})) == CH32_I2C_DUTY_2_1 &&
              ch32_i2c_duty_of(number_of((struct pair){2, 25})) == CH32_I2C_DUTY_2_1,
          "the duty");
}

void test_speed_window(void)
{
    unsigned i;
    for (i = 0; i < sizeof edges / sizeof *edges; i++) {
        const struct pair found = looked_for(edges[i].input, edges[i].lowest, edges[i].highest);
        check(found.factor == edges[i].found.factor && found.divider == edges[i].found.divider, "edge %u, pair for pair", i);
        find(edges[i].input, edges[i].lowest, edges[i].highest, edges[i].found);
    }
    for (i = 0; i < 100; i++)
        random_window();
    factor_2();
    one_line(CH32_I2C_CHIP_V3, 36000000, 95000, 100000, CH32_I2C_DONE, 0x00b4);
    one_line(CH32_I2C_CHIP_V3, 36000000, 360000, 360000, CH32_I2C_DONE, 0xc004);
    one_line(CH32_I2C_CHIP_CH32V4, 4000000, 300000, 400000, CH32_I2C_DONE, 0x8004);
    one_line(CH32_I2C_CHIP_V3, 36000000, 387097, 399999, CH32_I2C_NO_SUCH_SPEED, 0);
    one_line(CH32_I2C_CHIP_CH32V4, 3999999, 95000, 100000, CH32_I2C_INPUT_TOO_SLOW, 0);
    one_line(CH32_I2C_CHIP_PLAIN, 0, 0, 100000, CH32_I2C_INVALID_FREQUENCY, 0);
    helpers();
}
