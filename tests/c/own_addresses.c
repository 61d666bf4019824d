/* Own and second address of init_slave: every pair of seven bits at begin, and at a step on a block that says them. */
#include "call.h"

#include LAYOUT

#define NO_SECOND 0xffffu

static struct call c, tried, before;

/* What UM10204 reserves, by document 02. */
static int reserved(unsigned address) { return (address >= 0x01 && address <= 0x07) || (address >= 0x78 && address <= 0x7f); }

/* How begin has to refuse an own address of seven bits with a second, by documents 01 and 02; 0 where it has to take them. */
static unsigned refusal(unsigned own, unsigned second, unsigned general_call)
{
    if (own > 127 || (own == 0 && !general_call))
        return 9;
    if (second != NO_SECOND && second > 127)
        return 9;
    if (reserved(own))
        return 17;
    if (second != NO_SECOND && (second == 0 || reserved(second)))
        return 17;
    return 0;
}

static void configure(unsigned own, unsigned second, unsigned general_call)
{
    plain_call(&c, INIT_SLAVE);
    c.own = (uint16_t)own;
    c.has_second = second != NO_SECOND;
    c.second = (uint8_t)(second & 0xff);
    c.general_call = (uint8_t)general_call;
}

/* Begins: a refusal leaves every byte, and a call that is taken writes both addresses and is done after eight accesses. */
static void begins(unsigned own, unsigned second, unsigned general_call)
{
    unsigned number = refusal(own, second, general_call), accesses = 0;
    uint64_t next, first = 0, other = 0;
    configure(own, second, general_call);
    keep(&before, &c);
    next = begin(&c);
    if (number != 0) {
        check(next == ending(number), "own %#x, second %#x: wanted %u, got %#llx", own, second, number, (unsigned long long)next);
        check(same_bytes(&c, &before), "own %#x, second %#x: bytes changed", own, second);
        return;
    }
    for (; ch32_i2c_kind_of(next) != CH32_I2C_KIND_END && accesses < 20; accesses++) {
        if (ch32_i2c_register_of(next) == CH32_I2C_OADDR1)
            first = next;
        if (ch32_i2c_register_of(next) == CH32_I2C_OADDR2)
            other = next;
        next = step(&c, (uint16_t)chance(0x10000));
    }
    check(next == ending(0) && accesses == 8, "own %#x, second %#x: got %#llx", own, second, (unsigned long long)next);
    check(ch32_i2c_value_of(first) == 0x4000 + 2 * own, "own %#x: OADDR1 is %#x", own, ch32_i2c_value_of(first));
    check(ch32_i2c_value_of(other) == (second == NO_SECOND ? 0 : 2 * second + 1), "second %#x: OADDR2 is %#x", second, ch32_i2c_value_of(other));
}

/* A step on the block of `c` with other addresses is taken exactly if begin would take these. */
static void steps(unsigned own, unsigned second)
{
    uint64_t next;
    int taken = refusal(own, second, c.general_call) == 0;
    keep(&tried, &c);
    tried.block[own_address_byte] = (uint8_t)own;
    if (second != NO_SECOND)
        tried.block[second_address_byte] = (uint8_t)second;
    keep(&before, &tried);
    next = step(&tried, (uint16_t)chance(0x10000));
    check(taken == (next != ending(15)), "step, own %#x, second %#x: got %#llx", own, second, (unsigned long long)next);
    check(taken || same_bytes(&tried, &before), "step, own %#x, second %#x: bytes changed", own, second);
}

/* At every state of a call that was taken. */
static void step_everywhere(unsigned has_second, unsigned general_call)
{
    unsigned own, second;
    uint64_t next;
    configure(0x42, has_second ? 0x17 : NO_SECOND, general_call);
    for (next = begin(&c); ch32_i2c_kind_of(next) != CH32_I2C_KIND_END; next = step(&c, (uint16_t)chance(0x10000)))
        for (own = 0; own <= 128; own++) {
            if (!has_second)
                steps(own, NO_SECOND);
            for (second = 0; has_second && second <= 128; second++)
                steps(own, second);
        }
}

/* Ten bits: every address is taken, and none beside a second one. */
static void ten_bits(void)
{
    unsigned own;
    for (own = 0; own < 1024; own++) {
        configure(own, NO_SECOND, own % 2);
        c.ten_bit = 1;
        check(ch32_i2c_kind_of(begin(&c)) == CH32_I2C_KIND_READ, "own %#x of ten bits", own);
        configure(own, own % 128, own % 2);
        c.ten_bit = 1;
        check(begin(&c) == ending(9), "own %#x of ten bits with a second address", own);
    }
}

void test_own_addresses(void)
{
    unsigned own, second, general_call;
    for (general_call = 0; general_call < 2; general_call++) {
        for (own = 0; own < 128; own++) {
            begins(own, NO_SECOND, general_call);
            for (second = 0; second <= 128; second++)
                begins(own, second, general_call);
        }
        step_everywhere(0, general_call);
        step_everywhere(1, general_call);
    }
    ten_bits();
}
