/* ch32_i2c_is_critical: in which accesses of whole calls it says 1, and that every other block gives 0. */
#include "call.h"

#include <string.h>

static struct call c;

/* Every flag at the first look, and this master made the START. */
static uint16_t calm_answer(uint64_t next)
{
    if (ch32_i2c_kind_of(next) != CH32_I2C_KIND_READ)
        return 0;
    switch (ch32_i2c_register_of(next)) {
    case CH32_I2C_STAR1:
        return 0x00c7; /* TXE, RXNE, BTF, ADDR, SB */
    case CH32_I2C_STAR2:
        return 0x0001; /* MSL */
    default:
        return 0;
    }
}

static char letter(uint64_t next)
{
    const int written = ch32_i2c_kind_of(next) == CH32_I2C_KIND_WRITE;
    switch (ch32_i2c_register_of(next)) {
    case CH32_I2C_CTLR1:
        return written ? 'C' : 'c';
    case CH32_I2C_STAR2:
        return 's';
    case CH32_I2C_DATAR:
        return 'd';
    default:
        return '?';
    }
}

/* The accesses with 1, as letters, with a space where others lie between. c and C: CTLR1 read and written; s STAR2; d DATAR. */
static void sections(const char *name, const char *wanted)
{
    char seen[64];
    size_t count = 0;
    uint64_t next;
    for (next = begin(&c); ch32_i2c_kind_of(next) != CH32_I2C_KIND_END; next = step(&c, calm_answer(next))) {
        const uint64_t critical = ch32_i2c_is_critical(c.block, c.block_length);
        check(critical <= 1, "%s: neither 0 nor 1", name);
        if (critical && count < sizeof seen - 1)
            seen[count++] = letter(next);
        else if (count && seen[count - 1] != ' ' && count < sizeof seen - 1)
            seen[count++] = ' ';
    }
    while (count && seen[count - 1] == ' ')
        count--;
    seen[count] = 0;
    check(next == 0, "%s: ends with 0", name);
    check(strcmp(seen, wanted) == 0, "%s: interrupts held off at '%s', not at '%s'", name, seen, wanted);
    check(ch32_i2c_is_critical(c.block, c.block_length) == 0, "%s: held off behind the end", name);
}

static void read_frame(const char *name, uint8_t option, size_t length, const char *wanted)
{
    plain_call(&c, READ);
    c.option = option;
    c.read_length = length;
    sections(name, wanted);
}

/* As blocking_read_iter has it: behind ADDR, and around the last two bytes. */
static void whole_calls(void)
{
    int e;
    read_frame("one byte", CH32_I2C_FIRST_AND_LAST_FRAME, 1, "cCscC");
    read_frame("two bytes", CH32_I2C_FIRST_AND_LAST_FRAME, 2, "cCs cCdd");
    read_frame("three bytes", CH32_I2C_FIRST_AND_LAST_FRAME, 3, "s cCdd");
    read_frame("nine bytes", CH32_I2C_FIRST_AND_LAST_FRAME, 9, "s cCdd");
    read_frame("one byte, START behind it", CH32_I2C_FIRST_FRAME, 1, "cCscC");
    read_frame("two bytes, START behind them", CH32_I2C_FIRST_FRAME, 2, "cCs cCdd");
    read_frame("two bytes without NACK", CH32_I2C_FIRST_AND_NEXT_FRAME, 2, "s");
    read_frame("two bytes in between", CH32_I2C_NEXT_FRAME, 2, "");
    read_frame("one byte without START", CH32_I2C_LAST_FRAME, 1, "");
    read_frame("four bytes without START", CH32_I2C_LAST_FRAME, 4, "cCdd");
    plain_call(&c, WRITE_READ);
    c.written_length = 2;
    c.read_length = 6;
    sections("write-read", "s cCdd");
    plain_call(&c, TRANSACTION);
    c.list_length = 0;
    c.written_length = 1;
    c.read_length = 4;
    add_operation(&c, CH32_I2C_DIRECTION_READ, 1);
    add_operation(&c, CH32_I2C_DIRECTION_WRITE, 1);
    add_operation(&c, CH32_I2C_DIRECTION_READ, 3);
    c.written_length = 1;
    c.read_length = 4;
    sections("transaction", "cCscC s cCdd");
    plain_call(&c, WRITE);
    c.written_length = 3;
    sections("write", "");
    for (e = 0; e < ENTRIES; e++) /* calls without runs have no section */
        if (e == INIT || e == INIT_SLAVE) {
            plain_call(&c, (enum entry)e);
            sections(entry_names[e], "");
        }
}

/* A block that says 1, with one thing changed. */
static void other_blocks(void)
{
    uint8_t block[CH32_I2C_BLOCK_SIZE + 1];
    uint64_t next;
    size_t length;
    plain_call(&c, READ);
    c.read_length = 2;
    for (next = begin(&c); !ch32_i2c_is_critical(c.block, c.block_length); next = step(&c, calm_answer(next)))
        if (!check(ch32_i2c_kind_of(next) != CH32_I2C_KIND_END, "a read has a section"))
            return;
    memcpy(block, c.block, CH32_I2C_BLOCK_SIZE);
    for (length = 0; length <= sizeof block; length++)
        check(ch32_i2c_is_critical(block, length) == (length == CH32_I2C_BLOCK_SIZE), "a block of %lu bytes", (unsigned long)length);
    check(ch32_i2c_is_critical(NULL, 0) == 0, "no block");
    for (length = 0; length < 256; length++) {
        block[0] = (uint8_t)length; /* the entry: a transaction or a write-read may hold the same state; so may a write frame's block say so */
        check(ch32_i2c_is_critical(block, CH32_I2C_BLOCK_SIZE) == (length >= 2 && length <= 5), "entry %lu", (unsigned long)length);
    }
    memcpy(block, c.block, CH32_I2C_BLOCK_SIZE);
    for (length = 21; length < 32; length++) {
        const size_t byte = length == 21 ? 7 : length; /* an end that is known already, and bytes that no transfer uses */
        block[byte] = 1;
        check(ch32_i2c_is_critical(block, CH32_I2C_BLOCK_SIZE) == 0, "byte %lu is used", (unsigned long)byte);
        block[byte] = 0;
    }
    memset(block, 0, sizeof block);
    check(ch32_i2c_is_critical(block, CH32_I2C_BLOCK_SIZE) == 0, "a block of zeros");
}

void test_critical(void)
{
    whole_calls();
    other_blocks();
}
