#include "call.h"

#include <stdarg.h>
#include <stdio.h>
#include <stdlib.h>
#include <string.h>

const char *const entry_names[ENTRIES] = {"init",       "transaction", "write_read",       "write",          "read",
                                          "init_slave", "listen",      "respond_to_write", "respond_to_read"};

static uint32_t seed = 1;

uint32_t chance(uint32_t below)
{
    seed ^= seed << 13;
    seed ^= seed >> 17;
    seed ^= seed << 5;
    return seed % below;
}

void add_operation(struct call *c, unsigned direction, uint16_t length)
{
    c->list_length = ch32_i2c_put_operation(c->list, c->list_length, direction, length);
}

void plain_call(struct call *c, enum entry entry)
{
    size_t i;
    memset(c, 0, sizeof *c);
    c->entry = entry;
    c->block_length = CH32_I2C_BLOCK_SIZE;
    for (i = 0; i < sizeof c->block; i++)
        c->block[i] = (uint8_t)(0xa5 + 7 * i);
    c->chip = CH32_I2C_CHIP_V3_CH32V4;
    c->address = 0x21;
    c->input = 36000000;
    c->frequency = 100000;
    c->own = 0x42;
    c->second = 0x17;
    c->clock_stretching = 1;
    for (i = 0; i < ROOM; i++) {
        c->written[i] = (uint8_t)(0x31 + i);
        c->read[i] = (uint8_t)(0xe0 - i);
    }
    c->written_length = 2;
    c->read_length = 5;
    add_operation(c, CH32_I2C_DIRECTION_WRITE, 2);
    add_operation(c, CH32_I2C_DIRECTION_READ, 1);
    add_operation(c, CH32_I2C_DIRECTION_READ, 4);
}

uint64_t begin(struct call *c)
{
    switch (c->entry) {
    case INIT:
        return ch32_i2c_init_begin(c->block, c->block_length, c->chip, c->input, c->frequency, c->duty);
    case TRANSACTION:
        return ch32_i2c_transaction_begin(c->block, c->block_length, c->chip, c->address, c->list, c->list_length, c->written,
                                          c->written_length, c->read, c->read_length);
    case WRITE_READ:
        return ch32_i2c_write_read_begin(c->block, c->block_length, c->chip, c->address, c->written, c->written_length, c->read,
                                         c->read_length);
    case WRITE:
        return ch32_i2c_write_begin(c->block, c->block_length, c->chip, c->address, c->option, c->written, c->written_length);
    case READ:
        return ch32_i2c_read_begin(c->block, c->block_length, c->chip, c->address, c->option, c->read, c->read_length);
    case INIT_SLAVE:
        return ch32_i2c_init_slave_begin(c->block, c->block_length, c->ten_bit, c->own, c->has_second, c->second, c->general_call,
                                         c->clock_stretching);
    case LISTEN:
        return ch32_i2c_listen_begin(c->block, c->block_length, c->chip);
    case RESPOND_TO_WRITE:
        return ch32_i2c_respond_to_write_begin(c->block, c->block_length, c->chip, c->read, c->read_length);
    default:
        return ch32_i2c_respond_to_read_begin(c->block, c->block_length, c->chip, c->written, c->written_length);
    }
}

uint64_t step(struct call *c, uint16_t answer)
{
    switch (c->entry) {
    case INIT:
        return ch32_i2c_init_step(c->block, c->block_length, answer);
    case TRANSACTION:
        return ch32_i2c_transaction_step(c->block, c->block_length, c->list, c->list_length, c->written, c->written_length, c->read,
                                         c->read_length, answer);
    case WRITE_READ:
        return ch32_i2c_write_read_step(c->block, c->block_length, c->written, c->written_length, c->read, c->read_length, answer);
    case WRITE:
        return ch32_i2c_write_step(c->block, c->block_length, c->written, c->written_length, answer);
    case READ:
        return ch32_i2c_read_step(c->block, c->block_length, c->read, c->read_length, answer);
    case INIT_SLAVE:
        return ch32_i2c_init_slave_step(c->block, c->block_length, answer);
    case LISTEN:
        return ch32_i2c_listen_step(c->block, c->block_length, answer);
    case RESPOND_TO_WRITE:
        return ch32_i2c_respond_to_write_step(c->block, c->block_length, c->read, c->read_length, answer);
    default:
        return ch32_i2c_respond_to_read_step(c->block, c->block_length, c->written, c->written_length, answer);
    }
}

/* The guards lie behind the lengths, so they are copied and compared with them. */
void keep(struct call *to, const struct call *from)
{
    memcpy(to, from, offsetof(struct call, list));
    memcpy(to->list, from->list, from->list_length + GUARD);
    memcpy(to->written, from->written, from->written_length + GUARD);
    memcpy(to->read, from->read, from->read_length + GUARD);
    to->list_length = from->list_length;
    to->written_length = from->written_length;
    to->read_length = from->read_length;
}

int same_bytes(const struct call *a, const struct call *b)
{
    return memcmp(a->block, b->block, sizeof a->block) == 0 && memcmp(a->list, b->list, a->list_length + GUARD) == 0 &&
           memcmp(a->written, b->written, a->written_length + GUARD) == 0 && memcmp(a->read, b->read, a->read_length + GUARD) == 0;
}

uint16_t some_answer(const struct call *c, uint64_t next)
{
    int slave = c->entry >= INIT_SLAVE;
    if (ch32_i2c_kind_of(next) == CH32_I2C_KIND_CLOCK)
        return chance(12) == 0;
    if (ch32_i2c_kind_of(next) == CH32_I2C_KIND_WRITE || chance(10) == 0)
        return (uint16_t)chance(0x10000);
    switch (ch32_i2c_register_of(next)) {
    case CH32_I2C_STAR1:
        if (chance(60) == 0)
            return (uint16_t)chance(0x10000);
        if (slave)
            return chance(8) == 0 ? (uint16_t)(1u << chance(8)) : (uint16_t)(chance(2) ? 0xc0 : 0);
        return chance(3) ? 0xc7 : 0;
    case CH32_I2C_STAR2:
        return 3;
    case CH32_I2C_CTLR1:
        return chance(20) ? 0x0401 : 0x0601;
    default:
        return (uint16_t)chance(0x10000);
    }
}

int well_formed(enum entry entry, uint64_t next)
{
    unsigned kind = ch32_i2c_kind_of(next), number = ch32_i2c_register_of(next);
    if (kind == CH32_I2C_KIND_END && number != 0)
        return number <= 6 && (next & 0xffffffff0000) == 0 && (ch32_i2c_flags_of(next) & ~(unsigned)CH32_I2C_FLAGS) == 0;
    if (next >> (entry == RESPOND_TO_READ && kind == CH32_I2C_KIND_END ? 48 : 32))
        return 0;
    switch (kind) {
    case CH32_I2C_KIND_END:
        return 1;
    case CH32_I2C_KIND_READ:
        return number <= CH32_I2C_RTR && next >> 16 == 0;
    case CH32_I2C_KIND_WRITE:
        return number <= CH32_I2C_RTR;
    default:
        return next == CH32_I2C_KIND_CLOCK;
    }
}

uint64_t ending(unsigned number) { return (uint64_t)number << 8; }

unsigned error_of(unsigned flags, unsigned chip, int master)
{
    if (flags & CH32_I2C_FLAG_ARLO)
        return CH32_I2C_ARBITRATION;
    if (flags & CH32_I2C_FLAG_BERR && chip & CH32_I2C_CHIP_CH32V4)
        return CH32_I2C_BUS;
    if (flags & CH32_I2C_FLAG_TIMEOUT && chip & CH32_I2C_CHIP_V3)
        return CH32_I2C_TIMEOUT;
    if (flags & CH32_I2C_FLAG_PECERR)
        return CH32_I2C_CRC;
    if (flags & CH32_I2C_FLAG_OVR)
        return CH32_I2C_OVERRUN;
    if (flags & CH32_I2C_FLAG_AF && master)
        return CH32_I2C_NACK;
    return 0;
}

/* ---- lines of accesses ---- */

static const char *const names[] = {"CTLR1", "CTLR2", "OADDR1", "OADDR2", "DATAR", "STAR1", "STAR2", "CKCFGR", "RTR"};

static unsigned register_named(const char *name, size_t length)
{
    unsigned i;
    for (i = 0; i < 9; i++)
        if (strlen(names[i]) == length && memcmp(names[i], name, length) == 0)
            return i;
    return 0;
}

void follow(struct call *c, const char *name, const char *lines)
{
    uint64_t next = begin(c);
    unsigned number = 0;
    while (*lines) {
        const char *field = strchr(lines, ',') + 1, *last = strchr(field, ','), *stop = strchr(lines, '\n');
        unsigned value = 0;
        uint64_t expected;
        if (!stop)
            stop = lines + strlen(lines);
        if (last && last < stop)
            value = (unsigned)strtoul(last + 1, NULL, 16);
        else
            last = stop;
        number++;
        switch (*lines) {
        case 'r':
            expected = CH32_I2C_KIND_READ | register_named(field, (size_t)(last - field)) << 8;
            break;
        case 'w':
            expected = CH32_I2C_KIND_WRITE | register_named(field, (size_t)(last - field)) << 8 | (uint64_t)value << 16;
            break;
        case 'c':
            expected = CH32_I2C_KIND_CLOCK;
            break;
        default:
            expected = ending((unsigned)strtoul(field, NULL, 10));
            expected |= (uint64_t)value << (expected == 0 ? 16 : 48);
        }
        if (!check(next == expected, "%s, line %u: %.*s; got %#llx", name, number, (int)(stop - lines), lines, (unsigned long long)next))
            return;
        if (*lines != 'e')
            next = step(c, *lines == 'w' ? (uint16_t)chance(0x10000) : (uint16_t)value);
        lines = *stop ? stop + 1 : stop;
    }
}
