/* Replays the stored sample (SAMPLE.md) on the C library: every access, end, byte read and byte left alone. */
#include <stdio.h>
#include <stdlib.h>
#include <string.h>

#include "as_the_rust.h"
#include "ch32_i2c.h"

/* No call of the sample is lent more bytes than this, to write or to read. */
#define MOST 65536

struct call {
    unsigned entry, chip, address, option, duty, ten_bit, has_second, second, general_call, clock_stretching, block_length;
    uint32_t input, frequency;
    size_t written_length, read_length, list_length;
    unsigned written_seed, read_seed;
    const uint8_t *list;
};

static uint8_t block[64], block_before[64], written[MOST], read_bytes[MOST], read_before[MOST];

/* A number of `count` bytes, low byte first; moves on. */
static uint32_t number(const uint8_t **at, int count)
{
    uint32_t result = 0;
    for (int i = 0; i < count; i++)
        result |= (uint32_t)(*at)[i] << 8 * i;
    *at += count;
    return result;
}

static void by_rule(uint8_t *bytes, size_t length, unsigned seed)
{
    for (size_t i = 0; i < length; i++)
        bytes[i] = (uint8_t)(seed + 7 * i + i / 256);
}

static void read_call(struct call *c, const uint8_t **at)
{
    c->entry = number(at, 1);
    c->chip = number(at, 1);
    c->address = number(at, 2);
    c->option = number(at, 1);
    c->duty = number(at, 1);
    c->ten_bit = number(at, 1);
    c->has_second = number(at, 1);
    c->second = number(at, 1);
    c->general_call = number(at, 1);
    c->clock_stretching = number(at, 1);
    c->block_length = number(at, 1);
    c->input = number(at, 4);
    c->frequency = number(at, 4);
    c->written_length = number(at, 4);
    c->read_length = number(at, 4);
    c->written_seed = number(at, 1);
    c->read_seed = number(at, 1);
    c->list_length = number(at, 2);
    c->list = *at;
    *at += c->list_length;
    if (c->written_length > MOST || c->read_length > MOST || c->block_length > sizeof block)
        exit(2);
}

static uint64_t begin(const struct call *c)
{
    const size_t b = c->block_length, w = c->written_length, r = c->read_length;
    const uint8_t chip = (uint8_t)c->chip, address = (uint8_t)c->address, option = (uint8_t)c->option;
    switch (c->entry) {
    case 0: return ch32_i2c_init_begin(block, b, chip, c->input, c->frequency, (uint8_t)c->duty);
    case 1: return ch32_i2c_transaction_begin(block, b, chip, address, c->list, c->list_length, written, w, read_bytes, r);
    case 2: return ch32_i2c_write_read_begin(block, b, chip, address, written, w, read_bytes, r);
    case 3: return ch32_i2c_write_begin(block, b, chip, address, option, written, w);
    case 4: return ch32_i2c_read_begin(block, b, chip, address, option, read_bytes, r);
    case 5: return ch32_i2c_init_slave_begin(block, b, (uint8_t)c->ten_bit, (uint16_t)c->address, (uint8_t)c->has_second,
                                             (uint8_t)c->second, (uint8_t)c->general_call, (uint8_t)c->clock_stretching);
    case 6: return ch32_i2c_listen_begin(block, b, chip);
    case 7: return ch32_i2c_respond_to_write_begin(block, b, chip, read_bytes, r);
    default: return ch32_i2c_respond_to_read_begin(block, b, chip, written, w);
    }
}

static uint64_t step(const struct call *c, uint16_t answer)
{
    const size_t b = c->block_length, w = c->written_length, r = c->read_length;
    switch (c->entry) {
    case 0: return ch32_i2c_init_step(block, b, answer);
    case 1: return ch32_i2c_transaction_step(block, b, c->list, c->list_length, written, w, read_bytes, r, answer);
    case 2: return ch32_i2c_write_read_step(block, b, written, w, read_bytes, r, answer);
    case 3: return ch32_i2c_write_step(block, b, written, w, answer);
    case 4: return ch32_i2c_read_step(block, b, read_bytes, r, answer);
    case 5: return ch32_i2c_init_slave_step(block, b, answer);
    case 6: return ch32_i2c_listen_step(block, b, answer);
    case 7: return ch32_i2c_respond_to_write_step(block, b, read_bytes, r, answer);
    default: return ch32_i2c_respond_to_read_step(block, b, written, w, answer);
    }
}

/* The access or end of a code and its word; at an end what stands beside it. */
static uint64_t expected(unsigned code, const uint8_t **at, uint16_t *answer, uint16_t *extra)
{
    const uint64_t access = (code >> 4 & 3) | (uint64_t)(code & 15) << 8;
    if (code == 0) {
        const uint64_t end = (uint64_t)number(at, 1) << 8;
        const uint64_t value = (uint64_t)number(at, 2) << 16;
        *extra = (uint16_t)number(at, 2);
        return end | value;
    }
    if (code & 0x40)
        return access;
    const uint16_t word = (uint16_t)number(at, 2);
    *answer = (code >> 4) == 2 ? 0x5a5a : word;
    return (code >> 4) == 2 ? access | (uint64_t)word << 16 : access;
}

/* `init` (0) and `init_slave` (5) have no error check; the calls between them are a master's. */
static uint64_t end_as_the_rust(const struct call *c, uint64_t end)
{
    return c->entry == 0 || c->entry == 5 ? end : as_the_rust((uint8_t)c->chip, c->entry < 5, end);
}

/* What stands beside an end: the second count at 0, the flags at an error. */
static uint16_t extra_of(uint64_t end) { return (uint16_t)((end & 0xffff) == 0 ? end >> 32 & 0xffff : end >> 48); }

/* The library's own number for a stored end: on ch32v4 an error with BERR and without ARLO among its flags is a bus error. */
static uint32_t own_end(const struct call *c, uint64_t stored, uint16_t extra)
{
    const int bus = c->chip & 2 && (stored & 0xffff) != 0 && (extra & 0x0300) == 0x0100;
    return bus ? 1 << 8 : (uint32_t)stored;
}

static int is_end(const struct call *c, uint64_t next, uint64_t stored, uint16_t extra)
{
    return end_as_the_rust(c, next) == stored && extra_of(next) == extra && (uint32_t)next == own_end(c, stored, extra);
}

/* One call. Returns whether all is as stored. */
static int replay(const uint8_t *at)
{
    struct call c;
    read_call(&c, &at);
    memset(block, 0xc3, sizeof block);
    memcpy(block_before, block, sizeof block);
    by_rule(written, c.written_length, c.written_seed);
    by_rule(read_bytes, c.read_length, c.read_seed);
    uint64_t next = begin(&c);
    for (int first = 1;; first = 0) {
        const unsigned code = number(&at, 1);
        uint16_t answer = 0, extra = 0;
        const uint64_t wanted = expected(code, &at, &answer, &extra);
        if (code == 0 ? !is_end(&c, next, wanted, extra) : next != wanted)
            return 0;
        if (code == 0 && first && wanted != 0 && memcmp(block, block_before, sizeof block) != 0)
            return 0;
        if (code == 0 && !(first && wanted != 0) && step(&c, 0x1234) != 15 << 8)
            return 0;
        if (code == 0 || code & 0x40)
            break;
        next = step(&c, answer);
    }
    const size_t arrived = number(&at, 2);
    by_rule(read_before, c.read_length, c.read_seed);
    memcpy(read_before, at, arrived);
    return memcmp(read_bytes, read_before, c.read_length) == 0;
}

int main(int argc, char **argv)
{
    FILE *file = argc == 2 ? fopen(argv[1], "rb") : NULL;
    static uint8_t sample[4 << 20];
    const size_t length = file ? fread(sample, 1, sizeof sample, file) : 0;
    if (length < 12 || memcmp(sample, "ch32i2c3", 8) != 0) {
        puts("replay SAMPLE");
        return 2;
    }
    const uint8_t *at = sample + 8;
    const uint32_t count = number(&at, 4);
    for (uint32_t i = 0; i < count; i++) {
        const uint8_t *start = at;
        const uint32_t size = number(&at, 4);
        if (!replay(at)) {
            printf("call %lu of the sample differs\n", (unsigned long)i);
            return 1;
        }
        at = start + size;
    }
    printf("%lu calls of the sample, 0 differences\n", (unsigned long)count);
    return 0;
}
