/* Blocks that are no call's image, and steps at the wrong time: 15, and every lent byte as before. One refused step in eight is tried with
 * everything that it is lent in read-only memory: a store, even of the byte that is there, ends the program. */
#include "call.h"
#include "read_only.h"

#include <stdio.h>
#include <string.h>

#ifndef LAYOUT
#define LAYOUT "layout.h"
#endif
#include LAYOUT

#define WALKS 12       /* random walks for each entry */
#define WALK_LENGTH 40 /* steps of a walk at most */

#define PAGES 65536 /* a multiple of every size of a page */

static struct call c, before;

/* Alone on its pages. */
static union {
    struct call call;
    uint8_t pages[(sizeof(struct call) / PAGES + 1) * PAGES];
} alone __attribute__((aligned(PAGES)));

#define tried alone.call

/* A step with everything lent in read-only memory. */
static uint64_t read_only_step(uint16_t answer)
{
    uint64_t next;
    check(read_only(&alone, sizeof alone), "no read-only memory");
    next = step(&tried, answer);
    check(writable(&alone, sizeof alone), "no memory to write again");
    return next;
}

/* A step on `tried` that has to be refused. */
static int refused_step(const char *what, unsigned detail)
{
    static unsigned turn;
    uint16_t answer = (uint16_t)chance(0x10000);
    uint64_t next;
    keep(&before, &tried);
    next = turn++ % 8 ? step(&tried, answer) : read_only_step(answer);
    return check(next == ending(15), "%s step: %s (%u): got %#llx", entry_names[tried.entry], what, detail, (unsigned long long)next) &
           check(same_bytes(&tried, &before), "%s step: %s (%u): bytes changed", entry_names[tried.entry], what, detail);
}

/* A call of this entry with something of everything: options, operations, chips. */
static void some_call(struct call *to, enum entry entry)
{
    unsigned count = chance(6);
    plain_call(to, entry);
    to->chip = (uint8_t)chance(4);
    to->option = (uint8_t)chance(6);
    to->frequency = chance(2) ? 400000 : 100000;
    to->duty = (uint8_t)chance(2);
    to->ten_bit = (uint8_t)chance(2);
    to->has_second = (uint8_t)(to->ten_bit ? 0 : chance(2));
    to->general_call = (uint8_t)chance(2);
    to->written_length = 1 + chance(4);
    to->read_length = 1 + chance(6);
    if (entry != TRANSACTION)
        return;
    to->list_length = to->written_length = to->read_length = 0;
    do {
        unsigned direction = chance(2), length = direction + chance(5);
        add_operation(to, direction, (uint16_t)length);
        *(direction ? &to->read_length : &to->written_length) += length;
    } while (count-- > 0);
}

/* Runs `visit` at every state of some walks of every entry. Between visits the call goes on in `c`, so that a visit that disturbs it shows. */
static void at_every_state(void (*visit)(void))
{
    int e, walk, i;
    for (e = 0; e < ENTRIES; e++)
        for (walk = 0; walk < WALKS; walk++) {
            uint64_t next;
            some_call(&c, (enum entry)e);
            next = begin(&c);
            for (i = 0; i < WALK_LENGTH && ch32_i2c_kind_of(next) != CH32_I2C_KIND_END; i++) {
                visit();
                next = step(&c, some_answer(&c, next));
                check(well_formed(c.entry, next), "%s: got %#llx on a walk", entry_names[e], (unsigned long long)next);
            }
        }
}

/* ---- lengths of the block ---- */

static void visit_block_lengths(void)
{
    unsigned length;
    for (length = 0; length <= CH32_I2C_BLOCK_SIZE + GUARD; length++)
        if (length != CH32_I2C_BLOCK_SIZE) {
            keep(&tried, &c);
            tried.block_length = length;
            refused_step("block", length);
        }
}

void test_block_lengths(void) { at_every_state(visit_block_lengths); }

/* ---- what is lent at a step ---- */

/* Tries a step after a change of what is lent. */
#define WITH(change, what)                                                                                                                \
    do {                                                                                                                                  \
        keep(&tried, &c);                                                                                                                 \
        change;                                                                                                                           \
        refused_step(what, 0);                                                                                                            \
    } while (0)

static void visit_lent(void)
{
    switch (c.entry) {
    case TRANSACTION:
        WITH(tried.list_length--, "length of the list");
        WITH(tried.list[tried.list_length - 3] = 2, "direction");
        WITH(tried.list_length -= 3; if (tried.list[tried.list_length + 1] == 0) tried.written_length++, "an operation less");
        WITH(while (tried.list_length < 3 * 257) add_operation(&tried, 0, 0), "257 operations");
        WITH(add_operation(&tried, 1, 0), "empty read");
        WITH(add_operation(&tried, 0, 65535), "total");
        WITH(tried.written_length++, "a byte to write more");
        WITH(tried.read_length++, "a byte to read more");
        if (c.written_length)
            WITH(tried.written_length--, "a byte to write less");
        if (c.read_length)
            WITH(tried.read_length--, "a byte to read less");
        WITH(tried.list_length = tried.written_length = tried.read_length = 0, "empty list: no run");
        break;
    case WRITE_READ:
        WITH(tried.read_length = 0, "empty read");
        WITH(tried.written_length = 65536 - tried.read_length, "total");
        break;
    case WRITE:
        WITH(tried.written_length = 65536, "65,536 bytes");
        break;
    case READ:
        WITH(tried.read_length = 0, "empty read");
        WITH(tried.read_length = 65536, "65,536 bytes");
        break;
    case RESPOND_TO_WRITE:
        WITH(tried.read_length = 65536, "65,536 bytes");
        break;
    case RESPOND_TO_READ:
        WITH(tried.written_length = 65536, "65,536 bytes");
        break;
    default:
        break;
    }
}

/* Answers with `star1` at STAR1 and helpfully elsewhere, `steps` times. */
static void go_on(unsigned steps, uint16_t star1)
{
    uint64_t next = begin(&c);
    while (steps-- > 0 && ch32_i2c_kind_of(next) != CH32_I2C_KIND_END)
        next = step(&c, ch32_i2c_kind_of(next) == CH32_I2C_KIND_CLOCK         ? 0
                        : ch32_i2c_register_of(next) == CH32_I2C_STAR1 ? star1
                        : ch32_i2c_register_of(next) == CH32_I2C_STAR2 ? 3
                                                                       : 1);
}

/* A place that lies past the bytes lent. */
static void places_past_the_end(void)
{
    plain_call(&c, WRITE);
    c.option = CH32_I2C_NEXT_FRAME;
    c.written_length = 5;
    go_on(10, 0xc7); /* three bytes and a write of the fourth */
    WITH(tried.written_length = 2, "place past the bytes to write");
    plain_call(&c, READ);
    c.option = CH32_I2C_NEXT_FRAME;
    go_on(12, 0xc7); /* three bytes and more */
    WITH(tried.read_length = 2, "place past the bytes to read");
    plain_call(&c, RESPOND_TO_WRITE);
    go_on(8, 0x40); /* four bytes */
    WITH(tried.read_length = 3, "more stored than there is room");
    plain_call(&c, RESPOND_TO_READ);
    c.written_length = 5;
    go_on(8, 0x80); /* four bytes */
    WITH(tried.written_length = 2, "more sent than data and one");
}

void test_lent_at_steps(void)
{
    at_every_state(visit_lent);
    places_past_the_end();
}

/* ---- other entries' blocks ---- */

static void visit_foreign(void)
{
    int e;
    for (e = 0; e < ENTRIES; e++)
        if ((enum entry)e != c.entry) {
            keep(&tried, &c);
            tried.entry = (enum entry)e;
            refused_step("block of another call", c.entry);
            some_call(&tried, (enum entry)e); /* with bytes of its own */
            memcpy(tried.block, c.block, sizeof tried.block);
            refused_step("block of another call, own bytes", c.entry);
        }
}

void test_foreign_blocks(void)
{
    uint8_t tags[ENTRIES];
    int e, f;
    for (e = 0; e < ENTRIES; e++) {
        plain_call(&c, (enum entry)e);
        begin(&c);
        tags[e] = c.block[0];
        for (f = 0; f < e; f++)
            check(tags[e] != tags[f], "%s and %s: one tag", entry_names[e], entry_names[f]);
    }
    at_every_state(visit_foreign);
}

/* ---- mutated blocks ---- */

/* A changed block is refused, or is another state of the same entry and goes on as one. */
static void refused_or_a_state(unsigned byte, unsigned value)
{
    uint64_t next;
    int i;
    keep(&tried, &c);
    tried.block[byte] = (uint8_t)value;
    keep(&before, &tried);
    next = step(&tried, (uint16_t)chance(0x10000));
    if (next == ending(15)) {
        check(same_bytes(&tried, &before), "%s: byte %u as %#x: refused, but bytes changed", entry_names[c.entry], byte, value);
        return;
    }
    for (i = 0; i < 8; i++) {
        check(well_formed(tried.entry, next), "%s: byte %u as %#x: got %#llx", entry_names[c.entry], byte, value, (unsigned long long)next);
        if (ch32_i2c_kind_of(next) == CH32_I2C_KIND_END)
            return;
        check(tried.block[0] == c.block[0], "%s: byte %u as %#x: another tag", entry_names[c.entry], byte, value);
        next = step(&tried, some_answer(&tried, next));
    }
    memcpy(before.block, tried.block, CH32_I2C_BLOCK_SIZE);
    memcpy(before.read, tried.read, tried.read_length);
    check(same_bytes(&tried, &before), "%s: byte %u as %#x: bytes that no step may write", entry_names[c.entry], byte, value);
}

static void visit_mutations(void)
{
    unsigned byte, value;
    for (value = 0; value < 256; value++)
        if (value != c.block[0]) {
            keep(&tried, &c);
            tried.block[0] = (uint8_t)value;
            refused_step("tag", value);
        }
    for (byte = 1; byte < CH32_I2C_BLOCK_SIZE; byte++) {
        for (value = 0; value < 8; value++)
            refused_or_a_state(byte, c.block[byte] ^ 1u << value);
        for (value = 0; value < 4; value++)
            refused_or_a_state(byte, chance(256));
    }
    keep(&tried, &c);
    memset(tried.block, 0xff, CH32_I2C_BLOCK_SIZE);
    refused_step("block of ff", 0);
    for (value = 0; value < 4; value++) {
        keep(&tried, &c);
        for (byte = 1; byte < CH32_I2C_BLOCK_SIZE; byte++)
            tried.block[byte] = (uint8_t)(1 + chance(255));
        refused_step("block without a 0", value);
    }
}

void test_mutated_blocks(void) { at_every_state(visit_mutations); }

/* ---- what layout.h tells ---- */

static void visit_layout(void)
{
    unsigned byte, value, i;
    for (byte = 1; byte < CH32_I2C_BLOCK_SIZE; byte++) {
        if (!(layout[c.entry].unused_bytes >> byte & 1))
            continue;
        check(c.block[byte] == 0, "%s: unused byte %u is %#x", entry_names[c.entry], byte, c.block[byte]);
        for (value = 0; value < 8; value++) {
            keep(&tried, &c);
            tried.block[byte] = (uint8_t)(1u << value);
            refused_step("unused byte", byte);
        }
    }
    for (i = 0; i < sizeof no_settings / sizeof no_settings[0]; i++)
        if (no_settings[i].entry == (int)c.entry) {
            keep(&tried, &c);
            tried.block[no_settings[i].byte] = (uint8_t)(no_settings[i].value & 0xff);
            tried.block[no_settings[i].byte + 1] = (uint8_t)(no_settings[i].value >> 8);
            refused_step("settings that no begin leaves", no_settings[i].value);
        }
    if (layout[c.entry].first_unknown_stage == 0)
        return;
    byte = layout[c.entry].stage_byte;
    check(c.block[byte] < layout[c.entry].first_unknown_stage, "%s: stage %u", entry_names[c.entry], c.block[byte]);
    for (value = layout[c.entry].first_unknown_stage; value < 256; value++) {
        keep(&tried, &c);
        tried.block[byte] = (uint8_t)value;
        refused_step("unknown stage", value);
    }
}

void test_layout(void)
{
    int e, known = 0;
    for (e = 0; e < ENTRIES; e++)
        known += layout[e].unused_bytes != 0 && layout[e].first_unknown_stage != 0;
    if (known != ENTRIES)
        printf("    the block's layout is not filled in for every entry (%d of %d)\n", known, ENTRIES);
    at_every_state(visit_layout);
}

/* ---- ends ---- */

void test_after_the_end(void)
{
    int e, walk;
    unsigned ends = 0;
    for (e = 0; e < ENTRIES; e++)
        for (walk = 0; walk < 100; walk++) {
            uint64_t next;
            int i;
            some_call(&c, (enum entry)e);
            next = begin(&c);
            for (i = 0; i < 400 && ch32_i2c_kind_of(next) != CH32_I2C_KIND_END; i++)
                next = step(&c, some_answer(&c, next));
            if (ch32_i2c_kind_of(next) != CH32_I2C_KIND_END)
                continue;
            ends |= 1u << ch32_i2c_end_of(next);
            for (i = 0; i < 5; i++) {
                keep(&tried, &c);
                refused_step("after the end", ch32_i2c_end_of(next));
            }
            for (i = 0; i < ENTRIES; i++) {
                keep(&tried, &c);
                tried.entry = (enum entry)i;
                refused_step("after the end, another entry", ch32_i2c_end_of(next));
            }
            next = begin(&c); /* and the block serves again */
            check(well_formed(c.entry, next) && ch32_i2c_end_of(next) <= CH32_I2C_RTR, "%s: begin again", entry_names[e]);
        }
    check(ends == 0x7f, "ends met: %#x", ends);
}

/* The block is a running call's before, so that an end which is not written down would go on as that call. */
void test_ends_at_once(void)
{
    unsigned option;
    plain_call(&c, TRANSACTION);
    begin(&c);
    c.list_length = c.written_length = c.read_length = 0;
    check(begin(&c) == 0, "empty list");
    keep(&tried, &c);
    refused_step("after an empty list", 0);
    plain_call(&tried, TRANSACTION);
    memcpy(tried.block, c.block, sizeof tried.block);
    refused_step("after an empty list, with another list", 0);
    for (option = 3; option <= 5; option += 2) {
        plain_call(&c, WRITE);
        c.option = CH32_I2C_NEXT_FRAME;
        begin(&c);
        c.option = (uint8_t)option;
        c.written_length = 0;
        check(begin(&c) == 0, "empty write frame");
        keep(&tried, &c);
        refused_step("after an empty frame", option);
        tried.written_length = 2;
        refused_step("after an empty frame, with bytes", option);
    }
}

/* ---- random calls: every number well formed, no 15 before the end, only bytes that a read stores change; the block may be moved ---- */

void test_random_calls(void)
{
    int round;
    for (round = 0; round < 20000; round++) {
        uint64_t next;
        int i, payload = 0;
        some_call(&c, (enum entry)(round % ENTRIES));
        next = begin(&c);
        for (i = 0; i < 300; i++) {
            size_t j, changed = 0;
            if (!check(well_formed(c.entry, next), "%s: got %#llx", entry_names[c.entry], (unsigned long long)next) ||
                ch32_i2c_kind_of(next) == CH32_I2C_KIND_END)
                break;
            payload = next == (CH32_I2C_KIND_READ | CH32_I2C_DATAR << 8);
            keep(&before, &c);
            keep(&tried, &c);
            next = step(&tried, some_answer(&c, next));
            keep(&c, &tried); /* goes on in another place */
            for (j = 0; j < c.read_length; j++)
                changed += c.read[j] != before.read[j];
            check(changed <= (payload ? 1u : 0u), "%s: %u bytes stored", entry_names[c.entry], (unsigned)changed);
            memcpy(before.block, c.block, CH32_I2C_BLOCK_SIZE);
            memcpy(before.read, c.read, c.read_length);
            check(same_bytes(&c, &before), "%s: bytes changed that no step may write", entry_names[c.entry]);
        }
    }
}

/* ---- the clock: a call that is told it is late ends with 4, at whatever question, and at no other time ---- */

static uint16_t calm_answer(uint64_t next)
{
    switch (ch32_i2c_register_of(next)) {
    case CH32_I2C_STAR1:
        return (uint16_t)(c.entry < INIT_SLAVE ? (chance(2) ? 0xc7 : 0) : (chance(2) ? 0xc0 : 0));
    case CH32_I2C_STAR2:
        return 3;
    case CH32_I2C_CTLR1:
        return (uint16_t)(chance(4) ? 0x0401 : 0x0601);
    default:
        return (uint16_t)chance(0x10000);
    }
}

void test_late(void)
{
    int round;
    unsigned met = 0;
    for (round = 0; round < 6000; round++) {
        uint64_t next;
        unsigned skipped = chance(10), steps;
        int late = 0;
        some_call(&c, (enum entry)(round % ENTRIES));
        next = begin(&c);
        for (steps = 0; steps < 300 && ch32_i2c_kind_of(next) != CH32_I2C_KIND_END; steps++) {
            int question = ch32_i2c_kind_of(next) == CH32_I2C_KIND_CLOCK;
            if (late)
                next = step(&c, 0);
            else if (question && skipped-- == 0) {
                late = 1;
                met |= 1u << c.entry;
                next = step(&c, (uint16_t)(chance(2) ? 1u << chance(16) : 1 + chance(65535)));
            } else
                next = step(&c, question ? 0 : calm_answer(next));
        }
        if (late)
            check(next == ending(4), "%s: told that it is late, got %#llx", entry_names[c.entry], (unsigned long long)next);
        else if (ch32_i2c_kind_of(next) == CH32_I2C_KIND_END)
            check(ch32_i2c_is_done(next), "%s: never late, got %#llx", entry_names[c.entry], (unsigned long long)next);
    }
    check(met == (1u << ENTRIES) - 1 - (1u << INIT) - (1u << INIT_SLAVE), "entries that ask the clock: %#x", met);
}
