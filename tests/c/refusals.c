/* Refused calls: the number, and every lent byte as before. */
#include "call.h"

#include <stddef.h>
#include <string.h>

static struct call c, before;

/* Begins a call that has to be refused. */
static void refused(unsigned number, const char *what, unsigned long detail)
{
    uint64_t next;
    keep(&before, &c);
    next = begin(&c);
    check(next == ending(number), "%s: %s (%#lx): wanted %u, got %#llx", entry_names[c.entry], what, detail, number,
          (unsigned long long)next);
    check(same_bytes(&c, &before), "%s: %s (%#lx): bytes changed", entry_names[c.entry], what, detail);
}

static void accepted(const char *what)
{
    uint64_t next = begin(&c);
    check(ch32_i2c_kind_of(next) != CH32_I2C_KIND_END, "%s: %s: got %#llx", entry_names[c.entry], what, (unsigned long long)next);
}

/* ---- each cause by itself, with every value that it has ---- */

static int has_chip(enum entry e) { return e != INIT_SLAVE; }
static int has_address(enum entry e) { return e >= TRANSACTION && e <= READ; }
static int has_option(enum entry e) { return e == WRITE || e == READ; }

/* Values above the greatest that a byte may have: each is refused with this number. */
static void bytes_above(enum entry e, size_t offset, unsigned greatest, unsigned number, const char *what)
{
    unsigned value;
    for (value = greatest + 1; value < 256; value++) {
        plain_call(&c, e);
        ((uint8_t *)&c)[offset] = (uint8_t)value;
        refused(number, what, value);
    }
}

static void list_refusals(void)
{
    unsigned i, value;
    for (i = 1; i < 9; i++) {
        plain_call(&c, TRANSACTION);
        c.list_length = i;
        if (i % 3)
            refused(16, "length of the list", i);
    }
    for (i = 0; i < 3; i++)
        for (value = 2; value < 256; value++) {
            plain_call(&c, TRANSACTION);
            c.list[3 * i] = (uint8_t)value;
            refused(16, "direction", value);
        }
    plain_call(&c, TRANSACTION);
    while (c.list_length < 3 * 257)
        add_operation(&c, CH32_I2C_DIRECTION_WRITE, 0);
    refused(13, "257 operations", 0);
    for (i = 0; i < 3; i++) {
        plain_call(&c, TRANSACTION);
        c.list_length = 0;
        for (value = 0; value < 3; value++)
            add_operation(&c, CH32_I2C_DIRECTION_READ, value != i);
        refused(6, "empty read", i);
    }
    plain_call(&c, TRANSACTION);
    add_operation(&c, CH32_I2C_DIRECTION_WRITE, 65535 - 6);
    refused(8, "total of 65,536", 0);
    plain_call(&c, TRANSACTION);
    add_operation(&c, CH32_I2C_DIRECTION_READ, 65535 - 6);
    refused(8, "total of 65,536", 1);
    plain_call(&c, TRANSACTION);
    for (i = 0; i < 100; i++)
        add_operation(&c, i % 2, 65535);
    refused(8, "total far above", 0);
    /* the first fault in the list decides between 6 and 8 */
    plain_call(&c, TRANSACTION);
    add_operation(&c, CH32_I2C_DIRECTION_READ, 0);
    add_operation(&c, CH32_I2C_DIRECTION_READ, 65535);
    refused(6, "6 before 8", 0);
    plain_call(&c, TRANSACTION);
    add_operation(&c, CH32_I2C_DIRECTION_WRITE, 65535);
    add_operation(&c, CH32_I2C_DIRECTION_READ, 0);
    refused(8, "8 before 6", 0);
    for (i = 0; i < 6; i++) {
        plain_call(&c, TRANSACTION);
        c.written_length += i == 0 || i == 4 ? 1 : 0;
        c.written_length -= i == 1 || i == 5 ? 1 : 0;
        c.read_length += i == 2 || i == 5 ? 1 : 0;
        c.read_length -= i == 3 || i == 4 ? 1 : 0;
        refused(14, "lengths", i);
    }
    plain_call(&c, TRANSACTION);
    c.list_length = 0;
    refused(14, "empty list with bytes", 0);
    plain_call(&c, TRANSACTION);
    c.list_length = 0;
    c.written_length = 0;
    refused(14, "empty list with bytes to read", 0);
    plain_call(&c, TRANSACTION);
    c.list_length = c.written_length = c.read_length = 0;
    c.address = 0x80;
    refused(9, "empty list", 0);
    plain_call(&c, TRANSACTION);
    c.written_length = 65536;
    refused(14, "more than 65,535 lent", 0);
}

static void own_addresses(void)
{
    unsigned own;
    for (own = 0; own < 65536; own++) {
        plain_call(&before, INIT_SLAVE);
        if (own == 200)
            own = 1000; /* the stretches around the bounds, and a few above */
        if (own == 1100)
            own = 65500;
        keep(&c, &before);
        c.own = (uint16_t)own;
        if (own > 127 || own == 0)
            refused(9, "own address of seven bits", own);
        keep(&c, &before);
        c.own = (uint16_t)own;
        c.ten_bit = 1;
        if (own > 1023)
            refused(9, "own address of ten bits", own);
    }
    plain_call(&c, INIT_SLAVE);
    c.ten_bit = c.has_second = 1;
    refused(9, "second address beside ten bits", 0);
    plain_call(&c, INIT_SLAVE);
    c.has_second = 1;
    for (own = 128; own < 256; own++) {
        c.second = (uint8_t)own;
        refused(9, "second address", own);
    }
}

void test_refusals(void)
{
    int e;
    unsigned length;
    for (e = 0; e < ENTRIES; e++) {
        for (length = 0; length <= CH32_I2C_BLOCK_SIZE + GUARD; length++) {
            plain_call(&c, (enum entry)e);
            c.block_length = length;
            if (length != CH32_I2C_BLOCK_SIZE)
                refused(15, "block", length);
        }
        if (has_chip((enum entry)e))
            bytes_above((enum entry)e, offsetof(struct call, chip), 3, 16, "chip");
        if (has_address((enum entry)e))
            bytes_above((enum entry)e, offsetof(struct call, address), 127, 9, "address");
        if (has_option((enum entry)e))
            bytes_above((enum entry)e, offsetof(struct call, option), 5, 16, "option");
    }
    bytes_above(INIT, offsetof(struct call, duty), 1, 16, "duty");
    bytes_above(INIT_SLAVE, offsetof(struct call, ten_bit), 1, 16, "ten_bit");
    bytes_above(INIT_SLAVE, offsetof(struct call, has_second), 1, 16, "has_second");
    bytes_above(INIT_SLAVE, offsetof(struct call, general_call), 1, 16, "general_call");
    bytes_above(INIT_SLAVE, offsetof(struct call, clock_stretching), 1, 16, "clock_stretching");

    plain_call(&c, INIT);
    c.frequency = 0;
    refused(10, "frequency", 0);
    c.frequency = 400001;
    refused(10, "frequency", 400001);
    c.frequency = 0xffffffffu;
    refused(10, "frequency", 0xffffffffu);
    plain_call(&c, INIT);
    c.frequency = 1;
    refused(11, "divider", 0);
    c.input = 3999999;
    refused(12, "input", 3999999);

    list_refusals();
    own_addresses();

    plain_call(&c, WRITE_READ);
    c.read_length = 0;
    refused(6, "empty read", 0);
    plain_call(&c, WRITE_READ);
    c.written_length = 65531;
    refused(8, "total of 65,536", 0);
    plain_call(&c, WRITE_READ);
    c.written_length = 0;
    c.read_length = 65536;
    refused(8, "65,536 bytes to read", 0);
    plain_call(&c, READ);
    c.read_length = 0;
    refused(6, "empty read", 0);
    plain_call(&c, READ);
    c.read_length = 65536;
    refused(8, "65,536 bytes", 0);
    plain_call(&c, WRITE);
    c.written_length = 65536;
    refused(8, "65,536 bytes", 0);
    plain_call(&c, RESPOND_TO_WRITE);
    c.read_length = 65536;
    refused(8, "65,536 bytes", 0);
    plain_call(&c, RESPOND_TO_READ);
    c.written_length = 65536;
    refused(8, "65,536 bytes", 0);
}

/* ---- all combinations of causes: the first one decides ---- */

static void bad_block(void) { c.block_length = 31; }
static void bad_chip(void) { c.chip = 4; }
static void bad_address(void) { c.address = 0x80; }
static void bad_option(void) { c.option = 6; }
static void bad_duty(void) { c.duty = 2; }
static void bad_frequency(void) { c.frequency = 0; }
static void slow_input(void) { c.input = 3999999; }
static void big_divider(void) { c.frequency = 400; }
static void bad_list_length(void) { c.list_length++; }
static void bad_direction(void) { add_operation(&c, 2, 0); }
static void many_operations(void)
{
    int i;
    for (i = 0; i < 257; i++)
        add_operation(&c, CH32_I2C_DIRECTION_WRITE, 0);
}
static void empty_read_first(void)
{
    memmove(c.list + 3, c.list, c.list_length);
    c.list[0] = CH32_I2C_DIRECTION_READ;
    c.list[1] = c.list[2] = 0;
    c.list_length += 3;
}
static void long_list(void) { add_operation(&c, CH32_I2C_DIRECTION_WRITE, 65535); }
static void other_lengths(void) { c.written_length++; }
static void empty_read(void) { c.read_length = 0; }
static void long_write(void) { c.written_length = 65536; }
static void long_read(void) { c.read_length = 65536; }
static void bad_flag(void) { c.clock_stretching = 2; }
static void bad_own(void) { c.own = 1024; }
static void bad_second(void)
{
    c.has_second = 1;
    c.second = 0x80;
}
static void reserved_own(void) { c.own = 0x78; }
static void reserved_second(void)
{
    c.has_second = 1;
    c.second = 0;
}

struct cause {
    unsigned number;
    void (*apply)(void);
};

/* For each entry its causes, first one first. They are applied last one first. */
static const struct {
    enum entry entry;
    struct cause causes[10];
} orders[] = {
    {INIT, {{15, bad_block}, {16, bad_chip}, {16, bad_duty}, {10, bad_frequency}, {12, slow_input}, {11, big_divider}}},
    {TRANSACTION,
     {{15, bad_block},
      {16, bad_chip},
      {16, bad_list_length},
      {16, bad_direction},
      {9, bad_address},
      {13, many_operations},
      {6, empty_read_first},
      {8, long_list},
      {14, other_lengths}}},
    {WRITE_READ, {{15, bad_block}, {16, bad_chip}, {6, empty_read}, {9, bad_address}, {8, long_write}}},
    {WRITE, {{15, bad_block}, {16, bad_chip}, {16, bad_option}, {9, bad_address}, {8, long_write}}},
    {READ, {{15, bad_block}, {16, bad_chip}, {16, bad_option}, {9, bad_address}, {6, empty_read}}},
    {READ, {{15, bad_block}, {16, bad_chip}, {16, bad_option}, {9, bad_address}, {8, long_read}}},
    {INIT_SLAVE, {{15, bad_block}, {16, bad_flag}, {9, bad_own}, {9, bad_second}, {17, reserved_own}, {17, reserved_second}}},
    {LISTEN, {{15, bad_block}, {16, bad_chip}}},
    {RESPOND_TO_WRITE, {{15, bad_block}, {16, bad_chip}, {8, long_read}}},
    {RESPOND_TO_READ, {{15, bad_block}, {16, bad_chip}, {8, long_write}}},
};

void test_refusal_order(void)
{
    size_t row;
    for (row = 0; row < sizeof orders / sizeof *orders; row++) {
        const struct cause *causes = orders[row].causes;
        unsigned count = 0, chosen, i;
        while (causes[count].apply)
            count++;
        for (chosen = 1; chosen < 1u << count; chosen++) {
            unsigned number = 0;
            plain_call(&c, orders[row].entry);
            for (i = count; i-- > 0;)
                if (chosen >> i & 1) {
                    causes[i].apply();
                    number = causes[i].number;
                }
            refused(number, "causes", chosen);
        }
    }
}

/* ---- what is just not refused ---- */

void test_limits(void)
{
    int e;
    unsigned value;
    for (e = 0; e < ENTRIES; e++) {
        for (value = 0; value < 4; value++) {
            plain_call(&c, (enum entry)e);
            c.chip = (uint8_t)value;
            accepted("chip");
        }
        plain_call(&c, (enum entry)e);
        c.address = 127;
        accepted("address 127");
        c.address = 0;
        accepted("address 0");
        for (value = 0; value < 6; value++) {
            plain_call(&c, (enum entry)e);
            c.option = (uint8_t)value;
            accepted("option");
        }
    }
    plain_call(&c, INIT);
    c.frequency = 400000;
    c.duty = 1;
    accepted("400 kHz");
    c.input = 4000000;
    accepted("4 MHz");
    plain_call(&c, TRANSACTION);
    while (c.list_length < 3 * 256)
        add_operation(&c, CH32_I2C_DIRECTION_WRITE, 0);
    accepted("256 operations");
    plain_call(&c, TRANSACTION);
    c.list_length = 0;
    add_operation(&c, CH32_I2C_DIRECTION_WRITE, 65534);
    add_operation(&c, CH32_I2C_DIRECTION_READ, 1);
    c.written_length = 65534;
    c.read_length = 1;
    accepted("total of 65,535");
    plain_call(&c, WRITE_READ);
    c.written_length = 65530;
    accepted("total of 65,535");
    c.written_length = 0;
    accepted("empty write");
    c.read_length = 65535;
    accepted("65,535 bytes to read");
    c.written_length = 65534;
    c.read_length = 1;
    accepted("65,534 bytes to write");
    plain_call(&c, TRANSACTION);
    c.list_length = c.written_length = 0;
    add_operation(&c, CH32_I2C_DIRECTION_READ, 65535);
    c.read_length = 65535;
    accepted("a read of 65,535");
    plain_call(&c, TRANSACTION);
    c.list_length = c.read_length = 0;
    add_operation(&c, CH32_I2C_DIRECTION_WRITE, 65535);
    c.written_length = 65535;
    accepted("a write of 65,535");
    plain_call(&c, WRITE);
    c.written_length = 65535;
    accepted("65,535 bytes");
    c.written_length = 0;
    accepted("empty write");
    plain_call(&c, READ);
    c.read_length = 65535;
    accepted("65,535 bytes");
    plain_call(&c, RESPOND_TO_WRITE);
    c.read_length = 65535;
    accepted("65,535 bytes");
    c.read_length = 0;
    accepted("no room");
    plain_call(&c, RESPOND_TO_READ);
    c.written_length = 65535;
    accepted("65,535 bytes");
    c.written_length = 0;
    accepted("no data");
    plain_call(&c, INIT_SLAVE);
    c.own = 0x77;
    c.has_second = 1;
    c.second = 0x77;
    accepted("addresses 0x77");
    c.own = 0x08;
    c.second = 0x08;
    accepted("addresses 0x08");
    c.own = 0;
    c.general_call = 1;
    accepted("own address 0 with general call");
    plain_call(&c, INIT_SLAVE);
    c.ten_bit = 1;
    c.own = 1023;
    c.second = 255;
    accepted("own address 1023");
    c.own = 0;
    accepted("own address 0 of ten bits");
    c.own = 0x003;
    accepted("own address 0x003 of ten bits");
}

/* ---- null pointers with length 0 ---- */

/* Steps to the end, or 200 times. */
#define TO_THE_END(next, STEP)                                                                                                            \
    do {                                                                                                                                  \
        unsigned turns = 0;                                                                                                               \
        while (ch32_i2c_kind_of(next) != CH32_I2C_KIND_END && turns++ < 200) {                                                            \
            uint16_t answer = some_answer(&c, next);                                                                                      \
            next = STEP;                                                                                                                  \
        }                                                                                                                                 \
        check(well_formed(LISTEN, next), "null: got %#llx", (unsigned long long)next);                                                    \
    } while (0)

void test_null(void)
{
    static const uint8_t empty_write[3] = {0, 0, 0}, one_read[3] = {1, 1, 0};
    uint8_t block[CH32_I2C_BLOCK_SIZE], byte = 7;
    uint64_t next;
    int round;
    check(ch32_i2c_init_begin(NULL, 0, 0, 36000000, 100000, 0) == ending(15), "null block, init");
    check(ch32_i2c_transaction_begin(NULL, 0, 0, 1, NULL, 0, NULL, 0, NULL, 0) == ending(15), "null block, transaction");
    check(ch32_i2c_write_read_begin(NULL, 0, 0, 1, NULL, 0, NULL, 0) == ending(15), "null block, write_read");
    check(ch32_i2c_write_begin(NULL, 0, 0, 1, 0, NULL, 0) == ending(15), "null block, write");
    check(ch32_i2c_read_begin(NULL, 0, 0, 1, 0, NULL, 0) == ending(15), "null block, read");
    check(ch32_i2c_init_slave_begin(NULL, 0, 0, 1, 0, 0, 0, 0) == ending(15), "null block, init_slave");
    check(ch32_i2c_listen_begin(NULL, 0, 0) == ending(15), "null block, listen");
    check(ch32_i2c_respond_to_write_begin(NULL, 0, 0, NULL, 0) == ending(15), "null block, respond_to_write");
    check(ch32_i2c_respond_to_read_begin(NULL, 0, 0, NULL, 0) == ending(15), "null block, respond_to_read");
    check(ch32_i2c_init_step(NULL, 0, 0) == ending(15), "null block, init step");
    check(ch32_i2c_transaction_step(NULL, 0, NULL, 0, NULL, 0, NULL, 0, 0) == ending(15), "null block, transaction step");
    check(ch32_i2c_write_read_step(NULL, 0, NULL, 0, NULL, 0, 0) == ending(15), "null block, write_read step");
    check(ch32_i2c_write_step(NULL, 0, NULL, 0, 0) == ending(15), "null block, write step");
    check(ch32_i2c_read_step(NULL, 0, NULL, 0, 0) == ending(15), "null block, read step");
    check(ch32_i2c_init_slave_step(NULL, 0, 0) == ending(15), "null block, init_slave step");
    check(ch32_i2c_listen_step(NULL, 0, 0) == ending(15), "null block, listen step");
    check(ch32_i2c_respond_to_write_step(NULL, 0, NULL, 0, 0) == ending(15), "null block, respond_to_write step");
    check(ch32_i2c_respond_to_read_step(NULL, 0, NULL, 0, 0) == ending(15), "null block, respond_to_read step");

    check(ch32_i2c_transaction_begin(block, 32, 0, 1, NULL, 0, NULL, 0, NULL, 0) == 0, "null list");
    check(ch32_i2c_transaction_begin(block, 32, 0, 1, one_read, 3, NULL, 0, NULL, 0) == ending(14), "null list, 14");
    check(ch32_i2c_read_begin(block, 32, 0, 1, 0, NULL, 0) == ending(6), "null read");
    check(ch32_i2c_write_read_begin(block, 32, 0, 1, NULL, 0, NULL, 0) == ending(6), "null write_read");
    for (round = 0; round < 50; round++) {
        plain_call(&c, TRANSACTION);
        next = ch32_i2c_transaction_begin(block, 32, 0, 1, empty_write, 3, NULL, 0, NULL, 0);
        TO_THE_END(next, ch32_i2c_transaction_step(block, 32, empty_write, 3, NULL, 0, NULL, 0, answer));
        next = ch32_i2c_transaction_begin(block, 32, 0, 1, one_read, 3, NULL, 0, &byte, 1);
        TO_THE_END(next, ch32_i2c_transaction_step(block, 32, one_read, 3, NULL, 0, &byte, 1, answer));
        next = ch32_i2c_write_read_begin(block, 32, 0, 1, NULL, 0, &byte, 1);
        TO_THE_END(next, ch32_i2c_write_read_step(block, 32, NULL, 0, &byte, 1, answer));
        next = ch32_i2c_write_begin(block, 32, 0, 1, 0, NULL, 0);
        TO_THE_END(next, ch32_i2c_write_step(block, 32, NULL, 0, answer));
        c.entry = RESPOND_TO_WRITE;
        next = ch32_i2c_respond_to_write_begin(block, 32, 0, NULL, 0);
        TO_THE_END(next, ch32_i2c_respond_to_write_step(block, 32, NULL, 0, answer));
        next = ch32_i2c_respond_to_read_begin(block, 32, 0, NULL, 0);
        TO_THE_END(next, ch32_i2c_respond_to_read_step(block, 32, NULL, 0, answer));
    }
}
