/* On x86-64: the library's functions, carried out on RV32. GUEST_RAM names the file that is the guest's RAM. Around all lent bytes lie guard bytes,
 * which the guest has to leave as they are; so it has the list and the bytes to write. */
#include "ch32_i2c.h"
#include "mailbox.h"

#include <fcntl.h>
#include <sched.h>
#include <stdio.h>
#include <stdlib.h>
#include <string.h>
#include <sys/mman.h>

#define GUARD 16

static uint8_t *base;

static void fail(const char *why)
{
    fprintf(stderr, "mailbox: %s\n", why);
    exit(3);
}

static void stop_guest(void)
{
    struct mailbox *m = (struct mailbox *)base;
    m->function = STOP;
    __sync_synchronize();
    m->asked++;
}

static void open_mailbox(void)
{
    const char *name = getenv("GUEST_RAM");
    const int file = name ? open(name, O_RDWR) : -1;
    void *ram = file >= 0 ? mmap(NULL, RAM_SIZE, PROT_READ | PROT_WRITE, MAP_SHARED, file, 0) : MAP_FAILED;
    if (ram == MAP_FAILED)
        fail("GUEST_RAM can't be opened");
    base = (uint8_t *)ram + (MAILBOX - RAM);
    atexit(stop_guest);
}

static void lay(size_t at, const uint8_t *bytes, size_t length)
{
    memset(base + at - GUARD, 0xc3, GUARD);
    if (length)
        memcpy(base + at, bytes, length);
    memset(base + at + length, 0xc3, GUARD);
}

static void check_guards(size_t at, size_t length)
{
    for (size_t i = 0; i < GUARD; i++)
        if (base[at - GUARD + i] != 0xc3 || base[at + length + i] != 0xc3)
            fail("bytes beside lent ones were written");
}

static void fetch(size_t at, uint8_t *bytes, size_t length)
{
    check_guards(at, length);
    if (length)
        memcpy(bytes, base + at, length);
}

static void check_unchanged(size_t at, const uint8_t *bytes, size_t length)
{
    check_guards(at, length);
    if (length && memcmp(base + at, bytes, length) != 0)
        fail("bytes that are lent to be read were written");
}

/* What a function is lent beside its block. */
struct lent {
    const uint8_t *list;
    size_t list_length;
    const uint8_t *written;
    size_t written_length;
    uint8_t *read;
    size_t read_length;
};

static uint64_t call(enum function function, uint8_t *block, size_t block_length, struct lent lent, const uint32_t numbers[6])
{
    if (!base)
        open_mailbox();
    struct mailbox *m = (struct mailbox *)base;
    m->function = function;
    m->block_length = (uint32_t)block_length;
    m->list_length = (uint32_t)lent.list_length;
    m->written_length = (uint32_t)lent.written_length;
    m->read_length = (uint32_t)lent.read_length;
    memcpy(m->numbers, numbers, sizeof m->numbers);
    lay(BLOCK_AT, block, block_length);
    lay(LIST_AT, lent.list, lent.list_length);
    lay(WRITTEN_AT, lent.written, lent.written_length);
    lay(READ_AT, lent.read, lent.read_length);
    __sync_synchronize();
    m->asked++;
    for (unsigned long looks = 0; m->answered != m->asked; looks++) {
        if (looks > 2000)
            sched_yield();
        if (looks > 100000000)
            fail("no answer");
    }
    __sync_synchronize();
    fetch(BLOCK_AT, block, block_length);
    check_unchanged(LIST_AT, lent.list, lent.list_length);
    check_unchanged(WRITTEN_AT, lent.written, lent.written_length);
    fetch(READ_AT, lent.read, lent.read_length);
    return m->result;
}

#define BLOCK uint8_t *block, size_t b
#define LIST const uint8_t *list, size_t l
#define WRITTEN const uint8_t *written, size_t w
#define READ uint8_t *read, size_t r
#define NONE (struct lent){NULL, 0, NULL, 0, NULL, 0}
#define TO_WRITE (struct lent){NULL, 0, written, w, NULL, 0}
#define TO_READ (struct lent){NULL, 0, NULL, 0, read, r}
#define BOTH (struct lent){NULL, 0, written, w, read, r}
#define ALL (struct lent){list, l, written, w, read, r}
#define CALL(function, lent, ...) call(function, block, b, lent, (const uint32_t[6]){__VA_ARGS__})

uint64_t ch32_i2c_init_begin(BLOCK, uint8_t chip, uint32_t input, uint32_t frequency, uint8_t duty) { return CALL(INIT_BEGIN, NONE, chip, input, frequency, duty); }
uint64_t ch32_i2c_init_step(BLOCK, uint16_t answer) { return CALL(INIT_STEP, NONE, answer); }
uint64_t ch32_i2c_transaction_begin(BLOCK, uint8_t chip, uint8_t address, LIST, WRITTEN, READ) { return CALL(TRANSACTION_BEGIN, ALL, chip, address); }
uint64_t ch32_i2c_transaction_step(BLOCK, LIST, WRITTEN, READ, uint16_t answer) { return CALL(TRANSACTION_STEP, ALL, answer); }
uint64_t ch32_i2c_write_read_begin(BLOCK, uint8_t chip, uint8_t address, WRITTEN, READ) { return CALL(WRITE_READ_BEGIN, BOTH, chip, address); }
uint64_t ch32_i2c_write_read_step(BLOCK, WRITTEN, READ, uint16_t answer) { return CALL(WRITE_READ_STEP, BOTH, answer); }
uint64_t ch32_i2c_write_begin(BLOCK, uint8_t chip, uint8_t address, uint8_t option, WRITTEN) { return CALL(WRITE_BEGIN, TO_WRITE, chip, address, option); }
uint64_t ch32_i2c_write_step(BLOCK, WRITTEN, uint16_t answer) { return CALL(WRITE_STEP, TO_WRITE, answer); }
uint64_t ch32_i2c_read_begin(BLOCK, uint8_t chip, uint8_t address, uint8_t option, READ) { return CALL(READ_BEGIN, TO_READ, chip, address, option); }
uint64_t ch32_i2c_read_step(BLOCK, READ, uint16_t answer) { return CALL(READ_STEP, TO_READ, answer); }
uint64_t ch32_i2c_init_slave_begin(BLOCK, uint8_t ten_bit, uint16_t address, uint8_t has_second, uint8_t second, uint8_t general_call, uint8_t clock_stretching)
{
    return CALL(INIT_SLAVE_BEGIN, NONE, ten_bit, address, has_second, second, general_call, clock_stretching);
}
uint64_t ch32_i2c_init_slave_step(BLOCK, uint16_t answer) { return CALL(INIT_SLAVE_STEP, NONE, answer); }
uint64_t ch32_i2c_listen_begin(BLOCK, uint8_t chip) { return CALL(LISTEN_BEGIN, NONE, chip); }
uint64_t ch32_i2c_listen_step(BLOCK, uint16_t answer) { return CALL(LISTEN_STEP, NONE, answer); }
uint64_t ch32_i2c_respond_to_write_begin(BLOCK, uint8_t chip, READ) { return CALL(RESPOND_TO_WRITE_BEGIN, TO_READ, chip); }
uint64_t ch32_i2c_respond_to_write_step(BLOCK, READ, uint16_t answer) { return CALL(RESPOND_TO_WRITE_STEP, TO_READ, answer); }
uint64_t ch32_i2c_respond_to_read_begin(BLOCK, uint8_t chip, WRITTEN) { return CALL(RESPOND_TO_READ_BEGIN, TO_WRITE, chip); }
uint64_t ch32_i2c_respond_to_read_step(BLOCK, WRITTEN, uint16_t answer) { return CALL(RESPOND_TO_READ_STEP, TO_WRITE, answer); }
/* Of the block that was handed back last it is known already. */
uint64_t ch32_i2c_is_critical(const uint8_t *block, size_t b)
{
    const struct mailbox *m = (const struct mailbox *)base;
    uint8_t copy[64];
    if (base && b == m->block_length && memcmp(base + BLOCK_AT, block, b) == 0)
        return m->critical;
    if (b > sizeof copy)
        fail("a block that is too long");
    memcpy(copy, block, b);
    return call(IS_CRITICAL, copy, b, NONE, (const uint32_t[6]){0});
}
/* It has no block. */
uint64_t ch32_i2c_speed_window(uint32_t input, uint32_t lowest, uint32_t highest)
{
    return call(SPEED_WINDOW, NULL, 0, NONE, (const uint32_t[6]){input, lowest, highest});
}
