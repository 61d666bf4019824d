/* ch32_i2c_blocking.h: each of its calls makes the accesses of begin and step by hand, and gives back the same. */
#include "call.h"

#include "ch32_i2c_blocking.h"

#include <string.h>

#define MOST 400

/* A port that answers by a row of its own and keeps what it was asked, and whether interrupts were held off. */
static struct {
    uint16_t answers[MOST];
    uint64_t record[MOST];
    uint8_t held[MOST];
    unsigned count, starts;
    int holding;
} seen;

static uint16_t answer_to(uint64_t next)
{
    unsigned i = seen.count++;
    if (i >= MOST)
        return 0xffff; /* errors and a late clock: the call ends */
    seen.record[i] = next;
    seen.held[i] = (uint8_t)seen.holding;
    return seen.answers[i];
}

static uint16_t read_register(void *registers, unsigned number)
{
    check(registers == &seen, "the registers' pointer");
    return answer_to(CH32_I2C_KIND_READ | (uint64_t)number << 8);
}

static void write_register(void *registers, unsigned number, uint16_t value)
{
    check(registers == &seen, "the registers' pointer");
    answer_to(CH32_I2C_KIND_WRITE | (uint64_t)number << 8 | (uint64_t)value << 16);
}

static void start_clock(void *clock)
{
    check(clock == &seen.starts, "the clock's pointer");
    seen.starts++;
}

static int is_late(void *clock)
{
    check(clock == &seen.starts, "the clock's pointer");
    return answer_to(CH32_I2C_KIND_CLOCK);
}

static void hold(void *interrupts)
{
    check(interrupts == &seen.holding && !seen.holding, "interrupts are held off once");
    seen.holding = 1;
}

static void release(void *interrupts)
{
    check(interrupts == &seen.holding && seen.holding, "held interrupts are released");
    seen.holding = 0;
}

static struct call c, by_hand;
static struct ch32_i2c_port port;

/* With hooks for interrupts, or with one of them, or none. */
static void make_port(unsigned hooks)
{
    static const struct ch32_i2c_port empty = {0};
    port = empty;
    port.registers = &seen;
    port.read_register = read_register;
    port.write_register = write_register;
    port.clock = &seen.starts;
    port.start_clock = start_clock;
    port.is_late = is_late;
    port.interrupts = &seen.holding;
    port.hold = hooks & 1 ? hold : NULL;
    port.release = hooks & 2 ? release : NULL;
}

/* The call by hand, with answers that are kept for the port; and where interrupts are to be held off. */
static uint64_t run_by_hand(uint64_t *record, uint8_t *critical, unsigned *count)
{
    uint64_t next = begin(&by_hand);
    unsigned i;
    for (i = 0; i < MOST && ch32_i2c_kind_of(next) != CH32_I2C_KIND_END; i++) {
        record[i] = next;
        critical[i] = (uint8_t)ch32_i2c_is_critical(by_hand.block, by_hand.block_length);
        seen.answers[i] = some_answer(&by_hand, next);
        next = step(&by_hand, seen.answers[i]);
    }
    *count = i;
    return next;
}

static struct ch32_i2c_slave_config config_of(void)
{
    struct ch32_i2c_slave_config config;
    config.ten_bit = c.ten_bit;
    config.address = c.own;
    config.has_second = c.has_second;
    config.second = c.second;
    config.general_call = c.general_call;
    config.clock_stretching = c.clock_stretching;
    return config;
}

/* The same by the header's functions that return the whole last number. */
static uint64_t run_whole(void)
{
    const struct ch32_i2c_slave_config config = config_of();
    switch (c.entry) {
    case INIT:
        return ch32_i2c_init_whole(&port, c.input, c.frequency, c.duty);
    case TRANSACTION:
        return ch32_i2c_transaction_whole(&port, c.address, c.list, c.list_length, c.written, c.written_length, c.read, c.read_length);
    case WRITE_READ:
        return ch32_i2c_write_read_whole(&port, c.address, c.written, c.written_length, c.read, c.read_length);
    case WRITE:
        if (c.option == 0)
            return ch32_i2c_write_whole(&port, c.address, c.written, c.written_length);
        return ch32_i2c_write_frame_whole(&port, c.address, c.option, c.written, c.written_length);
    case READ:
        if (c.option == 0)
            return ch32_i2c_read_whole(&port, c.address, c.read, c.read_length);
        return ch32_i2c_read_frame_whole(&port, c.address, c.option, c.read, c.read_length);
    case INIT_SLAVE:
        return ch32_i2c_init_slave_whole(&port, &config);
    case LISTEN:
        return ch32_i2c_listen_whole(&port);
    case RESPOND_TO_WRITE:
        return ch32_i2c_respond_to_write_whole(&port, c.read, c.read_length);
    default:
        return ch32_i2c_respond_to_read_whole(&port, c.written, c.written_length);
    }
}

/* The same by those that return the end; what they return, put together as the number's lower half. */
static uint64_t run_by_header(void)
{
    const struct ch32_i2c_slave_config config = config_of();
    struct ch32_i2c_slave_command command = {0, 0, 0};
    size_t size = 0;
    unsigned end;
    switch (c.entry) {
    case INIT:
        return ending(ch32_i2c_init(&port, c.input, c.frequency, c.duty));
    case TRANSACTION:
        return ending(ch32_i2c_transaction(&port, c.address, c.list, c.list_length, c.written, c.written_length, c.read, c.read_length));
    case WRITE_READ:
        return ending(ch32_i2c_write_read(&port, c.address, c.written, c.written_length, c.read, c.read_length));
    case WRITE:
        if (c.option == 0)
            return ending(ch32_i2c_write(&port, c.address, c.written, c.written_length));
        return ending(ch32_i2c_write_frame(&port, c.address, c.option, c.written, c.written_length));
    case READ:
        if (c.option == 0)
            return ending(ch32_i2c_read(&port, c.address, c.read, c.read_length));
        return ending(ch32_i2c_read_frame(&port, c.address, c.option, c.read, c.read_length));
    case INIT_SLAVE:
        return ending(ch32_i2c_init_slave(&port, &config));
    case LISTEN:
        end = ch32_i2c_listen(&port, &command);
        return ending(end) | (uint64_t)(command.address | (unsigned)command.ten_bit << 10 | command.command << 12) << 16;
    case RESPOND_TO_WRITE:
        end = ch32_i2c_respond_to_write(&port, c.read, c.read_length, &size);
        return ending(end) | (uint64_t)size << 16;
    default:
        end = ch32_i2c_respond_to_read(&port, c.written, c.written_length, &size);
        return ending(end) | (uint64_t)size << 16;
    }
}

static void compare(enum entry entry)
{
    static const uint8_t never[MOST];
    static uint64_t record[MOST];
    static uint8_t critical[MOST];
    unsigned count, hooks = chance(4);
    uint64_t end;
    plain_call(&c, entry);
    c.chip = (uint8_t)chance(4);
    c.option = (uint8_t)chance(6);
    c.address = (uint8_t)chance(132); /* refusals too */
    c.frequency = 1 + chance(410000);
    c.second = (uint8_t)chance(132);
    c.own = (uint16_t)chance(140);
    c.duty = (uint8_t)chance(2);
    c.ten_bit = (uint8_t)chance(2);
    c.has_second = (uint8_t)chance(2);
    c.general_call = (uint8_t)chance(2);
    c.clock_stretching = (uint8_t)chance(2);
    keep(&by_hand, &c);
    end = run_by_hand(record, critical, &count);
    if (ch32_i2c_kind_of(end) != CH32_I2C_KIND_END)
        return;
    seen.count = seen.starts = 0;
    make_port(hooks);
    port.chip = c.chip;
    if (chance(2))
        check(run_whole() == end, "%s: another whole end", entry_names[entry]);
    else
        check(run_by_header() == (end & 0xffffffff), "%s: another end", entry_names[entry]);
    check(seen.count == count && memcmp(seen.record, record, count * sizeof *record) == 0, "%s: other accesses", entry_names[entry]);
    check(memcmp(seen.held, hooks == 3 ? critical : never, count) == 0 && !seen.holding, "%s: interrupts held off elsewhere", entry_names[entry]);
    check(seen.starts == 1, "%s: the clock is started once", entry_names[entry]);
    memcpy(c.block, by_hand.block, sizeof c.block);
    check(same_bytes(&c, &by_hand), "%s: other bytes", entry_names[entry]);
}

/* Registers in memory: 16 bits wide, 4 bytes apart. */
static void mapped(void)
{
    uint16_t memory[18];
    unsigned i;
    struct ch32_i2c_port p = ch32_i2c_mapped_port(CH32_I2C_CHIP_V3, (uintptr_t)memory);
    struct ch32_i2c_question_clock clock = {3, 0};
    uint8_t byte = 0;
    for (i = 0; i < 18; i++)
        memory[i] = (uint16_t)(i % 2 ? 0xaaaa : 0x101 * i / 2);
    for (i = 0; i < 9; i++)
        check(p.read_register(p.registers, i) == 0x101 * i, "register %u in memory is read", i);
    p.write_register(p.registers, CH32_I2C_RTR, 0x1234);
    check(memory[16] == 0x1234, "register 8 in memory is written");
    check(ch32_i2c_init(&p, 36000000, 100000, CH32_I2C_DUTY_2_1) == 0, "init in memory");
    check(memory[2 * CH32_I2C_CTLR1] == 0x0001 && memory[2 * CH32_I2C_CTLR2] == 0x0124 && memory[2 * CH32_I2C_CKCFGR] == 0x00b4 &&
              memory[2 * CH32_I2C_RTR] == 0x0025,
          "what init leaves in memory");
    for (i = 1; i < 18; i += 2)
        check(memory[i] == 0xaaaa, "the upper half of register %u", i / 2);
    ch32_i2c_use_question_clock(&p, &clock);
    for (i = 0; i < 2; i++) { /* a bus that hangs: late at the fourth question, in each call anew */
        memset(memory, 0, sizeof memory);
        check(ch32_i2c_read(&p, 0x50, &byte, 1) == CH32_I2C_TIMEOUT && clock.asked == 3, "late after three questions");
    }
}

void test_blocking(void)
{
    int e, round;
    for (round = 0; round < 500; round++)
        for (e = 0; e < ENTRIES; e++)
            compare((enum entry)e);
    mapped();
}
