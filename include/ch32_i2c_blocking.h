/* Whole calls in one line, over ch32_i2c.h: each function here begins a call, carries out what the steps hand out, and returns the end.
 *
 * Nothing in this header is proved. It is one loop, ch32_i2c_carry_out, and a few lines for each call. The proofs are about what the
 * functions of ch32_i2c.h hand out.
 *
 * The master calls are those of ch32-hal: ch32_i2c_transaction is blocking_transaction, and so on. Each returns the end: 0
 * (CH32_I2C_DONE) or another of enum ch32_i2c_end.
 *
 * Each call stands here twice. The one whose name ends in _whole returns the whole last number, from which the functions of ch32_i2c.h tell
 * all that there is to know of the end:
 *
 *     const uint64_t end = ch32_i2c_respond_to_read_whole(&port, data, n);
 *     if (ch32_i2c_end_of(end) == CH32_I2C_DONE)
 *         requeue(data + n - ch32_i2c_not_taken_of(end), ch32_i2c_not_taken_of(end));
 *     else
 *         report(ch32_i2c_end_of(end), ch32_i2c_flags_of(end)); */
#ifndef CH32_I2C_BLOCKING_H
#define CH32_I2C_BLOCKING_H

#include "ch32_i2c.h"

#ifdef __cplusplus
extern "C" {
#endif

/* ---- The port: how a program reaches the peripheral and tells the time ---- */

struct ch32_i2c_port {
    uint8_t chip;    /* one of enum ch32_i2c_chip */
    void *registers; /* handed to read_register and write_register */
    uint16_t (*read_register)(void *registers, unsigned number);
    void (*write_register)(void *registers, unsigned number, uint16_t value);
    void *clock; /* handed to start_clock and is_late */
    /* Called once at the start of each call, to set its deadline. May be null. */
    void (*start_clock)(void *clock);
    /* Whether the deadline has passed. Null: never, so that a call on a bus that hangs never ends. */
    int (*is_late)(void *clock);
    void *interrupts; /* handed to hold and release */
    /* Called around the two places of a read where ch32-hal holds interrupts off: `hold` before the first access, `release` behind the last. Both
     * or none: null where nothing is held. */
    void (*hold)(void *interrupts);
    void (*release)(void *interrupts);
};

/* A peripheral in memory: register n lies 4n bytes from the base and is read and written as 16 bits. */
static inline uint16_t ch32_i2c_mapped_read(void *registers, unsigned number)
{
    return ((volatile uint16_t *)registers)[2 * number];
}

static inline void ch32_i2c_mapped_write(void *registers, unsigned number, uint16_t value)
{
    ((volatile uint16_t *)registers)[2 * number] = value;
}

/* Such a port, still without a clock and without a hold. */
static inline struct ch32_i2c_port ch32_i2c_mapped_port(uint8_t chip, uintptr_t base)
{
    struct ch32_i2c_port port;
    port.chip = chip;
    port.registers = (void *)base;
    port.read_register = ch32_i2c_mapped_read;
    port.write_register = ch32_i2c_mapped_write;
    port.clock = NULL;
    port.start_clock = NULL;
    port.is_late = NULL;
    port.interrupts = NULL;
    port.hold = NULL;
    port.release = NULL;
    return port;
}

/* A clock for programs that have no timer: a call is late at the question after `limit` questions. */
struct ch32_i2c_question_clock {
    uint32_t limit, asked;
};

static inline void ch32_i2c_question_clock_start(void *clock) { ((struct ch32_i2c_question_clock *)clock)->asked = 0; }

static inline int ch32_i2c_question_clock_is_late(void *clock)
{
    struct ch32_i2c_question_clock *c = (struct ch32_i2c_question_clock *)clock;
    if (c->asked >= c->limit)
        return 1;
    c->asked++;
    return 0;
}

static inline void ch32_i2c_use_question_clock(struct ch32_i2c_port *port, struct ch32_i2c_question_clock *clock)
{
    port->clock = clock;
    port->start_clock = ch32_i2c_question_clock_start;
    port->is_late = ch32_i2c_question_clock_is_late;
}

/* ---- The loop ---- */

/* What a call was lent, and its block. */
struct ch32_i2c_lent {
    uint8_t block[CH32_I2C_BLOCK_SIZE];
    const uint8_t *list;
    size_t list_length;
    const uint8_t *written;
    size_t written_length;
    uint8_t *read;
    size_t read_length;
};

typedef uint64_t (*ch32_i2c_step)(struct ch32_i2c_lent *lent, uint16_t answer);

/* Holds interrupts off, or no longer, as the access asks that the block owes. Gives whether they are held. */
static inline int ch32_i2c_hold_or_release(const struct ch32_i2c_port *port, const uint8_t *block, int held)
{
    const int wanted = port->hold && port->release && ch32_i2c_is_critical(block, CH32_I2C_BLOCK_SIZE) != 0;
    if (wanted && !held)
        port->hold(port->interrupts);
    if (held && !wanted)
        port->release(port->interrupts);
    return wanted;
}

/* Does what `next` says and hands the answer to the step, until the end. */
static inline uint64_t ch32_i2c_carry_out(const struct ch32_i2c_port *port, uint64_t next, ch32_i2c_step step, struct ch32_i2c_lent *lent)
{
    int held = 0;
    for (;;) {
        uint16_t answer = 0;
        if (ch32_i2c_kind_of(next) != CH32_I2C_KIND_END)
            held = ch32_i2c_hold_or_release(port, lent->block, held);
        switch (ch32_i2c_kind_of(next)) {
        case CH32_I2C_KIND_READ:
            answer = port->read_register(port->registers, ch32_i2c_register_of(next));
            break;
        case CH32_I2C_KIND_WRITE:
            port->write_register(port->registers, ch32_i2c_register_of(next), ch32_i2c_value_of(next));
            break;
        case CH32_I2C_KIND_CLOCK:
            answer = port->is_late && port->is_late(port->clock) ? 1 : 0;
            break;
        default:
            if (held)
                port->release(port->interrupts);
            return next;
        }
        next = step(lent, answer);
    }
}

static inline struct ch32_i2c_lent ch32_i2c_lend(const struct ch32_i2c_port *port, const uint8_t *list, size_t list_length,
                                                 const uint8_t *written, size_t written_length, uint8_t *read, size_t read_length)
{
    struct ch32_i2c_lent lent;
    lent.list = list;
    lent.list_length = list_length;
    lent.written = written;
    lent.written_length = written_length;
    lent.read = read;
    lent.read_length = read_length;
    if (port->start_clock)
        port->start_clock(port->clock);
    return lent;
}

static inline uint64_t ch32_i2c_step_init(struct ch32_i2c_lent *l, uint16_t answer)
{
    return ch32_i2c_init_step(l->block, sizeof l->block, answer);
}
static inline uint64_t ch32_i2c_step_transaction(struct ch32_i2c_lent *l, uint16_t answer)
{
    return ch32_i2c_transaction_step(l->block, sizeof l->block, l->list, l->list_length, l->written, l->written_length, l->read,
                                     l->read_length, answer);
}
static inline uint64_t ch32_i2c_step_write_read(struct ch32_i2c_lent *l, uint16_t answer)
{
    return ch32_i2c_write_read_step(l->block, sizeof l->block, l->written, l->written_length, l->read, l->read_length, answer);
}
static inline uint64_t ch32_i2c_step_write(struct ch32_i2c_lent *l, uint16_t answer)
{
    return ch32_i2c_write_step(l->block, sizeof l->block, l->written, l->written_length, answer);
}
static inline uint64_t ch32_i2c_step_read(struct ch32_i2c_lent *l, uint16_t answer)
{
    return ch32_i2c_read_step(l->block, sizeof l->block, l->read, l->read_length, answer);
}
static inline uint64_t ch32_i2c_step_init_slave(struct ch32_i2c_lent *l, uint16_t answer)
{
    return ch32_i2c_init_slave_step(l->block, sizeof l->block, answer);
}
static inline uint64_t ch32_i2c_step_listen(struct ch32_i2c_lent *l, uint16_t answer)
{
    return ch32_i2c_listen_step(l->block, sizeof l->block, answer);
}
static inline uint64_t ch32_i2c_step_respond_to_write(struct ch32_i2c_lent *l, uint16_t answer)
{
    return ch32_i2c_respond_to_write_step(l->block, sizeof l->block, l->read, l->read_length, answer);
}
static inline uint64_t ch32_i2c_step_respond_to_read(struct ch32_i2c_lent *l, uint16_t answer)
{
    return ch32_i2c_respond_to_read_step(l->block, sizeof l->block, l->written, l->written_length, answer);
}

/* ---- The calls of a master ---- */

/* Resets the peripheral and sets its clock; both frequencies in hertz. */
static inline uint64_t ch32_i2c_init_whole(const struct ch32_i2c_port *port, uint32_t input, uint32_t frequency, uint8_t duty)
{
    struct ch32_i2c_lent l = ch32_i2c_lend(port, NULL, 0, NULL, 0, NULL, 0);
    uint64_t next = ch32_i2c_init_begin(l.block, sizeof l.block, port->chip, input, frequency, duty);
    return ch32_i2c_carry_out(port, next, ch32_i2c_step_init, &l);
}
static inline unsigned ch32_i2c_init(const struct ch32_i2c_port *port, uint32_t input, uint32_t frequency, uint8_t duty)
{
    return ch32_i2c_end_of(ch32_i2c_init_whole(port, input, frequency, duty));
}

/* The same with the fastest bus speed from `lowest` to `highest` hertz: 20 (CH32_I2C_NO_SUCH_SPEED), without any access, where there is none. The
 * whole end has the pair that was set (ch32_i2c_divider_of, ch32_i2c_factor_of). */
static inline uint64_t ch32_i2c_init_in_window_whole(const struct ch32_i2c_port *port, uint32_t input, uint32_t lowest, uint32_t highest)
{
    const uint64_t pair = ch32_i2c_speed_window(input, lowest, highest);
    uint64_t end = pair;
    if (ch32_i2c_is_done(pair))
        end = ch32_i2c_init_whole(port, input, ch32_i2c_frequency_of(pair, input), ch32_i2c_duty_of(pair));
    return ch32_i2c_is_done(end) ? pair : end;
}
static inline unsigned ch32_i2c_init_in_window(const struct ch32_i2c_port *port, uint32_t input, uint32_t lowest, uint32_t highest)
{
    return ch32_i2c_end_of(ch32_i2c_init_in_window_whole(port, input, lowest, highest));
}

/* The list is made with ch32_i2c_put_operation. */
static inline uint64_t ch32_i2c_transaction_whole(const struct ch32_i2c_port *port, uint8_t address, const uint8_t *list,
                                                  size_t list_length, const uint8_t *written, size_t written_length, uint8_t *read,
                                                  size_t read_length)
{
    struct ch32_i2c_lent l = ch32_i2c_lend(port, list, list_length, written, written_length, read, read_length);
    uint64_t next = ch32_i2c_transaction_begin(l.block, sizeof l.block, port->chip, address, list, list_length, written, written_length,
                                               read, read_length);
    return ch32_i2c_carry_out(port, next, ch32_i2c_step_transaction, &l);
}
static inline unsigned ch32_i2c_transaction(const struct ch32_i2c_port *port, uint8_t address, const uint8_t *list, size_t list_length,
                                            const uint8_t *written, size_t written_length, uint8_t *read, size_t read_length)
{
    return ch32_i2c_end_of(ch32_i2c_transaction_whole(port, address, list, list_length, written, written_length, read, read_length));
}

static inline uint64_t ch32_i2c_write_read_whole(const struct ch32_i2c_port *port, uint8_t address, const uint8_t *written,
                                                 size_t written_length, uint8_t *read, size_t read_length)
{
    struct ch32_i2c_lent l = ch32_i2c_lend(port, NULL, 0, written, written_length, read, read_length);
    uint64_t next = ch32_i2c_write_read_begin(l.block, sizeof l.block, port->chip, address, written, written_length, read, read_length);
    return ch32_i2c_carry_out(port, next, ch32_i2c_step_write_read, &l);
}
static inline unsigned ch32_i2c_write_read(const struct ch32_i2c_port *port, uint8_t address, const uint8_t *written,
                                           size_t written_length, uint8_t *read, size_t read_length)
{
    return ch32_i2c_end_of(ch32_i2c_write_read_whole(port, address, written, written_length, read, read_length));
}

/* A frame: see enum ch32_i2c_option. */
static inline uint64_t ch32_i2c_write_frame_whole(const struct ch32_i2c_port *port, uint8_t address, uint8_t option,
                                                  const uint8_t *written, size_t written_length)
{
    struct ch32_i2c_lent l = ch32_i2c_lend(port, NULL, 0, written, written_length, NULL, 0);
    uint64_t next = ch32_i2c_write_begin(l.block, sizeof l.block, port->chip, address, option, written, written_length);
    return ch32_i2c_carry_out(port, next, ch32_i2c_step_write, &l);
}
static inline unsigned ch32_i2c_write_frame(const struct ch32_i2c_port *port, uint8_t address, uint8_t option, const uint8_t *written,
                                            size_t written_length)
{
    return ch32_i2c_end_of(ch32_i2c_write_frame_whole(port, address, option, written, written_length));
}

static inline uint64_t ch32_i2c_read_frame_whole(const struct ch32_i2c_port *port, uint8_t address, uint8_t option, uint8_t *read,
                                                 size_t read_length)
{
    struct ch32_i2c_lent l = ch32_i2c_lend(port, NULL, 0, NULL, 0, read, read_length);
    uint64_t next = ch32_i2c_read_begin(l.block, sizeof l.block, port->chip, address, option, read, read_length);
    return ch32_i2c_carry_out(port, next, ch32_i2c_step_read, &l);
}
static inline unsigned ch32_i2c_read_frame(const struct ch32_i2c_port *port, uint8_t address, uint8_t option, uint8_t *read,
                                           size_t read_length)
{
    return ch32_i2c_end_of(ch32_i2c_read_frame_whole(port, address, option, read, read_length));
}

/* A whole transfer: one frame, first and last. */
static inline uint64_t ch32_i2c_write_whole(const struct ch32_i2c_port *port, uint8_t address, const uint8_t *written, size_t written_length)
{
    return ch32_i2c_write_frame_whole(port, address, CH32_I2C_FIRST_AND_LAST_FRAME, written, written_length);
}
static inline unsigned ch32_i2c_write(const struct ch32_i2c_port *port, uint8_t address, const uint8_t *written, size_t written_length)
{
    return ch32_i2c_end_of(ch32_i2c_write_whole(port, address, written, written_length));
}

static inline uint64_t ch32_i2c_read_whole(const struct ch32_i2c_port *port, uint8_t address, uint8_t *read, size_t read_length)
{
    return ch32_i2c_read_frame_whole(port, address, CH32_I2C_FIRST_AND_LAST_FRAME, read, read_length);
}
static inline unsigned ch32_i2c_read(const struct ch32_i2c_port *port, uint8_t address, uint8_t *read, size_t read_length)
{
    return ch32_i2c_end_of(ch32_i2c_read_whole(port, address, read, read_length));
}

/* ---- The calls of a slave ---- */

struct ch32_i2c_slave_config {
    uint8_t ten_bit;          /* 1: address has ten bits */
    uint16_t address;         /* this slave's address */
    uint8_t has_second;       /* 1: it has a second one, of seven bits */
    uint8_t second;
    uint8_t general_call;     /* 1: it answers address 0 too */
    uint8_t clock_stretching; /* 1: it may hold SCL low; what one wants as a rule */
};

/* After ch32_i2c_init. An address that UM10204 reserves is refused (17) before any access. */
static inline uint64_t ch32_i2c_init_slave_whole(const struct ch32_i2c_port *port, const struct ch32_i2c_slave_config *config)
{
    struct ch32_i2c_lent l = ch32_i2c_lend(port, NULL, 0, NULL, 0, NULL, 0);
    uint64_t next = ch32_i2c_init_slave_begin(l.block, sizeof l.block, config->ten_bit, config->address, config->has_second,
                                              config->second, config->general_call, config->clock_stretching);
    return ch32_i2c_carry_out(port, next, ch32_i2c_step_init_slave, &l);
}
static inline unsigned ch32_i2c_init_slave(const struct ch32_i2c_port *port, const struct ch32_i2c_slave_config *config)
{
    return ch32_i2c_end_of(ch32_i2c_init_slave_whole(port, config));
}

struct ch32_i2c_slave_command {
    unsigned command; /* one of enum ch32_i2c_command */
    unsigned address; /* the address that was matched */
    int ten_bit;
};

/* Waits for a master. *command is set at an end with 0 alone. */
static inline uint64_t ch32_i2c_listen_whole(const struct ch32_i2c_port *port)
{
    struct ch32_i2c_lent l = ch32_i2c_lend(port, NULL, 0, NULL, 0, NULL, 0);
    uint64_t next = ch32_i2c_listen_begin(l.block, sizeof l.block, port->chip);
    return ch32_i2c_carry_out(port, next, ch32_i2c_step_listen, &l);
}
static inline unsigned ch32_i2c_listen(const struct ch32_i2c_port *port, struct ch32_i2c_slave_command *command)
{
    const uint64_t end = ch32_i2c_listen_whole(port);
    if (ch32_i2c_end_of(end) == CH32_I2C_DONE) {
        command->command = ch32_i2c_command_of(end);
        command->address = ch32_i2c_command_address_of(end);
        command->ten_bit = ch32_i2c_command_ten_bit_of(end);
    }
    return ch32_i2c_end_of(end);
}

/* After a command to write, or a general call. *stored is set at an end with 0 alone. */
static inline uint64_t ch32_i2c_respond_to_write_whole(const struct ch32_i2c_port *port, uint8_t *buffer, size_t buffer_length)
{
    struct ch32_i2c_lent l = ch32_i2c_lend(port, NULL, 0, NULL, 0, buffer, buffer_length);
    uint64_t next = ch32_i2c_respond_to_write_begin(l.block, sizeof l.block, port->chip, buffer, buffer_length);
    return ch32_i2c_carry_out(port, next, ch32_i2c_step_respond_to_write, &l);
}
static inline unsigned ch32_i2c_respond_to_write(const struct ch32_i2c_port *port, uint8_t *buffer, size_t buffer_length, size_t *stored)
{
    const uint64_t end = ch32_i2c_respond_to_write_whole(port, buffer, buffer_length);
    if (ch32_i2c_end_of(end) == CH32_I2C_DONE)
        *stored = ch32_i2c_stored_of(end);
    return ch32_i2c_end_of(end);
}

/* After a command to read. *left_over is ch32-hal's count, set at an end with 0 alone. ch32_i2c_not_taken_of tells from the whole end how
 * many bytes the master did not take. */
static inline uint64_t ch32_i2c_respond_to_read_whole(const struct ch32_i2c_port *port, const uint8_t *data, size_t data_length)
{
    struct ch32_i2c_lent l = ch32_i2c_lend(port, NULL, 0, data, data_length, NULL, 0);
    uint64_t next = ch32_i2c_respond_to_read_begin(l.block, sizeof l.block, port->chip, data, data_length);
    return ch32_i2c_carry_out(port, next, ch32_i2c_step_respond_to_read, &l);
}
static inline unsigned ch32_i2c_respond_to_read(const struct ch32_i2c_port *port, const uint8_t *data, size_t data_length,
                                                size_t *left_over)
{
    const uint64_t end = ch32_i2c_respond_to_read_whole(port, data, data_length);
    if (ch32_i2c_end_of(end) == CH32_I2C_DONE)
        *left_over = ch32_i2c_left_over_of(end);
    return ch32_i2c_end_of(end);
}

#ifdef __cplusplus
}
#endif

#endif
