/* Instructions inside the library, for each access of the calls of docs/SPEED.md, and the stack that was used. Run on RV32 with one tick for each
 * instruction, so that minstret counts them; what the call of an empty function costs is taken off. */
#include "course.h"

#include <stdio.h>
#include <stdlib.h>

static uint8_t block[CH32_I2C_BLOCK_SIZE], written[256], read_bytes[256];

static uint32_t instructions(void)
{
    uint32_t count;
    __asm__ volatile(".option push\n.option arch, +zicsr\ncsrr %0, minstret\n.option pop" : "=r"(count) : : "memory");
    return count;
}

/* ---- the stack below a call: painted before it, looked at after it ---- */

#define PAINTED 2048

static inline __attribute__((always_inline)) volatile uint8_t *below(void)
{
    uintptr_t sp;
    __asm__ volatile("mv %0, sp" : "=r"(sp));
    return (volatile uint8_t *)(sp - PAINTED);
}

static unsigned deepest;

#define PAINT \
    for (i = 0; i < PAINTED; i++) \
    below()[i] = 0xa5
#define LOOK \
    for (i = 0; i < PAINTED && below()[i] == 0xa5; i++) \
        ; \
    if (PAINTED - i > deepest) \
    deepest = PAINTED - i

/* ---- one begin or step ---- */

/* Any function of the library; it is called as what it is. */
#pragma GCC diagnostic ignored "-Wcast-function-type"
typedef uint64_t any(void);

any empty;
__asm__(".section .text.empty, \"ax\"\n.globl empty\nempty: ret\n.text");

/* `f` is the library's function, or `empty`; *spent gets what was counted. */
#define CALL(function, ...) (before = instructions(), next = ((__typeof__(function) *)f)(__VA_ARGS__), *spent = instructions() - before)

static __attribute__((noinline)) uint64_t begin(const struct course *c, any *f, uint32_t *spent)
{
    const size_t b = sizeof block, l = c->list_length, w = c->written_length, r = c->read_length;
    uint64_t next = 0;
    uint32_t before;
    unsigned i;
    PAINT;
    switch (c->entry) {
    case WRITE: CALL(ch32_i2c_write_begin, block, b, 0, c->address, 0, written, w); break;
    case WRITE_READ: CALL(ch32_i2c_write_read_begin, block, b, 0, c->address, written, w, read_bytes, r); break;
    case TRANSACTION: CALL(ch32_i2c_transaction_begin, block, b, 0, c->address, c->list, l, written, w, read_bytes, r); break;
    case RESPOND_TO_WRITE: CALL(ch32_i2c_respond_to_write_begin, block, b, 0, read_bytes, r); break;
    case RESPOND_TO_READ: CALL(ch32_i2c_respond_to_read_begin, block, b, 0, written, w); break;
    }
    LOOK;
    return next;
}

static __attribute__((noinline)) uint64_t step(const struct course *c, any *f, uint16_t answer, uint32_t *spent)
{
    const size_t b = sizeof block, l = c->list_length, w = c->written_length, r = c->read_length;
    uint64_t next = 0;
    uint32_t before;
    unsigned i;
    PAINT;
    switch (c->entry) {
    case WRITE: CALL(ch32_i2c_write_step, block, b, written, w, answer); break;
    case WRITE_READ: CALL(ch32_i2c_write_read_step, block, b, written, w, read_bytes, r, answer); break;
    case TRANSACTION: CALL(ch32_i2c_transaction_step, block, b, c->list, l, written, w, read_bytes, r, answer); break;
    case RESPOND_TO_WRITE: CALL(ch32_i2c_respond_to_write_step, block, b, read_bytes, r, answer); break;
    case RESPOND_TO_READ: CALL(ch32_i2c_respond_to_read_step, block, b, written, w, answer); break;
    }
    LOOK;
    return next;
}

static any *const begins[] = {(any *)ch32_i2c_write_begin, (any *)ch32_i2c_write_read_begin, (any *)ch32_i2c_transaction_begin,
                              (any *)ch32_i2c_respond_to_write_begin, (any *)ch32_i2c_respond_to_read_begin};
static any *const steps[] = {(any *)ch32_i2c_write_step, (any *)ch32_i2c_write_read_step, (any *)ch32_i2c_transaction_step,
                             (any *)ch32_i2c_respond_to_write_step, (any *)ch32_i2c_respond_to_read_step};

/* ---- a whole call ---- */

static void run(const struct course *c)
{
    uint32_t spent, begin_costs, step_costs, all, worst = 0;
    size_t accesses = 0, used = 0;
    uint64_t next;
    deepest = 0;
    begin(c, empty, &begin_costs);
    step(c, empty, 0, &step_costs);
    next = begin(c, begins[c->entry], &spent);
    all = spent - begin_costs + 1; /* 1: the return of `empty` */
    while (ch32_i2c_kind_of(next) != CH32_I2C_KIND_END) {
        const uint16_t answer = ch32_i2c_kind_of(next) == CH32_I2C_KIND_WRITE ? 0 : c->answers[used++];
        accesses++;
        next = step(c, steps[c->entry], answer, &spent);
        spent = spent - step_costs + 1;
        all += spent;
        if (spent > worst)
            worst = spent;
    }
    if (!ch32_i2c_is_done(next) || accesses != c->accesses) {
        printf("%s: %lu accesses, end %u\n", c->name, (unsigned long)accesses, ch32_i2c_end_of(next));
        exit(1);
    }
    printf("%s\t%.1f\t%lu\t%u\n", c->name, (double)all / (double)accesses, (unsigned long)worst, deepest);
}

/* A line for each call: its name, instructions for each access, the worst step's, the stack seen. */
int main(void)
{
    size_t i;
    for (i = 0; i < COURSES; i++)
        run(&courses[i]);
    return 0;
}
