/* The demonstration as firmware: demo/demo.c over the header's mapped port, at the address that I2C1 has on a CH32V203. Qemu's board `spike` has nothing
 * there, so each access traps; the handler takes the instruction apart, lets demo/sim.c answer, and goes on behind it. Anything but a 16-bit access
 * at a register's place fails. Meanwhile a timer interrupts every 100 to 700 instructions, and each time a slave's receive goes on by one
 * step, on a block of its own; it has to go as it went once with nothing else running. The port's hooks hold the interrupts off; the handler sees at each
 * access whether they are. */
#include "course.h"
#include "instruction.h"
#include "port.h"
#include "registers.h"
#include "sim.h"

#include <stdio.h>
#include <stdlib.h>
#include <string.h>

#define I2C1 0x40005400u
#define LAST_REGISTER (4 * CH32_I2C_RTR)
#define TIMEOUT 2000000u /* 2 ms for each call */

#define MTIME (*(volatile uint32_t *)0x0200bff8u)
#define MTIMECMP ((volatile uint32_t *)0x02004000u)

/* ---- the port of the demonstration ---- */

unsigned long port_accesses;
static uint64_t deadline;

static void start_clock(void *clock)
{
    (void)clock;
    deadline = sim_now() + TIMEOUT;
}

static int is_late(void *clock)
{
    (void)clock;
    port_accesses++;
    sim_wait(SIM_ACCESS);
    return sim_now() > deadline;
}

static int holding;

static void hold(void *interrupts)
{
    CLEAR_CSR("mstatus", INTERRUPTS);
    *(int *)interrupts = 1;
}

static void release(void *interrupts)
{
    *(int *)interrupts = 0;
    SET_CSR("mstatus", INTERRUPTS);
}

struct ch32_i2c_port port_make(int verbose)
{
    struct ch32_i2c_port port = ch32_i2c_mapped_port(CH32_I2C_CHIP_V3, I2C1);
    (void)verbose;
    port.start_clock = start_clock;
    port.is_late = is_late;
    port.interrupts = &holding;
    port.hold = hold;
    port.release = release;
    return port;
}

/* ---- the interrupts' own call ---- */

#define MOST 64

/* A receive, number by number. */
struct receive {
    const struct course *course;
    uint8_t block[CH32_I2C_BLOCK_SIZE], bytes[8];
    uint64_t numbers[MOST];
    size_t count, used;
};

static struct receive alone, disturbed;
static unsigned long ticks, inside, calls, wrong;

/* The next number; whether it was the last. */
static int receive_on(struct receive *r)
{
    const uint64_t last = r->count ? r->numbers[r->count - 1] : 0;
    uint64_t next;
    if (r->count == 0)
        next = ch32_i2c_respond_to_write_begin(r->block, sizeof r->block, 0, r->bytes, sizeof r->bytes);
    else
        next = ch32_i2c_respond_to_write_step(r->block, sizeof r->block, r->bytes, sizeof r->bytes,
                                              ch32_i2c_kind_of(last) == CH32_I2C_KIND_WRITE ? 0 : r->course->answers[r->used++]);
    r->numbers[r->count++] = next;
    return ch32_i2c_kind_of(next) == CH32_I2C_KIND_END || r->count == MOST;
}

static void receive_start(struct receive *r, const struct course *course)
{
    memset(r, 0, sizeof *r);
    r->course = course;
}

static void receive_alone(void)
{
    size_t i;
    for (i = 0; courses[i].entry != RESPOND_TO_WRITE; i++)
        ;
    receive_start(&alone, &courses[i]);
    while (!receive_on(&alone))
        ;
    receive_start(&disturbed, &courses[i]);
}

static void tick(uint32_t pc)
{
    ticks++;
    wrong += (unsigned long)holding;
    inside += pc - (uint32_t)(uintptr_t)ch32_i2c_write_read_step < 4096u;
    if (receive_on(&disturbed)) {
        wrong += memcmp(&disturbed, &alone, sizeof alone) != 0 || !ch32_i2c_is_done(alone.numbers[alone.count - 1]);
        calls++;
        receive_start(&disturbed, alone.course);
    }
    MTIMECMP[0] = MTIME + 1 + ticks % 7;
}

/* ---- traps ---- */

static void fail(const char *why, uint32_t pc, uint32_t address)
{
    printf("board: %s at %08lx, address %08lx\n", why, (unsigned long)pc, (unsigned long)address);
    exit(3);
}

static void carry_out(uint32_t *x, struct access a, uint32_t pc, uint32_t address)
{
    const unsigned number = (address - I2C1) / 4;
    if (address - I2C1 > LAST_REGISTER || address % 4 != 0)
        fail("an access outside the registers", pc, address);
    if (a.bits != 16)
        fail("an access that is not of 16 bits", pc, address);
    port_accesses++;
    if (a.is_store)
        sim_write(NULL, number, (uint16_t)x[a.x]);
    else
        x[a.x] = sim_read(NULL, number);
}

/* The accesses with interrupts off, and the sections that they make. By blocking_read_iter the reads of the demonstration have, each section in
 * brackets: six of 2 bytes [3] [4], one of 5 bytes [1] [4], one of 1 byte [5], one of 2 bytes [3] [4]. */
#define SECTIONS 17
#define HELD_ACCESSES 59

static unsigned long traps, held_accesses, sections;
static int was_held;

static void note_hold(void)
{
    uint32_t status;
    int is_held;
    READ_CSR("mstatus", status);
    is_held = !(status & INTERRUPTS_BEFORE);
    wrong += is_held != holding;
    held_accesses += (unsigned long)is_held;
    sections += is_held && !was_held;
    was_held = is_held;
}

/* x are the registers. Gives the place to go on. */
uint32_t handle(uint32_t *x)
{
    uint32_t cause, pc, address;
    READ_CSR("mcause", cause);
    READ_CSR("mepc", pc);
    READ_CSR("mtval", address);
    if (cause == TIMER_INTERRUPT) {
        tick(pc);
        return pc;
    }
    if (cause != LOAD_FAULT && cause != STORE_FAULT)
        fail("another trap", pc, address);
    traps++;
    note_hold();
    carry_out(x, access_at(pc), pc, address);
    return pc + access_at(pc).length;
}

#define ALL_REGISTERS ".irp n, 1,3,4,5,6,7,8,9,10,11,12,13,14,15,16,17,18,19,20,21,22,23,24,25,26,27,28,29,30,31\n"

void trap(void);
__asm__(".text\n.balign 4\ntrap:\n"
        "addi sp, sp, -128\n" ALL_REGISTERS "sw x\\n, 4*\\n(sp)\n.endr\n"
        "sw x0, 0(sp)\nmv a0, sp\ncall handle\n" CSR("csrw mepc, a0") "\n" ALL_REGISTERS "lw x\\n, 4*\\n(sp)\n.endr\n"
        "addi sp, sp, 128\nmret\n");

int demo_main(int count, char **arguments);

int main(int count, char **arguments)
{
    int result;
    receive_alone();
    WRITE_CSR("mtvec", trap);
    MTIMECMP[1] = 0;
    MTIMECMP[0] = MTIME + 1;
    SET_CSR("mie", TIMER);
    SET_CSR("mstatus", INTERRUPTS);
    result = demo_main(count, arguments);
    CLEAR_CSR("mstatus", INTERRUPTS);
    printf("board: %lu accesses trapped, %lu of them in %lu sections without interrupts; %lu interrupts, %lu of them inside write_read_step, %lu calls "
           "in them, %lu wrong\n",
           traps, held_accesses, sections, ticks, inside, calls, wrong);
    return result || wrong || traps == 0 || inside == 0 || calls == 0 || held_accesses != HELD_ACCESSES || sections != SECTIONS;
}
