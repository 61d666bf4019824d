/* Runs the program of examples/firmware for a chip as it would be flashed, at the chip's own addresses. The firmware runs in user mode, so that its accesses
 * to peripherals and its CSR instructions trap; this program, in machine mode, answers them: demo/sim.c is I2C1 with a sensor behind it, the other
 * registers are kept as written, and SysTick counts the simulation's time. Three rounds are watched: a warm sensor, a cold one, none. */
#include "chip.h"
#include "ch32_i2c.h"
#include "instruction.h"
#include "registers.h"
#include "sim.h"

#include <stdio.h>
#include <stdlib.h>
#include <string.h>

#define FLASH 0x08000000u
#define SENSOR 0x48

static struct sensor sensor;
static unsigned long accesses;
static unsigned rounds;

static void fail(const char *why, uint32_t pc, uint32_t address)
{
    printf("firmware: %s at %08lx, address %08lx\n", why, (unsigned long)pc, (unsigned long)address);
    exit(3);
}

/* ---- what the firmware has to have done ---- */

static const struct {
    double degrees;
    uint8_t address;
    uint32_t lit;
    const char *wire;
} wanted[] = {
    {26.5, SENSOR, 1u << LED, "START [48+W] ACK 00 ACK START [48+R] ACK 1a ACK 80 NACK STOP "},
    {-3.0, SENSOR, 1u << (LED + 16), "START [48+W] ACK 00 ACK START [48+R] ACK fd ACK 00 NACK STOP "},
    {26.5, 0x49, 1u << (LED + 16), "START [48+W] NACK STOP "},
};
#define ROUNDS (sizeof wanted / sizeof *wanted)

static void prepare_round(void)
{
    sensor.registers[0] = (uint16_t)(int)(wanted[rounds].degrees * 256);
    sensor.device.address = wanted[rounds].address;
}

/* The LED is set: the end of a round. */
static void finish_round(uint32_t value)
{
    const char *wire;
    sim_wait(50000); /* until STOP is out */
    wire = sim_wire();
    if (value != wanted[rounds].lit || strcmp(wire, wanted[rounds].wire) != 0) {
        printf("firmware: round %u, LED %08lx, wire %s\n", rounds, (unsigned long)value, wire);
        exit(1);
    }
    if (++rounds == ROUNDS) {
        printf("firmware: %u rounds as expected, %lu accesses to I2C1\n", rounds, accesses);
        exit(0);
    }
    prepare_round();
}

/* ---- registers beside I2C1's ---- */

#define AS_AFTER_RESET 0x44444444u /* pins: all inputs */

static uint32_t apb1, apb2, i2c1_pins = AS_AFTER_RESET, led_pins = AS_AFTER_RESET, systick;

static uint32_t *kept(uint32_t address)
{
    switch (address) {
    case 0x4002101c: return &apb1;
    case 0x40021018: return &apb2;
    case I2C1_PORT: return &i2c1_pins;
    case LED_PORT: return &led_pins;
    case 0xe000f000: return &systick;
    default: return NULL;
    }
}

static uint32_t with_pin(uint32_t pins, unsigned pin, uint32_t mode) { return (pins & ~(0xfu << 4 * pin)) | mode << 4 * pin; }

/* Clock and pins are set before the first access to I2C1. */
static int is_ready(void)
{
    return (apb1 & RCC_I2C1) && (apb2 & I2C1_PORT_CLOCK) && (apb2 & LED_PORT_CLOCK) && (systick & SYSTICK_ON)
        && i2c1_pins == with_pin(with_pin(AS_AFTER_RESET, I2C1_SCL, PIN_ALTERNATE_OPEN_DRAIN), I2C1_SDA, PIN_ALTERNATE_OPEN_DRAIN)
        && led_pins == with_pin(AS_AFTER_RESET, LED, PIN_OUTPUT);
}

static uint32_t read_word(uint32_t address, uint32_t pc)
{
    if (address == 0xe000f008) {
        sim_wait(SIM_ACCESS);
        return (uint32_t)(sim_now() * (HCLK / 1000000) / 1000);
    }
    if (!kept(address))
        fail("a read of another register", pc, address);
    return *kept(address);
}

static void write_word(uint32_t address, uint32_t value, uint32_t pc)
{
    if (address == LED_PORT + 16)
        finish_round(value);
    else if (!kept(address))
        fail("a write of another register", pc, address);
    else
        *kept(address) = value;
}

/* There is no waveform. */
void vcd_lines(uint64_t time, int scl, int sda)
{
    (void)time, (void)scl, (void)sda;
}

/* ---- traps ---- */

static void carry_out(uint32_t *x, struct access a, uint32_t address, uint32_t pc)
{
    const unsigned number = (address - I2C1) / 4;
    if (address - I2C1 > 4 * CH32_I2C_RTR) {
        if (a.bits != 32)
            fail("an access that is not of 32 bits", pc, address);
        if (a.is_store)
            write_word(address, x[a.x], pc);
        else
            x[a.x] = read_word(address, pc);
        return;
    }
    accesses++;
    if (a.bits != 16 || address % 4 != 0)
        fail("an access to I2C1 that is not of 16 bits", pc, address);
    if (!is_ready())
        fail("I2C1 before its clock and pins", pc, address);
    if (a.is_store)
        sim_write(NULL, number, (uint16_t)x[a.x]);
    else
        x[a.x] = sim_read(NULL, number);
}

/* Gives the place to go on. */
uint32_t handle(uint32_t *x)
{
    uint32_t cause, pc, address;
    READ_CSR("mcause", cause);
    READ_CSR("mepc", pc);
    READ_CSR("mtval", address);
    if (cause == ILLEGAL_INSTRUCTION) {
        const uint32_t word = *(const uint16_t *)pc | (uint32_t)*(const uint16_t *)(pc + 2) << 16;
        const uint32_t vectors = x[word >> 15 & 31];
        if ((word & 0xfff07fffu) != 0x30501073u) /* csrw mtvec */
            fail("another instruction that is not allowed", pc, word);
        if (vectors != FLASH + 1)
            fail("a vector table that is not one", pc, vectors);
        return pc + 4;
    }
    if (cause != LOAD_FAULT && cause != STORE_FAULT)
        fail("another trap", pc, address);
    carry_out(x, access_at(pc), address, pc);
    return pc + access_at(pc).length;
}

#define ALL_REGISTERS ".irp n, 1,3,4,5,6,7,8,9,10,11,12,13,14,15,16,17,18,19,20,21,22,23,24,25,26,27,28,29,30,31\n"

/* mscratch holds this program's stack while the firmware runs. */
void trap(void);
__asm__(".text\n.balign 4\n.option push\n.option arch, +zicsr\ntrap:\n"
        "csrrw sp, mscratch, sp\naddi sp, sp, -128\n" ALL_REGISTERS "sw x\\n, 4*\\n(sp)\n.endr\n"
        "sw x0, 0(sp)\n.option push\n.option norelax\nla gp, __global_pointer$\n.option pop\n"
        "mv a0, sp\ncall handle\ncsrw mepc, a0\n" ALL_REGISTERS "lw x\\n, 4*\\n(sp)\n.endr\n"
        "addi sp, sp, 128\ncsrrw sp, mscratch, sp\nmret\n.option pop\n");

int main(void)
{
    sensor_make(&sensor, SENSOR, 0);
    sim_attach(&sensor.device);
    prepare_round();
    WRITE_CSR("mtvec", trap);
    WRITE_CSR("pmpaddr0", 0xffffffffu); /* user mode may reach everything */
    WRITE_CSR("pmpcfg0", 0x1fu);
    CLEAR_CSR("mstatus", MODE_BEFORE);
    WRITE_CSR("mepc", FLASH);
    __asm__ volatile(CSR("csrw mscratch, sp\nmret"));
    return 1;
}
