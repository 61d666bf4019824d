/* The port of the demonstration: functions that ask the simulated peripheral, and its clock. */
#include "port.h"
#include "sim.h"

#include <stdio.h>

#define TIMEOUT 2000000u /* 2 ms for each call */

unsigned long port_accesses;
static int printed;
static uint64_t deadline;

static const char *const names[] = {"CTLR1", "CTLR2", "OADDR1", "OADDR2", "DATAR", "STAR1", "STAR2", "CKCFGR", "RTR"};

static uint16_t read_register(void *registers, unsigned number)
{
    uint16_t value = sim_read(registers, number);
    port_accesses++;
    if (printed)
        printf("     r,%s,%04x\n", names[number], value);
    return value;
}

static void write_register(void *registers, unsigned number, uint16_t value)
{
    port_accesses++;
    if (printed)
        printf("     w,%s,%04x\n", names[number], value);
    sim_write(registers, number, value);
}

static void start_clock(void *clock)
{
    (void)clock;
    deadline = sim_now() + TIMEOUT;
}

static int is_late(void *clock)
{
    int late;
    (void)clock;
    port_accesses++;
    sim_wait(SIM_ACCESS);
    late = sim_now() > deadline;
    if (printed)
        printf("     c,clock,%04x\n", late);
    return late;
}

struct ch32_i2c_port port_make(int verbose)
{
    struct ch32_i2c_port port = {0};
    printed = verbose;
    port.chip = CH32_I2C_CHIP_V3;
    port.read_register = read_register;
    port.write_register = write_register;
    port.start_clock = start_clock;
    port.is_late = is_late;
    return port;
}
