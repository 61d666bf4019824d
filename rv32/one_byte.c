/* How long a byte may take that is read alone: it begins to arrive when STAR2 is read behind ADDR, and STOP has to be asked before it is there. Counted are the
 * instructions between these two accesses, by the header's loop with its hooks set. Each flag comes at the first look. */
#include "ch32_i2c_blocking.h"
#include "registers.h"

#include <stdio.h>
#include <stdlib.h>

#define STOP 0x0200u

static uint32_t cleared_at, taken;

static uint32_t instructions(void)
{
    uint32_t count;
    READ_CSR("minstret", count);
    return count;
}

static uint16_t read_register(void *registers, unsigned number)
{
    (void)registers;
    switch (number) {
    case CH32_I2C_STAR1:
        return 0x00c7; /* TXE, RXNE, BTF, ADDR, SB */
    case CH32_I2C_STAR2:
        cleared_at = instructions();
        return 0x0001; /* MSL */
    default:
        return 0;
    }
}

static void write_register(void *registers, unsigned number, uint16_t value)
{
    (void)registers;
    if (number == CH32_I2C_CTLR1 && (value & STOP))
        taken = instructions() - cleared_at;
}

static void hold(void *unused) { (void)unused; }

static uint8_t list[256 * CH32_I2C_OPERATION_SIZE], written[256], read_bytes[256];

static struct ch32_i2c_port port;

static void result(const char *name, unsigned end)
{
    if (end != CH32_I2C_DONE || !taken) {
        printf("%s: end %u\n", name, end);
        exit(1);
    }
    printf("%s\t%lu\n", name, (unsigned long)taken);
    taken = 0;
}

/* A write, a read and so on, of one byte each; the last is a read. */
static void transaction(const char *name, unsigned count)
{
    size_t used = 0;
    unsigned i;
    for (i = 0; i < count; i++)
        used = ch32_i2c_put_operation(list, used, i % 2 ? CH32_I2C_DIRECTION_READ : CH32_I2C_DIRECTION_WRITE, 1);
    result(name, ch32_i2c_transaction(&port, 0x48, list, used, written, count / 2, read_bytes, count / 2));
}

int main(void)
{
    port.read_register = read_register;
    port.write_register = write_register;
    port.hold = hold;
    port.release = hold;
    result("read", ch32_i2c_read(&port, 0x48, read_bytes, 1));
    result("write-read", ch32_i2c_write_read(&port, 0x48, written, 1, read_bytes, 1));
    transaction("transaction, 2 operations", 2);
    transaction("transaction, 16 operations", 16);
    transaction("transaction, 256 operations", 256);
    return 0;
}
