/* The least program: one write-read, for the flash that it takes. */
#include "ch32_i2c_blocking.h"

int main(void)
{
    uint8_t pointer = 0, temperature[2];
    struct ch32_i2c_port port = ch32_i2c_mapped_port(CH32_I2C_CHIP_V3, 0x40005400);
    return (int)ch32_i2c_write_read(&port, 0x48, &pointer, 1, temperature, 2);
}
