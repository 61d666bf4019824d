/* Reads a temperature sensor at 0x48 once a second, and lights an LED above 25 degrees. If the sensor does not answer the LED is dark. */
#include "chip.h"
#include "ch32_i2c_blocking.h"

#define SENSOR 0x48
#define CALL_LIMIT (HCLK / 100) /* a call may take 10 ms */

/* ---- the clock of the calls: SysTick ---- */

static void start_clock(void *began) { *(uint32_t *)began = SYSTICK_CNT; }

static int is_late(void *began) { return SYSTICK_CNT - *(uint32_t *)began > CALL_LIMIT; }

/* ---- the chip ---- */

static void set_pin(uintptr_t port, unsigned pin, uint32_t mode)
{
    CFGLR(port) = (CFGLR(port) & ~(0xfu << 4 * pin)) | mode << 4 * pin;
}

static void set_up_chip(void)
{
    SYSTICK_CTLR = SYSTICK_ON | SYSTICK_HCLK;
    RCC_APB2PCENR |= RCC_AFIO | I2C1_PORT_CLOCK | LED_PORT_CLOCK;
    RCC_APB1PCENR |= RCC_I2C1;
    set_pin(I2C1_PORT, I2C1_SCL, PIN_ALTERNATE_OPEN_DRAIN);
    set_pin(I2C1_PORT, I2C1_SDA, PIN_ALTERNATE_OPEN_DRAIN);
    set_pin(LED_PORT, LED, PIN_OUTPUT);
}

static void light(int on) { BSHR(LED_PORT) = on ? 1u << LED : 1u << (LED + 16); }

static void wait_a_second(void)
{
    const uint32_t began = SYSTICK_CNT;
    while (SYSTICK_CNT - began < HCLK)
        ;
}

int main(void)
{
    static const uint8_t temperature_register = 0;
    static uint32_t call_began;
    struct ch32_i2c_port port = ch32_i2c_mapped_port(CHIP, I2C1);
    port.clock = &call_began;
    port.start_clock = start_clock;
    port.is_late = is_late;

    set_up_chip();
    if (ch32_i2c_init(&port, PCLK1, 100000, CH32_I2C_DUTY_2_1) != CH32_I2C_DONE)
        return 1;
    for (;;) {
        uint8_t bytes[2];
        const unsigned end = ch32_i2c_write_read(&port, SENSOR, &temperature_register, 1, bytes, 2);
        light(end == CH32_I2C_DONE && (int8_t)bytes[0] >= 25);
        wait_a_second();
    }
}
