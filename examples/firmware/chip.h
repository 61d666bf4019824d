/* The registers that the example uses, by WCH's public map, and the pins of I2C1: V203 PB6 (SCL) and PB7 (SDA), V003 PC2 (SCL) and PC1 (SDA). */
#ifndef CHIP_H
#define CHIP_H

#include <stdint.h>

#define REGISTER(address) (*(volatile uint32_t *)(address))

/* Clocks of the peripherals. */
#define RCC_APB2PCENR REGISTER(0x40021018)
#define RCC_APB1PCENR REGISTER(0x4002101c)
#define RCC_I2C1 (1u << 21)
#define RCC_AFIO 1u

/* Pins: four bits each. */
#define GPIOA 0x40010800
#define GPIOB 0x40010c00
#define GPIOC 0x40011000
#define GPIOD 0x40011400
#define CFGLR(port) REGISTER((port) + 0)
#define BSHR(port) REGISTER((port) + 16)
#define PIN_OUTPUT 0x3u                /* push-pull */
#define PIN_ALTERNATE_OPEN_DRAIN 0xfu

/* SysTick of the core: counts up. */
#define SYSTICK_CTLR REGISTER(0xe000f000)
#define SYSTICK_CNT REGISTER(0xe000f008)
#define SYSTICK_ON 1u
#define SYSTICK_HCLK 4u /* each cycle of HCLK, not each eighth */

#define I2C1 0x40005400

/* After reset both run from their internal oscillator at 8 MHz: the V203's has 8 MHz, the V003's 24 MHz and a divider by 3. */
#define HCLK 8000000u
#define PCLK1 8000000u

#ifdef CH32V003
#define I2C1_PORT GPIOC
#define I2C1_PORT_CLOCK (1u << 4)
#define I2C1_SCL 2
#define I2C1_SDA 1
#define LED_PORT GPIOD
#define LED_PORT_CLOCK (1u << 5)
#define LED 4
#define CHIP CH32_I2C_CHIP_PLAIN
#else
#define I2C1_PORT GPIOB
#define I2C1_PORT_CLOCK (1u << 3)
#define I2C1_SCL 6
#define I2C1_SDA 7
#define LED_PORT GPIOA
#define LED_PORT_CLOCK (1u << 2)
#define LED 0
#define CHIP CH32_I2C_CHIP_V3
#endif

#endif
