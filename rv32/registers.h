/* Control registers of the core, by name. */
#ifndef REGISTERS_H
#define REGISTERS_H

#define CSR(words) ".option push\n.option arch, +zicsr\n" words "\n.option pop"
#define READ_CSR(name, to) __asm__ volatile(CSR("csrr %0, " name) : "=r"(to))
#define WRITE_CSR(name, value) __asm__ volatile(CSR("csrw " name ", %0") : : "r"(value) : "memory")
#define SET_CSR(name, bits) __asm__ volatile(CSR("csrs " name ", %0") : : "r"(bits) : "memory")
#define CLEAR_CSR(name, bits) __asm__ volatile(CSR("csrc " name ", %0") : : "r"(bits) : "memory")

/* mcause */
#define ILLEGAL_INSTRUCTION 2u
#define LOAD_FAULT 5u
#define STORE_FAULT 7u
#define TIMER_INTERRUPT 0x80000007u

/* mstatus */
#define INTERRUPTS 8u           /* MIE */
#define INTERRUPTS_BEFORE 0x80u /* MPIE */
#define MODE_BEFORE 0x1800u     /* MPP */

/* mie */
#define TIMER 0x80u

#endif
