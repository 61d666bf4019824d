/* Read-only memory on RV32: loads and stores are made as in user mode (MPRV), and PMP lets user mode read these pages only. */
#include "read_only.h"
#include "registers.h"

#include <stdint.h>
#include <stdio.h>
#include <stdlib.h>

#define MPRV 0x20000u
#define UP_TO 0x08u /* an area from the address before to this */
#define READ 0x01u
#define ALL 0x0fu /* the same, to be read, written and run */

void stored(void);
void stored(void)
{
    CLEAR_CSR("mstatus", MPRV);
    printf("FAILED a refused step stored into read-only memory\n");
    exit(1);
}

void store_trap(void);
__asm__(".text\n.balign 4\nstore_trap: j stored");

/* Three areas: before, the pages, behind. */
int read_only(void *at, size_t length)
{
    WRITE_CSR("mtvec", store_trap);
    WRITE_CSR("pmpaddr0", (uintptr_t)at >> 2);
    WRITE_CSR("pmpaddr1", ((uintptr_t)at + length) >> 2);
    WRITE_CSR("pmpaddr2", 0xffffffffu);
    WRITE_CSR("pmpcfg0", ALL | (UP_TO | READ) << 8 | (uint32_t)ALL << 16);
    CLEAR_CSR("mstatus", MODE_BEFORE);
    SET_CSR("mstatus", MPRV);
    return 1;
}

int writable(void *at, size_t length)
{
    (void)at;
    (void)length;
    CLEAR_CSR("mstatus", MPRV);
    return 1;
}
