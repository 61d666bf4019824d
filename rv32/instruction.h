/* A load or store that trapped, taken apart. */
#ifndef INSTRUCTION_H
#define INSTRUCTION_H

#include <stdint.h>

struct access {
    unsigned bits;     /* 0: another instruction */
    unsigned is_store;
    unsigned x;        /* the register that is loaded or stored */
    unsigned length;   /* of the instruction */
};

static inline struct access access_at(uint32_t pc)
{
    const uint16_t *at = (const uint16_t *)pc;
    const uint32_t word = at[0] | (uint32_t)((at[0] & 3) == 3 ? at[1] : 0) << 16;
    struct access a = {0, 0, 0, 4};
    if ((word & 3) != 3) { /* compressed: c.lw, c.sw */
        a.length = 2;
        a.bits = (word & 0x6003) == 0x4000 ? 32 : 0;
        a.is_store = word >> 15 & 1;
        a.x = 8 + (word >> 2 & 7);
    } else if ((word & 0x7f) == 0x03) { /* lw, lbu, lhu; no register is read with its sign */
        static const uint8_t bits[] = {0, 0, 32, 0, 8, 16, 0, 0};
        a.bits = bits[word >> 12 & 7];
        a.x = word >> 7 & 31;
    } else if ((word & 0x7f) == 0x23) { /* sb sh sw */
        a.bits = 8u << (word >> 12 & 3);
        a.is_store = 1;
        a.x = word >> 20 & 31;
    }
    return a;
}

#endif
