#include "as_the_rust.h"

/* The class that the Rust's order finds among the flags of an error; where none of them is an error on this chip, the number itself. */
static uint64_t rust_class(uint8_t chip, uint8_t master, uint64_t flags, uint64_t number)
{
    const int v3 = chip & 1, ch32v4 = chip & 2;
    if (flags & 0x0200) /* ARLO */
        return 2;
    if (v3 && flags & 0x4000) /* TIMEOUT */
        return 4;
    if (flags & 0x1000) /* PECERR */
        return 5;
    if (flags & 0x0800) /* OVR */
        return 6;
    if (master && flags & 0x0400) /* AF */
        return 3;
    if (ch32v4 && flags & 0x0100) /* BERR */
        return 1;
    return number;
}

/* The Rust has no second number at an end with 0, and at an error no flags, and its own order. */
uint64_t as_the_rust(uint8_t chip, uint8_t master, uint64_t end)
{
    if ((end & 0xffff) == 0)
        return end & ~((uint64_t)0xffff << 32);
    return (end & 0xffffffff00ff) | rust_class(chip, master, end >> 48, end >> 8 & 0xff) << 8;
}
