/* What a speed window costs, in instructions: those of docs/SPEED.md, and the dearest of many. */
#include "ch32_i2c.h"
#include "registers.h"

#include <stdio.h>

static const struct {
    const char *name;
    uint32_t input, lowest, highest;
} windows[] = {
    {"95,000 to 100,000", 36000000, 95000, 100000},
    {"380,000 to 400,000", 36000000, 380000, 400000},
    {"360,000", 36000000, 360000, 360000},
    {"387,097 to 399,999", 36000000, 387097, 399999},
};

/* Without what counting itself costs. */
static uint32_t taken(uint32_t input, uint32_t lowest, uint32_t highest)
{
    uint32_t none, before, after;
    READ_CSR("minstret", none);
    READ_CSR("minstret", before);
    (void)ch32_i2c_speed_window(input, lowest, highest);
    READ_CSR("minstret", after);
    return after - before - (before - none);
}

int main(void)
{
    uint32_t dearest = 0, clock, highest, wide;
    unsigned i, count = 0;
    for (i = 0; i < sizeof windows / sizeof *windows; i++)
        printf("%s\t%lu\n", windows[i].name, (unsigned long)taken(windows[i].input, windows[i].lowest, windows[i].highest));
    for (clock = 1; clock != 0; clock <<= 1)
        for (highest = 1; highest < 1000000; highest = highest * 2 + 1)
            for (wide = 0; wide < 3; wide++, count++) {
                const uint32_t now = taken(clock - 1 + wide, highest / (wide + 1), highest);
                dearest = now > dearest ? now : dearest;
            }
    printf("the dearest of %u\t%lu\n", count, (unsigned long)dearest);
    return 0;
}
