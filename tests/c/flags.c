/* The flags of an error: those of the word that decided it, through every abort; none where no word decided. The order in which they decide, on
 * every chip. Then which flags a block may hold beside which error, by its chip and as a master or a slave. */
#include "call.h"

#define SB 0x0001u

static struct call c, tried, before;

/* ---- ends ---- */

/* On to the end, with words that show other flags, which are not to be looked at; the clock is late. */
static uint64_t ended(uint64_t next)
{
    unsigned steps = 0;
    while (ch32_i2c_kind_of(next) != CH32_I2C_KIND_END && steps++ < 20)
        next = step(&c, ch32_i2c_kind_of(next) == CH32_I2C_KIND_CLOCK ? 1 : (uint16_t)(chance(0x10000) | 0x0e00));
    return next;
}

/* Waits at STAR1: a write without START, or a slave call. */
static uint64_t at_status(enum entry entry, unsigned chip)
{
    uint64_t next;
    unsigned i;
    plain_call(&c, entry);
    c.chip = (uint8_t)chip;
    c.option = CH32_I2C_NEXT_FRAME;
    next = begin(&c);
    for (i = 0; entry == LISTEN && i < 8; i++)
        next = step(&c, 0);
    check(next == (CH32_I2C_KIND_READ | CH32_I2C_STAR1 << 8), "%s: does not wait at STAR1", entry_names[entry]);
    return next;
}

static const enum entry waiting[] = {WRITE, LISTEN, RESPOND_TO_WRITE, RESPOND_TO_READ};

/* The flags that are no error on this chip. */
static unsigned harmless(unsigned chip, int master)
{
    return (chip & CH32_I2C_CHIP_V3 ? 0 : CH32_I2C_FLAG_TIMEOUT) | (chip & CH32_I2C_CHIP_CH32V4 ? 0 : CH32_I2C_FLAG_BERR) |
           (master ? 0 : CH32_I2C_FLAG_AF);
}

/* First a word with harmless flags alone, then one with an overrun beside them, or a late clock. */
static void second_word(enum entry entry, unsigned chip, unsigned first, unsigned second, int late)
{
    const unsigned others = entry == RESPOND_TO_READ ? CH32_I2C_FLAG_AF : 0; /* AF ends a reply */
    uint64_t next = at_status(entry, chip), wanted = ending(CH32_I2C_TIMEOUT);
    first &= ~others;
    second &= ~others;
    next = step(&c, (uint16_t)first);
    if (first)
        next = step(&c, 0);
    check(next == CH32_I2C_KIND_CLOCK, "%s, chip %u: %#x is an error", entry_names[entry], chip, first);
    if (!late) {
        step(&c, 0);
        step(&c, (uint16_t)(second | CH32_I2C_FLAG_OVR | 0x2000));
        next = step(&c, (uint16_t)first);
        wanted = ending(CH32_I2C_OVERRUN) | (uint64_t)(second | CH32_I2C_FLAG_OVR) << 48;
    }
    next = ended(next);
    check(next == wanted, "%s, chip %u, %#x then %#x: got %#llx", entry_names[entry], chip, first, second, (unsigned long long)next);
    check(ch32_i2c_flags_of(next) == (late ? 0 : second | CH32_I2C_FLAG_OVR), "%s: flags_of", entry_names[entry]);
}

/* Those of the three by a number below 8. */
static unsigned some_of(unsigned number)
{
    return (number & 1 ? CH32_I2C_FLAG_BERR : 0) | (number & 2 ? CH32_I2C_FLAG_AF : 0) | (number & 4 ? CH32_I2C_FLAG_TIMEOUT : 0);
}

static void words(void)
{
    unsigned chip, i, set, first, second;
    for (chip = 0; chip < 4; chip++)
        for (i = 0; i < sizeof waiting / sizeof *waiting; i++)
            for (set = 0; set < 64; set++) {
                const unsigned no_error = harmless(chip, waiting[i] == WRITE);
                first = some_of(set & 7) & no_error;
                second = some_of(set >> 3) & no_error;
                second_word(waiting[i], chip, first, second, 0);
                second_word(waiting[i], chip, first, second, 1);
            }
}

/* START that is still asked behind SB, or that did not make us master: 2 without flags, though the word with SB showed some. */
static void lost_start(void)
{
    unsigned chip, way;
    for (chip = 0; chip < 4; chip++)
        for (way = 0; way < 2; way++) {
            const unsigned flags = harmless(chip, 1);
            uint64_t next;
            unsigned i;
            plain_call(&c, WRITE);
            c.chip = (uint8_t)chip;
            next = begin(&c);
            for (i = 0; i < 5; i++)
                next = step(&c, 0);
            check(next == (CH32_I2C_KIND_READ | CH32_I2C_STAR1 << 8), "write: does not wait for SB");
            next = step(&c, (uint16_t)(flags | SB));
            if (flags)
                step(&c, 0);
            next = step(&c, way ? 0 : 0x0100);
            if (way)
                next = step(&c, 0);
            check(ch32_i2c_register_of(next) == CH32_I2C_CTLR2, "write: no abort behind a lost START");
            next = ended(next);
            check(next == ending(CH32_I2C_ARBITRATION), "a lost START, chip %u: got %#llx", chip, (unsigned long long)next);
        }
}

/* ---- the order ---- */

enum {
    BERR = CH32_I2C_FLAG_BERR,
    ARLO = CH32_I2C_FLAG_ARLO,
    AF = CH32_I2C_FLAG_AF,
    OVR = CH32_I2C_FLAG_OVR,
    PECERR = CH32_I2C_FLAG_PECERR,
    TIMEOUT = CH32_I2C_FLAG_TIMEOUT
};

/* Document 02's orders, chip by chip, with the errors' numbers; AF is none in a slave. */
static const struct {
    unsigned flag, error;
} orders[4][6] = {
    {{ARLO, 2}, {PECERR, 5}, {OVR, 6}, {AF, 3}, {0, 0}, {0, 0}},
    {{ARLO, 2}, {TIMEOUT, 4}, {PECERR, 5}, {OVR, 6}, {AF, 3}, {0, 0}},
    {{ARLO, 2}, {BERR, 1}, {PECERR, 5}, {OVR, 6}, {AF, 3}, {0, 0}},
    {{ARLO, 2}, {BERR, 1}, {TIMEOUT, 4}, {PECERR, 5}, {OVR, 6}, {AF, 3}},
};

/* The first of its chip's order that is set, or 0. */
static unsigned first_of(unsigned flags, unsigned chip, int master)
{
    unsigned place;
    for (place = 0; place < 6; place++)
        if (flags & orders[chip][place].flag && (master || orders[chip][place].flag != AF))
            return orders[chip][place].error;
    return 0;
}

/* Every set of the six flags. */
static void every_set(enum entry entry, unsigned chip)
{
    unsigned set;
    for (set = 0; set < 64; set++) {
        const unsigned flags = (set & 0x1f) << 8 | (set & 0x20) << 9, error = first_of(flags, chip, entry == WRITE);
        uint64_t next, wanted = ending(error) | (uint64_t)flags << 48;
        if (entry == RESPOND_TO_READ && flags & CH32_I2C_FLAG_AF)
            continue; /* AF ends a reply */
        at_status(entry, chip);
        next = step(&c, (uint16_t)flags);
        if (flags)
            next = step(&c, 0);
        if (error)
            next = ended(next);
        else
            wanted = CH32_I2C_KIND_CLOCK;
        check(next == wanted, "%s, chip %u, %#x: got %#llx", entry_names[entry], chip, flags, (unsigned long long)next);
        check(error == error_of(flags, chip, entry == WRITE), "%#x on chip %u in the order of all tests", flags, chip);
    }
}

static void in_order(void)
{
    unsigned chip, i;
    for (chip = 0; chip < 4; chip++)
        for (i = 0; i < sizeof waiting / sizeof *waiting; i++)
            every_set(waiting[i], chip);
}

/* ---- blocks ---- */

enum { error_byte = 7, flags_byte = 30 };

/* Whether a call can have met this error with these flags. */
static int fits(unsigned error, unsigned flags, unsigned chip, int master)
{
    if (flags == 0)
        return error == CH32_I2C_TIMEOUT || (master && error == CH32_I2C_ARBITRATION);
    return (flags & ~CH32_I2C_FLAGS) == 0 && error != 0 && error == error_of(flags, chip, master);
}

static void try_flags(unsigned error, unsigned flags)
{
    const int master = c.entry == WRITE;
    uint64_t next;
    keep(&tried, &c);
    tried.block[error_byte] = (uint8_t)error;
    tried.block[flags_byte] = (uint8_t)(flags & 0xff);
    tried.block[flags_byte + 1] = (uint8_t)(flags >> 8);
    keep(&before, &tried);
    next = step(&tried, 0);
    if (fits(error, flags, c.chip, master)) {
        while (ch32_i2c_kind_of(next) != CH32_I2C_KIND_END)
            next = step(&tried, 0);
        check(next == (ending(error) | (uint64_t)flags << 48), "%s: a block with %u and %#x: got %#llx", entry_names[c.entry], error, flags,
              (unsigned long long)next);
    } else {
        check(next == ending(15) && same_bytes(&tried, &before), "%s: a block with %u and %#x, chip %u: got %#llx", entry_names[c.entry],
              error, flags, c.chip, (unsigned long long)next);
    }
}

/* At the first access of an abort: every set of error flags and bit 13, each also with one bit more. */
static void blocks(void)
{
    unsigned chip, i, error, set, other;
    for (chip = 0; chip < 4; chip++)
        for (i = 0; i < sizeof waiting / sizeof *waiting; i++) {
            at_status(waiting[i], chip);
            step(&c, CH32_I2C_FLAG_OVR);
            step(&c, 0);
            for (error = 0; error < 9; error++)
                for (set = 0; set < 128; set++)
                    for (other = 0; other < 10; other++)
                        try_flags(error, set << 8 | (other == 9 ? 0 : other == 8 ? 0x8000 : 1u << other));
            for (error = 9; error < 30; error++)
                try_flags(error, 0);
        }
}

/* Before an error there are no flags in a block. */
static void open_ends(void)
{
    unsigned entry, byte;
    for (entry = TRANSACTION; entry < ENTRIES; entry++)
        for (byte = 0; byte < 2; byte++) {
            uint64_t next;
            plain_call(&c, (enum entry)entry);
            for (next = begin(&c); ch32_i2c_kind_of(next) != CH32_I2C_KIND_END; next = step(&c, some_answer(&c, next))) {
                if (c.block[error_byte] != 0 || c.block[flags_byte] != 0 || c.block[flags_byte + 1] != 0)
                    break;
                keep(&tried, &c);
                tried.block[flags_byte + byte] = 4;
                keep(&before, &tried);
                check(entry == RESPOND_TO_READ || (step(&tried, 0) == ending(15) && same_bytes(&tried, &before)), "%s: flags before an error",
                      entry_names[entry]);
            }
        }
}

void test_flags(void)
{
    words();
    lost_start();
    in_order();
    blocks();
    open_ends();
}
