/* A reply's two counts of bytes left over: ch32-hal's, and document 02's, in which AF takes a byte off that still waits as STOPF and ADDR do.
 * Then which pairs of them a block may hold, and that they come out at the end as they lie there. */
#include "call.h"

#include <string.h>

#define ADDR 0x0002u
#define STOPF 0x0010u
#define TXE 0x0080u
#define AF 0x0400u

static struct call c, tried, before;

/* A reply of so many bytes, up to the word that ends its loop. */
static uint64_t reply(size_t length, unsigned sent, unsigned status)
{
    uint64_t next;
    plain_call(&c, RESPOND_TO_READ);
    c.chip = (uint8_t)chance(4);
    c.written_length = length;
    next = begin(&c);
    while (sent-- > 0) {
        step(&c, TXE);
        next = step(&c, (uint16_t)chance(0x10000));
    }
    check(next == (CH32_I2C_KIND_READ | CH32_I2C_STAR1 << 8), "respond_to_read: no look at STAR1");
    return step(&c, (uint16_t)status);
}

/* On to the end, with words that show TXE the other way, which is not to be looked at. */
static uint64_t ended(struct call *call, uint64_t next, unsigned status)
{
    while (ch32_i2c_kind_of(next) != CH32_I2C_KIND_END)
        next = step(call, (uint16_t)(status ^ TXE));
    return next;
}

static unsigned left(size_t length, unsigned sent) { return sent < length ? (unsigned)(length - sent) : 0; }

static void compare(size_t length, unsigned sent, unsigned status)
{
    const unsigned lowered = sent > 0 && !(status & TXE) ? sent - 1 : sent;
    const uint64_t end = ended(&c, reply(length, sent, status), status);
    check(ch32_i2c_is_done(end) && ch32_i2c_left_over_of(end) == left(length, status & AF ? sent : lowered),
          "reply of %u, %u sent, %#x: ch32-hal's count, got %#llx", (unsigned)length, sent, status, (unsigned long long)end);
    check(ch32_i2c_not_taken_of(end) == left(length, lowered) && end >> 48 == 0, "reply of %u, %u sent, %#x: the second count, got %#llx",
          (unsigned)length, sent, status, (unsigned long long)end);
}

static const unsigned closings[] = {AF, STOPF, ADDR, AF | STOPF, AF | ADDR, STOPF | ADDR, AF | STOPF | ADDR};

static void counts(void)
{
    size_t length, i;
    unsigned sent;
    for (i = 0; i < 2 * sizeof closings / sizeof *closings; i++) {
        const unsigned status = closings[i / 2] | (i % 2 ? TXE : 0);
        for (length = 0; length < 7; length++)
            for (sent = 0; sent < length + 4; sent++)
                compare(length, sent, status);
        compare(300, 256, status);
        for (sent = 65534; sent < 65539; sent++)
            compare(65535, sent, status);
    }
}

/* ---- blocks ---- */

enum { value_byte = 22, second_byte = 30 };

static void put(uint8_t *block, unsigned byte, unsigned word)
{
    block[byte] = (uint8_t)(word & 0xff);
    block[byte + 1] = (uint8_t)(word >> 8);
}

/* One sent count has to give both numbers: the second is left over with one taken off or none, the first is the same or has none off. */
static int can_return(size_t length, unsigned sent, unsigned value, unsigned second)
{
    const unsigned none_off = left(length, sent), one_off = left(length, sent ? sent - 1 : 0);
    return (second == none_off || second == one_off) && (value == second || value == none_off);
}

static void try_counts(size_t length, unsigned sent, unsigned value, unsigned second)
{
    uint64_t next;
    keep(&tried, &c);
    put(tried.block, value_byte, value);
    put(tried.block, second_byte, second);
    keep(&before, &tried);
    next = step(&tried, 0);
    if (can_return(length, sent, value, second)) {
        next = ended(&tried, next, 0);
        check(next == ((uint64_t)second << 32 | (uint64_t)value << 16), "a block with %u and %u: got %#llx", value, second,
              (unsigned long long)next);
    } else {
        check(next == ending(15) && same_bytes(&tried, &before), "a block with %u and %u, %u of %u sent: got %#llx", value, second, sent,
              (unsigned)length, (unsigned long long)next);
    }
}

/* At every access that clears AF or STOPF behind a reply. */
static void blocks(void)
{
    size_t length;
    unsigned sent, closing, value, second;
    for (length = 0; length < 4; length++)
        for (sent = 0; sent < length + 2; sent++)
            for (closing = 0; closing < 4; closing++) {
                const unsigned status = (closing & 1 ? AF : STOPF) | (closing & 2 ? TXE : 0);
                uint64_t next = reply(length, sent, status);
                for (; ch32_i2c_kind_of(next) != CH32_I2C_KIND_END; next = step(&c, 0))
                    for (value = 0; value < length + 2; value++)
                        for (second = 0; second < length + 2; second++)
                            try_counts(length, sent, value, second);
            }
}

/* While the end is open both are 0. */
static void open_ends(void)
{
    unsigned byte;
    plain_call(&c, RESPOND_TO_READ);
    begin(&c);
    for (byte = 0; byte < 2; byte++) {
        keep(&tried, &c);
        tried.block[second_byte + byte] = 1;
        keep(&before, &tried);
        check(step(&tried, 0) == ending(15) && same_bytes(&tried, &before), "a second count before the end");
    }
}

void test_left_over(void)
{
    counts();
    blocks();
    open_ends();
}
