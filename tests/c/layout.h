/* What the test knows of the block beyond its first byte, from docs/STATE.md. The one place for it.
 *
 * unused_bytes: for each entry, one bit for each byte of the block that is 0 in every image of the entry (bit 5 for byte 5). The test
 *   first sees that begin and steps leave them 0, then that any other value there is refused.
 * stage_byte, first_unknown_stage: where the stage's number lies, and the least number from which on there is no stage.
 * no_settings: numbers of two bytes that no begin leaves there: dividers out of range, addresses too large for seven bits and ten.
 * own_address_byte, second_address_byte: where init_slave keeps its addresses of seven bits. */
#ifndef LAYOUT_H
#define LAYOUT_H

#include <stdint.h>

static const struct {
    uint32_t unused_bytes;
    unsigned stage_byte, first_unknown_stage;
} layout[9] = {
    {0xcff0ffb4u, 3, 13}, /* init */
    {0x3fc00a04u, 3, 11}, /* transaction */
    {0x3fc00a04u, 3, 11}, /* write_read */
    {0x3fc00e00u, 3, 11}, /* write */
    {0x3fc00e00u, 3, 11}, /* read */
    {0xeffcfcb6u, 3, 9}, /* init_slave */
    {0x3f3cff44u, 3, 11}, /* listen */
    {0x3c3cff44u, 3, 11}, /* respond_to_write */
    {0x383cff44u, 3, 11}, /* respond_to_read */
};

static const struct {
    int entry;
    unsigned byte;
    uint16_t value;
} no_settings[] = {
    {INIT, 18, 0}, {INIT, 18, 4096}, {INIT, 18, 65535}, {INIT_SLAVE, 8, 1024}, {INIT_SLAVE, 8, 65535},
};

enum { own_address_byte = 8, second_address_byte = 28 };

#endif
