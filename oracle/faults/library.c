/* Faults planted in the C library: the linker puts these functions before the library's own (--wrap). One is chosen by
 * -DFAULT_name; the others pass everything on. */
#include <stddef.h>
#include <stdint.h>

uint64_t __real_ch32_i2c_init_begin(uint8_t *, size_t, uint8_t, uint32_t, uint32_t, uint8_t);
uint64_t __real_ch32_i2c_init_slave_begin(uint8_t *, size_t, uint8_t, uint16_t, uint8_t, uint8_t, uint8_t, uint8_t);
uint64_t __real_ch32_i2c_write_begin(uint8_t *, size_t, uint8_t, uint8_t, uint8_t, const uint8_t *, size_t);
uint64_t __real_ch32_i2c_write_step(uint8_t *, size_t, const uint8_t *, size_t, uint16_t);
uint64_t __real_ch32_i2c_read_step(uint8_t *, size_t, uint8_t *, size_t, uint16_t);
uint64_t __real_ch32_i2c_transaction_step(uint8_t *, size_t, const uint8_t *, size_t, const uint8_t *, size_t, uint8_t *, size_t, uint16_t);
uint64_t ch32_i2c_init_step(uint8_t *, size_t, uint16_t);
uint64_t __real_ch32_i2c_listen_step(uint8_t *, size_t, uint16_t);
uint64_t __real_ch32_i2c_respond_to_write_step(uint8_t *, size_t, uint8_t *, size_t, uint16_t);
uint64_t __real_ch32_i2c_respond_to_read_step(uint8_t *, size_t, const uint8_t *, size_t, uint16_t);
uint64_t __real_ch32_i2c_is_critical(const uint8_t *, size_t);
uint64_t __real_ch32_i2c_speed_window(uint32_t, uint32_t, uint32_t);

#define REFUSED_STEP ((uint64_t)15 << 8)

/* An end with an error from 1 to 6, and one that has flags. */
#define IS_ERROR(next) (((next) & 0xff) == 0 && (next) >> 8 != 0 && ((next) >> 8 & 0xff) < 7)
#define HAS_FLAGS(next) (IS_ERROR(next) && (next) >> 48 != 0)
#define FLAGS(next) ((unsigned)((next) >> 48))
#define IS_BUS(next) (((next) & 0xffff) == 0x0100)

enum { BERR = 0x0100, ARLO = 0x0200, AF = 0x0400, OVR = 0x0800, PECERR = 0x1000, TIMEOUT = 0x4000 };

/* The block's chip. */
#define IS_V3(block) ((block)[1] & 1)
#define IS_CH32V4(block) ((block)[1] & 2)

/* An end with another number. */
#define AS(next, number) (((next) & ~(uint64_t)0xff00) | (uint64_t)(number) << 8)

/* An end with Bus as the Rust has it, with BERR last. */
#define BERR_LAST(next, block, master)                                                                                                    \
    AS(next, IS_V3(block) && FLAGS(next) & TIMEOUT ? 4 : FLAGS(next) & PECERR ? 5 : FLAGS(next) & OVR ? 6 : (master) && FLAGS(next) & AF ? 3 : 1)

/* What a speed window's end holds, and how it is made. */
#define NO_SUCH_SPEED ((uint64_t)20 << 8)
#define HAS_PAIR(next) (((next) & 0xffff) == 0)
#define DIVIDER(next) ((next) >> 16 & 0xffff)
#define FACTOR(next) ((next) >> 32 & 0xffff)
#define CLOCKS(next) (FACTOR(next) * DIVIDER(next))
#define PAIR(factor, divider) ((uint64_t)(factor) << 32 | (uint64_t)(divider) << 16)

/* Whether the speed of so many clocks lies in the window. */
#define IS_IN_WINDOW(clocks) (lowest * (uint64_t)(clocks) <= input && input <= highest * (uint64_t)(clocks))

uint64_t __wrap_ch32_i2c_init_begin(uint8_t *block, size_t n, uint8_t chip, uint32_t input, uint32_t frequency, uint8_t duty)
{
#ifdef FAULT_block_of_33_accepted
    if (n == 33)
        n = 32;
#endif
    uint64_t next = __real_ch32_i2c_init_begin(block, n, chip, input, frequency, duty);
#ifdef FAULT_refused_settings_change_the_block
    if (n == 32 && (next & 0xff) == 0)
        block[31] ^= 1;
#endif
    return next;
}

uint64_t __wrap_ch32_i2c_init_slave_begin(uint8_t *block, size_t n, uint8_t ten_bit, uint16_t address, uint8_t has_second,
                                          uint8_t second, uint8_t general_call, uint8_t clock_stretching)
{
    uint64_t next = __real_ch32_i2c_init_slave_begin(block, n, ten_bit, address, has_second, second, general_call, clock_stretching);
#ifdef FAULT_own_address_7_accepted
    if (next == (uint64_t)17 << 8 && address == 7)
        next = __real_ch32_i2c_init_slave_begin(block, n, ten_bit, 8, has_second, second, general_call, clock_stretching);
#endif
#ifdef FAULT_second_address_0_accepted
    if (next == (uint64_t)17 << 8 && second == 0)
        next = __real_ch32_i2c_init_slave_begin(block, n, ten_bit, address, 0, 0, general_call, clock_stretching);
#endif
#ifdef FAULT_reserved_before_invalid
    if (next == (uint64_t)9 << 8 && ten_bit == 0 && address >= 0x78 && address <= 0x7f)
        next = (uint64_t)17 << 8;
#endif
    return next;
}

uint64_t __wrap_ch32_i2c_write_begin(uint8_t *block, size_t n, uint8_t chip, uint8_t address, uint8_t option,
                                     const uint8_t *written, size_t length)
{
    uint64_t next = __real_ch32_i2c_write_begin(block, n, chip, address, option, written, length);
#ifdef FAULT_refused_begin_changes_the_block
    if (n == 32 && (next & 0xff) == 0 && next != 0)
        block[0] ^= 0x80;
#endif
    return next;
}

uint64_t __wrap_ch32_i2c_write_step(uint8_t *block, size_t n, const uint8_t *written, size_t length, uint16_t answer)
{
    uint64_t next = __real_ch32_i2c_write_step(block, n, written, length, answer);
#ifdef FAULT_end_repeated
    if (n == 32 && next == REFUSED_STEP && length <= 65535)
        return 0;
#endif
#ifdef FAULT_block_changed_after_the_end
    if (n == 32 && next == REFUSED_STEP)
        block[31] ^= 1;
#endif
#ifdef FAULT_high_bits_set
    if ((next & 0xff) == 2)
        next |= (uint64_t)1 << 32;
#endif
#ifdef FAULT_written_bytes_changed
    if ((next & 0xff) == 0 && length > 0)
        ((uint8_t *)written)[length - 1] ^= 1;
#endif
#ifdef FAULT_only_the_deciding_flag
    static const uint16_t deciding[7] = {0, 0x0100, 0x0200, 0x0400, 0x4000, 0x1000, 0x0800};
    if (HAS_FLAGS(next))
        next &= (uint64_t)deciding[next >> 8 & 0xff] << 48 | 0xffffffffffff;
#endif
#ifdef FAULT_berr_before_arlo
    if (HAS_FLAGS(next) && IS_CH32V4(block) && FLAGS(next) & BERR)
        next = AS(next, 1);
#endif
#ifdef FAULT_berr_behind_af
    if (IS_BUS(next) && (FLAGS(next) & ~TIMEOUT) == (BERR | AF))
        next = AS(next, 3);
#endif
#ifdef FAULT_berr_decides_on_other_chips
    static uint64_t asked;
    const int checked = asked == 0x0501 && (next & 0xffff) == 0x0502;
    asked = next;
    if (n == 32 && checked && !IS_CH32V4(block) && (answer & 0x5f00) == BERR)
        next = (uint64_t)1 << 8 | (uint64_t)BERR << 48;
#endif
#ifdef FAULT_flags_at_a_late_clock
    if (next == (uint64_t)4 << 8)
        next |= (uint64_t)0x4000 << 48;
#endif
#ifdef FAULT_answer_after_a_write_used
    static uint64_t last;
    if ((last & 0xff) == 2 && answer == 0xffff)
        next = REFUSED_STEP;
    last = next;
#endif
    return next;
}

uint64_t __wrap_ch32_i2c_read_step(uint8_t *block, size_t n, uint8_t *read, size_t length, uint16_t answer)
{
    uint64_t next = __real_ch32_i2c_read_step(block, n, read, length, answer);
#ifdef FAULT_flags_of_the_word_before
    static uint64_t last;
    static uint16_t status, status_before;
    if ((last & 0xffff) == 0x0501) {
        status_before = status;
        status = answer;
    }
    last = next;
    if (HAS_FLAGS(next))
        next = (next & 0xffffffffffff) | (uint64_t)(status_before & 0x5f00) << 48;
#endif
#ifdef FAULT_berr_behind_timeout
    if (IS_BUS(next) && IS_V3(block) && FLAGS(next) & TIMEOUT)
        next = AS(next, 4);
#endif
#ifdef FAULT_byte_left_alone_cleared
    if ((next & 0xff) == 0 && (next >> 8) != 0 && (next >> 8) < 15 && length > 0)
        read[length - 1] = 0;
#endif
#ifdef FAULT_byte_past_the_buffer
    if (next == 0)
        read[length] = 0;
#endif
#ifdef FAULT_byte_before_the_block
    if (next == 0)
        block[-1] = 0;
#endif
    return next;
}

uint64_t __wrap_ch32_i2c_transaction_step(uint8_t *block, size_t n, const uint8_t *list, size_t list_length, const uint8_t *written,
                                          size_t written_length, uint8_t *read, size_t read_length, uint16_t answer)
{
    uint64_t next = __real_ch32_i2c_transaction_step(block, n, list, list_length, written, written_length, read, read_length, answer);
#ifdef FAULT_list_changed
    if (next == 0 && list_length > 6)
        ((uint8_t *)list)[list_length - 1] ^= 1;
#endif
#ifdef FAULT_berr_last
    if (IS_BUS(next))
        next = BERR_LAST(next, block, 1);
#endif
#ifdef FAULT_berr_moved_on_other_chips
    if (HAS_FLAGS(next) && !IS_CH32V4(block) && FLAGS(next) & BERR && !(FLAGS(next) & ARLO))
        next = AS(next, 1);
#endif
#ifdef FAULT_flags_by_payload
    if (HAS_FLAGS(next) && written_length > 0)
        next ^= (uint64_t)(written[0] & 1) << 56;
#endif
#ifdef FAULT_arrived_byte_overwritten
    if ((next & 0xff) == 0 && read_length > 2)
        read[0] = read[1];
#endif
    return next;
}

uint64_t __wrap_ch32_i2c_listen_step(uint8_t *block, size_t n, uint16_t answer)
{
    uint64_t next = __real_ch32_i2c_listen_step(block, n, answer);
#ifdef FAULT_slaves_berr_last
    if (IS_BUS(next))
        next = BERR_LAST(next, block, 0);
#endif
#ifdef FAULT_af_not_among_a_slaves_flags
    if (HAS_FLAGS(next))
        next &= ~((uint64_t)0x0400 << 48);
#endif
#ifdef FAULT_step_of_another_entry_accepted
    if (next == REFUSED_STEP)
        next = ch32_i2c_init_step(block, n, answer);
#endif
    return next;
}

uint64_t __wrap_ch32_i2c_respond_to_write_step(uint8_t *block, size_t n, uint8_t *buffer, size_t length, uint16_t answer)
{
    uint64_t next = __real_ch32_i2c_respond_to_write_step(block, n, buffer, length, answer);
#ifdef FAULT_slaves_berr_moved_on_other_chips
    if (HAS_FLAGS(next) && !IS_CH32V4(block) && FLAGS(next) & BERR && !(FLAGS(next) & ARLO))
        next = AS(next, 1);
#endif
#ifdef FAULT_slaves_berr_behind_timeout
    if (IS_BUS(next) && IS_V3(block) && FLAGS(next) & TIMEOUT)
        next = AS(next, 4);
#endif
#ifdef FAULT_flags_lost_in_the_abort
    if (HAS_FLAGS(next))
        next &= 0xffffffffffff;
#endif
#ifdef FAULT_second_count_of_a_receive
    if ((next & 0xffff) == 0)
        next |= next >> 16 << 32;
#endif
    return next;
}

uint64_t __wrap_ch32_i2c_respond_to_read_step(uint8_t *block, size_t n, const uint8_t *data, size_t length, uint16_t answer)
{
    uint64_t next = __real_ch32_i2c_respond_to_read_step(block, n, data, length, answer);
#ifdef FAULT_slaves_berr_before_arlo
    if (HAS_FLAGS(next) && IS_CH32V4(block) && FLAGS(next) & BERR)
        next = AS(next, 1);
#endif
#ifdef FAULT_second_count_as_the_first
    if ((next & 0xffff) == 0)
        next = (next & 0xffff0000) | (next & 0xffff0000) << 16;
#endif
#ifdef FAULT_second_count_for_the_first
    if ((next & 0xffff) == 0)
        next = next >> 32 << 32 | next >> 32 << 16;
#endif
#ifdef FAULT_second_count_lost_at_once
    if ((next & 0xffff) == 0)
        next &= 0xffffffff;
#endif
    return next;
}

uint64_t __wrap_ch32_i2c_is_critical(const uint8_t *block, size_t n)
{
    uint64_t critical = __real_ch32_i2c_is_critical(block, n);
#ifdef FAULT_hold_ends_before_the_last_byte
    if (n == 32 && block[3] == 7 && block[5] == 11)
        critical = 0;
#endif
#ifdef FAULT_hold_behind_a_write_address
    if (n == 32 && block[3] == 4 && block[5] == 3 && block[0] > 1 && block[0] < 6)
        critical = 1;
#endif
    return critical;
}

uint64_t __wrap_ch32_i2c_speed_window(uint32_t input, uint32_t lowest, uint32_t highest)
{
    uint64_t next = __real_ch32_i2c_speed_window(input, lowest, highest);
#ifdef FAULT_window_divider_rounded_down
    if (HAS_PAIR(next) && DIVIDER(next) > (FACTOR(next) == 2 ? 4 : 1) && highest * CLOCKS(next) > input)
        next = PAIR(FACTOR(next), DIVIDER(next) - 1);
#endif
#ifdef FAULT_window_100000_of_factor_3
    const int is_slower = !HAS_PAIR(next) || (FACTOR(next) == 2 && 100000 * CLOCKS(next) > input);
    if (is_slower && input > 0 && input % 300000 == 0 && input / 300000 <= 4095 && IS_IN_WINDOW(input / 100000))
        next = PAIR(3, input / 300000);
#endif
#ifdef FAULT_window_400001_of_factor_3
    if (input > 0 && input % 1200003 == 0 && input / 1200003 <= 4095 && IS_IN_WINDOW(input / 400001))
        next = PAIR(3, input / 1200003);
#endif
#ifdef FAULT_window_divider_3_of_factor_2
    if ((!HAS_PAIR(next) || FACTOR(next) == 2) && input <= 600000 && IS_IN_WINDOW(6))
        next = PAIR(2, 3);
#endif
#ifdef FAULT_window_divider_4096_of_factor_2
    if (!HAS_PAIR(next) && input <= 819200000 && IS_IN_WINDOW(8192))
        next = PAIR(2, 4096);
#endif
#ifdef FAULT_window_larger_factor_among_equals
    if (HAS_PAIR(next) && FACTOR(next) == 3 && DIVIDER(next) % 25 == 0)
        next = PAIR(25, DIVIDER(next) / 25 * 3);
#endif
#ifdef FAULT_window_larger_divider_among_equals
    if (HAS_PAIR(next) && input == 0)
        next = PAIR(2, 4095);
#endif
#ifdef FAULT_window_without_factor_25
    if (HAS_PAIR(next) && FACTOR(next) == 25)
        next = NO_SUCH_SPEED;
#endif
#ifdef FAULT_window_of_one_speed_refused
    if (lowest == highest)
        next = NO_SUCH_SPEED;
#endif
#ifdef FAULT_window_without_its_highest
    if (HAS_PAIR(next) && highest > 0 && highest * CLOCKS(next) == input)
        next = __real_ch32_i2c_speed_window(input, lowest, highest - 1);
#endif
#ifdef FAULT_window_without_its_lowest
    if (HAS_PAIR(next) && lowest * CLOCKS(next) == input)
        next = NO_SUCH_SPEED;
#endif
#ifdef FAULT_window_upside_down_turned
    if (lowest > highest)
        next = __real_ch32_i2c_speed_window(input, highest, lowest);
#endif
#ifdef FAULT_window_factor_and_divider_exchanged
    if (HAS_PAIR(next))
        next = PAIR(DIVIDER(next), FACTOR(next));
#endif
#ifdef FAULT_window_slowest
    for (uint64_t slower = next; HAS_PAIR(slower) && input > 0;) {
        next = slower;
        slower = __real_ch32_i2c_speed_window(input, lowest, (uint32_t)((input - 1) / CLOCKS(next)));
    }
#endif
#ifdef FAULT_window_pair_beside_20
    if (next == NO_SUCH_SPEED)
        next |= PAIR(2, 4);
#endif
    return next;
}
