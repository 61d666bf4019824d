/* One call of any of the nine entries, with everything that it lends, so that tests can be written once for all entries. */
#ifndef CALL_H
#define CALL_H

#include "ch32_i2c.h"

enum entry { INIT, TRANSACTION, WRITE_READ, WRITE, READ, INIT_SLAVE, LISTEN, RESPOND_TO_WRITE, RESPOND_TO_READ, ENTRIES };

#define LIST_ROOM 1024
#define ROOM 65600
#define GUARD 8 /* bytes behind each buffer that must stay as they are */

struct call {
    enum entry entry;
    uint8_t block[CH32_I2C_BLOCK_SIZE + GUARD];
    size_t block_length;
    uint8_t chip, address, option, duty;
    uint32_t input, frequency;
    uint8_t ten_bit, has_second, second, general_call, clock_stretching;
    uint16_t own; /* own address */
    uint8_t list[LIST_ROOM];
    size_t list_length;
    uint8_t written[ROOM]; /* a reply's data too */
    size_t written_length;
    uint8_t read[ROOM]; /* a receive's buffer too */
    size_t read_length;
};

extern const char *const entry_names[ENTRIES];

/* A call that begin accepts. Its block is full of other bytes. */
void plain_call(struct call *c, enum entry entry);

/* An operation more. */
void add_operation(struct call *c, unsigned direction, uint16_t length);

uint64_t begin(struct call *c);
uint64_t step(struct call *c, uint16_t answer);

/* Copies the bytes that are lent and the guards behind them; compares them. */
void keep(struct call *to, const struct call *from);
int same_bytes(const struct call *a, const struct call *b);

/* Answers that bring a call on; an end comes after some of them. */
uint16_t some_answer(const struct call *c, uint64_t next);
uint32_t chance(uint32_t below);

/* Whether a number is one that a step of this entry may return before a 15: one access, or an end from 0 to 6. A reply alone returns two
 * numbers, and an error alone has flags. */
int well_formed(enum entry entry, uint64_t next);

uint64_t ending(unsigned number);

/* The end that these flags of a status word decide: with ch32v4 BERR comes directly behind ARLO. 0: none is an error on this chip. */
unsigned error_of(unsigned flags, unsigned chip, int master);

/* Counts a check; says what failed, the first few times. */
int check(int holds, const char *format, ...);

/* Carries the call along lines in the format of the bench program: `r,CTLR1,0001`, `w,DATAR,0042`, `c,clock,0000`, `end,3`. Behind the
 * end's number may stand what is returned, in hex: of a reply both counts, the second in front; of an error its flags. */
void follow(struct call *c, const char *name, const char *lines);

void test_header(void);
void test_sequences(void);
void test_settings(void);
void test_errors(void);
void test_refusals(void);
void test_refusal_order(void);
void test_limits(void);
void test_own_addresses(void);
void test_left_over(void);
void test_flags(void);
void test_speed_window(void);
void test_null(void);
void test_block_lengths(void);
void test_lent_at_steps(void);
void test_foreign_blocks(void);
void test_mutated_blocks(void);
void test_layout(void);
void test_after_the_end(void);
void test_ends_at_once(void);
void test_random_calls(void);
void test_late(void);
void test_blocking(void);
void test_critical(void);

#endif
