/* A mailbox in RAM that qemu shares with its host: a function of the library is called on x86-64 and carried out on RV32. */
#ifndef MAILBOX_H
#define MAILBOX_H

#include <stdint.h>

/* Where it lies in the guest, whose RAM begins at RAM; and where in it the lent bytes lie. */
#define RAM 0x80000000u
#define RAM_SIZE 0x8000000u
#define MAILBOX 0x84000000u
#define BLOCK_AT 0x1000
#define LIST_AT 0x2000
#define WRITTEN_AT 0x20000
#define READ_AT 0x60000

enum function {
    INIT_BEGIN, INIT_STEP, TRANSACTION_BEGIN, TRANSACTION_STEP, WRITE_READ_BEGIN, WRITE_READ_STEP, WRITE_BEGIN, WRITE_STEP, READ_BEGIN,
    READ_STEP, INIT_SLAVE_BEGIN, INIT_SLAVE_STEP, LISTEN_BEGIN, LISTEN_STEP, RESPOND_TO_WRITE_BEGIN, RESPOND_TO_WRITE_STEP,
    RESPOND_TO_READ_BEGIN, RESPOND_TO_READ_STEP,
    IS_CRITICAL, SPEED_WINDOW,
    STOP /* the guest ends */
};

struct mailbox {
    volatile uint32_t asked, answered; /* equal: nothing to do */
    uint32_t function, block_length, list_length, written_length, read_length, numbers[6];
    uint64_t result, critical; /* what the function returns; and then is_critical of the block */
};

#endif
