/* On RV32: carries out what comes through the mailbox. */
#include "ch32_i2c.h"
#include "mailbox.h"

static uint64_t call(const struct mailbox *m)
{
    uint8_t *block = (uint8_t *)MAILBOX + BLOCK_AT, *list = (uint8_t *)MAILBOX + LIST_AT;
    uint8_t *written = (uint8_t *)MAILBOX + WRITTEN_AT, *read = (uint8_t *)MAILBOX + READ_AT;
    const size_t b = m->block_length, l = m->list_length, w = m->written_length, r = m->read_length;
    const uint32_t *n = m->numbers;
    const uint8_t n0 = (uint8_t)n[0], n1 = (uint8_t)n[1], n2 = (uint8_t)n[2];
    const uint16_t answer = (uint16_t)n[0];
    switch (m->function) {
    case INIT_BEGIN: return ch32_i2c_init_begin(block, b, n0, n[1], n[2], (uint8_t)n[3]);
    case INIT_STEP: return ch32_i2c_init_step(block, b, answer);
    case TRANSACTION_BEGIN: return ch32_i2c_transaction_begin(block, b, n0, n1, list, l, written, w, read, r);
    case TRANSACTION_STEP: return ch32_i2c_transaction_step(block, b, list, l, written, w, read, r, answer);
    case WRITE_READ_BEGIN: return ch32_i2c_write_read_begin(block, b, n0, n1, written, w, read, r);
    case WRITE_READ_STEP: return ch32_i2c_write_read_step(block, b, written, w, read, r, answer);
    case WRITE_BEGIN: return ch32_i2c_write_begin(block, b, n0, n1, n2, written, w);
    case WRITE_STEP: return ch32_i2c_write_step(block, b, written, w, answer);
    case READ_BEGIN: return ch32_i2c_read_begin(block, b, n0, n1, n2, read, r);
    case READ_STEP: return ch32_i2c_read_step(block, b, read, r, answer);
    case INIT_SLAVE_BEGIN:
        return ch32_i2c_init_slave_begin(block, b, n0, (uint16_t)n[1], n2, (uint8_t)n[3], (uint8_t)n[4], (uint8_t)n[5]);
    case INIT_SLAVE_STEP: return ch32_i2c_init_slave_step(block, b, answer);
    case LISTEN_BEGIN: return ch32_i2c_listen_begin(block, b, n0);
    case LISTEN_STEP: return ch32_i2c_listen_step(block, b, answer);
    case RESPOND_TO_WRITE_BEGIN: return ch32_i2c_respond_to_write_begin(block, b, n0, read, r);
    case RESPOND_TO_WRITE_STEP: return ch32_i2c_respond_to_write_step(block, b, read, r, answer);
    case RESPOND_TO_READ_BEGIN: return ch32_i2c_respond_to_read_begin(block, b, n0, written, w);
    case IS_CRITICAL: return ch32_i2c_is_critical(block, b);
    case SPEED_WINDOW: return ch32_i2c_speed_window(n[0], n[1], n[2]);
    default: return ch32_i2c_respond_to_read_step(block, b, written, w, answer);
    }
}

int main(void)
{
    struct mailbox *m = (struct mailbox *)MAILBOX;
    for (;;) {
        const uint32_t asked = m->asked;
        if (asked == m->answered)
            continue;
        __sync_synchronize();
        if (m->function == STOP)
            return 0;
        m->result = call(m);
        m->critical = ch32_i2c_is_critical((const uint8_t *)MAILBOX + BLOCK_AT, m->block_length);
        __sync_synchronize();
        m->answered = asked;
    }
}
