/* Whole calls, number by number, in the format of the bench program. */
#include "call.h"

#include <stddef.h>
#include <string.h>

static struct call c, before;

void test_header(void)
{
    uint64_t command = (uint64_t)(0x2a5 | 1u << 10 | 1u << 12) << 16;
    uint8_t list[7] = {9, 9, 9, 9, 9, 9, 9};
    check(CH32_I2C_BLOCK_SIZE == 32 && CH32_I2C_OPERATION_SIZE == 3 && CH32_I2C_MAX_OPERATIONS == 256, "sizes");
    check(CH32_I2C_KIND_END == 0 && CH32_I2C_KIND_READ == 1 && CH32_I2C_KIND_WRITE == 2 && CH32_I2C_KIND_CLOCK == 3, "kinds");
    check(CH32_I2C_CTLR1 == 0x00 / 4 && CH32_I2C_CTLR2 == 0x04 / 4 && CH32_I2C_OADDR1 == 0x08 / 4 && CH32_I2C_OADDR2 == 0x0c / 4 &&
              CH32_I2C_DATAR == 0x10 / 4 && CH32_I2C_STAR1 == 0x14 / 4 && CH32_I2C_STAR2 == 0x18 / 4 && CH32_I2C_CKCFGR == 0x1c / 4 &&
              CH32_I2C_RTR == 0x20 / 4,
          "registers");
    check(ch32_i2c_kind_of(0x12340502) == CH32_I2C_KIND_WRITE && ch32_i2c_register_of(0x12340502) == CH32_I2C_STAR1 &&
              ch32_i2c_value_of(0x12340502) == 0x1234,
          "a write taken apart");
    check(ch32_i2c_end_of(0x0300) == CH32_I2C_NACK && !ch32_i2c_is_done(0x0300) && !ch32_i2c_is_done(1), "an end taken apart");
    check(ch32_i2c_not_taken_of(0xffff00070000) == 65535 && ch32_i2c_left_over_of(0xffff00070000) == 7, "the second count");
    check(CH32_I2C_FLAGS == (CH32_I2C_FLAG_BERR | CH32_I2C_FLAG_ARLO | CH32_I2C_FLAG_AF | CH32_I2C_FLAG_OVR | CH32_I2C_FLAG_PECERR |
                             CH32_I2C_FLAG_TIMEOUT) &&
              CH32_I2C_FLAG_BERR == 1 << 8 && CH32_I2C_FLAG_ARLO == 1 << 9 && CH32_I2C_FLAG_AF == 1 << 10 &&
              CH32_I2C_FLAG_OVR == 1 << 11 && CH32_I2C_FLAG_PECERR == 1 << 12 && CH32_I2C_FLAG_TIMEOUT == 1 << 14,
          "flags");
    check(ch32_i2c_flags_of(0x0600000000000200) == 0x0600 && ch32_i2c_flags_of(0x5f00ffffffff0600) == 0x5f00, "the flags of an error");
    check(ch32_i2c_flags_of(0x0600000000000000) == 0 && ch32_i2c_flags_of(0x0600000000000502) == 0 && ch32_i2c_flags_of(0x0400) == 0,
          "no flags at 0, at an access or at a late clock");
    check(ch32_i2c_not_taken_of(0x000300000300) == 0 && ch32_i2c_not_taken_of(0x000300000502) == 0, "no second count at an error or an access");
    check(ch32_i2c_is_done(0xffff0000) && ch32_i2c_stored_of(0xffff0000) == 65535 && ch32_i2c_left_over_of(0x00070000) == 7, "counts");
    check(ch32_i2c_command_of(command) == CH32_I2C_COMMAND_READ && ch32_i2c_command_address_of(command) == 0x2a5 &&
              ch32_i2c_command_ten_bit_of(command) == 1 && ch32_i2c_command_ten_bit_of((uint64_t)0x2042 << 16) == 0 &&
              ch32_i2c_command_of((uint64_t)0x2042 << 16) == CH32_I2C_COMMAND_WRITE,
          "a command taken apart");
    check(ch32_i2c_put_operation(list, 3, CH32_I2C_DIRECTION_READ, 0x1234) == 6 && memcmp(list, "\x9\x9\x9\x1\x34\x12\x9", 7) == 0,
          "an operation");
}

/* Parts that many calls share. The peripheral answers at once. */
#define START "r,CTLR1,0401\nr,CTLR1,0401\nr,STAR1,0000\nr,CTLR1,0401\nw,CTLR1,0501\nr,STAR1,0001\nr,CTLR1,0401\nr,STAR2,0003\n"
#define ADDRESS(word) START "w,DATAR," word "\nr,STAR1,0002\n"
#define WRITE_TO(word) ADDRESS(word) "r,STAR2,0007\n"
#define BYTE(word) "r,STAR1,0080\nw,DATAR," word "\nr,STAR1,0084\n"
#define STOP "r,CTLR1,0401\nw,CTLR1,0601\nr,CTLR1,0401\n"
#define NO_POS "r,CTLR1,0c01\nw,CTLR1,0401\n"
#define RECEIVE(word) "r,STAR1,0000\nr,STAR1,0040\nr,DATAR," word "\n"
#define ABORT_STOP "r,CTLR2,1f08\nw,CTLR2,0008\nr,CTLR1,0001\nr,STAR2,0003\nr,CTLR1,0001\nw,CTLR1,0201\n"

static void bench_example(void)
{
    static const char lines[] = "r,CTLR1,0001\n"
                                "r,CTLR1,0001\n"
                                "r,STAR1,0000\n"
                                "r,CTLR1,0001\n"
                                "w,CTLR1,0101\n"
                                "r,STAR1,0001\n"
                                "r,CTLR1,0001\n"
                                "r,STAR2,0003\n"
                                "w,DATAR,0042\n"
                                "r,STAR1,0400\n"
                                "w,STAR1,fbff\n"
                                "r,CTLR2,0008\n"
                                "w,CTLR2,0008\n"
                                "r,CTLR1,0001\n"
                                "r,STAR2,0003\n"
                                "r,CTLR1,0001\n"
                                "w,CTLR1,0201\n"
                                "end,3,0400";
    plain_call(&c, TRANSACTION);
    c.chip = 0;
    c.list_length = c.written_length = c.read_length = 0;
    add_operation(&c, CH32_I2C_DIRECTION_WRITE, 0);
    follow(&c, "the bench program's example", lines);
}

static void init(void)
{
    plain_call(&c, INIT);
    c.chip = CH32_I2C_CHIP_V3;
    c.frequency = 400000;
    c.duty = CH32_I2C_DUTY_16_9;
    follow(&c, "init with i2c_v3",
           "r,CTLR1,0401\nw,CTLR1,0400\nr,CTLR1,0400\nw,CTLR1,8400\nr,CTLR1,8400\nw,CTLR1,0400\n"
           "r,CTLR2,0fff\nw,CTLR2,0fe4\nw,RTR,000b\nw,CKCFGR,c004\nr,CTLR1,0400\nw,CTLR1,0401\nend,0");
    plain_call(&c, INIT);
    c.chip = CH32_I2C_CHIP_PLAIN;
    follow(&c, "init",
           "r,CTLR1,ffff\nw,CTLR1,fffe\nr,CTLR1,0000\nw,CTLR1,8000\nr,CTLR1,ffff\nw,CTLR1,7fff\n"
           "r,CTLR2,0000\nw,CTLR2,0024\nw,CKCFGR,00b4\nr,CTLR1,0000\nw,CTLR1,0001\nend,0");
}

static void writes(void)
{
    plain_call(&c, WRITE);
    follow(&c, "write", WRITE_TO("0042") BYTE("0031") BYTE("0032") STOP "end,0");
    plain_call(&c, WRITE);
    c.option = CH32_I2C_FIRST_FRAME;
    follow(&c, "write, first frame", WRITE_TO("0042") BYTE("0031") BYTE("0032") "end,0");
    plain_call(&c, WRITE);
    c.option = CH32_I2C_NEXT_FRAME;
    follow(&c, "write, next frame", BYTE("0031") BYTE("0032") "end,0");
    plain_call(&c, WRITE);
    c.option = CH32_I2C_LAST_FRAME;
    c.written_length = 0;
    follow(&c, "write, last frame without bytes", STOP "end,0");
    plain_call(&c, WRITE);
    follow(&c, "write, waiting for STOP, then late",
           "r,CTLR1,0601\nc,clock,0000\nr,CTLR1,0601\nc,clock,0001\n"
           "r,CTLR2,0008\nw,CTLR2,0008\nr,CTLR1,0601\nr,CTLR2,ffff\nr,CKCFGR,1234\nr,RTR,5678\n"
           "w,CTLR1,8000\nw,CTLR1,0000\nw,CTLR2,003f\nw,CKCFGR,1234\nw,RTR,5678\nw,CTLR1,0001\nend,4");
    plain_call(&c, WRITE);
    c.chip = CH32_I2C_CHIP_CH32V4;
    follow(&c, "write, reset without RTR",
           "r,CTLR1,0601\nc,clock,8000\n"
           "r,CTLR2,0008\nw,CTLR2,0008\nr,CTLR1,0101\nr,CTLR2,0008\nr,CKCFGR,1234\n"
           "w,CTLR1,8000\nw,CTLR1,0000\nw,CTLR2,0008\nw,CKCFGR,1234\nw,CTLR1,0001\nend,4");
    plain_call(&c, WRITE);
    follow(&c, "write, START already asked, then lost",
           "r,CTLR1,0101\nr,CTLR1,0101\nr,STAR1,0000\nc,clock,0000\nr,STAR1,0001\nr,CTLR1,0101\n"
           "r,CTLR2,0008\nw,CTLR2,0008\nr,CTLR1,0001\nr,STAR2,0002\nend,2");
    plain_call(&c, WRITE);
    follow(&c, "write, SB already set, not master",
           "r,CTLR1,0001\nr,CTLR1,0001\nr,STAR1,0001\nr,STAR1,0001\nr,CTLR1,0001\nr,STAR2,0002\n" ABORT_STOP "end,2");
    plain_call(&c, WRITE);
    c.chip = CH32_I2C_CHIP_PLAIN;
    follow(&c, "write, BERR and TIMEOUT do not decide on this chip",
           "r,CTLR1,0001\nr,CTLR1,0001\nr,STAR1,0001\nr,STAR1,4101\nw,STAR1,beff\nr,CTLR1,0001\nr,STAR2,0003\nw,DATAR,0042\n"
           "r,STAR1,4102\nw,STAR1,beff\nr,STAR2,0003\n" BYTE("0031") "r,STAR1,0600\nw,STAR1,f9ff\n" ABORT_STOP "end,2,0600");
    plain_call(&c, WRITE);
    follow(&c, "write, BERR before TIMEOUT", WRITE_TO("0042") "r,STAR1,4180\nw,STAR1,beff\n" ABORT_STOP "end,1,4100");
    plain_call(&c, WRITE);
    c.chip = CH32_I2C_CHIP_V3;
    follow(&c, "write, TIMEOUT, BERR does not decide on this chip", WRITE_TO("0042") "r,STAR1,4180\nw,STAR1,beff\n" ABORT_STOP "end,4,4100");
    plain_call(&c, WRITE);
    follow(&c, "write, ARLO before BERR", WRITE_TO("0042") "r,STAR1,0780\nw,STAR1,f8ff\n" ABORT_STOP "end,2,0700");
    plain_call(&c, WRITE);
    follow(&c, "write, BERR", WRITE_TO("0042") "r,STAR1,0180\nw,STAR1,feff\n" ABORT_STOP "end,1,0100");
    plain_call(&c, WRITE);
    follow(&c, "write, PECERR before OVR", WRITE_TO("0042") "r,STAR1,1f80\nw,STAR1,e0ff\n" ABORT_STOP "end,2,1f00");
    plain_call(&c, WRITE);
    follow(&c, "write, PECERR", WRITE_TO("0042") "r,STAR1,1c80\nw,STAR1,e3ff\n" ABORT_STOP "end,5,1c00");
    plain_call(&c, WRITE);
    follow(&c, "write, OVR before AF", WRITE_TO("0042") "r,STAR1,0c80\nw,STAR1,f3ff\n" ABORT_STOP "end,6,0c00");
}

/* What a read of this length leaves behind its arrived bytes. */
static void arrived(const char *name, const uint8_t *bytes, size_t count)
{
    check(memcmp(c.read, bytes, count) == 0, "%s: bytes read", name);
    check(memcmp(c.read + count, before.read + count, ROOM - count) == 0, "%s: bytes behind", name);
    check(memcmp(c.written, before.written, ROOM) == 0 && memcmp(c.list, before.list, LIST_ROOM) == 0, "%s: lent bytes", name);
}

static void read_call(const char *name, unsigned option, size_t length, const char *lines, const char *bytes, size_t count)
{
    plain_call(&c, READ);
    c.option = (uint8_t)option;
    c.read_length = length;
    before = c;
    follow(&c, name, lines);
    arrived(name, (const uint8_t *)bytes, count);
}

#define LAST_STOP "r,CTLR1,0401\nw,CTLR1,0601\n"
#define LAST_START "r,CTLR1,0401\nw,CTLR1,0501\n"
#define BTF "r,STAR1,0004\n"
#define NO_ACK "r,CTLR1,0401\nw,CTLR1,0001\n"
#define READ_FROM(word)                                                                                                                   \
    "r,CTLR1,0001\nr,CTLR1,0001\nr,STAR1,0000\nr,CTLR1,0001\nw,CTLR1,0501\nr,STAR1,0001\nr,CTLR1,0401\nr,STAR2,0003\n"                   \
    "w,DATAR," word "\nr,STAR1,0002\n"
#define POS_OFF "r,CTLR1,0801\nw,CTLR1,0001\n"
#define POS_ON "r,CTLR1,0001\nw,CTLR1,0801\n"

static void reads(void)
{
    read_call("read 1", 0, 1, POS_OFF READ_FROM("0043") NO_ACK "r,STAR2,0003\n" LAST_STOP RECEIVE("ff7e") "r,CTLR1,0001\n" NO_POS "end,0",
              "\x7e", 1);
    read_call("read 2", 0, 2,
              POS_ON READ_FROM("0043") NO_ACK "r,STAR2,0003\n" BTF LAST_STOP "r,DATAR,0011\nr,DATAR,0022\nr,CTLR1,0601\nc,clock,0000\n"
                                              "r,CTLR1,0401\n" NO_POS "end,0",
              "\x11\x22", 2);
    read_call("read 3", 0, 3,
              POS_OFF READ_FROM("0043") "r,STAR2,0003\n" BTF NO_ACK "r,DATAR,0011\n" BTF LAST_STOP "r,DATAR,0022\nr,DATAR,0033\n"
                                        "r,CTLR1,0401\n" NO_POS "end,0",
              "\x11\x22\x33", 3);
    read_call("read 5", 0, 5,
              POS_OFF READ_FROM("0043") "r,STAR2,0003\n" RECEIVE("0011")
                  "r,STAR1,0040\nr,STAR1,0000\nc,clock,0000\n" RECEIVE("0022") BTF NO_ACK "r,DATAR,0033\n" BTF LAST_STOP
                  "r,DATAR,0044\nr,DATAR,0055\nr,CTLR1,0401\n" NO_POS "end,0",
              "\x11\x22\x33\x44\x55", 5);
    read_call("read 1, first frame", CH32_I2C_FIRST_FRAME, 1,
              POS_OFF READ_FROM("0043") NO_ACK "r,STAR2,0003\n" LAST_START RECEIVE("0001") "end,0", "\x01", 1);
    read_call("read 2, first and next frame", CH32_I2C_FIRST_AND_NEXT_FRAME, 2,
              POS_OFF READ_FROM("0043") "r,STAR2,0003\n" RECEIVE("0001") RECEIVE("0002") "end,0", "\x01\x02", 2);
    read_call("read 1, next frame", CH32_I2C_NEXT_FRAME, 1, POS_OFF RECEIVE("0001") "end,0", "\x01", 1);
    read_call("read 1, last frame: no STOP is asked", CH32_I2C_LAST_FRAME, 1, POS_OFF RECEIVE("0001") "r,CTLR1,0401\n" NO_POS "end,0",
              "\x01", 1);
    read_call("read 2, last frame without STOP", CH32_I2C_LAST_FRAME_NO_STOP, 2, POS_ON BTF LAST_START "r,DATAR,0001\nr,DATAR,0002\nend,0",
              "\x01\x02", 2);
    read_call("read 5, Nack after two bytes", 0, 5,
              POS_OFF READ_FROM("0043") "r,STAR2,0003\n" RECEIVE("0011") RECEIVE("0022") "r,STAR1,0400\nw,STAR1,fbff\n" ABORT_STOP "end,3,0400",
              "\x11\x22", 2);
}

/* A broken line, BERR and AF in one word: a bus error with ch32v4, else a Nack. */
#define BROKEN "r,STAR1,0500\nw,STAR1,faff\n" ABORT_STOP
#define BROKEN_BEHIND(lines) (chip & CH32_I2C_CHIP_CH32V4 ? lines BROKEN "end,1,0500" : lines BROKEN "end,3,0500")

static void broken_line(void)
{
    unsigned chip;
    for (chip = 0; chip < 4; chip++) {
        plain_call(&c, WRITE);
        c.chip = (uint8_t)chip;
        follow(&c, "a broken line at a write's address", BROKEN_BEHIND(START "w,DATAR,0042\n"));
        plain_call(&c, WRITE);
        c.chip = (uint8_t)chip;
        follow(&c, "a broken line before a byte is sent", BROKEN_BEHIND(WRITE_TO("0042")));
        plain_call(&c, WRITE);
        c.chip = (uint8_t)chip;
        follow(&c, "a broken line behind a byte sent", BROKEN_BEHIND(WRITE_TO("0042") "r,STAR1,0080\nw,DATAR,0031\n"));
        plain_call(&c, READ);
        c.chip = (uint8_t)chip;
        follow(&c, "a broken line behind a byte read", BROKEN_BEHIND(POS_OFF READ_FROM("0043") "r,STAR2,0003\n" RECEIVE("0011")));
    }
}

static void joined(void)
{
    plain_call(&c, WRITE_READ);
    c.read_length = 1;
    before = c;
    follow(&c, "write_read",
           WRITE_TO("0042") BYTE("0031") BYTE("0032") POS_OFF READ_FROM("0043") NO_ACK
           "r,STAR2,0003\n" LAST_STOP RECEIVE("0099") "r,CTLR1,0401\n" NO_POS "end,0");
    arrived("write_read", (const uint8_t *)"\x99", 1);

    /* Two reads joined, an empty write between read runs, writes of 1, 0 and 1 joined, and a STOP at the end alone. */
    plain_call(&c, TRANSACTION);
    c.list_length = 0;
    add_operation(&c, CH32_I2C_DIRECTION_READ, 1);
    add_operation(&c, CH32_I2C_DIRECTION_READ, 1);
    add_operation(&c, CH32_I2C_DIRECTION_WRITE, 0);
    add_operation(&c, CH32_I2C_DIRECTION_READ, 1);
    add_operation(&c, CH32_I2C_DIRECTION_WRITE, 1);
    add_operation(&c, CH32_I2C_DIRECTION_WRITE, 0);
    add_operation(&c, CH32_I2C_DIRECTION_WRITE, 1);
    c.read_length = 3;
    before = c;
    follow(&c, "transaction",
           POS_ON READ_FROM("0043") NO_ACK "r,STAR2,0003\n" BTF LAST_START "r,DATAR,0011\nr,DATAR,0022\n" /* START is asked already */
           "r,CTLR1,0501\nr,CTLR1,0501\nr,STAR1,0001\nr,CTLR1,0401\nr,STAR2,0003\nw,DATAR,0042\nr,STAR1,0002\nr,STAR2,0003\n" POS_OFF
               READ_FROM("0043") NO_ACK "r,STAR2,0003\n" LAST_START RECEIVE("0033") WRITE_TO("0042") BYTE("0031") BYTE("0032") STOP "end,0");
    arrived("transaction", (const uint8_t *)"\x11\x22\x33", 3);
}

static void init_slaves(void)
{
    plain_call(&c, INIT_SLAVE);
    follow(&c, "init_slave", "r,CTLR1,ffff\nw,CTLR1,fffe\nr,CTLR2,ffff\nw,CTLR2,fbff\nw,OADDR1,4084\nw,OADDR2,0000\n"
                             "r,CTLR1,00c0\nw,CTLR1,0401\nend,0");
    plain_call(&c, INIT_SLAVE);
    c.ten_bit = 1;
    c.own = 0x3ff;
    c.second = 0xff; /* not looked at */
    c.clock_stretching = 0;
    follow(&c, "init_slave, ten bits", "r,CTLR1,0000\nw,CTLR1,0000\nr,CTLR2,0000\nw,CTLR2,0000\nw,OADDR1,c3ff\nw,OADDR2,0000\n"
                                       "r,CTLR1,0000\nw,CTLR1,0481\nend,0");
    plain_call(&c, INIT_SLAVE);
    c.own = 0;
    c.has_second = 1;
    c.second = 0x17;
    c.general_call = 1;
    follow(&c, "init_slave, general call", "r,CTLR1,0000\nw,CTLR1,0000\nr,CTLR2,0000\nw,CTLR2,0000\nw,OADDR1,4000\nw,OADDR2,002f\n"
                                           "r,CTLR1,0000\nw,CTLR1,0441\nend,0");
}

#define FLUSH "r,STAR1,0010\nr,CTLR1,0401\nw,CTLR1,0401\nr,STAR1,0000\nr,CTLR2,0408\nw,CTLR2,0008\nr,CTLR1,0001\nw,CTLR1,0401\n"
#define SLAVE_ABORT "r,CTLR2,1f08\nw,CTLR2,1008\nr,STAR2,0002\nr,CTLR1,0401\nw,CTLR1,0601\n"

static void slaves(void)
{
    plain_call(&c, LISTEN);
    follow(&c, "listen, seven bits", FLUSH "r,STAR1,0000\nc,clock,0000\nr,STAR1,0002\nr,STAR2,0002\nr,OADDR1,4084\nend,0,2042");
    plain_call(&c, LISTEN);
    follow(&c, "listen, ten bits, read", FLUSH "r,STAR1,0f02\nr,STAR2,0006\nr,OADDR1,c2a5\nend,0,16a5");
    plain_call(&c, LISTEN);
    follow(&c, "listen, second address", FLUSH "r,STAR1,0002\nr,STAR2,0084\nr,OADDR2,ff2f\nend,0,1017");
    plain_call(&c, LISTEN);
    follow(&c, "listen, general call", FLUSH "r,STAR1,0002\nr,STAR2,0094\nend,0,0000");
    plain_call(&c, LISTEN);
    follow(&c, "listen, stale flags, late",
           "r,STAR1,0010\nr,CTLR1,0401\nw,CTLR1,0401\nr,STAR1,bfff\nw,STAR1,e0ff\nr,CTLR2,0408\nw,CTLR2,0008\nr,CTLR1,0001\n"
           "w,CTLR1,0401\nr,STAR1,0400\nw,STAR1,fbff\nc,clock,0001\n" SLAVE_ABORT "end,4");
    plain_call(&c, LISTEN);
    follow(&c, "listen, BERR before OVR", FLUSH "r,STAR1,0900\nw,STAR1,f6ff\nr,CTLR2,0008\nw,CTLR2,0008\nr,STAR2,0003\nend,1,0900");
    plain_call(&c, LISTEN);
    c.chip = CH32_I2C_CHIP_V3;
    follow(&c, "listen, OVR, BERR does not decide on this chip",
           FLUSH "r,STAR1,0900\nw,STAR1,f6ff\nr,CTLR2,0008\nw,CTLR2,0008\nr,STAR2,0003\nend,6,0900");
    plain_call(&c, LISTEN);
    follow(&c, "listen, OVR", FLUSH "r,STAR1,0c00\nw,STAR1,f3ff\nr,CTLR2,0008\nw,CTLR2,0008\nr,STAR2,0003\nend,6,0c00");

    plain_call(&c, RESPOND_TO_WRITE);
    c.read_length = 2;
    before = c;
    follow(&c, "respond_to_write, a byte dropped",
           "r,STAR1,0050\nr,DATAR,ff11\nr,STAR1,0000\nc,clock,0000\nr,STAR1,0040\nr,DATAR,0022\nr,STAR1,0040\nr,DATAR,0033\n"
           "r,STAR1,0010\nr,STAR1,0000\nr,CTLR1,1234\nw,CTLR1,1234\nend,0,0002");
    arrived("respond_to_write", (const uint8_t *)"\x11\x22", 2);
    plain_call(&c, RESPOND_TO_WRITE);
    before = c;
    follow(&c, "respond_to_write, START again", "r,STAR1,0040\nr,DATAR,0011\nr,STAR1,0f02\nend,0,0001");
    arrived("respond_to_write, START again", (const uint8_t *)"\x11", 1);
    plain_call(&c, RESPOND_TO_WRITE);
    before = c;
    follow(&c, "respond_to_write, ARLO", "r,STAR1,0040\nr,DATAR,0011\nr,STAR1,0200\nw,STAR1,fdff\n" SLAVE_ABORT "end,2,0200");
    arrived("respond_to_write, ARLO", (const uint8_t *)"\x11", 1);

    plain_call(&c, RESPOND_TO_READ);
    c.written_length = 4;
    follow(&c, "respond_to_read, AF", "r,STAR1,0080\nw,DATAR,0031\nr,STAR1,0080\nw,DATAR,0032\nr,STAR1,0000\nc,clock,0000\n"
                                      "r,STAR1,0400\nr,STAR1,ffff\nw,STAR1,fbff\nend,0,00030002");
    plain_call(&c, RESPOND_TO_READ);
    c.written_length = 4;
    follow(&c, "respond_to_read, STOPF with TXE clear", "r,STAR1,0080\nw,DATAR,0031\nr,STAR1,0080\nw,DATAR,0032\n"
                                                        "r,STAR1,0010\nr,STAR1,0080\nr,CTLR1,0401\nw,CTLR1,0401\nend,0,00030003");
    plain_call(&c, RESPOND_TO_READ);
    c.written_length = 4;
    follow(&c, "respond_to_read, ADDR with TXE set", "r,STAR1,0080\nw,DATAR,0031\nr,STAR1,0082\nend,0,00030003");
    plain_call(&c, RESPOND_TO_READ);
    c.written_length = 1;
    follow(&c, "respond_to_read, padding",
           "r,STAR1,0080\nw,DATAR,0031\nr,STAR1,0080\nw,DATAR,0000\nr,STAR1,0080\nw,DATAR,0000\nr,STAR1,0010\n"
           "r,STAR1,0000\nr,CTLR1,0401\nw,CTLR1,0401\nend,0,0000");
    plain_call(&c, RESPOND_TO_READ);
    c.written_length = 0;
    follow(&c, "respond_to_read, nothing sent", "r,STAR1,0002\nend,0,0000");
    plain_call(&c, RESPOND_TO_READ);
    follow(&c, "respond_to_read, TIMEOUT", "r,STAR1,4000\nw,STAR1,bfff\nr,CTLR2,0008\nw,CTLR2,0008\nr,STAR2,0000\nend,4,4000");
}

/* Bits that do not matter are all set or all clear, so that a wait or a change that looks at others, or alters others, shows. */
#define NOISY_ADDRESS(ack, word)                                                                                                          \
    "r,CTLR1,fdff\nr,CTLR1,feff\nr,STAR1,fffe\nr,CTLR1,0000\nw,CTLR1," ack "\nr,STAR1,a0fe\nc,clock,0000\nr,STAR1,0001\n"               \
    "r,CTLR1,feff\nr,STAR2,0001\nw,DATAR," word "\nr,STAR1,a0fd\nc,clock,0000\nr,STAR1,0002\n"
#define NOISY_BYTE(word) "r,STAR1,a07f\nc,clock,0000\nr,STAR1,0080\nw,DATAR," word "\nr,STAR1,a0fb\nc,clock,0000\nr,STAR1,0004\n"
#define NOISY_BTF "r,STAR1,a0fb\nc,clock,0000\nr,STAR1,0004\n"
#define NOISY_RECEIVE(word) "r,STAR1,a0ff\nr,STAR1,ffbf\nc,clock,0000\nr,STAR1,0000\nr,STAR1,0040\nr,DATAR," word "\n"

static void noisy_call(enum entry entry, const char *name, unsigned option, size_t length, const char *lines)
{
    plain_call(&c, entry);
    c.option = (uint8_t)option;
    c.written_length = c.read_length = length;
    follow(&c, name, lines);
}

static void noise(void)
{
    noisy_call(WRITE, "write with noise", 0, 1,
               NOISY_ADDRESS("0100", "0042") "r,STAR2,ffff\n" NOISY_BYTE("0031") "r,CTLR1,0000\nw,CTLR1,0200\nr,CTLR1,fdff\nend,0");
    noisy_call(READ, "read 1 with noise", 0, 1,
               "r,CTLR1,ffff\nw,CTLR1,f7ff\n" NOISY_ADDRESS("0500", "0043") "r,CTLR1,ffff\nw,CTLR1,fbff\nr,STAR2,0000\n"
               "r,CTLR1,0000\nw,CTLR1,0200\n" NOISY_RECEIVE("ffee") "r,CTLR1,fdff\nr,CTLR1,ffff\nw,CTLR1,f7ff\nend,0");
    noisy_call(READ, "read 1 with noise, first frame", 1, 1,
               "r,CTLR1,0000\nw,CTLR1,0000\n" NOISY_ADDRESS("0500", "0043") "r,CTLR1,ffff\nw,CTLR1,fbff\nr,STAR2,0000\n"
               "r,CTLR1,0000\nw,CTLR1,0100\n" NOISY_RECEIVE("ffee") "end,0");
    noisy_call(READ, "read 2 with noise", 0, 2,
               "r,CTLR1,0000\nw,CTLR1,0800\n" NOISY_ADDRESS("0500", "0043") "r,CTLR1,0000\nw,CTLR1,0000\nr,STAR2,ffff\n" NOISY_BTF
               "r,CTLR1,0000\nw,CTLR1,0200\nr,DATAR,ff01\nr,DATAR,ff02\nr,CTLR1,0000\nr,CTLR1,0000\nw,CTLR1,0000\nend,0");
    noisy_call(READ, "read 4 with noise, last frame without STOP", 5, 4,
               "r,CTLR1,0000\nw,CTLR1,0000\n" NOISY_RECEIVE("0001") NOISY_BTF "r,CTLR1,ffff\nw,CTLR1,fbff\nr,DATAR,0002\n" NOISY_BTF
               "r,CTLR1,0000\nw,CTLR1,0100\nr,DATAR,0003\nr,DATAR,0004\nend,0");
    noisy_call(WRITE, "abort, not master", 3, 1, "r,STAR1,0400\nw,STAR1,fbff\nr,CTLR2,ffff\nw,CTLR2,e0ff\nr,CTLR1,fcff\nr,STAR2,fffe\nend,3,0400");
    noisy_call(WRITE, "abort, master", 3, 1,
               "r,STAR1,0400\nw,STAR1,fbff\nr,CTLR2,0000\nw,CTLR2,0000\nr,CTLR1,fcff\nr,STAR2,0001\nr,CTLR1,0000\nw,CTLR1,0200\nend,3,0400");
    noisy_call(WRITE, "abort, STOP asked", 3, 1,
               "r,STAR1,0400\nw,STAR1,fbff\nr,CTLR2,0000\nw,CTLR2,0000\nr,CTLR1,0200\nr,CTLR2,ffc0\nr,CKCFGR,ffff\nr,RTR,ffff\n"
               "w,CTLR1,8000\nw,CTLR1,0000\nw,CTLR2,0000\nw,CKCFGR,ffff\nw,RTR,ffff\nw,CTLR1,0001\nend,3,0400");
    noisy_call(LISTEN, "listen with noise", 0, 0,
               "r,STAR1,ffff\nr,CTLR1,0000\nw,CTLR1,0000\nr,STAR1,a0ff\nr,CTLR2,ffff\nw,CTLR2,fbff\nr,CTLR1,0000\nw,CTLR1,0400\n"
               "r,STAR1,a0fd\nc,clock,0000\nr,STAR1,0002\nr,STAR2,ff6b\nr,OADDR1,7fff\nend,0,207f");
    noisy_call(LISTEN, "listen with noise, second address", 0, 0, FLUSH "r,STAR1,0002\nr,STAR2,0080\nr,OADDR2,ffff\nend,0,207f");
    noisy_call(LISTEN, "listen with noise, ten bits", 0, 0, FLUSH "r,STAR1,0002\nr,STAR2,0004\nr,OADDR1,ffff\nend,0,17ff");
    noisy_call(LISTEN, "listen with noise, general call", 0, 0, FLUSH "r,STAR1,0002\nr,STAR2,0010\nend,0,0000");
    noisy_call(LISTEN, "slave's abort, not busy", 0, 0,
               FLUSH "r,STAR1,a0fd\nc,clock,0001\nr,CTLR2,ffff\nw,CTLR2,f0ff\nr,STAR2,fffd\nend,4");
    noisy_call(LISTEN, "slave's abort, master", 0, 0,
               FLUSH "r,STAR1,a0fd\nc,clock,0001\nr,CTLR2,0000\nw,CTLR2,0000\nr,STAR2,ffff\nend,4");
    noisy_call(LISTEN, "slave's abort, busy", 0, 0,
               FLUSH "r,STAR1,a0fd\nc,clock,0001\nr,CTLR2,0000\nw,CTLR2,0000\nr,STAR2,fffe\nr,CTLR1,0000\nw,CTLR1,0200\nend,4");
    noisy_call(RESPOND_TO_WRITE, "respond_to_write with noise", 0, 2,
               "r,STAR1,a0ad\nc,clock,0000\nr,STAR1,ffff\nr,DATAR,ff01\nr,STAR1,ffbf\nr,STAR1,ffff\nr,CTLR1,ffff\nw,CTLR1,ffff\nend,0,0001");
    noisy_call(RESPOND_TO_WRITE, "respond_to_write with noise, ADDR", 0, 2, "r,STAR1,ffaf\nend,0,0000");
    noisy_call(RESPOND_TO_READ, "respond_to_read with noise", 0, 2,
               "r,STAR1,a06d\nc,clock,0000\nr,STAR1,fbed\nw,DATAR,0031\nr,STAR1,fb7f\nr,STAR1,0000\nr,CTLR1,0000\nw,CTLR1,0000\nend,0,00020002");
    noisy_call(RESPOND_TO_READ, "respond_to_read with noise, AF", 0, 2, "r,STAR1,0080\nw,DATAR,0031\nr,STAR1,ff7f\nr,STAR1,0000\nw,STAR1,0000\nend,0,00020001");
    noisy_call(RESPOND_TO_READ, "respond_to_read with noise, ADDR", 0, 2, "r,STAR1,0080\nw,DATAR,0031\nr,STAR1,fb6f\nend,0,00020002");
    plain_call(&c, INIT_SLAVE);
    c.general_call = 1;
    c.clock_stretching = 0;
    follow(&c, "init_slave with noise", "r,CTLR1,ffff\nw,CTLR1,fffe\nr,CTLR2,ffff\nw,CTLR2,fbff\nw,OADDR1,4084\nw,OADDR2,0000\n"
                                        "r,CTLR1,ffff\nw,CTLR1,ffff\nend,0");
    plain_call(&c, INIT_SLAVE);
    follow(&c, "init_slave with noise, bits off", "r,CTLR1,0000\nw,CTLR1,0000\nr,CTLR2,0000\nw,CTLR2,0000\nw,OADDR1,4084\nw,OADDR2,0000\n"
                                                  "r,CTLR1,ffff\nw,CTLR1,ff3f\nend,0");
}

/* ---- errors: every set of flags on every chip ---- */

/* The call waits at STAR1; it is answered with these flags, and with others that do not matter. Then all is answered with 0, in which case no abort does more than it must. */
static void errors_at(uint64_t next, unsigned flags, unsigned others, int slave)
{
    unsigned steps = 0, end = error_of(flags, c.chip, !slave);
    check(next == (CH32_I2C_KIND_READ | CH32_I2C_STAR1 << 8), "%s: waits at STAR1", entry_names[c.entry]);
    next = step(&c, (uint16_t)(flags | others));
    if (flags & 0x5f00) {
        check(next == (CH32_I2C_KIND_WRITE | CH32_I2C_STAR1 << 8 | (uint64_t)(0xffff & ~(flags & 0x5f00)) << 16),
              "%s: flags %#x: got %#llx", entry_names[c.entry], flags, (unsigned long long)next);
        next = step(&c, 0);
    }
    if (end == 0) {
        check(next == CH32_I2C_KIND_CLOCK, "%s: flags %#x: got %#llx", entry_names[c.entry], flags, (unsigned long long)next);
        return;
    }
    while (ch32_i2c_kind_of(next) != CH32_I2C_KIND_END && steps++ < 10)
        next = step(&c, 0);
    check(next == (ending(end) | (uint64_t)(flags & 0x5f00) << 48), "%s: flags %#x, chip %u: got %#llx", entry_names[c.entry], flags, c.chip, (unsigned long long)next);
}

void test_errors(void)
{
    unsigned chip, set, i;
    for (chip = 0; chip < 4; chip++)
        for (set = 0; set < 128; set++) {
            unsigned flags = (set & 0x3f) << 8 | (set & 0x40) << 8; /* bits 8 to 13 and 14; 13 is no error */
            uint64_t next;
            plain_call(&c, WRITE);
            c.chip = (uint8_t)chip;
            c.option = CH32_I2C_NEXT_FRAME;
            errors_at(begin(&c), flags, 0x807f, 0);
            plain_call(&c, LISTEN);
            c.chip = (uint8_t)chip;
            next = begin(&c);
            for (i = 0; i < 8; i++)
                next = step(&c, 0);
            errors_at(next, flags, 0x80fd, 1);
            plain_call(&c, RESPOND_TO_WRITE);
            c.chip = (uint8_t)chip;
            errors_at(begin(&c), flags, 0x80ad, 1);
            if (flags & 0x0400)
                continue; /* AF ends a reply */
            plain_call(&c, RESPOND_TO_READ);
            c.chip = (uint8_t)chip;
            errors_at(begin(&c), flags, 0x806d, 1);
        }
}

void test_sequences(void)
{
    noise();
    bench_example();
    init();
    writes();
    reads();
    broken_line();
    joined();
    init_slaves();
    slaves();
}

/* Document 01's edges: the words that init writes, or the refusal. */
void test_settings(void)
{
    static const struct {
        unsigned chip;
        uint32_t input, frequency;
        unsigned duty, end, mhz, rise, ckcfgr;
    } rows[] = {
        {1, 36000000, 100000, 0, 0, 36, 37, 180},
        {1, 36000000, 400000, 0, 0, 36, 11, 0x8000 + 30},
        {1, 36000000, 400000, 1, 0, 36, 11, 0xc000 + 4},
        {1, 36000000, 100000, 1, 0, 36, 37, 180},
        {1, 81900000, 10000, 0, 0, 81 % 64, 82 % 64, 4095},
        {1, 81900001, 10000, 0, 11, 0, 0, 0},
        {1, 0, 100000, 0, 0, 0, 1, 4},
        {3, 0, 100000, 0, 12, 0, 0, 0},
        {3, 3999999, 100000, 0, 12, 0, 0, 0},
        {3, 4000000, 100000, 0, 0, 4, 5, 20},
        {1, 36000000, 400001, 0, 10, 0, 0, 0},
        {1, 36000000, 0, 0, 10, 0, 0, 0},
        {1, 300000000, 100000, 0, 0, 300 % 256 % 64, 301 % 256 % 64, 1500},
        {3, 300000000, 100000, 0, 0, 60, 61, 1500},
        {1, 0, 100001, 0, 0, 0, 1, 0x8001},
        {1, 4294967295u, 400000, 1, 0, (4294 % 256) % 64, (4294 * 300 / 1000 + 1) % 256 % 64, 0xc000 + 430},
        {1, 4294967295u, 100000, 0, 11, 0, 0, 0},
    };
    size_t i;
    for (i = 0; i < sizeof rows / sizeof *rows; i++) {
        uint64_t next;
        unsigned written[9] = {0}, steps = 0;
        plain_call(&c, INIT);
        c.chip = (uint8_t)rows[i].chip;
        c.input = rows[i].input;
        c.frequency = rows[i].frequency;
        c.duty = (uint8_t)rows[i].duty;
        next = begin(&c);
        while (ch32_i2c_kind_of(next) != CH32_I2C_KIND_END && steps++ < 100) {
            if (ch32_i2c_kind_of(next) == CH32_I2C_KIND_WRITE)
                written[ch32_i2c_register_of(next)] = ch32_i2c_value_of(next);
            next = step(&c, 0);
        }
        check(next == ending(rows[i].end), "settings %u: end %#llx", (unsigned)i, (unsigned long long)next);
        check(written[CH32_I2C_CTLR2] == rows[i].mhz && written[CH32_I2C_RTR] == rows[i].rise && written[CH32_I2C_CKCFGR] == rows[i].ckcfgr,
              "settings %u: CTLR2 %u, RTR %u, CKCFGR %#x", (unsigned)i, written[CH32_I2C_CTLR2], written[CH32_I2C_RTR],
              written[CH32_I2C_CKCFGR]);
    }
}
