/* What the driver does, seen on the wire: a simulated peripheral with an EEPROM at 0x50 and a temperature sensor at 0x48 behind it. At last it
 * is a slave itself, at 0x42, and another master reads from it.
 * Usage: demo FILE.vcd [-v]. With -v each access is printed too. */
#include "ch32_i2c_blocking.h"
#include "port.h"
#include "sim.h"

#include <stdio.h>
#include <string.h>

#define EEPROM 0x50
#define SENSOR 0x48
#define GAUGE 0x42

static struct eeprom eeprom;
static struct sensor sensor;
static struct ch32_i2c_port port;
static int wrong;

/* ---- what is printed ---- */

static unsigned calls;
static uint64_t call_started;

static void call(const char *what)
{
    printf("\n%2u. %s\n", ++calls, what);
    call_started = sim_now();
    port_accesses = 0;
}

/* What was on the wire, the 50 us after the call included; then the end, which is to be `wanted`. */
static void result(unsigned end, unsigned wanted)
{
    static const char *const ends[] = {"done", "bus error", "arbitration lost", "Nack", "timeout", "CRC error", "overrun"};
    uint64_t time = sim_now() - call_started;
    char text[4096], *word;
    size_t column = 0;
    sim_wait(50000);
    strcpy(text, sim_wire());
    for (word = strtok(text, " "); word; word = strtok(NULL, " ")) {
        if (column + strlen(word) > 110)
            column = (size_t)printf("\n          ") - 1;
        else if (column == 0)
            column = (size_t)printf("    wire  ");
        column += (size_t)printf(" %s", word);
    }
    if (column)
        printf("\n");
    printf("    end    %u, %s; %lu accesses in %llu us\n", end, end <= 6 ? ends[end] : "refused", port_accesses,
           (unsigned long long)time / 1000);
    if (end != wanted) {
        printf("    WRONG: %u was expected\n", wanted);
        wrong = 1;
    }
}

static void expect(int holds, const char *what)
{
    if (!holds) {
        printf("    WRONG: %s\n", what);
        wrong = 1;
    }
}

/* The same of a whole end: with the flags behind an error, which are to be `flags`. */
static void whole_result(uint64_t end, unsigned wanted, unsigned flags)
{
    static const struct {
        unsigned flag;
        const char *name;
    } names[] = {
        {CH32_I2C_FLAG_ARLO, "arbitration lost"}, {CH32_I2C_FLAG_BERR, "bus error"}, {CH32_I2C_FLAG_TIMEOUT, "timeout"},
        {CH32_I2C_FLAG_PECERR, "PEC error"},      {CH32_I2C_FLAG_OVR, "overrun"},    {CH32_I2C_FLAG_AF, "no acknowledge"},
    };
    size_t i;
    result(ch32_i2c_end_of(end), wanted);
    printf("    flags  %04x", ch32_i2c_flags_of(end));
    for (i = 0; i < sizeof names / sizeof *names; i++)
        if (ch32_i2c_flags_of(end) & names[i].flag)
            printf(", %s", names[i].name);
    printf(ch32_i2c_flags_of(end) ? "\n" : ", the status word showed no error\n");
    expect(ch32_i2c_flags_of(end) == flags, "other flags were expected");
}

/* ---- the calls ---- */

static void set_up(void)
{
    call("init: 36 MHz, bus at 100 kHz");
    result(ch32_i2c_init(&port, SIM_INPUT, 100000, CH32_I2C_DUTY_2_1), 0);
}

static void temperature(const char *what)
{
    static const uint8_t pointer[1] = {0};
    uint8_t bytes[2] = {0, 0};
    call(what);
    result(ch32_i2c_write_read(&port, SENSOR, pointer, 1, bytes, 2), 0);
    printf("    read   %02x %02x: %.2f degrees\n", bytes[0], bytes[1], (int16_t)(bytes[0] << 8 | bytes[1]) / 256.0);
    expect(bytes[0] == 0x17 && bytes[1] == 0x80, "23.50 degrees");
}

/* Three writes, one run: a pointer, a header and a body from places of their own. */
static void joined_writes(void)
{
    static const uint8_t written[6] = {0x10, 0xca, 0xfe, 0x01, 0x02, 0x03};
    uint8_t list[3 * CH32_I2C_OPERATION_SIZE];
    size_t used = 0;
    used = ch32_i2c_put_operation(list, used, CH32_I2C_DIRECTION_WRITE, 1);
    used = ch32_i2c_put_operation(list, used, CH32_I2C_DIRECTION_WRITE, 2);
    used = ch32_i2c_put_operation(list, used, CH32_I2C_DIRECTION_WRITE, 3);
    call("transaction with the EEPROM: write 1, write 2, write 3, joined");
    result(ch32_i2c_transaction(&port, EEPROM, list, used, written, sizeof written, NULL, 0), 0);
    expect(memcmp(eeprom.bytes + 0x10, written + 1, 5) == 0, "the EEPROM holds the bytes");
}

/* The EEPROM is busy with its page, and does not acknowledge. */
static void wait_for_eeprom(void)
{
    unsigned tries = 1, end;
    call("empty writes until the EEPROM is ready: the first");
    result(ch32_i2c_write(&port, EEPROM, NULL, 0), CH32_I2C_NACK);
    do {
        tries++;
        call("again");
        end = ch32_i2c_write(&port, EEPROM, NULL, 0);
        result(end, end == 0 ? 0 : CH32_I2C_NACK);
    } while (end == CH32_I2C_NACK && tries < 20);
    expect(end == 0, "it becomes ready");
}

static void joined_reads(void)
{
    static const uint8_t pointer[1] = {0x10};
    uint8_t list[3 * CH32_I2C_OPERATION_SIZE], bytes[5] = {0};
    size_t used = 0;
    used = ch32_i2c_put_operation(list, used, CH32_I2C_DIRECTION_WRITE, 1);
    used = ch32_i2c_put_operation(list, used, CH32_I2C_DIRECTION_READ, 2);
    used = ch32_i2c_put_operation(list, used, CH32_I2C_DIRECTION_READ, 3);
    call("transaction with the EEPROM: write 1, read 2, read 3, the reads joined");
    result(ch32_i2c_transaction(&port, EEPROM, list, used, pointer, 1, bytes, sizeof bytes), 0);
    printf("    read   %02x %02x, %02x %02x %02x\n", bytes[0], bytes[1], bytes[2], bytes[3], bytes[4]);
    expect(memcmp(bytes, "\xca\xfe\x01\x02\x03", 5) == 0, "the bytes written before");
}

/* Three runs, two of them reads with a START between them. */
static void two_read_runs(void)
{
    static const uint8_t pointer[1] = {0x12};
    uint8_t list[3 * CH32_I2C_OPERATION_SIZE], bytes[3] = {0};
    size_t used = 0;
    used = ch32_i2c_put_operation(list, used, CH32_I2C_DIRECTION_READ, 1);
    used = ch32_i2c_put_operation(list, used, CH32_I2C_DIRECTION_WRITE, 1);
    used = ch32_i2c_put_operation(list, used, CH32_I2C_DIRECTION_READ, 2);
    call("transaction with the EEPROM: read 1, write 1, read 2");
    result(ch32_i2c_transaction(&port, EEPROM, list, used, pointer, 1, bytes, sizeof bytes), 0);
    printf("    read   %02x, %02x %02x\n", bytes[0], bytes[1], bytes[2]);
    expect(memcmp(bytes, "\xff\x01\x02", 3) == 0, "what lies behind, then what the pointer says");
}

static void missing(void)
{
    uint8_t byte;
    call("read from 0x33, where no device is");
    whole_result(ch32_i2c_read_whole(&port, 0x33, &byte, 1), CH32_I2C_NACK, CH32_I2C_FLAG_AF);
}

static void hold_scl(uint64_t time, const char *what)
{
    static const uint8_t limit[3] = {3, 0x50, 0x00};
    sensor.hold_next = time;
    call(what);
    whole_result(ch32_i2c_write_whole(&port, SENSOR, limit, sizeof limit), CH32_I2C_TIMEOUT, 0);
}

/* The sensor holds SCL low for longer than a call may take. The call is late, and asks STOP before it ends. The byte under way and STOP come
 * out when the sensor lets go, and the next call waits for that. */
static void late(void)
{
    hold_scl(3000000, "write a limit to the sensor, which holds SCL low for 3 ms; a call may take 2 ms");
    temperature("write-read from the sensor: first waits until that STOP is out");
}

/* For so long that the next call is late too. It finds STOP still asked, and resets the peripheral with its clock settings kept. */
static void late_twice(void)
{
    static const uint8_t pointer[1] = {0};
    uint8_t bytes[2];
    hold_scl(5000000, "the same, but SCL is held for 5 ms");
    call("write-read from the sensor: STOP is still not out, the peripheral is reset");
    result(ch32_i2c_write_read(&port, SENSOR, pointer, 1, bytes, 2), CH32_I2C_TIMEOUT);
    temperature("again: START comes when SCL is free");
}

/* One word shows two errors, and the end has the number of the first. On this chip a bus error alone is none. */
static void line_disturbed(void)
{
    static const uint8_t limit[3] = {3, 0x50, 0x00};
    sim_disturb();
    call("write a limit to the sensor, while something pulls SDA low");
    whole_result(ch32_i2c_write_whole(&port, SENSOR, limit, sizeof limit), CH32_I2C_ARBITRATION, CH32_I2C_FLAG_ARLO | CH32_I2C_FLAG_BERR);
    temperature("write-read from the sensor");
}

/* A broken line raises both. With ch32v4 the end is the bus error, so that nobody looks for the device; without it no bus error is reported. */
static void line_broken(void)
{
    static const uint8_t limit[3] = {3, 0x50, 0x00};
    struct ch32_i2c_port ch32v4 = port;
    ch32v4.chip |= CH32_I2C_CHIP_CH32V4;
    sim_break_line();
    call("write a limit to the sensor, over a broken line");
    whole_result(ch32_i2c_write_whole(&port, SENSOR, limit, sizeof limit), CH32_I2C_NACK, CH32_I2C_FLAG_AF | CH32_I2C_FLAG_BERR);
    sim_break_line();
    call("the same as a chip with ch32v4");
    whole_result(ch32_i2c_write_whole(&ch32v4, SENSOR, limit, sizeof limit), CH32_I2C_BUS, CH32_I2C_FLAG_AF | CH32_I2C_FLAG_BERR);
}

static void fast(void)
{
    call("init: bus at 400 kHz");
    result(ch32_i2c_init(&port, SIM_INPUT, 400000, CH32_I2C_DUTY_16_9), 0);
    temperature("write-read from the sensor");
}

/* An isolator passes only some speeds on. Init for 400 kHz with 16:9 made 360 kHz, which is not among them; the fastest that is: 36 MHz by 3 times 31. */
static void isolated(void)
{
    static const uint8_t pointer[1] = {0};
    uint8_t bytes[2];
    uint64_t end;
    sim_isolate(370000, 390000);
    call("write-read from the sensor, behind an isolator for 370 to 390 kHz");
    result(ch32_i2c_write_read(&port, SENSOR, pointer, 1, bytes, 2), CH32_I2C_NACK);
    call("init in that window");
    end = ch32_i2c_init_in_window_whole(&port, SIM_INPUT, 370000, 390000);
    result(ch32_i2c_end_of(end), 0);
    printf("    found  factor %u, divider %u: %lu Hz, rounded up\n", ch32_i2c_factor_of(end), ch32_i2c_divider_of(end),
           (unsigned long)ch32_i2c_frequency_of(end, SIM_INPUT));
    expect(ch32_i2c_factor_of(end) == 3 && ch32_i2c_divider_of(end) == 31, "the fastest pair");
    temperature("write-read from the sensor");
    call("init in a window from 388 to 399 kHz, where there is no speed");
    result(ch32_i2c_init_in_window(&port, SIM_INPUT, 388000, 399000), CH32_I2C_NO_SUCH_SPEED);
    sim_isolate(0, UINT32_MAX);
}

static void refused(void)
{
    call("init: bus at 1 MHz");
    result(ch32_i2c_init(&port, SIM_INPUT, 1000000, CH32_I2C_DUTY_2_1), CH32_I2C_INVALID_FREQUENCY);
    call("write to address 0x80");
    result(ch32_i2c_write(&port, 0x80, NULL, 0), CH32_I2C_INVALID_ADDRESS);
}

/* ---- a slave ---- */

static void become_slave(void)
{
    struct ch32_i2c_slave_config config = {0};
    config.address = GAUGE;
    config.clock_stretching = 1;
    call("init_slave: a gauge at 0x42");
    result(ch32_i2c_init_slave(&port, &config), 0);
}

/* Another master reads some bytes of a queue. Hands back how many of the queue's it did not take. */
static size_t read_by_another(const uint8_t *queue, size_t waiting, unsigned count, const char *what)
{
    struct ch32_i2c_slave_command command = {0, 0, 0};
    uint64_t end;
    call(what);
    sim_other_master_reads(GAUGE, count);
    result(ch32_i2c_listen(&port, &command), 0);
    expect(command.command == CH32_I2C_COMMAND_READ && command.address == GAUGE, "a read of 0x42");
    call("respond_to_read from the queue");
    end = ch32_i2c_respond_to_read_whole(&port, queue, waiting);
    result(ch32_i2c_end_of(end), 0);
    printf("    left   of %u bytes %u by ch32-hal's count; %u were not taken\n", (unsigned)waiting, ch32_i2c_left_over_of(end),
           ch32_i2c_not_taken_of(end));
    return ch32_i2c_not_taken_of(end);
}

/* The master refuses the second byte while the third waits in the data register: the next reply has to begin with the third. */
static void gauge(void)
{
    static const uint8_t queue[6] = {0x11, 0x22, 0x33, 0x44, 0x55, 0x66};
    size_t left;
    become_slave();
    left = read_by_another(queue, sizeof queue, 2, "listen, while another master begins to read 2 bytes");
    expect(left == 4, "four bytes were not taken");
    left = read_by_another(queue + sizeof queue - left, left, 4, "listen, while it begins to read 4 more");
    expect(left == 0, "all were taken; what waits is padding");
}

int main(int count, char **arguments)
{
    if (count < 2) {
        fprintf(stderr, "usage: demo FILE.vcd [-v]\n");
        return 2;
    }
    port = port_make(count > 2 && strcmp(arguments[2], "-v") == 0);
    vcd_open(arguments[1]);
    eeprom_make(&eeprom, EEPROM);
    sensor_make(&sensor, SENSOR, 23.5);
    sim_attach(&eeprom.device);
    sim_attach(&sensor.device);
    printf("An EEPROM at 0x50 and a temperature sensor at 0x48 behind a simulated CH32V I2C peripheral. At the end it is a slave itself, a gauge at 0x42.\n");
    set_up();
    temperature("write-read from the sensor: its register 0");
    joined_writes();
    wait_for_eeprom();
    joined_reads();
    two_read_runs();
    missing();
    late();
    late_twice();
    line_disturbed();
    line_broken();
    fast();
    isolated();
    refused();
    gauge();
    sim_wait(1000000);
    vcd_close(sim_now());
    printf("\n%u calls, %s; waveform in %s\n", calls, wrong ? "SOME WRONG" : "all as expected", arguments[1]);
    return wrong;
}
