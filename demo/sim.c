/* The peripheral as a master, and as a slave that is read, after the I2C chapter of the CH32V manual. Time passes with each access; between
 * accesses the bus moves on by itself, a piece (START, eight bits, the ninth bit, STOP) at a time. */
#include "sim.h"

#include "ch32_i2c.h"

#include <stdio.h>
#include <string.h>

enum { PE = 1, START = 0x100, STOP = 0x200, ACK = 0x400, POS = 0x800, SWRST = 0x8000 };        /* CTLR1 */
enum { SB = 1, ADDR = 2, BTF = 4, RXNE = 0x40, TXE = 0x80, BERR = 0x100, ARLO = 0x200, AF = 0x400, ERRORS = 0xdf00 }; /* STAR1 */
enum { MSL = 1, BUSY = 2, TRA = 4 };                                                          /* STAR2 */

/* FREE: nobody uses the bus. WAITING: it is ours, SCL is low, nothing moves. The others take time. Those of OTHER_ are another master's;
 * in OTHER_WAITING we hold SCL low as a slave. */
enum piece {
    FREE, WAITING, STARTING, ADDRESS_BITS, ADDRESS_ACK, SENDING_BITS, SENDING_ACK, RECEIVING_BITS, RECEIVING_ACK, STOPPING,
    OTHER_START, OTHER_ADDRESS, OTHER_ADDRESS_ACK, OTHER_WAITING, OTHER_BITS, OTHER_ACK, OTHER_STOP
};

static uint16_t reg[9];
static enum piece piece;
static uint64_t now, piece_end, piece_ended; /* when the piece will end; when the last one ended */
static uint64_t asked;                       /* when the program last touched a register that moves the bus */
static uint8_t shift, data;
static int shift_full, data_full; /* a received byte waits in the shift register; a byte to be sent waits in DATAR */
static int receiving, sending, acknowledged, ack_before, status_read;
static int scl = 1, sda = 1;
static int disturbed; /* the next byte sent will be */
static int broken;    /* the line is, at the next address */
static uint64_t lowest_passed, highest_passed = UINT32_MAX; /* the bus speeds that reach the devices */
static struct device *devices[4], *selected;
static unsigned device_count;

/* ---- the wire ---- */

static char wire[4096];
static size_t wire_length;

static void say(const char *format, unsigned value)
{
    if (wire_length < sizeof wire - 40)
        wire_length += (size_t)snprintf(wire + wire_length, sizeof wire - wire_length, format, value);
}

const char *sim_wire(void)
{
    static char text[sizeof wire];
    memcpy(text, wire, sizeof wire);
    wire[0] = 0;
    wire_length = 0;
    return text;
}

static void lines(uint64_t time, int new_scl, int new_sda)
{
    scl = new_scl;
    sda = new_sda;
    vcd_lines(time, scl, sda);
}

/* How long a bit lasts, by CKCFGR: in ticks of the peripheral's clock, and in nanoseconds. */
static uint64_t bit_ticks(void)
{
    uint64_t ticks = reg[CH32_I2C_CKCFGR] & 0xfff;
    unsigned fast = reg[CH32_I2C_CKCFGR] >> 14;
    ticks *= fast == 3 ? 25 : fast == 2 ? 3 : 2;
    return ticks ? ticks : 1;
}

static uint64_t bit_time(void) { return bit_ticks() * 1000000000ull / SIM_INPUT; }

/* Whether the devices hear anything at this speed. */
static int passes(void) { return lowest_passed * bit_ticks() <= SIM_INPUT && SIM_INPUT <= highest_passed * bit_ticks(); }

void sim_isolate(uint32_t lowest, uint32_t highest)
{
    lowest_passed = lowest;
    highest_passed = highest;
}

static void wire_bit(uint64_t t, int bit)
{
    lines(t, 0, sda);
    lines(t + bit_time() / 4, 0, bit);
    lines(t + bit_time() / 2, 1, bit);
}

static void wire_byte(uint64_t t, unsigned byte)
{
    int i;
    for (i = 7; i >= 0; i--, t += bit_time())
        wire_bit(t, byte >> i & 1);
}

static void wire_start(uint64_t t)
{
    if (!scl)
        lines(t + bit_time() / 4, 0, 1);
    lines(t + bit_time() / 2, 1, 1);
    lines(t + bit_time() * 3 / 4, 1, 0);
}

static void wire_stop(uint64_t t)
{
    lines(t + bit_time() / 4, 0, 0);
    lines(t + bit_time() / 2, 1, 0);
    lines(t + bit_time() * 3 / 4, 1, 1);
}

/* ---- what the bus does ---- */

static void take(enum piece p, uint64_t from, unsigned bits)
{
    piece = p;
    piece_end = from + bits * bit_time();
}

/* Looks for the next piece at time t, and starts it. */
static void next_piece(uint64_t t)
{
    uint16_t *control = &reg[CH32_I2C_CTLR1], *status = &reg[CH32_I2C_STAR1];
    if (!(*control & PE) || (piece == FREE && !(*control & START)) || (*status & (SB | ADDR) && !(*control & STOP)))
        return;
    if (sending && data_full) {
        shift = data;
        data_full = 0;
        *status |= TXE;
        wire_byte(t, shift);
        take(SENDING_BITS, t, 8);
    } else if (*control & STOP && piece == WAITING) {
        wire_stop(t);
        take(STOPPING, t, 1);
    } else if (*control & START) {
        wire_start(t);
        take(STARTING, t, 1);
    } else if (receiving && acknowledged && !shift_full) {
        shift = selected->read(selected);
        wire_byte(t, shift);
        take(RECEIVING_BITS, t, 8);
    }
}

static struct device *device_at(unsigned address)
{
    unsigned i;
    for (i = 0; i < device_count; i++)
        if (devices[i]->address == address)
            return devices[i];
    return NULL;
}

/* SDA was pulled low while SCL was high: to the peripheral a misplaced START, and another master that won. */
static void lose_bus(uint64_t t)
{
    disturbed = sending = data_full = 0;
    reg[CH32_I2C_STAR1] |= ARLO | BERR;
    reg[CH32_I2C_STAR2] &= (uint16_t) ~(MSL | BUSY | TRA);
    selected = NULL;
    say("(SDA pulled low) ", 0);
    lines(t, 1, 1);
    piece = FREE;
    piece_ended = t;
}

void sim_disturb(void) { disturbed = 1; }

void sim_break_line(void) { broken = 1; }

/* The eight bits are out, at time t: the ninth. */
static void acknowledge(uint64_t t)
{
    uint16_t control = reg[CH32_I2C_CTLR1];
    if (piece == ADDRESS_BITS) {
        selected = broken || !passes() ? NULL : device_at(shift >> 1);
        acknowledged = selected && selected->start(selected, shift & 1, t);
        say(shift & 1 ? "[%02x+R] " : "[%02x+W] ", shift >> 1);
        if (broken)
            say("(line broken) ", 0);
        if (!passes())
            say("(%u Hz: not passed on) ", (unsigned)(SIM_INPUT / bit_ticks()));
        take(ADDRESS_ACK, t, 1);
    } else if (piece == SENDING_BITS && disturbed) {
        lose_bus(t);
        return;
    } else if (piece == SENDING_BITS) {
        acknowledged = selected->write(selected, shift, t + bit_time());
        say("%02x ", shift);
        take(SENDING_ACK, t, 1);
    } else { /* with POS the ACK bit is about the byte after this one */
        acknowledged = (control & POS ? ack_before : control & ACK) != 0;
        ack_before = (control & ACK) != 0;
        say("%02x ", shift);
        take(RECEIVING_ACK, t, 1);
    }
    say(acknowledged ? "ACK " : "NACK ", 0);
    wire_bit(t, !acknowledged);
}

/* A piece is over, at time t. */
static void end_piece(uint64_t t)
{
    uint16_t *control = &reg[CH32_I2C_CTLR1], *status = &reg[CH32_I2C_STAR1], *status2 = &reg[CH32_I2C_STAR2];
    enum piece ended = piece;
    piece = WAITING;
    piece_ended = t;
    if (ended == STOPPING) {
        *control &= (uint16_t)~STOP;
        *status &= (uint16_t) ~(TXE | BTF);
        *status2 &= (uint16_t) ~(MSL | BUSY | TRA);
        sending = receiving = 0;
        if (selected)
            selected->stop(selected, t);
        selected = NULL;
        say("STOP ", 0);
        piece = FREE;
        return;
    }
    lines(t, 0, sda);
    switch (ended) {
    case STARTING:
        *control &= (uint16_t)~START;
        *status = (uint16_t)((*status & ~(TXE | BTF)) | SB);
        *status2 |= MSL | BUSY;
        status_read = sending = receiving = 0;
        ack_before = (*control & ACK) != 0;
        say("START ", 0);
        break;
    case ADDRESS_ACK:
        *status |= acknowledged ? ADDR : broken ? AF | BERR : AF;
        broken = 0;
        *status2 = (uint16_t)((*status2 & ~TRA) | (shift & 1 ? 0 : TRA));
        status_read = 0;
        break;
    case SENDING_ACK:
        if (!acknowledged)
            *status |= AF;
        else if (!data_full)
            *status |= BTF;
        break;
    default: /* RECEIVING_ACK */
        if (*status & RXNE) {
            shift_full = 1;
            *status |= BTF;
        } else {
            data = shift;
            *status |= RXNE;
        }
    }
}

/* ---- another master, which reads from us ---- */

static unsigned other_address, other_left; /* whom it reads from; bytes that it still wants */

static void other_acknowledges(enum piece p, uint64_t t, int acknowledges)
{
    acknowledged = acknowledges;
    say(acknowledged ? "ACK " : "NACK ", 0);
    wire_bit(t, !acknowledged);
    take(p, t, 1);
}

static void other_stops(uint64_t t)
{
    wire_stop(t);
    take(OTHER_STOP, t, 1);
}

/* SCL is low. A byte that was written to DATAR goes out; else we hold SCL. */
static void other_goes_on(uint64_t t)
{
    piece = OTHER_WAITING;
    if (!data_full)
        return;
    shift = data;
    data_full = 0;
    reg[CH32_I2C_STAR1] |= TXE;
    wire_byte(t, shift);
    take(OTHER_BITS, t, 8);
}

/* A piece of the other master's is over, at time t. A byte that waits in DATAR when it refuses the one before stays there, and TXE clear. */
static void end_other_piece(uint64_t t)
{
    uint16_t *status = &reg[CH32_I2C_STAR1], *status2 = &reg[CH32_I2C_STAR2];
    switch (piece) {
    case OTHER_START:
        say("START ", 0);
        *status2 |= BUSY;
        lines(t, 0, sda);
        wire_byte(t, other_address << 1 | 1);
        take(OTHER_ADDRESS, t, 8);
        break;
    case OTHER_ADDRESS:
        say("[%02x+R] ", other_address);
        other_acknowledges(OTHER_ADDRESS_ACK, t, reg[CH32_I2C_CTLR1] & ACK && (reg[CH32_I2C_OADDR1] >> 1 & 0x7f) == other_address);
        break;
    case OTHER_ADDRESS_ACK:
        lines(t, 0, sda);
        if (!acknowledged) {
            other_stops(t);
            break;
        }
        *status |= ADDR;
        *status2 |= TRA;
        status_read = 0;
        piece = OTHER_WAITING;
        break;
    case OTHER_BITS:
        say("%02x ", shift);
        other_acknowledges(OTHER_ACK, t, --other_left > 0);
        break;
    case OTHER_ACK:
        lines(t, 0, sda);
        if (acknowledged) {
            other_goes_on(t);
        } else {
            *status |= AF;
            other_stops(t);
        }
        break;
    default: /* OTHER_STOP */
        say("STOP ", 0);
        *status2 &= (uint16_t) ~(BUSY | TRA);
        sending = data_full = 0;
        piece = FREE;
    }
    piece_ended = t;
}

void sim_other_master_reads(unsigned address, unsigned count)
{
    other_address = address;
    other_left = count;
    wire_start(now);
    take(OTHER_START, now, 1);
}

/* Lets the bus catch up with the time. */
static void run(void)
{
    for (;;) {
        uint64_t t = piece_end > asked ? piece_end : asked;
        enum piece was = piece;
        if (piece == OTHER_WAITING) {
            if (reg[CH32_I2C_STAR1] & ADDR || !data_full)
                return;
            other_goes_on(t);
        } else if (piece >= OTHER_START) {
            if (piece_end > now)
                return;
            end_other_piece(piece_end);
        } else if (piece == FREE || piece == WAITING) {
            uint64_t held = selected && selected->holds_scl_until > t ? selected->holds_scl_until : t;
            if (held > now)
                return;
            if (piece == FREE)
                lines(held, 1, 1);
            next_piece(held);
            if (piece == was)
                return;
            if (held > t)
                say("(SCL held %u us) ", (unsigned)((held - piece_ended) / 1000));
        } else if (piece_end > now) {
            return;
        } else if (piece == ADDRESS_BITS || piece == SENDING_BITS || piece == RECEIVING_BITS) {
            acknowledge(piece_end);
        } else {
            end_piece(piece_end);
        }
    }
}

/* ---- what the program sees ---- */

/* PE off: the bus is let go. SWRST: the other registers are as after power-on too. */
static void reset(int all)
{
    uint16_t control = reg[CH32_I2C_CTLR1];
    if (all)
        memset(reg, 0, sizeof reg);
    reg[CH32_I2C_CTLR1] = (uint16_t)(control & ~(START | STOP));
    reg[CH32_I2C_STAR1] = reg[CH32_I2C_STAR2] = 0;
    piece = FREE;
    sending = receiving = data_full = shift_full = 0;
    lines(now, scl, 1); /* SCL rises when no device holds it */
}

static uint16_t read_data(void)
{
    uint16_t value = data;
    uint16_t *status = &reg[CH32_I2C_STAR1];
    if (shift_full) {
        data = shift;
        shift_full = 0;
        *status &= (uint16_t)~BTF;
    } else {
        *status &= (uint16_t)~RXNE;
    }
    return value;
}

static void write_data(uint8_t value)
{
    uint16_t *status = &reg[CH32_I2C_STAR1];
    if (*status & SB && status_read) {
        *status &= (uint16_t)~SB;
        shift = value;
        wire_byte(now, shift);
        take(ADDRESS_BITS, now, 8);
    } else {
        data = value;
        data_full = 1;
        *status &= (uint16_t) ~(TXE | BTF);
    }
}

/* A read of STAR2 after one of STAR1 clears ADDR, and the bytes begin. */
static void clear_addr(void)
{
    uint16_t *status = &reg[CH32_I2C_STAR1];
    if (!(*status & ADDR) || !status_read)
        return;
    *status &= (uint16_t)~ADDR;
    sending = (reg[CH32_I2C_STAR2] & TRA) != 0;
    receiving = !sending;
    if (sending)
        *status |= TXE;
}

static void pass(uint64_t time)
{
    now += time;
    run();
}

uint16_t sim_read(void *unused, unsigned number)
{
    uint16_t value;
    (void)unused;
    pass(SIM_ACCESS);
    value = reg[number];
    if (number == CH32_I2C_STAR1)
        status_read = 1;
    if (number == CH32_I2C_STAR2 || number == CH32_I2C_DATAR) {
        asked = now;
        if (number == CH32_I2C_STAR2)
            clear_addr();
        else
            value = read_data();
        run();
    }
    return value;
}

void sim_write(void *unused, unsigned number, uint16_t value)
{
    (void)unused;
    pass(SIM_ACCESS);
    asked = now;
    if (number == CH32_I2C_DATAR)
        write_data((uint8_t)value);
    else if (number == CH32_I2C_STAR1)
        reg[number] &= (uint16_t)(value | ~ERRORS); /* errors are cleared by writing 0 */
    else
        reg[number] = value;
    if (number == CH32_I2C_CTLR1 && (value & SWRST || !(value & PE)))
        reset(value & SWRST);
    run();
}

void sim_wait(uint64_t time) { pass(time); }

uint64_t sim_now(void) { return now; }

void sim_attach(struct device *d) { devices[device_count++] = d; }
