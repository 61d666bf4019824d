/* A simulated CH32V I2C peripheral, the bus behind it, two devices and another master. Times are in nanoseconds. */
#ifndef SIM_H
#define SIM_H

#include <stddef.h>
#include <stdint.h>

/* ---- devices on the bus (devices.c) ---- */

struct device {
    uint8_t address;
    int (*start)(struct device *d, int read, uint64_t now); /* addressed; whether it acknowledges */
    int (*write)(struct device *d, uint8_t byte, uint64_t now);
    uint8_t (*read)(struct device *d);
    void (*stop)(struct device *d, uint64_t now);
    uint64_t holds_scl_until; /* it keeps SCL low until then */
};

/* 256 bytes in pages of 8. Writing takes a while after STOP; until it is done the address is not acknowledged. */
struct eeprom {
    struct device device;
    uint8_t bytes[256], page[8], pointer;
    uint8_t page_set; /* which bytes of `page` were written */
    int pointer_next;
    uint64_t busy_until;
};

/* Four registers of 16 bits, high byte first: temperature in 1/256 degree, configuration, two limits. */
struct sensor {
    struct device device;
    uint16_t registers[4];
    uint8_t pointer, place;
    uint64_t hold_next; /* how long SCL is held after the next byte written */
};

void eeprom_make(struct eeprom *e, uint8_t address);
void sensor_make(struct sensor *s, uint8_t address, double degrees);

/* ---- the waveform (vcd.c) ---- */

void vcd_open(const char *path);
void vcd_lines(uint64_t time, int scl, int sda);
void vcd_close(uint64_t time);

/* ---- the peripheral (sim.c) ---- */

#ifndef SIM_INPUT
#define SIM_INPUT 36000000u /* its clock, in hertz */
#endif
#define SIM_ACCESS 1500u    /* what an access or a question to the clock takes */

void sim_attach(struct device *d);
uint16_t sim_read(void *unused, unsigned number);
void sim_write(void *unused, unsigned number, uint16_t value);
uint64_t sim_now(void);
void sim_wait(uint64_t time);

/* Another master begins to read so many bytes from a slave with this address, and refuses the last. */
void sim_other_master_reads(unsigned address, unsigned count);

/* Something pulls SDA low in the next byte sent. */
void sim_disturb(void);

/* The line breaks under the next address: no device hears it, and its edge is a misplaced START. */
void sim_break_line(void);

/* From now on an isolator stands before the devices, which passes these bus speeds alone, in hertz and both included. */
void sim_isolate(uint32_t lowest, uint32_t highest);

/* What happened on the wire since this was last asked: START, [address+direction], ACK or NACK, bytes, STOP; notes in brackets ( ). */
const char *sim_wire(void);

#endif
