#include "sim.h"

#include <string.h>

/* ---- EEPROM ---- */

#define EEPROM_WRITE_TIME 500000u /* a real one takes some milliseconds */

static int eeprom_start(struct device *d, int read, uint64_t now)
{
    struct eeprom *e = (struct eeprom *)d;
    e->pointer_next = !read;
    e->page_set = 0;
    return now >= e->busy_until;
}

static int eeprom_write(struct device *d, uint8_t byte, uint64_t now)
{
    struct eeprom *e = (struct eeprom *)d;
    (void)now;
    if (e->pointer_next) {
        e->pointer = byte;
        e->pointer_next = 0;
    } else { /* wraps within the page */
        e->page[e->pointer % 8] = byte;
        e->page_set |= (uint8_t)(1u << e->pointer % 8);
        e->pointer = (uint8_t)(e->pointer / 8 * 8 + (e->pointer + 1) % 8);
    }
    return 1;
}

static uint8_t eeprom_read(struct device *d)
{
    struct eeprom *e = (struct eeprom *)d;
    return e->bytes[e->pointer++];
}

static void eeprom_stop(struct device *d, uint64_t now)
{
    struct eeprom *e = (struct eeprom *)d;
    unsigned i;
    if (!e->page_set)
        return;
    for (i = 0; i < 8; i++)
        if (e->page_set >> i & 1)
            e->bytes[e->pointer / 8 * 8 + i] = e->page[i];
    e->page_set = 0;
    e->busy_until = now + EEPROM_WRITE_TIME;
}

void eeprom_make(struct eeprom *e, uint8_t address)
{
    memset(e, 0, sizeof *e);
    memset(e->bytes, 0xff, sizeof e->bytes);
    e->device.address = address;
    e->device.start = eeprom_start;
    e->device.write = eeprom_write;
    e->device.read = eeprom_read;
    e->device.stop = eeprom_stop;
}

/* ---- temperature sensor ---- */

static int sensor_start(struct device *d, int read, uint64_t now)
{
    struct sensor *s = (struct sensor *)d;
    (void)now;
    s->place = (uint8_t)(read ? 1 : 0);
    return 1;
}

/* The first byte chooses the register, the next two are its new contents. */
static int sensor_write(struct device *d, uint8_t byte, uint64_t now)
{
    struct sensor *s = (struct sensor *)d;
    uint16_t *r = &s->registers[s->pointer];
    if (s->place == 0)
        s->pointer = byte & 3;
    else
        *r = (uint16_t)(s->place == 1 ? (*r & 0x00ff) | byte << 8 : (*r & 0xff00) | byte);
    s->place = (uint8_t)(s->place == 1 ? 2 : 1);
    if (s->hold_next)
        d->holds_scl_until = now + s->hold_next;
    s->hold_next = 0;
    return 1;
}

static uint8_t sensor_read(struct device *d)
{
    struct sensor *s = (struct sensor *)d;
    uint16_t r = s->registers[s->pointer];
    s->place = (uint8_t)(3 - s->place);
    return (uint8_t)(s->place == 2 ? r >> 8 : r);
}

static void sensor_stop(struct device *d, uint64_t now)
{
    (void)d;
    (void)now;
}

void sensor_make(struct sensor *s, uint8_t address, double degrees)
{
    memset(s, 0, sizeof *s);
    s->registers[0] = (uint16_t)(int)(degrees * 256);
    s->device.address = address;
    s->device.start = sensor_start;
    s->device.write = sensor_write;
    s->device.read = sensor_read;
    s->device.stop = sensor_stop;
}
