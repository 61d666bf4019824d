/* A whole call with the answers that bring it to its good end, each flag coming at the first look. */
#ifndef COURSE_H
#define COURSE_H

#include "ch32_i2c.h"

enum entry { WRITE, WRITE_READ, TRANSACTION, RESPOND_TO_WRITE, RESPOND_TO_READ };

struct course {
    const char *name;
    enum entry entry;
    uint8_t address;
    const uint8_t *list;
    size_t list_length, written_length, read_length, accesses;
    const uint16_t *answers; /* to reads and to questions to the clock, in order */
};

#include "courses.h"

#define COURSES (sizeof courses / sizeof *courses)

#endif
