/* How the demonstration reaches its peripheral and tells the time. */
#ifndef PORT_H
#define PORT_H

#include "ch32_i2c_blocking.h"

/* With `verbose` each access is printed. */
struct ch32_i2c_port port_make(int verbose);

/* Accesses and questions to the clock since this was last set to 0. */
extern unsigned long port_accesses;

#endif
