/* handover.h: the handover board of this program, kept by the library's functions and shown to people. It holds every valve that
 * was forced shut and every temporary calibration that was loaded through this program and not yet undone, each with the polls
 * that it may still stay so. It lives as long as the program does. */
#ifndef HANDOVER_H
#define HANDOVER_H

#include "line.h"

#include <stdint.h>

/* For calls that open no entry. In this program only the console's orders `load` and `shut` open one, and both name a lease. 0 is
   out of a lease's range: should another call open one, the board refuses it with 12 and the user is told. */
enum { NO_LEASE = 0 };

/* Asks one controller one question, as line_ask does, and tells the board of the reply where one was read. */
struct answer handover_ask(struct line *line, uint8_t address, uint8_t request, uint32_t value, uint32_t lease);

/* To be called after every acknowledged I2C command of an SFC6. */
void handover_acknowledged(uint8_t device, uint16_t code, uint32_t lease);

/* Somebody restarted a node: MFC_BUS_SERIAL or MFC_BUS_I2C and its address. Returns 0 if the board refuses it. */
int handover_restarted(uint8_t bus, uint8_t address);

/* To be called after every round: takes one poll from each entry. */
void handover_poll(void);

/* Prints the board: a line on how many entries it has, and a line for each. */
void handover_print(void);

/* When the program ends: what still stands on the board must be written down, since the next start has an empty one. */
void handover_end(void);

/* Whether the board took all that was done, and could always be polled and shown. */
int handover_is_whole(void);

#endif
