/* board.h: a simulated board with an SFC6 and a liquid sensor, behind the calls of bus.h. */
#ifndef BOARD_H
#define BOARD_H

#include "damage.h"

/* Lets bits of the bytes that are read flip so often. */
void board_damage(struct rate flip);

/* The reads in which a bit was flipped. */
unsigned long board_damaged(void);

#endif
