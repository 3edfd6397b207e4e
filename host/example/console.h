/* console.h: orders, taken as lines from standard input while the polling goes on. */
#ifndef CONSOLE_H
#define CONSOLE_H

#include <stdint.h>

#define LONGEST_LINE 79          /* characters of a line */

enum verb { NOTHING, LOAD, SET, SHUT, RETURN, RESTARTED };

struct order {
    enum verb verb;
    uint8_t bus, address;        /* the node, in the board's ranges */
    uint32_t calibration;        /* of LOAD and SET */
    uint32_t lease;              /* of LOAD and SHUT, in polls: 1 to 65,535 */
    char line[LONGEST_LINE + 1]; /* as it was written */
};

/* The orders, for people. */
extern const char console_help[];

/* Begins to listen. Returns NULL, or what to tell the user. Before it no line is there. */
const char *console_start(void);

/* Takes the next line that is there, without waiting for one. Returns 0 where none is. What the line orders is then in `order`;
   NOTHING of an empty line, a `wait`, and one that is not understood, which gets a message on what to write. */
int console_next(struct order *order);

/* Waits until there may be a line, at most so many milliseconds. Returns 0 where that time passed, or a signal came. */
int console_wait(int ms);

/* To be called after every round: those lines that `wait` holds back wait for one less. */
void console_round(void);

/* The lines that were not understood. */
unsigned long console_misunderstood(void);

#endif
