/* bench.h: what the parts of bench share. */
#ifndef BENCH_H
#define BENCH_H

#include <stddef.h>

/* Short calls are made in a row, each on other bytes, so that the clock's own cost does not count. */
#define ROW 64

/* Answers go here, so that no compiler may leave a job out. */
extern volatile size_t sink;

/* Counts one pair of answers; where they differ it says what they answer. */
void compare(int same, const char *what);

/* One line of the table; `units` is how many of `unit` one run does. */
void measure(const char *name, const char *unit, size_t units, void (*library)(void), void (*plain)(void));

#endif
