/* bench_log.h: the shift log beside plain C. */
#ifndef BENCH_LOG_H
#define BENCH_LOG_H

#include <stddef.h>
#include <stdint.h>

#define LOG_CLOSE 8              /* the bytes that close a log: count and total */
#define LOG_TRAILER 3            /* the bytes behind a body: kind and length */

/* A log of `count` records; LOG_CLOSE zeros are the one without any. */
struct log { uint8_t *file; size_t length, count; };

/* Adds a record. Logs are laid by neither of the two that are measured. */
void lay_body(struct log *log, uint8_t kind, const uint8_t *body, size_t n);

/* To be called before any of the others. */
void lay_logs(void);

void compare_logs(void);
void measure_logs(void);

/* Calls of one function each, served and refused, for the stack. */
void use_log_empty(void);
void use_log_append(void);
void use_log_check(void);
void use_log_list(void);

#endif
