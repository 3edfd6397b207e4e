/* plain_log.h: the shift log in plain C, which tests as much as the library does: the whole log in each call, arguments and room.
 * It is the quickest of several variants under gcc -O2. */
#ifndef PLAIN_LOG_H
#define PLAIN_LOG_H

#include "mfc.h"

mfc_written plain_log_empty(uint8_t *file, size_t room);
mfc_written plain_log_append(uint8_t *file, size_t room, size_t length, uint8_t kind, const uint8_t *body, size_t n);
mfc_words plain_log_check(const uint8_t *file, size_t length);
mfc_words plain_log_list(const uint8_t *file, size_t length, size_t skip, uint16_t *rows, size_t room);

/* Does less: of a log that was checked and has `count` records, it says where each of them ends in the file, oldest first. */
void plain_log_ends(const uint8_t *file, size_t length, uint16_t *ends, size_t count);

#endif
