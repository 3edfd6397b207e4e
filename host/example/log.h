/* log.h: the shift log of this program: what crosses the serial line, in files that the library's functions write and check. A log
 * takes 65,000 bytes of records, so FILE is followed by FILE.1, FILE.2 and so on. A file is replaced whole: a power cut leaves it as
 * it was before, or as it was to become. What was recorded since the last log_save is lost then.
 *
 * A replay (mfc_log_replay) polls its board once for each silence mark. There is one mark for each poll of the handover board, and one for
 * each silence that was waited for and heard: where a question has no answer or one cut off, or stray bytes had to end. So on a line where
 * all answer, a replay with the lease of the orders has the polls left that the wall has; each other mark takes one more, and an entry is
 * due earlier there, not later. A replay accepts what the program did not: an acknowledgement that came late and was thrown away, and one
 * without its first 7E, which is noise to the program's receiver, told of silence before each question. Its entry is opened, renewed or
 * closed there. */
#ifndef LOG_H
#define LOG_H

#include <stddef.h>
#include <stdint.h>

/* Begins the log FILE, or goes on with the newest of its row. A file there that is no good log is left as it is. Returns NULL, or
   what to tell the user. Before it nothing is logged. */
const char *log_open(const char *file);

/* Adds what crossed the line, as a record of a kind of MFC_LOG_.. A log that has no room for it is saved and the next one begun. */
void log_record(uint8_t kind, const uint8_t *bytes, size_t n);

/* Saves what is not yet on disk. To be called after each round, and before the program waits. A log that cannot be saved stops
   nothing: the user is told, once until it can be saved again, and it is kept in memory. Only when that is full too are records lost. */
void log_save(void);

/* When the program ends: saves, and tells the user of all that is not on disk. */
void log_end(void);

/* Whether all that was recorded is on disk. It is so, too, where no log was begun. */
int log_is_whole(void);

#endif
