/* plain_replay.h: the replay of a shift log in plain C, which tests as much as the library does: lease, log and room. What it keeps itself,
 * receivers, places and board, it trusts. */
#ifndef PLAIN_REPLAY_H
#define PLAIN_REPLAY_H

#include "mfc.h"

mfc_listed plain_log_replay(const uint8_t *file, size_t length, uint32_t lease, mfc_entry *entries, size_t room);

#endif
