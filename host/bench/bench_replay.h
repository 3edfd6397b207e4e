/* bench_replay.h: the replay of a shift log beside plain C. */
#ifndef BENCH_REPLAY_H
#define BENCH_REPLAY_H

/* To be called before any of the others. */
void lay_replays(void);

void compare_replays(void);
void measure_replays(void);

/* Calls of mfc_log_replay, served and refused, for the stack. */
void use_log_replay(void);

#endif
