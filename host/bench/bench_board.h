/* bench_board.h: the handover board beside plain C. */
#ifndef BENCH_BOARD_H
#define BENCH_BOARD_H

#include "mfc.h"

/* A place more than a table has, to be lent as well, or to be left alone. */
#define LENT_PLACES (MFC_BOARD_PLACES + 1)

/* Whether two tables or lists of so many places are the same. */
int same_tables(const mfc_entry *a, const mfc_entry *b);

/* To be called before any of the others. */
void lay_boards(void);

void compare_boards(void);
void measure_boards(void);

/* Calls of one function each, served and refused, for the stack. */
void use_board_open(void);
void use_board_close(void);
void use_board_restart(void);
void use_board_poll(void);
void use_board_list(void);
void use_board_reply(void);
void use_board_acknowledged(void);

#endif
