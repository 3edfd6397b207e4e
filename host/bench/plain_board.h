/* plain_board.h: the handover board in plain C, which tests as much as the library does: places, table, arguments and room. It is
 * the quickest of several variants under gcc -O2. */
#ifndef PLAIN_BOARD_H
#define PLAIN_BOARD_H

#include "mfc.h"

uint8_t plain_board_open(mfc_entry *table, size_t places, uint8_t bus, uint8_t address, uint8_t kind, uint32_t lease);
uint8_t plain_board_close(mfc_entry *table, size_t places, uint8_t bus, uint8_t address, uint8_t kind);
uint8_t plain_board_restart(mfc_entry *table, size_t places, uint8_t bus, uint8_t address);
uint8_t plain_board_poll(mfc_entry *table, size_t places);

/* Does less: it trusts the table. */
void plain_board_poll_own(mfc_entry *table);

mfc_listed plain_board_list(const mfc_entry *table, size_t places, mfc_entry *entries, size_t room);

#endif
