/* board_words.h: the list of a handover board in words, for people. */
#ifndef BOARD_WORDS_H
#define BOARD_WORDS_H

#include "mfc.h"

#include <stddef.h>
#include <stdint.h>

/* A node: an I2C address in hexadecimal, as the maker's papers write it. */
void node_words(uint8_t bus, uint8_t address, char *text, size_t room);

/* "entry" or "entries". */
const char *entries_words(size_t count);

/* Prints how many entries the list has, and how many of them are due: a line without its end. */
void print_head(const mfc_entry *entries, size_t count);

/* Prints a line for each entry. */
void print_entries(const mfc_entry *entries, size_t count);

#endif
