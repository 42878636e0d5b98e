/* A block list as text: a line for each entry, as "block 12: lock_A" or "block 13: spend_A, paying alice". */
#ifndef BLOCK_LIST_H
#define BLOCK_LIST_H

#include "../calendar/files.h"
#include "lines.h"

#define ENTRY_SIZE 4

/* Reads a line for a swap whose sheet and setup are accepted. False, with a message, where it is no entry. */
bool read_entry(struct line *line, const struct swap *swap, uint8_t entry[ENTRY_SIZE]);

/* Prints entries of the sheet's transactions. */
void print_entries(const struct swap *swap, const uint8_t *entries, size_t count);

#endif
