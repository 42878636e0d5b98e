/* A swap's part of the page: its position, and the windows of all transactions that are not settled. */
#ifndef SECTION_H
#define SECTION_H

#include <stdio.h>

#include "desk.h"

/* Writes it for a swap that is sound; the number is that of its table. One that is not open is folded, and not printed. */
void write_section(FILE *page, const struct question *question, const struct entry *entry, size_t number, bool open);

#endif
