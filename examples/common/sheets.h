/* A sheet as text. */
#ifndef SHEETS_H
#define SHEETS_H

#include "../calendar/files.h"
#include "lines.h"

/* A sheet that is read line by line. */
struct draft {
    unsigned heading; /* the line on which it starts */
    uint8_t count;
    uint8_t head[5];    /* signatures, and the masks of secrets and of what Alice, Bob and Carol hold */
    bool has_head[5];   /* with Carol's it is a sheet of three */
    uint8_t first[SWAP_TRANSACTIONS][4];
    uint8_t second[SWAP_TRANSACTIONS][2];
    unsigned lines[SWAP_TRANSACTIONS];
};

/* Reads a line of a sheet. */
bool read_sheet_line(struct line *line, struct draft *draft);

/* Writes a draft whole as the swap's sheet, at the line that follows it. False, with a message, where it is refused. */
bool end_sheet(const struct line *line, const struct draft *draft, struct swap *swap);

/* Prints a sheet that is accepted. */
void print_sheet(const struct swap *swap);

#endif
