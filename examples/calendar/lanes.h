/* The bars of the page: a lane of blocks, from now to the right, with the outage as a band and a window as a bar. */
#ifndef LANES_H
#define LANES_H

#include <stdio.h>

#include "desk.h"

/* The blocks from now that the lanes of one table show, and the table's number. */
struct axis {
    size_t table;
    uint64_t span;
    bool from_now; /* whether its numbers are blocks from now, and not heights */
};

/* Widens an axis to show the transaction's window and the outage; what lies further than four times the outage, and
 * four days, is left beyond its end. */
void widen(struct axis *axis, const struct entry *entry, uint8_t t);

/* Writes the lane of an axis' labels: blocks of the real chain from START on, which is now; where START is NULL, blocks
 * from now. */
void write_axis(FILE *page, const struct axis *axis, const uint32_t *start);

/* Writes the lane of a transaction that is not settled, or of none; the heights that it tells are the real chain's. */
void write_lane(FILE *page, const struct axis *axis, const struct question *question, const struct entry *entry,
                uint8_t t, bool warning);

#endif
