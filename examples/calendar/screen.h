/* The first screen: a line for each swap and side, the most urgent first. */
#ifndef SCREEN_H
#define SCREEN_H

#include "slack.h"
#include "words.h"

/* The urgency of a line: a swap that is no good, a warning, a slack that has an end, a payout given up, none secured yet, a
 * slack without end; of the same urgency the least slack comes first. */
enum { FAULTY, WARNED, BOUNDED, LOST, UNSTARTED, SURE };

/* A line: a swap that is no good, or a side of one. */
struct line {
    const struct entry *entry;
    size_t place;     /* of the swap among all */
    uint8_t side;     /* SWAP_NONE for a swap that is no good */
    uint8_t t;        /* what the side counts on, or SWAP_NONE */
    unsigned urgency; /* the less, the sooner */
    struct slack slack;
    bool own_blocks; /* its heights are the swap's own blocks, beside others that are the real chain's */
};

/* What is said of a line with blocks of its own. */
#define OWN_BLOCKS "; blocks of its own, no base"

/* The lines of all swaps, the most urgent first; NULL where there is no memory. */
struct line *lines_by_urgency(const struct question *question, const struct desk *desk, size_t *count);

/* The window of what is counted on: 0 where that is nothing; and a cell with its blocks left, "-" where there is no end. */
uint32_t from_block(const struct line *line);
uint32_t to_block(const struct line *line);
struct label left_label(const struct line *line);

/* Prints it; false where there is no memory. */
bool show_screen(const struct question *question, const struct desk *desk);

#endif
