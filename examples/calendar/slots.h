/* The stretches of blocks in which an outage of some length has no warning for a side, over all its swaps. */
#ifndef SLOTS_H
#define SLOTS_H

#include "desk.h"

/* A stretch, in blocks from now, the next one being 1: every outage of the length asked for that lies in it is no warning.
 * The last is SLOT_OPEN where it has no end, 0 where no outage of that length is without a warning. */
struct slot {
    uint64_t first;
    uint64_t last;
};
#define SLOT_OPEN UINT64_MAX

/* As the swaps stand; then with the open step taken in each that makes its slack most. */
struct slots {
    struct slot now;
    struct slot done;
};

struct slots slots_of(const struct question *question, const struct desk *desk, uint8_t side);

/* Whether these steps make the stretch another one. */
bool is_longer_done(const struct slots *slots);

#endif
