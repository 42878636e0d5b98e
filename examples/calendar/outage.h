/* The outage that is asked about, and what it does to the transactions of a side. */
#ifndef OUTAGE_H
#define OUTAGE_H

#include "arguments.h"
#include "position.h"

/* The outage of one swap, by the swap's own block numbers. */
struct outage {
    uint32_t first;
    uint32_t last;  /* first - 1 where it has no blocks */
    uint32_t reach; /* the blocks from the next one to the end of outage and margin; 0 where that is none */
};

/* Of a swap with this base; an outage from a height on lies ahead of it. */
struct outage outage_of(const struct question *question, const struct position *position, uint32_t base);

/* What the outage does to a transaction's window, for a side: heights, and no warning. */
enum kind {
    COVERED, /* it can pay the side, or one below it can, and its soonest deadline comes before outage and margin end */
    AHEAD,   /* its deadline comes after them */
    TAKEN,   /* it is in the pool and pays another party */
    SENT,    /* it is safe in the pool: the box is not needed */
    FREE,    /* it has no deadline, or one that is passed, with nothing left to lose by it */
    OTHERS,  /* neither it nor one below it can pay the side */
    SETTLED  /* confirmed or dead */
};

/* The engine's verdict, of an outage from the next block to the end of this one. */
enum kind kind_of(const struct position *position, const struct outage *outage, uint8_t t, uint8_t side);

/* Who can be paid by it or by one below it, as payees are. */
uint8_t can_pay(const struct position *position, uint8_t t);

#endif
