/* For how many blocks from now a side's box can be off without a warning: its slack, with the margin left after it. */
#ifndef SLACK_H
#define SLACK_H

#include "desk.h"

/* The longest outage from the next block on without a warning. */
enum reach { NONE, SOME, ANY, UNSECURED };

struct slack {
    enum reach reach;          /* NONE: the margin alone is too long; UNSECURED: there is no payout to lose */
    uint32_t blocks;           /* SOME: so many */
    const struct entry *entry; /* NONE, SOME: what bounds it, and the transaction that is counted on there */
    uint8_t t;
};

/* Of so many blocks of slack. */
struct slack slack_after(const struct question *question, uint32_t blocks);

/* Of one swap, and over all swaps that show the side and have a payout to lose; the first that bounds it is named. */
struct slack slack_of(const struct question *question, const struct entry *entry, uint8_t side);
struct slack desk_slack(const struct question *question, const struct desk *desk, uint8_t side);

/* Whether a swap of the desk that is sound shows the side; and how many of these have no payout to lose. */
bool has_side(const struct desk *desk, uint8_t side);
size_t unsecured_of(const struct desk *desk, uint8_t side);

#endif
