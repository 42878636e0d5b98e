/* Where a side of a swap stands: for how many blocks it keeps a way to a payout without a step of its own, by the engine's
 * slack, and which of its open steps makes that more. */
#ifndef STAND_H
#define STAND_H

#include "outage.h"

enum standing {
    PAID,    /* it has a payout, confirmed or sure to be */
    KEPT,    /* it keeps a way to one for some blocks */
    NEEDS,   /* it keeps none, but has an open step after which it does */
    NOT_YET, /* none is secured, but may be later */
    GIVEN_UP /* none is secured, and nothing that is left can pay the side, or under careful conduct a coin of its own is
                locked */
};

struct stand {
    enum standing standing;
    uint32_t slack;  /* PAID, KEPT: the blocks; else 0 */
    uint8_t t;       /* what it counts on, with NEEDS after the step; SWAP_NONE where there is nothing */
    uint8_t payee;   /* the destination of that */
    bool helps;      /* whether an open step of its makes the slack more */
    uint8_t step[4]; /* helps: the one that does most, sends and hand-ins first */
    uint32_t then;   /* helps: the slack after it */
    bool warned;     /* whether the outage and its margin are longer than the slack */
};

/* Of a side of a swap whose outage is asked for; false where there is no memory. */
bool ask_stand(const struct position *position, const struct outage *outage, uint8_t side, struct stand *stand);

/* Whether it has a slack that is less than any outage. */
bool is_bounded(const struct stand *stand);

/* The word for it: "paid", "kept", "needs a step", "nothing secured yet" or "given up". */
const char *standing_word(enum standing standing);

#endif
