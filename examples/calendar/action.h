/* What a side can do about its payout, and until when. */
#ifndef ACTION_H
#define ACTION_H

#include <stdio.h>

#include "desk.h"

enum act {
    DO,       /* the step is open now */
    LATER,    /* what is counted on is to be sent once its parent is there and its lock is reached */
    DONE,     /* nothing is to be done by any block: it is paid, sent, or nothing can come first */
    NO_MEANS, /* what is counted on cannot be sent now, and no open step makes the slack more */
    NO_PAYOUT /* nothing is secured, and no open step secures something */
};

struct action {
    enum act act;
    uint8_t step[4];  /* the side's */
    uint8_t once;     /* LATER: the parent that must be sent first; SWAP_NONE where it is */
    uint32_t after;   /* LATER: the block that must be mined first; SWAP_NEVER where it is */
    uint32_t by;      /* the last block that is safe with the margin; SWAP_NEVER where there is none */
    uint8_t payee;    /* of what is counted on and sent for another party; SWAP_NONE where it is not */
    bool helps;       /* DO: whether it makes the slack more */
    const char *why;  /* of what is nothing */
};

/* Of a side that is shown. The step is the open one that makes the slack most, else the send or hand-in of what is counted
 * on. After so many blocks as the slack has it is due before the next one: that is the last block. */
struct action action_of(const struct question *question, const struct entry *entry, uint8_t side);

/* The word for what can be done: "do", "nothing to do", "nothing can be done now"; or where the side stands, with NO_PAYOUT. */
const char *act_word(const struct action *action);

/* Whether the block until which it is to be done is the next one. */
bool is_now(const struct entry *entry, const struct action *action);

/* Prints it: "do: alice sends refund_2 to the pool, by block 588, then free any", with the estimated time of that block
 * where times are asked for. The step is in swapfile's words. */
void print_action(FILE *to, const struct question *question, const struct entry *entry, uint8_t side);

#endif
