/* All swaps of a folder, and what the engine answers of them. */
#ifndef DESK_H
#define DESK_H

#include "arguments.h"
#include "stand.h"

/* One swap. */
struct entry {
    char *name;
    uint8_t sides;      /* whose lines are shown, a mask as payees have it */
    bool based;         /* whether its base is known */
    uint32_t base;      /* the real chain's height when its journal was empty; 0 where that is not known */
    struct fault fault; /* of its files */
    struct swap swap;
    bool ran;                 /* its answer holds its run's */
    uint32_t answer;          /* the first answer that is a refusal, else one that is none */
    struct position position; /* after a journal that is accepted whole */
    struct outage outage;     /* what is asked about it */
    struct stand stands[SWAP_CAROL + 1]; /* of the sides that are shown, by their numbers */
};

struct desk {
    struct entry **entries;
    size_t count;
    bool several; /* whether the folder holds swaps and is none itself */
};

/* Whether an entry is read and its journal accepted whole. */
bool is_sound(const struct entry *entry);

/* Whether the number is a party whose lines are shown. */
bool is_shown(const struct entry *entry, uint8_t side);

/*
 * Reads the swaps that are asked for: the embedded one; or those of the folder, which is one swap or holds one in each
 * subfolder, in the order of their names' bytes. Files and names that begin with a dot are passed over. False, with the
 * reason in errno, where the folder cannot be read.
 */
bool read_desk(const struct question *question, struct desk *desk);

/* Puts all swaps to the engine: their positions. */
void ask_desk(const struct question *question, struct desk *desk);

/* Whether the question fits the swaps: a base is given for one swap only, and a height of the real chain needs the base
 * of each: an outage from a height on lies ahead of each, and each stands at the height of the clock. Where it does not,
 * a message names each swap. */
bool fits_desk(const struct question *question, const struct desk *desk);

/* Then asks about the outage, and where each side that is shown stands; false where there is no memory. */
bool ask_outages(const struct question *question, struct desk *desk);

/* Whether all sound swaps stand at the same height, of the real chain or by their own blocks; then which. */
bool same_height(const struct desk *desk, uint32_t *height);

/* Whether some swaps have a base and others none, so that heights are of two sorts. */
bool is_mixed(const struct desk *desk);

void free_desk(struct desk *desk);

#endif
