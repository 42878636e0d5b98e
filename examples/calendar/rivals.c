#include "rivals.h"

/* The soonest block of the parent; 0 for an opening. */
static uint32_t soonest_parent(const struct position *position, uint8_t t)
{
    uint8_t parent = parent_of(position->swap, t);

    return parent == SWAP_NONE ? 0 : soonest_block_of(position, parent);
}

/* The lock of a rival of t, or its own, with the parent in its soonest block. */
static uint32_t lock_of(const struct position *position, uint8_t t, uint8_t rival)
{
    uint32_t blocks = (uint32_t)days_of(position->swap, rival) * blocks_per_day_of(position->swap);

    return lock_type_of(position->swap, rival) == SWAP_SINCE_PARENT ? soonest_parent(position, t) + blocks : blocks;
}

static bool are_rivals(const struct swap *swap, uint8_t t, uint8_t rival)
{
    return t != rival && parent_of(swap, t) != SWAP_NONE && parent_of(swap, t) == parent_of(swap, rival);
}

/* Whether the rival's lock makes this deadline: it is his lock, or the least above t's own that it can be once the
 * parent comes in a later block. */
static bool makes(const struct position *position, uint8_t t, uint8_t rival, uint32_t deadline)
{
    const struct swap *swap = position->swap;
    uint32_t own = lock_of(position, t, t);
    uint32_t his = lock_of(position, t, rival);

    if (his > own) {
        return his == deadline;
    }
    return !is_confirmed(position, parent_of(swap, t)) && lock_type_of(swap, rival) == SWAP_SINCE_PARENT &&
           lock_type_of(swap, t) != SWAP_SINCE_PARENT && own + 1 == deadline;
}

uint8_t later_rival(const struct position *position, uint8_t t)
{
    uint32_t deadline = soonest_deadline_of(position, t);

    for (uint8_t rival = 0; rival < count_of(position->swap); rival++) {
        if (are_rivals(position->swap, t, rival) && makes(position, t, rival, deadline)) {
            return rival;
        }
    }
    return SWAP_NONE;
}

bool in_the_way(const struct position *position, uint8_t t, uint8_t rival, uint8_t side)
{
    if (!are_rivals(position->swap, t, rival) || lock_of(position, t, rival) > lock_of(position, t, t)) {
        return false;
    }
    return (status_of(position, rival) & (SWAP_IN_POOL | SWAP_IN_BLOCK)) != 0 || others_can_send(position, side, rival);
}
