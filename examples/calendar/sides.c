#include "sides.h"

bool is_warned_of(const struct entry *entry, uint8_t t, uint8_t side)
{
    return is_shown(entry, side) && entry->stands[side].warned && entry->stands[side].t == t;
}

bool is_settled(const struct entry *entry, uint8_t t)
{
    return verdict_of(&entry->position, t) == SWAP_OUTAGE_SETTLED;
}
