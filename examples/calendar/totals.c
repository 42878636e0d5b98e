#include "totals.h"

/* Adds one side of a swap. */
static void add(struct totals *totals, const struct stand *stand)
{
    totals->warnings += stand->warned;
    totals->not_yet += stand->standing == NOT_YET;
    totals->given_up += stand->standing == GIVEN_UP;
}

struct totals totals_of(const struct desk *desk)
{
    struct totals totals = {.swaps = desk->count};

    for (size_t i = 0; i < desk->count; i++) {
        const struct entry *entry = desk->entries[i];

        totals.refused += !is_sound(entry);
        for (uint8_t side = SWAP_ALICE; side <= SWAP_CAROL && is_sound(entry); side++) {
            if (is_shown(entry, side)) {
                add(&totals, &entry->stands[side]);
            }
        }
    }
    return totals;
}

void print_totals(FILE *to, const struct totals *totals)
{
    fprintf(to, "swaps: %lu; warnings: %lu; nothing secured yet: %lu; given up: %lu; refused or unreadable: %lu",
            (unsigned long)totals->swaps, (unsigned long)totals->warnings, (unsigned long)totals->not_yet,
            (unsigned long)totals->given_up, (unsigned long)totals->refused);
}
