#include "after.h"

#include "rivals.h"
#include "words.h"

void print_else(FILE *to, const struct position *position, uint8_t t, uint32_t base)
{
    uint8_t rival = later_rival(position, t);

    fprintf(to, "else %s, pays %s, from %s", transaction_label(position->swap, rival).text,
            payees_name(position->swap, can_pay(position, rival)),
            height_label(base, soonest_deadline_of(position, t) + 1).text);
}

void print_if(FILE *to, const char *words, const struct position *position, uint8_t t, uint32_t base)
{
    uint8_t parent = parent_of(position->swap, t);

    if (soonest_deadline_of(position, t) != deadline_of(position, t)) {
        fprintf(to, "%s, if %s is confirmed in %s", words, transaction_label(position->swap, parent).text,
                height_label(base, soonest_block_of(position, parent)).text);
    }
}

void print_in_the_way(FILE *to, const struct position *position, uint8_t t, uint8_t side)
{
    const struct swap *swap = position->swap;

    for (uint8_t rival = 0; rival < count_of(swap); rival++) {
        if (in_the_way(position, t, rival, side)) {
            bool sent = (status_of(position, rival) & (SWAP_IN_POOL | SWAP_IN_BLOCK)) != 0;

            fprintf(to, "; rival %s %s", transaction_label(swap, rival).text, sent ? "is sent" : "can be sent");
        }
    }
}
