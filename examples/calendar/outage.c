#include "outage.h"

#include "saswap.h"

/* More blocks than any soonest deadline that is not "never", and fewer than that. */
#define REACH_MOST 999999999u

struct outage outage_of(const struct question *question, const struct position *position, uint32_t base)
{
    uint32_t days = question->in_days ? blocks_per_day_of(position->swap) : 1;
    uint32_t first = question->from > 0 ? question->from - base : position->mined + 1 + question->in;
    uint64_t end = (uint64_t)first - 1 + (uint64_t)question->length * days;
    uint64_t reach = end + question->margin - position->mined;

    return (struct outage){
        .first = first,
        .last = (uint32_t)end,
        .reach = reach < REACH_MOST ? (uint32_t)reach : REACH_MOST,
    };
}

/* Under loose and careful conduct Bob never gives sigBob, and shares it on no paying transaction: what needs it pays
 * him alone. */
uint8_t can_pay(const struct position *position, uint8_t t)
{
    const struct swap *swap = position->swap;
    uint8_t payees = payees_below(position, t);

    if (conduct_of(swap) != SWAP_OPEN && payees_of(swap, t) != 0 && (needs_of(swap, t) & SIG_BOB) != 0) {
        payees &= SWAP_PAYS_BOB;
    }
    return payees;
}

/* Whether it is sent and pays another party. */
static bool is_taken(const struct position *position, uint8_t t, uint8_t side)
{
    uint8_t payee = sent_to(position, t);

    return payee != SWAP_CONTRACT && payee != side;
}

enum kind kind_of(const struct position *position, const struct outage *outage, uint8_t t, uint8_t side)
{
    uint8_t verdict = verdict_of(position, t);
    uint32_t deadline = soonest_deadline_of(position, t);

    if (verdict == SWAP_OUTAGE_SETTLED) {
        return SETTLED;
    }
    if ((can_pay(position, t) & payee_bit(side)) == 0) {
        return OTHERS;
    }
    if (verdict == SWAP_OUTAGE_SAFE) {
        return is_taken(position, t, side) ? TAKEN : SENT;
    }
    if ((verdict & SWAP_OUTAGE_COVERED) != 0 && outage->reach > 0) {
        return COVERED;
    }
    return deadline == SWAP_NEVER || deadline <= position->mined ? FREE : AHEAD;
}
