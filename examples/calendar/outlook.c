#include "outlook.h"

#include "action.h"
#include "after.h"
#include "words.h"

void print_question(FILE *to, const struct question *question)
{
    unsigned long length = question->length;

    fprintf(to, "outage: %lu %s%s", length, question->in_days ? "day" : "block", length == 1 ? "" : "s");
    if (question->from > 0) {
        fprintf(to, " from block %lu", (unsigned long)question->from);
    } else if (question->in > 1) {
        fprintf(to, " after the next %lu blocks", (unsigned long)question->in);
    } else {
        fprintf(to, question->in == 1 ? " after the next block" : " from the next block");
    }
    if (question->margin > 0) {
        fprintf(to, ", margin %lu", (unsigned long)question->margin);
    }
    if (question->clock.set) {
        fprintf(to, "; height %lu at ", (unsigned long)question->clock.height);
        print_local(to, question->clock.at);
        fprintf(to, ", ~ is an estimate by %lu minutes a block, with the hours of 5 and 95 in 100 cases",
                (unsigned long)question->clock.minutes);
    }
}

/* What can be confirmed after its window, where that has an end. */
static void print_after(FILE *to, const char *between, const struct entry *entry, uint8_t t)
{
    const struct position *position = &entry->position;
    uint32_t deadline = soonest_deadline_of(position, t);

    if (deadline == SWAP_NEVER || (deadline <= position->mined && stealth_of(&entry->swap) == 0)) {
        return;
    }
    fputs(between, to);
    if (deadline <= position->mined) {
        fprintf(to, "passed, a hand-in may save it, ");
    }
    print_else(to, position, t, entry->base);
    print_if(to, "", position, t, entry->base);
}

/* What could pay the side and is sent for another party. */
static void print_taken(FILE *to, const struct entry *entry, uint8_t side)
{
    const struct stand *stand = &entry->stands[side];

    for (uint8_t t = 0; t < count_of(&entry->swap); t++) {
        if (t != stand->t && kind_of(&entry->position, &entry->outage, t, side) == TAKEN) {
            fprintf(to, "; %s is sent, pays %s", transaction_label(&entry->swap, t).text,
                    destination_name(sent_to(&entry->position, t)));
        }
    }
}

void print_payout(FILE *to, const struct question *question, const struct entry *entry, uint8_t side)
{
    const struct stand *stand = &entry->stands[side];

    print_action(to, question, entry, side);
    if (stand->t != SWAP_NONE && is_bounded(stand) && sent_to(&entry->position, stand->t) != stand->payee) {
        print_after(to, "; ", entry, stand->t);
    }
    if (stand->t != SWAP_NONE) {
        print_in_the_way(to, &entry->position, stand->t, side);
    }
    print_taken(to, entry, side);
}

void print_outlook(FILE *to, const struct entry *entry, uint8_t t, uint8_t side)
{
    switch (kind_of(&entry->position, &entry->outage, t, side)) {
    case COVERED:
    case AHEAD:
        print_after(to, "", entry, t);
        break;
    case TAKEN:
        fprintf(to, "sent, pays %s", destination_name(sent_to(&entry->position, t)));
        break;
    case SENT:
        fprintf(to, "sent");
        break;
    case FREE:
        fprintf(to, "no deadline ahead");
        break;
    default:
        fputs(parties_of(&entry->swap) == 2 ? "the other side's" : "another side's", to);
        return;
    }
    print_in_the_way(to, &entry->position, t, side);
}
