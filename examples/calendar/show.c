#include "show.h"

#include <stdio.h>

#include "../common/steps.h"
#include "after.h"
#include "outages.h"
#include "outlook.h"
#include "saswap.h"
#include "words.h"

static const char *sheet_name(const struct swap *swap)
{
    if (parties_of(swap) == 3) {
        return "three parties";
    }
    return is_saswap(swap) ? "SASwap" : "other";
}

static void show_inputs(const struct entry *entry)
{
    const struct position *position = &entry->position;
    const struct swap *swap = position->swap;

    printf("  sheet: %s, transactions %u\n", sheet_name(swap), (unsigned)count_of(swap));
    printf("  setup: blocks per day %u, conduct %s, stealth %u\n", blocks_per_day_of(swap),
           conduct_name(conduct_of(swap)), (unsigned)stealth_of(swap));
    printf("  journal: steps accepted %lu, blocks mined %lu", (unsigned long)position->steps,
           (unsigned long)position->mined);
    if (entry->based) {
        printf(", height %lu", (unsigned long)entry->base + position->mined);
    }
    printf("\n");
}

static void show_position(const struct position *position, uint32_t base)
{
    const char *const form = "    %-22s%-12s%-10s%8s%13s%10s\n";

    printf("  position\n");
    printf(form, "transaction", "status", "payee", "block", "lock height", "deadline");
    for (uint8_t t = 0; t < count_of(position->swap); t++) {
        bool confirmed = is_confirmed(position, t);

        printf(form, transaction_label(position->swap, t).text, status_label(status_of(position, t)).text,
               confirmed ? destination_name(payee_of(position, t)) : "-",
               confirmed ? height_label(base, block_of(position, t)).text : "-",
               height_label(base, lock_height_of(position, t)).text, height_label(base, deadline_of(position, t)).text);
    }
}

static void show_open_steps(const struct position *position, uint8_t party)
{
    unsigned shown = 0;

    printf("  steps that %s could take now\n", party_name(party));
    for (uint32_t i = 0; i < position->open_count; i++) {
        const uint8_t *step = position->open + 4 * i;

        if (step[1] == party) {
            printf("    %s\n", step_words(position->swap, step).text);
            shown++;
        }
    }
    if (shown == 0) {
        printf("    none\n");
    }
}

/* One coin: to whom it is paid out, or where it stands. */
static void show_coin(const struct position *position, uint8_t opening, uint32_t base)
{
    const struct swap *swap = position->swap;
    uint8_t last = last_confirmed(position, opening);

    printf("    coin of %s: ", transaction_label(swap, opening).text);
    if (last == SWAP_NONE) {
        printf("none, not opened yet\n");
        return;
    }
    if (payee_of(position, last) == SWAP_CONTRACT) {
        printf("none, in the contract");
    } else {
        printf("paid to %s", destination_name(payee_of(position, last)));
    }
    printf(" by %s in block %s\n", transaction_label(swap, last).text,
           height_label(base, block_of(position, last)).text);
}

static void show_payouts(const struct position *position, uint32_t base)
{
    printf("  payouts so far\n");
    for (uint8_t t = 0; t < count_of(position->swap); t++) {
        if (parent_of(position->swap, t) == SWAP_NONE) {
            show_coin(position, t, base);
        }
    }
}

/* The window of blocks in which a transaction can be confirmed, and what can be confirmed after it. */
static void show_window(const struct position *position, uint8_t t, uint32_t base)
{
    printf("in blocks %s to %s", height_label(base, soonest_block_of(position, t)).text,
           height_label(base, soonest_deadline_of(position, t)).text);
    print_if(stdout, " at the soonest", position, t, base);
    printf(", ");
    print_else(stdout, position, t, base);
}

/* A deadline that is passed, or that there is none. */
static void show_no_window(const struct position *position, uint8_t t, uint32_t base)
{
    if (soonest_deadline_of(position, t) == SWAP_NEVER) {
        printf("no deadline");
    } else {
        printf("PASSED: block %s was the latest", height_label(base, soonest_deadline_of(position, t)).text);
    }
}

/* What the outage does to a transaction. */
static void show_kind(const struct entry *entry, uint8_t t, enum kind kind)
{
    const struct position *position = &entry->position;

    switch (kind) {
    case COVERED:
    case AHEAD:
        if (soonest_deadline_of(position, t) > position->mined) {
            show_window(position, t, entry->base);
        } else {
            printf("block %s was the latest, a hand-in may save it, ",
                   height_label(entry->base, soonest_deadline_of(position, t)).text);
            print_else(stdout, position, t, entry->base);
        }
        break;
    case TAKEN:
    case SENT:
        printf("sent");
        break;
    case FREE:
        show_no_window(&entry->position, t, entry->base);
        break;
    default:
        printf(parties_of(entry->position.swap) == 2 ? "the other side's" : "another side's");
        break;
    }
}

/* Where a transaction stands. */
static void show_standing(const struct position *position, uint8_t t, uint8_t side, uint32_t base)
{
    uint8_t status = status_of(position, t);
    uint8_t payee = sent_to(position, t);

    if ((status & SWAP_IN_POOL) != 0) {
        printf("; in the pool");
    }
    if ((status & SWAP_IN_BLOCK) != 0) {
        printf("; in the block being filled");
    }
    if (payee != SWAP_NONE && payee != SWAP_CONTRACT) {
        printf(", paying %s", party_name(payee));
    }
    if (can_be_sent(position, side, t)) {
        printf("; can be sent now");
        if (open_since(position, t) != SWAP_NEVER) {
            printf(", open since block %s", height_label(base, open_since(position, t)).text);
        }
    }
}

static void show_outage(const struct entry *entry, uint8_t side, const struct question *question)
{
    const struct outage *outage = &entry->outage;

    printf("  deadlines for %s; ", party_name(side));
    if (outage->last < outage->first) {
        printf("no outage");
    } else {
        printf("outage in blocks %s to %s", height_label(entry->base, outage->first).text,
               height_label(entry->base, outage->last).text);
    }
    if (question->margin > 0) {
        printf(", margin %lu", (unsigned long)question->margin);
    }
    printf("\n");
}

/* Every transaction that is neither confirmed nor dead. */
static void show_deadlines(const struct entry *entry, uint8_t side, const struct question *question)
{
    const struct position *position = &entry->position;
    unsigned shown = 0;

    show_outage(entry, side, question);
    printf("    %-22s%-8s%s\n", "transaction", "pays", "to be confirmed");
    for (uint8_t t = 0; t < count_of(position->swap); t++) {
        enum kind kind = kind_of(position, &entry->outage, t, side);

        if (kind != SETTLED) {
            printf("    %-22s%-8s", transaction_label(position->swap, t).text,
                   payees_name(position->swap, can_pay(position, t)));
            show_kind(entry, t, kind);
            show_standing(position, t, side, entry->base);
            if (kind != OTHERS) {
                print_in_the_way(stdout, position, t, side);
            }
            printf("\n");
            shown++;
        }
    }
    if (shown == 0) {
        printf("    none\n");
    }
}

/* The side's payout: on what it counts, and what to do; then the longest outage from now without a warning. */
static void show_payout(const struct entry *entry, uint8_t side, const struct question *question)
{
    const struct stand *stand = &entry->stands[side];
    struct slack slack = slack_of(question, entry, side);

    printf("  payout of %s: %s", party_name(side), stand->warned ? "WARNING: " : "");
    if (stand->t != SWAP_NONE) {
        printf("counting on %s, ", transaction_label(&entry->swap, stand->t).text);
    }
    print_payout(stdout, question, entry, side);
    printf("\n  longest outage from now without a warning for %s: %s\n", party_name(side), slack_label(&slack).text);
}

/* The refused step, in words where its fields are in range. */
static void show_refused_step(const struct swap *swap, uint32_t refusal, uint32_t accepted)
{
    const uint8_t *step = swap->journal + 4 * accepted;

    printf("  refused step: %lu of %lu, bytes %u %u %u %u", (unsigned long)accepted + 1,
           (unsigned long)(swap->journal_length / 4), (unsigned)step[0], (unsigned)step[1], (unsigned)step[2],
           (unsigned)step[3]);
    printf("%s%s\n", refusal != SWAP_STEP_FIELD ? ", " : "",
           refusal != SWAP_STEP_FIELD ? step_words(swap, step).text : "");
}

static void show_refusal(const struct swap *swap, uint32_t answer)
{
    uint32_t refusal = SWAP_REFUSAL(answer);

    printf("  refused: %s (%lu), %s\n", swap_refusal_name(refusal), (unsigned long)refusal,
           swap_refusal_words(refusal));
    if (refusal >= SWAP_STEP_FIELD && refusal <= SWAP_STEP_BLOCKS) {
        show_refused_step(swap, refusal, SWAP_COUNT(answer));
    }
    printf("  no deadlines: the engine gives them for a wholly accepted journal only\n");
}

static void show_position_of(const struct entry *entry, const struct question *question)
{
    const struct position *position = &entry->position;

    show_inputs(entry);
    show_position(position, entry->base);
    show_open_steps(position, SWAP_ALICE);
    show_open_steps(position, SWAP_BOB);
    if (parties_of(&entry->swap) == 3) {
        show_open_steps(position, SWAP_CAROL);
    }
    show_open_steps(position, SWAP_MINER);
    show_payouts(position, entry->base);
    for (uint8_t side = SWAP_ALICE; side <= SWAP_CAROL; side++) {
        if (is_shown(entry, side)) {
            show_deadlines(entry, side, question);
            show_payout(entry, side, question);
        }
    }
}

void show_desk(const struct question *question, const struct desk *desk)
{
    for (size_t i = 0; i < desk->count; i++) {
        const struct entry *entry = desk->entries[i];

        printf("swap ");
        print_name(entry->name, 0);
        printf("\n");
        if (entry->fault.file != NULL) {
            printf("  unreadable: %s: %s\n", entry->fault.file, entry->fault.reason);
            printf("  no deadlines: the swap is not known\n");
        } else if (!is_sound(entry)) {
            show_refusal(&entry->swap, entry->answer);
        } else {
            show_position_of(entry, question);
        }
        printf("\n");
    }
}
