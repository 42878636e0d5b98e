#include "action.h"

#include <string.h>

#include "../common/steps.h"
#include "outages.h"
#include "words.h"

/* The engine's refusal of a step after the journal. */
static uint32_t refusal_of(const struct swap *swap, const uint8_t step[4])
{
    return SWAP_REFUSAL(swap_ask(swap->sheet, swap->sheet_length, swap->setup, swap->setup_length, swap->journal,
                                 swap->journal_length, step, SWAP_STEP_SIZE));
}

/* The last block for what is counted on: the one after the slack. */
static uint32_t end_of(const struct entry *entry, const struct stand *stand)
{
    return is_bounded(stand) ? entry->position.mined + 1 + stand->slack : SWAP_NEVER;
}

/* The last block for the open step that helps: where it sends another transaction, no later than that one's deadline. */
static uint32_t end_of_step(const struct entry *entry, const struct stand *stand)
{
    uint32_t end = end_of(entry, stand);
    uint32_t deadline;

    if (stand->step[0] == SWAP_GIVE || stand->step[0] == SWAP_SHARE || stand->step[2] == stand->t) {
        return end;
    }
    deadline = soonest_deadline_of(&entry->position, stand->step[2]);
    return deadline < end ? deadline : end;
}

/* The last block that is safe with the margin left after it, the next one where that is passed. */
static uint32_t with_margin(const struct question *question, const struct entry *entry, uint32_t end)
{
    uint32_t next = entry->position.mined + 1;

    if (end == SWAP_NEVER) {
        return SWAP_NEVER;
    }
    return end > next && end - next > question->margin ? end - question->margin : next;
}

/* Asks for the send, and for the hand-in where the deadline is reached: whether the refusal can pass with time, and what
 * comes first. */
static bool waits(const struct position *position, struct action *action)
{
    const struct swap *swap = position->swap;
    uint8_t t = action->step[2];
    uint32_t refusal;

    action->step[0] = SWAP_SEND;
    refusal = refusal_of(swap, action->step);
    if (refusal == SWAP_STEP_DEADLINE && stealth_of(swap) != 0) {
        action->step[0] = SWAP_HAND_IN;
        refusal = refusal_of(swap, action->step);
    }
    action->why = swap_refusal_words(refusal);
    if (refusal == SWAP_STEP_PARENT) {
        action->once = parent_of(swap, t);
    }
    if (soonest_block_of(position, t) > position->mined + 1) {
        action->after = soonest_block_of(position, t) - 1;
    }
    return refusal == SWAP_STEP_PARENT || refusal == SWAP_STEP_LOCK;
}

/* Whether the step is open, to the pool or else to the miner. */
static bool is_open_now(const struct position *position, struct action *action)
{
    action->step[0] = SWAP_SEND;
    if (is_open(position, action->step)) {
        return true;
    }
    action->step[0] = SWAP_HAND_IN;
    return is_open(position, action->step);
}

/* Of what is counted on, where no open step makes the slack more. */
static enum act act_of(const struct position *position, const struct stand *stand, struct action *action)
{
    uint8_t sent = sent_to(position, stand->t);

    if (sent == stand->payee) {
        action->why = "sent";
        return DONE;
    }
    if (stand->slack >= SWAP_SLACK_MOST) {
        action->why = "no deadline ahead";
        return DONE;
    }
    if (is_open_now(position, action)) {
        return DO;
    }
    return waits(position, action) ? LATER : NO_MEANS;
}

struct action action_of(const struct question *question, const struct entry *entry, uint8_t side)
{
    const struct position *position = &entry->position;
    const struct stand *stand = &entry->stands[side];
    struct action action = {
        .act = NO_PAYOUT,
        .step = {SWAP_SEND, side, stand->t, stand->payee},
        .once = SWAP_NONE,
        .after = SWAP_NEVER,
        .by = with_margin(question, entry, stand->helps ? end_of_step(entry, stand) : end_of(entry, stand)),
        .payee = SWAP_NONE,
        .helps = stand->helps,
        .why = standing_word(stand->standing),
    };

    if (stand->t != SWAP_NONE && sent_to(position, stand->t) != stand->payee) {
        action.payee = sent_to(position, stand->t);
    }
    if (stand->helps) {
        action.act = DO;
        memcpy(action.step, stand->step, SWAP_STEP_SIZE);
    } else if (stand->standing == PAID) {
        action.act = DONE;
        action.why = is_paid(position, side) ? "paid" : "sent";
    } else if (stand->standing == KEPT) {
        action.act = act_of(position, stand, &action);
    }
    return action;
}

const char *act_word(const struct action *action)
{
    static const char *const words[] = {
        [DO] = "do",
        [LATER] = "do",
        [DONE] = "nothing to do",
        [NO_MEANS] = "nothing can be done now",
    };

    return action->act == NO_PAYOUT ? action->why : words[action->act];
}

bool is_now(const struct entry *entry, const struct action *action)
{
    return action->act == DO && action->by == entry->position.mined + 1;
}

/* Until when the step is to be taken, and what it brings. */
static void print_until(FILE *to, const struct question *question, const struct entry *entry, uint8_t side,
                        const struct action *action)
{
    if (is_now(entry, action)) {
        fprintf(to, ", now");
    } else if (action->by != SWAP_NEVER) {
        fprintf(to, ", by block %s", height_label(entry->base, action->by).text);
        print_estimate(to, &question->clock, action->by - entry->position.mined);
    }
    if (action->helps) {
        struct slack then = slack_after(question, entry->stands[side].then);

        fprintf(to, ", then free %s", slack_label(&then).text);
    }
}

void print_action(FILE *to, const struct question *question, const struct entry *entry, uint8_t side)
{
    struct action action = action_of(question, entry, side);

    if (action.payee != SWAP_NONE) {
        fprintf(to, "sent, pays %s; ", destination_name(action.payee));
    }
    fputs(act_word(&action), to);
    if (action.act == NO_PAYOUT) {
        return;
    }
    fprintf(to, ": %s", action.act > LATER ? action.why : step_words(&entry->swap, action.step).text);
    if (action.act > LATER) {
        return;
    }
    if (action.once != SWAP_NONE) {
        fprintf(to, ", once %s is sent", transaction_label(&entry->swap, action.once).text);
    }
    if (action.after != SWAP_NEVER) {
        fprintf(to, ", after block %s", height_label(entry->base, action.after).text);
    }
    print_until(to, question, entry, side, &action);
}
