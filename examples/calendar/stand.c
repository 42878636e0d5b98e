#include "stand.h"

#include <stdlib.h>
#include <string.h>

static bool is_sending(const uint8_t step[4])
{
    return step[0] == SWAP_SEND || step[0] == SWAP_HAND_IN;
}

/* The slack of everybody after the journal and one more step, which stand in a row; false where the engine refuses. */
static bool ask_after(const struct swap *swap, const uint8_t *steps, uint8_t slack[SWAP_SLACK_SIZE])
{
    uint32_t answer = swap_slack(swap->sheet, swap->sheet_length, swap->setup, swap->setup_length, steps,
                                 swap->journal_length + SWAP_STEP_SIZE, slack, SWAP_SLACK_SIZE);

    return SWAP_REFUSAL(answer) == SWAP_ACCEPTED;
}

/* Whether a step after which the slack is this is to be named and not the one that is: sends and hand-ins go first, then
 * the greater slack, then what is counted on. */
static bool is_better(const struct stand *stand, const uint8_t step[4], uint32_t then)
{
    if (!stand->helps) {
        return true;
    }
    if (is_sending(step) != is_sending(stand->step)) {
        return is_sending(step);
    }
    if (then != stand->then) {
        return then > stand->then;
    }
    return is_sending(step) && step[2] == stand->t && stand->step[2] != stand->t;
}

/* Looks at the row of the side after one of its open steps. */
static void consider(struct stand *stand, const uint8_t step[4], const uint8_t *row)
{
    uint32_t then = slack_blocks(row);

    if (then == SWAP_NEVER || (stand->standing == KEPT && then <= stand->slack) || !is_better(stand, step, then)) {
        return;
    }
    stand->helps = true;
    stand->then = then;
    memcpy(stand->step, step, SWAP_STEP_SIZE);
    if (stand->standing != KEPT) {
        stand->standing = NEEDS;
        stand->t = counted_on(row);
        stand->payee = row[SWAP_SLACK_DESTINATION];
        if (stand->t == SWAP_NONE && is_sending(step)) { /* it is sure to be confirmed */
            stand->t = step[2];
            stand->payee = step[3];
        }
    }
}

/* Asks after each open step of the side; false where there is no memory. */
static bool ask_steps(const struct position *position, uint8_t side, struct stand *stand)
{
    const struct swap *swap = position->swap;
    uint8_t *steps = malloc(swap->journal_length + SWAP_STEP_SIZE);
    uint8_t slack[SWAP_SLACK_SIZE];

    if (steps == NULL) {
        return false;
    }
    if (swap->journal_length > 0) {
        memcpy(steps, swap->journal, swap->journal_length);
    }
    for (uint32_t i = 0; i < position->open_count; i++) {
        const uint8_t *step = position->open + SWAP_STEP_SIZE * i;

        memcpy(steps + swap->journal_length, step, SWAP_STEP_SIZE);
        if (step[1] == side && ask_after(swap, steps, slack)) {
            consider(stand, step, slack_row(slack, side));
        }
    }
    free(steps);
    return true;
}

/* Whether the side has sent an opening: a coin of its own is locked, or will be. */
static bool has_locked(const struct swap *swap, uint8_t side)
{
    for (size_t at = 0; at < swap->journal_length; at += SWAP_STEP_SIZE) {
        const uint8_t *step = swap->journal + at;

        if (is_sending(step) && step[1] == side && parent_of(swap, step[2]) == SWAP_NONE) {
            return true;
        }
    }
    return false;
}

/* Whether nothing that is left can pay the side. */
static bool is_over(const struct position *position, uint8_t side)
{
    for (uint8_t t = 0; t < count_of(position->swap); t++) {
        if (verdict_of(position, t) != SWAP_OUTAGE_SETTLED && (can_pay(position, t) & payee_bit(side)) != 0) {
            return false;
        }
    }
    return true;
}

/* Whether a payout that is not secured is given up. */
static bool is_given_up(const struct position *position, uint8_t side)
{
    const struct swap *swap = position->swap;

    return is_over(position, side) || (conduct_of(swap) == SWAP_CAREFUL && has_locked(swap, side));
}

bool ask_stand(const struct position *position, const struct outage *outage, uint8_t side, struct stand *stand)
{
    const uint8_t *row = slack_row(position->slack, side);
    uint32_t blocks = slack_blocks(row);

    *stand = (struct stand){.t = counted_on(row), .payee = row[SWAP_SLACK_DESTINATION]};
    if (blocks == SWAP_NEVER) {
        stand->standing = is_given_up(position, side) ? GIVEN_UP : NOT_YET;
    } else {
        stand->standing = stand->t == SWAP_NONE ? PAID : KEPT;
        stand->slack = blocks;
    }
    if (stand->slack < SWAP_SLACK_MOST && !ask_steps(position, side, stand)) {
        return false;
    }
    stand->warned = is_bounded(stand) && stand->slack < outage->reach;
    return true;
}

bool is_bounded(const struct stand *stand)
{
    return stand->standing == NEEDS || (stand->standing == KEPT && stand->slack < SWAP_SLACK_MOST);
}

const char *standing_word(enum standing standing)
{
    static const char *const words[] = {
        [PAID] = "paid",
        [KEPT] = "kept",
        [NEEDS] = "needs a step",
        [NOT_YET] = "nothing secured yet",
        [GIVEN_UP] = "given up",
    };

    return words[standing];
}
