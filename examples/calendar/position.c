#include "position.h"

#include <string.h>

/* The kind 6 steps of a journal. */
static uint32_t blocks_mined(const struct swap *swap)
{
    uint32_t blocks = 0;

    for (size_t at = 0; at < swap->journal_length; at += 4) {
        blocks += swap->journal[at] == SWAP_MINE;
    }
    return blocks;
}

uint32_t run(const struct swap *swap)
{
    uint32_t answer = swap_check(swap->sheet, swap->sheet_length);

    if (SWAP_REFUSAL(answer) != SWAP_ACCEPTED) {
        return answer;
    }
    return swap_run(swap->sheet, swap->sheet_length, swap->setup, swap->setup_length, swap->journal,
                    swap->journal_length);
}

uint32_t ask_position(const struct swap *swap, uint32_t steps, struct position *position)
{
    uint32_t answer = swap_list(swap->sheet, swap->sheet_length, swap->setup, swap->setup_length, swap->journal,
                                swap->journal_length, position->open, sizeof position->open);

    if (SWAP_REFUSAL(answer) != SWAP_ACCEPTED) {
        return answer;
    }
    position->swap = swap;
    position->steps = steps;
    position->mined = blocks_mined(swap);
    position->open_count = SWAP_COUNT(answer);
    answer = swap_report(swap->sheet, swap->sheet_length, swap->setup, swap->setup_length, swap->journal,
                         swap->journal_length, position->report, sizeof position->report);
    if (SWAP_REFUSAL(answer) != SWAP_ACCEPTED) {
        return answer;
    }
    return swap_slack(swap->sheet, swap->sheet_length, swap->setup, swap->setup_length, swap->journal,
                      swap->journal_length, position->slack, sizeof position->slack);
}

uint32_t ask_outage(struct position *position, uint32_t blocks)
{
    const struct swap *swap = position->swap;

    return swap_outage(swap->sheet, swap->sheet_length, swap->setup, swap->setup_length, swap->journal,
                       swap->journal_length, blocks, position->outage, sizeof position->outage);
}

uint8_t status_of(const struct position *position, uint8_t t)
{
    return position->report[SWAP_REPORT_ROW * t + SWAP_REPORT_STATUS];
}

uint8_t payee_of(const struct position *position, uint8_t t)
{
    return position->report[SWAP_REPORT_ROW * t + SWAP_REPORT_PAYEE];
}

uint32_t block_of(const struct position *position, uint8_t t)
{
    return swap_number(position->report + SWAP_REPORT_ROW * t + SWAP_REPORT_BLOCK);
}

uint32_t lock_height_of(const struct position *position, uint8_t t)
{
    return swap_number(position->report + SWAP_REPORT_ROW * t + SWAP_REPORT_LOCK_HEIGHT);
}

uint32_t deadline_of(const struct position *position, uint8_t t)
{
    return swap_number(position->report + SWAP_REPORT_ROW * t + SWAP_REPORT_DEADLINE);
}

uint32_t open_since(const struct position *position, uint8_t t)
{
    return swap_number(position->report + SWAP_REPORT_ROW * t + SWAP_REPORT_OPENED);
}

uint8_t verdict_of(const struct position *position, uint8_t t)
{
    return position->outage[SWAP_OUTAGE_ROW * t + SWAP_OUTAGE_VERDICT];
}

uint8_t payees_below(const struct position *position, uint8_t t)
{
    return position->outage[SWAP_OUTAGE_ROW * t + SWAP_OUTAGE_PAYEES];
}

uint32_t soonest_block_of(const struct position *position, uint8_t t)
{
    return swap_number(position->outage + SWAP_OUTAGE_ROW * t + SWAP_OUTAGE_SOONEST_BLOCK);
}

uint32_t soonest_deadline_of(const struct position *position, uint8_t t)
{
    return swap_number(position->outage + SWAP_OUTAGE_ROW * t + SWAP_OUTAGE_SOONEST_DEADLINE);
}

const uint8_t *slack_row(const uint8_t slack[SWAP_SLACK_SIZE], uint8_t party)
{
    return slack + SWAP_SLACK_ROW * (party == SWAP_CAROL ? 2 : party);
}

uint32_t slack_blocks(const uint8_t *row)
{
    return swap_number(row + SWAP_SLACK_BLOCKS);
}

uint8_t counted_on(const uint8_t *row)
{
    return row[SWAP_SLACK_TRANSACTION];
}

uint32_t blocks_left(const struct position *position, uint8_t t)
{
    uint32_t deadline = soonest_deadline_of(position, t);

    if (deadline == SWAP_NEVER) {
        return SWAP_NEVER;
    }
    return deadline > position->mined ? deadline - position->mined : 0;
}

bool is_confirmed(const struct position *position, uint8_t t)
{
    return (status_of(position, t) & SWAP_CONFIRMED) != 0;
}

bool is_paid(const struct position *position, uint8_t party)
{
    for (uint8_t t = 0; t < count_of(position->swap); t++) {
        if (is_confirmed(position, t) && payee_of(position, t) == party) {
            return true;
        }
    }
    return false;
}

/* The destinations of a transaction's last entries in the pool and in the block, by the steps that put it there. */
static void last_entries(const struct swap *swap, uint8_t t, uint8_t *pool, uint8_t *block)
{
    for (size_t at = 0; at < swap->journal_length; at += 4) {
        const uint8_t *step = swap->journal + at;

        if (step[0] < SWAP_SEND || step[2] != t) {
            continue;
        }
        if (step[0] == SWAP_SEND) {
            *pool = step[3];
        } else {
            *block = step[0] == SWAP_HAND_IN ? step[3] : *pool;
        }
    }
}

uint8_t sent_to(const struct position *position, uint8_t t)
{
    uint8_t status = status_of(position, t);
    uint8_t pool = SWAP_NONE;
    uint8_t block = SWAP_NONE;

    if ((status & (SWAP_IN_POOL | SWAP_IN_BLOCK)) == 0) {
        return SWAP_NONE;
    }
    if (payees_of(position->swap, t) == 0) {
        return SWAP_CONTRACT;
    }
    last_entries(position->swap, t, &pool, &block);
    return (status & SWAP_IN_BLOCK) != 0 ? block : pool;
}

/* The confirmed child of a transaction, or SWAP_NONE. */
static uint8_t confirmed_child(const struct position *position, uint8_t parent)
{
    for (uint8_t t = 0; t < count_of(position->swap); t++) {
        if (parent_of(position->swap, t) == parent && is_confirmed(position, t)) {
            return t;
        }
    }
    return SWAP_NONE;
}

uint8_t last_confirmed(const struct position *position, uint8_t opening)
{
    uint8_t last = SWAP_NONE;
    uint8_t next = is_confirmed(position, opening) ? opening : SWAP_NONE;

    while (next != SWAP_NONE) {
        last = next;
        next = confirmed_child(position, last);
    }
    return last;
}

bool is_open(const struct position *position, const uint8_t step[4])
{
    for (uint32_t i = 0; i < position->open_count; i++) {
        if (memcmp(position->open + 4 * i, step, 4) == 0) {
            return true;
        }
    }
    return false;
}

/* Whether an open step sends the transaction: the party's, or another's. */
static bool is_sent_by(const struct position *position, uint8_t t, uint8_t party, bool own)
{
    for (uint32_t i = 0; i < position->open_count; i++) {
        const uint8_t *step = position->open + 4 * i;

        if ((step[0] == SWAP_SEND || step[0] == SWAP_HAND_IN) && (step[1] == party) == own && step[2] == t) {
            return true;
        }
    }
    return false;
}

bool can_be_sent(const struct position *position, uint8_t party, uint8_t t)
{
    return is_sent_by(position, t, party, true);
}

bool others_can_send(const struct position *position, uint8_t party, uint8_t t)
{
    return is_sent_by(position, t, party, false);
}
