/* What the engine answers about a swap: its position after the journal, and what is read off it. */
#ifndef POSITION_H
#define POSITION_H

#include "fields.h"

/* The position after a journal that is accepted whole. */
struct position {
    const struct swap *swap;
    uint32_t steps;
    uint32_t mined;
    uint32_t open_count;
    uint8_t open[SWAP_LIST_SIZE];
    uint8_t report[SWAP_REPORT_SIZE];
    uint8_t outage[SWAP_OUTAGE_SIZE];
    uint8_t slack[SWAP_SLACK_SIZE];
};

/* Checks a swap's sheet and runs its journal: the first answer that is a refusal, else the run's. */
uint32_t run(const struct swap *swap);

/* Asks for the open steps, the report and the slack after a journal of so many steps that is accepted whole; then for an outage of
 * so many blocks. Each the first answer that is a refusal, else one that is none. */
uint32_t ask_position(const struct swap *swap, uint32_t steps, struct position *position);
uint32_t ask_outage(struct position *position, uint32_t blocks);

/* The fields of the report. */
uint8_t status_of(const struct position *position, uint8_t t);
uint8_t payee_of(const struct position *position, uint8_t t);
uint32_t block_of(const struct position *position, uint8_t t);
uint32_t lock_height_of(const struct position *position, uint8_t t);
uint32_t deadline_of(const struct position *position, uint8_t t);
uint32_t open_since(const struct position *position, uint8_t t);

/* The fields of the outage's answer. */
uint8_t verdict_of(const struct position *position, uint8_t t);
uint8_t payees_below(const struct position *position, uint8_t t);
uint32_t soonest_block_of(const struct position *position, uint8_t t);
uint32_t soonest_deadline_of(const struct position *position, uint8_t t);

/* The row of a party in a slack's answer; its blocks, and the transaction that it counts on. */
const uint8_t *slack_row(const uint8_t slack[SWAP_SLACK_SIZE], uint8_t party);
uint32_t slack_blocks(const uint8_t *row);
uint8_t counted_on(const uint8_t *row);

/* Blocks until the window of a transaction ends, 0 where it is passed; or SWAP_NEVER. */
uint32_t blocks_left(const struct position *position, uint8_t t);

bool is_confirmed(const struct position *position, uint8_t t);

/* Whether a transaction that pays the party is confirmed. */
bool is_paid(const struct position *position, uint8_t party);

/* Where the next block sends a transaction that is in it, or else in the pool: SWAP_CONTRACT or a party. SWAP_NONE where it
 * is in neither. */
uint8_t sent_to(const struct position *position, uint8_t t);

/* The transaction whose payee holds the coin of this opening: the confirmed one, the opening or below it, that has no
 * confirmed child. SWAP_NONE where the opening is not confirmed. */
uint8_t last_confirmed(const struct position *position, uint8_t opening);

/* Whether the step is open. */
bool is_open(const struct position *position, const uint8_t step[4]);

/* Whether the party has an open step that sends the transaction, to the pool or to the miner. */
bool can_be_sent(const struct position *position, uint8_t party, uint8_t t);

/* Whether somebody else has one. */
bool others_can_send(const struct position *position, uint8_t party, uint8_t t);

#endif
