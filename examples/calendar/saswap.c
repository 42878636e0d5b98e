#include "saswap.h"

#include <stdlib.h>
#include <string.h>

#include "fields.h"

/* A transaction: its name, then its bytes of the sheet's two arrays. */
struct entry {
    const char *name;
    uint8_t first[4];  /* parent, payees, needs, veil */
    uint8_t second[2]; /* lock type, days; an absolute lock has the offset beside them */
};

static const struct entry table[SASWAP_COUNT] = {
    {"lock_A", {SWAP_NONE, 0, 1, 0}, {SWAP_UNLOCKED, 0}},
    {"lock_B", {SWAP_NONE, 0, 2, 0}, {SWAP_UNLOCKED, 0}},
    {"success", {0, 0, 11, 0}, {SWAP_UNLOCKED, 0}},
    {"refund_1", {0, 0, 7, 0}, {SWAP_ABSOLUTE, 1}},
    {"revoke", {0, 0, 3, 0}, {SWAP_ABSOLUTE, 2}},
    {"refund_2", {4, 0, 7, 0}, {SWAP_SINCE_PARENT, 1}},
    {"timeout", {4, 0, 3, 0}, {SWAP_SINCE_PARENT, 2}},
    {"spend_A", {0, 3, 3, 0}, {SWAP_UNLOCKED, 0}},
    {"spend_B", {1, 3, 12, 1}, {SWAP_UNLOCKED, 0}},
    {"spend_success", {2, 2, 2, 0}, {SWAP_UNLOCKED, 0}},
    {"spend_refund_1_bob", {3, 2, 3, 0}, {SWAP_UNLOCKED, 0}},
    {"spend_refund_1_alice", {3, 1, 1, 0}, {SWAP_SINCE_PARENT, 1}},
    {"spend_revoke", {4, 3, 3, 0}, {SWAP_UNLOCKED, 0}},
    {"spend_refund_2", {5, 1, 1, 0}, {SWAP_UNLOCKED, 0}},
    {"spend_timeout", {6, 2, 2, 0}, {SWAP_UNLOCKED, 0}},
};

const char *saswap_transaction(uint8_t t)
{
    return table[t].name;
}

const char *saswap_signature(uint8_t number)
{
    static const char *const names[] = {"sigAlice", "sigBob", "secretAlice", "secretBob"};

    return names[number];
}

/* "1 gives 2, 2 gives 1, anything else 0" */
static uint8_t offset(unsigned blocks_per_day)
{
    switch (blocks_per_day) {
    case 1:
        return 2;
    case 2:
        return 1;
    default:
        return 0;
    }
}

void saswap_sheet(unsigned blocks_per_day, uint8_t sheet[SASWAP_SIZE])
{
    /* transactions, signatures, secrets, held by Alice, held by Bob */
    static const uint8_t head[5] = {SASWAP_COUNT, 4, 12, 5, 10};
    uint8_t *first = sheet + sizeof head;
    uint8_t *second = first + 4 * SASWAP_COUNT;

    memcpy(sheet, head, sizeof head);
    for (size_t t = 0; t < SASWAP_COUNT; t++) {
        memcpy(first + 4 * t, table[t].first, 4);
        memcpy(second + 2 * t, table[t].second, 2);
        if (table[t].second[0] == SWAP_ABSOLUTE) {
            second[2 * t + 1] += offset(blocks_per_day);
        }
    }
}

bool is_saswap(const struct swap *swap)
{
    uint8_t sheet[SASWAP_SIZE];

    saswap_sheet(blocks_per_day_of(swap), sheet);
    return swap->sheet_length == SASWAP_SIZE && memcmp(swap->sheet, sheet, SASWAP_SIZE) == 0;
}

/* A step, so many times in a row. */
struct repeated {
    uint8_t step[4];
    size_t times;
};

static const struct repeated embedded_course[] = {
    {{SWAP_SHARE, SWAP_ALICE, SWAP_NONE, SWAP_CONTRACT}, 1},  /* her first shares: revoke, timeout */
    {{SWAP_SHARE, SWAP_BOB, SWAP_NONE, SWAP_CONTRACT}, 1},    /* his first shares: refund_1, revoke, refund_2, timeout */
    {{SWAP_SEND, SWAP_ALICE, 0, SWAP_CONTRACT}, 1},           /* lock_A */
    {{SWAP_INCLUDE, SWAP_MINER, 0, SWAP_CONTRACT}, 1},
    {{SWAP_MINE, SWAP_MINER, SWAP_NONE, SWAP_CONTRACT}, 1},   /* block 1 */
    {{SWAP_SEND, SWAP_BOB, 1, SWAP_CONTRACT}, 1},             /* lock_B */
    {{SWAP_INCLUDE, SWAP_MINER, 1, SWAP_CONTRACT}, 1},
    {{SWAP_MINE, SWAP_MINER, SWAP_NONE, SWAP_CONTRACT}, 298}, /* blocks 2 to 299 */
    {{SWAP_SEND, SWAP_BOB, 4, SWAP_CONTRACT}, 1},             /* revoke */
    {{SWAP_INCLUDE, SWAP_MINER, 4, SWAP_CONTRACT}, 1},
    {{SWAP_MINE, SWAP_MINER, SWAP_NONE, SWAP_CONTRACT}, 145}, /* blocks 300 to 444 */
};

#define EMBEDDED_ROWS (sizeof embedded_course / sizeof embedded_course[0])

/* The bytes of its journal. */
static size_t embedded_length(void)
{
    size_t length = 0;

    for (size_t row = 0; row < EMBEDDED_ROWS; row++) {
        length += 4 * embedded_course[row].times;
    }
    return length;
}

bool embedded_swap(struct swap *swap)
{
    const uint8_t setup[SWAP_SETUP_SIZE] = {144, 0, SWAP_CAREFUL, 0};

    saswap_sheet(144, swap->sheet);
    swap->sheet_length = SASWAP_SIZE;
    memcpy(swap->setup, setup, sizeof setup);
    swap->setup_length = sizeof setup;
    swap->journal = malloc(embedded_length());
    swap->journal_length = 0;
    for (size_t row = 0; row < EMBEDDED_ROWS && swap->journal != NULL; row++) {
        for (size_t i = 0; i < embedded_course[row].times; i++) {
            memcpy(swap->journal + swap->journal_length, embedded_course[row].step, 4);
            swap->journal_length += 4;
        }
    }
    return swap->journal != NULL;
}
