/* Calls swap_blocks from C: every number of a block list, the order of the tests, null pointers. */
#include "expect.h"

struct slice {
    const uint8_t *bytes;
    size_t length;
};

#define EMPTY {NULL, 0}
#define SLICE(...) {(const uint8_t[]){__VA_ARGS__}, sizeof(const uint8_t[]){__VA_ARGS__}}

/* The sheet of P10: an opening, and a payout to Bob behind a lock of one day. */
#define P10 SLICE(2, 2, 0, 1, 2, 255, 0, 1, 0, 0, 2, 2, 0, 0, 0, 1, 1)

/* The same with the lock since the parent. */
#define SINCE SLICE(2, 2, 0, 1, 2, 255, 0, 1, 0, 0, 2, 2, 0, 0, 0, 2, 1)

#define ONE_A_DAY SLICE(1, 0, 0, 0)

/* Entries: the opening and the payout in a block below 256. */
#define OPENED(block) 0, 2, block, 0
#define PAID(block) 1, 1, block, 0

struct checked {
    const char *name;
    uint32_t refusal;
    struct slice sheet;
    struct slice setup;
    struct slice list;
};

static const struct checked table[] = {
    {"nothing at all", SWAP_SHEET_SHORT, EMPTY, EMPTY, EMPTY},
    {"no setup", SWAP_SETUP_BLOCKS, P10, EMPTY, SLICE(OPENED(0))},
    {"conduct 3", SWAP_SETUP_CONDUCT, P10, SLICE(1, 0, 3, 0), SLICE(9)},
    {"empty list", SWAP_ACCEPTED, P10, ONE_A_DAY, EMPTY},
    {"opened", SWAP_ACCEPTED, P10, ONE_A_DAY, SLICE(OPENED(1))},
    {"opened and paid", SWAP_ACCEPTED, P10, ONE_A_DAY, SLICE(OPENED(1), PAID(2))},
    {"both in block 2", SWAP_ACCEPTED, P10, ONE_A_DAY, SLICE(OPENED(2), PAID(2))},
    {"block 10,000", SWAP_ACCEPTED, P10, ONE_A_DAY, SLICE(0, 2, 16, 39)},
    {"since the parent", SWAP_ACCEPTED, SINCE, ONE_A_DAY, SLICE(OPENED(3), PAID(5))},
    {"three bytes", SWAP_BLOCKS_FIELD, P10, ONE_A_DAY, SLICE(0, 2, 1)},
    {"transaction 2", SWAP_BLOCKS_FIELD, P10, ONE_A_DAY, SLICE(2, 1, 1, 0)},
    {"a contract transaction to Alice", SWAP_BLOCKS_FIELD, P10, ONE_A_DAY, SLICE(0, 0, 1, 0)},
    {"a paying one to nobody's payee", SWAP_BLOCKS_FIELD, P10, ONE_A_DAY, SLICE(OPENED(1), 1, 0, 2, 0)},
    {"29 in the last entry, before 30", SWAP_BLOCKS_FIELD, P10, ONE_A_DAY, SLICE(OPENED(0), PAID(0), 9, 9, 9, 9)},
    {"block 0", SWAP_BLOCKS_ORDER, P10, ONE_A_DAY, SLICE(OPENED(0))},
    {"block 10,001", SWAP_BLOCKS_ORDER, P10, ONE_A_DAY, SLICE(0, 2, 17, 39)},
    {"an entry twice", SWAP_BLOCKS_ORDER, P10, ONE_A_DAY, SLICE(OPENED(1), OPENED(1))},
    {"a lower block", SWAP_BLOCKS_ORDER, P10, ONE_A_DAY, SLICE(OPENED(3), PAID(2))},
    {"a lower number", SWAP_BLOCKS_ORDER, P10, ONE_A_DAY, SLICE(PAID(2), OPENED(2))},
    {"30 in the last entry, before 31", SWAP_BLOCKS_ORDER, P10, ONE_A_DAY, SLICE(PAID(1), PAID(1))},
    {"no parent", SWAP_BLOCKS_LEDGER, P10, ONE_A_DAY, SLICE(PAID(2))},
    {"the lock at its height", SWAP_BLOCKS_LEDGER, P10, ONE_A_DAY, SLICE(OPENED(1), PAID(1))},
    {"the opening again", SWAP_BLOCKS_LEDGER, P10, ONE_A_DAY, SLICE(OPENED(1), OPENED(2))},
    {"the payout again", SWAP_BLOCKS_LEDGER, P10, ONE_A_DAY, SLICE(OPENED(1), PAID(2), PAID(3))},
    {"since the parent, in its block", SWAP_BLOCKS_LEDGER, SINCE, ONE_A_DAY, SLICE(OPENED(3), PAID(3))},
    {"since the parent, one too soon", SWAP_BLOCKS_LEDGER, SINCE, ONE_A_DAY, SLICE(OPENED(3), PAID(4))},
};

int main(void)
{
    for (size_t i = 0; i < sizeof table / sizeof table[0]; i++) {
        const struct checked *c = &table[i];
        uint32_t answer = swap_blocks(c->sheet.bytes, c->sheet.length, c->setup.bytes, c->setup.length, c->list.bytes, c->list.length);

        expect_answer(c->name, answer, c->refusal, 0);
    }
    return finish();
}
