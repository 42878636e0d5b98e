/* Calls outage from C: its refusals and their order, buffers, null pointers, any number of blocks, and known verdicts. */
#include <string.h>

#include "expect.h"

_Static_assert(SWAP_OUTAGE_SIZE == 320, "the size that is documented");

/* What every buffer holds before a call. */
#define FILL 170
#define NEVER 2147483647u

/* The SASwap sheet for 3 blocks per day and more. */
static const uint8_t saswap[] = {
    15,  4, 12, 5, 10,                                                                  /* sizes and masks */
    255, 0, 1,  0, 255, 0, 2, 0, 0, 0, 11, 0, 0, 0, 7, 0, 0, 0, 3, 0,                   /* 0 lock_A to 4 revoke */
    4,   0, 7,  0, 4,   0, 3, 0, 0, 3, 3,  0, 1, 3, 12, 1, 2, 2, 2, 0,                  /* 5 refund_2 to 9 spend_success */
    3,   2, 3,  0, 3,   1, 1, 0, 4, 3, 3,  0, 5, 1, 1, 0, 6, 2, 2, 0,                   /* 10 spend_refund_1_bob to 14 */
    0,   0, 0,  0, 0,   0, 1, 1, 1, 2, 2,  1, 2, 2, 0, 0, 0, 0, 0, 0, 0, 0, 2, 1, 0, 0, 0, 0, 0, 0, /* locks */
};

enum { LOCK_A, LOCK_B, SUCCESS, REVOKE = 4, REFUND_2, TIMEOUT, SPEND_TIMEOUT = 14 };

/* Setups of 144 blocks per day, careful, without and with stealth. */
static const uint8_t careful[] = {144, 0, 2, 0};
static const uint8_t stealthy[] = {144, 0, 2, 1};

/* A journal that steps are added to. */
struct journal {
    uint8_t bytes[8192];
    size_t length;
};

static void add(struct journal *journal, uint8_t kind, uint8_t party, uint8_t t, uint8_t destination)
{
    const uint8_t step[] = {kind, party, t, destination};

    memcpy(journal->bytes + journal->length, step, sizeof step);
    journal->length += sizeof step;
}

static void mine(struct journal *journal, size_t blocks)
{
    while (blocks-- > 0) {
        add(journal, 6, 2, 255, 2);
    }
}

/* Both first shares, lock_A in block 1, lock_B in block 2, and so many blocks mined. */
static void both_locked(struct journal *journal, size_t blocks)
{
    journal->length = 0;
    add(journal, 1, 0, 255, 2);
    add(journal, 1, 1, 255, 2);
    add(journal, 3, 0, LOCK_A, 2);
    add(journal, 5, 2, LOCK_A, 2);
    mine(journal, 1);
    add(journal, 3, 1, LOCK_B, 2);
    add(journal, 5, 2, LOCK_B, 2);
    mine(journal, blocks - 1);
}

static uint32_t number_at(const uint8_t *bytes)
{
    return (uint32_t)bytes[0] | (uint32_t)bytes[1] << 8 | (uint32_t)bytes[2] << 16 | (uint32_t)bytes[3] << 24;
}

static uint32_t outage(const uint8_t *setup, const struct journal *journal, uint32_t blocks, uint8_t *output, size_t length)
{
    return swap_outage(saswap, sizeof saswap, setup, 4, journal->bytes, journal->length, blocks, output, length);
}

/* One transaction's row. */
static void expect_row(const char *name, const uint8_t *rows, unsigned t, unsigned verdict, unsigned payees, uint32_t block,
                       uint32_t deadline)
{
    const uint8_t *row = rows + SWAP_OUTAGE_ROW * t;
    int holds = row[0] == verdict && row[1] == payees && number_at(row + 2) == block && number_at(row + 6) == deadline;

    if (!holds) {
        printf("row %u %u %lu %lu: ", (unsigned)row[0], (unsigned)row[1], (unsigned long)number_at(row + 2),
               (unsigned long)number_at(row + 6));
    }
    expect(name, holds);
}

/* 144 blocks a day, careful, both coins locked, 288 blocks mined. refund_2 has no deadline yet; its soonest one is 577,
 * which 289 blocks cover and 288 do not. */
static void revoke_to_come(void)
{
    static struct journal journal;
    uint8_t rows[SWAP_OUTAGE_SIZE];

    both_locked(&journal, 288);
    expect_answer("288 blocks", outage(careful, &journal, 288, rows, sizeof rows), 0, 0);
    expect_row("refund_2 is left out", rows, REFUND_2, 0, 1, 434, 577);
    expect_answer("289 blocks", outage(careful, &journal, 289, rows, sizeof rows), 0, 0);
    expect_row("refund_2 is covered", rows, REFUND_2, SWAP_OUTAGE_COVERED, 1, 434, 577);
    expect_answer("300 blocks", outage(careful, &journal, 300, rows, sizeof rows), 0, 0);
    expect_row("refund_2 is covered by 300", rows, REFUND_2, SWAP_OUTAGE_COVERED, 1, 434, 577);
    expect_row("lock_A is confirmed", rows, LOCK_A, SWAP_OUTAGE_SETTLED, 3, 1, NEVER);
    expect_row("revoke has no later rival", rows, REVOKE, 0, 3, 289, NEVER);
    expect_row("timeout pays Bob", rows, TIMEOUT, 0, 2, 578, NEVER);
    expect_row("success is passed", rows, SUCCESS, SWAP_OUTAGE_PASSED, 2, 289, 144);
    expect_answer("most blocks", outage(careful, &journal, UINT32_MAX, rows, sizeof rows), 0, 0);
    expect_row("never is a number", rows, TIMEOUT, SWAP_OUTAGE_COVERED, 2, 578, NEVER);
    expect_answer("no blocks, stealth", outage(stealthy, &journal, 0, rows, sizeof rows), 0, 0);
    expect_row("a hand-in is left to lose", rows, SUCCESS, SWAP_OUTAGE_PASSED | SWAP_OUTAGE_COVERED, 2, 289, 144);
}

/* revoke waits in the pool, then is confirmed in block 289. */
static void safe_and_dead(void)
{
    static struct journal journal;
    uint8_t rows[SWAP_OUTAGE_SIZE];

    both_locked(&journal, 288);
    add(&journal, 3, 1, REVOKE, 2);
    expect_answer("revoke waits", outage(careful, &journal, 300, rows, sizeof rows), 0, 0);
    expect_row("revoke is safe", rows, REVOKE, SWAP_OUTAGE_SAFE, 3, 289, NEVER);
    add(&journal, 5, 2, REVOKE, 2);
    mine(&journal, 1);
    expect_answer("revoke is in", outage(careful, &journal, 300, rows, sizeof rows), 0, 0);
    expect_row("revoke is settled", rows, REVOKE, SWAP_OUTAGE_SETTLED, 3, 289, NEVER);
    expect_row("success is dead", rows, SUCCESS, SWAP_OUTAGE_SETTLED, 2, NEVER, 144);
    expect_row("refund_2 is still covered", rows, REFUND_2, SWAP_OUTAGE_COVERED, 1, 434, 577);
}

/* So many blocks cover "never", and one fewer does not: lock_A has no deadline. */
static void never_covered(void)
{
    static const struct journal none;
    uint8_t rows[SWAP_OUTAGE_SIZE];

    expect_answer("all but never", outage(careful, &none, NEVER - 1, rows, sizeof rows), 0, 0);
    expect_row("never is not reached", rows, LOCK_A, 0, 3, 1, NEVER);
    expect_answer("never", outage(careful, &none, NEVER, rows, sizeof rows), 0, 0);
    expect_row("never is covered", rows, LOCK_A, SWAP_OUTAGE_COVERED, 3, 1, NEVER);
}

/* Whether a buffer has its first values from a place on. */
static int kept(const uint8_t *buffer, size_t from, size_t length)
{
    while (from < length && buffer[from] == FILL) {
        from++;
    }
    return from == length;
}

/* Refusals, in their order: the number, the count 0, and no byte changed. */
static void refusals(void)
{
    static const uint8_t half[] = {3, 0, 0};
    static const uint8_t unmet[] = {3, 0, 0, 2};
    static const uint8_t conduct[] = {144, 0, 3, 0};
    uint8_t buffer[SWAP_OUTAGE_SIZE];

    memset(buffer, FILL, sizeof buffer);
    expect_answer("no sheet", swap_outage(NULL, 0, NULL, 0, NULL, 0, 1, NULL, 0), SWAP_SHEET_SHORT, 0);
    expect_answer("no setup", swap_outage(saswap, sizeof saswap, NULL, 0, half, 3, 1, buffer, 9), SWAP_SETUP_BLOCKS, 0);
    expect_answer("conduct 3", swap_outage(saswap, sizeof saswap, conduct, 4, half, 3, 1, buffer, 9), SWAP_SETUP_CONDUCT, 0);
    expect_answer("journal of 3 bytes", swap_outage(saswap, sizeof saswap, careful, 4, half, 3, 1, buffer, 9), SWAP_JOURNAL_LENGTH, 0);
    expect_answer("a refused step", swap_outage(saswap, sizeof saswap, careful, 4, unmet, 4, 1, buffer, 9), SWAP_STEP_CONDUCT, 0);
    expect_answer("no buffer", swap_outage(saswap, sizeof saswap, careful, 4, NULL, 0, 1, NULL, 0), SWAP_BUFFER_SHORT, 0);
    expect_answer("149 bytes", swap_outage(saswap, sizeof saswap, careful, 4, NULL, 0, 1, buffer, 149), SWAP_BUFFER_SHORT, 0);
    expect("refusals change no byte", kept(buffer, 0, sizeof buffer));
    expect_answer("150 bytes", swap_outage(saswap, sizeof saswap, careful, 4, NULL, 0, 1, buffer, 150), SWAP_ACCEPTED, 0);
    expect("bytes after the output keep their values", kept(buffer, 150, sizeof buffer));
    expect_row("the first row", buffer, LOCK_A, 0, 3, 1, NEVER);
    expect_row("the last row", buffer, SPEND_TIMEOUT, 0, 2, 578, NEVER);
}

int main(void)
{
    revoke_to_come();
    safe_and_dead();
    never_covered();
    refusals();
    return finish();
}
