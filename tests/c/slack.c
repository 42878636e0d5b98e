/* Calls slack from C: its refusals and their order, buffers, null pointers, and known rows: the calendar's two swaps, a loss that the
 * report's deadline hides, one that no deadline protects from and that careful conduct does, hand-ins that wait in the block alone, a
 * swap that is paid, a ring of three. */
#include <string.h>

#include "expect.h"

_Static_assert(SWAP_SLACK_SIZE == 24, "the size that is documented");

/* What every buffer holds before a call. */
#define FILL 170
#define MOST SWAP_SLACK_MOST

/* The SASwap sheet for 3 blocks per day and more. */
static const uint8_t saswap[] = {
    15,  4, 12, 5, 10,                                                                  /* sizes and masks */
    255, 0, 1,  0, 255, 0, 2, 0, 0, 0, 11, 0, 0, 0, 7, 0, 0, 0, 3, 0,                   /* 0 lock_A to 4 revoke */
    4,   0, 7,  0, 4,   0, 3, 0, 0, 3, 3,  0, 1, 3, 12, 1, 2, 2, 2, 0,                  /* 5 refund_2 to 9 spend_success */
    3,   2, 3,  0, 3,   1, 1, 0, 4, 3, 3,  0, 5, 1, 1, 0, 6, 2, 2, 0,                   /* 10 spend_refund_1_bob to 14 */
    0,   0, 0,  0, 0,   0, 1, 1, 1, 2, 2,  1, 2, 2, 0, 0, 0, 0, 0, 0, 0, 0, 2, 1, 0, 0, 0, 0, 0, 0, /* locks */
};

enum { LOCK_A, LOCK_B, SUCCESS, REFUND_1, REVOKE, REFUND_2, TIMEOUT, SPEND_B = 8, SPEND_SUCCESS, SPEND_REFUND_2 = 13 };

/* A ring of three coins: Alice's to Bob, Bob's to Carol, Carol's to Alice, claimed with Alice's secret, or taken back by the owner:
 * Carol's from 2 days on, Bob's from 3, Alice's from 4. */
static const uint8_t ring[] = {
    137, 4, 8, 9, 2, 4,                                   /* sizes and masks */
    255, 0, 1, 0, 255, 0, 2, 0, 255, 0, 4, 0,             /* the coins of Alice, Bob and Carol */
    0,   2, 10, 0, 0, 1, 1, 0,                            /* 3 Bob claims Alice's coin, 4 Alice takes it back */
    1,   4, 12, 0, 1, 2, 2, 0,                            /* 5 Carol claims Bob's, 6 Bob takes it back */
    2,   1, 9,  0, 2, 4, 4, 0,                            /* 7 Alice claims Carol's, 8 Carol takes it back */
    0,   0, 0,  0, 0, 0, 0, 0, 1, 4, 0, 0, 1, 3, 0, 0, 1, 2, /* locks */
};

/* One coin that both can sign for, to whom each likes. */
static const uint8_t race[] = {
    2, 1, 0, 1, 1,                  /* sizes and masks */
    255, 0, 1, 0, 0, 3, 1, 0,       /* 0 Alice's coin, 1 to Alice or Bob */
    0,   0, 0, 0,                   /* locks */
};

/* Setups: careful at 144 blocks per day, with stealth too, loose at 3, careful at 3, open at 144, and with stealth too. */
static const uint8_t careful[] = {144, 0, SWAP_CAREFUL, 0};
static const uint8_t careful_stealth[] = {144, 0, SWAP_CAREFUL, 1};
static const uint8_t loose[] = {3, 0, SWAP_LOOSE, 0};
static const uint8_t quick[] = {3, 0, SWAP_CAREFUL, 0};
static const uint8_t free_of_conduct[] = {144, 0, SWAP_OPEN, 0};
static const uint8_t free_stealth[] = {144, 0, SWAP_OPEN, 1};

/* A journal that steps are added to. */
struct journal {
    uint8_t bytes[8192];
    size_t length;
};

static struct journal journal;
static uint8_t rows[SWAP_SLACK_SIZE];

static void add(uint8_t kind, uint8_t party, uint8_t t, uint8_t destination)
{
    const uint8_t step[] = {kind, party, t, destination};

    memcpy(journal.bytes + journal.length, step, sizeof step);
    journal.length += sizeof step;
}

static void mine(size_t blocks)
{
    while (blocks-- > 0) {
        add(SWAP_MINE, SWAP_MINER, SWAP_NONE, SWAP_CONTRACT);
    }
}

/* A transaction to the pool, included, and so many blocks mined. */
static void confirm(uint8_t party, uint8_t t, uint8_t destination, size_t blocks)
{
    add(SWAP_SEND, party, t, destination);
    add(SWAP_INCLUDE, SWAP_MINER, t, SWAP_CONTRACT);
    mine(blocks);
}

/* Both first shares, lock_A in block 1, lock_B in block 2, and so many blocks mined. */
static void both_locked(size_t blocks)
{
    journal.length = 0;
    add(SWAP_SHARE, SWAP_ALICE, SWAP_NONE, SWAP_CONTRACT);
    add(SWAP_SHARE, SWAP_BOB, SWAP_NONE, SWAP_CONTRACT);
    confirm(SWAP_ALICE, LOCK_A, SWAP_CONTRACT, 1);
    confirm(SWAP_BOB, LOCK_B, SWAP_CONTRACT, blocks - 1);
}

static void expect_accepted(const char *name, const uint8_t setup[4])
{
    memset(rows, FILL, sizeof rows);
    expect_answer(name, swap_slack(saswap, sizeof saswap, setup, 4, journal.bytes, journal.length, rows, sizeof rows),
                  SWAP_ACCEPTED, 0);
}

/* The row of the party in this place. */
static void expect_row(const char *name, unsigned place, uint32_t blocks, unsigned t, unsigned destination, unsigned due)
{
    const uint8_t *row = rows + SWAP_SLACK_ROW * place;
    uint32_t found = swap_number(row + SWAP_SLACK_BLOCKS);
    int holds = found == blocks && row[SWAP_SLACK_TRANSACTION] == t && row[SWAP_SLACK_DESTINATION] == destination &&
                row[SWAP_SLACK_DUE] == due && row[7] == 0;

    if (!holds) {
        printf("row %lu %u %u %u: ", (unsigned long)found, (unsigned)row[4], (unsigned)row[5], (unsigned)row[6]);
    }
    expect(name, holds);
}

static void expect_none(const char *name, unsigned place, uint32_t blocks)
{
    expect_row(name, place, blocks, SWAP_NONE, SWAP_NONE, 0);
}

/* Bob's revoke is in block 300, 444 blocks are mined: Alice has refund_2 in blocks 445 to 588, and Bob's timeout can come from 589
 * on. She can be off for 143 blocks, then she has to send it; a block later the coin can be Bob's. */
static void revoked(void)
{
    both_locked(299);
    confirm(SWAP_BOB, REVOKE, SWAP_CONTRACT, 145);
    expect_accepted("revoked", careful);
    expect_row("Alice can be off for 143 blocks", 0, 143, REFUND_2, SWAP_CONTRACT, 0);
    expect_row("Bob has his timeout, or coin B", 1, MOST, TIMEOUT, SWAP_CONTRACT, 0);
    expect("no third row", rows[16] == FILL);
    mine(143);
    expect_accepted("143 blocks later", careful);
    expect_row("Alice has to send refund_2", 0, 0, REFUND_2, SWAP_CONTRACT, 1);
    add(SWAP_SEND, SWAP_ALICE, REFUND_2, SWAP_CONTRACT);
    expect_accepted("refund_2 is sent", careful);
    expect_row("Alice can be off", 0, MOST, REFUND_2, SWAP_CONTRACT, 0);
    expect_row("Bob now counts on coin B", 1, MOST, SPEND_B, SWAP_BOB, 0);
    journal.length -= SWAP_STEP_SIZE;
    mine(1);
    expect_accepted("144 blocks later", careful);
    expect_none("nothing of Alice's is secured", 0, SWAP_NEVER);
}

/* No revoke yet, 288 blocks are mined. The report has no deadline for refund_2, and still 289 blocks can cost coin A: revoke in block
 * 289, timeout in 578. While Alice waits it stays so, since that clock starts with revoke. */
static void standing(void)
{
    uint8_t report[SWAP_REPORT_SIZE];

    both_locked(288);
    expect_answer("report", swap_report(saswap, sizeof saswap, careful, 4, journal.bytes, journal.length, report, sizeof report),
                  SWAP_ACCEPTED, 0);
    expect("the report hides it",
           swap_number(report + SWAP_REPORT_ROW * REFUND_2 + SWAP_REPORT_DEADLINE) == SWAP_NEVER);
    expect_accepted("standing", careful);
    expect_row("Alice can be off for two days", 0, 288, REVOKE, SWAP_CONTRACT, 0);
    expect_row("Bob can be off", 1, MOST, REVOKE, SWAP_CONTRACT, 0);
    mine(288);
    expect_accepted("two days later", careful);
    expect_row("Alice still can", 0, 288, REVOKE, SWAP_CONTRACT, 0);
}

/* Loose: Alice has shared success, Bob has given secretBob, so success has to come before refund_1. A block later Alice sends
 * refund_1, which shows her secret: each could take coin B, whose spend has no deadline. The outage call has nothing to say of it,
 * and nothing of Bob's is secured. */
static void unprotected(void)
{
    uint8_t outage[SWAP_OUTAGE_SIZE];

    both_locked(2);
    expect_accepted("both are locked", loose);
    expect_row("Alice can be off for 10 blocks", 0, 10, REVOKE, SWAP_CONTRACT, 0);
    expect_row("Bob can be off", 1, MOST, REVOKE, SWAP_CONTRACT, 0);
    add(SWAP_SHARE, SWAP_ALICE, SUCCESS, SWAP_CONTRACT);
    add(SWAP_GIVE, SWAP_BOB, 3, SWAP_ALICE);
    expect_accepted("secretBob is given", loose);
    expect_row("Alice has coin B", 0, MOST, SPEND_B, SWAP_ALICE, 0);
    expect_row("Bob has to send success", 1, 0, SUCCESS, SWAP_CONTRACT, 1);
    mine(1);
    add(SWAP_SEND, SWAP_ALICE, REFUND_1, SWAP_CONTRACT);
    expect_accepted("refund_1 is sent", loose);
    expect_row("Alice has refund_1", 0, MOST, REFUND_1, SWAP_CONTRACT, 0);
    expect_none("nothing of Bob's is secured", 1, SWAP_NEVER);
    expect_answer("outage", swap_outage(saswap, sizeof saswap, loose, 4, journal.bytes, journal.length, 1, outage, sizeof outage),
                  SWAP_ACCEPTED, 0);
    expect("no deadline of spend_B",
           outage[SWAP_OUTAGE_ROW * SPEND_B + SWAP_OUTAGE_VERDICT] == 0 &&
               swap_number(outage + SWAP_OUTAGE_ROW * SPEND_B + SWAP_OUTAGE_SOONEST_DEADLINE) == SWAP_NEVER);
}

/* The same under careful conduct: Alice no longer sends refund_1, nor refund_2, so Bob need not hurry. */
static void protected_by_conduct(void)
{
    both_locked(2);
    add(SWAP_SHARE, SWAP_ALICE, SUCCESS, SWAP_CONTRACT);
    add(SWAP_GIVE, SWAP_BOB, 3, SWAP_ALICE);
    expect_accepted("secretBob is given, careful", quick);
    expect_row("Alice has coin B, careful", 0, MOST, SPEND_B, SWAP_ALICE, 0);
    expect_row("Bob can be off, careful", 1, MOST, REVOKE, SWAP_CONTRACT, 0);
}

/* With stealth: what is handed in waits in the block alone. Where nothing can throw it out before the next block it counts as
 * confirmed, and what comes below it is counted on. */
static void handed_in(void)
{
    journal.length = 0;
    add(SWAP_SHARE, SWAP_ALICE, SWAP_NONE, SWAP_CONTRACT);
    add(SWAP_SHARE, SWAP_BOB, SWAP_NONE, SWAP_CONTRACT);
    add(SWAP_HAND_IN, SWAP_ALICE, LOCK_A, SWAP_CONTRACT);
    expect_accepted("lock_A is handed in", careful_stealth);
    expect_row("Alice can be off, lock_A in the block", 0, 576, LOCK_A, SWAP_CONTRACT, 0);
    expect_row("Bob counts on revoke, below lock_A", 1, MOST, REVOKE, SWAP_CONTRACT, 0);
    both_locked(299);
    confirm(SWAP_BOB, REVOKE, SWAP_CONTRACT, 145);
    mine(143);
    expect_accepted("stealth, refund_2 is due", careful_stealth);
    expect_row("Alice has to send refund_2, stealth", 0, 0, REFUND_2, SWAP_CONTRACT, 1);
    add(SWAP_HAND_IN, SWAP_ALICE, REFUND_2, SWAP_CONTRACT);
    expect_accepted("refund_2 is handed in", careful_stealth);
    expect_row("Alice counts on what is below refund_2", 0, MOST, SPEND_REFUND_2, SWAP_ALICE, 0);
    expect_row("Bob has his timeout, or coin B, stealth", 1, MOST, TIMEOUT, SWAP_CONTRACT, 0);
}

/* A race for one coin is nobody's; a payout that is handed in, with no rival due, is as good as paid. */
static void raced(void)
{
    journal.length = 0;
    confirm(SWAP_ALICE, 0, SWAP_CONTRACT, 1);
    expect_answer("a race", swap_slack(race, sizeof race, free_stealth, 4, journal.bytes, journal.length, rows, sizeof rows),
                  SWAP_ACCEPTED, 0);
    expect_none("the coin is not Alice's", 0, SWAP_NEVER);
    expect_none("nor Bob's", 1, SWAP_NEVER);
    add(SWAP_HAND_IN, SWAP_ALICE, 1, SWAP_ALICE);
    expect_answer("a payout is handed in",
                  swap_slack(race, sizeof race, free_stealth, 4, journal.bytes, journal.length, rows, sizeof rows), SWAP_ACCEPTED, 0);
    expect_none("the block being filled pays Alice", 0, MOST);
    expect_none("nothing of Bob's is left", 1, SWAP_NEVER);
}

/* Success, and each takes the other's coin; a party that is paid counts on nothing. */
static void paid(void)
{
    both_locked(2);
    add(SWAP_SHARE, SWAP_ALICE, SUCCESS, SWAP_CONTRACT);
    add(SWAP_SEND, SWAP_BOB, SUCCESS, SWAP_CONTRACT);
    add(SWAP_BUMP, SWAP_MINER, SUCCESS, SWAP_CONTRACT);
    mine(1);
    confirm(SWAP_BOB, SPEND_SUCCESS, SWAP_BOB, 1);
    expect_accepted("success", quick);
    expect_row("Alice has coin B to take", 0, MOST, SPEND_B, SWAP_ALICE, 0);
    expect_none("Bob is paid", 1, MOST);
    confirm(SWAP_ALICE, SPEND_B, SWAP_ALICE, 1);
    expect_accepted("the end", quick);
    expect_none("Alice is paid", 0, MOST);
    expect_none("Bob is paid still", 1, MOST);
}

/* The coins of a ring are locked in blocks 1 to 3, and so many blocks are mined. Whatever Alice does Carol has until block 432, and
 * Bob until block 576: Alice's claim shows the secret. */
static void ring_of_three(void)
{
    journal.length = 0;
    confirm(SWAP_ALICE, 0, SWAP_CONTRACT, 1);
    confirm(SWAP_BOB, 1, SWAP_CONTRACT, 1);
    confirm(SWAP_CAROL, 2, SWAP_CONTRACT, 248);
    memset(rows, FILL, sizeof rows);
    expect_answer("a ring, one byte short",
                  swap_slack(ring, sizeof ring, free_of_conduct, 4, journal.bytes, journal.length, rows, 23),
                  SWAP_BUFFER_SHORT, 0);
    expect("no row", rows[0] == FILL && rows[22] == FILL);
    expect_answer("a ring", swap_slack(ring, sizeof ring, free_of_conduct, 4, journal.bytes, journal.length, rows, 24),
                  SWAP_ACCEPTED, 0);
    expect_row("Alice can be off: her coin waits for her", 0, MOST, 4, SWAP_ALICE, 0);
    expect_row("Bob has until block 576", 1, 325, 6, SWAP_BOB, 0);
    expect_row("Carol has until block 432", 2, 181, 8, SWAP_CAROL, 0);
    expect_answer("a careful ring", swap_slack(ring, sizeof ring, careful, 4, NULL, 0, rows, 24), SWAP_SETUP_PARTIES, 0);
}

/* Whether a buffer has its first values from a place on. */
static int kept(const uint8_t *buffer, size_t from, size_t length)
{
    while (from < length && buffer[from] == FILL) {
        from++;
    }
    return from == length;
}

/* Refusals, in their order: the number, the count 0, and no byte changed. */
static void refusals(void)
{
    static const uint8_t half[] = {3, 0, 0};
    static const uint8_t unmet[] = {3, 0, 0, 2};
    static const uint8_t conduct[] = {144, 0, 3, 0};
    uint8_t buffer[40];

    memset(buffer, FILL, sizeof buffer);
    expect_answer("no sheet", swap_slack(NULL, 0, NULL, 0, NULL, 0, NULL, 0), SWAP_SHEET_SHORT, 0);
    expect_answer("no setup", swap_slack(saswap, sizeof saswap, NULL, 0, half, 3, buffer, 9), SWAP_SETUP_BLOCKS, 0);
    expect_answer("conduct 3", swap_slack(saswap, sizeof saswap, conduct, 4, half, 3, buffer, 9), SWAP_SETUP_CONDUCT, 0);
    expect_answer("journal of 3 bytes", swap_slack(saswap, sizeof saswap, careful, 4, half, 3, buffer, 9), SWAP_JOURNAL_LENGTH, 0);
    expect_answer("a refused step", swap_slack(saswap, sizeof saswap, careful, 4, unmet, 4, buffer, 9), SWAP_STEP_CONDUCT, 0);
    expect_answer("no buffer", swap_slack(saswap, sizeof saswap, careful, 4, NULL, 0, NULL, 0), SWAP_BUFFER_SHORT, 0);
    expect_answer("15 bytes", swap_slack(saswap, sizeof saswap, careful, 4, NULL, 0, buffer, 15), SWAP_BUFFER_SHORT, 0);
    expect("refusals change no byte", kept(buffer, 0, sizeof buffer));
    expect_answer("16 bytes", swap_slack(saswap, sizeof saswap, careful, 4, NULL, 0, buffer, 16), SWAP_ACCEPTED, 0);
    expect("bytes after the output keep their values", kept(buffer, 16, sizeof buffer));
    memcpy(rows, buffer, 16);
    expect_none("nothing is secured before the first step", 0, SWAP_NEVER);
    expect_none("for Bob neither", 1, SWAP_NEVER);
}

int main(void)
{
    revoked();
    standing();
    unprotected();
    protected_by_conduct();
    handed_in();
    raced();
    paid();
    ring_of_three();
    refusals();
    return finish();
}
