/* The header's constants and names against the library: swaps that are written and read by them alone. */
#include <string.h>

#include "expect.h"

/* Two signatures. The opening needs Alice's; its rivals pay Alice at once and either after a day. */
static const uint8_t sheet[] = {
    3, 2, 0, 1, 2,                               /* transactions, signatures, secrets, held by Alice, held by Bob */
    SWAP_NONE, 0, 1, 0,                          /* an opening */
    0, SWAP_PAYS_ALICE, 1, 0,                    /* pays Alice */
    0, SWAP_PAYS_ALICE | SWAP_PAYS_BOB, 2, 0,    /* pays either, needs Bob's signature */
    SWAP_UNLOCKED, 0, SWAP_ABSOLUTE, 2, SWAP_SINCE_PARENT, 1,
};
static const uint8_t setup[SWAP_SETUP_SIZE] = {1, 0, SWAP_OPEN, 1};

#define STEPS(count) (SWAP_STEP_SIZE * (count))

static const uint8_t journal[] = {
    SWAP_SHARE, SWAP_BOB, 2, SWAP_ALICE,         /* Bob's signature on the payout to Alice */
    SWAP_GIVE, SWAP_BOB, 1, SWAP_ALICE,          /* and then for all */
    SWAP_SEND, SWAP_ALICE, 0, SWAP_CONTRACT,
    SWAP_INCLUDE, SWAP_MINER, 0, SWAP_CONTRACT,
    SWAP_MINE, SWAP_MINER, SWAP_NONE, SWAP_CONTRACT,
    SWAP_MINE, SWAP_MINER, SWAP_NONE, SWAP_CONTRACT,
    SWAP_HAND_IN, SWAP_BOB, 2, SWAP_BOB,
    SWAP_MINE, SWAP_MINER, SWAP_NONE, SWAP_CONTRACT,
};

/* Two signatures, Alice's and Carol's. A coin of Alice's, which Bob or Carol gets with Carol's. */
static const uint8_t ring[] = {
    SWAP_THREE_PARTIES + 2, 2, 0, 1, 0, 2,       /* transactions, signatures, secrets, held by Alice, by Bob, by Carol */
    SWAP_NONE, 0, 1, 0,                          /* an opening */
    0, SWAP_PAYS_BOB | SWAP_PAYS_CAROL, 2, 0,    /* pays Bob or Carol */
    SWAP_UNLOCKED, 0, SWAP_UNLOCKED, 0,
};

static const uint8_t ring_journal[] = {
    SWAP_GIVE, SWAP_CAROL, 1, SWAP_BOB,
    SWAP_SEND, SWAP_ALICE, 0, SWAP_CONTRACT,
    SWAP_INCLUDE, SWAP_MINER, 0, SWAP_CONTRACT,
    SWAP_MINE, SWAP_MINER, SWAP_NONE, SWAP_CONTRACT,
    SWAP_SEND, SWAP_CAROL, 1, SWAP_CAROL,
    SWAP_INCLUDE, SWAP_MINER, 1, SWAP_CONTRACT,
    SWAP_MINE, SWAP_MINER, SWAP_NONE, SWAP_CONTRACT,
};

static uint8_t report[SWAP_REPORT_SIZE];

static uint32_t ask_report(size_t steps)
{
    return swap_report(sheet, sizeof sheet, setup, sizeof setup, journal, STEPS(steps), report, sizeof report);
}

/* A row of the report, by its fields. */
static void expect_row(const char *name, unsigned t, unsigned status, unsigned payee, uint32_t block, uint32_t lock,
                       uint32_t deadline)
{
    const uint8_t *row = report + SWAP_REPORT_ROW * t;

    expect(name, row[SWAP_REPORT_STATUS] == status && row[SWAP_REPORT_PAYEE] == payee &&
                     swap_number(row + SWAP_REPORT_BLOCK) == block &&
                     swap_number(row + SWAP_REPORT_LOCK_HEIGHT) == lock &&
                     swap_number(row + SWAP_REPORT_DEADLINE) == deadline);
}

static void expect_reports(void)
{
    const uint8_t bump[] = {SWAP_BUMP, SWAP_MINER, 0, SWAP_CONTRACT};

    expect_answer("a bump", swap_run(sheet, sizeof sheet, setup, sizeof setup, bump, sizeof bump), SWAP_STEP_NOT_OWED, 0);
    expect_answer("three steps", ask_report(3), SWAP_ACCEPTED, 0);
    expect_row("sent", 0, SWAP_IN_POOL, SWAP_NONE, 0, 0, SWAP_NEVER);
    expect_row("locked", 1, 0, SWAP_NONE, 0, 2, SWAP_NEVER);
    expect_row("locked since its parent", 2, 0, SWAP_NONE, 0, SWAP_NEVER, SWAP_NEVER);
    expect_answer("four steps", ask_report(4), SWAP_ACCEPTED, 0);
    expect_row("included", 0, SWAP_IN_POOL | SWAP_IN_BLOCK, SWAP_NONE, 0, 0, SWAP_NEVER);
    expect_answer("all steps", ask_report(8), SWAP_ACCEPTED, 0);
    expect_row("confirmed", 0, SWAP_CONFIRMED, SWAP_CONTRACT, 1, 0, SWAP_NEVER);
    expect_row("dead", 1, SWAP_DEAD, SWAP_NONE, 0, 2, SWAP_NEVER);
    expect_row("paid", 2, SWAP_CONFIRMED, SWAP_BOB, 3, 2, SWAP_NEVER);
}

/* A sheet of three: Carol gives, and is paid. */
static void expect_ring(void)
{
    const uint8_t careful[SWAP_SETUP_SIZE] = {1, 0, SWAP_CAREFUL, 1};
    uint8_t output[SWAP_OUTAGE_SIZE];

    expect_answer("three parties", swap_report(ring, sizeof ring, setup, sizeof setup, ring_journal, sizeof ring_journal,
                                               report, sizeof report),
                  SWAP_ACCEPTED, 0);
    expect_row("to Carol", 1, SWAP_CONFIRMED, SWAP_CAROL, 2, 0, SWAP_NEVER);
    expect_answer("their outage", swap_outage(ring, sizeof ring, setup, sizeof setup, NULL, 0, 1, output, sizeof output),
                  SWAP_ACCEPTED, 0);
    expect("their payees", output[SWAP_OUTAGE_PAYEES] == (SWAP_PAYS_BOB | SWAP_PAYS_CAROL));
    expect_answer("three careful parties", swap_run(ring, sizeof ring, careful, sizeof careful, NULL, 0),
                  SWAP_SETUP_PARTIES, 0);
    expect_answer("Carol on a sheet of two", swap_run(sheet, sizeof sheet, setup, sizeof setup, ring_journal, STEPS(1)),
                  SWAP_STEP_FIELD, 0);
}

/* The outage's rows before anything is confirmed: the second payout can oust the first. */
static void expect_outage(void)
{
    uint8_t output[SWAP_OUTAGE_SIZE];
    const uint8_t *row = output + SWAP_OUTAGE_ROW;

    expect_answer("outage",
                  swap_outage(sheet, sizeof sheet, setup, sizeof setup, journal, STEPS(3), 1, output, sizeof output),
                  SWAP_ACCEPTED, 0);
    expect("payees below the opening", output[SWAP_OUTAGE_PAYEES] == (SWAP_PAYS_ALICE | SWAP_PAYS_BOB));
    expect("the opening is safe", output[SWAP_OUTAGE_VERDICT] == SWAP_OUTAGE_SAFE);
    expect("the opening's block", swap_number(output + SWAP_OUTAGE_SOONEST_BLOCK) == 1);
    expect("the payout's payees", row[SWAP_OUTAGE_PAYEES] == SWAP_PAYS_ALICE);
    expect("the payout's block", swap_number(row + SWAP_OUTAGE_SOONEST_BLOCK) == 3);
    expect("the opening's deadline", swap_number(output + SWAP_OUTAGE_SOONEST_DEADLINE) == SWAP_NEVER);
}

/* The slack of a ring without Carol's gift: she alone can take the coin. With it Bob can as well, so nothing is hers or his. */
static void expect_slack(void)
{
    uint8_t output[SWAP_SLACK_SIZE];
    const uint8_t *carol = output + 2 * SWAP_SLACK_ROW;

    expect_answer("slack",
                  swap_slack(ring, sizeof ring, setup, sizeof setup, ring_journal + STEPS(1), STEPS(3), output, sizeof output),
                  SWAP_ACCEPTED, 0);
    expect("nothing is Alice's", swap_number(output + SWAP_SLACK_BLOCKS) == SWAP_NEVER);
    expect("Carol can be off", swap_number(carol + SWAP_SLACK_BLOCKS) == SWAP_SLACK_MOST);
    expect("what she counts on", carol[SWAP_SLACK_TRANSACTION] == 1 && carol[SWAP_SLACK_DESTINATION] == SWAP_CAROL);
    expect("it need not be sent now", carol[SWAP_SLACK_DUE] == 0);
    expect_answer("slack after a gift", swap_slack(ring, sizeof ring, setup, sizeof setup, ring_journal, STEPS(4), output, sizeof output),
                  SWAP_ACCEPTED, 0);
    expect("nothing is Carol's", swap_number(carol + SWAP_SLACK_BLOCKS) == SWAP_NEVER && carol[SWAP_SLACK_TRANSACTION] == SWAP_NONE);
}

static void expect_fields(void)
{
    uint8_t output[SWAP_TIMELOCKS_SIZE];
    const uint8_t *last = output + SWAP_TIMELOCKS_ROW * 2;

    expect_answer("timelocks",
                  swap_timelocks(sheet, sizeof sheet, setup, sizeof setup, 100, output, sizeof output), SWAP_ACCEPTED, 0);
    expect("an absolute lock", swap_number(output + SWAP_TIMELOCKS_ROW + SWAP_TIMELOCKS_NLOCKTIME) == 102);
    expect("a lock since the parent", swap_number(last + SWAP_TIMELOCKS_NSEQUENCE) == 2);
}

/* A desk of one swap whose journal is refused at its third step. */
static void expect_desk(void)
{
    uint8_t bundle[1 + SWAP_SETUP_SIZE + 4 + STEPS(3)] = {1, 1, 0, SWAP_OPEN, 1, STEPS(3), 0, 0, 0};
    uint8_t output[SWAP_DESK_SIZE];

    memcpy(bundle + 9, journal, STEPS(2));
    memcpy(bundle + 9 + STEPS(2), journal + STEPS(3), STEPS(1));
    expect_answer("desk", swap_desk(sheet, sizeof sheet, bundle, sizeof bundle, output, sizeof output), SWAP_ACCEPTED,
                  0);
    expect("its refusal", swap_number(output + SWAP_DESK_REFUSAL) == SWAP_STEP_POOL);
    expect("its count", swap_number(output + SWAP_DESK_COUNT) == 2);
}

/* The largest valid lengths pass, and a byte more does not. */
static void expect_sizes(void)
{
    static uint8_t large[SWAP_JOURNAL_SIZE + SWAP_STEP_SIZE];
    uint8_t wide[SWAP_SHEET_SIZE + 1] = {SWAP_THREE_PARTIES + SWAP_TRANSACTIONS, 1, 0, 1, 0, 0};

    for (size_t t = 0; t < SWAP_TRANSACTIONS; t++) {
        wide[6 + 4 * t] = SWAP_NONE;
        wide[7 + 4 * t] = SWAP_PAYS_ALICE;
        wide[8 + 4 * t] = 1;
    }
    expect_answer("the largest sheet", swap_check(wide, SWAP_SHEET_SIZE), SWAP_ACCEPTED, 0);
    expect_answer("a larger one", swap_check(wide, SWAP_SHEET_SIZE + 1), SWAP_SHEET_LENGTH, 0);
    expect_answer("the largest journal",
                  swap_run(sheet, sizeof sheet, setup, sizeof setup, large, SWAP_JOURNAL_SIZE), SWAP_STEP_FIELD, 0);
    expect_answer("a larger one", swap_run(sheet, sizeof sheet, setup, sizeof setup, large, sizeof large),
                  SWAP_JOURNAL_LENGTH, 0);
    expect_answer("a longer setup", swap_run(sheet, sizeof sheet, large, SWAP_SETUP_SIZE + 1, NULL, 0),
                  SWAP_SETUP_BLOCKS, 0);
}

static void expect_names(void)
{
    expect("a name", strcmp(swap_refusal_name(SWAP_REFUSAL(swap_check(NULL, 0))), "SWAP_SHEET_SHORT") == 0);
    expect("its words", strcmp(swap_refusal_words(1), "sheet under 5 bytes, or 6 of three parties") == 0);
    expect("the name of 32", strcmp(swap_refusal_name(32), "SWAP_SETUP_PARTIES") == 0);
    expect("the last name", strcmp(swap_refusal_name(SWAP_COUNT_STALE), "SWAP_COUNT_STALE") == 0);
    expect("no name", strcmp(swap_refusal_name(65535), "unknown") == 0);
    expect("no words", strcmp(swap_refusal_words(65535), "not in the refusal table") == 0);
}

static void expect_version(void)
{
    unsigned first = 0;
    unsigned second = 100;
    unsigned third = 100;

    expect("three numbers", sscanf(SWAP_VERSION, "%u.%u.%u", &first, &second, &third) == 3);
    expect("the version as one number", 10000 * first + 100 * second + third == SWAP_VERSION_NUMBER);
    expect("no part reaches the next", second < 100 && third < 100);
    expect("the library's own", swap_version() == SWAP_VERSION_NUMBER);
#if SWAP_VERSION_NUMBER < 20000
    expect("the preprocessor takes it", 0);
#else
    expect("the preprocessor takes it", 1);
#endif
}

int main(void)
{
    expect_version();
    expect_reports();
    expect_ring();
    expect_outage();
    expect_slack();
    expect_fields();
    expect_desk();
    expect_sizes();
    expect_names();
    return finish();
}
