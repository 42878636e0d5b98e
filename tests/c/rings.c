/* Sheets of three from C: the refusals of such a sheet, 32 in every call that has a setup, and a small ring through each call. */
#include <string.h>

#include "expect.h"

/* What every buffer holds before a call. */
#define FILL 170

/* A coin of Alice's, number 0, that Carol can take at once, number 1, or Bob or Carol with Bob's signature a day after it, number 2.
 * Each party holds a signature of its own. */
static const uint8_t ring[] = {131, 3, 0, 1, 2, 4, 255, 0, 1, 0, 0, 4, 4, 0, 0, 6, 2, 0, 0, 0, 0, 0, 2, 1};

static const uint8_t open[] = {1, 0, 0, 0};

/* Alice locks the coin in block 1; Carol takes it by a bump, since the next block is her last. */
static const uint8_t journal[] = {3, 0, 0, 2, 5, 2, 0, 2, 6, 2, 255, 2, 3, 3, 1, 3, 7, 2, 1, 2, 6, 2, 255, 2};
#define LOCKED 12

static uint8_t output[SWAP_LIST_SIZE];

/* Fills the buffer before a call. */
static uint8_t *filled(void)
{
    memset(output, FILL, sizeof output);
    return output;
}

/* The buffer starts with these bytes and is as it was behind them. */
static int is_written(const uint8_t *bytes, size_t length)
{
    size_t i;

    for (i = length; i < sizeof output; i++) {
        if (output[i] != FILL) {
            return 0;
        }
    }
    return length == 0 || memcmp(output, bytes, length) == 0;
}

#define SHEET(name, refusal, ...)                                             \
    do {                                                                      \
        const uint8_t sheet[] = {__VA_ARGS__};                                \
        expect_answer(name, swap_check(sheet, sizeof sheet), (refusal), 0);   \
    } while (0)

static void sheets(void)
{
    expect_answer("the ring", swap_check(ring, sizeof ring), SWAP_ACCEPTED, 0);
    expect_answer("one byte short", swap_check(ring, sizeof ring - 1), SWAP_SHEET_LENGTH, 0);
    SHEET("five bytes", SWAP_SHEET_SHORT, 129, 1, 0, 1, 0);
    SHEET("no transaction", SWAP_SHEET_COUNT, 128, 1, 0, 1, 0, 0);
    SHEET("33 transactions", SWAP_SHEET_COUNT, 161, 1, 0, 1, 0, 0);
    SHEET("127", SWAP_SHEET_COUNT, 127, 1, 0, 1, 0);
    SHEET("Carol's mask beyond s", SWAP_SHEET_SIGNATURES, 129, 1, 0, 1, 0, 2);
    SHEET("head alone", SWAP_SHEET_LENGTH, 129, 1, 0, 1, 0, 0);
    SHEET("parent 0 of entry 0", SWAP_SHEET_PARENT, 129, 1, 0, 1, 0, 0, 0, 7, 1, 0, 0, 0);
    SHEET("payees 8", SWAP_SHEET_ENTRY, 129, 1, 0, 1, 0, 0, 255, 8, 1, 0, 0, 0);
    SHEET("payees 7", SWAP_ACCEPTED, 129, 1, 0, 1, 0, 0, 255, 7, 1, 0, 0, 0);
    SHEET("payees 4 of two parties", SWAP_SHEET_ENTRY, 1, 1, 0, 1, 0, 255, 4, 1, 0, 0, 0);
    SHEET("opening, type 2", SWAP_SHEET_LOCK, 129, 1, 0, 1, 0, 0, 255, 7, 1, 0, 2, 1);
    SHEET("one entry, payees 0", SWAP_SHEET_CHILDREN, 129, 1, 0, 1, 0, 0, 255, 0, 1, 0, 0, 0);
}

/* The number of a setup in every call that has one, with all that is tested later wrong: a journal of 3 bytes, a wrong list, a wrong
 * mask, a step of no bytes. No byte is written. */
static void refused_setup(const char *name, const uint8_t setup[4], uint32_t refusal)
{
    static const uint8_t wrong[] = {9, 9, 9};

    expect_answer(name, swap_run(ring, sizeof ring, setup, 4, wrong, 3), refusal, 0);
    expect_answer(name, swap_list(ring, sizeof ring, setup, 4, wrong, 3, filled(), 3), refusal, 0);
    expect_answer(name, swap_report(ring, sizeof ring, setup, 4, wrong, 3, output, 3), refusal, 0);
    expect_answer(name, swap_page(ring, sizeof ring, setup, 4, wrong, 3, output, 3), refusal, 0);
    expect_answer(name, swap_outage(ring, sizeof ring, setup, 4, wrong, 3, 1, output, 3), refusal, 0);
    expect_answer(name, swap_slack(ring, sizeof ring, setup, 4, wrong, 3, output, 3), refusal, 0);
    expect_answer(name, swap_timelocks(ring, sizeof ring, setup, 4, 0, output, 3), refusal, 0);
    expect_answer(name, swap_blocks(ring, sizeof ring, setup, 4, wrong, 3), refusal, 0);
    expect_answer(name, swap_earliest(ring, sizeof ring, setup, 4, 1, wrong, 3, output, 3), refusal, 0);
    expect_answer(name, swap_ask(ring, sizeof ring, setup, 4, wrong, 3, NULL, 0), refusal, 0);
    expect_answer(name, swap_commit(ring, sizeof ring, setup, 4, NULL, 0, 7, output, 3, 9), refusal, 0);
    expect(name, is_written(NULL, 0));
}

static void setups(void)
{
    static const struct {
        const char *name;
        uint8_t setup[4];
        uint32_t refusal;
    } cases[] = {
        {"loose", {1, 0, 1, 0}, SWAP_SETUP_PARTIES},
        {"careful", {1, 0, 2, 1}, SWAP_SETUP_PARTIES},
        {"32 before 10", {1, 0, 2, 2}, SWAP_SETUP_PARTIES},
        {"9 before 32", {0, 0, 2, 0}, SWAP_SETUP_BLOCKS},
        {"conduct 3", {1, 0, 3, 0}, SWAP_SETUP_CONDUCT},
        {"open, stealth 2", {1, 0, 0, 2}, SWAP_SETUP_CONDUCT},
    };
    size_t i;

    for (i = 0; i < sizeof cases / sizeof cases[0]; i++) {
        refused_setup(cases[i].name, cases[i].setup, cases[i].refusal);
    }
}

/* The desk writes 32 as the swap's own. */
static void desk(void)
{
    static const uint8_t bundle[] = {2, 1, 0, 2, 0, 1, 0, 0, 0, 4, 0, 0, 0, 4, 0, 0, 0, 3, 0, 0, 2, 3, 0, 0, 2};
    static const uint8_t entries[] = {32, 0, 0, 0, 0, 0, 0, 0, 0, 0, 0, 0, 1, 0, 0, 0};

    expect_answer("desk", swap_desk(ring, sizeof ring, bundle, sizeof bundle, filled(), sizeof output), SWAP_ACCEPTED, 0);
    expect("desk", is_written(entries, sizeof entries));
}

static void refused_steps(void)
{
    static const struct {
        const char *name;
        uint8_t step[4];
        uint32_t refusal;
    } cases[] = {
        {"the miner gives nothing", {2, 2, 0, 3}, SWAP_STEP_FIELD},
        {"nobody gives to the miner", {2, 3, 2, 2}, SWAP_STEP_FIELD},
        {"nobody gives to himself", {2, 3, 2, 3}, SWAP_STEP_FIELD},
        {"party 4", {1, 4, 0, 2}, SWAP_STEP_FIELD},
        {"Carol mines no block", {6, 3, 255, 2}, SWAP_STEP_FIELD},
        {"Alice sends nothing to Carol", {3, 0, 1, 3}, SWAP_STEP_FIELD},
        {"Alice is no payee", {1, 3, 1, 0}, SWAP_STEP_FIELD},
        {"the miner shares nothing", {1, 2, 1, 3}, SWAP_STEP_FIELD},
        {"Carol lacks Bob's signature", {2, 3, 1, 0}, SWAP_STEP_CONDUCT},
        {"Carol lacks it for a send", {3, 3, 0, 2}, SWAP_STEP_SIGNATURES},
    };
    size_t i;

    for (i = 0; i < sizeof cases / sizeof cases[0]; i++) {
        expect_answer(cases[i].name, swap_run(ring, sizeof ring, open, 4, cases[i].step, 4), cases[i].refusal, 0);
        expect_answer(cases[i].name, swap_ask(ring, sizeof ring, open, 4, NULL, 0, cases[i].step, 4), cases[i].refusal, 0);
    }
}

/* Alice's steps, Bob's, Carol's, the miner's: 12 after the first block. */
static void list(void)
{
    static const uint8_t steps[] = {
        1, 0, 0, 2, 2, 0, 0, 1, 2, 0, 0, 3,             /* Alice shares, and gives to Bob or Carol */
        1, 1, 2, 1, 1, 1, 2, 3, 2, 1, 1, 0, 2, 1, 1, 3, /* Bob shares for either payee, and gives */
        1, 3, 1, 3, 2, 3, 2, 0, 2, 3, 2, 1, 3, 3, 1, 3, /* Carol shares, gives, and sends 1 */
        6, 2, 255, 2,
    };

    expect_answer("list", swap_list(ring, sizeof ring, open, 4, journal, LOCKED, filled(), sizeof steps), SWAP_ACCEPTED, 12);
    expect("list", is_written(steps, sizeof steps));
    expect_answer("a short list", swap_list(ring, sizeof ring, open, 4, journal, LOCKED, filled(), sizeof steps - 1),
                  SWAP_BUFFER_SHORT, 0);
    expect("a short list", is_written(NULL, 0));
}

/* What the calls say of the position after the whole journal. */
static void position(void)
{
    static const uint8_t report[] = {
        4, 2,   1, 0, 0, 0, 0, 0, 0, 0, 255, 255, 255, 127, 0,   0,   0,   0,   /* the coin is locked; open from the start */
        4, 3,   2, 0, 0, 0, 0, 0, 0, 0, 2,   0,   0,   0,   1,   0,   0,   0,   /* Carol has it; open with its parent's block */
        8, 255, 0, 0, 0, 0, 2, 0, 0, 0, 255, 255, 255, 127, 255, 255, 255, 127, /* number 2 is dead, and was never open */
    };
    static const char page[] = " no  st    payee   block     lock height        deadline                \n"
                               "  0   4 contract       1               0           never                \n"
                               "  1   4    Carol       2               0               2                \n"
                               "  2   8        -       0               2           never                \n";
    static const uint8_t outage[] = {
        1, 6, 1,   0,   0,   0,   255, 255, 255, 127, /* Bob or Carol can be paid below it */
        1, 4, 2,   0,   0,   0,   2,   0,   0,   0,   /* Carol */
        1, 6, 255, 255, 255, 127, 255, 255, 255, 127, /* dead */
    };
    static const uint8_t slack[] = {
        255, 255, 255, 127, 255, 255, 0, 0, /* nothing is left for Alice */
        255, 255, 255, 127, 255, 255, 0, 0, /* nor for Bob */
        16,  39,  0,   0,   255, 255, 0, 0, /* Carol is paid */
    };

    expect_answer("run", swap_run(ring, sizeof ring, open, 4, journal, sizeof journal), SWAP_ACCEPTED, 6);
    expect_answer("report", swap_report(ring, sizeof ring, open, 4, journal, sizeof journal, filled(), sizeof report),
                  SWAP_ACCEPTED, 0);
    expect("report", is_written(report, sizeof report));
    expect_answer("page", swap_page(ring, sizeof ring, open, 4, journal, sizeof journal, filled(), sizeof output),
                  SWAP_ACCEPTED, 0);
    expect("page", is_written((const uint8_t *)page, sizeof page - 1));
    expect_answer("outage", swap_outage(ring, sizeof ring, open, 4, journal, sizeof journal, 3, filled(), sizeof output),
                  SWAP_ACCEPTED, 0);
    expect("outage", is_written(outage, sizeof outage));
    expect_answer("slack", swap_slack(ring, sizeof ring, open, 4, journal, sizeof journal, filled(), sizeof output), SWAP_ACCEPTED, 0);
    expect("slack", is_written(slack, sizeof slack));
}

/* What the calls say of the sheet. */
static void plan(void)
{
    static const uint8_t fields[] = {0, 0, 0, 0, 255, 255, 255, 255, 0, 0, 0, 0, 255, 255, 255, 255, 0, 0, 0, 0, 2, 0, 0, 0};
    static const uint8_t blocks[] = {0, 2, 1, 0, 1, 3, 1, 0};
    static const uint8_t to_bob[] = {0, 2, 1, 0, 1, 1, 1, 0};
    static const uint8_t carol[] = {3, 0, 0, 0};
    static const uint8_t bob[] = {1, 0, 0, 0};

    expect_answer("timelocks", swap_timelocks(ring, sizeof ring, open, 4, 800000, filled(), sizeof output), SWAP_ACCEPTED, 0);
    expect("timelocks", is_written(fields, sizeof fields));
    expect_answer("earliest", swap_earliest(ring, sizeof ring, open, 4, 2, carol, 4, filled(), sizeof output), SWAP_ACCEPTED, 2);
    expect("earliest", is_written(blocks, sizeof blocks));
    expect_answer("Bob is no payee", swap_earliest(ring, sizeof ring, open, 4, 2, bob, 4, filled(), sizeof output),
                  SWAP_ENDING_FIELD, 0);
    expect_answer("blocks", swap_blocks(ring, sizeof ring, open, 4, blocks, sizeof blocks), SWAP_ACCEPTED, 0);
    expect_answer("blocks, to Bob", swap_blocks(ring, sizeof ring, open, 4, to_bob, sizeof to_bob), SWAP_BLOCKS_FIELD, 0);
}

/* Carol asks, and commits. */
static void asks(void)
{
    static const uint8_t step[] = {3, 3, 1, 3};

    expect_answer("ask", swap_ask(ring, sizeof ring, open, 4, journal, LOCKED, step, 4), SWAP_ACCEPTED, 3);
    memcpy(filled(), journal, LOCKED);
    expect_answer("commit", swap_commit(ring, sizeof ring, open, 4, step, 4, 3, output, LOCKED + 4, LOCKED), SWAP_ACCEPTED, 0);
    expect("commit", is_written(journal, LOCKED + 4));
    expect_answer("not twice", swap_commit(ring, sizeof ring, open, 4, step, 4, 3, output, sizeof output, LOCKED + 4),
                  SWAP_COUNT_STALE, 0);
    expect("not twice", is_written(journal, LOCKED + 4));
}

/* On a sheet of two, 3 is neither a party nor a destination. */
static void two_parties(void)
{
    static const uint8_t two[] = {1, 1, 0, 1, 1, 255, 3, 1, 0, 0, 0};
    static const uint8_t steps[][4] = {{3, 3, 0, 3}, {1, 3, 0, 0}, {1, 0, 0, 3}, {2, 0, 0, 3}, {2, 3, 0, 0}};
    size_t i;

    for (i = 0; i < sizeof steps / sizeof steps[0]; i++) {
        expect_answer("no Carol", swap_run(two, sizeof two, open, 4, steps[i], 4), SWAP_STEP_FIELD, 0);
    }
}

int main(void)
{
    sheets();
    setups();
    desk();
    refused_steps();
    list();
    position();
    plan();
    asks();
    two_parties();
    return finish();
}
