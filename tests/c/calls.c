/* Calls run, list and report from C: every kind of bad input in document 01's table gives its number and changes no
 * buffer; short buffers, null pointers, the largest list, and P10. */
#include <string.h>

#include "expect.h"

_Static_assert(SWAP_LIST_SIZE == 1988 && SWAP_REPORT_SIZE == 576, "the sizes that are documented");

/* What every buffer holds before a call. */
#define FILL 170

struct slice {
    const uint8_t *bytes;
    size_t length;
};

struct inputs {
    struct slice sheet;
    struct slice setup;
    struct slice journal;
};

#define EMPTY {NULL, 0}
#define SLICE(...) {(const uint8_t[]){__VA_ARGS__}, sizeof(const uint8_t[]){__VA_ARGS__}}
#define WHOLE(array) {array, sizeof array}

/* The SASwap sheet for 3 blocks per day and more. */
static const uint8_t saswap[] = {
    15,  4, 12, 5, 10,                                                                  /* sizes and masks */
    255, 0, 1,  0, 255, 0, 2, 0, 0, 0, 11, 0, 0, 0, 7, 0, 0, 0, 3, 0,                   /* 0 lock_A to 4 revoke */
    4,   0, 7,  0, 4,   0, 3, 0, 0, 3, 3,  0, 1, 3, 12, 1, 2, 2, 2, 0,                  /* 5 refund_2 to 9 spend_success */
    3,   2, 3,  0, 3,   1, 1, 0, 4, 3, 3,  0, 5, 1, 1, 0, 6, 2, 2, 0,                   /* 10 spend_refund_1_bob to 14 */
    0,   0, 0,  0, 0,   0, 1, 1, 1, 2, 2,  1, 2, 2, 0, 0, 0, 0, 0, 0, 0, 0, 2, 1, 0, 0, 0, 0, 0, 0, /* locks */
};

/* The sheet of P10. */
#define P10 SLICE(2, 2, 0, 1, 2, 255, 0, 1, 0, 0, 2, 2, 0, 0, 0, 1, 1)

/* Setups of 3 blocks per day: open with and without stealth, and careful. */
#define OPEN SLICE(3, 0, 0, 1)
#define NO_STEALTH SLICE(3, 0, 0, 0)
#define CAREFUL SLICE(3, 0, 2, 1)

/* Steps. */
#define SEND_LOCK_A 3, 0, 0, 2
#define MINE 6, 2, 255, 2
#define LOCK_A SEND_LOCK_A, 5, 2, 0, 2, MINE
#define GIVE_SIG_ALICE 2, 0, 0, 1
#define SEND_SUCCESS 3, 1, 2, 2

/* A case of the refusal table: the number, and the steps before it. */
struct refused {
    const char *name;
    uint32_t refusal;
    uint32_t accepted;
    struct inputs inputs;
};

static const struct refused table[] = {
    {"empty sheet", 1, 0, {EMPTY, EMPTY, EMPTY}},
    {"sheet of 4 bytes", 1, 0, {SLICE(2, 2, 0, 1), OPEN, EMPTY}},
    {"no transaction", 2, 0, {SLICE(0, 1, 0, 0, 0), OPEN, EMPTY}},
    {"nine signatures", 3, 0, {SLICE(1, 9, 0, 0, 0), OPEN, EMPTY}},
    {"head alone", 4, 0, {SLICE(1, 1, 0, 1, 0), OPEN, EMPTY}},
    {"parent 0 of entry 0", 5, 0, {SLICE(1, 1, 0, 1, 0, 0, 1, 1, 0, 0, 0), OPEN, EMPTY}},
    {"needs 0", 6, 0, {SLICE(1, 1, 0, 1, 0, 255, 1, 0, 0, 0, 0), OPEN, EMPTY}},
    {"opening, type 2", 7, 0, {SLICE(1, 1, 0, 1, 0, 255, 1, 1, 0, 2, 1), OPEN, EMPTY}},
    {"one entry, payees 0", 8, 0, {SLICE(1, 1, 0, 1, 0, 255, 0, 1, 0, 0, 0), OPEN, EMPTY}},
    {"no setup", 9, 0, {WHOLE(saswap), EMPTY, EMPTY}},
    {"no blocks per day", 9, 0, {WHOLE(saswap), SLICE(0, 0, 0, 0), EMPTY}},
    {"1,001 blocks per day", 9, 0, {WHOLE(saswap), SLICE(233, 3, 0, 0), EMPTY}},
    {"conduct 3", 10, 0, {WHOLE(saswap), SLICE(3, 0, 3, 0), EMPTY}},
    {"careful with another sheet", 10, 0, {P10, CAREFUL, EMPTY}},
    {"kind 0", 11, 0, {WHOLE(saswap), OPEN, SLICE(0, 0, 0, 0)}},
    {"kind 0 after lock_A", 11, 3, {WHOLE(saswap), OPEN, SLICE(LOCK_A, 0, 0, 0, 0, MINE)}},
    {"kind 4, stealth 0", 12, 0, {WHOLE(saswap), NO_STEALTH, SLICE(4, 0, 0, 2)}},
    {"careful, fresh", 13, 0, {WHOLE(saswap), CAREFUL, SLICE(SEND_LOCK_A)}},
    {"lock_A sent twice", 14, 1, {WHOLE(saswap), OPEN, SLICE(SEND_LOCK_A, SEND_LOCK_A)}},
    {"revoke before lock_A", 15, 0, {WHOLE(saswap), OPEN, SLICE(3, 0, 4, 2)}},
    {"success without sigBob", 16, 3, {WHOLE(saswap), OPEN, SLICE(LOCK_A, 3, 0, 2, 2)}},
    {"revoke at 5 blocks", 17, 8, {WHOLE(saswap), OPEN, SLICE(LOCK_A, GIVE_SIG_ALICE, MINE, MINE, MINE, MINE, 3, 1, 4, 2)}},
    {"revoke at 5 blocks without sigAlice", 17, 7, {WHOLE(saswap), OPEN, SLICE(LOCK_A, MINE, MINE, MINE, MINE, 3, 1, 4, 2)}},
    {"success at 3 blocks", 18, 6, {WHOLE(saswap), OPEN, SLICE(LOCK_A, GIVE_SIG_ALICE, MINE, MINE, SEND_SUCCESS)}},
    {"lock_A not in pool", 19, 0, {WHOLE(saswap), OPEN, SLICE(5, 2, 0, 2)}},
    {"mine, success waits", 20, 6, {WHOLE(saswap), OPEN, SLICE(LOCK_A, GIVE_SIG_ALICE, SEND_SUCCESS, MINE, MINE)}},
    {"include, success waits", 20, 6, {WHOLE(saswap), OPEN, SLICE(LOCK_A, GIVE_SIG_ALICE, SEND_SUCCESS, MINE, 5, 2, 2, 2)}},
    {"no bump owed", 21, 0, {WHOLE(saswap), OPEN, SLICE(7, 2, 0, 2)}},
    {"empty block", 22, 0, {WHOLE(saswap), OPEN, SLICE(MINE)}},
    {"journal of 3 bytes", 24, 0, {WHOLE(saswap), OPEN, SLICE(3, 0, 0)}},
    {"a step and a byte", 24, 0, {WHOLE(saswap), OPEN, SLICE(SEND_LOCK_A, 5)}},
};

typedef uint32_t writes(const uint8_t *, size_t, const uint8_t *, size_t, const uint8_t *, size_t, uint8_t *, size_t);

static uint32_t run(const struct inputs *in)
{
    return swap_run(in->sheet.bytes, in->sheet.length, in->setup.bytes, in->setup.length, in->journal.bytes,
                    in->journal.length);
}

static uint32_t lend(writes *call, const struct inputs *in, uint8_t *output, size_t length)
{
    return call(in->sheet.bytes, in->sheet.length, in->setup.bytes, in->setup.length, in->journal.bytes,
                in->journal.length, output, length);
}

/* Whether a buffer has its first values from a place on. */
static int kept(const uint8_t *buffer, size_t from, size_t length)
{
    while (from < length && buffer[from] == FILL) {
        from++;
    }
    return from == length;
}

/* A refusal of a call that is lent a buffer: its number, and no byte changed. */
static void refuses(const char *name, writes *call, const struct inputs *in, size_t length, uint32_t refusal)
{
    uint8_t buffer[SWAP_LIST_SIZE];

    memset(buffer, FILL, sizeof buffer);
    expect_answer(name, lend(call, in, buffer, length), refusal, 0);
    expect(name, kept(buffer, 0, sizeof buffer));
}

/* A refusal of a journal, by all three calls. */
static void refused(const char *name, const struct inputs *in, uint32_t refusal, uint32_t accepted)
{
    expect_answer(name, run(in), refusal, accepted);
    refuses(name, swap_list, in, SWAP_LIST_SIZE, refusal);
    refuses(name, swap_report, in, SWAP_REPORT_SIZE, refusal);
    refuses(name, swap_list, in, 0, refusal);
    refuses(name, swap_report, in, 0, refusal);
}

/* A call that writes so many bytes: 25 where the buffer is shorter, and nothing after them. */
static void fits(const char *name, writes *call, const struct inputs *in, size_t needed, uint32_t count)
{
    uint8_t buffer[SWAP_LIST_SIZE];

    refuses(name, call, in, needed - 1, SWAP_BUFFER_SHORT);
    refuses(name, call, in, 0, SWAP_BUFFER_SHORT);
    expect_answer(name, lend(call, in, NULL, 0), SWAP_BUFFER_SHORT, 0);
    memset(buffer, FILL, sizeof buffer);
    expect_answer(name, lend(call, in, buffer, needed), SWAP_ACCEPTED, count);
    expect(name, kept(buffer, needed, sizeof buffer));
    memset(buffer, FILL, sizeof buffer);
    expect_answer(name, lend(call, in, buffer, sizeof buffer), SWAP_ACCEPTED, count);
    expect(name, kept(buffer, needed, sizeof buffer) && buffer[needed - 1] != FILL);
}

/* 23 and 24 with long journals: lock_A and blocks without end. */
static void long_journals(void)
{
    static uint8_t journal[65536 + 4];
    static const uint8_t lock_a[] = {LOCK_A};
    static const uint8_t mine[] = {MINE};
    struct inputs in = {WHOLE(saswap), OPEN, {journal, 0}};
    size_t at;

    for (at = 0; at < sizeof journal; at += 4) {
        memcpy(journal + at, at < sizeof lock_a ? lock_a + at : mine, 4);
    }
    in.journal.length = 4 * 10002;
    expect_answer("10,000 blocks", run(&in), SWAP_ACCEPTED, 10002);
    in.journal.length = 4 * 10003;
    refused("10,001 blocks", &in, SWAP_STEP_BLOCKS, 10002);
    in.journal.length = 65536;
    refused("65,536 bytes", &in, SWAP_STEP_BLOCKS, 10002);
    in.journal.length = 65536 + 4;
    refused("65,540 bytes", &in, SWAP_JOURNAL_LENGTH, 0);
}

/* 32 openings that pay either, each with one signature that both hold; Alice holds the other 7 alone. */
static void largest_list(void)
{
    static uint8_t sheet[5 + 6 * 32] = {32, 8, 0, 255, 1};
    static const uint8_t opening[] = {255, 3, 1, 0};
    struct inputs in = {WHOLE(sheet), OPEN, EMPTY};
    size_t t;

    for (t = 0; t < 32; t++) {
        memcpy(sheet + 5 + 4 * t, opening, 4);
    }
    fits("largest list", swap_list, &in, 4 * 263, 263);
    fits("largest report", swap_report, &in, 576, 0);
}

/* A sheet with nothing to do: an empty list needs no buffer. */
static void empty_list(void)
{
    const struct inputs in = {SLICE(1, 1, 1, 0, 0, 255, 1, 1, 0, 0, 0), OPEN, EMPTY};

    expect_answer("empty journal", run(&in), SWAP_ACCEPTED, 0);
    expect_answer("empty list", lend(swap_list, &in, NULL, 0), SWAP_ACCEPTED, 0);
    expect_answer("its report", lend(swap_report, &in, NULL, 0), SWAP_BUFFER_SHORT, 0);
}

static unsigned long value(const uint8_t *bytes)
{
    return bytes[0] | (unsigned long)bytes[1] << 8 | (unsigned long)bytes[2] << 16 | (unsigned long)bytes[3] << 24;
}

/* P10: the lines of the report, and the open steps. */
static void p10(void)
{
    const struct inputs in = {P10, SLICE(1, 0, 0, 0), SLICE(LOCK_A, 3, 1, 1, 1, 5, 2, 1, 2, MINE)};
    const uint8_t open[] = {1, 0, 0, 2, 2, 0, 0, 1, 1, 1, 1, 1, 2, 1, 1, 0, MINE};
    uint8_t rows[2 * SWAP_REPORT_ROW];
    uint8_t list[sizeof open];
    char text[200];
    size_t length;
    size_t t;

    expect_answer("P10, run", run(&in), SWAP_ACCEPTED, 6);
    expect_answer("P10, report", lend(swap_report, &in, rows, sizeof rows), SWAP_ACCEPTED, 0);
    expect_answer("P10, list", lend(swap_list, &in, list, sizeof list), SWAP_ACCEPTED, 5);
    expect("P10, steps", memcmp(list, open, sizeof open) == 0);
    length = (size_t)sprintf(text, "%u %u %u\n", 6u, 0u, 2u);
    for (t = 0; t < 2; t++) {
        const uint8_t *row = rows + SWAP_REPORT_ROW * t;
        length += (size_t)sprintf(text + length, "%u %u %u %lu %lu %lu\n", (unsigned)t, (unsigned)row[0],
                                  (unsigned)row[1], value(row + 2), value(row + 6), value(row + 10));
    }
    expect("P10, lines", strcmp(text, "6 0 2\n0 4 2 1 0 2147483647\n1 4 1 2 1 2147483647\n") == 0);
}

/* Since when t has been open after a journal that is accepted whole: the last number of its row. */
static void open_since(const char *name, const struct inputs *in, size_t t, unsigned long blocks)
{
    uint8_t rows[SWAP_REPORT_SIZE];

    expect_answer(name, lend(swap_report, in, rows, sizeof rows), SWAP_ACCEPTED, 0);
    expect(name, value(rows + SWAP_REPORT_ROW * t + SWAP_REPORT_OPENED) == blocks);
}

static void first_open(void)
{
    const struct inputs p10_whole = {P10, SLICE(1, 0, 0, 0), SLICE(LOCK_A, 3, 1, 1, 1, 5, 2, 1, 2, MINE)};
    /* a payout without a lock, mined in its parent's own block */
    const struct inputs together = {SLICE(2, 2, 0, 1, 2, 255, 0, 1, 0, 0, 2, 2, 0, 0, 0, 0, 0), SLICE(1, 0, 0, 0),
                                    SLICE(SEND_LOCK_A, 3, 1, 1, 1, 5, 2, 0, 2, 5, 2, 1, 2, MINE)};
    const struct inputs careful = {WHOLE(saswap), CAREFUL, EMPTY};
    const struct inputs late = {WHOLE(saswap), OPEN, SLICE(LOCK_A, MINE, MINE, MINE, MINE, GIVE_SIG_ALICE)};
    const struct inputs later = {WHOLE(saswap), OPEN, SLICE(LOCK_A, MINE, MINE, MINE, MINE, GIVE_SIG_ALICE, MINE, MINE)};
    const struct inputs waiting = {WHOLE(saswap), OPEN, SLICE(SEND_LOCK_A, 5, 2, 0, 2)};

    open_since("open before any step", &p10_whole, 0, 0);
    open_since("open at its lock", &p10_whole, 1, 1);
    open_since("confirmed with its parent", &together, 1, 2147483647);
    open_since("its parent", &together, 0, 0);
    open_since("conduct has no part", &careful, 0, 0);
    open_since("a key opens it", &late, 2, 5);
    open_since("its lock is not reached", &late, 4, 2147483647);
    open_since("the first count stays", &later, 2, 5);
    open_since("its lock is", &later, 4, 6);
    open_since("a signature is missing", &later, 3, 2147483647);
    open_since("a parent in the block is not enough", &waiting, 7, 2147483647);
}

int main(void)
{
    const struct inputs p6 = {WHOLE(saswap), OPEN, SLICE(LOCK_A, GIVE_SIG_ALICE)};
    size_t i;

    for (i = 0; i < sizeof table / sizeof table[0]; i++) {
        refused(table[i].name, &table[i].inputs, table[i].refusal, table[i].accepted);
    }
    long_journals();
    fits("list after lock_A", swap_list, &p6, 4 * 39, 39);
    fits("report after lock_A", swap_report, &p6, 15 * SWAP_REPORT_ROW, 0);
    largest_list();
    empty_list();
    p10();
    first_open();
    return finish();
}
