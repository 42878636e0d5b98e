/* Calls desk from C: every number of its own, its order, and the answers of single runs for each swap. */
#include <string.h>

#include "expect.h"

_Static_assert(SWAP_DESK_SIZE == 512, "the size that is documented");

/* What every buffer holds before a call. */
#define FILL 170

/* The sheet of P10, an open setup for it, one without blocks, and a step that is accepted and then refused. */
static const uint8_t p10[] = {2, 2, 0, 1, 2, 255, 0, 1, 0, 0, 2, 2, 0, 0, 0, 1, 1};
#define OPEN 1, 0, 0, 0
#define NO_BLOCKS 0, 0, 0, 0
#define LENGTH(n) (n), 0, 0, 0
#define SEND 3, 0, 0, 2

/* A call with a buffer of this length, whose bytes from `kept` on stay as they were; all do under a refusal. */
static void desk(const char *name, const uint8_t *sheet, size_t sheet_length, const uint8_t *bundle, size_t bundle_length,
                 size_t length, uint32_t refusal, const uint8_t *entries, size_t kept)
{
    uint8_t output[SWAP_DESK_SIZE + 1];

    memset(output, FILL, sizeof output);
    expect_answer(name, swap_desk(sheet, sheet_length, bundle, bundle_length, output, length), refusal, 0);
    expect(name, kept == 0 || memcmp(output, entries, kept) == 0);
    for (size_t i = kept; i < sizeof output; i++) {
        if (output[i] != FILL) {
            expect(name, 0);
        }
    }
}

#define REFUSED(name, refusal, length, ...)                                                        \
    do {                                                                                           \
        const uint8_t bundle[] = {__VA_ARGS__};                                                    \
        desk(name, p10, sizeof p10, bundle, sizeof bundle, (length), (refusal), NULL, 0);          \
    } while (0)

/* Four swaps: accepted, refused by the setup, refused at the second step, and by the length of its journal. */
static const uint8_t four[] = {
    4, OPEN, NO_BLOCKS, OPEN, OPEN, LENGTH(4), LENGTH(4), LENGTH(8), LENGTH(3), SEND, SEND, SEND, SEND, 3, 0, 0,
};
static const uint8_t answers[] = {
    LENGTH(SWAP_ACCEPTED),      LENGTH(1), LENGTH(SWAP_SETUP_BLOCKS),   LENGTH(0),
    LENGTH(SWAP_STEP_CONFLICT), LENGTH(1), LENGTH(SWAP_JOURNAL_LENGTH), LENGTH(0),
};

/* Each entry is the answer of the run of its parts. */
static void single_runs(void)
{
    uint8_t output[sizeof answers];
    size_t start = 1 + 8 * 4;

    expect_answer("the four are accepted", swap_desk(p10, sizeof p10, four, sizeof four, output, sizeof output), 0, 0);
    for (size_t i = 0; i < 4; i++) {
        size_t length = four[1 + 4 * 4 + 4 * i];
        uint32_t answer = swap_run(p10, sizeof p10, four + 1 + 4 * i, 4, four + start, length);

        expect_answer("a single run", answer, output[8 * i], output[8 * i + 4]);
        start += length;
    }
}

int main(void)
{
    const uint8_t none[] = {0};

    desk("no sheet", NULL, 0, NULL, 0, 0, SWAP_SHEET_SHORT, NULL, 0);
    desk("sheet before bundle", p10, 16, NULL, 0, 0, SWAP_SHEET_LENGTH, NULL, 0);
    desk("no bundle", p10, sizeof p10, NULL, 0, 512, SWAP_BUNDLE_LAYOUT, NULL, 0);
    desk("no swap, no buffer", p10, sizeof p10, none, 1, 0, SWAP_ACCEPTED, NULL, 0);
    desk("four swaps", p10, sizeof p10, four, sizeof four, sizeof answers, SWAP_ACCEPTED, answers, sizeof answers);
    desk("room to spare", p10, sizeof p10, four, sizeof four, 512, SWAP_ACCEPTED, answers, sizeof answers);
    desk("a byte of room short", p10, sizeof p10, four, sizeof four, sizeof answers - 1, SWAP_BUFFER_SHORT, NULL, 0);
    desk("a byte short", p10, sizeof p10, four, sizeof four - 1, 512, SWAP_BUNDLE_LAYOUT, NULL, 0);
    REFUSED("a byte long", SWAP_BUNDLE_LAYOUT, 512, 1, OPEN, LENGTH(4), SEND, 0);
    REFUSED("no swap, a byte long", SWAP_BUNDLE_LAYOUT, 512, 0, 0);
    REFUSED("too short for its arrays", SWAP_BUNDLE_LAYOUT, 512, 1, OPEN, 0, 0, 0);
    REFUSED("count 65", SWAP_BUNDLE_LAYOUT, 512, 65, OPEN);
    REFUSED("lengths beyond four bytes", SWAP_BUNDLE_LAYOUT, 512, 2, OPEN, OPEN, 252, 255, 255, 255, LENGTH(8), SEND);
    REFUSED("bundle before buffer", SWAP_BUNDLE_LAYOUT, 0, 1, OPEN, LENGTH(8), SEND);
    REFUSED("buffer before setup", SWAP_BUFFER_SHORT, 7, 1, NO_BLOCKS, LENGTH(4), SEND);
    single_runs();
    return finish();
}
