/* Calls ask and commit from C: every number of their own, their order, and that a refused commit writes nothing. */
#include <string.h>

#include "expect.h"

/* What the bytes of a buffer behind its journal hold before a call. */
#define FILL 170

/* The sheet of P10, an open setup for it, the send of its opening, which is accepted once, and its inclusion. */
static const uint8_t p10[] = {2, 2, 0, 1, 2, 255, 0, 1, 0, 0, 2, 2, 0, 0, 0, 1, 1};
static const uint8_t open_setup[] = {1, 0, 0, 0};
static const uint8_t no_blocks[] = {0, 0, 0, 0};
#define SEND 3, 0, 0, 2
#define INCLUDE 5, 2, 0, 2
static const uint8_t sends[] = {SEND, SEND, SEND};
static const uint8_t include[] = {INCLUDE, 0};

/* A journal that is as long as can be. */
static uint8_t longest[65536 + 4];

static uint32_t commit_to(const uint8_t *setup, const uint8_t *step, size_t step_length, uint32_t count,
                          uint8_t *buffer, size_t length, uint32_t size)
{
    return swap_commit(p10, sizeof p10, setup, 4, step, step_length, count, buffer, length, size);
}

static uint32_t ask(const uint8_t *journal, size_t length, const uint8_t *step, size_t step_length)
{
    return swap_ask(p10, sizeof p10, open_setup, 4, journal, length, step, step_length);
}

static void asks(void)
{
    expect_answer("no sheet", swap_ask(NULL, 0, NULL, 0, NULL, 0, NULL, 0), SWAP_SHEET_SHORT, 0);
    expect_answer("setup before length", swap_ask(p10, sizeof p10, no_blocks, 4, sends, 3, NULL, 0), SWAP_SETUP_BLOCKS,
                  0);
    expect_answer("an open step", ask(NULL, 0, sends, 4), SWAP_ACCEPTED, 0);
    expect_answer("an open step after one", ask(sends, 4, include, 4), SWAP_ACCEPTED, 1);
    expect_answer("a refused step", ask(sends, 4, sends, 4), SWAP_STEP_CONFLICT, 1);
    expect_answer("a refused journal", ask(sends, 12, include, 4), SWAP_STEP_CONFLICT, 1);
    expect_answer("three bytes", ask(sends, 4, include, 3), SWAP_STEP_FIELD, 1);
    expect_answer("five bytes", ask(sends, 4, include, 5), SWAP_STEP_FIELD, 1);
    expect_answer("no step", ask(sends, 4, NULL, 0), SWAP_STEP_FIELD, 1);
    expect_answer("part of a step", ask(sends, 5, include, 4), SWAP_JOURNAL_LENGTH, 0);
    expect_answer("room for one step", ask(longest, 65532, include, 4), SWAP_STEP_FIELD, 0);
    expect_answer("a full journal", ask(longest, 65536, include, 4), SWAP_JOURNAL_LENGTH, 0);
    expect_answer("which run takes", swap_run(p10, sizeof p10, open_setup, 4, longest, 65536), SWAP_STEP_FIELD, 0);
}

/* A commit on a buffer of this length that starts with the sends: the refusal, and which bytes were written. */
static void commit(const char *name, const uint8_t *step, size_t step_length, uint32_t count, size_t length,
                   uint32_t size, uint32_t refusal)
{
    uint8_t buffer[24];
    uint8_t expected[sizeof buffer];

    memset(buffer, FILL, sizeof buffer);
    memcpy(buffer, sends, sizeof sends);
    memcpy(expected, buffer, sizeof buffer);
    if (refusal == SWAP_ACCEPTED) {
        memcpy(expected + size, step, 4);
    }
    expect_answer(name, commit_to(open_setup, step, step_length, count, buffer, length, size), refusal, 0);
    expect(name, memcmp(buffer, expected, sizeof buffer) == 0);
}

static void commits(void)
{
    commit("the first step", sends, 4, 0, 4, 0, SWAP_ACCEPTED);
    commit("a step after one", include, 4, 1, 24, 4, SWAP_ACCEPTED);
    commit("just room", include, 4, 1, 8, 4, SWAP_ACCEPTED);
    commit("three bytes left", include, 4, 1, 7, 4, SWAP_BUFFER_SHORT);
    commit("no byte left", include, 4, 1, 4, 4, SWAP_BUFFER_SHORT);
    commit("step before room", sends, 4, 1, 4, 4, SWAP_STEP_CONFLICT);
    commit("three bytes", include, 3, 1, 4, 4, SWAP_STEP_FIELD);
    commit("five bytes", include, 5, 1, 24, 4, SWAP_STEP_FIELD);
    commit("count before step", NULL, 0, 0, 4, 4, SWAP_COUNT_STALE);
    commit("a count more", include, 4, 2, 24, 4, SWAP_COUNT_STALE);
    commit("a large count", include, 4, 65536 + 1, 24, 4, SWAP_COUNT_STALE);
    commit("journal before count", NULL, 0, 7, 8, 8, SWAP_STEP_CONFLICT);
    commit("part of a step", include, 4, 1, 24, 5, SWAP_JOURNAL_LENGTH);
    commit("beyond the buffer", include, 4, 1, 4, 8, SWAP_JOURNAL_LENGTH);
    commit("far beyond it", include, 4, 1, 24, UINT32_MAX, SWAP_JOURNAL_LENGTH);
    expect_answer("no buffer", commit_to(open_setup, sends, 4, 0, NULL, 0, 0), SWAP_BUFFER_SHORT, 0);
    expect_answer("a full journal", commit_to(open_setup, include, 4, 0, longest, sizeof longest, 65536),
                  SWAP_JOURNAL_LENGTH, 0);
    expect_answer("setup before length", commit_to(no_blocks, NULL, 0, 0, NULL, 0, 1), SWAP_SETUP_BLOCKS, 0);
}

/* Ask, then commit with its count; a second commit on the same count, with the new length, is refused. */
static void dealer(void)
{
    uint8_t journal[16];
    uint32_t length = 0;

    for (int i = 0; i < 2; i++) {
        const uint8_t *step = i == 0 ? sends : include;
        uint32_t asked = ask(journal, length, step, 4);
        uint32_t count = SWAP_COUNT(asked);

        expect_answer("asked", asked, SWAP_ACCEPTED, (uint32_t)i);
        for (int again = 0; again < 2; again++) {
            uint32_t answer = commit_to(open_setup, step, 4, count, journal, sizeof journal, length);

            expect_answer("committed once", answer, again == 0 ? SWAP_ACCEPTED : SWAP_COUNT_STALE, 0);
            length += again == 0 ? 4 : 0;
        }
        expect_answer("run accepts it", swap_run(p10, sizeof p10, open_setup, 4, journal, length), SWAP_ACCEPTED,
                      count + 1);
    }
}

int main(void)
{
    asks();
    commits();
    dealer();
    return finish();
}
