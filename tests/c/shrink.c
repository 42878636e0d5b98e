/* Calls shrink from C: every number of its own, their order, what is written, and that a refused call writes nothing. */
#include <string.h>

#include "expect.h"

/* What a buffer holds before a call. */
#define FILL 170

/* The sheet of P10 and an open setup for it. */
static const uint8_t p10[] = {2, 2, 0, 1, 2, 255, 0, 1, 0, 0, 2, 2, 0, 0, 0, 1, 1};
static const uint8_t open_setup[] = {1, 0, 0, 0};
static const uint8_t no_blocks[] = {0, 0, 0, 0};

/* The opening's share, send, inclusion and block, and the payout's send, which its lock allows from one block on. */
#define SHARE 1, 0, 0, 2
#define SEND 3, 0, 0, 2
#define INCLUDE 5, 2, 0, 2
#define MINE 6, 2, 255, 2
#define PAY 3, 1, 1, 1

/* The payout is sent twice; the share and the second block can go, and so can what follows the refused step. */
static const uint8_t paid_twice[] = {SHARE, SEND, INCLUDE, MINE, MINE, PAY, PAY, MINE};
static const uint8_t few[] = {SEND, INCLUDE, MINE, PAY, PAY};

/* 1,025 steps, each of kind 0. */
static uint8_t longest[4 * 1025];

static uint8_t buffer[SWAP_SHRINK_SIZE];

/* A call with a buffer of so many bytes: the answer, the bytes written, and all others as they were. */
static void shrink(const char *name, const uint8_t *setup, const uint8_t *journal, size_t journal_length, size_t length,
                   uint32_t refusal, const uint8_t *steps, uint32_t count)
{
    uint8_t expected[sizeof buffer];

    memset(buffer, FILL, sizeof buffer);
    memset(expected, FILL, sizeof expected);
    if (count != 0) {
        memcpy(expected, steps, 4 * count);
    }
    expect_answer(name, swap_shrink(p10, sizeof p10, setup, 4, journal, journal_length, buffer, length), refusal, count);
    expect(name, memcmp(buffer, expected, sizeof buffer) == 0);
}

int main(void)
{
    expect_answer("no sheet", swap_shrink(NULL, 0, NULL, 0, NULL, 0, NULL, 0), SWAP_SHEET_SHORT, 0);
    shrink("setup before length", no_blocks, longest, 3, 0, SWAP_SETUP_BLOCKS, NULL, 0);
    shrink("part of a step", open_setup, longest, sizeof longest - 1, 0, SWAP_JOURNAL_LENGTH, NULL, 0);
    shrink("1,025 steps", open_setup, longest, 4 * 1025, 0, SWAP_JOURNAL_LONG, NULL, 0);
    shrink("1,024 steps", open_setup, longest, 4 * 1024, 4, SWAP_ACCEPTED, longest, 1);
    shrink("no step", open_setup, NULL, 0, 0, SWAP_NONE_REFUSED, NULL, 0);
    shrink("none refused", open_setup, paid_twice, 4 * 6, 0, SWAP_NONE_REFUSED, NULL, 0);
    shrink("the first step refused", open_setup, paid_twice + 4 * 5, 4, 4, SWAP_ACCEPTED, paid_twice + 4 * 5, 1);
    shrink("exact buffer", open_setup, paid_twice, sizeof paid_twice, sizeof few, SWAP_ACCEPTED, few, 5);
    shrink("long buffer", open_setup, paid_twice, sizeof paid_twice, sizeof buffer, SWAP_ACCEPTED, few, 5);
    shrink("short buffer", open_setup, paid_twice, sizeof paid_twice, sizeof few - 1, SWAP_BUFFER_SHORT, NULL, 0);
    shrink("no buffer", open_setup, paid_twice, sizeof paid_twice, 0, SWAP_BUFFER_SHORT, NULL, 0);
    shrink("shrunk again", open_setup, few, sizeof few, sizeof few, SWAP_ACCEPTED, few, 5);
    expect_answer("run on the few steps", swap_run(p10, sizeof p10, open_setup, 4, few, sizeof few), SWAP_STEP_CONFLICT, 4);
    expect_answer("run on the journal", swap_run(p10, sizeof p10, open_setup, 4, paid_twice, sizeof paid_twice),
                  SWAP_STEP_CONFLICT, 6);
    return finish();
}
