/* Calls swap_earliest from C: every number of an ending, the list that is written, short buffers, null pointers. */
#include <string.h>

#include "expect.h"

_Static_assert(SWAP_EARLIEST_SIZE == 128, "the size that is documented");

/* What every buffer holds before a call. */
#define FILL 170

/* The sheet of P10: an opening, and a payout to Bob behind a lock of one day. */
static const uint8_t p10[] = {2, 2, 0, 1, 2, 255, 0, 1, 0, 0, 2, 2, 0, 0, 0, 1, 1};

/* One coin: an opening, a payout to either, one to Alice a day after it. */
static const uint8_t three[] = {3, 1, 0, 1, 1, 255, 0, 1, 0, 0, 3, 1, 0, 0, 1, 1, 0, 0, 0, 0, 0, 2, 1};

static const uint8_t one_a_day[] = {1, 0, 0, 0};
static const uint8_t many_a_day[] = {16, 39 - 36, 0, 0};
static const uint8_t to_alice[] = {0, 0, 0, 0};
static const uint8_t to_bob[] = {1, 0, 0, 0};
static const uint8_t to_257[] = {1, 1, 0, 0};
static const uint8_t to_bob_and_alice[] = {1, 0, 0, 0, 0, 0, 0, 0};

/* A call with a buffer of so many bytes: its answer, and what it wrote. */
static void call(const char *name, uint32_t refusal, const uint8_t *sheet, size_t sheet_length, const uint8_t *setup, uint32_t mask,
                 const uint8_t *dests, size_t dests_length, size_t room, const uint8_t *list, size_t list_length)
{
    uint8_t output[32];
    uint8_t expected[32];

    memset(output, FILL, sizeof output);
    memset(expected, FILL, sizeof expected);
    if (list_length > 0) {
        memcpy(expected, list, list_length);
    }
    uint32_t answer = swap_earliest(sheet, sheet_length, setup, 4, mask, dests, dests_length, output, room);

    expect_answer(name, answer, refusal, (uint32_t)(list_length / 4));
    expect(name, memcmp(output, expected, sizeof output) == 0);
}

int main(void)
{
    static const uint8_t opened_paid[] = {0, 2, 1, 0, 1, 1, 2, 0};
    static const uint8_t to_either[] = {0, 2, 1, 0, 1, 1, 1, 0};
    static const uint8_t a_day_later[] = {0, 2, 1, 0, 2, 0, 3, 0};

    call("P10", 0, p10, sizeof p10, one_a_day, 2, to_bob, 4, 8, opened_paid, 8);
    call("a longer buffer", 0, p10, sizeof p10, one_a_day, 2, to_bob, 4, 32, opened_paid, 8);
    call("one byte short", SWAP_BUFFER_SHORT, p10, sizeof p10, one_a_day, 2, to_bob, 4, 7, NULL, 0);
    call("in the opening's block", 0, three, sizeof three, one_a_day, 2, to_bob, 4, 8, to_either, 8);
    call("a day after it", 0, three, sizeof three, one_a_day, 4, to_alice, 4, 8, a_day_later, 8);
    call("an empty mask", 0, p10, sizeof p10, one_a_day, 0, NULL, 0, 0, NULL, 0);
    call("an empty mask with a destination", SWAP_ENDING_FIELD, p10, sizeof p10, one_a_day, 0, to_bob, 4, 8, NULL, 0);
    call("a contract transaction", SWAP_ENDING_FIELD, p10, sizeof p10, one_a_day, 1, to_bob, 4, 8, NULL, 0);
    call("beyond the sheet", SWAP_ENDING_FIELD, p10, sizeof p10, one_a_day, 4, to_bob, 4, 8, NULL, 0);
    call("bit 31", SWAP_ENDING_FIELD, p10, sizeof p10, one_a_day, 0x80000000u, to_bob, 4, 8, NULL, 0);
    call("no payee", SWAP_ENDING_FIELD, p10, sizeof p10, one_a_day, 2, to_alice, 4, 8, NULL, 0);
    call("257 is not 1", SWAP_ENDING_FIELD, p10, sizeof p10, one_a_day, 2, to_257, 4, 8, NULL, 0);
    call("three bytes", SWAP_ENDING_FIELD, p10, sizeof p10, one_a_day, 2, to_bob, 3, 8, NULL, 0);
    call("33 before 25", SWAP_ENDING_FIELD, p10, sizeof p10, one_a_day, 2, to_alice, 4, 0, NULL, 0);
    call("two of one coin", SWAP_ENDING_IMPOSSIBLE, three, sizeof three, one_a_day, 6, to_bob_and_alice, 8, 12, NULL, 0);
    call("34 before 25", SWAP_ENDING_IMPOSSIBLE, three, sizeof three, one_a_day, 6, to_bob_and_alice, 8, 0, NULL, 0);
    call("a sheet of 3 bytes", SWAP_SHEET_SHORT, p10, 3, one_a_day, 2, to_bob, 4, 8, NULL, 0);
    call("784 blocks per day", 0, p10, sizeof p10, many_a_day, 0, NULL, 0, 0, NULL, 0);
    return finish();
}
