/* Calls swap_timelocks from C: the fields of the SASwap sheet, every refusal of the call, short and long buffers. */
#include <string.h>

#include "expect.h"

_Static_assert(SWAP_TIMELOCKS_SIZE == 256, "the size that is documented");

/* What every buffer holds before a call. */
#define FILL 170

/* The SASwap sheet for 3 blocks per day and more. */
static const uint8_t saswap[] = {
    15,  4, 12, 5, 10,                                                                  /* sizes and masks */
    255, 0, 1,  0, 255, 0, 2, 0, 0, 0, 11, 0, 0, 0, 7, 0, 0, 0, 3, 0,                   /* 0 lock_A to 4 revoke */
    4,   0, 7,  0, 4,   0, 3, 0, 0, 3, 3,  0, 1, 3, 12, 1, 2, 2, 2, 0,                  /* 5 refund_2 to 9 spend_success */
    3,   2, 3,  0, 3,   1, 1, 0, 4, 3, 3,  0, 5, 1, 1, 0, 6, 2, 2, 0,                   /* 10 spend_refund_1_bob to 14 */
    0,   0, 0,  0, 0,   0, 1, 1, 1, 2, 2,  1, 2, 2, 0, 0, 0, 0, 0, 0, 0, 0, 2, 1, 0, 0, 0, 0, 0, 0, /* locks */
};

/* 144 blocks per day, careful. */
static const uint8_t careful[] = {144, 0, 2, 1};

struct fields {
    uint32_t lock_time;
    uint32_t sequence;
};

/* What the boxes sign at 144 blocks per day, where the chain stood at height 800,000. */
static const struct fields expected[15] = {
    {0, 0xffffffff},      /* lock_A */
    {0, 0xffffffff},      /* lock_B */
    {0, 0xffffffff},      /* success */
    {800144, 0xfffffffe}, /* refund_1: one day */
    {800288, 0xfffffffe}, /* revoke: two days */
    {0, 145},             /* refund_2: one day after revoke */
    {0, 289},             /* timeout: two days after revoke */
    {0, 0xffffffff},      /* spend_A */
    {0, 0xffffffff},      /* spend_B */
    {0, 0xffffffff},      /* spend_success */
    {0, 0xffffffff},      /* spend_refund_1_bob */
    {0, 145},             /* spend_refund_1_alice: one day after refund_1 */
    {0, 0xffffffff},      /* spend_revoke */
    {0, 0xffffffff},      /* spend_refund_2 */
    {0, 0xffffffff},      /* spend_timeout */
};

/* A number of four bytes, the lowest first. */
static uint32_t number(const uint8_t *bytes)
{
    return bytes[0] | (uint32_t)bytes[1] << 8 | (uint32_t)bytes[2] << 16 | (uint32_t)bytes[3] << 24;
}

static int filled(const uint8_t *bytes, size_t length)
{
    for (size_t i = 0; i < length; i++) {
        if (bytes[i] != FILL) {
            return 0;
        }
    }
    return 1;
}

static void swap_fields(void)
{
    uint8_t output[SWAP_TIMELOCKS_SIZE];
    uint32_t answer;

    memset(output, FILL, sizeof output);
    answer = swap_timelocks(saswap, sizeof saswap, careful, sizeof careful, 800000, output, sizeof output);
    expect_answer("SASwap", answer, SWAP_ACCEPTED, 0);
    for (size_t t = 0; t < 15; t++) {
        const uint8_t *row = output + SWAP_TIMELOCKS_ROW * t;
        expect("nLockTime", number(row) == expected[t].lock_time);
        expect("nSequence", number(row + 4) == expected[t].sequence);
    }
    expect("bytes after the output", filled(output + 120, sizeof output - 120));
}

static void buffers(void)
{
    uint8_t output[120];
    uint32_t answer;

    memset(output, FILL, sizeof output);
    answer = swap_timelocks(saswap, sizeof saswap, careful, sizeof careful, 0, output, 119);
    expect_answer("a byte short", answer, SWAP_BUFFER_SHORT, 0);
    answer = swap_timelocks(saswap, sizeof saswap, careful, sizeof careful, 0, NULL, 0);
    expect_answer("no buffer", answer, SWAP_BUFFER_SHORT, 0);
    expect("a short buffer is unchanged", filled(output, sizeof output));
    answer = swap_timelocks(saswap, sizeof saswap, careful, sizeof careful, 0, output, 120);
    expect_answer("exact", answer, SWAP_ACCEPTED, 0);
}

/* Two transactions, the second with this lock; what is wrong is refused with its number and changes nothing. */
static void refused(const char *name, uint32_t refusal, uint8_t type, uint8_t days, uint16_t blocks, uint8_t conduct, uint32_t base)
{
    const uint8_t sheet[] = {2, 2, 0, 1, 2, 255, 0, 1, 0, 0, 2, 2, 0, 0, 0, type, days};
    const uint8_t setup[] = {(uint8_t)(blocks & 255), (uint8_t)(blocks >> 8), conduct, 0};
    uint8_t output[16];

    memset(output, FILL, sizeof output);
    expect_answer(name, swap_timelocks(sheet, sizeof sheet, setup, sizeof setup, base, output, sizeof output), refusal, 0);
    if (refusal != SWAP_ACCEPTED) {
        expect(name, filled(output, sizeof output));
    }
}

int main(void)
{
    swap_fields();
    buffers();
    expect_answer("empty", swap_timelocks(NULL, 0, NULL, 0, 0, NULL, 0), SWAP_SHEET_SHORT, 0);
    expect_answer("no setup", swap_timelocks(saswap, sizeof saswap, NULL, 0, 0, NULL, 0), SWAP_SETUP_BLOCKS, 0);
    refused("lock type 3", SWAP_SHEET_LOCK, 3, 1, 1, 0, 0);
    refused("no blocks per day", SWAP_SETUP_BLOCKS, 1, 1, 0, 0, 0);
    refused("careful with another sheet", SWAP_SETUP_CONDUCT, 1, 1, 1, 2, 0);
    refused("a value of 65,535", SWAP_ACCEPTED, 2, 217, 302, 0, 0);
    refused("a value of 65,536", SWAP_TIMELOCK_RELATIVE, 2, 255, 257, 0, 0);
    refused("height 499,999,999", SWAP_ACCEPTED, 1, 1, 1, 0, 499999998);
    refused("height 500,000,000", SWAP_TIMELOCK_ABSOLUTE, 1, 1, 1, 0, 499999999);
    refused("the largest base", SWAP_TIMELOCK_ABSOLUTE, 1, 1, 1, 0, 4294967295u);
    refused("the largest base without an absolute lock", SWAP_ACCEPTED, 2, 1, 1, 0, 4294967295u);
    return finish();
}
