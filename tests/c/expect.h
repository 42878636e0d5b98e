/* Counts what a test program expects of the calls. */
#ifndef EXPECT_H
#define EXPECT_H

#include <stdio.h>

#include "swap.h"

static int passed;
static int failed;

/* One expectation that holds or not. */
static void expect(const char *name, int holds)
{
    if (holds) {
        passed++;
    } else {
        failed++;
        printf("%s: not as expected\n", name);
    }
}

/* An answer, by its two parts. */
static void expect_answer(const char *name, uint32_t answer, uint32_t refusal, uint32_t count)
{
    int holds = SWAP_REFUSAL(answer) == refusal && SWAP_COUNT(answer) == count;

    if (!holds) {
        printf("answer %lu, expected %lu and %lu: ", (unsigned long)answer, (unsigned long)refusal, (unsigned long)count);
    }
    expect(name, holds);
}

/* The line that the gate counts, and the program's status. */
static int finish(void)
{
    printf("tests: %d passed, %d failed\n", passed, failed);
    return failed != 0;
}

#endif
