/* The commands that take a step. */
#include <stdio.h>
#include <string.h>

#include "../common/deal.h"
#include "../common/output.h"
#include "commands.h"

static struct deal deal;

/* Reads folder and step and asks about it: FINE where it would pass, else the status with a message. */
static int begin(const char *folder, int count, char **words, uint32_t *answer)
{
    deal.program = PROGRAM;
    deal.name = folder;
    if (in_numbers(words, count) && !read_numbers(PROGRAM, words, count, deal.step)) {
        return misuse(NULL, NULL);
    }
    if (!open_deal(&deal)) {
        return REFUSED;
    }
    if (!in_numbers(words, count)) {
        if (!accept_swap(&deal)) {
            return REFUSED;
        }
        if (!read_deal(&deal, words, count)) {
            return BAD_USAGE;
        }
    }
    *answer = ask_deal(&deal);
    return SWAP_REFUSAL(*answer) == SWAP_ACCEPTED ? FINE : REFUSED;
}

int ask(int count, char **words)
{
    uint32_t answer;

    return begin(words[0], count - 1, words + 1, &answer);
}

/* Takes up --after COUNT behind the folder: how many words it is, and whether it is there. */
static int read_after(int count, char **words, bool *after, uint32_t *number)
{
    *after = count > 1 && strcmp(words[1], "--after") == 0;
    if (!*after) {
        return FINE;
    }
    return count < 4 ? misuse(words[1], "a count and a step are expected") : read_number(words[2], UINT32_MAX, number);
}

int commit(int count, char **words)
{
    bool after;
    uint32_t number = 0;
    uint32_t answer;
    int status = read_after(count, words, &after, &number);
    int taken = after ? 3 : 1;

    if (status == FINE) {
        status = begin(words[0], count - taken, words + taken, &answer);
    }
    if (status != FINE) {
        return status;
    }
    committed = commit_deal(&deal, after ? number : SWAP_COUNT(answer));
    return committed ? FINE : REFUSED;
}
