/* Asking about a step and committing it to the journal file of a folder. */
#ifndef DEAL_H
#define DEAL_H

#include "../calendar/files.h"
#include "open_steps.h"

/* What is dealt with: a step, and the swap of a folder as it is asked about. */
struct deal {
    const char *program;
    const char *name; /* the folder's path */
    int folder;
    uint8_t step[SWAP_STEP_SIZE];
    struct swap swap;
    struct open_steps open;
};

/* Opens the folder and reads its swap, whose journal must be a file that can be replaced. False, with a message, where
 * that fails. */
bool open_deal(struct deal *deal);

/* Takes up the open steps; false, with the refusal on standard output, where the swap has one. */
bool accept_swap(struct deal *deal);

/* Reads the step from words, after accept_swap. False, with a message and the nearest step that would pass, where they
 * are none. */
bool read_deal(struct deal *deal, char **words, int count);

/* Whether words begin with a digit, so that they are numbers. */
bool in_numbers(char **words, int count);

/* Reads the four numbers of a step; false, with a message, where they are none. */
bool read_numbers(const char *program, char **words, int count, uint8_t step[SWAP_STEP_SIZE]);

/* Asks whether the step would pass after the journal, and shows the answer in words. */
uint32_t ask_deal(struct deal *deal);

/* Commits the step to the journal as it is now, on this count of steps, while no other program writes there. False, with
 * a message, where it is refused or cannot be written. */
bool commit_deal(const struct deal *deal, uint32_t count);

#endif
