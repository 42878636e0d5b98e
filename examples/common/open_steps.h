/* The steps that are open after a journal, in words. */
#ifndef OPEN_STEPS_H
#define OPEN_STEPS_H

#include <stdio.h>

#include "../calendar/files.h"

struct open_steps {
    uint32_t count;
    uint8_t bytes[SWAP_LIST_SIZE];
};

/* The blocks of a journal that is accepted. */
unsigned long blocks_mined(const struct swap *swap);

/* Asks for them: the answer; none are there where it is a refusal. */
uint32_t ask_open(const struct swap *swap, struct open_steps *open);

/* Prints them by party, numbered from 1, each in the words of a text. */
void print_open(const struct swap *swap, const struct open_steps *open);

/* Prints, as "nearest that would pass: WORDS", the open step whose words have the least distance to these: the fewest
 * characters to put in, take out or change, where case, commas, colons and further blanks don't matter; of several the
 * first. */
void print_nearest(FILE *to, const struct swap *swap, const struct open_steps *open, const char *words);

#endif
