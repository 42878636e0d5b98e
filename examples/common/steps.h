/* The steps of a journal as text: the same words in every program. */
#ifndef STEPS_H
#define STEPS_H

#include "../calendar/files.h"
#include "lines.h"

/* Reads the steps of a line for a swap whose sheet and setup are accepted: a step, and how many times it is taken. */
bool read_steps(struct line *line, const struct swap *swap, uint8_t step[4], unsigned *times);

/* A step in words that read_steps takes, as "alice sends lock_A to the pool"; its fields are in range. */
#define STEP_WORDS_SIZE 80
struct step_words {
    char text[STEP_WORDS_SIZE];
};
struct step_words step_words(const struct swap *swap, const uint8_t step[4]);

/* Takes a transaction by its name or number, and whom it pays: the contract where nobody is named. Else a message. */
bool expect_transaction(struct line *line, const struct swap *swap, uint8_t *t);
bool expect_destination(struct line *line, const struct swap *swap, uint8_t *destination);

/* Takes a party of the sheet; else a message. */
bool expect_party(struct line *line, const struct swap *swap, uint8_t *party);

/* A party's name in a text. */
const char *party_words(uint8_t party);

/* Whether there are words for these bytes on a sheet that is accepted: the fields are in range, by the engine, whatever
 * the conduct is. */
bool is_step(const struct swap *swap, const uint8_t step[4]);

/* Prints steps, a line for each; blocks that follow each other stand in one. Where MINED is given, so many were mined
 * before them, and their numbers are printed. What is no step is printed as a comment. */
void print_steps(const struct swap *swap, const uint8_t *steps, size_t length, size_t *mined);

/* Prints a journal that is accepted. */
void print_journal(const struct swap *swap);

/* Prints a journal with this answer of its run: the refused step with its reason, and what stands behind it. */
void print_refused_journal(const struct swap *swap, uint32_t answer);

#endif
