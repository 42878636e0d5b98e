/* Names and words for what the engine answers in numbers. */
#ifndef WORDS_H
#define WORDS_H

#include "position.h"

/* A short text that is given back by value; the longest is a status with all four words. */
struct label {
    char text[32];
};

/* A folder's name as `print_visible` has it, and blanks up to so many characters. */
void print_name(const char *name, size_t width);

/* A height of the real chain, which stood at BASE before block 1; 0 for no block and no lock. Then as text, with
 * "never". */
uint32_t chain_height(uint32_t base, uint32_t height);
struct label height_label(uint32_t base, uint32_t height);

/* A transaction: its name on the SASwap sheet, else its number. */
struct label transaction_label(const struct swap *swap, uint8_t t);

/* A party, and a destination of a step or of a confirmed transaction. */
const char *party_name(uint8_t party);
const char *destination_name(uint8_t destination);

/* Payees of a sheet, as a mask. */
const char *payees_name(const struct swap *swap, uint8_t payees);

const char *conduct_name(uint8_t conduct);

/* The word for a bit of a status; and a status in words, "-" where it is 0. */
#define STATUS_BITS 4
const char *status_word(unsigned bit);
struct label status_label(uint8_t status);

#endif
