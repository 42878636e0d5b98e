/* The fields of a sheet that passed its check and of a setup that passed its own, by document 01. */
#ifndef FIELDS_H
#define FIELDS_H

#include "files.h"

/* The number of transactions, and of parties: 2, or 3 with Carol. */
uint8_t count_of(const struct swap *swap);
uint8_t parties_of(const struct swap *swap);

/* The bit of a party among payees, and the bits of all parties of the sheet. */
uint8_t payee_bit(uint8_t party);
uint8_t everybody(const struct swap *swap);

/* Whether the number is a party of this mask. */
bool is_among(uint8_t payees, uint8_t party);

/* The bytes of the sheet before its two arrays. */
size_t head_of(const struct swap *swap);

uint8_t parent_of(const struct swap *swap, uint8_t t);
uint8_t payees_of(const struct swap *swap, uint8_t t);
uint8_t needs_of(const struct swap *swap, uint8_t t);
uint8_t veil_of(const struct swap *swap, uint8_t t);
uint8_t lock_type_of(const struct swap *swap, uint8_t t);
uint8_t days_of(const struct swap *swap, uint8_t t);

unsigned blocks_per_day_of(const struct swap *swap);
uint8_t conduct_of(const struct swap *swap);
uint8_t stealth_of(const struct swap *swap);

#endif
