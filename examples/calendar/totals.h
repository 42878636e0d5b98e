/* What is counted over all swaps. */
#ifndef TOTALS_H
#define TOTALS_H

#include <stdio.h>

#include "desk.h"

struct totals {
    size_t swaps;
    size_t warnings; /* a side of a swap each, as the next two */
    size_t not_yet;  /* nothing secured yet */
    size_t given_up;
    size_t refused; /* or unreadable */
};

struct totals totals_of(const struct desk *desk);

/* Prints them in words. */
void print_totals(FILE *to, const struct totals *totals);

#endif
