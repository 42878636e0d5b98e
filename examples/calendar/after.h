/* What is said of a transaction beside its window: what can be confirmed instead, and when. */
#ifndef AFTER_H
#define AFTER_H

#include <stdio.h>

#include "desk.h"

/* Prints what can be confirmed after the soonest deadline: "else timeout, pays Bob, from 589". */
void print_else(FILE *to, const struct position *position, uint8_t t, uint32_t base);

/* Prints on what the soonest deadline hangs, where it can still change: the words, then ", if revoke is confirmed in
 * 289". */
void print_if(FILE *to, const char *words, const struct position *position, uint8_t t, uint32_t base);

/* Prints the rivals that no deadline covers: "; rival success can be sent". */
void print_in_the_way(FILE *to, const struct position *position, uint8_t t, uint8_t side);

#endif
