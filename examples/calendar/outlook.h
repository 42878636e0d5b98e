/* What the calendar says of an outage, of a side's payout and of a transaction, in words: the same on the screen and on the
 * page. */
#ifndef OUTLOOK_H
#define OUTLOOK_H

#include <stdio.h>

#include "desk.h"

/* Prints what is asked. */
void print_question(FILE *to, const struct question *question);

/* Prints what the side can do about its payout, and what can come else: "do: alice sends refund_2 to the pool, by block 588,
 * then free any; else timeout, pays Bob, from 589"; then which transactions that could pay the side are sent for another
 * party. */
void print_payout(FILE *to, const struct question *question, const struct entry *entry, uint8_t side);

/* Prints what can happen to a transaction that is not settled, for a side: "else timeout, pays Bob, from 589". */
void print_outlook(FILE *to, const struct entry *entry, uint8_t t, uint8_t side);

#endif
