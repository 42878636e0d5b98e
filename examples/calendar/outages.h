/* How long and when the box of a side can be off, over all its swaps, in words. */
#ifndef OUTAGES_H
#define OUTAGES_H

#include "markup.h"
#include "slack.h"
#include "words.h"

/* A slack in blocks: "143", "any", "none", or "-" where no payout is secured. */
struct label slack_label(const struct slack *slack);

/* Prints for each side the longest outage from now without a warning and what bounds it, and, where they are asked for, the
 * stretches in which one can lie. */
void print_outages(FILE *to, enum markup markup, const struct question *question, const struct desk *desk);

#endif
