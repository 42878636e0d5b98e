/* What is said of a swap side by side. */
#ifndef SIDES_H
#define SIDES_H

#include "desk.h"

/* Whether a side that is shown is warned and counts on the transaction. */
bool is_warned_of(const struct entry *entry, uint8_t t, uint8_t side);

/* Whether a transaction is settled: confirmed or dead. */
bool is_settled(const struct entry *entry, uint8_t t);

#endif
