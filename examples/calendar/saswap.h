/* The SASwap sheet of document 01, its names, and a swap over it. */
#ifndef SASWAP_H
#define SASWAP_H

#include "files.h"

#define SASWAP_COUNT 15
#define SASWAP_SIZE (5 + 6 * SASWAP_COUNT)

/* The bit of sigBob in a mask of signatures. */
#define SIG_BOB 2u

/* The names of its transactions and of its 4 signatures. */
const char *saswap_transaction(uint8_t t);
const char *saswap_signature(uint8_t number);

/* Writes the SASwap sheet for a number of blocks per day. */
void saswap_sheet(unsigned blocks_per_day, uint8_t sheet[SASWAP_SIZE]);

/* Whether the sheet is the SASwap sheet for the setup's blocks per day; the setup has 4 bytes. */
bool is_saswap(const struct swap *swap);

/* The swap that is shown where no folder is named: 144 blocks per day, careful conduct, 444 blocks mined. Both coins
 * were locked, then neither party went on, and Bob sent revoke. What is left to Alice is refund_2, in blocks 445 to
 * 588: one day. False where there is no memory. */
bool embedded_swap(struct swap *swap);

#endif
