/* The rivals of a transaction: what can be confirmed in its place. */
#ifndef RIVALS_H
#define RIVALS_H

#include "position.h"

/* The first rival whose lock makes the soonest deadline: it can be confirmed from the block after that on. SWAP_NONE
 * where the soonest deadline is never. */
uint8_t later_rival(const struct position *position, uint8_t t);

/* Whether the rival is another transaction that is locked no later, so that no deadline covers it, and that is sent or
 * can be sent now by somebody else than the side. */
bool in_the_way(const struct position *position, uint8_t t, uint8_t rival, uint8_t side);

#endif
