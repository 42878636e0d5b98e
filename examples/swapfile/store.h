/* Writing a swap's files. */
#ifndef STORE_H
#define STORE_H

#include "../calendar/files.h"

/* Writes sheet.bin, setup.bin and journal.bin to a folder, which is made where it is not there, and `side` with this
 * name unless it is NULL. Where FRESH, the folder may have none of them before. Else a journal that has steps only
 * grows: they are the first of the new one, on the same sheet and setup. No other program writes meanwhile. False, with
 * a message, where something fails: then none is written. */
bool store_swap(const char *folder, const struct swap *swap, const char *side, bool fresh);

#endif
