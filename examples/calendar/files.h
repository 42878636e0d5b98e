/* The files of a swap. */
#ifndef FILES_H
#define FILES_H

#include <stdbool.h>
#include <stddef.h>
#include <stdint.h>

#include "swap.h"

/* The bytes of a swap. Of each file one byte more is read than the largest valid length has, so that a longer file stays
 * too long and the engine refuses it. */
struct swap {
    size_t sheet_length;
    size_t setup_length;
    size_t journal_length;
    uint8_t sheet[SWAP_SHEET_SIZE + 1];
    uint8_t setup[SWAP_SETUP_SIZE + 1];
    uint8_t *journal; /* NULL where none is read */
};

/* A file that cannot be read, and why; NULL: there is none. */
struct fault {
    const char *file;
    char reason[64];
};

/* Whether the folder holds sheet.bin, setup.bin or journal.bin. */
bool is_swap(const char *folder);

/* Reads the swap of an open folder. Only plain files are read: none is waited for. The journal takes up as much memory
 * as its bytes and one step more; free_swap gives it back. */
struct fault read_files(int folder, struct swap *swap);
void free_swap(struct swap *swap);

/* The same of a folder's path, and of its file `side`: the mask of the party that it names, 0 where there is no such
 * file. */
struct fault read_swap(const char *path, struct swap *swap, uint8_t *sides);

/* Reads a folder's file `base`, the real chain's height when the journal was empty, where there is one. */
struct fault read_base(const char *path, bool *based, uint32_t *base);

#endif
