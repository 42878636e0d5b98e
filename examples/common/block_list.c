#include "block_list.h"

#include <stdio.h>

#include "../calendar/position.h"
#include "../calendar/words.h"
#include "steps.h"

/* The last block of a swap. */
#define BLOCKS_MOST 10000

bool read_entry(struct line *line, const struct swap *swap, uint8_t entry[ENTRY_SIZE])
{
    unsigned block;

    if (!expect(line, "block") || !expect_number(line, 1, BLOCKS_MOST, &block) ||
        !expect_transaction(line, swap, &entry[0]) || !expect_destination(line, swap, &entry[1])) {
        return false;
    }
    entry[2] = (uint8_t)(block & 255u);
    entry[3] = (uint8_t)(block >> 8);
    return expect_end(line);
}

void print_entries(const struct swap *swap, const uint8_t *entries, size_t count)
{
    for (size_t i = 0; i < count; i++) {
        const uint8_t *entry = entries + ENTRY_SIZE * i;

        printf("block %u: %s", entry[2] | (unsigned)entry[3] << 8, transaction_label(swap, entry[0]).text);
        if (entry[1] != SWAP_CONTRACT) {
            printf(", paying %s", party_words(entry[1]));
        }
        putchar('\n');
    }
}
