#include "bundle.h"

#include <stdlib.h>
#include <string.h>

/* Some swaps with the same sheet. */
struct bundle {
    struct entry *entries[SWAP_DESK_SWAPS];
    size_t count;
};

/* Whether a swap is still to run: its files are read and it stands in no earlier bundle. */
static bool waits(const struct entry *entry)
{
    return entry->fault.file == NULL && !entry->ran;
}

/* Whether it can stand in a bundle, where each setup takes up four bytes. */
static bool fits(const struct entry *entry)
{
    return waits(entry) && entry->swap.setup_length == SWAP_SETUP_SIZE;
}

static bool same_sheet(const struct swap *a, const struct swap *b)
{
    return a->sheet_length == b->sheet_length && memcmp(a->sheet, b->sheet, a->sheet_length) == 0;
}

/* The swaps from this one on that share its sheet, as many as a bundle takes. */
static struct bundle bundle_from(const struct desk *desk, size_t first)
{
    struct bundle bundle = {{NULL}, 0};

    for (size_t i = first; i < desk->count && bundle.count < SWAP_DESK_SWAPS; i++) {
        struct entry *entry = desk->entries[i];

        if (fits(entry) && same_sheet(&entry->swap, &desk->entries[first]->swap)) {
            entry->ran = true;
            bundle.entries[bundle.count++] = entry;
        }
    }
    return bundle;
}

/* The bundle's bytes: its count, the setups, the journals' lengths, the journals. */
static size_t length_of(const struct bundle *bundle)
{
    size_t length = 1 + 8 * bundle->count;

    for (size_t i = 0; i < bundle->count; i++) {
        length += bundle->entries[i]->swap.journal_length;
    }
    return length;
}

static void write_number(uint8_t *to, size_t number)
{
    for (size_t i = 0; i < 4; i++) {
        to[i] = (uint8_t)(number >> 8 * i & 255);
    }
}

static void write_bundle(const struct bundle *bundle, uint8_t *to)
{
    uint8_t *setups = to + 1;
    uint8_t *lengths = setups + 4 * bundle->count;
    uint8_t *journals = lengths + 4 * bundle->count;

    to[0] = (uint8_t)bundle->count;
    for (size_t i = 0; i < bundle->count; i++) {
        const struct swap *swap = &bundle->entries[i]->swap;

        memcpy(setups + 4 * i, swap->setup, 4);
        write_number(lengths + 4 * i, swap->journal_length);
        memcpy(journals, swap->journal, swap->journal_length);
        journals += swap->journal_length;
    }
}

/* One entry of the engine's answer, as a run answers. */
static uint32_t answer_of(const uint8_t *entry)
{
    return swap_number(entry + SWAP_DESK_REFUSAL) << 16 | swap_number(entry + SWAP_DESK_COUNT);
}

/* Runs a bundle. The sheet's refusal is each swap's; false where there is no memory. */
static bool run_bundle(const struct bundle *bundle)
{
    const struct swap *first = &bundle->entries[0]->swap;
    size_t length = length_of(bundle);
    uint8_t *bytes = malloc(length);
    uint8_t output[SWAP_DESK_SIZE];
    uint32_t answer;

    if (bytes == NULL) {
        return false;
    }
    write_bundle(bundle, bytes);
    answer = swap_desk(first->sheet, first->sheet_length, bytes, length, output, sizeof output);
    free(bytes);
    for (size_t i = 0; i < bundle->count; i++) {
        bundle->entries[i]->answer =
            SWAP_REFUSAL(answer) == SWAP_ACCEPTED ? answer_of(output + SWAP_DESK_ENTRY * i) : answer;
    }
    return true;
}

/* Runs the swaps of a bundle one by one. */
static void run_each(const struct bundle *bundle)
{
    for (size_t i = 0; i < bundle->count; i++) {
        bundle->entries[i]->answer = run(&bundle->entries[i]->swap);
    }
}

void run_desk(struct desk *desk)
{
    for (size_t i = 0; i < desk->count; i++) {
        struct entry *entry = desk->entries[i];

        if (fits(entry)) {
            struct bundle bundle = bundle_from(desk, i);

            if (!run_bundle(&bundle)) {
                run_each(&bundle);
            }
        } else if (waits(entry)) {
            entry->answer = run(&entry->swap);
        }
    }
}
