/* The command of several swaps. */
#include <stdio.h>
#include <stdlib.h>
#include <string.h>

#include "../common/output.h"
#include "commands.h"

/* A swap of the desk: its folder, its files, and the answer of its run. */
struct entry {
    const char *folder;
    struct swap swap;
    bool asked;
    uint32_t refusal;
    uint32_t count;
};

/* The bytes that a bundle has for each swap beside its journal. */
#define BUNDLE_ROW 8

static void write_number(uint8_t *to, size_t number)
{
    for (unsigned i = 0; i < 4; i++) {
        to[i] = (uint8_t)(number >> 8 * i & 255u);
    }
}

/* The bundle of these swaps: its memory, or NULL. */
static uint8_t *bundle_of(struct entry *const *group, size_t count, size_t *length)
{
    uint8_t *bundle;
    size_t at = 1 + BUNDLE_ROW * count;

    *length = at;
    for (size_t i = 0; i < count; i++) {
        *length += group[i]->swap.journal_length;
    }
    bundle = malloc(*length);
    if (bundle == NULL) {
        return NULL;
    }
    bundle[0] = (uint8_t)count;
    for (size_t i = 0; i < count; i++) {
        const struct swap *swap = &group[i]->swap;

        memcpy(bundle + 1 + SWAP_SETUP_SIZE * i, swap->setup, SWAP_SETUP_SIZE);
        write_number(bundle + 1 + SWAP_SETUP_SIZE * (count + i), swap->journal_length);
        memcpy(bundle + at, swap->journal, swap->journal_length);
        at += swap->journal_length;
    }
    return bundle;
}

/* Asks the engine about swaps on one sheet; false where there is no memory. */
static bool ask_group(struct entry *const *group, size_t count)
{
    uint8_t answers[SWAP_DESK_SIZE];
    size_t length;
    uint8_t *bundle = bundle_of(group, count, &length);
    uint32_t refusal;

    if (bundle == NULL) {
        return false;
    }
    refusal = SWAP_REFUSAL(swap_desk(group[0]->swap.sheet, group[0]->swap.sheet_length, bundle, length, answers,
                                     sizeof answers));
    for (size_t i = 0; i < count; i++) {
        const uint8_t *answer = answers + SWAP_DESK_ENTRY * i;

        group[i]->asked = true;
        group[i]->refusal = refusal != SWAP_ACCEPTED ? refusal : swap_number(answer + SWAP_DESK_REFUSAL);
        group[i]->count = refusal != SWAP_ACCEPTED ? 0 : swap_number(answer + SWAP_DESK_COUNT);
    }
    free(bundle);
    return true;
}

/* Whether a swap can be asked about together with another one. */
static bool goes_with(const struct entry *entry, const struct entry *first)
{
    return !entry->asked && entry->swap.setup_length == SWAP_SETUP_SIZE &&
           entry->swap.sheet_length == first->swap.sheet_length &&
           memcmp(entry->swap.sheet, first->swap.sheet, first->swap.sheet_length) == 0;
}

/* Asks about a swap and those behind it on the same sheet. One whose setup has another length fits no bundle. */
static bool ask_from(struct entry *entries, size_t first, size_t count)
{
    struct entry *group[SWAP_DESK_SWAPS];
    struct entry *own = &entries[first];
    size_t size = 0;

    if (own->asked) {
        return true;
    }
    if (own->swap.setup_length != SWAP_SETUP_SIZE) {
        uint32_t answer = swap_run(own->swap.sheet, own->swap.sheet_length, own->swap.setup, own->swap.setup_length,
                                   own->swap.journal, own->swap.journal_length);

        own->refusal = SWAP_REFUSAL(answer);
        own->count = SWAP_COUNT(answer);
        return true;
    }
    for (size_t i = first; i < count && size < SWAP_DESK_SWAPS; i++) {
        if (goes_with(&entries[i], own)) {
            group[size++] = &entries[i];
        }
    }
    return ask_group(group, size);
}

/* Prints a swap's line: its status. */
static int print_entry(const struct entry *entry)
{
    print_visible(stdout, entry->folder);
    if (entry->refusal == SWAP_ACCEPTED) {
        printf(": steps accepted: %lu\n", (unsigned long)entry->count);
        return FINE;
    }
    printf(": refused after step %lu: %s (%s)\n", (unsigned long)entry->count, swap_refusal_words(entry->refusal),
           swap_refusal_name(entry->refusal));
    return REFUSED;
}

/* Reads the folders; false, with a message, where a file cannot be read. */
static bool read_desk(struct entry *entries, size_t count, char **words)
{
    for (size_t i = 0; i < count; i++) {
        entries[i].folder = words[i];
        if (!read_folder(words[i], &entries[i].swap)) {
            return false;
        }
    }
    return true;
}

static bool ask_desk(struct entry *entries, size_t count)
{
    for (size_t i = 0; i < count; i++) {
        if (!ask_from(entries, i, count)) {
            complain(PROGRAM, entries[i].folder, "", "no memory");
            return false;
        }
    }
    return true;
}

/* Prints the lines: REFUSED where one swap is. */
static int print_desk(const struct entry *entries, size_t count)
{
    int status = FINE;

    for (size_t i = 0; i < count; i++) {
        if (print_entry(&entries[i]) != FINE) {
            status = REFUSED;
        }
    }
    return status;
}

static void free_desk(struct entry *entries, size_t count)
{
    for (size_t i = 0; i < count; i++) {
        free_swap(&entries[i].swap);
    }
    free(entries);
}

int desk(int count, char **words)
{
    size_t size = (size_t)count;
    struct entry *entries = calloc(size, sizeof *entries);
    int status = REFUSED;

    if (entries == NULL) {
        complain(PROGRAM, words[0], "", "no memory");
        return REFUSED;
    }
    if (read_desk(entries, size, words) && ask_desk(entries, size)) {
        status = print_desk(entries, size);
    }
    free_desk(entries, size);
    return status;
}
