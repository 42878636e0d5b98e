#define _POSIX_C_SOURCE 200809L

#include "desk.h"

#include <dirent.h>
#include <stdio.h>
#include <stdlib.h>
#include <string.h>
#include <sys/stat.h>
#include <unistd.h>

#include "../common/output.h"
#include "bundle.h"
#include "saswap.h"

bool is_sound(const struct entry *entry)
{
    return entry->fault.file == NULL && SWAP_REFUSAL(entry->answer) == SWAP_ACCEPTED;
}

bool is_shown(const struct entry *entry, uint8_t side)
{
    return is_among(entry->sides, side);
}

/* One entry more, with a name; NULL where there is no memory. */
static struct entry *add_entry(struct desk *desk, const char *name)
{
    struct entry **entries = realloc(desk->entries, (desk->count + 1) * sizeof *entries);
    struct entry *entry = calloc(1, sizeof *entry);
    char *copy = strdup(name);

    if (entries != NULL) {
        desk->entries = entries;
    }
    if (entries == NULL || entry == NULL || copy == NULL) {
        free(entry);
        free(copy);
        return NULL;
    }
    entry->name = copy;
    entries[desk->count++] = entry;
    return entry;
}

/* The swap of one folder. */
static bool add_folder(struct desk *desk, const char *name, const char *folder)
{
    struct entry *entry = add_entry(desk, name);

    if (entry == NULL) {
        return false;
    }
    entry->fault = read_swap(folder, &entry->swap, &entry->sides);
    if (entry->fault.file == NULL) {
        entry->fault = read_base(folder, &entry->based, &entry->base);
    }
    return true;
}

static int visible(const struct dirent *entry)
{
    return entry->d_name[0] != '.';
}

static int by_bytes(const struct dirent **a, const struct dirent **b)
{
    return strcmp((*a)->d_name, (*b)->d_name);
}

/* Whether a name is to be read as a swap: all but what is known to be no folder. A broken link so gets a message. */
static bool may_be_folder(const char *name)
{
    struct stat status;

    return stat(name, &status) != 0 || S_ISDIR(status.st_mode);
}

/* The swaps of the working directory's subfolders. */
static bool add_subfolders(struct desk *desk)
{
    struct dirent **names;
    int count = scandir(".", &names, visible, by_bytes);
    bool sound = count >= 0;

    for (int i = 0; i < count; i++) {
        if (sound && may_be_folder(names[i]->d_name)) {
            sound = add_folder(desk, names[i]->d_name, names[i]->d_name);
        }
        free(names[i]);
    }
    if (count >= 0) {
        free(names);
    }
    return sound;
}

static bool add_embedded(struct desk *desk)
{
    struct entry *entry = add_entry(desk, "embedded");

    return entry != NULL && embedded_swap(&entry->swap);
}

/* The last part of a path; the whole where that is empty. */
static const char *last_part(const char *path)
{
    const char *slash = strrchr(path, '/');

    return slash != NULL && slash[1] != '\0' ? slash + 1 : path;
}

bool read_desk(const struct question *question, struct desk *desk)
{
    if (question->folder == NULL) {
        return add_embedded(desk);
    }
    if (chdir(question->folder) != 0) {
        return false;
    }
    desk->several = !is_swap(".");
    return desk->several ? add_subfolders(desk) : add_folder(desk, last_part(question->folder), ".");
}

/* Whose lines are shown, and the base: arguments go before files. */
static void apply_arguments(const struct question *question, struct entry *entry)
{
    uint8_t all = everybody(&entry->swap);

    if (question->sides != 0) {
        entry->sides = question->sides & all;
    } else if (entry->sides == 0) {
        entry->sides = all;
    }
    if (question->based) {
        entry->based = true;
        entry->base = question->base;
    }
}

void ask_desk(const struct question *question, struct desk *desk)
{
    run_desk(desk);
    for (size_t i = 0; i < desk->count; i++) {
        struct entry *entry = desk->entries[i];

        if (is_sound(entry)) {
            entry->answer = ask_position(&entry->swap, SWAP_COUNT(entry->answer), &entry->position);
        }
        apply_arguments(question, entry);
    }
}

/* Whether the heights of the real chain that the question names, if any, fit the swap. */
static bool fits_entry(const struct question *question, const struct entry *entry)
{
    const struct clock *clock = &question->clock;
    unsigned long height = (unsigned long)entry->base + entry->position.mined;
    char reason[96] = "";

    if (question->from == 0 && !clock->set) {
        return true;
    }
    if (!entry->based) {
        snprintf(reason, sizeof reason, "no base, and %s is a height of the real chain",
                 question->from > 0 ? "--from" : "--height");
    } else if (clock->set && clock->height != height) {
        snprintf(reason, sizeof reason, "stands at height %lu, and --height is %lu", height,
                 (unsigned long)clock->height);
    } else if (question->from > 0 && question->from <= height) {
        snprintf(reason, sizeof reason, "--from %lu is in the past: the swap stands at height %lu",
                 (unsigned long)question->from, height);
    } else {
        return true;
    }
    complain("calendar", entry->name, "", reason);
    return false;
}

bool fits_desk(const struct question *question, const struct desk *desk)
{
    bool sound = true;

    if (question->based && desk->several) {
        complain("calendar", "--base", "", "for one swap; each of several has a file base in its folder");
        return false;
    }
    for (size_t i = 0; i < desk->count; i++) {
        if (is_sound(desk->entries[i]) && !fits_entry(question, desk->entries[i])) {
            sound = false;
        }
    }
    return sound;
}

/* Of one swap. */
static bool ask_about(const struct question *question, struct entry *entry)
{
    entry->outage = outage_of(question, &entry->position, entry->base);
    entry->answer = ask_outage(&entry->position, entry->outage.reach);
    for (uint8_t side = SWAP_ALICE; side <= SWAP_CAROL; side++) {
        if (is_shown(entry, side) && !ask_stand(&entry->position, &entry->outage, side, &entry->stands[side])) {
            return false;
        }
    }
    return true;
}

bool ask_outages(const struct question *question, struct desk *desk)
{
    for (size_t i = 0; i < desk->count; i++) {
        if (is_sound(desk->entries[i]) && !ask_about(question, desk->entries[i])) {
            return false;
        }
    }
    return true;
}

bool same_height(const struct desk *desk, uint32_t *height)
{
    bool found = false;

    for (size_t i = 0; i < desk->count; i++) {
        const struct entry *entry = desk->entries[i];
        uint32_t own = entry->base + entry->position.mined;

        if (is_sound(entry) && found && own != *height) {
            return false;
        }
        if (is_sound(entry)) {
            *height = own;
            found = true;
        }
    }
    return found && !is_mixed(desk);
}

bool is_mixed(const struct desk *desk)
{
    size_t counts[2] = {0, 0};

    for (size_t i = 0; i < desk->count; i++) {
        counts[desk->entries[i]->based] += is_sound(desk->entries[i]);
    }
    return counts[0] > 0 && counts[1] > 0;
}

void free_desk(struct desk *desk)
{
    for (size_t i = 0; i < desk->count; i++) {
        free_swap(&desk->entries[i]->swap);
        free(desk->entries[i]->name);
        free(desk->entries[i]);
    }
    free(desk->entries);
}
