#define _POSIX_C_SOURCE 200809L

#include "files.h"

#include <errno.h>
#include <fcntl.h>
#include <stdio.h>
#include <stdlib.h>
#include <string.h>
#include <sys/stat.h>
#include <unistd.h>

#include "../common/whole.h"
#include "arguments.h"
#include "fields.h"

/* The longest name of a side or number of a base, a line end and one byte more. */
#define LINE_SIZE 12

static const char *const file_names[] = {"sheet.bin", "setup.bin", "journal.bin"};

/* A fault, unless the reason is NULL. */
static struct fault fault(const char *file, const char *reason)
{
    struct fault fault = {reason == NULL ? NULL : file, ""};

    snprintf(fault.reason, sizeof fault.reason, "%s", reason == NULL ? "" : reason);
    return fault;
}

/* Whether an open folder has something of this name. */
static bool has(int folder, const char *name)
{
    struct stat status;

    return fstatat(folder, name, &status, AT_SYMLINK_NOFOLLOW) == 0 || errno != ENOENT;
}

/* Memory of the journal's size; the reason where there is none. */
static const char *keep_journal(struct swap *swap, const uint8_t *bytes)
{
    swap->journal = malloc(swap->journal_length + SWAP_STEP_SIZE);
    if (swap->journal == NULL) {
        return strerror(errno);
    }
    memcpy(swap->journal, bytes, swap->journal_length);
    return NULL;
}

struct fault read_files(int folder, struct swap *swap)
{
    static uint8_t journal[SWAP_JOURNAL_SIZE + 1];
    uint8_t *const bytes[] = {swap->sheet, swap->setup, journal};
    const size_t sizes[] = {sizeof swap->sheet, sizeof swap->setup, sizeof journal};
    size_t *const lengths[] = {&swap->sheet_length, &swap->setup_length, &swap->journal_length};
    struct fault found = fault(NULL, NULL);

    swap->journal = NULL;
    for (size_t i = 0; i < 3 && found.file == NULL; i++) {
        found = fault(file_names[i], read_plain(folder, file_names[i], bytes[i], sizes[i], lengths[i]));
    }
    return found.file != NULL ? found : fault(file_names[2], keep_journal(swap, journal));
}

void free_swap(struct swap *swap)
{
    free(swap->journal);
    swap->journal = NULL;
}

bool is_swap(const char *folder)
{
    int descriptor = open_folder(folder);
    bool found = false;

    if (descriptor < 0) {
        return false;
    }
    for (size_t i = 0; i < 3; i++) {
        found = found || has(descriptor, file_names[i]);
    }
    close(descriptor);
    return found;
}

/* Reads a file of one line, without its end: the reason why that cannot be, or NULL. */
static const char *read_line(int folder, const char *name, char text[LINE_SIZE + 1])
{
    size_t length = 0;
    const char *reason = read_plain(folder, name, text, LINE_SIZE, &length);

    if (reason != NULL) {
        return reason;
    }
    while (length > 0 && (text[length - 1] == '\n' || text[length - 1] == '\r')) {
        length--;
    }
    text[length] = '\0';
    if (strlen(text) != length) {
        text[0] = '\0'; /* a zero among its bytes: no line of text */
    }
    return NULL;
}

/* Reads the file `side` of a folder with this swap. */
static struct fault read_side(int folder, const struct swap *swap, uint8_t *sides)
{
    char text[LINE_SIZE + 1] = "";
    const char *reason;

    if (!has(folder, "side")) {
        return fault(NULL, NULL);
    }
    reason = read_line(folder, "side", text);
    if (reason != NULL) {
        return fault("side", reason);
    }
    *sides = side_named(text);
    if ((*sides & ~everybody(swap)) != 0) {
        return fault("side", "carol is no party of this sheet");
    }
    return fault("side", *sides != 0 ? NULL : "not alice, bob or carol");
}

struct fault read_base(const char *path, bool *based, uint32_t *base)
{
    int folder = open_folder(path);
    char text[LINE_SIZE + 1] = "";
    const char *reason = NULL;

    if (folder < 0) {
        return fault("base", strerror(errno));
    }
    *based = has(folder, "base");
    if (*based) {
        reason = read_line(folder, "base", text);
    }
    if (*based && reason == NULL && !is_number_named(text, 0, BASE_MOST, base)) {
        reason = "not a number from 0 to 499999999";
    }
    close(folder);
    return fault("base", reason);
}

struct fault read_swap(const char *path, struct swap *swap, uint8_t *sides)
{
    int folder = open_folder(path);
    struct fault found;

    *sides = 0;
    if (folder < 0) {
        return fault(file_names[0], strerror(errno));
    }
    found = read_files(folder, swap);
    if (found.file == NULL) {
        found = read_side(folder, swap, sides);
    }
    close(folder);
    return found;
}
