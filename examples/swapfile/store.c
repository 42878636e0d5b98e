#define _POSIX_C_SOURCE 200809L

#include "store.h"

#include <errno.h>
#include <fcntl.h>
#include <stdio.h>
#include <string.h>
#include <sys/stat.h>
#include <unistd.h>

#include "../common/output.h"
#include "../common/whole.h"

enum { SHEET, SETUP, JOURNAL, SIDE, FILES_MOST };

/* The files of a swap in an open folder. */
struct store {
    const char *folder;
    int descriptor;
    int lock;
    bool made;    /* whether the folder was made for them */
    bool fresh;   /* whether none of them may be there before */
    size_t first; /* the first that is written: sheet and setup stay as they are below a journal with steps */
    size_t count;
    struct part parts[FILES_MOST];
};

static bool fail(const struct store *store, const char *name, const char *reason)
{
    complain("swapfile", store->folder, name, reason);
    return false;
}

/* Opens the folder, which is made where it is not there. */
static bool enter(struct store *store)
{
    store->made = mkdir(store->folder, 0777) == 0;
    if (!store->made && errno != EEXIST) {
        return fail(store, "", strerror(errno));
    }
    store->descriptor = open_folder(store->folder);
    return store->descriptor >= 0 || fail(store, "", strerror(errno));
}

/* The size of a file of the folder; -1 where there is none. */
static long long size_of(const struct store *store, const char *name)
{
    struct stat status;

    return fstatat(store->descriptor, name, &status, AT_SYMLINK_NOFOLLOW) == 0 ? (long long)status.st_size : -1;
}

/* Whether each name is free, or, unless the swap is a fresh one, a plain file's. */
static bool are_free(const struct store *store)
{
    for (size_t i = 0; i < store->count; i++) {
        const char *name = store->parts[i].name;
        const char *reason = occupied(store->descriptor, name);

        if (reason == NULL && store->fresh && size_of(store, name) >= 0) {
            reason = "is there already";
        }
        if (reason != NULL) {
            return fail(store, name, reason);
        }
    }
    return true;
}

static bool is_same(const struct part *part, const uint8_t *bytes, size_t length)
{
    return part->length == length && memcmp(part->bytes, bytes, length) == 0;
}

/* With how many of these bytes a file begins. */
static size_t common_length(const struct part *part, const uint8_t *bytes, size_t length)
{
    const uint8_t *own = part->bytes;
    size_t same = 0;

    while (same < length && same < part->length && own[same] == bytes[same]) {
        same++;
    }
    return same;
}

/* Whether the files go on from a swap whose journal has steps: sheet and setup are the same, and all its steps come
 * first, so that none gets lost. */
static bool goes_on(const struct store *store, const struct swap *old)
{
    static const char other[] = "not the text's, and the journal has steps";
    size_t same = common_length(&store->parts[JOURNAL], old->journal, old->journal_length);
    char reason[48];

    if (!is_same(&store->parts[SHEET], old->sheet, old->sheet_length)) {
        return fail(store, "sheet.bin", other);
    }
    if (!is_same(&store->parts[SETUP], old->setup, old->setup_length)) {
        return fail(store, "setup.bin", other);
    }
    snprintf(reason, sizeof reason, "step %zu is not the text's", same / 4 + 1);
    return same == old->journal_length || fail(store, "journal.bin", reason);
}

/* Whether no step of the folder's journal gets lost. */
static bool keeps_steps(struct store *store)
{
    struct swap old;
    struct fault fault;
    bool sound;

    store->first = size_of(store, "journal.bin") > 0 ? JOURNAL : SHEET;
    if (store->first == SHEET) {
        return true;
    }
    fault = read_files(store->descriptor, &old);
    sound = fault.file == NULL ? goes_on(store, &old) : fail(store, fault.file, fault.reason);
    free_swap(&old);
    return sound;
}

static bool may_store(struct store *store)
{
    return are_free(store) && keeps_steps(store);
}

/* Keeps other programs out of the folder. */
static bool lock(struct store *store)
{
    const char *reason = lock_folder(store->descriptor, &store->lock);

    return reason == NULL || fail(store, LOCK_NAME, reason);
}

static bool write_files(struct store *store)
{
    struct failure failure =
        write_parts(store->descriptor, store->parts + store->first, store->count - store->first);

    return failure.reason == NULL || fail(store, failure.name, failure.reason);
}

/* Takes away the folder that was made for files that are not written. */
static void leave(const struct store *store, bool sound)
{
    if (!sound && store->made) {
        unlinkat(store->descriptor, LOCK_NAME, 0);
        rmdir(store->folder);
    }
    if (store->lock >= 0) {
        close(store->lock);
    }
    if (store->descriptor >= 0) {
        close(store->descriptor);
    }
}

bool store_swap(const char *folder, const struct swap *swap, const char *side, bool fresh)
{
    char line[16] = "";
    struct store store = {folder, -1, -1, false, fresh, SHEET, SIDE, {
        [SHEET] = {"sheet.bin", swap->sheet, swap->sheet_length, ""},
        [SETUP] = {"setup.bin", swap->setup, swap->setup_length, ""},
        [JOURNAL] = {"journal.bin", swap->journal, swap->journal_length, ""},
        [SIDE] = {"side", line, 0, ""},
    }};
    bool sound;

    if (side != NULL) {
        snprintf(line, sizeof line, "%s\n", side);
        store.parts[store.count++].length = strlen(line);
    }
    /* before the lock, so that what is refused leaves no file of it; and under it, since others may have written */
    sound = enter(&store) && may_store(&store) && lock(&store) && may_store(&store) && write_files(&store);
    leave(&store, sound);
    return sound;
}
