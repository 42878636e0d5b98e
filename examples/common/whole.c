#define _POSIX_C_SOURCE 200809L

#include "whole.h"

#include <errno.h>
#include <fcntl.h>
#include <stdio.h>
#include <string.h>
#include <sys/stat.h>
#include <unistd.h>

/* The most names that are tried for a file until it is whole: what a killed program left keeps its name. */
#define NAMES_MOST 100u

int open_folder(const char *path)
{
    return open(path, O_RDONLY | O_DIRECTORY | O_CLOEXEC);
}

/* Reads from a descriptor until SIZE bytes or the end; false, with errno set, where that fails. */
static bool read_bytes(int file, unsigned char *bytes, size_t size, size_t *length)
{
    *length = 0;
    while (*length < size) {
        ssize_t more = read(file, bytes + *length, size - *length);

        if (more == 0) {
            return true;
        }
        if (more > 0) {
            *length += (size_t)more;
        } else if (errno != EINTR) {
            return false;
        }
    }
    return true;
}

/* It is opened without waiting, as a named pipe without a writer would. */
const char *read_plain(int folder, const char *name, void *bytes, size_t size, size_t *length)
{
    int file = openat(folder, name, O_RDONLY | O_NONBLOCK | O_CLOEXEC);
    struct stat status;
    const char *reason = NULL;

    if (file < 0) {
        return strerror(errno);
    }
    if (fstat(file, &status) != 0) {
        reason = strerror(errno);
    } else if (!S_ISREG(status.st_mode)) {
        reason = "not a plain file";
    } else if (!read_bytes(file, bytes, size, length)) {
        reason = strerror(errno);
    }
    close(file);
    return reason;
}

const char *occupied(int folder, const char *name)
{
    struct stat status;

    if (fstatat(folder, name, &status, AT_SYMLINK_NOFOLLOW) != 0) {
        return errno == ENOENT ? NULL : strerror(errno);
    }
    if (S_ISLNK(status.st_mode)) {
        return "a symbolic link, not a plain file";
    }
    if (!S_ISREG(status.st_mode)) {
        return "not a plain file";
    }
    return status.st_nlink > 1 ? "a hard link: the file has another name too" : NULL;
}

/* Gives the lock's file, which was made here, to the journal's owner, where that can be: so that the owner is not
 * locked out. */
static void give_lock(int folder, int file)
{
    struct stat journal;

    if (fstatat(folder, "journal.bin", &journal, AT_SYMLINK_NOFOLLOW) != 0 ||
        fchown(file, journal.st_uid, journal.st_gid) != 0) {
        return; /* it stays ours */
    }
}

static int open_lock(int folder)
{
    const int flags = O_RDWR | O_NONBLOCK | O_NOFOLLOW | O_CLOEXEC;
    int file = openat(folder, LOCK_NAME, flags | O_CREAT | O_EXCL, 0666);

    if (file >= 0) {
        give_lock(folder, file);
    } else if (errno == EEXIST) {
        file = openat(folder, LOCK_NAME, flags);
    }
    return file;
}

/* Waits for the lock of an open file; false, with errno set, where there is none to be had. */
static bool wait_for(int file)
{
    struct flock whole = {.l_type = F_WRLCK, .l_whence = SEEK_SET};
    int answer;

    do {
        answer = fcntl(file, F_SETLKW, &whole);
    } while (answer != 0 && errno == EINTR);
    return answer == 0;
}

/* Whether the open file is still the one of this name. */
static bool is_named(int folder, const char *name, int file)
{
    struct stat opened;
    struct stat named;

    return fstat(file, &opened) == 0 && fstatat(folder, name, &named, AT_SYMLINK_NOFOLLOW) == 0 &&
           opened.st_dev == named.st_dev && opened.st_ino == named.st_ino;
}

const char *lock_folder(int folder, int *lock)
{
    const char *reason = occupied(folder, LOCK_NAME);
    bool held = false;

    while (reason == NULL && !held) {
        *lock = open_lock(folder);
        if (*lock < 0 || !wait_for(*lock)) {
            reason = strerror(errno);
        } else {
            held = is_named(folder, LOCK_NAME, *lock); /* else it was removed meanwhile */
        }
        if (*lock >= 0 && !held) {
            close(*lock);
            *lock = -1;
        }
    }
    return reason;
}

/* Makes a file under a name that no other has; -1, with errno set, where that cannot be. */
static int make_unfinished(int folder, struct part *part, mode_t mode)
{
    int file = -1;

    errno = EEXIST;
    for (unsigned i = 0; i < NAMES_MOST && file < 0 && errno == EEXIST; i++) {
        snprintf(part->unfinished, sizeof part->unfinished, ".unfinished.%ld.%u", (long)getpid(), i);
        file = openat(folder, part->unfinished, O_WRONLY | O_CREAT | O_EXCL | O_CLOEXEC, mode);
    }
    if (file < 0) {
        part->unfinished[0] = '\0';
    }
    return file;
}

/* Gives a file the owner and the mode of the one whose place it takes. */
static bool keep_owner(int file, const struct stat *old)
{
    struct stat made;

    if (fstat(file, &made) != 0) {
        return false;
    }
    return ((made.st_uid == old->st_uid && made.st_gid == old->st_gid) ||
            fchown(file, old->st_uid, old->st_gid) == 0) &&
           fchmod(file, old->st_mode & 07777) == 0;
}

static bool write_bytes(int file, const unsigned char *bytes, size_t length)
{
    while (length > 0) {
        ssize_t written = write(file, bytes, length);

        if (written < 0 && errno != EINTR) {
            return false;
        }
        if (written > 0) {
            bytes += written;
            length -= (size_t)written;
        }
    }
    return true;
}

/* Writes a file under its unfinished name, to the disk. */
static const char *write_part(int folder, struct part *part)
{
    const char *reason = occupied(folder, part->name);
    struct stat old;
    bool replaces = fstatat(folder, part->name, &old, AT_SYMLINK_NOFOLLOW) == 0;
    int file = reason != NULL ? -1 : make_unfinished(folder, part, replaces ? 0600 : 0666);

    if (file < 0) {
        return reason != NULL ? reason : strerror(errno);
    }
    if (replaces && !keep_owner(file, &old)) {
        reason = "its owner and mode cannot be kept";
    } else if (!write_bytes(file, part->bytes, part->length) || fsync(file) != 0) {
        reason = strerror(errno);
    }
    if (close(file) != 0 && reason == NULL) {
        reason = strerror(errno);
    }
    return reason;
}

/* Gives a file its name. */
static const char *name_part(int folder, struct part *part)
{
    if (renameat(folder, part->unfinished, folder, part->name) != 0) {
        return strerror(errno);
    }
    part->unfinished[0] = '\0';
    return NULL;
}

/* Takes away what is not finished. */
static void clear(int folder, const struct part *parts, size_t count)
{
    for (size_t i = 0; i < count; i++) {
        if (parts[i].unfinished[0] != '\0') {
            unlinkat(folder, parts[i].unfinished, 0);
        }
    }
}

struct failure write_parts(int folder, struct part *parts, size_t count)
{
    struct failure failure = {"", NULL};

    for (size_t i = 0; i < 2 * count && failure.reason == NULL; i++) {
        failure.name = parts[i % count].name;
        failure.reason = i < count ? write_part(folder, &parts[i]) : name_part(folder, &parts[i - count]);
    }
    if (failure.reason != NULL) {
        clear(folder, parts, count);
    } else if (fsync(folder) != 0 && errno != EINVAL) { /* EINVAL: of a file system that keeps names by itself */
        failure = (struct failure){"", strerror(errno)};
    }
    return failure;
}
