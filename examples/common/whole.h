/* Files that are read and written whole, and the lock of a folder that several programs write to. A reason is given in
 * words; NULL: there is none, and it is done. */
#ifndef WHOLE_H
#define WHOLE_H

#include <stdbool.h>
#include <stddef.h>

/* The file of a swap's folder whose lock a program holds while it reads the journal and replaces it. Who only reads
 * needs no lock: a file is replaced by renaming, so what is read is the file before or the file after, whole. */
#define LOCK_NAME "journal.lock"

/* A file to write: its name and its bytes; and the name that it has until it is whole, "" where it has none. */
struct part {
    const char *name;
    const void *bytes;
    size_t length;
    char unfinished[48];
};

/* Why files are not written, and of which one. Where only the last fails, that their names reach the disk, this one is
 * "": the files are there, but a crash of the machine may bring back those before. */
struct failure {
    const char *name;
    const char *reason;
};

/* Opens a folder; -1, with errno set, where that cannot be. */
int open_folder(const char *path);

/* Reads at most SIZE bytes of a plain file or of one that a link leads to. None is waited for. */
const char *read_plain(int folder, const char *name, void *bytes, size_t size, size_t *length);

/* Why no file can take this name of the folder: it is neither free nor that of a plain file without a further name. */
const char *occupied(int folder, const char *name);

/* Waits until no other program holds the folder's lock, and takes it. It is held until the descriptor is closed. */
const char *lock_folder(int folder, int *lock);

/* Writes files under other names and to the disk, then gives them their own; each has the owner and the mode of the one
 * whose place it takes. Where one cannot be written, all are as before. */
struct failure write_parts(int folder, struct part *parts, size_t count);

#endif
