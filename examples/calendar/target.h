/* The file of the page, which is written whole or not at all. */
#ifndef TARGET_H
#define TARGET_H

#include <stddef.h>

/* A file to write: its folder, open, and its name there. */
struct target {
    int folder;
    const char *name;
};

/* Opens the folder of a path whose name is free or a plain file's. NULL, or the reason why that cannot be. */
const char *open_target(const char *path, struct target *target);
void close_target(const struct target *target);

/* Writes the file. NULL, or the reason why that cannot be: then the target is as before, unless it is there and only
 * the folder failed to reach the disk. */
const char *write_target(const struct target *target, const void *bytes, size_t length);

#endif
