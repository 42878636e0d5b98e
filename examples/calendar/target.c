#define _POSIX_C_SOURCE 200809L

#include "target.h"

#include <errno.h>
#include <stdlib.h>
#include <string.h>
#include <unistd.h>

#include "../common/whole.h"

/* Opens the folder's part of a path, which ends before its name; -1, with errno set, where that cannot be. */
static int open_before(const char *path, const char *name)
{
    char *folder = strndup(path, (size_t)(name - path));
    int descriptor = folder == NULL ? -1 : open_folder(folder);
    int reason = errno;

    free(folder);
    errno = reason;
    return descriptor;
}

const char *open_target(const char *path, struct target *target)
{
    const char *slash = strrchr(path, '/');
    const char *reason;

    target->name = slash == NULL ? path : slash + 1;
    target->folder = slash == NULL ? open_folder(".") : open_before(path, target->name);
    if (target->folder < 0) {
        return strerror(errno);
    }
    reason = target->name[0] == '\0' ? strerror(EISDIR) : occupied(target->folder, target->name);
    if (reason != NULL) {
        close_target(target);
    }
    return reason;
}

void close_target(const struct target *target)
{
    close(target->folder);
}

const char *write_target(const struct target *target, const void *bytes, size_t length)
{
    struct part part = {target->name, bytes, length, ""};

    return write_parts(target->folder, &part, 1).reason;
}
