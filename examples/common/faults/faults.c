/*
 * For tests: a program that is linked with this, and with a --wrap flag for each call below, counts its calls for files.
 * The variable FAULT, as "7 kill", names one by its number: before it the program is killed (kill) or stops until it is
 * told to go on (stop), or it fails (fail). The variable CALLS names a file to which each call is written, a line each.
 */
#define _POSIX_C_SOURCE 200809L

#include <errno.h>
#include <fcntl.h>
#include <signal.h>
#include <stdarg.h>
#include <stdbool.h>
#include <stdio.h>
#include <stdlib.h>
#include <string.h>
#include <sys/stat.h>
#include <unistd.h>

int __real_openat(int folder, const char *name, int flags, ...);
int __real_fcntl(int file, int command, ...);
int __real_fchown(int file, uid_t owner, gid_t group);
int __real_fchmod(int file, mode_t mode);
ssize_t __real_write(int file, const void *bytes, size_t length);
int __real_fsync(int file);
int __real_renameat(int from, const char *old, int to, const char *new);
int __real_close(int file);

int __wrap_openat(int folder, const char *name, int flags, ...);
int __wrap_fcntl(int file, int command, ...);
int __wrap_fchown(int file, uid_t owner, gid_t group);
int __wrap_fchmod(int file, mode_t mode);
ssize_t __wrap_write(int file, const void *bytes, size_t length);
int __wrap_fsync(int file);
int __wrap_renameat(int from, const char *old, int to, const char *new);
int __wrap_close(int file);

static void note(const char *call, const char *of)
{
    const char *file = getenv("CALLS");
    FILE *calls = file == NULL ? NULL : fopen(file, "a");

    if (calls != NULL) {
        fprintf(calls, "%s %s\n", call, of);
        fclose(calls);
    }
}

/* Whether the next call fails. */
static bool fails(const char *call, const char *of)
{
    static long count;
    const char *fault = getenv("FAULT");
    char *action = NULL;

    note(call, of);
    count++;
    if (fault == NULL || strtol(fault, &action, 10) != count) {
        return false;
    }
    if (strcmp(action, " kill") == 0) {
        raise(SIGKILL);
    }
    if (strcmp(action, " stop") == 0) {
        raise(SIGSTOP);
        return false;
    }
    errno = EIO;
    return true;
}

/* What a descriptor is of. */
static const char *kind(int file)
{
    struct stat status;

    return fstat(file, &status) == 0 && S_ISDIR(status.st_mode) ? "folder" : "file";
}

int __wrap_openat(int folder, const char *name, int flags, ...)
{
    va_list more;
    int mode;

    va_start(more, flags);
    mode = (flags & O_CREAT) != 0 ? va_arg(more, int) : 0;
    va_end(more);
    return fails("openat", name) ? -1 : __real_openat(folder, name, flags, mode);
}

int __wrap_fcntl(int file, int command, ...)
{
    va_list more;
    void *argument;

    if (command != F_SETLKW) {
        return __real_fcntl(file, command);
    }
    va_start(more, command);
    argument = va_arg(more, void *);
    va_end(more);
    return fails("lock", kind(file)) ? -1 : __real_fcntl(file, command, argument);
}

int __wrap_fchown(int file, uid_t owner, gid_t group)
{
    return fails("fchown", kind(file)) ? -1 : __real_fchown(file, owner, group);
}

int __wrap_fchmod(int file, mode_t mode)
{
    return fails("fchmod", kind(file)) ? -1 : __real_fchmod(file, mode);
}

/* A write that a kill or a stop finds in its middle: half of the bytes are there. */
ssize_t __wrap_write(int file, const void *bytes, size_t length)
{
    ssize_t written = length < 2 ? 0 : __real_write(file, bytes, length / 2);

    if (written < 0 || fails("write", kind(file))) {
        return -1;
    }
    return length < 2 ? __real_write(file, bytes, length) : written;
}

int __wrap_fsync(int file)
{
    return fails("fsync", kind(file)) ? -1 : __real_fsync(file);
}

int __wrap_renameat(int from, const char *old, int to, const char *new)
{
    return fails("renameat", new) ? -1 : __real_renameat(from, old, to, new);
}

int __wrap_close(int file)
{
    bool bad = fails("close", kind(file));
    int answer = __real_close(file);

    return bad ? -1 : answer;
}
