#define _POSIX_C_SOURCE 200809L

#include "output.h"

#include <errno.h>
#include <fcntl.h>
#include <string.h>
#include <unistd.h>

/* Why something that was printed did not get out, the first time; 0: it did. */
static int lost;

void open_standard(void)
{
    static const int modes[] = {O_WRONLY, O_RDONLY, O_RDONLY};

    for (int i = 0; i < 3; i++) {
        if (fcntl(i, F_GETFD) < 0 && errno == EBADF) {
            open("/dev/null", modes[i]); /* the lowest free number, i */
        }
    }
}

size_t character(const char *text)
{
    /* the first bytes, and the range of the second: no character has a longer form than it needs, or is a surrogate */
    static const struct {
        unsigned char first, last, least, most;
        size_t length;
    } forms[] = {
        {0x01, 0x7F, 0, 0, 1},       {0xC2, 0xDF, 0x80, 0xBF, 2}, {0xE0, 0xE0, 0xA0, 0xBF, 3},
        {0xE1, 0xEC, 0x80, 0xBF, 3}, {0xED, 0xED, 0x80, 0x9F, 3}, {0xEE, 0xEF, 0x80, 0xBF, 3},
        {0xF0, 0xF0, 0x90, 0xBF, 4}, {0xF1, 0xF3, 0x80, 0xBF, 4}, {0xF4, 0xF4, 0x80, 0x8F, 4},
    };
    const unsigned char *bytes = (const unsigned char *)text;

    for (size_t i = 0; i < sizeof forms / sizeof forms[0]; i++) {
        if (bytes[0] >= forms[i].first && bytes[0] <= forms[i].last) {
            bool sound = forms[i].length == 1 || (bytes[1] >= forms[i].least && bytes[1] <= forms[i].most);

            for (size_t at = 2; at < forms[i].length && sound; at++) {
                sound = (bytes[at] & 0xC0) == 0x80;
            }
            return sound ? forms[i].length : 0;
        }
    }
    return 0;
}

bool is_control(const char *text)
{
    const unsigned char *bytes = (const unsigned char *)text;

    return bytes[0] < ' ' || bytes[0] == 0x7F || (bytes[0] == 0xC2 && bytes[1] >= 0x80 && bytes[1] <= 0x9F);
}

size_t print_visible(FILE *to, const char *text)
{
    size_t count = 0;

    for (; *text != '\0'; count++) {
        size_t length = character(text);

        if (length == 0 || is_control(text)) {
            fputc('?', to);
        } else {
            fwrite(text, 1, length, to);
        }
        text += length == 0 ? 1 : length;
    }
    return count;
}

void complain(const char *program, const char *of, const char *name, const char *reason)
{
    fprintf(stderr, "%s: ", program);
    print_visible(stderr, of);
    if (*name != '\0') {
        fputc('/', stderr);
        print_visible(stderr, name);
    }
    fprintf(stderr, ": %s\n", reason);
}

/* Notes that something failed, and why. */
static void note(bool failed, int reason)
{
    if (failed && lost == 0) {
        lost = reason != 0 ? reason : EIO;
    }
}

void flush_output(void)
{
    bool failed = fflush(stdout) != 0;

    note(failed, errno);
}

int printed(const char *program, int status, const char *done)
{
    bool earlier = ferror(stdout) != 0;
    int reason = errno;
    bool failed = fclose(stdout) != 0;

    note(failed, errno);
    note(earlier, reason);
    if (lost == 0) {
        return status;
    }
    fprintf(stderr, "%s: output: %s%s%s\n", program, strerror(lost), done == NULL ? "" : "; ",
            done == NULL ? "" : done);
    return 1;
}
