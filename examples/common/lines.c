#define _POSIX_C_SOURCE 200809L

#include "lines.h"

#include <errno.h>
#include <fcntl.h>
#include <stdarg.h>
#include <stdio.h>
#include <stdlib.h>
#include <string.h>
#include <strings.h>

#include "output.h"
#include "whole.h"

bool read_text(const struct line *line, char *text, size_t *length)
{
    const char *reason = read_plain(AT_FDCWD, line->of, text, TEXT_MOST + 1, length);

    if (reason == NULL && *length > TEXT_MOST) {
        reason = strerror(EFBIG);
    }
    if (reason != NULL) {
        complain(line->program, line->of, "", reason);
    }
    return reason == NULL;
}

/* Whether the bytes are text: no control characters but tabs and a carriage return. */
static bool is_text(const char *bytes, size_t length)
{
    for (size_t i = 0; i < length; i++) {
        unsigned char byte = (unsigned char)bytes[i];

        if ((byte < ' ' && byte != '\t' && byte != '\r') || byte == 127) {
            return false;
        }
    }
    return true;
}

/* Cuts a line, which ends with a zero, into words. False where they are too many. */
static bool cut(char *text, struct line *line)
{
    static const char blanks[] = " \t\r,:";

    text[strcspn(text, "#")] = '\0';
    line->count = 0;
    line->taken = 0;
    for (text += strspn(text, blanks); *text != '\0'; text += strspn(text, blanks)) {
        if (line->count == WORDS_MOST) {
            return false;
        }
        line->words[line->count++] = text;
        text += strcspn(text, blanks);
        if (*text != '\0') {
            *text++ = '\0';
        }
    }
    return true;
}

bool next_line(char *text, size_t length, size_t *at, struct line *line)
{
    char *start = text + *at;
    char *end;

    line->number++;
    if (*at >= length) {
        return false;
    }
    end = memchr(start, '\n', length - *at);
    if (end == NULL) {
        end = text + length;
    }
    *at = (size_t)(end - text) + 1;
    line->count = 0;
    line->taken = 0;
    line->sound = is_text(start, (size_t)(end - start));
    if (line->sound) {
        *end = '\0';
        line->sound = cut(start, line);
    }
    return true;
}

bool join(const char *program, char **arguments, int count, char text[ARGUMENTS_MOST])
{
    size_t length = 0;

    for (int i = 0; i < count; i++) {
        size_t more = strlen(arguments[i]);

        if (more + 1 >= ARGUMENTS_MOST - length) {
            complain(program, arguments[i], "", "too many words");
            return false;
        }
        memcpy(text + length, arguments[i], more);
        length += more;
        text[length++] = ' ';
    }
    text[length] = '\0';
    return true;
}

bool cut_words(char *text, struct line *line)
{
    return (is_text(text, strlen(text)) && cut(text, line)) || bad(line, "no text, or too many words");
}

bool bad(const struct line *line, const char *format, ...)
{
    char *words = NULL;
    size_t length;
    FILE *to = open_memstream(&words, &length);
    va_list more;

    fprintf(stderr, "%s: ", line->program);
    print_visible(stderr, line->of);
    if (line->number > 0) {
        fprintf(stderr, ":%u", line->number);
    }
    fputs(": ", stderr);
    if (to != NULL) {
        va_start(more, format);
        vfprintf(to, format, more);
        va_end(more);
        fclose(to);
    }
    print_visible(stderr, words == NULL ? "no memory" : words);
    fputc('\n', stderr);
    free(words);
    return false;
}

const char *next_word(const struct line *line)
{
    return line->taken < line->count ? line->words[line->taken] : "the end of the line";
}

bool take(struct line *line, const char *phrase)
{
    size_t at = line->taken;

    while (*phrase != '\0') {
        size_t length = strcspn(phrase, " ");

        if (at == line->count || strlen(line->words[at]) != length ||
            strncasecmp(line->words[at], phrase, length) != 0) {
            return false;
        }
        at++;
        phrase += length + strspn(phrase + length, " ");
    }
    line->taken = at;
    return true;
}

bool expect(struct line *line, const char *phrase)
{
    return take(line, phrase) || bad(line, "'%s' where '%s' is expected", next_word(line), phrase);
}

bool expect_end(struct line *line)
{
    return line->taken == line->count || bad(line, "'%s' where the line should end", next_word(line));
}

bool is_number(const char *word)
{
    return *word != '\0' && word[strspn(word, "0123456789")] == '\0';
}

bool expect_number(struct line *line, unsigned least, unsigned most, unsigned *number)
{
    const char *word = next_word(line);
    unsigned value = 0;

    if (!is_number(word) || strlen(word) > 6) {
        return bad(line, "'%s' where a number from %u to %u is expected", word, least, most);
    }
    for (const char *digit = word; *digit != '\0'; digit++) {
        value = 10 * value + (unsigned)(*digit - '0');
    }
    if (value < least || value > most) {
        return bad(line, "%s is no number from %u to %u", word, least, most);
    }
    line->taken++;
    *number = value;
    return true;
}
