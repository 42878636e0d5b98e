/* Text, line by line, each line as words. */
#ifndef LINES_H
#define LINES_H

#include <stdbool.h>
#include <stddef.h>
#include <stdint.h>

/* The longest text: the longest journal takes up less than half of it. */
#define TEXT_MOST (4u << 20)

/* The most words of a line: the longest of a sheet has 23, the longest ending 160. */
#define WORDS_MOST 160

/* A line: the words before a comment, and how many of them are taken. Blanks, commas and colons part words. */
struct line {
    const char *program; /* who reads it */
    const char *of;      /* the file; or what else has the words, and then the number is 0 */
    unsigned number;
    size_t count;
    size_t taken;
    bool sound; /* text, and not too many words */
    char *words[WORDS_MOST];
};

/* The text of a plain file, the line's, which is not waited for. False, with a message, where it cannot be read. */
bool read_text(const struct line *line, char *text, size_t *length);

/* Cuts the next line off a text, which starts at *AT. False at the text's end. The
 * text has a byte of room after its end. */
bool next_line(char *text, size_t length, size_t *at, struct line *line);

/* The longest arguments that are a line. */
#define ARGUMENTS_MOST 4096

/* Joins arguments to a text with a blank after each. False, with a message that names the first, where they are too long. */
bool join(const char *program, char **arguments, int count, char text[ARGUMENTS_MOST]);

/* Cuts such a text, which is no file's, into words. False, with a message, where it is no text or has too many. */
bool cut_words(char *text, struct line *line);

/* Prints what is wrong with a line, as "PROGRAM: FILE:NUMBER: ..."; false. */
bool bad(const struct line *line, const char *format, ...);

/* The next word, or the words "the end of the line". */
const char *next_word(const struct line *line);

/* Takes the words of a phrase where they come next; case does not matter. */
bool take(struct line *line, const char *phrase);

/* The same; else a message. */
bool expect(struct line *line, const char *phrase);
bool expect_end(struct line *line);

/* Takes a number from LEAST to MOST, in decimal; else a message. */
bool expect_number(struct line *line, unsigned least, unsigned most, unsigned *number);

/* Whether a word is a number. */
bool is_number(const char *word);

#endif
