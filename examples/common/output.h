/* What a program says, and whether it got out. */
#ifndef OUTPUT_H
#define OUTPUT_H

#include <stdbool.h>
#include <stddef.h>
#include <stdio.h>

/* To be called first: a standard input, output or error that is closed is opened so that its use fails, and no file of
 * the program gets its number. */
void open_standard(void);

/* The bytes of the UTF-8 character that begins here; 0 where none does. */
size_t character(const char *text);

/* Whether a character is a control character: U+0001 to U+001F, U+007F to U+009F. */
bool is_control(const char *text);

/* Prints a text with a question mark for each control character and for each byte that is no UTF-8, so that each line
 * is the program's own: the number of characters. */
size_t print_visible(FILE *to, const char *text);

/* Prints to standard error "PROGRAM: OF: REASON", or "PROGRAM: OF/NAME: REASON" where the name is not empty. */
void complain(const char *program, const char *of, const char *name, const char *reason);

/* Sends off what is printed so far; where that fails, `printed` tells. */
void flush_output(void);

/* To be called last: the exit status, where all that was printed got out. Else 1, with a line on standard error: the
 * reason, and what was done nevertheless, where that is not NULL. */
int printed(const char *program, int status, const char *done);

#endif
