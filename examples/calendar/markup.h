/* Text and numbers inside HTML, JSON and iCalendar, and in plain lines. */
#ifndef MARKUP_H
#define MARKUP_H

#include <stdint.h>
#include <stdio.h>

/* The beginning of a table's cell with a number, to be printed with the column's name, which a narrow screen shows. */
#define NUMBER "<td class=\"n\" data-name=\"%s\">"

enum markup { AS_HTML, AS_JSON, AS_ICS, AS_TEXT };

/* Writes a text so that it is read as such: what is special there is escaped, and a byte that is no UTF-8 becomes the
 * replacement character. Control characters are question marks in HTML and iCalendar; in
 * plain lines these bytes are too. */
void write_text(FILE *to, enum markup markup, const char *text);

/* Writes a number in decimal. */
void write_number(FILE *to, uint64_t number);

/* Writes a height of the real chain, which stood at BASE before block 1: "never" in HTML, null in JSON, is SWAP_NEVER. */
void write_height(FILE *to, enum markup markup, uint32_t base, uint32_t height);

#endif
