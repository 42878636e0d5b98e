#include "markup.h"

#include <inttypes.h>
#include <string.h>

#include "../common/output.h"
#include "words.h"

/* What stands for a byte that is no UTF-8: U+FFFD. */
static const char replacement[] = "\xEF\xBF\xBD";

/* Writes a character that is special in HTML by its name, another one as it is. */
static void write_html(FILE *to, const char *text, size_t length)
{
    static const char special[] = "&<>\"'";
    static const char *const names[] = {"&amp;", "&lt;", "&gt;", "&quot;", "&#39;"};
    const char *found = strchr(special, *text);

    if (is_control(text)) {
        fputc('?', to);
    } else if (found != NULL) {
        fputs(names[found - special], to);
    } else {
        fwrite(text, 1, length, to);
    }
}

/* The same in JSON: a control character by its number, which is that of its last byte. */
static void write_json(FILE *to, const char *text, size_t length)
{
    if (is_control(text)) {
        fprintf(to, "\\u%04x", (unsigned)(unsigned char)text[length - 1]);
    } else if (*text == '"' || *text == '\\') {
        fprintf(to, "\\%c", *text);
    } else {
        fwrite(text, 1, length, to);
    }
}

/* The same in iCalendar. */
static void write_escaped(FILE *to, const char *text, size_t length)
{
    if (is_control(text)) {
        fputc('?', to);
    } else {
        fputs(strchr("\\;,", *text) != NULL ? "\\" : "", to);
        fwrite(text, 1, length, to);
    }
}

void write_text(FILE *to, enum markup markup, const char *text)
{
    if (markup == AS_TEXT) {
        print_visible(to, text);
        return;
    }
    while (*text != '\0') {
        size_t length = character(text);

        if (length == 0) {
            fputs(replacement, to);
        } else if (markup == AS_HTML) {
            write_html(to, text, length);
        } else if (markup == AS_ICS) {
            write_escaped(to, text, length);
        } else {
            write_json(to, text, length);
        }
        text += length == 0 ? 1 : length;
    }
}

void write_number(FILE *to, uint64_t number)
{
    fprintf(to, "%" PRIu64, number);
}

void write_height(FILE *to, enum markup markup, uint32_t base, uint32_t height)
{
    if (height == SWAP_NEVER) {
        fputs(markup == AS_HTML ? "never" : "null", to);
    } else {
        write_number(to, chain_height(base, height));
    }
}
