/* The commands of block lists. */
#define _POSIX_C_SOURCE 200809L

#include <errno.h>
#include <fcntl.h>
#include <stdio.h>
#include <stdlib.h>
#include <string.h>

#include "../calendar/fields.h"
#include "../common/block_list.h"
#include "../common/output.h"
#include "../common/steps.h"
#include "../common/whole.h"
#include "commands.h"

/* The bytes of a list: a line of a text has more than those of its entry. */
static uint8_t entries[TEXT_MOST + 1];

static struct swap swap;

/* Asks whether the ledger takes so many bytes of the list. */
static uint32_t judge(size_t length)
{
    return swap_blocks(swap.sheet, swap.sheet_length, swap.setup, swap.setup_length, entries, length);
}

/* Reads the folder, whose sheet and setup must pass: FINE, or the status with a message. */
static int accept_setup(const char *folder)
{
    uint32_t answer;

    if (!read_folder(folder, &swap)) {
        return REFUSED;
    }
    answer = judge(0);
    return answer == SWAP_ACCEPTED ? FINE : refuse_swap(folder, answer);
}

/* The text of a list; false, with a message that names the line, where it is none. */
static bool read_lines(const char *file, size_t *length)
{
    static char text[TEXT_MOST + 2];
    struct line line = {.program = PROGRAM, .of = file};
    size_t size;
    size_t at = 0;

    *length = 0;
    if (!read_text(&line, text, &size)) {
        return false;
    }
    while (next_line(text, size, &at, &line)) {
        if (!line.sound) {
            return bad(&line, "no line of text, or too many words");
        }
        if (line.count > 0) {
            if (!read_entry(&line, &swap, entries + *length)) {
                return false;
            }
            *length += ENTRY_SIZE;
        }
    }
    return true;
}

/* The bytes of a list; false, with a message, where they can't be read. */
static bool read_bytes(const char *file, size_t *length)
{
    const char *reason = read_plain(AT_FDCWD, file, entries, sizeof entries, length);

    if (reason == NULL && *length == sizeof entries) {
        reason = strerror(EFBIG);
    }
    if (reason != NULL) {
        complain(PROGRAM, file, "", reason);
    }
    return reason == NULL;
}

static bool is_bytes(const char *file)
{
    size_t length = strlen(file);

    return length > 4 && strcmp(file + length - 4, ".bin") == 0;
}

int blocks(int count, char **words)
{
    size_t length;
    uint32_t answer;
    int status = accept_setup(words[0]);

    (void)count;
    if (status != FINE) {
        return status;
    }
    if (!(is_bytes(words[1]) ? read_bytes(words[1], &length) : read_lines(words[1], &length))) {
        return REFUSED;
    }
    answer = judge(length);
    if (answer != SWAP_ACCEPTED) {
        return refuse(words[1], "", SWAP_REFUSAL(answer));
    }
    printf("the ledger takes the list: %zu transactions\n", length / ENTRY_SIZE);
    return FINE;
}

/* An ending: the mask of its transactions, and whom each pays. */
struct ending {
    uint32_t mask;
    uint8_t payees[SWAP_TRANSACTIONS];
};

/* Reads "TRANSACTION paying PARTY", as often as it stands there. */
static bool read_ending(struct line *line, struct ending *ending)
{
    while (line->taken < line->count) {
        uint8_t t;

        if (!expect_transaction(line, &swap, &t) || !expect(line, "paying") ||
            !expect_party(line, &swap, &ending->payees[t])) {
            return false;
        }
        if ((ending->mask >> t & 1u) != 0) {
            return bad(line, "transaction %u stands there twice", (unsigned)t);
        }
        ending->mask |= (uint32_t)1 << t;
        take(line, "and");
    }
    return true;
}

/* The destinations of the mask's bits, 4 bytes each: how many bytes. */
static size_t write_payees(const struct ending *ending, uint8_t to[4 * SWAP_TRANSACTIONS])
{
    size_t length = 0;

    for (unsigned t = 0; t < SWAP_TRANSACTIONS; t++) {
        if ((ending->mask >> t & 1u) != 0) {
            memset(to + length, 0, 4);
            to[length] = ending->payees[t];
            length += 4;
        }
    }
    return length;
}

int earliest(int count, char **words)
{
    struct line line = {.program = PROGRAM, .of = "ending"};
    struct ending ending = {0, {0}};
    uint8_t payees[4 * SWAP_TRANSACTIONS];
    char text[ARGUMENTS_MOST];
    size_t length;
    uint32_t answer;
    int status = accept_setup(words[0]);

    if (status != FINE) {
        return status;
    }
    if (!join(PROGRAM, words + 1, count - 1, text) || !cut_words(text, &line) || !read_ending(&line, &ending)) {
        return BAD_USAGE;
    }
    length = write_payees(&ending, payees);
    answer = swap_earliest(swap.sheet, swap.sheet_length, swap.setup, swap.setup_length, ending.mask, payees, length,
                           entries, sizeof entries);
    if (SWAP_REFUSAL(answer) != SWAP_ACCEPTED) {
        return refuse(words[0], "", SWAP_REFUSAL(answer));
    }
    print_entries(&swap, entries, SWAP_COUNT(answer));
    return FINE;
}
