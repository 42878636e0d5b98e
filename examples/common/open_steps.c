#include "open_steps.h"

#include <ctype.h>
#include <string.h>

#include "../calendar/fields.h"
#include "lines.h"
#include "steps.h"

uint32_t ask_open(const struct swap *swap, struct open_steps *open)
{
    uint32_t answer = swap_list(swap->sheet, swap->sheet_length, swap->setup, swap->setup_length, swap->journal,
                                swap->journal_length, open->bytes, sizeof open->bytes);

    open->count = SWAP_COUNT(answer);
    return answer;
}

unsigned long blocks_mined(const struct swap *swap)
{
    unsigned long blocks = 0;

    for (size_t at = 0; at < swap->journal_length; at += SWAP_STEP_SIZE) {
        blocks += swap->journal[at] == SWAP_MINE;
    }
    return blocks;
}

void print_open(const struct swap *swap, const struct open_steps *open)
{
    static const char *const headings[] = {"alice", "bob", "the miner", "carol"};
    unsigned party = SWAP_NONE;

    printf("after step %zu, blocks mined: %lu, open steps: %lu\n", swap->journal_length / SWAP_STEP_SIZE,
           blocks_mined(swap), (unsigned long)open->count);
    for (uint32_t i = 0; i < open->count; i++) {
        const uint8_t *step = open->bytes + SWAP_STEP_SIZE * i;

        if (step[1] != party) {
            party = step[1];
            printf("%s:\n", headings[party]);
        }
        printf("%4lu  %s\n", (unsigned long)i + 1, step_words(swap, step).text);
    }
}

/* A text in small letters with a blank between its words. */
static void plain(const char *text, char to[ARGUMENTS_MOST])
{
    size_t length = 0;

    for (; *text != '\0' && length + 2 < ARGUMENTS_MOST; text++) {
        if (strchr(" \t,:", *text) == NULL) {
            to[length++] = (char)tolower((unsigned char)*text);
        } else if (length > 0 && to[length - 1] != ' ') {
            to[length++] = ' ';
        }
    }
    if (length > 0 && to[length - 1] == ' ') {
        length--;
    }
    to[length] = '\0';
}

static unsigned least(unsigned a, unsigned b)
{
    return a < b ? a : b;
}

/* The fewest characters to put in, take out or change that make one text of the other. */
static unsigned distance(const char *from, const char *to)
{
    unsigned row[ARGUMENTS_MOST]; /* of the part of FROM before a character, to each part of TO */
    size_t length = strlen(to);

    for (size_t j = 0; j <= length; j++) {
        row[j] = (unsigned)j;
    }
    for (size_t i = 0; from[i] != '\0'; i++) {
        unsigned above = row[0];

        row[0] = (unsigned)i + 1;
        for (size_t j = 1; j <= length; j++) {
            unsigned changed = above + (from[i] != to[j - 1]);

            above = row[j];
            row[j] = least(changed, 1 + least(above, row[j - 1]));
        }
    }
    return row[length];
}

void print_nearest(FILE *to, const struct swap *swap, const struct open_steps *open, const char *words)
{
    struct step_words nearest = {"no step"};
    unsigned best = 2 * ARGUMENTS_MOST;
    char asked[ARGUMENTS_MOST];
    char other[ARGUMENTS_MOST];

    plain(words, asked);
    for (uint32_t i = 0; i < open->count; i++) {
        struct step_words step = step_words(swap, open->bytes + SWAP_STEP_SIZE * i);
        unsigned so_far;

        plain(step.text, other);
        so_far = distance(asked, other);
        if (so_far < best) {
            best = so_far;
            nearest = step;
        }
    }
    fprintf(to, "nearest that would pass: %s\n", nearest.text);
}
