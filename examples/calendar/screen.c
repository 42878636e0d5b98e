#include "screen.h"

#include <stdio.h>
#include <stdlib.h>

#include "outages.h"
#include "outlook.h"

/* The names of swaps and transactions, and the marks before them. */
enum { MARK_WIDTH = 11, NAME_WIDTH = 16 };

static unsigned urgency_of(const struct stand *stand)
{
    if (stand->warned) {
        return WARNED;
    }
    if (is_bounded(stand)) {
        return BOUNDED;
    }
    if (stand->standing == GIVEN_UP) {
        return LOST;
    }
    return stand->standing == NOT_YET ? UNSTARTED : SURE;
}

/* The line of a side of a sound swap. */
static struct line line_of(const struct question *question, const struct desk *desk, size_t place, uint8_t side)
{
    const struct entry *entry = desk->entries[place];

    return (struct line){
        .entry = entry,
        .place = place,
        .side = side,
        .t = entry->stands[side].t,
        .urgency = urgency_of(&entry->stands[side]),
        .slack = slack_of(question, entry, side),
        .own_blocks = is_mixed(desk) && !entry->based,
    };
}

/* The lines of all swaps; a swap that is no good has one. */
static size_t lines_of(const struct question *question, const struct desk *desk, struct line *lines)
{
    size_t count = 0;

    for (size_t i = 0; i < desk->count; i++) {
        const struct entry *entry = desk->entries[i];

        if (!is_sound(entry)) {
            lines[count++] = (struct line){.entry = entry, .place = i, .side = SWAP_NONE, .t = SWAP_NONE};
            continue;
        }
        for (uint8_t side = SWAP_ALICE; side <= SWAP_CAROL; side++) {
            if (is_shown(entry, side)) {
                lines[count++] = line_of(question, desk, i, side);
            }
        }
    }
    return count;
}

static int order(size_t a, size_t b)
{
    return (a > b) - (a < b);
}

/* The slack of a line's side; 0 of a swap that is no good. */
static size_t slack_in(const struct line *line)
{
    return line->side == SWAP_NONE ? 0 : line->entry->stands[line->side].slack;
}

static int by_urgency(const void *a, const void *b)
{
    const struct line *first = a;
    const struct line *second = b;
    int by = order(first->urgency, second->urgency);

    if (by == 0) {
        by = order(slack_in(first), slack_in(second));
    }
    if (by == 0) {
        by = order(first->place, second->place);
    }
    return by != 0 ? by : order(first->side, second->side);
}

static void show_fault(const struct entry *entry)
{
    uint32_t refusal = SWAP_REFUSAL(entry->answer);

    printf("%-*s", MARK_WIDTH, entry->fault.file != NULL ? "UNREADABLE" : "REFUSED");
    print_name(entry->name, NAME_WIDTH);
    if (entry->fault.file != NULL) {
        printf(" %s: %s\n", entry->fault.file, entry->fault.reason);
    } else {
        printf(" %s (%lu), %s\n", swap_refusal_name(refusal), (unsigned long)refusal, swap_refusal_words(refusal));
    }
}

uint32_t from_block(const struct line *line)
{
    return line->t == SWAP_NONE ? 0 : soonest_block_of(&line->entry->position, line->t);
}

uint32_t to_block(const struct line *line)
{
    return line->t == SWAP_NONE ? 0 : soonest_deadline_of(&line->entry->position, line->t);
}

struct label left_label(const struct line *line)
{
    uint32_t left = line->t == SWAP_NONE ? SWAP_NEVER : blocks_left(&line->entry->position, line->t);

    return left == SWAP_NEVER ? (struct label){"-"} : height_label(0, left);
}

/* A block of the window; "-" where nothing is counted on. */
static struct label block_label(const struct line *line, uint32_t block)
{
    return line->t == SWAP_NONE ? (struct label){"-"} : height_label(line->entry->base, block);
}

static void show_line(const struct question *question, const struct line *line)
{
    if (line->urgency == FAULTY) {
        show_fault(line->entry);
        return;
    }
    printf("%-*s", MARK_WIDTH, line->urgency == WARNED ? "WARNING" : "");
    print_name(line->entry->name, NAME_WIDTH);
    printf(" %-6s%-21s%8s%8s%7s%7s  ", party_name(line->side),
           line->t == SWAP_NONE ? "-" : transaction_label(&line->entry->swap, line->t).text,
           block_label(line, from_block(line)).text,
           block_label(line, to_block(line)).text, left_label(line).text, slack_label(&line->slack).text);
    print_payout(stdout, question, line->entry, line->side);
    printf("%s\n", line->own_blocks ? OWN_BLOCKS : "");
}

struct line *lines_by_urgency(const struct question *question, const struct desk *desk, size_t *count)
{
    struct line *lines = malloc((SWAP_PARTIES * desk->count + 1) * sizeof *lines);

    if (lines != NULL) {
        *count = lines_of(question, desk, lines);
        qsort(lines, *count, sizeof *lines, by_urgency);
    }
    return lines;
}

bool show_screen(const struct question *question, const struct desk *desk)
{
    size_t count;
    struct line *lines = lines_by_urgency(question, desk, &count);

    if (lines == NULL) {
        return false;
    }
    print_question(stdout, question);
    printf("\n");
    printf("%-*s%-*s %-6s%-21s%8s%8s%7s%7s  %s\n", MARK_WIDTH, "", NAME_WIDTH, "swap", "side", "counts on", "from",
           "to", "left", "free", "what to do");
    for (size_t i = 0; i < count; i++) {
        show_line(question, &lines[i]);
    }
    free(lines);
    return true;
}
