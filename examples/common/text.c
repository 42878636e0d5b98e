#include "text.h"

#include <stdio.h>
#include <string.h>

#include "../calendar/position.h"
#include "../calendar/saswap.h"
#include "../calendar/words.h"
#include "lines.h"
#include "output.h"
#include "sheets.h"
#include "steps.h"

/* The parts of a text, in their order. */
enum part { HEAD, SHEET, NAMED_SHEET, JOURNAL };

/* The lines of the head; the last need not be there. */
enum { BLOCKS, CONDUCT, STEALTH, SIDE, FIELDS };

static const char *const field_names[FIELDS] = {"blocks per day", "conduct", "stealth", "side"};

/* The words of a field by number, where it is not a number itself. */
static const char *const field_words[FIELDS][3] = {
    [CONDUCT] = {"open", "loose", "careful"},
    [STEALTH] = {"no", "yes", NULL},
    [SIDE] = {"alice", "bob", "carol"}, /* in the order of their bits among payees */
};

/* What is read of a text. */
struct reading {
    enum part part;
    struct swap *swap;
    unsigned values[FIELDS];
    unsigned lines[FIELDS]; /* where each stands; 0: nowhere */
    struct draft draft;
    unsigned step_lines[SWAP_JOURNAL_SIZE / 4];
};

static bool read_word(struct line *line, unsigned field, unsigned *value)
{
    for (unsigned i = 0; i < 3 && field_words[field][i] != NULL; i++) {
        if (take(line, field_words[field][i])) {
            *value = i;
            return true;
        }
    }
    return bad(line, "'%s' is no %s", next_word(line), field_names[field]);
}

static bool read_field(struct line *line, unsigned field, struct reading *reading)
{
    if (reading->lines[field] != 0) {
        return bad(line, "'%s' for the second time", field_names[field]);
    }
    reading->lines[field] = line->number;
    return (field == BLOCKS ? expect_number(line, 1, 1000, &reading->values[field])
                            : read_word(line, field, &reading->values[field])) &&
           expect_end(line);
}

/* The line that starts the sheet: the setup stands before it. */
static bool begin_sheet(struct line *line, struct reading *reading)
{
    struct swap *swap = reading->swap;
    const unsigned *values = reading->values;

    for (unsigned field = BLOCKS; field <= STEALTH; field++) {
        if (reading->lines[field] == 0) {
            return bad(line, "'%s' must stand before the sheet", field_names[field]);
        }
    }
    swap->setup[0] = (uint8_t)(values[BLOCKS] & 255u);
    swap->setup[1] = (uint8_t)(values[BLOCKS] >> 8);
    swap->setup[2] = (uint8_t)values[CONDUCT];
    swap->setup[3] = (uint8_t)values[STEALTH];
    swap->setup_length = SWAP_SETUP_SIZE;
    reading->part = take(line, "saswap") ? NAMED_SHEET : SHEET;
    reading->draft.heading = line->number;
    if (reading->part == NAMED_SHEET) {
        saswap_sheet(values[BLOCKS], swap->sheet);
        swap->sheet_length = SASWAP_SIZE;
    }
    return expect_end(line);
}

/* Tells a refusal of sheet, setup or journal at its line. */
static bool refuse(const struct reading *reading, const struct line *line, uint32_t answer)
{
    uint32_t refusal = SWAP_REFUSAL(answer);
    uint32_t count = SWAP_COUNT(answer);
    struct line at = *line;

    if (refusal >= SWAP_STEP_FIELD && refusal <= SWAP_STEP_BLOCKS) {
        at.number = reading->step_lines[count];
        return bad(&at, "step %lu is refused: %s (%s)", (unsigned long)count + 1, swap_refusal_words(refusal),
                   swap_refusal_name(refusal));
    }
    at.number = reading->draft.heading;
    if (refusal == SWAP_SETUP_BLOCKS) {
        at.number = reading->lines[BLOCKS];
    } else if (refusal == SWAP_SETUP_CONDUCT || refusal == SWAP_SETUP_PARTIES) {
        at.number = reading->lines[CONDUCT];
    }
    return bad(&at, "refused: %s (%s)", swap_refusal_words(refusal), swap_refusal_name(refusal));
}

static bool is_accepted(const struct reading *reading, const struct line *line)
{
    const struct swap *swap = reading->swap;
    uint32_t answer = swap_run(swap->sheet, swap->sheet_length, swap->setup, swap->setup_length, swap->journal,
                               swap->journal_length);

    return SWAP_REFUSAL(answer) == SWAP_ACCEPTED || refuse(reading, line, answer);
}

/* The side as payees have it, or 0. */
static uint8_t sides_of(const struct reading *reading)
{
    return reading->lines[SIDE] == 0 ? 0 : (uint8_t)(1u << reading->values[SIDE]);
}

static bool side_fits(const struct reading *reading, const struct line *line)
{
    struct line at = *line;

    at.number = reading->lines[SIDE];
    return (sides_of(reading) & ~everybody(reading->swap)) == 0 || bad(&at, "carol is no party of this sheet");
}

/* The line that starts the journal: sheet and setup stand before it. */
static bool begin_journal(struct line *line, struct reading *reading)
{
    if (!expect_end(line) || (reading->part == SHEET && !end_sheet(line, &reading->draft, reading->swap))) {
        return false;
    }
    reading->part = JOURNAL;
    reading->swap->journal_length = 0;
    return side_fits(reading, line) && is_accepted(reading, line);
}

static bool read_head_line(struct line *line, struct reading *reading)
{
    for (unsigned field = 0; field < FIELDS; field++) {
        if (take(line, field_names[field])) {
            return read_field(line, field, reading);
        }
    }
    if (take(line, "sheet")) {
        return begin_sheet(line, reading);
    }
    return bad(line, "'%s' where 'blocks per day', 'conduct', 'stealth', 'side' or 'sheet' is expected",
               next_word(line));
}

static bool read_step_line(struct line *line, struct reading *reading)
{
    struct swap *swap = reading->swap;
    uint8_t step[4];
    unsigned times;

    if (!read_steps(line, swap, step, &times)) {
        return false;
    }
    if (times > (SWAP_JOURNAL_SIZE - swap->journal_length) / 4) {
        return bad(line, "a journal has %d steps at most", SWAP_JOURNAL_SIZE / 4);
    }
    for (; times > 0; times--) {
        reading->step_lines[swap->journal_length / 4] = line->number;
        memcpy(swap->journal + swap->journal_length, step, sizeof step);
        swap->journal_length += sizeof step;
    }
    return true;
}

static bool read_line(struct line *line, struct reading *reading)
{
    if (!line->sound) {
        return bad(line, "no line of text, or too many words");
    }
    if (line->count == 0) {
        return true;
    }
    if (reading->part == HEAD) {
        return read_head_line(line, reading);
    }
    if (reading->part == JOURNAL) {
        return read_step_line(line, reading);
    }
    if (take(line, "journal")) {
        return begin_journal(line, reading);
    }
    return reading->part == SHEET ? read_sheet_line(line, &reading->draft) : expect(line, "journal");
}

bool encode_text(const char *program, const char *file, struct swap *swap, uint8_t *sides)
{
    static char text[TEXT_MOST + 2];
    static uint8_t journal[SWAP_JOURNAL_SIZE];
    static struct reading reading;
    struct line line = {.program = program, .of = file};
    size_t length;
    size_t at = 0;

    memset(&reading, 0, sizeof reading);
    reading.swap = swap;
    swap->journal = journal;
    if (!read_text(&line, text, &length)) {
        return false;
    }
    while (next_line(text, length, &at, &line)) {
        if (!read_line(&line, &reading)) {
            return false;
        }
    }
    *sides = sides_of(&reading);
    return reading.part == JOURNAL ? is_accepted(&reading, &line)
                                   : bad(&line, "the text ends before a line '%s'",
                                         reading.part == HEAD ? "sheet" : "journal");
}

const char *side_name(uint8_t sides)
{
    return sides == 0 ? NULL : field_words[SIDE][sides >> 1];
}

/* Prints the head's lines of an accepted setup. */
static void print_setup(const struct swap *swap)
{
    printf("blocks per day: %u\n", blocks_per_day_of(swap));
    printf("conduct: %s\n", field_words[CONDUCT][conduct_of(swap)]);
    printf("stealth: %s\n", field_words[STEALTH][stealth_of(swap)]);
}

static void print_side(uint8_t sides)
{
    if (sides != 0) {
        printf("side: %s\n", side_name(sides));
    }
}

void decode_text(const struct swap *swap, uint8_t sides)
{
    print_setup(swap);
    print_side(sides);
    putchar('\n');
    print_sheet(swap);
    printf("\njournal:\n");
    print_journal(swap);
}

/* Prints bytes of a file as a comment. */
static void print_bytes(const char *file, const uint8_t *bytes, size_t length)
{
    printf("# %s:", file);
    for (size_t i = 0; i < length; i++) {
        printf(" %u", (unsigned)bytes[i]);
    }
    putchar('\n');
}

bool is_of_sheet(uint32_t refusal)
{
    return refusal >= SWAP_SHEET_SHORT && refusal <= SWAP_SHEET_CHILDREN;
}

bool is_of_setup(uint32_t refusal)
{
    return refusal == SWAP_SETUP_BLOCKS || refusal == SWAP_SETUP_CONDUCT || refusal == SWAP_SETUP_PARTIES;
}

void decode_refused(const struct swap *swap, uint8_t sides, uint32_t answer)
{
    uint32_t refusal = SWAP_REFUSAL(answer);
    bool of_swap = is_of_sheet(refusal) || is_of_setup(refusal);

    if (of_swap) {
        printf("# refused: %s (%s)\n", swap_refusal_words(refusal), swap_refusal_name(refusal));
        print_bytes("setup.bin", swap->setup, swap->setup_length);
    } else {
        print_setup(swap);
    }
    print_side(sides);
    putchar('\n');
    if (is_of_sheet(refusal)) {
        print_bytes("sheet.bin", swap->sheet, swap->sheet_length);
        print_bytes("journal.bin", swap->journal, swap->journal_length);
        return;
    }
    print_sheet(swap);
    printf("\njournal:\n");
    if (of_swap) {
        print_steps(swap, swap->journal, swap->journal_length - swap->journal_length % SWAP_STEP_SIZE, NULL);
    } else {
        print_refused_journal(swap, answer);
    }
    if (swap->journal_length % SWAP_STEP_SIZE != 0) {
        print_bytes("no step", swap->journal + swap->journal_length - swap->journal_length % SWAP_STEP_SIZE,
                    swap->journal_length % SWAP_STEP_SIZE);
    }
}

void complain_refusal(const char *program, const char *folder, uint32_t answer)
{
    uint32_t refusal = SWAP_REFUSAL(answer);
    const char *file = is_of_sheet(refusal) ? "sheet.bin" : is_of_setup(refusal) ? "setup.bin" : "journal.bin";
    char step[32] = "";
    char reason[192];

    if (refusal >= SWAP_STEP_FIELD && refusal <= SWAP_STEP_BLOCKS) {
        snprintf(step, sizeof step, "step %lu is ", (unsigned long)SWAP_COUNT(answer) + 1);
    }
    snprintf(reason, sizeof reason, "%srefused: %s (%s)", step, swap_refusal_words(refusal),
             swap_refusal_name(refusal));
    complain(program, folder, file, reason);
}
