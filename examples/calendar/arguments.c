#include "arguments.h"

#include <stdio.h>
#include <string.h>

#include "../common/output.h"

const char usage[] = "usage: calendar [--full | --json] [--html FILE] [--blocks N | --days D]\n"
                     "                [--in N | --from HEIGHT] [--margin N] [--side SIDE]\n"
                     "                [--base HEIGHT] [--slots N] [--height H --at TIME\n"
                     "                [--minutes M] [--ics FILE]] [FOLDER]\n";

const char help[] =
    "\n"
    "FOLDER         holds a subfolder for each swap, with sheet.bin, setup.bin and\n"
    "               journal.bin, or is itself such a folder; left out: an embedded\n"
    "               swap\n"
    "--blocks N     the length of the outage in blocks\n"
    "--days D       the same in days of each swap's setup; left out: 1\n"
    "--in N         the outage begins after the next N blocks; left out: 0\n"
    "--from HEIGHT  its first block instead, by the real chain's heights: needs the\n"
    "               base of each swap, and lies ahead of each\n"
    "--margin N     blocks to spare after the outage; left out: 0\n"
    "--side SIDE    alice, bob or carol; left out: what the file `side` in the swap's\n"
    "               folder says, else every party\n"
    "--base HEIGHT  the real chain's height when the journal was empty, for one swap;\n"
    "               left out: what the file `base` in the swap's folder says. With a\n"
    "               base the swap's heights are the real chain's, else its own blocks\n"
    "--slots N      the next stretches in which an outage of N blocks, or of days as 2d,\n"
    "               has no warning for a side, over all its swaps\n"
    "--height H     the real chain stands at H, and so does each swap by its base: with\n"
    "--at TIME      the time of that, as 2026-11-17T14:30Z, or without Z local, times\n"
    "               are estimated, marked with ~, in brackets the hours in which so\n"
    "               many blocks come in 5 and in 95 of 100 cases\n"
    "--minutes M    of a block on average; left out: 10\n"
    "--ics FILE     also writes an iCalendar file: what to do by when, and the stretches\n"
    "               of --slots\n"
    "--full         for each swap the position, the steps that each party could take\n"
    "               now, the payouts so far and all that can still be confirmed\n"
    "--json         the position and the windows of each swap as JSON, for programs;\n"
    "               docs/FORMATS.md has the fields\n"
    "--html FILE    also writes a page to look at and to print: all windows as bars,\n"
    "               the outage as a band; FILE is new or a plain file\n"
    "The older form [FOLDER] [BLOCKS] [SIDE] works too; a dash leaves a place out.\n"
    "\n"
    "A line for each swap and side, the most urgent first: the transaction that the\n"
    "side counts on for its payout, the window of blocks in which it can be confirmed,\n"
    "the blocks left until the window ends, for how many blocks the side can be off,\n"
    "and what to do by when. A WARNING says that the outage and its margin are longer\n"
    "than that: with the box off, the payout can be lost. An outage that begins later\n"
    "counts from now. Nothing secured yet, or given up: there is no payout to lose.\n"
    "Last, for each side, the longest outage from now without a warning over all its\n"
    "swaps, and which of them bounds it.\n"
    "\n"
    "Exit status: 0 no warning; 3 warnings; 1 a swap is refused or cannot be read,\n"
    "there is none, or the question does not fit it; 2 bad usage.\n";

/* The arguments that have a value. The first three can stand by their place too. */
enum { FOLDER, BLOCKS, SIDE, DAYS, IN, FROM, MARGIN, BASE, SLOTS, HEIGHT, AT, MINUTES, HTML, ICS, ARGUMENTS };

static const struct {
    const char *name;
    uint32_t least; /* where it is a number */
    uint32_t most;
} arguments[ARGUMENTS] = {
    [FOLDER] = {"FOLDER", 0, 0},
    [BLOCKS] = {"--blocks", 0, 999999999},
    [SIDE] = {"--side", 0, 0},
    [DAYS] = {"--days", 0, 999999},
    [IN] = {"--in", 0, 999999999},
    [FROM] = {"--from", 1, 999999999},
    [MARGIN] = {"--margin", 0, 999999999},
    [BASE] = {"--base", 0, BASE_MOST},
    [SLOTS] = {"--slots", 1, 999999},
    [HEIGHT] = {"--height", 0, 999999999},
    [AT] = {"--at", 0, 0},
    [MINUTES] = {"--minutes", 1, 1440},
    [HTML] = {"--html", 0, 0},
    [ICS] = {"--ics", 0, 0},
};

uint8_t side_named(const char *name)
{
    static const char *const names[] = {"alice", "bob", "carol"}; /* in the order of their bits among payees */

    for (unsigned bit = 0; bit < sizeof names / sizeof names[0]; bit++) {
        if (strcmp(name, names[bit]) == 0) {
            return (uint8_t)(1u << bit);
        }
    }
    return 0;
}

/* Says what is wrong with an argument, and with its value where there is one. */
static bool wrong(const char *argument, const char *value, const char *reason)
{
    fputs("calendar: ", stderr);
    print_visible(stderr, argument);
    if (value != NULL) {
        fputc(' ', stderr);
        print_visible(stderr, value);
    }
    fprintf(stderr, ": %s\n", reason);
    return false;
}

bool is_number_named(const char *text, uint32_t least, uint32_t most, uint32_t *number)
{
    size_t length = strlen(text);
    uint32_t value = 0;

    if (length < 1 || length > 9 || strspn(text, "0123456789") != length) {
        return false;
    }
    for (; *text != '\0'; text++) {
        value = 10 * value + (uint32_t)(*text - '0');
    }
    if (value < least || value > most) {
        return false;
    }
    *number = value;
    return true;
}

/* A number in the argument's range; what is left out stays as it is. */
static bool read_number(int argument, const char *text, uint32_t *number)
{
    uint32_t least = arguments[argument].least;
    uint32_t most = arguments[argument].most;
    char range[48];

    if (text == NULL || is_number_named(text, least, most, number)) {
        return true;
    }
    snprintf(range, sizeof range, "not a number from %lu to %lu", (unsigned long)least, (unsigned long)most);
    return wrong(arguments[argument].name, text, range);
}

/* The length of the outage; 1 day where none is given. */
static bool read_length(const char *const values[ARGUMENTS], struct question *question)
{
    question->in_days = values[BLOCKS] == NULL;
    question->length = 1;
    if (values[BLOCKS] != NULL && values[DAYS] != NULL) {
        return wrong("--days", values[DAYS], "not beside --blocks");
    }
    return read_number(BLOCKS, values[BLOCKS], &question->length) && read_number(DAYS, values[DAYS], &question->length);
}

/* The length of the outage for which stretches are asked: blocks, or days with a d after them. */
static bool read_slots(const char *text, struct question *question)
{
    char number[16] = "";
    size_t length = text == NULL ? 0 : strlen(text);

    if (text == NULL) {
        return true;
    }
    question->slots_in_days = length > 0 && text[length - 1] == 'd';
    if (length < sizeof number) {
        memcpy(number, text, length - (question->slots_in_days ? 1 : 0));
    }
    return is_number_named(number, arguments[SLOTS].least, arguments[SLOTS].most, &question->slots) ||
           wrong("--slots", text, "not a number from 1 to 999999, of blocks or, as 2d, of days");
}

/* The height of the chain and its time, both or neither. */
static bool read_clock(const char *const values[ARGUMENTS], struct question *question)
{
    struct clock *clock = &question->clock;

    clock->minutes = 10;
    clock->set = values[AT] != NULL;
    for (int argument = HEIGHT; argument <= ICS; argument++) {
        if (argument != AT && argument != HTML && values[argument] != NULL && !clock->set) {
            return wrong(arguments[argument].name, values[argument], "only beside --at");
        }
    }
    if (clock->set && values[HEIGHT] == NULL) {
        return wrong("--at", values[AT], "only beside --height");
    }
    if (clock->set && !read_time(values[AT], &clock->at)) {
        return wrong("--at", values[AT], "not a time as 2026-11-17T14:30Z, or without Z a local one");
    }
    return read_number(HEIGHT, values[HEIGHT], &clock->height) &&
           read_number(MINUTES, values[MINUTES], &clock->minutes);
}

/* The files to write, which are not the same. */
static bool read_outputs(const char *const values[ARGUMENTS], struct question *question)
{
    question->html = values[HTML];
    question->ics = values[ICS];
    if (values[HTML] != NULL && values[ICS] != NULL && strcmp(values[HTML], values[ICS]) == 0) {
        return wrong("--ics", values[ICS], "the file of --html");
    }
    return true;
}

/* When the outage begins. */
static bool read_start(const char *const values[ARGUMENTS], struct question *question)
{
    if (values[IN] != NULL && values[FROM] != NULL) {
        return wrong("--in", values[IN], "not beside --from");
    }
    return read_number(IN, values[IN], &question->in) && read_number(FROM, values[FROM], &question->from);
}

/* What the values say. */
static bool read_values(const char *const values[ARGUMENTS], struct question *question)
{
    question->folder = values[FOLDER];
    question->based = values[BASE] != NULL;
    if (question->json && question->full) {
        return wrong("--json", NULL, "not beside --full");
    }
    if (!read_length(values, question) || !read_start(values, question) ||
        !read_slots(values[SLOTS], question) || !read_clock(values, question) || !read_outputs(values, question) ||
        !read_number(BASE, values[BASE], &question->base) ||
        !read_number(MARGIN, values[MARGIN], &question->margin)) {
        return false;
    }
    if (values[SIDE] != NULL) {
        question->sides = side_named(values[SIDE]);
        return question->sides != 0 || wrong("--side", values[SIDE], "not alice, bob or carol");
    }
    return true;
}

/* The argument of this name, or ARGUMENTS. */
static int named(const char *name)
{
    int argument = FOLDER + 1;

    while (argument < ARGUMENTS && strcmp(name, arguments[argument].name) != 0) {
        argument++;
    }
    return argument;
}

/* Sets the value of an argument, once; a dash in a place sets none. */
static bool set(const char *values[ARGUMENTS], int argument, const char *value)
{
    if (values[argument] != NULL) {
        return wrong(arguments[argument].name, value, "given twice");
    }
    values[argument] = value;
    return true;
}

bool read_question(int argc, char **argv, struct question *question)
{
    const char *values[ARGUMENTS] = {NULL};
    int place = FOLDER;

    for (int i = 1; i < argc; i++) {
        int argument = named(argv[i]);
        bool sound = true;

        if (strcmp(argv[i], "--help") == 0) {
            question->help = true;
        } else if (strcmp(argv[i], "--full") == 0) {
            question->full = true;
        } else if (strcmp(argv[i], "--json") == 0) {
            question->json = true;
        } else if (argument < ARGUMENTS) {
            i++;
            sound = i < argc ? set(values, argument, argv[i]) : wrong(arguments[argument].name, NULL, "no value");
        } else if (strncmp(argv[i], "--", 2) == 0) {
            sound = wrong(argv[i], NULL, "no such argument");
        } else if (place > SIDE) {
            sound = wrong(argv[i], NULL, "an argument too many");
        } else {
            sound = strcmp(argv[i], "-") == 0 || set(values, place, argv[i]);
            place++;
        }
        if (!sound) {
            return false;
        }
    }
    return question->help || read_values(values, question);
}
