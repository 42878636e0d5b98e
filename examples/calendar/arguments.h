/* What is asked of the calendar, by its arguments. */
#ifndef ARGUMENTS_H
#define ARGUMENTS_H

#include <stdbool.h>
#include <stdint.h>

#include "../common/clock.h"

struct question {
    bool help;
    bool full;          /* the whole position of each swap, and not one line */
    bool json;          /* all of it for programs, and no lines */
    const char *html;   /* the file of the page, or NULL */
    const char *folder; /* NULL: the embedded swap */
    uint8_t sides;      /* whose lines, a mask as payees have it; 0: by each swap's folder */
    bool in_days;       /* whether the length is in days */
    uint32_t length;    /* of the outage */
    uint32_t in;        /* blocks from now before it begins */
    uint32_t from;      /* or its first block, by the real chain's heights; 0: by the blocks from now */
    uint32_t margin;    /* blocks to spare after it */
    bool slots_in_days; /* whether the length of another outage is in days */
    uint32_t slots;     /* for which stretches are asked; 0: none are */
    struct clock clock; /* for estimated times */
    const char *ics;    /* the file of the iCalendar, or NULL */
    bool based;         /* whether the base is given: for one swap only */
    uint32_t base;      /* the real chain's height when the swap's journal was empty */
};

/* How the calendar is called, in a line; and what its arguments and its lines mean. */
extern const char usage[];
extern const char help[];

/* The greatest base. */
#define BASE_MOST 499999999u

/* Whether a text is a decimal number of one to nine digits in a range; then it is read. */
bool is_number_named(const char *text, uint32_t least, uint32_t most, uint32_t *number);

/* The mask of a party's name; 0 where it is none. */
uint8_t side_named(const char *name);

/* Reads the arguments; false, with a message, where one is wrong. */
bool read_question(int argc, char **argv, struct question *question);

#endif
