#include "lanes.h"

#include "markup.h"
#include "words.h"

/* Labels on an axis, at most. */
#define LABELS 6

static uint64_t most(uint64_t a, uint64_t b)
{
    return a > b ? a : b;
}

static uint64_t least(uint64_t a, uint64_t b)
{
    return a < b ? a : b;
}

void widen(struct axis *axis, const struct entry *entry, uint8_t t)
{
    const struct position *position = &entry->position;
    uint64_t left = blocks_left(position, t);
    uint64_t reach = entry->outage.reach;
    uint64_t limit = 4 * most(reach, blocks_per_day_of(position->swap));

    if (left == 0 || left == SWAP_NEVER) {
        left = soonest_block_of(position, t) - position->mined;
    }
    left = least(left, limit);
    axis->span = most(axis->span, left + left / 16 + 1);
    axis->span = most(axis->span, least(reach + reach / 16, 2 * left));
}

/* Writes a share of the axis in percent, with three digits after the point. */
static void write_share(FILE *page, const struct axis *axis, uint64_t blocks)
{
    uint64_t share = least(blocks, axis->span) * 100000 / axis->span;

    write_number(page, share / 1000);
    fprintf(page, ".%03u%%", (unsigned)(share % 1000));
}

/* The places of bands and of bars in a lane; a style sheet may change them. */
#define BAND "y=\"0\" height=\"100%\""
#define BAR "y=\"5\" height=\"10\""

/* Some blocks of a lane, by the swap's own numbers; the last may be SWAP_NEVER. */
struct bar {
    const char *name;
    const char *place;
    uint32_t first;
    uint32_t last;
};

/* Writes a bar, as far as it is on the axis; one that goes on beyond it has no right end there. */
static void write_bar(FILE *page, const struct axis *axis, const struct position *position, const struct bar *bar)
{
    uint64_t from = most(bar->first, (uint64_t)position->mined + 1) - position->mined - 1;
    uint64_t to = bar->last > position->mined ? bar->last - position->mined : 0;

    if (from >= to || from >= axis->span) {
        return;
    }
    fprintf(page, "<rect class=\"%s\" %s data-from=\"", bar->name, bar->place);
    write_number(page, bar->first);
    fputs("\" data-to=\"", page);
    write_height(page, AS_HTML, 0, bar->last);
    fputs("\" x=\"", page);
    write_share(page, axis, from);
    fputs("\" width=\"", page);
    if (to > axis->span) {
        fputs("200%", page);
    } else {
        write_share(page, axis, to - from);
    }
    fputs("\"/>", page);
}

/* The window of a transaction. One that only a hand-in can save has no end. */
static struct bar window_of(const struct position *position, uint8_t t, bool warning)
{
    struct bar window = {"window", BAR, soonest_block_of(position, t), soonest_deadline_of(position, t)};

    if (warning && window.last <= position->mined) {
        window.last = SWAP_NEVER;
    }
    return window;
}

/* The last block of outage and margin; SWAP_NEVER where that is too far. */
static uint32_t end_of(const struct question *question, const struct outage *outage)
{
    return (uint32_t)least((uint64_t)outage->last + question->margin, SWAP_NEVER);
}

/* The part of a window from the beginning of the outage on; the whole where it ends before. */
static struct bar covered_of(const struct question *question, const struct outage *outage, struct bar window)
{
    window.name = "covered";
    if (window.last >= outage->first) {
        window.first = (uint32_t)most(window.first, outage->first);
    }
    if (window.last == SWAP_NEVER) {
        window.last = end_of(question, outage);
    }
    return window;
}

static void write_bands(FILE *page, const struct axis *axis, const struct question *question, const struct entry *entry)
{
    const struct outage *outage = &entry->outage;
    struct bar band = {"outage", BAND, outage->first, outage->last};
    struct bar margin = {"margin", BAND, outage->last + 1, end_of(question, outage)};

    write_bar(page, axis, &entry->position, &band);
    write_bar(page, axis, &entry->position, &margin);
}

/* The lane in words. */
static void write_words(FILE *page, const struct entry *entry, uint8_t t, bool warning)
{
    if (t == SWAP_NONE) {
        fputs("no window", page);
        return;
    }
    fputs("blocks ", page);
    write_height(page, AS_HTML, entry->base, soonest_block_of(&entry->position, t));
    fputs(" to ", page);
    write_height(page, AS_HTML, entry->base, soonest_deadline_of(&entry->position, t));
    fputs(warning ? ", covered by the outage" : "", page);
}

void write_lane(FILE *page, const struct axis *axis, const struct question *question, const struct entry *entry,
                uint8_t t, bool warning)
{
    const struct position *position = &entry->position;

    fputs("<svg role=\"img\" aria-label=\"", page);
    write_words(page, entry, t, warning);
    fprintf(page, "\"><use href=\"#grid-%lu\"/>", (unsigned long)axis->table);
    write_bands(page, axis, question, entry);
    if (t != SWAP_NONE) {
        struct bar window = window_of(position, t, warning);
        struct bar covered = covered_of(question, &entry->outage, window);

        write_bar(page, axis, position, &window);
        if (warning) {
            write_bar(page, axis, position, &covered);
        }
    }
    fputs("</svg>", page);
}

/* The blocks from label to label: 1, 2 or 5 with zeros. */
static uint64_t step_of(const struct axis *axis)
{
    uint64_t step = 1;

    for (unsigned i = 0; axis->span / step > LABELS; i++) {
        step = i % 3 == 1 ? step / 2 * 5 : step * 2;
    }
    return step;
}

/* The blocks from now to the first label. */
static uint64_t first_label(uint64_t step, const uint32_t *start)
{
    return start == NULL ? step : step - *start % step;
}

static void write_grid(FILE *page, const struct axis *axis, const uint32_t *start)
{
    uint64_t step = step_of(axis);

    fprintf(page, "<g id=\"grid-%lu\" class=\"grid\">", (unsigned long)axis->table);
    for (uint64_t at = first_label(step, start); at < axis->span; at += step) {
        fputs("<line x1=\"", page);
        write_share(page, axis, at);
        fputs("\" x2=\"", page);
        write_share(page, axis, at);
        fputs("\" y1=\"0\" y2=\"100%\"/>", page);
    }
    fputs("</g>", page);
}

void write_axis(FILE *page, const struct axis *axis, const uint32_t *start)
{
    uint64_t step = step_of(axis);

    fprintf(page, "<svg class=\"axis\" data-span=\"%lu\">", (unsigned long)axis->span);
    write_grid(page, axis, start);
    fputs("<text x=\"0\" y=\"11\">now", page);
    if (start != NULL) {
        fputs(" ", page);
        write_number(page, *start);
    }
    fputs("</text>", page);
    for (uint64_t at = first_label(step, start); at < axis->span; at += step) {
        if ((start == NULL ? 8 : 4) * at > axis->span && 20 * at < 19 * axis->span) {
            fputs("<text class=\"label\" x=\"", page);
            write_share(page, axis, at);
            fputs(start == NULL ? "\" y=\"11\">+" : "\" y=\"11\">", page);
            write_number(page, start == NULL ? at : *start + at);
            fputs("</text>", page);
        }
    }
    fputs("</svg>", page);
}
