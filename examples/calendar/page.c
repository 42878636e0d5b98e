#include "page.h"

#include <stdlib.h>
#include <time.h>

#include "lanes.h"
#include "markup.h"
#include "outages.h"
#include "outlook.h"
#include "screen.h"
#include "section.h"
#include "words.h"

static const char *const head[] = {
    "<!DOCTYPE html>\n<html lang=\"en\">\n<head>\n<meta charset=\"utf-8\"/>\n",
    "<meta name=\"viewport\" content=\"width=device-width, initial-scale=1\"/>\n",
    "<meta name=\"color-scheme\" content=\"light dark\"/>\n",
    "<style>\n",
    ":root { --ink: #111; --paper: #fff; --faint: #555; --rule: #ddd; --line: #ccc; --alarm: #b00020;\n",
    "--band: #e2e2e2; --dot: #777; --pale: #f6f6f6; --pale-dot: #aaa; --hatch: #ffb3b3; --edge: #8b0000;\n",
    "--bar: #bcd4ee; --bar-edge: #1f4e86; }\n",
    "@media screen and (prefers-color-scheme: dark) {\n",
    ":root { --ink: #e8e8e8; --paper: #16181c; --faint: #a8a8a8; --rule: #3a3d42; --line: #44484e; --alarm: #ff8a94;\n",
    "--band: #2f3238; --dot: #8a8f98; --pale: #22252a; --pale-dot: #666b73; --hatch: #5c1f28; --edge: #ff8a94;\n",
    "--bar: #274a70; --bar-edge: #9cc4f0; }\n",
    "}\n",
    "body { font: 14px/1.35 sans-serif; color: var(--ink); background: var(--paper); margin: 16px; }\n",
    "body { overflow-wrap: break-word; }\n",
    "h1 { font-size: 20px; margin: 0 0 4px; }\n",
    "h2 { font-size: 16px; margin: 0; display: inline; }\n",
    "section { border-top: 1px solid var(--faint); padding: 8px 0; }\n",
    "summary { cursor: pointer; }\n",
    "p { margin: 2px 0 6px; max-width: 110em; }\n",
    "a { color: inherit; }\n",
    "table { border-collapse: collapse; width: 100%; font-variant-numeric: tabular-nums; }\n",
    "th, td { text-align: left; padding: 1px 8px 1px 0; vertical-align: middle; font-weight: normal; }\n",
    "thead th { border-bottom: 1px solid var(--ink); font-weight: bold; vertical-align: bottom; }\n",
    "tbody tr { border-bottom: 1px solid var(--rule); }\n",
    "section tbody th, .n { white-space: nowrap; }\n",
    ".n { text-align: right; }\n",
    ".lane { width: 32%; min-width: 180px; }\n",
    ".after { min-width: 17em; }\n",
    "section .lane { width: 27%; }\n",
    ".name bdi { display: inline-block; max-width: 12em; overflow-wrap: break-word; }\n",
    "ul.settled { margin: 2px 0 6px; padding: 0; }\n",
    ".settled li { display: inline; }\n",
    ".settled li + li::before { content: \"; \"; }\n",
    ".mark { font-weight: bold; white-space: nowrap; }\n",
    ".warning .mark, .faulty .mark, b { color: var(--alarm); }\n",
    ".others { color: var(--faint); }\n",
    "svg { display: block; width: 100%; height: 20px; overflow: hidden; }\n",
    "svg.axis { height: 14px; overflow: visible; font-size: 11px; font-weight: normal; fill: var(--ink); }\n",
    ".legend span { display: inline-block; margin-right: 14px; }\n",
    "svg.sample { display: inline-block; width: 44px; vertical-align: middle; margin-right: 4px; }\n",
    "svg.patterns { position: absolute; width: 0; height: 0; }\n",
    ".label { text-anchor: middle; }\n",
    ".grid line { stroke: var(--line); }\n",
    "#outage rect { fill: var(--band); }\n",
    "#outage circle { fill: var(--dot); }\n",
    "#margin rect { fill: var(--pale); }\n",
    "#margin circle { fill: var(--pale-dot); }\n",
    "#covered rect { fill: var(--hatch); }\n",
    "#covered rect.stripe { fill: var(--alarm); }\n",
    "rect.outage, rect.margin { stroke: var(--faint); stroke-dasharray: 3 2; }\n",
    "rect.outage { fill: url(#outage); }\n",
    "rect.margin { fill: url(#margin); }\n",
    "rect.window, rect.covered { stroke-width: 1.5; }\n",
    "rect.window { fill: var(--bar); stroke: var(--bar-edge); }\n",
    ".others rect.window { fill: var(--paper); stroke: var(--dot); }\n",
    "rect.covered { fill: url(#covered); stroke: var(--edge); stroke-width: 2; }\n",
    "@media screen and (max-width: 800px) {\n",
    "body { margin: 8px; }\n",
    "table, thead, tbody, tr, th, td { display: block; width: auto; min-width: 0; }\n",
    "thead th, thead .n { display: none; }\n",
    "thead th.lane { display: block; }\n",
    ".lane, section .lane { width: auto; min-width: 0; padding: 2px 0; }\n",
    "tbody tr { padding: 4px 0; }\n",
    ".mark, .name, .name + td { display: inline-block; }\n",
    ".mark:empty { display: none; }\n",
    ".name bdi { max-width: none; }\n",
    ".n { display: inline-block; text-align: left; }\n",
    ".n[data-name]::before { content: attr(data-name) \" \"; color: var(--faint); }\n",
    "}\n",
    "@media print {\n",
    "@page { size: landscape; margin: 10mm; }\n",
    "body { margin: 0; font-size: 10pt; line-height: 1.2; }\n",
    "body { print-color-adjust: exact; -webkit-print-color-adjust: exact; }\n",
    "section.calm { display: none; }\n",
    "tr, h2, .facts { break-inside: avoid; }\n",
    ".facts, .settled { break-after: avoid; }\n",
    "thead { display: table-header-group; }\n",
    "th, td { padding: 0 6px 0 0; }\n",
    "svg { height: 14px; }\n",
    "svg.axis { font-size: 9px; }\n",
    "rect.window, rect.covered { y: 3px; height: 8px; }\n",
    "h2 { font-size: 11pt; }\n",
    "summary { break-after: avoid; list-style: none; }\n",
    "a { text-decoration: none; }\n",
    "}\n</style>\n",
};

/* The patterns tell bands and bars apart without colour. */
static const char *const legend[] = {
    "<svg class=\"patterns\"><defs>",
    "<pattern id=\"outage\" width=\"6\" height=\"6\" patternUnits=\"userSpaceOnUse\">",
    "<rect width=\"6\" height=\"6\"/><circle cx=\"2\" cy=\"2\" r=\"0.9\"/></pattern>",
    "<pattern id=\"margin\" width=\"6\" height=\"6\" patternUnits=\"userSpaceOnUse\">",
    "<rect width=\"6\" height=\"6\"/><circle cx=\"2\" cy=\"2\" r=\"0.7\"/></pattern>",
    "<pattern id=\"covered\" width=\"6\" height=\"6\" patternUnits=\"userSpaceOnUse\" patternTransform=\"rotate(45)\">",
    "<rect width=\"6\" height=\"6\"/><rect class=\"stripe\" width=\"3\" height=\"6\"/></pattern>",
    "</defs></svg>\n",
    "<p class=\"legend\">",
    "<span><svg class=\"sample\"><rect class=\"window\" x=\"2\" y=\"5\" width=\"40\" height=\"10\"/></svg>",
    "window: the blocks in which a transaction can be confirmed, from the first that its lock allows to the latest; ",
    "one that runs off the right edge ends beyond it or never</span>",
    "<span><svg class=\"sample\"><rect class=\"outage\" x=\"2\" width=\"40\" height=\"20\"/></svg>outage</span>",
    "<span><svg class=\"sample\"><rect class=\"margin\" x=\"2\" width=\"40\" height=\"20\"/></svg>",
    "margin after it</span>",
    "<span><svg class=\"sample\"><rect class=\"covered\" x=\"2\" y=\"5\" width=\"40\" height=\"10\"/></svg>",
    "WARNING: the outage and its margin are longer than the side can be off, and its payout can be lost</span>",
    "</p>\n",
};

static void write_lines(FILE *page, const char *const lines[], size_t count)
{
    for (size_t i = 0; i < count; i++) {
        fputs(lines[i], page);
    }
}

static void write_head(FILE *page, const struct question *question, const struct totals *totals)
{
    write_lines(page, head, sizeof head / sizeof head[0]);
    fputs("<title>Calendar: ", page);
    write_text(page, AS_HTML, question->folder == NULL ? "embedded" : question->folder);
    fputs("</title>\n</head>\n<body>\n<h1>Calendar: ", page);
    write_text(page, AS_HTML, question->folder == NULL ? "embedded" : question->folder);
    fputs("</h1>\n<p class=\"written\">written ", page);
    print_local(page, question->clock.set ? question->clock.at : (int64_t)time(NULL));
    fputs("</p>\n<p class=\"question\">", page);
    print_question(page, question);
    fputs("</p>\n<p class=\"totals\">", page);
    print_totals(page, totals);
    fputs("</p>\n", page);
    write_lines(page, legend, sizeof legend / sizeof legend[0]);
}

/* The widest axis that a line of the overview needs. */
static struct axis axis_of(const struct line *lines, size_t count)
{
    struct axis axis = {.table = 0, .span = 1};

    for (size_t i = 0; i < count; i++) {
        if (lines[i].t != SWAP_NONE) {
            widen(&axis, lines[i].entry, lines[i].t);
        }
    }
    return axis;
}

/* What stands before the name. */
static void write_mark(FILE *page, const struct line *line)
{
    if (line->urgency == FAULTY) {
        fputs(line->entry->fault.file != NULL ? "UNREADABLE" : "REFUSED", page);
    } else if (line->urgency == WARNED) {
        fputs("WARNING", page);
    }
}

static void write_fault(FILE *page, const struct entry *entry)
{
    uint32_t refusal = SWAP_REFUSAL(entry->answer);

    fputs("<th class=\"name\"><bdi>", page);
    write_text(page, AS_HTML, entry->name);
    fputs("</bdi></th><td class=\"reason\" colspan=\"8\">", page);
    if (entry->fault.file != NULL) {
        fprintf(page, "%s: ", entry->fault.file);
        write_text(page, AS_HTML, entry->fault.reason);
    } else {
        fprintf(page, "%s (", swap_refusal_name(refusal));
        write_number(page, refusal);
        fprintf(page, "), %s", swap_refusal_words(refusal));
    }
    fputs("</td>", page);
}

/* The block of a line, in the numbers of the axis: a height, or blocks from now. */
static void write_block(FILE *page, const char *name, const struct line *line, uint32_t block, bool from_now)
{
    fprintf(page, NUMBER, name);
    if (line->t == SWAP_NONE) {
        fputc('-', page);
    } else if (from_now && block != SWAP_NEVER) {
        uint32_t mined = line->entry->position.mined;

        fputc(block < mined ? '-' : '+', page);
        write_number(page, block < mined ? mined - block : block - mined);
    } else {
        write_height(page, AS_HTML, line->entry->base, block);
    }
    fputs("</td>", page);
}

/* The numbers of a line and its bar. */
static void write_window(FILE *page, const struct question *question, const struct line *line, const struct axis *axis)
{
    fprintf(page, "<td>%s</td>", line->t == SWAP_NONE ? "-" : transaction_label(&line->entry->swap, line->t).text);
    write_block(page, "from", line, from_block(line), axis->from_now);
    write_block(page, "to", line, to_block(line), axis->from_now);
    fprintf(page, NUMBER "%s</td>" NUMBER "%s</td><td class=\"lane\">", "left", left_label(line).text, "free",
            slack_label(&line->slack).text);
    write_lane(page, axis, question, line->entry, line->t, line->urgency == WARNED);
    fputs("</td><td>", page);
    print_payout(page, question, line->entry, line->side);
    fputs(line->own_blocks ? OWN_BLOCKS "</td>" : "</td>", page);
}

static void write_line(FILE *page, const struct question *question, const struct line *line, const struct axis *axis)
{
    const char *class = line->urgency == FAULTY ? "faulty" : line->urgency == WARNED ? "warning" : "calm";

    fprintf(page, "<tr class=\"%s\"><td class=\"mark\">", class);
    write_mark(page, line);
    fputs("</td>", page);
    if (line->urgency == FAULTY) {
        write_fault(page, line->entry);
    } else {
        fprintf(page, "<th class=\"name\"><a href=\"#swap-%lu\"><bdi>", (unsigned long)line->place + 1);
        write_text(page, AS_HTML, line->entry->name);
        fprintf(page, "</bdi></a></th><td>%s</td>", party_name(line->side));
        write_window(page, question, line, axis);
    }
    fputs("</tr>\n", page);
}

/* The first screen, with bars: a line for each swap and side. */
static void write_overview(FILE *page, const struct question *question, const struct desk *desk,
                           const struct line *lines, size_t count)
{
    struct axis axis = axis_of(lines, count);
    uint32_t now = 0;

    axis.from_now = !same_height(desk, &now);
    fputs("<table id=\"overview\">\n<thead><tr><th></th><th>swap</th><th>side</th><th>counts on</th>"
          "<th class=\"n\">from</th><th class=\"n\">to</th><th class=\"n\">left</th><th class=\"n\">free</th>"
          "<th class=\"lane\">",
          page);
    fputs(axis.from_now ? "blocks from now" : "blocks", page);
    write_axis(page, &axis, axis.from_now ? NULL : &now);
    fputs("</th><th class=\"after\">what to do</th></tr></thead>\n<tbody>\n", page);
    for (size_t i = 0; i < count; i++) {
        write_line(page, question, &lines[i], &axis);
    }
    fputs("</tbody>\n</table>\n", page);
}

/* Each swap once, in the order of its first line, which is a warning if any side has one; open is one with a warning or
 * alone. */
static void write_sections(FILE *page, const struct question *question, const struct desk *desk,
                           const struct line *lines, size_t count)
{
    bool alone = desk->count == 1;

    for (size_t i = 0; i < count; i++) {
        size_t first = 0;

        while (lines[first].place != lines[i].place) {
            first++;
        }
        if (first == i && lines[i].urgency != FAULTY) {
            write_section(page, question, lines[i].entry, lines[i].place + 1, lines[i].urgency == WARNED || alone);
        }
    }
}

bool write_page(FILE *page, const struct question *question, const struct desk *desk, const struct totals *totals)
{
    size_t count;
    struct line *lines = lines_by_urgency(question, desk, &count);

    if (lines == NULL) {
        return false;
    }
    write_head(page, question, totals);
    write_overview(page, question, desk, lines, count);
    print_outages(page, AS_HTML, question, desk);
    write_sections(page, question, desk, lines, count);
    fputs("</body>\n</html>\n", page);
    free(lines);
    return true;
}
