#include "section.h"

#include "lanes.h"
#include "markup.h"
#include "outlook.h"
#include "sides.h"
#include "words.h"

/* A number after its name. */
static void write_fact(FILE *page, const char *name, uint64_t number)
{
    fprintf(page, "; %s ", name);
    write_number(page, number);
}

static void write_facts(FILE *page, const struct entry *entry)
{
    const struct position *position = &entry->position;
    const struct swap *swap = &entry->swap;

    fprintf(page, "<p class=\"facts\">conduct %s", conduct_name(conduct_of(swap)));
    write_fact(page, "stealth", stealth_of(swap));
    write_fact(page, "blocks per day", blocks_per_day_of(swap));
    write_fact(page, "steps accepted", position->steps);
    write_fact(page, "blocks mined", position->mined);
    if (entry->based) {
        write_fact(page, "height", (uint64_t)entry->base + position->mined);
    }
    if (entry->outage.last >= entry->outage.first) {
        fputs("; outage in blocks ", page);
        write_height(page, AS_HTML, entry->base, entry->outage.first);
        fputs(" to ", page);
        write_height(page, AS_HTML, entry->base, entry->outage.last);
    } else {
        fputs("; no outage", page);
    }
    fputs("</p>\n", page);
}

/* The confirmed transactions with payee and block, and the dead ones. */
static void write_settled(FILE *page, const struct entry *entry)
{
    const struct position *position = &entry->position;

    fputs("<ul class=\"settled\">", page);
    for (uint8_t t = 0; t < count_of(&entry->swap); t++) {
        if (is_settled(entry, t)) {
            fprintf(page, "<li>%s", transaction_label(&entry->swap, t).text);
            if (is_confirmed(position, t)) {
                fputs(": block ", page);
                write_height(page, AS_HTML, entry->base, block_of(position, t));
                fprintf(page, ", to %s", destination_name(payee_of(position, t)));
            } else {
                fputs(": dead", page);
            }
            fputs("</li>", page);
        }
    }
    fputs("</ul>\n", page);
}

/* Whether some side is. */
static bool is_warned(const struct entry *entry, uint8_t t)
{
    return is_warned_of(entry, t, SWAP_ALICE) || is_warned_of(entry, t, SWAP_BOB) || is_warned_of(entry, t, SWAP_CAROL);
}

/* Whether it is another's for all sides that are shown. */
static bool is_others(const struct entry *entry, uint8_t t)
{
    for (uint8_t side = SWAP_ALICE; side <= SWAP_CAROL; side++) {
        if (is_shown(entry, side) && kind_of(&entry->position, &entry->outage, t, side) != OTHERS) {
            return false;
        }
    }
    return true;
}

/* What can happen to it, for one side; what to do where the side counts on it. */
static void write_side(FILE *page, const struct question *question, const struct entry *entry, uint8_t t, uint8_t side)
{
    fprintf(page, "<div>%s: ", party_name(side));
    if (is_warned_of(entry, t, side)) {
        fputs("<b>WARNING</b>, ", page);
    }
    if (entry->stands[side].t == t) {
        fputs("counted on, ", page);
        print_payout(page, question, entry, side);
    } else {
        print_outlook(page, entry, t, side);
    }
    if (can_be_sent(&entry->position, side, t)) {
        fputs("; can be sent now", page);
    }
    fputs("</div>", page);
}

static void write_heights(FILE *page, uint32_t base, const struct position *position, uint8_t t)
{
    const struct {
        const char *name;
        uint32_t height;
    } cells[] = {
        {"lock height", lock_height_of(position, t)},
        {"deadline", deadline_of(position, t)},
        {"from", soonest_block_of(position, t)},
        {"to", soonest_deadline_of(position, t)},
    };
    uint32_t left = blocks_left(position, t);

    for (size_t i = 0; i < sizeof cells / sizeof cells[0]; i++) {
        fprintf(page, NUMBER, cells[i].name);
        write_height(page, AS_HTML, base, cells[i].height);
        fputs("</td>", page);
    }
    fprintf(page, NUMBER "%s</td>", "left", left == SWAP_NEVER ? "-" : height_label(0, left).text);
}

static void write_row(FILE *page, const struct question *question, const struct entry *entry, uint8_t t,
                      const struct axis *axis)
{
    const struct position *position = &entry->position;
    bool warning = is_warned(entry, t);
    const char *class = warning ? "warning" : is_others(entry, t) ? "others" : "calm";

    fprintf(page, "<tr class=\"%s\"><th>%s</th><td>%s</td><td>%s</td>", class, transaction_label(&entry->swap, t).text,
            payees_name(&entry->swap, can_pay(position, t)), status_label(status_of(position, t)).text);
    write_heights(page, entry->base, position, t);
    fputs("<td class=\"lane\">", page);
    write_lane(page, axis, question, entry, t, warning);
    fputs("</td><td>", page);
    for (uint8_t side = SWAP_ALICE; side <= SWAP_CAROL; side++) {
        if (is_shown(entry, side)) {
            write_side(page, question, entry, t, side);
        }
    }
    fputs("</td></tr>\n", page);
}

/* Where a side stands, where that is not that it keeps its way to a payout for long enough. */
static void write_standing(FILE *page, const struct stand *stand)
{
    if (stand->warned) {
        fputs(": <b>WARNING</b>", page);
    } else if (stand->standing != KEPT) {
        fprintf(page, ": %s", standing_word(stand->standing));
    }
}

/* The name of a swap, and its sides. */
static void write_title(FILE *page, const struct entry *entry)
{
    fputs("<h2><bdi>", page);
    write_text(page, AS_HTML, entry->name);
    fputs("</bdi>", page);
    for (uint8_t side = SWAP_ALICE; side <= SWAP_CAROL; side++) {
        if (is_shown(entry, side)) {
            fprintf(page, ", %s", party_name(side));
            write_standing(page, &entry->stands[side]);
        }
    }
    fputs("</h2>", page);
}

static void write_table(FILE *page, const struct question *question, const struct entry *entry, const struct axis *axis)
{
    uint32_t now = entry->base + entry->position.mined;

    fputs("<table>\n<thead><tr><th>transaction</th><th>pays</th><th>status</th><th class=\"n\">lock height</th>"
          "<th class=\"n\">deadline</th><th class=\"n\">from</th><th class=\"n\">to</th><th class=\"n\">left</th>"
          "<th class=\"lane\">blocks",
          page);
    write_axis(page, axis, &now);
    fputs("</th><th class=\"after\">after that</th></tr></thead>\n<tbody>\n", page);
    for (uint8_t t = 0; t < count_of(&entry->swap); t++) {
        if (!is_settled(entry, t)) {
            write_row(page, question, entry, t, axis);
        }
    }
    fputs("</tbody>\n</table>\n", page);
}

void write_section(FILE *page, const struct question *question, const struct entry *entry, size_t number, bool open)
{
    struct axis axis = {.table = number};

    for (uint8_t t = 0; t < count_of(&entry->swap); t++) {
        if (!is_settled(entry, t)) {
            widen(&axis, entry, t);
        }
    }
    fprintf(page, "<section id=\"swap-%lu\" class=\"%s\">\n<details%s>\n<summary>", (unsigned long)number,
            open ? "open" : "calm", open ? " open=\"\"" : "");
    write_title(page, entry);
    fputs("</summary>\n", page);
    write_facts(page, entry);
    write_settled(page, entry);
    if (axis.span > 0) {
        write_table(page, question, entry, &axis);
    }
    fputs("</details>\n</section>\n", page);
}
