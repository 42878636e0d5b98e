#define _POSIX_C_SOURCE 200809L

#include "ics.h"

#include <stdlib.h>
#include <string.h>

#include "../common/output.h"
#include "action.h"
#include "markup.h"
#include "outlook.h"
#include "slack.h"
#include "slots.h"
#include "words.h"

/* The most bytes of a line, without its end. */
#define LINE_MOST 75

/* A text that is put together first. */
struct text {
    FILE *to;
    char *bytes;
    size_t length;
};

/* What is written, and whether there was memory for all of it. */
struct ics {
    FILE *to;
    const struct question *question;
    bool sound;
    size_t events;
};

static bool open_text(struct ics *ics, struct text *text)
{
    text->bytes = NULL;
    text->to = open_memstream(&text->bytes, &text->length);
    ics->sound = ics->sound && text->to != NULL;
    return text->to != NULL;
}

/* Writes a line folded: a line that goes on begins with a blank, and no character is cut. */
static void fold(FILE *to, const char *line)
{
    size_t used = 0;

    while (*line != '\0') {
        size_t length = character(line);

        if (used + length > LINE_MOST) {
            fputs("\r\n ", to);
            used = 1;
        }
        fwrite(line, 1, length, to);
        used += length;
        line += length;
    }
    fputs("\r\n", to);
}

/* Writes a property whose value is a text. */
static void write_property(struct ics *ics, const char *name, const char *value)
{
    struct text line;

    if (!open_text(ics, &line)) {
        return;
    }
    fprintf(line.to, "%s:", name);
    write_text(line.to, AS_ICS, value);
    if (fclose(line.to) == 0) {
        fold(ics->to, line.bytes);
    } else {
        ics->sound = false;
    }
    free(line.bytes);
}

/* The same of a text that is put together, which is given back. */
static void write_made(struct ics *ics, const char *name, struct text *text)
{
    if (fclose(text->to) == 0) {
        write_property(ics, name, text->bytes);
    } else {
        ics->sound = false;
    }
    free(text->bytes);
}

static void write_time(const struct ics *ics, const char *name, int64_t time)
{
    fprintf(ics->to, "%s:", name);
    print_utc(ics->to, time);
    fputs("\r\n", ics->to);
}

/* Begins an event; its name among all events comes next. */
static bool begin_event(struct ics *ics, struct text *uid)
{
    if (!open_text(ics, uid)) {
        return false;
    }
    ics->events++;
    fputs("BEGIN:VEVENT\r\n", ics->to);
    write_time(ics, "DTSTAMP", ics->question->clock.at);
    return true;
}

static void end_event(struct ics *ics)
{
    fputs("END:VEVENT\r\n", ics->to);
}

/* The name of what is to be done: the same in every file for the swap's name, the side and what it counts on. */
static void write_uid(struct ics *ics, struct text *uid, const struct entry *entry, uint8_t side)
{
    fprintf(uid->to, "payout-%s-%u-", party_name(side), (unsigned)entry->stands[side].t);
    for (const char *byte = entry->name; *byte != '\0'; byte++) {
        fprintf(uid->to, "%02x", (unsigned)(unsigned char)*byte);
    }
    fprintf(uid->to, "@swap-calendar");
    write_made(ics, "UID", uid);
}

/* What the event says: whose it is and the block; then what to do and what comes else. */
static void write_words(struct ics *ics, const struct entry *entry, uint8_t side, uint32_t by)
{
    uint8_t t = entry->stands[side].t;
    struct text text;

    if (open_text(ics, &text)) {
        write_text(text.to, AS_TEXT, entry->name);
        fprintf(text.to, ", %s: act by block %s", party_name(side), height_label(entry->base, by).text);
        if (t != SWAP_NONE) {
            fprintf(text.to, ", counting on %s", transaction_label(&entry->swap, t).text);
        }
        write_made(ics, "SUMMARY", &text);
    }
    if (open_text(ics, &text)) {
        print_payout(text.to, ics->question, entry, side);
        fprintf(text.to, "; an estimate: from the time of 5 to that of 95 in 100 cases");
        write_made(ics, "DESCRIPTION", &text);
    }
}

/* The last block in which a side can act. */
static void write_end(struct ics *ics, const struct entry *entry, uint8_t side, uint32_t by)
{
    const struct clock *clock = &ics->question->clock;
    uint32_t blocks = by - entry->position.mined;
    struct text uid;

    if (!begin_event(ics, &uid)) {
        return;
    }
    write_uid(ics, &uid, entry, side);
    write_time(ics, "DTSTART", early_time(clock, blocks));
    write_time(ics, "DTEND", late_time(clock, blocks));
    write_words(ics, entry, side, by);
    end_event(ics);
}

/* Of each side of a swap whose payout is not sure without it. */
static void write_ends(struct ics *ics, const struct entry *entry)
{
    for (uint8_t side = SWAP_ALICE; side <= SWAP_CAROL; side++) {
        if (is_shown(entry, side)) {
            struct action action = action_of(ics->question, entry, side);

            if (action.by != SWAP_NEVER && action.act != DONE) {
                write_end(ics, entry, side, action.by);
            }
        }
    }
}

/* A stretch, from its late beginning to its early end. */
static void write_slot(struct ics *ics, const struct slot *slot, uint8_t side, bool done)
{
    const struct question *question = ics->question;
    struct text text;

    if (!begin_event(ics, &text)) {
        return;
    }
    fprintf(text.to, "slot-%s-%s@swap-calendar", party_name(side), done ? "done" : "now");
    write_made(ics, "UID", &text);
    write_time(ics, "DTSTART", late_time(&question->clock, slot->first - 1));
    if (slot->last != SLOT_OPEN) {
        write_time(ics, "DTEND", early_time(&question->clock, slot->last));
    }
    if (open_text(ics, &text)) {
        fprintf(text.to, "%s: an outage of %lu %s%s has no warning%s%s", party_name(side),
                (unsigned long)question->slots, question->slots_in_days ? "day" : "block",
                question->slots == 1 ? "" : "s", slot->last == SLOT_OPEN ? " from here on" : "",
                done ? ", with what helps now done" : "");
        write_made(ics, "SUMMARY", &text);
    }
    end_event(ics);
}

/* Whether there is a stretch that is not over, as the estimate goes, before it begins. */
static bool has_time(const struct clock *clock, const struct slot *slot)
{
    return slot->last == SLOT_OPEN ||
           (slot->last > 0 && late_time(clock, slot->first - 1) < early_time(clock, slot->last));
}

static void write_slots(struct ics *ics, const struct desk *desk, uint8_t side)
{
    const struct clock *clock = &ics->question->clock;
    struct slots slots;

    if (ics->question->slots == 0 || !has_side(desk, side)) {
        return;
    }
    slots = slots_of(ics->question, desk, side);
    if (has_time(clock, &slots.now)) {
        write_slot(ics, &slots.now, side, false);
    }
    if (is_longer_done(&slots) && has_time(clock, &slots.done)) {
        write_slot(ics, &slots.done, side, true);
    }
}

/* A calendar has an event at least. */
static void write_nothing(struct ics *ics)
{
    struct text uid;

    if (begin_event(ics, &uid)) {
        fputs("none@swap-calendar", uid.to);
        write_made(ics, "UID", &uid);
        write_time(ics, "DTSTART", ics->question->clock.at);
        write_property(ics, "SUMMARY", "nothing to do");
        end_event(ics);
    }
}

bool write_ics(FILE *to, const struct question *question, const struct desk *desk, const struct totals *totals)
{
    struct ics ics = {to, question, true, 0};

    (void)totals;
    fputs("BEGIN:VCALENDAR\r\nVERSION:2.0\r\nPRODID:-//Nuldheben//swap calendar//EN\r\n", to);
    for (size_t i = 0; i < desk->count; i++) {
        if (is_sound(desk->entries[i])) {
            write_ends(&ics, desk->entries[i]);
        }
    }
    for (uint8_t side = SWAP_ALICE; side <= SWAP_CAROL; side++) {
        write_slots(&ics, desk, side);
    }
    if (ics.events == 0) {
        write_nothing(&ics);
    }
    fputs("END:VCALENDAR\r\n", to);
    return ics.sound;
}
