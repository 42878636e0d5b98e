#include "outages.h"

#include "slots.h"

/* What stands around a line. */
static const char *const before[] = {[AS_HTML] = "<p class=\"outages\">", [AS_TEXT] = ""};
static const char *const after[] = {[AS_HTML] = "</p>\n", [AS_TEXT] = "\n"};

struct label slack_label(const struct slack *slack)
{
    static const struct label words[] = {[NONE] = {"none"}, [ANY] = {"any"}, [UNSECURED] = {"-"}};

    return slack->reach == SOME ? height_label(0, slack->blocks) : words[slack->reach];
}

/* Ends a line: swaps in which the side has no payout to lose, and those that are no good, are not in the answer. */
static void end_line(FILE *to, enum markup markup, const struct desk *desk, uint8_t side)
{
    size_t unsecured = unsecured_of(desk, side);
    size_t faulty = 0;

    if (unsecured > 0) {
        fprintf(to, "; %lu with no payout secured", (unsigned long)unsecured);
    }
    for (size_t i = 0; i < desk->count; i++) {
        faulty += !is_sound(desk->entries[i]);
    }
    if (faulty > 0) {
        fprintf(to, "; %lu refused or unreadable not looked at", (unsigned long)faulty);
    }
    fputs(after[markup], to);
}

/* "Alice: longest outage from now without a warning: 143 blocks, bounded by embedded, counting on refund_2" */
static void print_longest(FILE *to, enum markup markup, const struct desk *desk, const struct slack *slack,
                          uint8_t side)
{
    fprintf(to, "%s%s: longest outage from now without a warning: %s", before[markup], party_name(side),
            slack_label(slack).text);
    if (slack->reach == SOME) {
        fputs(slack->blocks == 1 ? " block" : " blocks", to);
    }
    if (slack->reach == SOME || slack->reach == NONE) {
        fputs(", bounded by ", to);
        write_text(to, markup, slack->entry->name);
    }
    if ((slack->reach == SOME || slack->reach == NONE) && slack->t != SWAP_NONE) {
        fprintf(to, ", counting on %s", transaction_label(&slack->entry->swap, slack->t).text);
    }
    end_line(to, markup, desk, side);
}

/* A block of a stretch: by its height where all swaps stand at the same one, else from now. */
static void print_block(FILE *to, const struct question *question, const struct desk *desk, uint64_t block)
{
    uint32_t height;

    if (same_height(desk, &height)) {
        write_number(to, height + block);
    } else {
        fputc('+', to);
        write_number(to, block);
    }
    print_estimate(to, &question->clock, block);
}

static void print_slot(FILE *to, const struct question *question, const struct desk *desk, const struct slot *slot)
{
    fputs(slot->last == SLOT_OPEN ? "in blocks from " : "in blocks ", to);
    print_block(to, question, desk, slot->first);
    if (slot->last == SLOT_OPEN) {
        fputs(" on", to);
    } else {
        fputs(" to ", to);
        print_block(to, question, desk, slot->last);
    }
}

/* "Alice: an outage of 100 blocks has no warning in blocks 445 to 587; with what helps now done, in blocks from 445 on" */
static void print_slots(FILE *to, enum markup markup, const struct question *question, const struct desk *desk,
                        uint8_t side)
{
    struct slots slots = slots_of(question, desk, side);

    fprintf(to, "%s%s: an outage of ", before[markup], party_name(side));
    write_number(to, question->slots);
    fprintf(to, " %s%s has ", question->slots_in_days ? "day" : "block", question->slots == 1 ? "" : "s");
    if (slots.now.last == 0) {
        fputs("a warning wherever it lies", to);
    } else {
        fputs("no warning ", to);
        print_slot(to, question, desk, &slots.now);
    }
    if (is_longer_done(&slots)) {
        fputs("; with what helps now done, ", to);
        print_slot(to, question, desk, &slots.done);
    }
    end_line(to, markup, desk, side);
}

void print_outages(FILE *to, enum markup markup, const struct question *question, const struct desk *desk)
{
    for (uint8_t side = SWAP_ALICE; side <= SWAP_CAROL; side++) {
        if (has_side(desk, side)) {
            struct slack slack = desk_slack(question, desk, side);

            print_longest(to, markup, desk, &slack, side);
            if (question->slots > 0) {
                print_slots(to, markup, question, desk, side);
            }
        }
    }
}
