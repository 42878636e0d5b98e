#include "slack.h"

struct slack slack_after(const struct question *question, uint32_t blocks)
{
    struct slack slack = {.reach = SOME, .t = SWAP_NONE};

    if (blocks >= SWAP_SLACK_MOST) {
        slack.reach = ANY;
    } else if (blocks < question->margin) {
        slack.reach = NONE;
    } else {
        slack.blocks = blocks - question->margin;
    }
    return slack;
}

struct slack slack_of(const struct question *question, const struct entry *entry, uint8_t side)
{
    const struct stand *stand = &entry->stands[side];
    struct slack slack = slack_after(question, stand->slack);

    if (stand->standing >= NOT_YET) {
        slack.reach = UNSECURED;
    }
    slack.entry = entry;
    slack.t = stand->t;
    return slack;
}

/* Whether the side's slack here is less than there; nothing is there at first. */
static bool is_less(const struct entry *here, const struct entry *there, uint8_t side)
{
    return there == NULL || here->stands[side].slack < there->stands[side].slack;
}

struct slack desk_slack(const struct question *question, const struct desk *desk, uint8_t side)
{
    const struct entry *least = NULL;

    for (size_t i = 0; i < desk->count; i++) {
        const struct entry *entry = desk->entries[i];

        if (is_sound(entry) && is_shown(entry, side) && is_bounded(&entry->stands[side]) &&
            is_less(entry, least, side)) {
            least = entry;
        }
    }
    return least != NULL ? slack_of(question, least, side) : slack_after(question, SWAP_SLACK_MOST);
}

bool has_side(const struct desk *desk, uint8_t side)
{
    for (size_t i = 0; i < desk->count; i++) {
        if (is_sound(desk->entries[i]) && is_shown(desk->entries[i], side)) {
            return true;
        }
    }
    return false;
}

size_t unsecured_of(const struct desk *desk, uint8_t side)
{
    size_t count = 0;

    for (size_t i = 0; i < desk->count; i++) {
        const struct entry *entry = desk->entries[i];

        count += is_sound(entry) && is_shown(entry, side) && entry->stands[side].standing >= NOT_YET;
    }
    return count;
}
