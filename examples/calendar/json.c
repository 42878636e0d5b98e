#include "json.h"

#include "../common/steps.h"
#include "action.h"
#include "markup.h"
#include "rivals.h"
#include "sides.h"
#include "slack.h"
#include "slots.h"
#include "words.h"

/* What is written, and whether a comma stands before the next part. */
struct json {
    FILE *to;
    uint32_t base; /* of the swap that is written */
    bool comma;
};

/* Begins a part. */
static void part(struct json *json)
{
    if (json->comma) {
        fputs(", ", json->to);
    }
    json->comma = true;
}

/* Begins a part on a line of its own. */
static void line(struct json *json)
{
    fputs(json->comma ? ",\n" : "\n", json->to);
    json->comma = false;
}

static void begin(struct json *json, char bracket)
{
    part(json);
    fputc(bracket, json->to);
    json->comma = false;
}

static void end(struct json *json, char bracket)
{
    fputc(bracket, json->to);
    json->comma = true;
}

/* A text; what is no text is null. */
static void string(struct json *json, const char *text)
{
    part(json);
    if (text == NULL) {
        fputs("null", json->to);
        return;
    }
    fputc('"', json->to);
    write_text(json->to, AS_JSON, text);
    fputc('"', json->to);
}

static void key(struct json *json, const char *name)
{
    string(json, name);
    fputs(": ", json->to);
    json->comma = false;
}

static void key_string(struct json *json, const char *name, const char *text)
{
    key(json, name);
    string(json, text);
}

static void key_number(struct json *json, const char *name, uint64_t number)
{
    key(json, name);
    part(json);
    write_number(json->to, number);
}

static void key_bool(struct json *json, const char *name, bool value)
{
    key(json, name);
    part(json);
    fputs(value ? "true" : "false", json->to);
}

/* A height of the real chain; null is never. */
static void key_height(struct json *json, const char *name, uint32_t height)
{
    key(json, name);
    part(json);
    write_height(json->to, AS_JSON, json->base, height);
}

/* A number of blocks, or what has no base in it; null is never. */
static void key_blocks(struct json *json, const char *name, uint32_t blocks)
{
    key(json, name);
    part(json);
    write_height(json->to, AS_JSON, 0, blocks);
}

/* A time in UTC; null where there is none. */
static void key_time(struct json *json, const char *name, bool is_set, int64_t time)
{
    if (!is_set) {
        key_string(json, name, NULL);
        return;
    }
    key(json, name);
    part(json);
    fputc('"', json->to);
    print_iso(json->to, time);
    fputc('"', json->to);
}

/* The sides of a mask. */
static void key_sides(struct json *json, const char *name, uint8_t mask)
{
    key(json, name);
    begin(json, '[');
    for (uint8_t side = SWAP_ALICE; side <= SWAP_CAROL; side++) {
        if (is_among(mask, side)) {
            string(json, party_name(side));
        }
    }
    end(json, ']');
}

/* A transaction's number and name, in an object that goes on. */
static void begin_transaction(struct json *json, const struct position *position, uint8_t t)
{
    begin(json, '{');
    key_number(json, "number", t);
    key_string(json, "name", transaction_label(position->swap, t).text);
}

/* What can be confirmed from the block after the window on; null where the window has no end. */
static void key_else(struct json *json, const struct position *position, uint8_t t)
{
    uint8_t rival = later_rival(position, t);

    if (rival == SWAP_NONE) {
        key_string(json, "else", NULL);
        return;
    }
    key(json, "else");
    begin_transaction(json, position, rival);
    key_sides(json, "pays", can_pay(position, rival));
    key_height(json, "from", soonest_deadline_of(position, t) + 1);
    end(json, '}');
}

/* The parent to come on whose block the window hangs; null where the window stays. */
static void key_if(struct json *json, const struct position *position, uint8_t t)
{
    uint8_t parent = parent_of(position->swap, t);

    if (parent == SWAP_NONE || soonest_deadline_of(position, t) == deadline_of(position, t)) {
        key_string(json, "if", NULL);
        return;
    }
    key(json, "if");
    begin_transaction(json, position, parent);
    key_height(json, "block", soonest_block_of(position, parent));
    end(json, '}');
}

/* The window of a transaction; null where that is settled. */
static void key_window(struct json *json, const struct entry *entry, uint8_t t)
{
    const struct position *position = &entry->position;

    if (is_settled(entry, t)) {
        key_string(json, "window", NULL);
        return;
    }
    key(json, "window");
    begin(json, '{');
    key_height(json, "from", soonest_block_of(position, t));
    key_height(json, "to", soonest_deadline_of(position, t));
    key_blocks(json, "left", blocks_left(position, t));
    key_else(json, position, t);
    key_if(json, position, t);
    end(json, '}');
}

static void key_status(struct json *json, uint8_t status)
{
    key(json, "status");
    begin(json, '[');
    for (unsigned bit = 0; bit < STATUS_BITS; bit++) {
        if ((status >> bit & 1) == 1) {
            string(json, status_word(bit));
        }
    }
    end(json, ']');
}

/* The rivals that no deadline covers. */
static void key_rivals(struct json *json, const struct position *position, uint8_t t, uint8_t side)
{
    key(json, "rivals");
    begin(json, '[');
    for (uint8_t rival = 0; rival < count_of(position->swap); rival++) {
        if (in_the_way(position, t, rival, side)) {
            begin_transaction(json, position, rival);
            key_bool(json, "sent", (status_of(position, rival) & (SWAP_IN_POOL | SWAP_IN_BLOCK)) != 0);
            end(json, '}');
        }
    }
    end(json, ']');
}

/* The estimated time of the last block that is safe: on average, and in 5 and in 95 of 100 cases. */
static void key_by_time(struct json *json, const struct question *question, const struct entry *entry,
                        const struct action *action)
{
    const struct clock *clock = &question->clock;
    uint64_t blocks = action->by - entry->position.mined;

    if (!clock->set || action->by == SWAP_NEVER || action->act > LATER) {
        key_string(json, "time", NULL);
        return;
    }
    key(json, "time");
    begin(json, '{');
    key_time(json, "about", true, mean_time(clock, blocks));
    key_time(json, "early", true, early_time(clock, blocks));
    key_time(json, "late", true, late_time(clock, blocks));
    end(json, '}');
}

/* What the side can do about its payout. */
static void key_action(struct json *json, const struct question *question, const struct entry *entry, uint8_t side)
{
    struct action action = action_of(question, entry, side);
    bool step = action.act <= LATER;

    key(json, "action");
    begin(json, '{');
    key_string(json, "word", act_word(&action));
    key_string(json, "step", step ? step_words(&entry->swap, action.step).text : NULL);
    key_string(json, "once",
               step && action.once != SWAP_NONE ? transaction_label(&entry->swap, action.once).text : NULL);
    key_height(json, "after", step ? action.after : SWAP_NEVER);
    key_height(json, "by", step ? action.by : SWAP_NEVER);
    key_bool(json, "now", is_now(entry, &action));
    key_by_time(json, question, entry, &action);
    key_blocks(json, "then", action.helps ? entry->stands[side].then : SWAP_NEVER);
    key_string(json, "reason", step || action.act == NO_PAYOUT ? NULL : action.why);
    end(json, '}');
}

/* What the outage does to a transaction's window for each side that is shown. */
static void key_verdicts(struct json *json, const struct entry *entry, uint8_t t)
{
    static const char *const words[] = {
        [COVERED] = "covered", [AHEAD] = "ahead",   [TAKEN] = "taken",     [SENT] = "sent",
        [FREE] = "free",       [OTHERS] = "others", [SETTLED] = "settled",
    };
    const struct position *position = &entry->position;

    key(json, "sides");
    begin(json, '[');
    for (uint8_t side = SWAP_ALICE; side <= SWAP_CAROL; side++) {
        if (is_shown(entry, side)) {
            begin(json, '{');
            key_string(json, "side", party_name(side));
            key_string(json, "outage", words[kind_of(position, &entry->outage, t, side)]);
            key_bool(json, "can_send", can_be_sent(position, side, t));
            key_rivals(json, position, t, side);
            end(json, '}');
        }
    }
    end(json, ']');
}

static void transaction(struct json *json, const struct entry *entry, uint8_t t)
{
    const struct position *position = &entry->position;
    bool confirmed = is_confirmed(position, t);

    line(json);
    begin_transaction(json, position, t);
    key_status(json, status_of(position, t));
    key_string(json, "payee", confirmed ? destination_name(payee_of(position, t)) : NULL);
    key_height(json, "block", confirmed ? block_of(position, t) : SWAP_NEVER);
    key_height(json, "lock_height", lock_height_of(position, t));
    key_height(json, "deadline", deadline_of(position, t));
    key_sides(json, "pays", can_pay(position, t));
    key_window(json, entry, t);
    key_verdicts(json, entry, t);
    end(json, '}');
}

/* The longest outage from now without a warning for a side: any, or so many blocks, null where there is none. */
static void slack(struct json *json, const struct slack *slack)
{
    key_bool(json, "any", slack->reach == ANY);
    key_blocks(json, "blocks", slack->reach == SOME ? slack->blocks : SWAP_NEVER);
}

/* The name of what is counted on; null where it is nothing. */
static void key_counted(struct json *json, const struct entry *entry, uint8_t t)
{
    key_string(json, "counts_on", t == SWAP_NONE ? NULL : transaction_label(&entry->swap, t).text);
}

/* Where each side of a swap stands, and what it can do. */
static void key_payouts(struct json *json, const struct question *question, const struct entry *entry)
{
    key(json, "payouts");
    begin(json, '[');
    for (uint8_t side = SWAP_ALICE; side <= SWAP_CAROL; side++) {
        if (is_shown(entry, side)) {
            const struct stand *stand = &entry->stands[side];
            struct slack own = slack_of(question, entry, side);

            begin(json, '{');
            key_string(json, "side", party_name(side));
            key_string(json, "standing", standing_word(stand->standing));
            key_bool(json, "warning", stand->warned);
            key_blocks(json, "slack", stand->standing >= NOT_YET ? SWAP_NEVER : stand->slack);
            key_counted(json, entry, stand->t);
            slack(json, &own);
            key_action(json, question, entry, side);
            end(json, '}');
        }
    }
    end(json, ']');
}

/* A stretch in blocks from now, its last block null where it has no end; null where there is none. */
static void key_slot(struct json *json, const char *name, const struct slot *slot)
{
    if (slot->last == 0) {
        key_string(json, name, NULL);
        return;
    }
    key(json, name);
    begin(json, '{');
    key_number(json, "first", slot->first);
    if (slot->last == SLOT_OPEN) {
        key_string(json, "last", NULL);
    } else {
        key_number(json, "last", slot->last);
    }
    end(json, '}');
}

/* The stretches in which an outage has no warning for a side; null where they are not asked for. */
static void key_slots(struct json *json, const struct question *question, const struct desk *desk, uint8_t side)
{
    struct slots slots;

    if (question->slots == 0) {
        key_string(json, "slots", NULL);
        return;
    }
    slots = slots_of(question, desk, side);
    key(json, "slots");
    begin(json, '{');
    key_slot(json, "now", &slots.now);
    key_slot(json, "done", &slots.done);
    end(json, '}');
}

/* How long and when the box of each side can be off, over all its swaps, and what bounds it. */
static void key_outages(struct json *json, const struct question *question, const struct desk *desk)
{
    key(json, "outages");
    begin(json, '[');
    for (uint8_t side = SWAP_ALICE; side <= SWAP_CAROL; side++) {
        if (has_side(desk, side)) {
            struct slack least = desk_slack(question, desk, side);

            begin(json, '{');
            key_string(json, "side", party_name(side));
            slack(json, &least);
            key_string(json, "swap", least.entry == NULL ? NULL : least.entry->name);
            key_counted(json, least.entry, least.t);
            key_number(json, "unsecured", unsecured_of(desk, side));
            key_slots(json, question, desk, side);
            end(json, '}');
        }
    }
    end(json, ']');
}

/* The blocks of the outage; null where it has none. */
static void key_outage(struct json *json, const struct outage *outage)
{
    if (outage->last < outage->first) {
        key_string(json, "outage", NULL);
        return;
    }
    key(json, "outage");
    begin(json, '{');
    key_height(json, "first", outage->first);
    key_height(json, "last", outage->last);
    end(json, '}');
}

static void sound(struct json *json, const struct question *question, const struct entry *entry)
{
    const struct position *position = &entry->position;
    const struct swap *swap = &entry->swap;

    key_string(json, "state", "sound");
    key_sides(json, "sides", entry->sides);
    key_number(json, "blocks_per_day", blocks_per_day_of(swap));
    key_string(json, "conduct", conduct_name(conduct_of(swap)));
    key_bool(json, "stealth", stealth_of(swap) != 0);
    key_number(json, "steps", position->steps);
    key_number(json, "mined", position->mined);
    key_blocks(json, "base", entry->based ? entry->base : SWAP_NEVER);
    key_outage(json, &entry->outage);
    key_payouts(json, question, entry);
    key(json, "transactions");
    begin(json, '[');
    for (uint8_t t = 0; t < count_of(swap); t++) {
        transaction(json, entry, t);
    }
    end(json, ']');
}

/* Why there is nothing to tell of a swap. */
static void faulty(struct json *json, const struct entry *entry)
{
    uint32_t refusal = SWAP_REFUSAL(entry->answer);

    if (entry->fault.file != NULL) {
        key_string(json, "state", "unreadable");
        key_string(json, "file", entry->fault.file);
        key_string(json, "reason", entry->fault.reason);
        return;
    }
    key_string(json, "state", "refused");
    key_number(json, "refusal", refusal);
    key_string(json, "refusal_name", swap_refusal_name(refusal));
    key_string(json, "reason", swap_refusal_words(refusal));
    key_number(json, "steps", SWAP_COUNT(entry->answer));
}

static void key_question(struct json *json, const struct question *question)
{
    key(json, "question");
    begin(json, '{');
    key_string(json, "unit", question->in_days ? "day" : "block");
    key_number(json, "length", question->length);
    key_blocks(json, "in", question->from > 0 ? SWAP_NEVER : question->in);
    key_blocks(json, "from", question->from > 0 ? question->from : SWAP_NEVER);
    key_number(json, "margin", question->margin);
    key_time(json, "at", question->clock.set, question->clock.at);
    end(json, '}');
}

static void key_totals(struct json *json, const struct totals *totals)
{
    key(json, "totals");
    begin(json, '{');
    key_number(json, "swaps", totals->swaps);
    key_number(json, "warnings", totals->warnings);
    key_number(json, "not_yet", totals->not_yet);
    key_number(json, "given_up", totals->given_up);
    key_number(json, "faulty", totals->refused);
    end(json, '}');
}

void show_json(const struct question *question, const struct desk *desk, const struct totals *totals)
{
    struct json json = {stdout, 0, false};

    begin(&json, '{');
    key_question(&json, question);
    line(&json);
    key_totals(&json, totals);
    line(&json);
    key_outages(&json, question, desk);
    line(&json);
    key(&json, "swaps");
    begin(&json, '[');
    for (size_t i = 0; i < desk->count; i++) {
        const struct entry *entry = desk->entries[i];

        line(&json);
        begin(&json, '{');
        key_string(&json, "name", entry->name);
        json.base = entry->base;
        if (is_sound(entry)) {
            sound(&json, question, entry);
        } else {
            faulty(&json, entry);
        }
        end(&json, '}');
    }
    end(&json, ']');
    end(&json, '}');
    fputc('\n', json.to);
}
