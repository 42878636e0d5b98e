#include "sheets.h"

#include <stdio.h>
#include <string.h>

#include "../calendar/position.h"
#include "../calendar/saswap.h"
#include "../calendar/words.h"

/* The fields of the head, as the sheet has them after the number of transactions; the last makes it a sheet of three. */
enum { SIGNATURES, SECRETS, ALICE_HOLDS, BOB_HOLDS, CAROL_HOLDS, HEAD_FIELDS };

static const char *const head_names[HEAD_FIELDS] = {"signatures", "secrets", "alice holds", "bob holds", "carol holds"};

/* The parties, in the order of their bits among payees. */
static const char *const names[SWAP_PARTIES] = {"alice", "bob", "carol"};

/* What stands for both parties of a sheet of two. */
static const char either[] = "either";

static unsigned parties(const struct draft *draft)
{
    return draft->has_head[CAROL_HOLDS] ? 3 : 2;
}

/* Takes the numbers of some signatures, or none. */
static bool expect_mask(struct line *line, const struct draft *draft, uint8_t *mask)
{
    unsigned number;

    *mask = 0;
    if (!draft->has_head[SIGNATURES]) {
        return bad(line, "'signatures' must come first");
    }
    if (take(line, "none")) {
        return true;
    }
    do {
        if (!expect_number(line, 0, draft->head[SIGNATURES] - 1u, &number)) {
            return false;
        }
        if ((*mask >> number & 1u) != 0) {
            return bad(line, "signature %u stands there twice", number);
        }
        *mask = (uint8_t)(*mask | 1u << number);
    } while (is_number(next_word(line)));
    return true;
}

static bool read_head(struct line *line, struct draft *draft, unsigned field)
{
    unsigned number = 0;

    if (draft->has_head[field]) {
        return bad(line, "'%s' for the second time", head_names[field]);
    }
    if (field == CAROL_HOLDS && draft->count > 0) {
        return bad(line, "'%s' must stand before the transactions", head_names[field]);
    }
    if (field == SIGNATURES) {
        if (!expect_number(line, 1, 8, &number)) {
            return false;
        }
        draft->head[field] = (uint8_t)number;
    } else if (!expect_mask(line, draft, &draft->head[field])) {
        return false;
    }
    draft->has_head[field] = true;
    return expect_end(line);
}

/* The parent: a lower number, or none. */
static bool read_parent(struct line *line, uint8_t t, uint8_t *parent)
{
    unsigned number;

    if (take(line, "opens a coin")) {
        *parent = SWAP_NONE;
        return true;
    }
    if (!take(line, "spends")) {
        return bad(line, "'%s' where 'opens a coin' or 'spends' is expected", next_word(line));
    }
    if (t == 0) {
        return bad(line, "transaction 0 has none before it to spend");
    }
    if (!expect_number(line, 0, t - 1u, &number)) {
        return false;
    }
    *parent = (uint8_t)number;
    return true;
}

/* Takes a party that is not among the payees yet. */
static bool read_payee(struct line *line, const struct draft *draft, uint8_t *mask)
{
    for (unsigned bit = 0; bit < parties(draft); bit++) {
        if (take(line, names[bit])) {
            if ((*mask >> bit & 1u) != 0) {
                return bad(line, "%s stands there twice", names[bit]);
            }
            *mask = (uint8_t)(*mask | 1u << bit);
            return true;
        }
    }
    return bad(line, parties(draft) == 2 ? "'%s' where 'nobody', 'alice', 'bob' or 'either' is expected"
                                         : "'%s' where 'nobody', 'alice', 'bob' or 'carol' is expected",
               next_word(line));
}

/* Takes nobody, or parties with 'or' between them; 'either' for both of two. */
static bool read_payees(struct line *line, const struct draft *draft, uint8_t *mask)
{
    *mask = 0;
    if (!expect(line, "pays")) {
        return false;
    }
    if (take(line, "nobody")) {
        return true;
    }
    if (parties(draft) == 2 && take(line, either)) {
        *mask = 3;
        return true;
    }
    do {
        if (!read_payee(line, draft, mask)) {
            return false;
        }
    } while (take(line, "or"));
    return true;
}

static bool read_needs(struct line *line, const struct draft *draft, uint8_t *mask)
{
    if (!expect(line, "needs") || !expect_mask(line, draft, mask)) {
        return false;
    }
    return *mask != 0 || bad(line, "a transaction needs a signature");
}

static bool read_lock(struct line *line, uint8_t parent, uint8_t lock[2])
{
    unsigned days = 0;

    lock[0] = SWAP_UNLOCKED;
    if (take(line, "locked for")) {
        if (!expect_number(line, 1, 255, &days) || !(take(line, "day") || expect(line, "days"))) {
            return false;
        }
        lock[0] = take(line, "after its parent") ? SWAP_SINCE_PARENT : SWAP_ABSOLUTE;
    }
    lock[1] = (uint8_t)days;
    return lock[0] != SWAP_SINCE_PARENT || parent != SWAP_NONE ||
           bad(line, "a transaction that opens a coin has no parent");
}

static bool read_transaction(struct line *line, struct draft *draft)
{
    uint8_t t = draft->count;
    uint8_t *entry;
    unsigned number;

    if (t == SWAP_TRANSACTIONS) {
        return bad(line, "a sheet has %d transactions at most", SWAP_TRANSACTIONS);
    }
    if (!expect_number(line, 0, SWAP_TRANSACTIONS - 1, &number)) {
        return false;
    }
    if (number != t) {
        return bad(line, "transaction %u where transaction %u is expected", number, (unsigned)t);
    }
    entry = draft->first[t];
    if (!read_parent(line, t, &entry[0]) || !read_payees(line, draft, &entry[1]) ||
        !read_needs(line, draft, &entry[2])) {
        return false;
    }
    entry[3] = take(line, "veiled");
    draft->lines[t] = line->number;
    draft->count++;
    return read_lock(line, entry[0], draft->second[t]) && expect_end(line);
}

bool read_sheet_line(struct line *line, struct draft *draft)
{
    for (unsigned field = 0; field < HEAD_FIELDS; field++) {
        if (take(line, head_names[field])) {
            return read_head(line, draft, field);
        }
    }
    if (take(line, "transaction")) {
        return read_transaction(line, draft);
    }
    return bad(line, "'%s' where a line of the sheet or 'journal' is expected", next_word(line));
}

static bool has_child(const struct draft *draft, uint8_t t)
{
    for (uint8_t child = t; child < draft->count; child++) {
        if (draft->first[child][0] == t) {
            return true;
        }
    }
    return false;
}

/* Tells the refusal of a sheet whose lines are sound each by itself: what is left is who has a child. */
static bool refuse_sheet(const struct draft *draft, struct line at, uint32_t refusal)
{
    at.number = draft->heading;
    for (uint8_t t = 0; t < draft->count && refusal == SWAP_SHEET_CHILDREN; t++) {
        bool pays = draft->first[t][1] != 0;

        if (pays == has_child(draft, t)) {
            at.number = draft->lines[t];
            return bad(&at, pays ? "transaction %u pays, so none can spend it"
                                 : "transaction %u pays nobody, so another must spend it", (unsigned)t);
        }
    }
    return bad(&at, "the sheet is refused: %s (%s)", swap_refusal_words(refusal), swap_refusal_name(refusal));
}

bool end_sheet(const struct line *line, const struct draft *draft, struct swap *swap)
{
    unsigned fields = CAROL_HOLDS - 2 + parties(draft);
    uint8_t *at = swap->sheet;
    uint32_t refusal;

    for (unsigned field = 0; field < fields; field++) {
        if (!draft->has_head[field]) {
            return bad(line, "the sheet above has no line '%s'", head_names[field]);
        }
    }
    *at++ = (uint8_t)(draft->count + (parties(draft) == 3 ? SWAP_THREE_PARTIES : 0));
    memcpy(at, draft->head, fields);
    at += fields;
    memcpy(at, draft->first, 4u * draft->count);
    at += 4 * draft->count;
    memcpy(at, draft->second, 2u * draft->count);
    swap->sheet_length = 1 + fields + 6 * (size_t)draft->count;
    refusal = SWAP_REFUSAL(swap_check(swap->sheet, swap->sheet_length));
    return refusal == SWAP_ACCEPTED || refuse_sheet(draft, *line, refusal);
}

static void print_mask(const char *name, uint8_t mask)
{
    printf("%s", name);
    if (mask == 0) {
        printf(" none");
    }
    for (unsigned number = 0; number < 8; number++) {
        if ((mask >> number & 1u) != 0) {
            printf(" %u", number);
        }
    }
}

static void print_payees(const struct swap *swap, uint8_t mask)
{
    const char *between = "";

    if (mask == 0 || (parties_of(swap) == 2 && mask == 3)) {
        printf("%s", mask == 0 ? "nobody" : either);
        return;
    }
    for (unsigned bit = 0; bit < SWAP_PARTIES; bit++) {
        if ((mask >> bit & 1u) != 0) {
            printf("%s%s", between, names[bit]);
            between = " or ";
        }
    }
}

static void print_transaction(const struct swap *swap, uint8_t t)
{
    unsigned days = days_of(swap, t);

    printf("transaction %u: ", (unsigned)t);
    if (parent_of(swap, t) == SWAP_NONE) {
        printf("opens a coin");
    } else {
        printf("spends %u", (unsigned)parent_of(swap, t));
    }
    printf(", pays ");
    print_payees(swap, payees_of(swap, t));
    print_mask(", needs", needs_of(swap, t));
    if (veil_of(swap, t) != 0) {
        printf(", veiled");
    }
    if (lock_type_of(swap, t) != SWAP_UNLOCKED) {
        printf(", locked for %u day%s%s", days, days == 1 ? "" : "s",
               lock_type_of(swap, t) == SWAP_SINCE_PARENT ? " after its parent" : "");
    }
    putchar('\n');
}

void print_sheet(const struct swap *swap)
{
    if (is_saswap(swap)) {
        printf("sheet: saswap\n");
        return;
    }
    printf("sheet:\nsignatures: %u\n", (unsigned)swap->sheet[1]);
    for (unsigned field = SECRETS; 1 + field < head_of(swap); field++) {
        printf("%s:", head_names[field]);
        print_mask("", swap->sheet[1 + field]);
        putchar('\n');
    }
    for (uint8_t t = 0; t < count_of(swap); t++) {
        print_transaction(swap, t);
    }
}
