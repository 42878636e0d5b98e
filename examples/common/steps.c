#include "steps.h"

#include <stdio.h>
#include <string.h>

#include "../calendar/position.h"
#include "../calendar/saswap.h"
#include "../calendar/words.h"

/* The most steps of a journal. */
#define STEPS_MOST (SWAP_JOURNAL_SIZE / 4)

/* What stands before and after the name of a transaction, by kind. */
static const struct {
    const char *before;
    const char *after;
} phrases[] = {
    [SWAP_SHARE] = {"shares signatures on", ""},
    [SWAP_SEND] = {"sends", "to the pool"},
    [SWAP_HAND_IN] = {"hands", "to the miner"},
    [SWAP_INCLUDE] = {"include", "in the block"},
    [SWAP_BUMP] = {"bump", "into the block"},
};

static const char first_shares[] = "makes the first shares";

/* The parties by number. */
static const char *const parties[] = {[SWAP_ALICE] = "alice", [SWAP_BOB] = "bob", [SWAP_CAROL] = "carol"};

const char *party_words(uint8_t party)
{
    return parties[party];
}

/* Takes a party of the sheet. */
static bool take_party(struct line *line, const struct swap *swap, uint8_t *party)
{
    for (uint8_t number = SWAP_ALICE; number <= SWAP_CAROL; number++) {
        if (is_among(everybody(swap), number) && take(line, parties[number])) {
            *party = number;
            return true;
        }
    }
    return false;
}

bool expect_party(struct line *line, const struct swap *swap, uint8_t *party)
{
    const char *expected = parties_of(swap) == 2 ? "'alice' or 'bob'" : "'alice', 'bob' or 'carol'";

    return take_party(line, swap, party) || bad(line, "'%s' where %s is expected", next_word(line), expected);
}

/* Takes a name of the SASwap sheet, or WORD and a number below COUNT. */
static bool expect_name(struct line *line, const struct swap *swap, const char *name(uint8_t), const char *word,
                        uint8_t count, uint8_t *found)
{
    unsigned number;

    for (uint8_t i = 0; i < count && is_saswap(swap); i++) {
        if (take(line, name(i))) {
            *found = i;
            return true;
        }
    }
    if (!take(line, word)) {
        return bad(line, "'%s' is no %s of this sheet%s", next_word(line), word,
                   is_saswap(swap) ? "" : ", which has numbers instead of names");
    }
    if (!expect_number(line, 0, count - 1u, &number)) {
        return false;
    }
    *found = (uint8_t)number;
    return true;
}

bool expect_transaction(struct line *line, const struct swap *swap, uint8_t *t)
{
    return expect_name(line, swap, saswap_transaction, "transaction", count_of(swap), t);
}

static bool expect_signature(struct line *line, const struct swap *swap, uint8_t *number)
{
    return expect_name(line, swap, saswap_signature, "signature", swap->sheet[1], number);
}

bool expect_destination(struct line *line, const struct swap *swap, uint8_t *destination)
{
    *destination = SWAP_CONTRACT;
    return !take(line, "paying") || expect_party(line, swap, destination);
}

/* The rest of a step on a transaction, after the words before its name. */
static bool read_named(struct line *line, const struct swap *swap, uint8_t step[4])
{
    return expect_transaction(line, swap, &step[2]) && expect(line, phrases[step[0]].after) &&
           (step[1] == SWAP_MINER || expect_destination(line, swap, &step[3]));
}

/* The kind from FIRST to LAST whose words come next; 0 where there is none. */
static uint8_t take_kind(struct line *line, uint8_t first, uint8_t last)
{
    for (uint8_t kind = first; kind <= last; kind++) {
        if (phrases[kind].before != NULL && take(line, phrases[kind].before)) {
            return kind;
        }
    }
    return 0;
}

/* A step of a party, after the name. */
static bool read_own(struct line *line, const struct swap *swap, uint8_t step[4])
{
    if (take(line, first_shares)) {
        step[0] = SWAP_SHARE;
        step[2] = SWAP_NONE;
        return true;
    }
    if (take(line, "gives")) {
        step[0] = SWAP_GIVE;
        return expect_signature(line, swap, &step[2]) && expect(line, "to") && expect_party(line, swap, &step[3]);
    }
    step[0] = take_kind(line, SWAP_SHARE, SWAP_HAND_IN);
    if (step[0] == 0) {
        return bad(line, "'%s' where 'shares signatures on', '%s', 'gives', 'sends' or 'hands' is expected",
                   next_word(line), first_shares);
    }
    return read_named(line, swap, step);
}

/* A row of blocks, after the word mine. */
static bool read_blocks(struct line *line, uint8_t step[4], unsigned *times)
{
    step[0] = SWAP_MINE;
    step[2] = SWAP_NONE;
    if (take(line, "the block")) {
        return true;
    }
    if (!is_number(next_word(line))) {
        return bad(line, "'%s' where 'the block' or a number of blocks is expected", next_word(line));
    }
    return expect_number(line, 1, STEPS_MOST, times) && (take(line, "block") || expect(line, "blocks"));
}

/* A step of the miner. */
static bool read_miner(struct line *line, const struct swap *swap, uint8_t step[4], unsigned *times)
{
    if (take(line, "mine")) {
        return read_blocks(line, step, times);
    }
    step[0] = take_kind(line, SWAP_INCLUDE, SWAP_BUMP);
    if (step[0] == 0) {
        return bad(line, "'%s' where a step is expected: %s'include', 'bump' or 'mine'", next_word(line),
                   parties_of(swap) == 2 ? "'alice', 'bob', " : "'alice', 'bob', 'carol', ");
    }
    return read_named(line, swap, step);
}

bool read_steps(struct line *line, const struct swap *swap, uint8_t step[4], unsigned *times)
{
    bool sound;

    *times = 1;
    step[3] = SWAP_CONTRACT;
    if (take_party(line, swap, &step[1])) {
        sound = read_own(line, swap, step);
    } else {
        step[1] = SWAP_MINER;
        sound = read_miner(line, swap, step, times);
    }
    return sound && expect_end(line);
}

/* The words after the party's name, of a step that mines no block. */
static void write_words(const struct swap *swap, const uint8_t step[4], char *to, size_t size)
{
    const char *after;
    int length;

    if (step[0] == SWAP_GIVE && is_saswap(swap)) {
        snprintf(to, size, "gives %s to %s", saswap_signature(step[2]), parties[step[3]]);
        return;
    }
    if (step[0] == SWAP_GIVE) {
        snprintf(to, size, "gives signature %u to %s", (unsigned)step[2], parties[step[3]]);
        return;
    }
    if (step[2] == SWAP_NONE) {
        snprintf(to, size, "%s", first_shares);
        return;
    }
    after = phrases[step[0]].after;
    length = snprintf(to, size, "%s %s%s%s", phrases[step[0]].before, transaction_label(swap, step[2]).text,
                      *after == '\0' ? "" : " ", after);
    if (step[3] != SWAP_CONTRACT) {
        snprintf(to + length, size - (size_t)length, ", paying %s", parties[step[3]]);
    }
}

struct step_words step_words(const struct swap *swap, const uint8_t step[4])
{
    struct step_words words = {"mine the block"};
    int length = 0;

    if (step[1] != SWAP_MINER) {
        length = snprintf(words.text, sizeof words.text, "%s ", parties[step[1]]);
    }
    if (step[0] != SWAP_MINE) {
        write_words(swap, step, words.text + length, sizeof words.text - (size_t)length);
    }
    return words;
}

/* The first shares, which open conduct has not. */
static bool is_first_shares(const struct swap *swap, const uint8_t step[4])
{
    return step[0] == SWAP_SHARE && step[1] <= SWAP_CAROL && is_among(everybody(swap), step[1]) &&
           step[2] == SWAP_NONE && step[3] == SWAP_CONTRACT;
}

bool is_step(const struct swap *swap, const uint8_t step[4])
{
    static const uint8_t setup[SWAP_SETUP_SIZE] = {1, 0, SWAP_OPEN, 0};
    uint32_t answer = swap_ask(swap->sheet, swap->sheet_length, setup, sizeof setup, NULL, 0, step, SWAP_STEP_SIZE);

    return SWAP_REFUSAL(answer) != SWAP_STEP_FIELD || is_first_shares(swap, step);
}

/* Prints so many blocks, which follow MINED others where that is given. */
static void print_blocks(size_t blocks, size_t *mined)
{
    if (blocks == 1) {
        printf("mine the block");
    } else {
        printf("mine %zu blocks", blocks);
    }
    if (mined != NULL && blocks == 1) {
        printf(" # block %zu", *mined + 1);
    } else if (mined != NULL) {
        printf(" # blocks %zu to %zu", *mined + 1, *mined + blocks);
    }
    putchar('\n');
    if (mined != NULL) {
        *mined += blocks;
    }
}

/* How many of these steps mine a block, one after the other. */
static size_t blocks_at(const struct swap *swap, const uint8_t *steps, size_t length)
{
    size_t blocks = 0;

    while (SWAP_STEP_SIZE * blocks < length && steps[SWAP_STEP_SIZE * blocks] == SWAP_MINE &&
           is_step(swap, steps + SWAP_STEP_SIZE * blocks)) {
        blocks++;
    }
    return blocks;
}

/* Prints a step that mines no block. */
static void print_one(const struct swap *swap, const uint8_t step[4])
{
    if (is_step(swap, step)) {
        printf("%s\n", step_words(swap, step).text);
    } else {
        printf("# no step: %u %u %u %u\n", (unsigned)step[0], (unsigned)step[1], (unsigned)step[2], (unsigned)step[3]);
    }
}

void print_steps(const struct swap *swap, const uint8_t *steps, size_t length, size_t *mined)
{
    for (size_t at = 0; at < length;) {
        size_t blocks = blocks_at(swap, steps + at, length - at);

        if (blocks > 0) {
            print_blocks(blocks, mined);
        } else {
            print_one(swap, steps + at);
        }
        at += SWAP_STEP_SIZE * (blocks > 0 ? blocks : 1);
    }
}

void print_journal(const struct swap *swap)
{
    size_t mined = 0;

    print_steps(swap, swap->journal, swap->journal_length, &mined);
}

void print_refused_journal(const struct swap *swap, uint32_t answer)
{
    uint32_t refusal = SWAP_REFUSAL(answer);
    size_t whole = swap->journal_length - swap->journal_length % SWAP_STEP_SIZE;
    size_t sound = refusal == SWAP_JOURNAL_LENGTH ? whole : SWAP_STEP_SIZE * (size_t)SWAP_COUNT(answer);
    size_t mined = 0;

    if (refusal == SWAP_JOURNAL_LENGTH) {
        printf("# the journal is refused: %s (%s)\n", swap_refusal_words(refusal), swap_refusal_name(refusal));
        print_steps(swap, swap->journal, whole, NULL);
        return;
    }
    print_steps(swap, swap->journal, sound, &mined);
    printf("# step %zu is refused: %s (%s)\n", sound / SWAP_STEP_SIZE + 1, swap_refusal_words(refusal),
           swap_refusal_name(refusal));
    print_steps(swap, swap->journal + sound, SWAP_STEP_SIZE, NULL);
    if (whole > sound + SWAP_STEP_SIZE) {
        printf("# steps behind it:\n");
    }
    print_steps(swap, swap->journal + sound + SWAP_STEP_SIZE, whole - sound - SWAP_STEP_SIZE, NULL);
}
