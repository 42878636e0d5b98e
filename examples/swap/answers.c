/* The commands that print what the engine answers of one swap. */
#include <stdio.h>

#include "../calendar/fields.h"
#include "../calendar/saswap.h"
#include "../calendar/words.h"
#include "../common/open_steps.h"
#include "../common/steps.h"
#include "commands.h"

/* The slices that every call of a journal takes. */
#define SLICES(swap) \
    (swap).sheet, (swap).sheet_length, (swap).setup, (swap).setup_length, (swap).journal, (swap).journal_length

static struct swap swap;

int check(int count, char **words)
{
    uint32_t answer;

    (void)count;
    if (!read_folder(words[0], &swap)) {
        return REFUSED;
    }
    answer = swap_check(swap.sheet, swap.sheet_length);
    if (answer == SWAP_ACCEPTED) {
        answer = swap_run(SLICES(swap));
    }
    if (SWAP_REFUSAL(answer) != SWAP_ACCEPTED) {
        return refuse_swap(words[0], answer);
    }
    printf("sheet: %u transactions, %u parties%s\n", (unsigned)count_of(&swap), (unsigned)parties_of(&swap),
           is_saswap(&swap) ? ", saswap" : "");
    printf("setup: %u blocks per day, conduct %s, stealth %s\n", blocks_per_day_of(&swap),
           conduct_name(conduct_of(&swap)), stealth_of(&swap) == 0 ? "no" : "yes");
    printf("journal: steps accepted: %lu, blocks mined: %lu\n", (unsigned long)SWAP_COUNT(answer),
           blocks_mined(&swap));
    return FINE;
}

int list(int count, char **words)
{
    static struct open_steps open;
    uint32_t answer;

    (void)count;
    if (!read_folder(words[0], &swap)) {
        return REFUSED;
    }
    answer = swap_run(SLICES(swap));
    if (SWAP_REFUSAL(answer) == SWAP_ACCEPTED) {
        answer = ask_open(&swap, &open);
    }
    if (SWAP_REFUSAL(answer) != SWAP_ACCEPTED) {
        return refuse_swap(words[0], answer);
    }
    print_open(&swap, &open);
    return FINE;
}

/* Reads the folder and runs its journal, so that a refusal has its step: FINE, or the status with a message. */
static int accepted(const char *folder)
{
    uint32_t answer;

    if (!read_folder(folder, &swap)) {
        return REFUSED;
    }
    answer = swap_run(SLICES(swap));
    return SWAP_REFUSAL(answer) == SWAP_ACCEPTED ? FINE : refuse_swap(folder, answer);
}

/* Prints the number and the name of a transaction. */
static void print_transaction(uint8_t t)
{
    printf("%3u  %-20s", (unsigned)t, transaction_label(&swap, t).text);
}

int report(int count, char **words)
{
    uint8_t rows[SWAP_REPORT_SIZE];
    uint32_t base = 0;
    int status = count == 2 ? read_number(words[1], BASE_MOST, &base) : FINE;

    if (status == FINE) {
        status = accepted(words[0]);
    }
    if (status != FINE) {
        return status;
    }
    if (swap_report(SLICES(swap), rows, sizeof rows) != SWAP_ACCEPTED) {
        return REFUSED; /* never: the journal passed */
    }
    printf(" no  %-20s  %-15s  %-8s  %10s  %11s  %10s  %10s\n", "transaction", "status", "payee", "block", "lock height",
           "deadline", "open since");
    for (uint8_t t = 0; t < count_of(&swap); t++) {
        const uint8_t *row = rows + SWAP_REPORT_ROW * t;
        uint32_t block = swap_number(row + SWAP_REPORT_BLOCK);

        print_transaction(t);
        printf("  %-15s  %-8s", status_label(row[SWAP_REPORT_STATUS]).text,
               row[SWAP_REPORT_PAYEE] == SWAP_NONE ? "-" : destination_name(row[SWAP_REPORT_PAYEE]));
        printf("  %10s  %11s", block == 0 ? "-" : height_label(base, block).text,
               height_label(base, swap_number(row + SWAP_REPORT_LOCK_HEIGHT)).text);
        printf("  %10s  %10s\n", height_label(base, swap_number(row + SWAP_REPORT_DEADLINE)).text,
               height_label(0, swap_number(row + SWAP_REPORT_OPENED)).text);
    }
    return FINE;
}

int page(int count, char **words)
{
    uint8_t text[SWAP_PAGE_SIZE];
    int status = accepted(words[0]);

    (void)count;
    if (status != FINE) {
        return status;
    }
    if (swap_page(SLICES(swap), text, sizeof text) != SWAP_ACCEPTED) {
        return REFUSED; /* never: the journal passed */
    }
    fwrite(text, SWAP_PAGE_LINE, count_of(&swap) + 1u, stdout);
    return FINE;
}

static const char *verdict_words(uint8_t verdict)
{
    switch (verdict) {
    case 0:
        return "not reached";
    case SWAP_OUTAGE_SETTLED:
        return "settled";
    case SWAP_OUTAGE_SAFE:
        return "safe";
    case SWAP_OUTAGE_COVERED:
        return "reached";
    case SWAP_OUTAGE_PASSED:
        return "passed";
    case SWAP_OUTAGE_PASSED | SWAP_OUTAGE_COVERED:
        return "passed, reached";
    default:
        return "?";
    }
}

int outage(int count, char **words)
{
    uint8_t rows[SWAP_OUTAGE_SIZE];
    uint32_t length;
    int status = read_number(words[1], UINT32_MAX, &length);

    (void)count;
    if (status == FINE) {
        status = accepted(words[0]);
    }
    if (status != FINE) {
        return status;
    }
    if (swap_outage(SLICES(swap), length, rows, sizeof rows) != SWAP_ACCEPTED) {
        return REFUSED; /* never: the journal passed */
    }
    printf(" no  %-20s  %-15s  %-7s  %13s  %16s\n", "transaction", "verdict", "pays", "soonest block",
           "soonest deadline");
    for (uint8_t t = 0; t < count_of(&swap); t++) {
        const uint8_t *row = rows + SWAP_OUTAGE_ROW * t;

        print_transaction(t);
        printf("  %-15s  %-7s", verdict_words(row[SWAP_OUTAGE_VERDICT]), payees_name(&swap, row[SWAP_OUTAGE_PAYEES]));
        printf("  %13s  %16s\n", height_label(0, swap_number(row + SWAP_OUTAGE_SOONEST_BLOCK)).text,
               height_label(0, swap_number(row + SWAP_OUTAGE_SOONEST_DEADLINE)).text);
    }
    return FINE;
}

/* A transaction that a party counts on, as "spend_A, paying Alice". */
static void print_counted(const uint8_t *row)
{
    uint8_t destination = row[SWAP_SLACK_DESTINATION];

    printf("%s", transaction_label(&swap, row[SWAP_SLACK_TRANSACTION]).text);
    if (destination != SWAP_CONTRACT) {
        printf(", paying %s", destination_name(destination));
    }
}

/* Whether a party can hand in now what it counts on, which shows no secret before the block is mined; else it can send it to the pool. */
static bool can_hand_in(uint8_t party, const uint8_t *row)
{
    const uint8_t step[] = {SWAP_HAND_IN, party, row[SWAP_SLACK_TRANSACTION], row[SWAP_SLACK_DESTINATION]};

    return SWAP_REFUSAL(swap_ask(SLICES(swap), step, sizeof step)) == SWAP_ACCEPTED;
}

/* Whether a mined block pays a party; else, where it counts on nothing, the block being filled does. */
static bool has_payout(uint8_t party)
{
    uint8_t rows[SWAP_REPORT_SIZE];
    bool paid = false;

    if (swap_report(SLICES(swap), rows, sizeof rows) != SWAP_ACCEPTED) {
        return false; /* never: the journal passed */
    }
    for (uint8_t t = 0; t < count_of(&swap); t++) {
        paid = paid || rows[SWAP_REPORT_ROW * t + SWAP_REPORT_PAYEE] == party;
    }
    return paid;
}

/* A party's slack in words. */
static void print_slack(uint8_t party, const uint8_t *row)
{
    uint32_t blocks = swap_number(row + SWAP_SLACK_BLOCKS);

    printf("%s: ", party_name(party));
    if (blocks == SWAP_NEVER) {
        printf("no payout is secured");
    } else if (row[SWAP_SLACK_TRANSACTION] == SWAP_NONE) {
        printf(has_payout(party) ? "paid" : "paid by the block being filled");
    } else if (row[SWAP_SLACK_DUE] != 0) {
        printf("before the next block %s ", can_hand_in(party, row) ? "hand in" : "send");
        print_counted(row);
    } else {
        printf("can be off for %lu block%s, counting on ", (unsigned long)blocks, blocks == 1 ? "" : "s");
        print_counted(row);
    }
    printf("\n");
}

int slack(int count, char **words)
{
    static const uint8_t parties[SWAP_PARTIES] = {SWAP_ALICE, SWAP_BOB, SWAP_CAROL};
    uint8_t rows[SWAP_SLACK_SIZE];
    int status = accepted(words[0]);

    (void)count;
    if (status != FINE) {
        return status;
    }
    if (swap_slack(SLICES(swap), rows, sizeof rows) != SWAP_ACCEPTED) {
        return REFUSED; /* never: the journal passed */
    }
    for (uint8_t i = 0; i < parties_of(&swap); i++) {
        print_slack(parties[i], rows + SWAP_SLACK_ROW * i);
    }
    return FINE;
}

int timelocks(int count, char **words)
{
    uint8_t rows[SWAP_TIMELOCKS_SIZE];
    uint32_t answer;
    uint32_t base;
    int status = read_number(words[1], UINT32_MAX, &base);

    (void)count;
    if (status != FINE) {
        return status;
    }
    if (!read_folder(words[0], &swap)) {
        return REFUSED;
    }
    answer = swap_timelocks(swap.sheet, swap.sheet_length, swap.setup, swap.setup_length, base, rows, sizeof rows);
    if (answer != SWAP_ACCEPTED) {
        return is_of_swap(answer) ? refuse_swap(words[0], answer) : refuse(words[0], "sheet.bin", SWAP_REFUSAL(answer));
    }
    printf(" no  %-20s  %10s  %10s  %s\n", "transaction", "nLockTime", "nSequence", "hexadecimal");
    for (uint8_t t = 0; t < count_of(&swap); t++) {
        const uint8_t *row = rows + SWAP_TIMELOCKS_ROW * t;
        unsigned long sequence = swap_number(row + SWAP_TIMELOCKS_NSEQUENCE);

        print_transaction(t);
        printf("  %10lu  %10lu  %08lX\n", (unsigned long)swap_number(row + SWAP_TIMELOCKS_NLOCKTIME), sequence, sequence);
    }
    return FINE;
}

int shrink(int count, char **words)
{
    uint8_t steps[SWAP_SHRINK_SIZE];
    uint32_t run;
    uint32_t answer;

    (void)count;
    if (!read_folder(words[0], &swap)) {
        return REFUSED;
    }
    run = swap_run(SLICES(swap));
    answer = swap_shrink(SLICES(swap), steps, sizeof steps);
    if (SWAP_REFUSAL(answer) != SWAP_ACCEPTED) {
        return is_of_swap(answer) ? refuse_swap(words[0], answer)
                                  : refuse(words[0], "journal.bin", SWAP_REFUSAL(answer));
    }
    printf("# step %lu of %zu is refused: %s (%s)\n", (unsigned long)SWAP_COUNT(run) + 1,
           swap.journal_length / SWAP_STEP_SIZE, swap_refusal_words(SWAP_REFUSAL(run)),
           swap_refusal_name(SWAP_REFUSAL(run)));
    printf("# the steps that matter, %lu; the last is refused:\n", (unsigned long)SWAP_COUNT(answer));
    print_steps(&swap, steps, SWAP_STEP_SIZE * (size_t)SWAP_COUNT(answer), NULL);
    return FINE;
}
