#define _POSIX_C_SOURCE 200809L

#include "deal.h"

#include <errno.h>
#include <stdio.h>
#include <string.h>
#include <unistd.h>

#include "output.h"
#include "steps.h"
#include "whole.h"

/* Says why nothing is done; false. */
static bool fail(const struct deal *deal, const char *file, const char *reason)
{
    complain(deal->program, deal->name, file, reason);
    return false;
}

/* Reads the swap of the folder, whose journal must be a file that can be replaced. */
static bool read_here(const struct deal *deal, struct swap *swap)
{
    const char *reason = occupied(deal->folder, "journal.bin");
    struct fault unreadable;

    if (reason != NULL) {
        return fail(deal, "journal.bin", reason);
    }
    unreadable = read_files(deal->folder, swap);
    return unreadable.file == NULL || fail(deal, unreadable.file, unreadable.reason);
}

bool open_deal(struct deal *deal)
{
    deal->folder = open_folder(deal->name);
    if (deal->folder < 0) {
        return fail(deal, "", strerror(errno));
    }
    return read_here(deal, &deal->swap);
}

/* Whether the journal is refused since it has no room for a step. */
static bool is_full(const struct swap *swap, uint32_t refusal)
{
    return refusal == SWAP_JOURNAL_LENGTH && swap->journal_length == SWAP_JOURNAL_SIZE;
}

static void show_refusal(const struct swap *swap, uint32_t refusal)
{
    printf("refused: %s (%s)\n", is_full(swap, refusal) ? "the journal is full" : swap_refusal_words(refusal),
           swap_refusal_name(refusal));
}

/* Shows a refusal that comes before any step is asked about: of the sheet, the setup or the journal. */
static void show_swap(const struct deal *deal, uint32_t answer)
{
    uint32_t refusal = SWAP_REFUSAL(answer);

    if (!is_full(&deal->swap, refusal)) {
        printf("the journal, after step %lu, is ", (unsigned long)SWAP_COUNT(answer));
    }
    show_refusal(&deal->swap, refusal);
    if (refusal >= SWAP_STEP_FIELD && refusal <= SWAP_STEP_BLOCKS) {
        printf("the few steps that matter: swap shrink ");
        print_visible(stdout, deal->name);
        putchar('\n');
    }
}

bool accept_swap(struct deal *deal)
{
    const struct swap *swap = &deal->swap;
    uint32_t answer = swap_run(swap->sheet, swap->sheet_length, swap->setup, swap->setup_length, swap->journal,
                               swap->journal_length);

    if (SWAP_REFUSAL(answer) == SWAP_ACCEPTED) {
        answer = ask_open(swap, &deal->open);
    }
    if (SWAP_REFUSAL(answer) != SWAP_ACCEPTED) {
        show_swap(deal, answer);
    }
    return SWAP_REFUSAL(answer) == SWAP_ACCEPTED;
}

bool read_deal(struct deal *deal, char **words, int count)
{
    struct line line = {.program = deal->program, .of = "step"};
    char asked[ARGUMENTS_MOST];
    char text[ARGUMENTS_MOST];
    unsigned times = 1;

    if (!join(deal->program, words, count, text)) {
        return false;
    }
    memcpy(asked, text, sizeof asked);
    if (cut_words(text, &line) && read_steps(&line, &deal->swap, deal->step, &times) &&
        (times == 1 || bad(&line, "%u steps where one is expected", times))) {
        return true;
    }
    fprintf(stderr, "%s: ", deal->program);
    print_nearest(stderr, &deal->swap, &deal->open, asked);
    return false;
}

bool in_numbers(char **words, int count)
{
    return count > 0 && strspn(words[0], "0123456789") > 0;
}

bool read_numbers(const char *program, char **words, int count, uint8_t step[SWAP_STEP_SIZE])
{
    if (count != SWAP_STEP_SIZE) {
        complain(program, words[0], "", "a step has four numbers");
        return false;
    }
    for (int i = 0; i < SWAP_STEP_SIZE; i++) {
        unsigned value = 0;

        if (!is_number(words[i]) || strlen(words[i]) > 3 || sscanf(words[i], "%u", &value) != 1 || value > 255) {
            complain(program, words[i], "", "not a number from 0 to 255");
            return false;
        }
        step[i] = (uint8_t)value;
    }
    return true;
}

/* Whether the journal passed, so that the answer is the step's. */
static bool is_of_step(const struct swap *swap, uint32_t answer)
{
    uint32_t refusal = SWAP_REFUSAL(answer);

    return (refusal == SWAP_ACCEPTED || (refusal >= SWAP_STEP_FIELD && refusal <= SWAP_STEP_BLOCKS)) &&
           SWAP_STEP_SIZE * (size_t)SWAP_COUNT(answer) == swap->journal_length;
}

/* Shows a refusal of the step, whose fields are in range unless it gets number 11, and what would pass. */
static void show_step_refusal(struct deal *deal, uint32_t refusal)
{
    show_refusal(&deal->swap, refusal);
    if (refusal != SWAP_STEP_FIELD && SWAP_REFUSAL(ask_open(&deal->swap, &deal->open)) == SWAP_ACCEPTED) {
        print_nearest(stdout, &deal->swap, &deal->open, step_words(&deal->swap, deal->step).text);
    }
}

uint32_t ask_deal(struct deal *deal)
{
    const struct swap *swap = &deal->swap;
    uint32_t answer = swap_ask(swap->sheet, swap->sheet_length, swap->setup, swap->setup_length, swap->journal,
                               swap->journal_length, deal->step, sizeof deal->step);
    uint32_t refusal = SWAP_REFUSAL(answer);

    if (!is_of_step(swap, answer)) {
        show_swap(deal, answer);
        return answer;
    }
    printf("after step %lu: ", (unsigned long)SWAP_COUNT(answer));
    if (refusal != SWAP_STEP_FIELD) {
        printf("%s: ", step_words(swap, deal->step).text);
    }
    if (refusal == SWAP_ACCEPTED) {
        printf("would pass\n");
    } else {
        show_step_refusal(deal, refusal);
    }
    return answer;
}

/* Whether it is another swap than the one that was asked about. How far a journal went on the engine tells. */
static bool is_another(const struct swap *asked, const struct swap *now)
{
    return asked->sheet_length != now->sheet_length || memcmp(asked->sheet, now->sheet, now->sheet_length) != 0 ||
           asked->setup_length != now->setup_length || memcmp(asked->setup, now->setup, now->setup_length) != 0 ||
           (asked->journal_length == now->journal_length &&
            memcmp(asked->journal, now->journal, now->journal_length) != 0);
}

/* Writes the journal with the step behind it; false, with a message, where that fails. */
static bool replace_journal(const struct deal *deal, const struct swap *swap)
{
    struct part journal = {"journal.bin", swap->journal, swap->journal_length + SWAP_STEP_SIZE, ""};
    struct failure failure = write_parts(deal->folder, &journal, 1);
    char reason[128];

    if (failure.reason != NULL && failure.name[0] == '\0') {
        snprintf(reason, sizeof reason, "%s; the step is committed, but may not be on the disk", failure.reason);
        return fail(deal, "", reason);
    }
    return failure.reason == NULL || fail(deal, failure.name, failure.reason);
}

/* Commits the step while the lock is held. */
static bool commit_locked(const struct deal *deal, uint32_t count)
{
    static struct swap now;
    uint32_t answer;

    if (!read_here(deal, &now)) {
        return false;
    }
    if (is_another(&deal->swap, &now)) {
        printf("refused: it is not the swap any more that was asked about\n");
        return false;
    }
    answer = swap_commit(now.sheet, now.sheet_length, now.setup, now.setup_length, deal->step, sizeof deal->step, count,
                         now.journal, now.journal_length + SWAP_STEP_SIZE, (uint32_t)now.journal_length);
    if (answer != SWAP_ACCEPTED) {
        show_refusal(&now, SWAP_REFUSAL(answer));
        return false;
    }
    if (!replace_journal(deal, &now)) {
        return false;
    }
    printf("committed as step %lu\n", (unsigned long)count + 1);
    return true;
}

bool commit_deal(const struct deal *deal, uint32_t count)
{
    int lock;
    const char *reason = lock_folder(deal->folder, &lock);
    bool committed;

    if (reason != NULL) {
        return fail(deal, LOCK_NAME, reason);
    }
    committed = commit_locked(deal, count);
    close(lock);
    return committed;
}
