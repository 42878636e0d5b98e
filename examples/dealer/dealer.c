/*
 * A dealer's use of the swap engine: see what is open, ask whether a step would pass, talk to the client, then commit it
 * to the journal file. Usage and meaning stand in `manual` below.
 */
#include <stdio.h>
#include <string.h>

#include "../common/deal.h"
#include "../common/lines.h"
#include "../common/output.h"
#include "swap.h"

/* The exit status. */
enum { FINE = 0, REFUSED = 1, BAD_USAGE = 2 };

static const char *const manual[] = {
    "usage: dealer FOLDER [STEP..] [--commit]\n",
    "\n"
    "FOLDER holds sheet.bin, setup.bin and journal.bin. Without a step the dealer lists\n"
    "the steps that are open, by party, each with a number and in words.\n"
    "\n"
    "With a step it asks the engine whether that would pass after the journal and shows\n"
    "the answer. With --commit it commits the step then; without, it waits for a line:\n"
    "yes commits the step, all else leaves it. A step that is refused, or words that\n"
    "are none, are answered with the nearest step that would pass.\n"
    "\n"
    "    dealer deal\n"
    "    dealer deal alice sends lock_A to the pool\n"
    "    dealer deal alice sends lock_A to the pool --commit\n"
    "\n"
    "A step is one of these, with a PARTY, alice, bob or carol, and with a TRANSACTION\n"
    "or SIGNATURE by its name on the SASwap sheet or as `transaction 3`:\n"
    "\n"
    "kind\n"
    "1     PARTY shares signatures on TRANSACTION[, paying PARTY]\n"
    "      PARTY makes the first shares\n"
    "2     PARTY gives SIGNATURE to PARTY\n"
    "3     PARTY sends TRANSACTION to the pool[, paying PARTY]\n"
    "4     PARTY hands TRANSACTION to the miner[, paying PARTY]\n"
    "5     include TRANSACTION in the block\n"
    "6     mine the block\n"
    "7     bump TRANSACTION into the block\n"
    "\n"
    "or its four numbers, KIND PARTY TRANSACTION DESTINATION, as the journal has them:\n"
    "parties are 0 Alice, 1 Bob, 2 the miner, 3 Carol; the transaction is 255 for the\n"
    "first shares and a mined block, and the signature for a gift; the destination is\n"
    "the party that is paid or that gets the gift, else 2. One number alone is a step\n"
    "of the list; it is shown before you say yes, and does not go with --commit, since\n"
    "the list may be another one by then.\n"
    "\n"
    "The journal is read again before it is written, and the step committed with the\n"
    "count of steps that was shown: where the journal went on meanwhile, the engine\n"
    "refuses. journal.bin is replaced whole, so a crash leaves the journal before or\n"
    "the journal after; it is a plain file of one name, and keeps its owner and mode.\n"
    "From the second reading on the dealer holds the lock of the file journal.lock in\n"
    "FOLDER, for which other dealers and swapfile wait; it stays there, empty.\n"
    "\n"
    "Exit status: 0 listed, committed or left; 1 refused, or a file cannot be read or\n"
    "written, or the output not be written, and then standard error says whether the\n"
    "step is committed; 2 bad usage, or words that are no step.\n",
};

/* What is asked for: a deal, the words of its step, how many, and whether it is committed at once. */
struct task {
    struct deal deal;
    char *words[32];
    int count;
    bool commit;
};

static int misuse(const char *argument, const char *reason)
{
    if (argument != NULL) {
        complain("dealer", argument, "", reason);
    }
    fputs(manual[0], stderr);
    return BAD_USAGE;
}

/* Takes up the arguments after the folder: FINE, or the status of bad usage with a message. */
static int read_words(int argc, char **argv, struct task *task)
{
    for (int i = 2; i < argc; i++) {
        if (strcmp(argv[i], "--commit") == 0) {
            task->commit = true;
        } else if (argv[i][0] == '-') {
            return misuse(argv[i], "no such argument");
        } else if (task->count == (int)(sizeof task->words / sizeof task->words[0])) {
            return misuse(argv[i], "too many words");
        } else {
            task->words[task->count++] = argv[i];
        }
    }
    return task->commit && task->count == 0 ? misuse("--commit", "no step is named") : FINE;
}

/* Reads the four numbers of a step; one alone waits for the list. */
static int read_step(struct task *task)
{
    if (task->count == 1) {
        return task->commit ? misuse(task->words[0], "--commit takes a step in words or four numbers") : FINE;
    }
    return read_numbers("dealer", task->words, task->count, task->deal.step) ? FINE : misuse(NULL, NULL);
}

/* Reads the arguments. */
static int read_task(int argc, char **argv, struct task *task)
{
    int status;

    if (argc < 2 || argv[1][0] == '-') {
        return misuse(argc < 2 ? NULL : argv[1], "no such argument");
    }
    task->deal.program = "dealer";
    task->deal.name = argv[1];
    status = read_words(argc, argv, task);
    return status == FINE && in_numbers(task->words, task->count) ? read_step(task) : status;
}

/* Takes the step of this number in the list. */
static int choose(struct task *task)
{
    struct deal *deal = &task->deal;
    unsigned number = 0;

    if (!is_number(task->words[0]) || strlen(task->words[0]) > 3 || sscanf(task->words[0], "%u", &number) != 1 ||
        number == 0 || number > deal->open.count) {
        return misuse(task->words[0], "no number of the list");
    }
    memcpy(deal->step, deal->open.bytes + SWAP_STEP_SIZE * (number - 1), SWAP_STEP_SIZE);
    return FINE;
}

/* Finds the step that is meant: FINE, or the status with a message. */
static int find_step(struct task *task)
{
    bool numbers = in_numbers(task->words, task->count);

    if (numbers && task->count == SWAP_STEP_SIZE) {
        return FINE; /* it is read */
    }
    if (!accept_swap(&task->deal)) {
        return REFUSED;
    }
    if (numbers) {
        return choose(task);
    }
    return read_deal(&task->deal, task->words, task->count) ? FINE : BAD_USAGE;
}

/* Whether the client's line is yes. */
static bool is_agreed(void)
{
    char line[16];

    return fgets(line, sizeof line, stdin) != NULL && strcmp(line, "yes\n") == 0;
}

/* Asks, shows the answer, and commits where that is wanted: the exit status, and whether the step is committed. */
static int ask(struct task *task, bool *committed)
{
    uint32_t answer = ask_deal(&task->deal);

    if (SWAP_REFUSAL(answer) != SWAP_ACCEPTED) {
        return REFUSED;
    }
    if (!task->commit) {
        printf("commit? ");
        flush_output();
        if (!is_agreed()) {
            printf("left\n");
            return FINE;
        }
    }
    *committed = commit_deal(&task->deal, SWAP_COUNT(answer));
    return *committed ? FINE : REFUSED;
}

/* Does what is asked for: the exit status, and whether the step is committed. */
static int act(struct task *task, bool *committed)
{
    int status;

    if (!open_deal(&task->deal)) {
        return REFUSED;
    }
    if (task->count == 0) {
        if (!accept_swap(&task->deal)) {
            return REFUSED;
        }
        print_open(&task->deal.swap, &task->deal.open);
        return FINE;
    }
    status = find_step(task);
    return status == FINE ? ask(task, committed) : status;
}

int main(int argc, char **argv)
{
    static struct task task;
    bool committed = false;
    int status = FINE;

    open_standard();
    if (argc == 2 && strcmp(argv[1], "--help") == 0) {
        printf("%s%s", manual[0], manual[1]);
    } else {
        status = read_task(argc, argv, &task);
        status = status == FINE ? act(&task, &committed) : status;
    }
    return printed("dealer", status, committed ? "the step is committed" : NULL);
}
