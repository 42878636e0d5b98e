/*
 * Every call of the engine as a command, in the words and over the files of swapfile. Usage and meaning stand in
 * helps.c.
 */
#define _POSIX_C_SOURCE 200809L

#include <errno.h>
#include <stdio.h>
#include <string.h>
#include <unistd.h>

#include "../common/lines.h"
#include "../common/output.h"
#include "../common/text.h"
#include "commands.h"
#include "helps.h"

/* The longest path of a program beside this one. */
#define PATH_MOST 4096

struct command {
    const char *name;
    const char *help;
    int least; /* words, the folder among them */
    int most;
    int (*act)(int count, char **words);
};

#define WORDS 10000

static const struct command commands[] = {
    {"check", check_help, 1, 1, check},
    {"list", list_help, 1, 1, list},
    {"report", report_help, 1, 2, report},
    {"page", page_help, 1, 1, page},
    {"outage", outage_help, 2, 2, outage},
    {"slack", slack_help, 1, 1, slack},
    {"timelocks", timelocks_help, 2, 2, timelocks},
    {"desk", desk_help, 1, WORDS, desk},
    {"blocks", blocks_help, 2, 2, blocks},
    {"earliest", earliest_help, 1, WORDS, earliest},
    {"ask", ask_help, 2, WORDS, ask},
    {"commit", commit_help, 2, WORDS, commit},
    {"shrink", shrink_help, 1, 1, shrink},
};

/* Programs with words of their own, which stand beside this one as swap-NAME. */
static const char *const programs[] = {"calendar", "dealer", "swapfile", "swapreport"};

/* The help of the command that is asked for. */
static const char *asked = swap_help;

bool committed = false;

int misuse(const char *argument, const char *reason)
{
    if (argument != NULL) {
        complain(PROGRAM, argument, "", reason);
    }
    fwrite(asked, 1, strcspn(asked, "\n") + 1, stderr);
    return BAD_USAGE;
}

int read_number(const char *word, uint32_t most, uint32_t *number)
{
    unsigned long long value = 0;
    char reason[48];

    if (!is_number(word) || strlen(word) > 10 || sscanf(word, "%llu", &value) != 1 || value > most) {
        snprintf(reason, sizeof reason, "not a number from 0 to %lu", (unsigned long)most);
        return misuse(word, reason);
    }
    *number = (uint32_t)value;
    return FINE;
}

bool read_folder(const char *folder, struct swap *swap)
{
    uint8_t sides;
    struct fault fault = read_swap(folder, swap, &sides);

    if (fault.file != NULL) {
        complain(PROGRAM, folder, fault.file, fault.reason);
    }
    return fault.file == NULL;
}

int refuse(const char *folder, const char *file, uint32_t refusal)
{
    char reason[160];

    snprintf(reason, sizeof reason, "refused: %s (%s)", swap_refusal_words(refusal), swap_refusal_name(refusal));
    complain(PROGRAM, folder, file, reason);
    return REFUSED;
}

int refuse_swap(const char *folder, uint32_t answer)
{
    complain_refusal(PROGRAM, folder, answer);
    return REFUSED;
}

bool is_of_swap(uint32_t answer)
{
    uint32_t refusal = SWAP_REFUSAL(answer);

    return is_of_sheet(refusal) || is_of_setup(refusal);
}

static const struct command *command_named(const char *name)
{
    for (size_t i = 0; i < sizeof commands / sizeof commands[0]; i++) {
        if (strcmp(commands[i].name, name) == 0) {
            return &commands[i];
        }
    }
    return NULL;
}

static bool is_program(const char *name)
{
    for (size_t i = 0; i < sizeof programs / sizeof programs[0]; i++) {
        if (strcmp(programs[i], name) == 0) {
            return true;
        }
    }
    return false;
}

/* Becomes the program beside this one; it returns only where that fails. */
static int become(const char *name, char **words)
{
    char path[PATH_MOST];
    ssize_t length = readlink("/proc/self/exe", path, sizeof path - 32);

    if (length > 0) {
        path[length] = '\0';
        snprintf(strrchr(path, '/') + 1, 32, "swap-%s", name);
        execv(path, words);
    }
    complain(PROGRAM, name, "", strerror(errno));
    return REFUSED;
}

static bool asks_help(int count, char **words)
{
    for (int i = 0; i < count; i++) {
        if (strcmp(words[i], "--help") == 0) {
            return true;
        }
    }
    return false;
}

/* Does what a command's words ask for. */
static int obey(const struct command *command, int count, char **words)
{
    asked = command->help;
    if (asks_help(count, words)) {
        printf("%s", asked);
        return FINE;
    }
    if (count < command->least || count > command->most) {
        return misuse(count > command->most ? words[command->most] : NULL, "an argument too many");
    }
    if (words[0][0] == '-') {
        return misuse(words[0], "the folder comes first");
    }
    return command->act(count, words);
}

static int act(int argc, char **argv)
{
    const struct command *command = argc < 2 ? NULL : command_named(argv[1]);

    if (argc == 2 && strcmp(argv[1], "--help") == 0) {
        printf("%s", swap_help);
        return FINE;
    }
    if (command != NULL) {
        return obey(command, argc - 2, argv + 2);
    }
    if (argc >= 2 && is_program(argv[1])) {
        return become(argv[1], argv + 1);
    }
    return misuse(argc < 2 ? NULL : argv[1], "no such command");
}

int main(int argc, char **argv)
{
    int status;

    open_standard();
    status = act(argc, argv);
    return printed(PROGRAM, status, committed ? "the step is committed" : NULL);
}
