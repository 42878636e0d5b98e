/* The commands: each takes its words, the folder first, and returns the exit status. */
#ifndef COMMANDS_H
#define COMMANDS_H

#include <stdbool.h>

#include "../calendar/files.h"

#define PROGRAM "swap"

/* The exit status. */
enum { FINE = 0, REFUSED = 1, BAD_USAGE = 2 };

int check(int count, char **words);
int list(int count, char **words);
int report(int count, char **words);
int page(int count, char **words);
int outage(int count, char **words);
int slack(int count, char **words);
int timelocks(int count, char **words);
int desk(int count, char **words);
int blocks(int count, char **words);
int earliest(int count, char **words);
int ask(int count, char **words);
int commit(int count, char **words);
int shrink(int count, char **words);

/* Whether a step was committed. */
extern bool committed;

/* Says what is wrong with an argument, and how the command is called: BAD_USAGE. */
int misuse(const char *argument, const char *reason);

/* Reads a number up to MOST: FINE, or BAD_USAGE with a message. */
int read_number(const char *word, uint32_t most, uint32_t *number);

/* The greatest height of the real chain that is taken: Bitcoin reads a greater lock time as a date. */
#define BASE_MOST 499999999u

/* Reads a folder's swap; false, with a message, where a file cannot be read. */
bool read_folder(const char *folder, struct swap *swap);

/* Tells a refusal that is not the journal's, of this file of the folder: REFUSED. */
int refuse(const char *folder, const char *file, uint32_t refusal);

/* The same of sheet, setup or journal, by an answer. */
int refuse_swap(const char *folder, uint32_t answer);

/* Whether an answer that refuses is the sheet's or the setup's. */
bool is_of_swap(uint32_t answer);

#endif
