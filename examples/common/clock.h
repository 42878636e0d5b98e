/* Estimated times of blocks. Blocks are random: the time of n blocks has the Erlang distribution of n. */
#ifndef CLOCK_H
#define CLOCK_H

#include <stdbool.h>
#include <stdint.h>
#include <stdio.h>

/* When the real chain stood at which height, and the minutes of a block on average. */
struct clock {
    bool set;
    uint32_t height;
    int64_t at; /* seconds since 1970, UTC */
    uint32_t minutes;
};

/* Reads "2026-11-17T14:30Z", or the same without the Z for local time; false where it is no such time. */
bool read_time(const char *text, int64_t *time);

/* The time on average, and the times before which so many blocks come in 5 and in 95 of 100 cases. */
int64_t mean_time(const struct clock *clock, uint64_t blocks);
int64_t early_time(const struct clock *clock, uint64_t blocks);
int64_t late_time(const struct clock *clock, uint64_t blocks);

/* Prints a local time, "2026-11-17 14:30"; in UTC, "20261117T143000Z"; and in UTC, "2026-11-17T14:30Z". */
void print_local(FILE *to, int64_t time);
void print_utc(FILE *to, int64_t time);
void print_iso(FILE *to, int64_t time);

/* Prints an estimate: " ~2026-11-18 14:30 (20.8 to 27.4 h)"; nothing where the clock is not set. */
void print_estimate(FILE *to, const struct clock *clock, uint64_t blocks);

#endif
