#define _POSIX_C_SOURCE 200809L

#include "clock.h"

#include <string.h>
#include <time.h>

/* Days from 1970 to a day of the Gregorian calendar. */
static int64_t days_to(int year, int month, int day)
{
    static const int before[] = {0, 31, 59, 90, 120, 151, 181, 212, 243, 273, 304, 334};
    int past = month > 2 ? year : year - 1; /* the last year whose leap day is behind */

    return 365 * (int64_t)(year - 1970) + past / 4 - past / 100 + past / 400 - 477 + before[month - 1] + day - 1;
}

static int days_in(int year, int month)
{
    return (int)(month == 12 ? 31 : days_to(year, month + 1, 1) - days_to(year, month, 1));
}

/* A number of so many digits. */
static int digits(const char *text, size_t count)
{
    int value = 0;

    for (size_t i = 0; i < count; i++) {
        value = 10 * value + (text[i] - '0');
    }
    return value;
}

/* Whether the text has the form of a time: a digit for each 0, else the same. */
static bool has_form(const char *text)
{
    static const char form[] = "0000-00-00T00:00";

    for (size_t i = 0; i + 1 < sizeof form; i++) {
        if (form[i] == '0' ? text[i] < '0' || text[i] > '9' : text[i] != form[i]) {
            return false;
        }
    }
    text += sizeof form - 1;
    return *text == '\0' || strcmp(text, "Z") == 0;
}

bool read_time(const char *text, int64_t *time)
{
    struct tm parts = {.tm_isdst = -1};
    int year, month, day, hour, minute;

    if (!has_form(text)) {
        return false;
    }
    year = digits(text, 4);
    month = digits(text + 5, 2);
    day = digits(text + 8, 2);
    hour = digits(text + 11, 2);
    minute = digits(text + 14, 2);
    if (year < 2000 || month < 1 || month > 12 || day < 1 || day > days_in(year, month) || hour > 23 || minute > 59) {
        return false;
    }
    if (text[16] == 'Z') {
        *time = 86400 * days_to(year, month, day) + 3600 * hour + 60 * minute;
        return true;
    }
    parts.tm_year = year - 1900;
    parts.tm_mon = month - 1;
    parts.tm_mday = day;
    parts.tm_hour = hour;
    parts.tm_min = minute;
    *time = (int64_t)mktime(&parts);
    return *time != -1;
}

/* e to the power of a number that is not large. */
static double power_of_e(double x)
{
    double part = x / 1024;
    double power = 1 + part * (1 + part / 2 * (1 + part / 3 * (1 + part / 4 * (1 + part / 5))));

    for (int i = 0; i < 10; i++) {
        power *= power;
    }
    return power;
}

/* The chance of just n blocks in the time of x blocks on average, e^-x x^n / n!: a product of n factors, kept within range
 * on the way. */
static double chance_of(uint64_t n, double x)
{
    const double large = 1e150;
    double factor = 1 / power_of_e(x / (double)n);
    double chance = 1;
    int scale = 0;

    for (uint64_t k = 1; k <= n; k++) {
        chance *= x / (double)k * factor;
        if (chance > large) {
            chance /= large;
            scale++;
        } else if (chance < 1 / large) {
            chance *= large;
            scale--;
        }
    }
    return scale < 0 ? 0 : chance;
}

/* The chance of n blocks or more in that time: the terms from n on, or what those below n leave, whichever fall. */
static double chance_of_all(uint64_t n, double x)
{
    bool above = x < (double)n;
    double term = above ? 1 : (double)n / x;
    double sum = 0;

    for (uint64_t k = 1; term > 1e-18; k++) {
        sum += term;
        term *= above ? x / (double)(n + k) : (double)(n - k) / x;
    }
    sum *= chance_of(n, x);
    return above ? sum : 1 - sum;
}

/* The time before which n blocks come with this chance, in blocks on average. */
static double quantile(uint64_t n, double chance)
{
    double low = 0;
    double high = 3 * (double)n + 10;

    if (n == 0) {
        return 0;
    }
    for (int i = 0; i < 60; i++) {
        double middle = (low + high) / 2;

        if (chance_of_all(n, middle) < chance) {
            low = middle;
        } else {
            high = middle;
        }
    }
    return high;
}

static int64_t time_after(const struct clock *clock, double blocks)
{
    return clock->at + 60 * (int64_t)(blocks * clock->minutes + 0.5);
}

int64_t mean_time(const struct clock *clock, uint64_t blocks)
{
    return clock->at + 60 * (int64_t)(blocks * clock->minutes);
}

int64_t early_time(const struct clock *clock, uint64_t blocks)
{
    return time_after(clock, quantile(blocks, 0.05));
}

int64_t late_time(const struct clock *clock, uint64_t blocks)
{
    return time_after(clock, quantile(blocks, 0.95));
}

static void print_as(FILE *to, const char *form, const struct tm *parts)
{
    char text[40];

    strftime(text, sizeof text, form, parts);
    fputs(text, to);
}

void print_local(FILE *to, int64_t time)
{
    time_t seconds = (time_t)time;
    struct tm parts;

    print_as(to, "%Y-%m-%d %H:%M", localtime_r(&seconds, &parts));
}

void print_utc(FILE *to, int64_t time)
{
    time_t seconds = (time_t)time;
    struct tm parts;

    print_as(to, "%Y%m%dT%H%M%SZ", gmtime_r(&seconds, &parts));
}

void print_iso(FILE *to, int64_t time)
{
    time_t seconds = (time_t)time;
    struct tm parts;

    print_as(to, "%Y-%m-%dT%H:%MZ", gmtime_r(&seconds, &parts));
}

void print_estimate(FILE *to, const struct clock *clock, uint64_t blocks)
{
    double hours = clock->minutes / 60.0;

    if (!clock->set) {
        return;
    }
    fputs(" ~", to);
    print_local(to, mean_time(clock, blocks));
    fprintf(to, " (%.1f to %.1f h)", quantile(blocks, 0.05) * hours, quantile(blocks, 0.95) * hours);
}
