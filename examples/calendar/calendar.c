/*
 * The planner's calendar over the swap engine: by which block each transaction of ours must be confirmed, and what an
 * outage can cost. Usage and meaning stand in arguments.c.
 */
#define _POSIX_C_SOURCE 200809L

#include <errno.h>
#include <stdio.h>
#include <stdlib.h>
#include <string.h>

#include "../common/output.h"
#include "ics.h"
#include "json.h"
#include "outages.h"
#include "page.h"
#include "screen.h"
#include "show.h"
#include "target.h"

/* The exit status. */
enum { NO_WARNING = 0, FAULT = 1, BAD_USAGE = 2, WARNINGS = 3 };

/* Prints why nothing is shown: the exit status. */
static int fault(const char *of, const char *reason)
{
    complain("calendar", of, "", reason);
    return FAULT;
}

/* A file beside what is printed: what writes it, and where; the path is NULL where it is not asked for. */
struct file {
    const char *path;
    bool (*write)(FILE *, const struct question *, const struct desk *, const struct totals *);
    struct target target;
};

enum { FILES = 2 };

/* Writes a file: NULL, or the reason why that cannot be. */
static const char *store(const struct file *file, const struct question *question, const struct desk *desk,
                         const struct totals *totals)
{
    char *bytes = NULL;
    size_t length = 0;
    FILE *to = open_memstream(&bytes, &length);
    const char *reason;
    bool sound;

    if (to == NULL) {
        return strerror(errno);
    }
    sound = file->write(to, question, desk, totals);
    sound = fclose(to) == 0 && sound;
    reason = sound ? write_target(&file->target, bytes, length) : strerror(errno);
    free(bytes);
    return reason;
}

/* Shows the swaps in the form that is asked for; false where there is no memory. */
static bool show_form(const struct question *question, const struct desk *desk, const struct totals *totals)
{
    if (question->json) {
        show_json(question, desk, totals);
        return true;
    }
    if (question->full) {
        show_desk(question, desk);
    } else if (!show_screen(question, desk)) {
        return false;
    }
    print_outages(stdout, AS_TEXT, question, desk);
    print_totals(stdout, totals);
    printf("\n");
    return true;
}

/* Writes the files that are asked for, then shows the swaps: the exit status. */
static int show(const struct question *question, const struct desk *desk, const struct file files[FILES])
{
    struct totals totals = totals_of(desk);

    for (size_t i = 0; i < FILES; i++) {
        const char *reason = files[i].path == NULL ? NULL : store(&files[i], question, desk, &totals);

        if (reason != NULL) {
            return fault(files[i].path, reason);
        }
    }
    if (!show_form(question, desk, &totals)) {
        return fault("memory", strerror(errno));
    }
    if (totals.refused > 0) {
        return FAULT;
    }
    return totals.warnings > 0 ? WARNINGS : NO_WARNING;
}

/* Asks about the outage and shows the swaps: the exit status. */
static int show_outages(const struct question *question, struct desk *desk, const struct file files[FILES])
{
    return ask_outages(question, desk) ? show(question, desk, files) : fault("memory", strerror(errno));
}

/* Answers a question: the exit status. */
static int answer(const struct question *question, const struct file files[FILES])
{
    struct desk desk = {0};
    int status;

    if (!read_desk(question, &desk)) {
        status = fault(question->folder == NULL ? "memory" : question->folder, strerror(errno));
    } else if (desk.count == 0) {
        status = fault(question->folder, "no swap here");
    } else {
        ask_desk(question, &desk);
        status = fits_desk(question, &desk) ? show_outages(question, &desk, files) : FAULT;
    }
    free_desk(&desk);
    return status;
}

/* The same, with the files' folders open first: the swaps are read from another one. */
static int answer_with_files(const struct question *question)
{
    struct file files[FILES] = {
        {.path = question->html, .write = write_page},
        {.path = question->ics, .write = write_ics},
    };
    const char *reason = NULL;
    size_t opened = 0;
    int status;

    while (opened < FILES && reason == NULL) {
        reason = files[opened].path == NULL ? NULL : open_target(files[opened].path, &files[opened].target);
        opened++;
    }
    status = reason == NULL ? answer(question, files) : fault(files[opened - 1].path, reason);
    for (size_t i = 0; i < opened; i++) {
        if (files[i].path != NULL && (reason == NULL || i + 1 < opened)) {
            close_target(&files[i].target);
        }
    }
    return status;
}

/* Does what is asked: the exit status. */
static int act(int argc, char **argv)
{
    struct question question = {0};

    if (!read_question(argc, argv, &question)) {
        fputs(usage, stderr);
        return BAD_USAGE;
    }
    if (question.help) {
        printf("%s%s", usage, help);
        return NO_WARNING;
    }
    return answer_with_files(&question);
}

int main(int argc, char **argv)
{
    open_standard();
    return printed("calendar", act(argc, argv), NULL);
}
