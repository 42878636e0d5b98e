/* The desk as an iCalendar file (RFC 5545): the end of each window with what to do, and each stretch in which an outage has
 * no warning, at estimated times. */
#ifndef ICS_H
#define ICS_H

#include <stdio.h>

#include "totals.h"

/* Writes it; false where there is no memory. */
bool write_ics(FILE *to, const struct question *question, const struct desk *desk, const struct totals *totals);

#endif
