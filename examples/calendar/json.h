/* The desk as JSON, for programs; docs/FORMATS.md tells the fields. */
#ifndef JSON_H
#define JSON_H

#include "totals.h"

/* Prints it. */
void show_json(const struct question *question, const struct desk *desk, const struct totals *totals);

#endif
