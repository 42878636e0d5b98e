/* The desk as a page to look at and to print: one HTML file that needs nothing else. */
#ifndef PAGE_H
#define PAGE_H

#include <stdio.h>

#include "totals.h"

/* Writes it; false where there is no memory. */
bool write_page(FILE *page, const struct question *question, const struct desk *desk, const struct totals *totals);

#endif
