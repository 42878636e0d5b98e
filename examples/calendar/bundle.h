/* The runs of a whole desk: swaps that share a sheet are put to the engine as one bundle. */
#ifndef BUNDLE_H
#define BUNDLE_H

#include "desk.h"

/* The number and the count of every swap's run, in its answer: one call for up to 64 swaps with the same sheet. */
void run_desk(struct desk *desk);

#endif
