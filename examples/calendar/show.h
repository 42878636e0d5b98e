/* All that the calendar knows of each swap. */
#ifndef SHOW_H
#define SHOW_H

#include "desk.h"

/* Prints it, swap after swap. */
void show_desk(const struct question *question, const struct desk *desk);

#endif
