/* Ours against plain C, before anything is timed. */
#ifndef COMPARE_H
#define COMPARE_H

#include "loose.h"
#include "rows.h"

/* Makes every call on both sides; answers how many, or ends the program with a message if an answer or a byte differs, or
 * what a loose table gives is not its proper one. */
unsigned compare(const struct table *t, enum operation op);
unsigned compare_loose(const struct loose *l);
unsigned compare_two(const struct two *w);

#endif
