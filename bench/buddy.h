/* The same diagram in BuDDy. */
#ifndef BUDDY_H
#define BUDDY_H

#include "rows.h"

/* WHOLE: BuDDy loads the table and counts, or both tables and makes them one, or loads a loose table; ALONE: without the
 * loading; MAKING: what its manager takes beside a loose table, which WHOLE does not count; BESIDE: our call, cleared. */
enum buddy { WHOLE, ALONE, MAKING = ALONE, BESIDE, BUDDY };

/* How its tables are sized for two tables made into one. FITTED: by the number of pairs, which is known only
 * afterwards. ROOMY: the same for all rows, by someone who does not know it. */
enum sizing { FITTED, ROOMY, SIZINGS };

/* Medians of the three in microseconds, by turns, within about this many seconds. Ends the program with
 * a message if BuDDy's count is not ours. */
void time_buddy(const struct table *t, double seconds, double *micros);
void time_buddy_loose(const struct table *t, double seconds, double *micros);
void time_buddy_two(const struct two *w, enum sizing sizing, double seconds, double *micros);

#endif
