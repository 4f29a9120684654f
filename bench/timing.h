/* Ours and plain C side by side. */
#ifndef TIMING_H
#define TIMING_H

#include "rows.h"

/* WARM: the same memory again and again. CLEARED: before each call sheets and out memory are zeroed,
 * and they, the tables and the list are flushed from the caches. */
enum condition { WARM, CLEARED, CONDITIONS };

double now(void); /* seconds */
double median(double *values, unsigned count);

/* One reading in microseconds: the mean of `batch` calls, after one untimed call or a clearing. */
double reading(enum side side, enum operation op, enum condition c, const struct lent *m, const struct numbers *x,
               unsigned batch);

/* How many pairs the pair sheet holds: twice those that there are, or just these. */
enum room { TWICE, JUST_ENOUGH };

/* Medians of both sides in microseconds a call, within about this many seconds. */
void time_both(const struct table *t, enum operation op, enum condition c, double seconds, double *micros);
void time_loose(const struct table *t, enum condition c, double seconds, double *micros);
void time_two(const struct two *w, enum condition c, enum room room, double seconds, double *micros);

#endif
