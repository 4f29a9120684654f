/* The plot: time against N. */
#ifndef PLOT_H
#define PLOT_H

#include <stdio.h>

#include "calls.h"

#define LINES 4 /* rank ours, rank plain C, part-write ours, part-write plain C */

struct point {
    uint32_t count;
    double micros[LINES];
};

void write_plot(FILE *f, const struct point *points, int count);

#endif
