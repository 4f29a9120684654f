/* What was measured, and the report in Markdown. */
#ifndef REPORT_H
#define REPORT_H

#include "buddy.h"
#include "loose.h"
#include "timing.h"

struct results {
    struct table table[MEASURED];
    unsigned calls; /* compared with plain C */
    double micros[MEASURED][OPERATIONS][CONDITIONS][SIDES];
    double instructions[MEASURED][OPERATIONS][SIDES]; /* 0 if not counted */
    double buddy[WORKLOADS][BUDDY];
    struct two row[ROWS];
    double row_micros[ROWS][CONDITIONS][SIDES];
    double row_full[ROWS][SIDES]; /* warm, with a pair sheet for just the pairs */
    double row_instructions[ROWS][SIDES];
    double row_buddy[SIZINGS][ROWS][BUDDY];
    struct loose loose[LOOSE];
    double loose_micros[LOOSE][CONDITIONS][SIDES];
    double loose_instructions[LOOSE][SIDES];
    double loose_buddy[LOOSE][BUDDY];
};

void print_report(const struct results *r);

#endif
