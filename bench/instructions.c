/* The program that runs under callgrind: each operation of each side, COUNTED_CALLS times, with a dump
 * of its own that is named "workload operation side". Row r of two tables stands as workload
 * MEASURED + r and loose table l as MEASURED + ROWS + l; these are called once: their calls are all
 * alike. */
#include "instructions.h"

#include <stdio.h>
#include <valgrind/callgrind.h>

#include "loose.h"
#include "memory.h"

static void count_operation(enum workload w, const struct table *t, enum operation op)
{
    struct numbers x[COUNTED_CALLS];
    uint64_t seed = op + 1;
    struct lent m = lend(t, op);
    for (int i = 0; i < COUNTED_CALLS; i++) x[i] = draw_numbers(op, t, &m, &seed);
    for (int side = 0; side < SIDES; side++) {
        char name[64];
        snprintf(name, sizeof name, "%d %d %d", w, op, side);
        CALLGRIND_ZERO_STATS;
        for (int i = 0; i < COUNTED_CALLS; i++) call(side, op, &m, x[i]);
        CALLGRIND_DUMP_STATS_AT(name);
    }
    give_back(&m);
}

static void count_workload(enum workload w)
{
    struct table t = workload(w);
    for (int op = 0; op < OPERATIONS; op++)
        if (is_called(op, w)) count_operation(w, &t, op);
}

static void count_row(enum row r)
{
    struct two w = row(r);
    struct lent m = lend_two(&w);
    for (int side = 0; side < SIDES; side++) {
        char name[64];
        snprintf(name, sizeof name, "%d %d %d", MEASURED + r, w.op, side);
        CALLGRIND_ZERO_STATS;
        call_two(side, w.op, &m);
        CALLGRIND_DUMP_STATS_AT(name);
    }
    give_back(&m);
}

static void count_loose(enum loose_row r)
{
    struct loose l = loose_row(r);
    struct lent m = lend(&l.table, MAKE_PROPER);
    struct numbers none = {0, 0};
    for (int side = 0; side < SIDES; side++) {
        char name[64];
        snprintf(name, sizeof name, "%d %d %d", MEASURED + ROWS + r, MAKE_PROPER, side);
        CALLGRIND_ZERO_STATS;
        call(side, MAKE_PROPER, &m, none);
        CALLGRIND_DUMP_STATS_AT(name);
    }
    give_back(&m);
    free_loose(&l);
}

int main(void)
{
    CALLGRIND_START_INSTRUMENTATION;
    count_workload(PATH_63);
    count_workload(EXACTLY_31);
    count_workload(MIDDLE);
    count_workload(WIDE);
    count_workload(MULTIPLES_1021);
    for (int r = 0; r < ROWS; r++) count_row(r);
    for (int r = 0; r < LOOSE; r++) count_loose(r);
    return 0;
}
