/* The operations by number, of the library ("ours") and of plain.c ("plain C"): of span the size; unrank-list twice, for
 * two lists, count-on twice, for 3 and for 31 settings on, and closest twice, for setups that are one and two off. */
#ifndef CALLS_H
#define CALLS_H

#include <stddef.h>
#include <stdint.h>

#include "tables.h"

/* OPERATIONS: those on one table that has to be proper. Then the one on a loose table, and those on two. */
enum operation {
    CHECK, COUNT, TEST, RANK, UNRANK, SPAN, PART_WRITE, LIST_SPREAD, LIST_ROW, RULED_OUT, COUNT_ON_3, COUNT_ON_31, CLOSEST_1,
    CLOSEST_2, OPERATIONS,
    MAKE_PROPER = OPERATIONS, JOINED, SHARED, WITHOUT
};
enum side { OURS, PLAIN, SIDES };

#define PARTS 8 /* the division that is timed: part 3 of 8 */
#define PART 3
#define ITEMS 8192 /* numbers of the lists that are timed */

/* The memories lent to a call. A list's setups go to the out memory; its answer, ruled-out's, count-on's, closest's,
 * make-proper's and that of an operation on two tables have three words. Only the latter has a second table, its sheet and a
 * pair sheet. */
struct lent {
    const uint8_t *table;
    size_t table_len;
    uint8_t *ranks;
    size_t ranks_len;
    uint8_t *sheet;
    size_t sheet_len;
    uint8_t *out;
    size_t out_len;
    uint64_t *answer;
    const uint8_t *table2;
    size_t table2_len;
    uint8_t *sheet2;
    size_t sheet2_len;
    uint8_t *pairs;
    size_t pairs_len;
};

/* The numbers of a call: a setup, a rank or how many settings are on in `a`; the number of parts and the part for span and
 * part-write; none for a list and for make-proper. */
struct numbers {
    uint64_t a, b;
};

const char *operation_name(enum operation op);
int is_list(enum operation op);
int is_of_part(enum operation op); /* span or part-write */
int is_count_on(enum operation op);
int is_closest(enum operation op);

/* Whether an operation is called on a workload: any on the first WORKLOADS, closest alone on the others. */
int is_called(enum operation op, enum workload w);

/* The sheet for a table of N records: N + 1 places, N + 512 for part-write, 64 * (N + 1) for count-on, 2 * (N + 1) for
 * closest, and 8 * N + 512 for make-proper. */
size_t sheet_len_of(enum operation op, uint32_t count);

/* An operation on one table; one on two. */
uint64_t call(enum side side, enum operation op, const struct lent *m, struct numbers x);
uint64_t call_two(enum side side, enum operation op, const struct lent *m);

#endif
