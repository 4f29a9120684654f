/* Lent memory for a table, and the numbers that calls are made with. */
#ifndef MEMORY_H
#define MEMORY_H

#include "rows.h"

#define GUARD 64 /* bytes behind each memory; no call may touch those that it is not lent */
#define ANSWER 24 /* bytes of an answer in three words */

/* Memory for an operation on this table. Its lengths and the list are set by lend_for, again where they were changed. */
struct lent lend(const struct table *t, enum operation op);
void lend_for(struct lent *m, enum operation op, const struct table *t);
void give_back(struct lent *m);

/* The same for two tables: sheets just long enough, a pair sheet for twice the pairs, and out memory for any table. */
struct lent lend_two(const struct two *w);
void lend_for_two(struct lent *m, const struct two *w);
size_t pairs_room(const struct two *w);

/* The bytes of out memory: for every part of the table, its proper table, and for ITEMS setups. */
size_t out_room(const struct table *t);

/* Numbers for a timed call: every rank is below C, every setup that is ranked is permitted, of those
 * tested about half are picked for it, and one that may be ruled out is a permitted one with a setting
 * turned over. One for closest is one setting or two off, or less where none is found that is so far; of
 * a table that permits nothing it is any setup. Uses the table, the sheet and the answer of `m`. */
struct numbers draw_numbers(enum operation op, const struct table *t, const struct lent *m, uint64_t *seed);

#endif
