/* The rows of two tables that are made into one. */
#ifndef ROWS_H
#define ROWS_H

#include "calls.h"
#include "tables.h"

/* An operation on two tables, and how many pairs of edges they have. */
struct two {
    enum operation op;
    const char *name;
    struct table first, second;
    size_t pairs;
};

/* ROWS: those that are timed: "31 of 63" with the multiples of 7 by each operation, and the multiples of 7 joined with
 * those of 173. The others are compared only: sample A with itself, and a result that no table can hold. */
enum row {
    JOINED_7, SHARED_7, WITHOUT_7, JOINED_173, ROWS,
    JOINED_TWICE = ROWS, SHARED_TWICE, WITHOUT_TWICE, TOO_LONG, ALL_ROWS
};
struct two row(enum row r);

#endif
