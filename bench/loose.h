/* The loose tables that are made proper. */
#ifndef LOOSE_H
#define LOOSE_H

#include "tables.h"

/* A loose table, and the proper one with the same setups; of one that is drawn the latter is not known, and has no bytes. */
struct loose {
    struct table table, proper;
};

/* LOOSE: those that are timed. The wide table as it is, three of its family shuffled, and a mixed one: with repeats, unused
 * records and equal edges, and shuffled too. The others are compared only: small tables as they are and shuffled. */
enum loose_row {
    PROPER, SHUFFLED_4000, SHUFFLED_16000, SHUFFLED, MIXED, LOOSE,
    PATH_PROPER = LOOSE, PATH_SHUFFLED, EXACTLY_31_SHUFFLED, ALL_LOOSE
};
struct loose loose_row(enum loose_row r);

/* A random loose table of at most 8 settings and 24 records, with faults in some. */
struct loose drawn(uint64_t seed);

void free_loose(struct loose *l);

#endif
