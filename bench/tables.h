/* The workloads: tables made in code, the same in every run. */
#ifndef TABLES_H
#define TABLES_H

#include <stddef.h>
#include <stdint.h>

#define LONGEST 65535 /* records of the longest table */

/* A table of `count` records over `settings` settings that permits `total` setups; `bytes` is of malloc. */
struct table {
    const char *name;
    uint32_t settings, count;
    uint64_t total;
    uint8_t *bytes;
    size_t len;
};

/* The next number of a seeded row (splitmix64). */
uint64_t next_random(uint64_t *seed);

/* Word k of a table or a list: 8 bytes, most significant first. */
uint64_t word_at(const uint8_t *bytes, size_t k);
void put_word(uint8_t *bytes, size_t k, uint64_t word);

void sort_words(uint64_t *words, size_t count);

/* A word of these fields; the fields of word k: its uppermost six bits, the then-edge and the else-edge. */
uint64_t word_of(uint64_t height, uint64_t then_edge, uint64_t else_edge);
uint32_t height_of(const struct table *t, uint32_t k);
uint32_t then_of(const struct table *t, uint32_t k);
uint32_t else_of(const struct table *t, uint32_t k);

/* WORKLOADS: sample A (3 settings, 3 records); the independent sets of a path of 63 vertices; exactly 31
 * of 63 settings; two random tables, of 4,000 records and of as many as a table can have. Then two for
 * closest alone: the multiples of 1,021, and a table that permits nothing, which is only compared. */
enum workload {
    SAMPLE_A, PATH_63, EXACTLY_31, MIDDLE, WIDE, WORKLOADS,
    MULTIPLES_1021 = WORKLOADS, MEASURED, EMPTY = MEASURED, ALL_WORKLOADS
};
struct table workload(enum workload w);

/* A random table over 63 settings with exactly this many records (256 to 65,535), its heights as
 * even as they can be; about half of the else-edges are flagged. */
struct table wide(const char *name, uint32_t count);

/* The setups of 63 settings whose number is a multiple of m (1 to 1,024). */
struct table multiples(const char *name, uint32_t m);

#endif
