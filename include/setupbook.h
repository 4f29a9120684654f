/*
 * The setup book: rank, unrank, also of a list, the setups by how many settings are on, the settings
 * that rule a setup out, the closest permitted setup, part-write, two tables made into one, and a loose
 * table made proper, over reduced OBDDs with complement edges.
 *
 * A table is a decision diagram over n settings (0 to 63) with N nodes (0 to 65,535) as a row of
 * N + 1 words of 64 bits, most significant byte first; docs/FORMAT.md has the fields. It permits
 * C of the 2^n setups (C is its model count). A setup is a number below 2^n: the first setting
 * has weight 2^(n-1), so that the lexicographic order of setups is the order of numbers. The rank
 * of a permitted setup is how many permitted setups are smaller: 0 to C - 1.
 *
 * A division into k parts gives consecutive ranks to part 0, part 1, ... part k - 1: part j starts
 * at rank j * C / k, rounded down (of whole numbers: the product may pass 2^64), and ends before
 * the start of part j + 1. A part is a table over the same settings that permits these setups only,
 * with the fewest nodes that such a table can have, N' (none if the part is empty).
 *
 * Two tables over the same settings can be joined, shared, or the first taken without the second:
 * the result is the table of these setups with the fewest nodes, N', as of a part. It is made in a
 * pair sheet with four words for each pair of edges that the two tables lead to: the pair of the
 * root edges; and, from a pair whose greater height is above 0, the two then-edges and the two
 * else-edges at that height, flags carried down, where an edge to a lower node stays as it is.
 * Equal pairs count once, pairs of two edges to the sink count too.
 *
 * A loose table has its records in any order, with repeats, records that nothing leads to,
 * complemented then-edges and equal edges; only heights fall along edges. Its root edge leads to any
 * node. Made proper it is the one table over the same settings that permits the same setups, of N'
 * nodes, at most N; a table is loose too, and is that table itself. All other calls take tables only.
 *
 * Two tables with the same n permit the same setups exactly when their bytes are equal: there is no
 * call to compare two, memcmp does.
 *
 * A list is a row of numbers of 8 bytes, most significant byte first; up to seven spare bytes at
 * its end are ignored.
 *
 * Memory: `table` has table_len bytes and is only read, and so is the list `ranks`. `sheet` is a
 * work sheet of sheet_len bytes: 8 * (N + 1) are needed, as many as an accepted table has, for
 * part-write 8 * (N + 512), for closest 16 * (N + 1), for count-on 512 * (N + 1), and for a loose
 * table 8 * (8 * N + 512).
 * `out` receives the part or the result: 8 * (N' + 1) of its out_len bytes are needed. `pairs` is
 * the pair sheet: 32 bytes a pair are needed. `setups` receives a list of as many items as `ranks`
 * has. These memories share no byte, but two tables may be the same one or overlap, and nobody else
 * writes them during a call. No pointer is null; none needs an alignment but `answer`, that of its
 * numbers. Lengths and contents may be any: there is nothing to check before a call. A call allocates
 * nothing, keeps nothing and takes about 70 KiB of stack, count-on 81.
 *
 * Sheet afterwards: unchanged by refusals 1 to 8, and 10. After everything else, a result or a
 * refusal, the words that the call requires are zero: N + 1, N + 512 for part-write, 2 * (N + 1) for
 * closest, 64 * (N + 1) for count-on, and 8 * N + 512 for a loose table. All other bytes are unchanged.
 * No call depends on what the sheet held before.
 * With two tables each sheet is as its own table's check leaves it, so sheet1 is zero where table2
 * is refused, and sheet2 is unchanged where table1 is. `pairs` is unchanged by a table's refusal and
 * by 19; after everything else all its pairs_len / 8 words are zero, and up to seven bytes behind
 * them unchanged.
 *
 * Out memory and `setups` afterwards: the part, or the setups, in front, if they were written; all
 * other bytes are unchanged.
 *
 * Answer, of a function with `answer`: 0, with the result in `answer`, or the number of the
 * refusal, with its place in answer[0] and, with two tables, the table in answer[1], 1 or 2, or 0
 * for 19, 20, 16 and 11; the words of `answer` that are not needed are 0. Of the others: the
 * result, which is below 2^63, or 2^63 + 2^32 * refusal + place. The place is the record k (1 to N)
 * for refusals 4 to 9, the item (from 1) for 17 and for 14 of a list, otherwise 0. The first
 * refusal that holds is answered, in this order, with two tables 1 to 10 of the first one before
 * those of the second:
 *      1  table_len is under 8
 *      2  N is above 65,535
 *      1  table_len is not 8 * (N + 1)
 *      3  the root edge does not lead to node N; of a loose table: it leads to a node above N
 *     10  sheet_len is under 8 * (N + 1), for part-write under 8 * (N + 512), for closest under
 *         16 * (N + 1), for count-on under 512 * (N + 1), for a loose table under 8 * (8 * N + 512)
 *         then for record 1, record 2, ... to N:
 *      4    its height is 0 or above n
 *      6    an edge leads to a node not below k, or to a height not below its own; of a loose table:
 *           to a node above N, or to a height not below its own
 *      5    it is not above the record before it, as an unsigned number (*)
 *      7    its then-edge is complemented (*)
 *      8    its two edges are equal (*)
 *      9  no record has an edge to record k, which is below N; the lowest such k (*)
 *     12  rank, ruled out, closest: the setup is 2^n or more
 *     13  rank: the setup is not permitted
 *     21  closest: no setup is permitted
 *     18  unrank a list: `setups` has fewer items than `ranks`
 *     17  unrank a list: a rank is below the one before it; the first such item
 *     14  unrank: the rank is C or more; of a list, the first such item
 *     15  part-write: k is 0 or above 65,535, or j is k or more
 *     19  two tables: their n differ
 *     20  two tables: pairs_len is under 32 bytes for each pair
 *     16  part-write, two tables: the part or the result needs more than 65,535 nodes
 *     11  part-write, two tables, loose table: out_len is under 8 * (N' + 1)
 * (*) not asked of a loose table
 */
#ifndef SETUPBOOK_H
#define SETUPBOOK_H

#include <stddef.h>
#include <stdint.h>

#ifdef __cplusplus
extern "C" {
#endif

/* The rank of a setup. Refusals 1 to 10, 12, 13. */
uint64_t setupbook_rank(const uint8_t *table, size_t table_len, uint64_t setup,
                        uint8_t *sheet, size_t sheet_len);

/* The permitted setup that has this rank. Refusals 1 to 10, 14. */
uint64_t setupbook_unrank(const uint8_t *table, size_t table_len, uint64_t rank,
                          uint8_t *sheet, size_t sheet_len);

/* How many permitted setups have exactly m settings on, in answer[0]: below 2^63, and 0 if m is above
 * n. Over all m from 0 to n these add up to C. Refusals 1 to 10. */
uint64_t setupbook_count_on(const uint8_t *table, size_t table_len, uint64_t m,
                            uint8_t *sheet, size_t sheet_len, uint64_t answer[3]);

/* The settings that rule a setup out. answer[0] is 0 if the setup is permitted, 1 if nothing is, or
 * 2, with p in answer[1] and a setup in answer[2]: p, from 1 to n, is the smallest number such that
 * no permitted setup begins with the same first p settings, and the setup is the smallest permitted
 * one that agrees in the first p - 1. Refusals 1 to 10, 12. */
uint64_t setupbook_ruled_out(const uint8_t *table, size_t table_len, uint64_t setup,
                             uint8_t *sheet, size_t sheet_len, uint64_t answer[3]);

/* The permitted setup that differs from a setup in the fewest settings, the smallest of several, in
 * answer[0], and that number in answer[1]: the setup itself and 0 if it is permitted. Refusals 1 to
 * 10, 12, 21. */
uint64_t setupbook_closest(const uint8_t *table, size_t table_len, uint64_t setup,
                           uint8_t *sheet, size_t sheet_len, uint64_t answer[3]);

/* The setups of a list of ranks that never fall, of any length, each as setupbook_unrank gives it.
 * answer[0] is how many. Refusals 1 to 10, 18, 17, 14. */
uint64_t setupbook_unrank_list(const uint8_t *table, size_t table_len,
                               const uint8_t *ranks, size_t ranks_len,
                               uint8_t *sheet, size_t sheet_len,
                               uint8_t *setups, size_t setups_len, uint64_t answer[3]);

/* Writes part j of k to `out`. Answers its length in bytes. Refusals 1 to 10, 15, 16, 11. */
uint64_t setupbook_part_write(const uint8_t *table, size_t table_len, uint64_t k, uint64_t j,
                              uint8_t *sheet, size_t sheet_len, uint8_t *out, size_t out_len);

/* Writes to `out` the table of the setups that either of two tables permits. answer[0] is its
 * length in bytes. Refusals 1 to 10 of either table, 19, 20, 16, 11. */
uint64_t setupbook_join(const uint8_t *table1, size_t table1_len,
                        uint8_t *sheet1, size_t sheet1_len,
                        const uint8_t *table2, size_t table2_len,
                        uint8_t *sheet2, size_t sheet2_len,
                        uint8_t *pairs, size_t pairs_len, uint8_t *out, size_t out_len,
                        uint64_t answer[3]);

/* The same of the setups that both tables permit. */
uint64_t setupbook_share(const uint8_t *table1, size_t table1_len,
                         uint8_t *sheet1, size_t sheet1_len,
                         const uint8_t *table2, size_t table2_len,
                         uint8_t *sheet2, size_t sheet2_len,
                         uint8_t *pairs, size_t pairs_len, uint8_t *out, size_t out_len,
                         uint64_t answer[3]);

/* The same of the setups that the first table permits and the second does not. */
uint64_t setupbook_without(const uint8_t *table1, size_t table1_len,
                           uint8_t *sheet1, size_t sheet1_len,
                           const uint8_t *table2, size_t table2_len,
                           uint8_t *sheet2, size_t sheet2_len,
                           uint8_t *pairs, size_t pairs_len, uint8_t *out, size_t out_len,
                           uint64_t answer[3]);

/* Writes to `out` the proper table of a loose one. answer[0] is its length in bytes, at most
 * table_len. Refusals 1, 2, 3, 10, 4, 6, 11. */
uint64_t setupbook_make_proper(const uint8_t *table, size_t table_len,
                               uint8_t *sheet, size_t sheet_len, uint8_t *out, size_t out_len,
                               uint64_t answer[3]);

/* The length of the longest table, N = 65,535: out memory that is never too short. */
#define SETUPBOOK_LONGEST 524288

/* The sheet that serves an accepted table of this length in every call but setupbook_closest,
 * setupbook_count_on and setupbook_make_proper: N + 512 words. */
static inline size_t setupbook_sheet_len(size_t table_len)
{
    return table_len + 4088;
}

/* The sheet that serves an accepted table of this length in setupbook_closest: 2 * (N + 1) words. */
static inline size_t setupbook_closest_sheet_len(size_t table_len)
{
    return 2 * table_len;
}

/* The sheet that serves an accepted table of this length in setupbook_count_on: 64 * (N + 1) words. */
static inline size_t setupbook_count_sheet_len(size_t table_len)
{
    return 64 * table_len;
}

/* The sheet that serves a loose table of this length in setupbook_make_proper: 8 * N + 512 words. */
static inline size_t setupbook_loose_sheet_len(size_t table_len)
{
    return 8 * table_len + 4032;
}

/* 1 if a packed answer is a refusal, 0 if it is a result. */
static inline int setupbook_is_refusal(uint64_t answer)
{
    return (int)(answer >> 63);
}

/* The number of a refusal. */
static inline unsigned setupbook_refusal(uint64_t answer)
{
    return (unsigned)(answer >> 32 & 0x7fffffff);
}

/* The place of a refusal. */
static inline unsigned long setupbook_place(uint64_t answer)
{
    return (unsigned long)(answer & 0xffffffff);
}

#ifdef __cplusplus
}
#endif

#endif
