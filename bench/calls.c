/* Calls by number. */
#include "calls.h"

#include "../include/setupbook.h"

#define T const uint8_t *table, size_t table_len
#define S uint8_t *sheet, size_t sheet_len
#define O uint8_t *out, size_t out_len
uint64_t setupbook_check(T, S), setupbook_count(T, S), setupbook_test(T, uint64_t setup, S);
uint64_t setupbook_span_size(T, uint64_t k, uint64_t j, S);
uint64_t plain_check(T, S), plain_count(T, S), plain_test(T, uint64_t setup, S);
uint64_t plain_rank(T, uint64_t setup, S), plain_unrank(T, uint64_t rank, S);
uint64_t plain_span_size(T, uint64_t k, uint64_t j, S), plain_part_write(T, uint64_t k, uint64_t j, S, O);
uint64_t plain_ruled_out(T, uint64_t setup, S, uint64_t answer[3]), plain_count_on(T, uint64_t m, S, uint64_t answer[3]);
uint64_t plain_closest(T, uint64_t setup, S, uint64_t answer[3]);
uint64_t plain_unrank_list(T, const uint8_t *ranks, size_t ranks_len, S, O, uint64_t answer[3]);
uint64_t plain_make_proper(T, S, O, uint64_t answer[3]);
#define TWO T, S, const uint8_t *table2, size_t table2_len, uint8_t *sheet2, size_t sheet2_len
#define P uint8_t *pairs, size_t pairs_len
uint64_t plain_join(TWO, P, O, uint64_t answer[3]), plain_share(TWO, P, O, uint64_t answer[3]);
uint64_t plain_without(TWO, P, O, uint64_t answer[3]);
#undef TWO
#undef P
#undef T
#undef S
#undef O

const char *operation_name(enum operation op)
{
    static const char *const names[] = {"check",        "count",          "test",           "rank",        "unrank",      "span",
                                        "part-write",   "list spread",    "list in a row",  "ruled out",   "count on, 3",
                                        "count on, 31", "closest, 1 off", "closest, 2 off", "make proper", "joined",
                                        "shared",       "without"};
    return names[op];
}

int is_list(enum operation op)
{
    return op == LIST_SPREAD || op == LIST_ROW;
}

int is_of_part(enum operation op)
{
    return op == SPAN || op == PART_WRITE;
}

int is_count_on(enum operation op)
{
    return op == COUNT_ON_3 || op == COUNT_ON_31;
}

int is_closest(enum operation op)
{
    return op == CLOSEST_1 || op == CLOSEST_2;
}

int is_called(enum operation op, enum workload w)
{
    return w < WORKLOADS || is_closest(op);
}

size_t sheet_len_of(enum operation op, uint32_t count)
{
    size_t records = count;
    if (is_count_on(op)) return 8 * 64 * (records + 1);
    if (is_closest(op)) return 8 * 2 * (records + 1);
    return 8 * (op == PART_WRITE ? records + 512 : op == MAKE_PROPER ? 8 * records + 512 : records + 1);
}

static uint64_t ours(enum operation op, const struct lent *m, struct numbers x)
{
    switch (op) {
    case CHECK: return setupbook_check(m->table, m->table_len, m->sheet, m->sheet_len);
    case COUNT: return setupbook_count(m->table, m->table_len, m->sheet, m->sheet_len);
    case TEST: return setupbook_test(m->table, m->table_len, x.a, m->sheet, m->sheet_len);
    case RANK: return setupbook_rank(m->table, m->table_len, x.a, m->sheet, m->sheet_len);
    case UNRANK: return setupbook_unrank(m->table, m->table_len, x.a, m->sheet, m->sheet_len);
    case SPAN: return setupbook_span_size(m->table, m->table_len, x.a, x.b, m->sheet, m->sheet_len);
    case PART_WRITE:
        return setupbook_part_write(m->table, m->table_len, x.a, x.b, m->sheet, m->sheet_len, m->out, m->out_len);
    case RULED_OUT: return setupbook_ruled_out(m->table, m->table_len, x.a, m->sheet, m->sheet_len, m->answer);
    case COUNT_ON_3:
    case COUNT_ON_31: return setupbook_count_on(m->table, m->table_len, x.a, m->sheet, m->sheet_len, m->answer);
    case CLOSEST_1:
    case CLOSEST_2: return setupbook_closest(m->table, m->table_len, x.a, m->sheet, m->sheet_len, m->answer);
    case MAKE_PROPER:
        return setupbook_make_proper(m->table, m->table_len, m->sheet, m->sheet_len, m->out, m->out_len, m->answer);
    default:
        return setupbook_unrank_list(m->table, m->table_len, m->ranks, m->ranks_len, m->sheet, m->sheet_len, m->out,
                                     m->out_len, m->answer);
    }
}

static uint64_t plain(enum operation op, const struct lent *m, struct numbers x)
{
    switch (op) {
    case CHECK: return plain_check(m->table, m->table_len, m->sheet, m->sheet_len);
    case COUNT: return plain_count(m->table, m->table_len, m->sheet, m->sheet_len);
    case TEST: return plain_test(m->table, m->table_len, x.a, m->sheet, m->sheet_len);
    case RANK: return plain_rank(m->table, m->table_len, x.a, m->sheet, m->sheet_len);
    case UNRANK: return plain_unrank(m->table, m->table_len, x.a, m->sheet, m->sheet_len);
    case SPAN: return plain_span_size(m->table, m->table_len, x.a, x.b, m->sheet, m->sheet_len);
    case PART_WRITE:
        return plain_part_write(m->table, m->table_len, x.a, x.b, m->sheet, m->sheet_len, m->out, m->out_len);
    case RULED_OUT: return plain_ruled_out(m->table, m->table_len, x.a, m->sheet, m->sheet_len, m->answer);
    case COUNT_ON_3:
    case COUNT_ON_31: return plain_count_on(m->table, m->table_len, x.a, m->sheet, m->sheet_len, m->answer);
    case CLOSEST_1:
    case CLOSEST_2: return plain_closest(m->table, m->table_len, x.a, m->sheet, m->sheet_len, m->answer);
    case MAKE_PROPER:
        return plain_make_proper(m->table, m->table_len, m->sheet, m->sheet_len, m->out, m->out_len, m->answer);
    default:
        return plain_unrank_list(m->table, m->table_len, m->ranks, m->ranks_len, m->sheet, m->sheet_len, m->out,
                                 m->out_len, m->answer);
    }
}

uint64_t call(enum side side, enum operation op, const struct lent *m, struct numbers x)
{
    return side == OURS ? ours(op, m, x) : plain(op, m, x);
}

uint64_t call_two(enum side side, enum operation op, const struct lent *m)
{
    typedef uint64_t of_two(const uint8_t *, size_t, uint8_t *, size_t, const uint8_t *, size_t, uint8_t *, size_t, uint8_t *,
                            size_t, uint8_t *, size_t, uint64_t *);
    static of_two *const functions[SIDES][3] = {{setupbook_join, setupbook_share, setupbook_without},
                                                {plain_join, plain_share, plain_without}};
    return functions[side][op - JOINED](m->table, m->table_len, m->sheet, m->sheet_len, m->table2, m->table2_len, m->sheet2,
                                        m->sheet2_len, m->pairs, m->pairs_len, m->out, m->out_len, m->answer);
}
