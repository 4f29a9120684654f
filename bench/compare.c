/* Ours against plain C: answers and every byte of the lent memory. */
#include "compare.h"

#include <stdio.h>
#include <stdlib.h>
#include <string.h>

#include "../include/setupbook.h"
#include "memory.h"

#define CALLS 24
#define DAMAGED 29

/* The memories of the two sides. */
struct pair {
    struct lent of[SIDES];
    uint64_t seed;
    unsigned calls;
};

static void fill(uint64_t *seed, uint8_t *a, uint8_t *b, size_t len)
{
    for (size_t i = 0; i < len; i += 8) {
        uint64_t x = next_random(seed);
        memcpy(a + i, &x, len - i < 8 ? len - i : 8);
    }
    memcpy(b, a, len);
}

static void stop(const struct table *t, enum operation op, struct numbers x, const char *what)
{
    fprintf(stderr, "bench: %s, %s of %llu, %llu: %s\n", t->name, operation_name(op), (unsigned long long)x.a,
            (unsigned long long)x.b, what);
    exit(1);
}

static void compare_call(const struct table *t, struct pair *p, enum operation op, struct numbers x)
{
    struct lent *a = &p->of[OURS], *b = &p->of[PLAIN];
    size_t sheet_room = sheet_len_of(op, t->count) + GUARD;
    fill(&p->seed, a->sheet, b->sheet, sheet_room);
    fill(&p->seed, a->out, b->out, out_room(t) + GUARD);
    fill(&p->seed, (uint8_t *)a->answer, (uint8_t *)b->answer, ANSWER + GUARD);
    uint64_t ours = call(OURS, op, a, x), plain = call(PLAIN, op, b, x);
    if (ours != plain) stop(t, op, x, "the answers differ");
    if (memcmp(a->answer, b->answer, ANSWER + GUARD)) stop(t, op, x, "the answers' words differ");
    if (memcmp(a->sheet, b->sheet, sheet_room)) stop(t, op, x, "the sheets or bytes behind them differ");
    if (memcmp(a->out, b->out, out_room(t) + GUARD)) stop(t, op, x, "the out memories differ");
    if (memcmp(a->table, b->table, a->table_len)) stop(t, op, x, "a table was changed");
    if (memcmp(a->ranks, b->ranks, 8 * ITEMS + GUARD)) stop(t, op, x, "a list was changed");
    p->calls++;
}

/* How many settings are on in call i of count-on: 0 to n + 1, then three that are higher. */
static uint64_t on_of(const struct table *t, int i)
{
    static const uint64_t higher[] = {64, (uint64_t)1 << 32, ~(uint64_t)0};
    int above = i - (int)t->settings - 2;
    return above < 0 ? (uint64_t)i : higher[above];
}

/* How many calls of an operation have numbers of their own; those of count-on are compared once for its two rows. */
static int calls_of(enum operation op, const struct table *t)
{
    return op == COUNT_ON_3 ? (int)t->settings + 5 : op == COUNT_ON_31 ? 0 : CALLS;
}

/* Call i of them: the first ones at the ends of the ranges, the others random; the last ones of closest are permitted. */
static struct numbers numbers_of(enum operation op, const struct table *t, struct pair *p, int i)
{
    uint64_t count = t->total, all = (uint64_t)1 << t->settings, r = next_random(&p->seed);
    uint64_t setups[] = {0, all - 1, all, all + 1, all << 1, ~(uint64_t)0};
    uint64_t ranks[] = {0, count - 1, count, count + 1, (uint64_t)1 << 63, ~(uint64_t)0};
    struct numbers parts[] = {{PARTS, PART}, {1, 0}, {8, 4}, {0, 0}, {8, 8}, {65535, 65534}, {65536, 0}, {~(uint64_t)0, 5}};
    if (is_of_part(op)) {
        uint64_t k = 1 + r % (i % 2 ? 65535 : 9);
        return i < 8 ? parts[i] : (struct numbers){k, next_random(&p->seed) % k};
    }
    if (is_list(op)) return (struct numbers){i, 0}; /* for a message alone */
    if (is_count_on(op)) return (struct numbers){on_of(t, i), 0};
    if (i < 6) return (struct numbers){op == UNRANK ? ranks[i] : setups[i], 0};
    if (i < 14 && op != UNRANK) return (struct numbers){r >> (64 - t->settings), 0};
    return draw_numbers(is_closest(op) && i >= 20 ? RANK : op, t, &p->of[PLAIN], &p->seed);
}

/* The timed list with other lengths, one item another number, then all numbers raised. */
struct list {
    size_t ranks_len, out_len;
    uint64_t item, number, raise;
};

/* A random list, by i: served, with one number that may fall, with numbers too high, without room for the last. */
static struct list draw_list(const struct table *t, struct pair *p, int i)
{
    size_t len = 8 + next_random(&p->seed) % (8 * ITEMS - 16), spare = next_random(&p->seed) % 8;
    uint64_t item = next_random(&p->seed) % ITEMS, number = next_random(&p->seed) % t->total;
    struct list list = {len, len / 8 * 8 + spare, item, word_at(p->of[PLAIN].ranks, item), 0};
    if (i % 4 == 1) list.number = number;
    if (i % 4 == 2) list.raise = number;
    if (i % 4 == 3) list.out_len -= 8;
    return list;
}

/* List i of CALLS: the first ones at the ends of the ranges, the others random. */
static struct list list_of(const struct table *t, struct pair *p, int i)
{
    uint64_t count = t->total, last = ITEMS - 1, all = 8 * ITEMS, top = ~(uint64_t)0;
    struct list lists[] = {
        {all, all, 0, 0, 0}, {all - 1, all - 8, 0, 0, 0}, {all - 8, all - 1, 0, 0, 0}, /* served */
        {8, 8, 0, count - 1, 0}, {7, 0, 0, 0, 0}, {0, 0, 0, 0, 0},
        {all, all - 1, last, 0, 0}, {all, 0, 0, top, 0}, {8, 7, 0, count, 0}, /* 18 */
        {all, all, last, 0, 0}, {all, all, 0, count, 0}, {16, 16, 0, top, 0}, /* 17 */
        {all, all, last, count, 0}, {all, all, last, top, 0}, {all, all, 0, 0, count}, {8, 8, 0, count, 0}, /* 14 */
    };
    return i < (int)(sizeof lists / sizeof *lists) ? lists[i] : draw_list(t, p, i);
}

static void change_list(struct pair *p, struct list list)
{
    for (int side = 0; side < SIDES; side++) {
        struct lent *m = &p->of[side];
        m->ranks_len = list.ranks_len;
        m->out_len = list.out_len;
        put_word(m->ranks, list.item, list.number);
        for (int i = 0; i < ITEMS; i++) put_word(m->ranks, i, word_at(m->ranks, i) + list.raise);
    }
}

/* Word k of a table with another bit, with its then-edge flagged, with its then-edge as its else-edge too, or with that
 * one flagged, so that nothing may name the node that the else-edge led to. */
static void damage_word(uint8_t *table, uint64_t k, uint64_t bit, int kind)
{
    uint64_t word = word_at(table, k);
    if (kind == 0) word ^= (uint64_t)1 << bit;
    if (kind == 1) word |= (uint64_t)1 << 29;
    if (kind >= 2) word = (word & ~(uint64_t)0x1fffffff) | (word >> 29 & 0x1fffffff);
    if (kind == 3) word |= 1;
    put_word(table, k, word);
}

/* Damage i of DAMAGED: a wrong length, a short sheet or out memory, the header, a record, the last one, or a place too few.
 * Where there is no record, it is the header again. */
static void damage(const struct table *t, struct pair *p, enum operation op, int i)
{
    uint64_t k = t->count ? next_random(&p->seed) % t->count + 1 : 0, bit = next_random(&p->seed) % 64;
    uint64_t out = next_random(&p->seed) % (8 * ((size_t)t->count + 2));
    for (int side = 0; side < SIDES; side++) {
        struct lent *m = &p->of[side];
        if (i == 0) m->table_len = 0;
        if (i == 1) m->table_len = 7;
        if (i == 2) m->table_len -= 3;
        if (i == 3) m->table_len -= 8;
        if (i == 4) m->sheet_len = sheet_len_of(op, t->count) - 1;
        if (i == 5) m->out_len = 7;
        if (i == 6) m->out_len = out;
        if (i > 6 && i < 12) damage_word((uint8_t *)m->table, 0, bit, 0);
        if (i >= 12 && i < 27) damage_word((uint8_t *)m->table, k, bit, i < 18 ? 0 : i % 3);
        if (i == 27) damage_word((uint8_t *)m->table, t->count, bit, 3);
        if (i == 28) m->sheet_len = sheet_len_of(op, t->count) - 8;
    }
}

/* The table as it was, and memory for the operation: the sheet is just long enough, or up to 23 bytes longer. */
static void restore(const struct table *t, struct pair *p, enum operation op)
{
    uint64_t r = next_random(&p->seed), more = r % 2 ? r / 2 % 24 : 0;
    for (int side = 0; side < SIDES; side++) {
        memcpy((uint8_t *)p->of[side].table, t->bytes, t->len);
        p->of[side].table_len = t->len;
        lend_for(&p->of[side], op, t);
        p->of[side].sheet_len += more;
    }
}

unsigned compare(const struct table *t, enum operation op)
{
    struct pair p = {{lend(t, op), lend(t, op)}, t->count + op, 0};
    for (int i = 0; i < calls_of(op, t); i++) {
        restore(t, &p, op);
        struct numbers x = numbers_of(op, t, &p, i);
        if (is_list(op)) change_list(&p, list_of(t, &p, i));
        compare_call(t, &p, op, x);
    }
    for (int i = 0; i < DAMAGED; i++) {
        restore(t, &p, op);
        struct numbers x = draw_numbers(op, t, &p.of[PLAIN], &p.seed);
        damage(t, &p, op, i);
        compare_call(t, &p, op, x);
    }
    give_back(&p.of[OURS]);
    give_back(&p.of[PLAIN]);
    return p.calls;
}

/* --- loose tables ---------------------------------------------------------------------------- */

/* The out memory just long enough for the result, a byte longer, a byte too short and for nothing. */
static void compare_out(const struct table *t, struct pair *p, size_t result)
{
    size_t lengths[] = {result, result + 1, result - 1, 0};
    for (int i = 0; i < 4; i++) {
        restore(t, p, MAKE_PROPER);
        for (int side = 0; side < SIDES; side++) p->of[side].out_len = lengths[i];
        compare_call(t, p, MAKE_PROPER, (struct numbers){i, 0});
    }
}

unsigned compare_loose(const struct loose *l)
{
    const struct table *t = &l->table, *proper = &l->proper;
    struct pair p = {{lend(t, MAKE_PROPER), lend(t, MAKE_PROPER)}, t->count, 0};
    struct numbers none = {0, 0};
    compare_call(t, &p, MAKE_PROPER, none);
    size_t result = p.of[PLAIN].answer[0];
    if (proper->bytes && (result != proper->len || memcmp(p.of[PLAIN].out, proper->bytes, result)))
        stop(t, MAKE_PROPER, none, "what was written is not the proper table");
    compare_out(t, &p, result > 8 ? result : 8);
    for (int i = 0; i < DAMAGED && t->count > 0; i++) {
        restore(t, &p, MAKE_PROPER);
        damage(t, &p, MAKE_PROPER, i);
        compare_call(t, &p, MAKE_PROPER, (struct numbers){i, 0});
    }
    give_back(&p.of[OURS]);
    give_back(&p.of[PLAIN]);
    return p.calls;
}

/* --- two tables ------------------------------------------------------------------------------ */

static void stop_two(const struct two *w, int i, const char *what)
{
    fprintf(stderr, "bench: %s, %s, call %d: %s\n", w->name, operation_name(w->op), i, what);
    exit(1);
}

/* Answers the refusal, or 0. */
static uint64_t compare_call_two(const struct two *w, struct pair *p, int i)
{
    struct lent *a = &p->of[OURS], *b = &p->of[PLAIN];
    size_t sheet_room = sheet_len_of(w->op, w->first.count) + GUARD, sheet2_room = sheet_len_of(w->op, w->second.count) + GUARD;
    size_t all_pairs = pairs_room(w) + GUARD, all_out = SETUPBOOK_LONGEST + GUARD;
    fill(&p->seed, a->sheet, b->sheet, sheet_room);
    fill(&p->seed, a->sheet2, b->sheet2, sheet2_room);
    fill(&p->seed, a->pairs, b->pairs, all_pairs);
    fill(&p->seed, a->out, b->out, all_out);
    fill(&p->seed, (uint8_t *)a->answer, (uint8_t *)b->answer, ANSWER + GUARD);
    uint64_t ours = call_two(OURS, w->op, a), plain = call_two(PLAIN, w->op, b);
    if (ours != plain) stop_two(w, i, "the answers differ");
    if (memcmp(a->answer, b->answer, ANSWER + GUARD)) stop_two(w, i, "the answers' words differ");
    if (memcmp(a->sheet, b->sheet, sheet_room)) stop_two(w, i, "the first sheets or bytes behind them differ");
    if (memcmp(a->sheet2, b->sheet2, sheet2_room)) stop_two(w, i, "the second sheets or bytes behind them differ");
    if (memcmp(a->pairs, b->pairs, all_pairs)) stop_two(w, i, "the pair sheets or bytes behind them differ");
    if (memcmp(a->out, b->out, all_out)) stop_two(w, i, "the out memories differ");
    if (memcmp(a->table, b->table, a->table_len)) stop_two(w, i, "a first table was changed");
    if (memcmp(a->table2, b->table2, a->table2_len)) stop_two(w, i, "a second table was changed");
    p->calls++;
    return plain;
}

/* Both tables as they were, and memory for them: sheets just long enough, or up to 23 bytes longer. */
static void restore_two(const struct two *w, struct pair *p)
{
    uint64_t r = next_random(&p->seed), more = r % 2 ? r / 2 % 24 : 0, more2 = r / 64 % 2 ? r / 128 % 24 : 0;
    for (int side = 0; side < SIDES; side++) {
        struct lent *m = &p->of[side];
        memcpy((uint8_t *)m->table, w->first.bytes, w->first.len);
        memcpy((uint8_t *)m->table2, w->second.bytes, w->second.len);
        lend_for_two(m, w);
        m->sheet_len += more;
        m->sheet2_len += more2;
    }
}

/* The pair sheet long enough, just so, with an incomplete four and spare bytes, and too short; by turns with the out
 * memory, of whose bytes `result` are needed. The first six calls hold the pairs, the others do not. */
static void compare_lengths(const struct two *w, struct pair *p, size_t result)
{
    size_t all = 32 * w->pairs, longest = SETUPBOOK_LONGEST;
    struct { size_t pairs, out; } lengths[] = {
        {2 * all, result}, {all, longest}, {all + 31, result}, /* served */
        {2 * all, result - 1}, {all, result - 8}, {all, 0}, /* 11 */
        {all - 1, longest}, {all - 32, result}, {all / 2, 0}, {32, longest}, {31, longest}, {7, 0}, {0, longest}, /* 20 */
    };
    for (int i = 0; i < (int)(sizeof lengths / sizeof *lengths); i++) {
        restore_two(w, p);
        for (int side = 0; side < SIDES; side++) {
            p->of[side].pairs_len = lengths[i].pairs;
            p->of[side].out_len = lengths[i].out;
        }
        if ((compare_call_two(w, p, i) == 20) != (i >= 6)) stop_two(w, i, "the pairs are not as many as was said");
    }
}

/* The first table twice, the second twice, either with sample A, and that twice: in the same memory each time. */
static void compare_others(const struct two *w, struct pair *p)
{
    struct table a = workload(SAMPLE_A);
    for (int i = 0; i < 5; i++) {
        restore_two(w, p);
        struct lent kept[SIDES] = {p->of[OURS], p->of[PLAIN]};
        for (int side = 0; side < SIDES; side++) {
            struct lent *m = &p->of[side], *k = &kept[side];
            const uint8_t *table[] = {k->table, k->table2, a.bytes};
            size_t len[] = {k->table_len, k->table2_len, a.len};
            int first[] = {0, 1, 0, 2, 2}, second[] = {0, 1, 2, 1, 2};
            m->table = table[first[i]];
            m->table_len = len[first[i]];
            m->table2 = table[second[i]];
            m->table2_len = len[second[i]];
        }
        compare_call_two(w, p, i);
        for (int side = 0; side < SIDES; side++) p->of[side] = kept[side];
    }
    free(a.bytes);
}

/* Turns the tables and their sheets over, so that the second one is damaged as the first. */
static void exchange(struct pair *p)
{
    for (int side = 0; side < SIDES; side++) {
        struct lent *m = &p->of[side], k = *m;
        m->table = k.table2;
        m->table_len = k.table2_len;
        m->sheet = k.sheet2;
        m->sheet_len = k.sheet2_len;
        m->table2 = k.table;
        m->table2_len = k.table_len;
        m->sheet2 = k.sheet;
        m->sheet2_len = k.sheet_len;
    }
}

/* Damage in the first table, in the second, and in both. */
static void compare_damaged(const struct two *w, struct pair *p)
{
    for (int i = 0; i < 3 * DAMAGED; i++) {
        restore_two(w, p);
        if (i % 3 != 1) damage(&w->first, p, w->op, i / 3);
        exchange(p);
        if (i % 3 != 0) damage(&w->second, p, w->op, i / 3);
        exchange(p);
        compare_call_two(w, p, i);
    }
}

unsigned compare_two(const struct two *w)
{
    struct pair p = {{lend_two(w), lend_two(w)}, w->pairs + w->op, 0};
    uint64_t refusal = compare_call_two(w, &p, 0);
    compare_lengths(w, &p, refusal ? SETUPBOOK_LONGEST : p.of[PLAIN].answer[0]);
    compare_others(w, &p);
    compare_damaged(w, &p);
    give_back(&p.of[OURS]);
    give_back(&p.of[PLAIN]);
    return p.calls;
}
