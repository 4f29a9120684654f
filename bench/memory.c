/* Lent memory and numbers. */
#include "memory.h"

#include <stdlib.h>
#include <string.h>

#include "../include/setupbook.h"

#define TRIES 32 /* settings turned over at most, to get as far off as closest is asked */

static uint8_t *pages(size_t len)
{
    size_t whole = (len + GUARD + 4095) / 4096 * 4096;
    uint8_t *p = aligned_alloc(4096, whole);
    if (!p) abort();
    return memset(p, 0, whole);
}

static size_t part_room(const struct table *t)
{
    return 8 * ((size_t)t->count + 128);
}

size_t out_room(const struct table *t)
{
    return part_room(t) > 8 * ITEMS ? part_room(t) : 8 * ITEMS;
}

static const uint8_t *copy_of(const struct table *t)
{
    return memcpy(pages(t->len), t->bytes, t->len);
}

struct lent lend(const struct table *t, enum operation op)
{
    struct lent m = {0};
    m.table = copy_of(t);
    m.table_len = t->len;
    m.ranks = pages(8 * ITEMS);
    m.sheet = pages(sheet_len_of(op, t->count));
    m.out = pages(out_room(t));
    m.answer = (uint64_t *)pages(ANSWER);
    lend_for(&m, op, t);
    return m;
}

/* ITEMS ascending numbers: drawn over the whole count, or neighbours in its middle. A small table's own are repeated. */
static void write_list(enum operation op, const struct table *t, uint8_t *ranks)
{
    uint64_t words[ITEMS], seed = op + 1, first = t->total > ITEMS ? (t->total - ITEMS) / 2 : 0;
    for (uint64_t i = 0; i < ITEMS; i++)
        words[i] = op == LIST_SPREAD ? next_random(&seed) % t->total : first + (i < t->total ? i : t->total - 1);
    sort_words(words, ITEMS);
    for (uint64_t i = 0; i < ITEMS; i++) put_word(ranks, i, words[i]);
}

void lend_for(struct lent *m, enum operation op, const struct table *t)
{
    m->sheet_len = sheet_len_of(op, t->count);
    m->ranks_len = is_list(op) ? 8 * ITEMS : 0;
    m->out_len = is_list(op) ? 8 * ITEMS : part_room(t);
    if (is_list(op)) write_list(op, t, m->ranks);
}

size_t pairs_room(const struct two *w)
{
    return 2 * 32 * w->pairs;
}

struct lent lend_two(const struct two *w)
{
    struct lent m = {0};
    m.table = copy_of(&w->first);
    m.table2 = copy_of(&w->second);
    m.sheet = pages(sheet_len_of(w->op, w->first.count));
    m.sheet2 = pages(sheet_len_of(w->op, w->second.count));
    m.pairs = pages(pairs_room(w));
    m.out = pages(SETUPBOOK_LONGEST);
    m.answer = (uint64_t *)pages(ANSWER);
    lend_for_two(&m, w);
    return m;
}

void lend_for_two(struct lent *m, const struct two *w)
{
    m->table_len = w->first.len;
    m->table2_len = w->second.len;
    m->sheet_len = sheet_len_of(w->op, w->first.count);
    m->sheet2_len = sheet_len_of(w->op, w->second.count);
    m->pairs_len = pairs_room(w);
    m->out_len = SETUPBOOK_LONGEST;
}

void give_back(struct lent *m)
{
    free((void *)m->table);
    free((void *)m->table2);
    free(m->sheet2);
    free(m->pairs);
    free(m->ranks);
    free(m->sheet);
    free(m->out);
    free(m->answer);
}

/* The setup with some setting turned over. */
static uint64_t turned(const struct table *t, uint64_t setup, uint64_t *seed)
{
    return setup ^ (uint64_t)1 << next_random(seed) % t->settings;
}

/* The permitted setup with settings turned over that each take it further off, until it is as far as the row says. */
static uint64_t taken_off(enum operation op, const struct table *t, const struct lent *m, uint64_t setup, uint64_t *seed)
{
    uint64_t wanted = op == CLOSEST_1 ? 1 : 2, off = 0;
    for (int i = 0; i < TRIES && off < wanted; i++) {
        uint64_t other = turned(t, setup, seed);
        call(PLAIN, op, m, (struct numbers){other, 0});
        if (m->answer[1] <= off) continue;
        off = m->answer[1];
        setup = other;
    }
    return setup;
}

struct numbers draw_numbers(enum operation op, const struct table *t, const struct lent *m, uint64_t *seed)
{
    uint64_t r = next_random(seed), any = r >> (64 - t->settings), rank = t->total ? r % t->total : 0;
    if (is_of_part(op)) return (struct numbers){PARTS, PART};
    if (is_list(op)) return (struct numbers){0, 0};
    if (is_count_on(op)) return (struct numbers){op == COUNT_ON_3 ? 3 : 31, 0};
    if (op == UNRANK) return (struct numbers){rank, 0};
    if (!t->total || (op == TEST && next_random(seed) >> 63)) return (struct numbers){any, 0};
    uint64_t permitted = call(PLAIN, UNRANK, m, (struct numbers){rank, 0});
    if (op == RULED_OUT) return (struct numbers){turned(t, permitted, seed), 0};
    return (struct numbers){is_closest(op) ? taken_off(op, t, m, permitted, seed) : permitted, 0};
}
