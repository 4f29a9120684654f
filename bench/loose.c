/* Loose tables. A node may be turned: it permits what the other does not, and every edge to it has the other flag. */
#include "loose.h"

#include <stdlib.h>
#include <string.h>

#define MIXED_FROM 26000 /* records of the proper table of the mixed one */

static struct table empty_like(const struct table *t, const char *name)
{
    struct table made = {name, t->settings, 0, t->total, malloc(8 * (LONGEST + 1)), 0};
    if (!made.bytes) abort();
    return made;
}

static void close_loose(struct table *t, uint32_t root)
{
    put_word(t->bytes, 0, word_of(t->settings, t->count, root));
    t->len = 8 * ((size_t)t->count + 1);
}

/* An edge where to[k] is twice the new number of record k, and 1 more if it is turned. */
static uint32_t moved(const uint32_t *to, uint32_t e)
{
    return to[e / 2] ^ (e & 1);
}

/* The records in random order, about half of them turned: then-edges are flagged, edges lead forward. */
static struct table shuffled(const struct table *t, const char *name)
{
    static uint32_t to[LONGEST + 1];
    uint64_t seed = t->count;
    struct table made = empty_like(t, name);
    for (uint32_t k = 0; k <= t->count; k++) to[k] = 2 * k;
    for (uint32_t k = t->count; k > 1; k--) {
        uint32_t other = 1 + next_random(&seed) % k, kept = to[k];
        to[k] = to[other];
        to[other] = kept;
    }
    for (uint32_t k = 1; k <= t->count; k++) to[k] |= next_random(&seed) >> 63;
    for (uint32_t k = 1; k <= t->count; k++) {
        uint32_t flag = to[k] & 1, one = moved(to, then_of(t, k)) ^ flag, zero = moved(to, else_of(t, k)) ^ flag;
        put_word(made.bytes, to[k] / 2, word_of(height_of(t, k), one, zero));
    }
    made.count = t->count;
    close_loose(&made, moved(to, else_of(t, 0)));
    return made;
}

static void add_record(struct table *t, uint64_t word)
{
    if (t->count == LONGEST) abort();
    put_word(t->bytes, ++t->count, word);
}

/* An edge at height h to either copy of a node; some lead there by a new record with equal edges. */
static uint32_t edge_to_copy(struct table *made, uint64_t *seed, const uint32_t *first, uint32_t h, uint32_t e)
{
    uint64_t r = next_random(seed);
    uint32_t copy = e / 2 ? 2 * (first[e / 2] + (r & 1)) + (e & 1) : e, below = e / 2 ? height_of(made, copy / 2) : 0;
    if (r >> 60 < 13 || below + 1 >= h) return copy;
    add_record(made, word_of(below + 1, copy, copy));
    return 2 * made->count;
}

/* Every record twice, with edges to either copy; some by a record with equal edges; every eighth with one that is unused. */
static struct table mixed(const struct table *t, const char *name)
{
    static uint32_t first[LONGEST + 1];
    uint64_t seed = t->count;
    struct table made = empty_like(t, name);
    for (uint32_t k = 1; k <= t->count; k++) {
        uint32_t h = height_of(t, k), edge[4];
        for (int i = 0; i < 4; i++) edge[i] = edge_to_copy(&made, &seed, first, h, i % 2 ? else_of(t, k) : then_of(t, k));
        if (k % 8 == 0) add_record(&made, word_of(h, edge[1], edge[0]));
        first[k] = made.count + 1;
        for (int i = 0; i < 4; i += 2) add_record(&made, word_of(h, edge[i], edge[i + 1]));
    }
    close_loose(&made, 2 * first[else_of(t, 0) / 2] + (else_of(t, 0) & 1));
    return made;
}

static struct loose of_proper(struct table t, const char *name)
{
    struct table same = empty_like(&t, name);
    memcpy(same.bytes, t.bytes, t.len);
    same.count = t.count;
    same.len = t.len;
    return (struct loose){same, t};
}

static struct loose of_shuffled(struct table t, const char *name)
{
    return (struct loose){shuffled(&t, name), t};
}

static struct loose of_mixed(struct table t, const char *name)
{
    struct table more = mixed(&t, name);
    struct loose made = {shuffled(&more, name), t};
    free(more.bytes);
    return made;
}

struct loose loose_row(enum loose_row r)
{
    switch (r) {
    case PROPER: return of_proper(workload(WIDE), "proper 65,535");
    case SHUFFLED_4000: return of_shuffled(workload(MIDDLE), "shuffled 4,000");
    case SHUFFLED_16000: return of_shuffled(wide("wide 16,000", 16000), "shuffled 16,000");
    case SHUFFLED: return of_shuffled(workload(WIDE), "shuffled 65,535");
    case MIXED: return of_mixed(wide("wide 26,000", MIXED_FROM), "mixed");
    case PATH_PROPER: return of_proper(workload(PATH_63), "path 63, proper");
    case PATH_SHUFFLED: return of_shuffled(workload(PATH_63), "path 63, shuffled");
    default: return of_shuffled(workload(EXACTLY_31), "31 of 63, shuffled");
    }
}

#define DRAWN_RECORDS 24

/* An edge at height h, now and then to a node that is not lower. */
static uint32_t drawn_edge(uint64_t *seed, const uint32_t *heights, uint32_t count, uint32_t h)
{
    uint32_t v = next_random(seed) % (count + 1);
    if (heights[v] >= h && next_random(seed) % 512) v = 0;
    return 2 * v + (next_random(seed) >> 63);
}

struct loose drawn(uint64_t seed)
{
    uint32_t heights[DRAWN_RECORDS + 1] = {0}, settings = seed % 9;
    uint32_t count = settings ? next_random(&seed) % (DRAWN_RECORDS + 1) : 0;
    struct table empty = {"drawn", settings, 0, 0, NULL, 0}, made = empty_like(&empty, "drawn");
    for (uint32_t k = 1; k <= count; k++) heights[k] = 1 + next_random(&seed) % settings;
    for (uint32_t k = 1; k <= count; k++) {
        uint32_t one = drawn_edge(&seed, heights, count, heights[k]), zero = drawn_edge(&seed, heights, count, heights[k]);
        add_record(&made, word_of(heights[k], one, zero));
    }
    close_loose(&made, next_random(&seed) % (2 * count + 2));
    return (struct loose){made, empty};
}

void free_loose(struct loose *l)
{
    free(l->table.bytes);
    free(l->proper.bytes);
}
