/* The workloads. A table is made from the lowest height up, one height at a time. */
#include "tables.h"

#include <stdlib.h>
#include <string.h>

uint64_t plain_count(const uint8_t *table, size_t table_len, uint8_t *sheet, size_t sheet_len);

#define EDGE 0x1fffffff
#define TOP 63

uint64_t next_random(uint64_t *seed)
{
    uint64_t x = *seed += 0x9e3779b97f4a7c15;
    x = (x ^ x >> 30) * 0xbf58476d1ce4e5b9;
    x = (x ^ x >> 27) * 0x94d049bb133111eb;
    return x ^ x >> 31;
}

uint64_t word_at(const uint8_t *bytes, size_t k)
{
    uint64_t word;
    memcpy(&word, bytes + 8 * k, 8);
    return __builtin_bswap64(word);
}

void put_word(uint8_t *bytes, size_t k, uint64_t word)
{
    word = __builtin_bswap64(word);
    memcpy(bytes + 8 * k, &word, 8);
}

uint32_t height_of(const struct table *t, uint32_t k)
{
    return word_at(t->bytes, k) >> 58;
}

uint32_t then_of(const struct table *t, uint32_t k)
{
    return word_at(t->bytes, k) >> 29 & EDGE;
}

uint32_t else_of(const struct table *t, uint32_t k)
{
    return word_at(t->bytes, k) & EDGE;
}

uint64_t word_of(uint64_t height, uint64_t then_edge, uint64_t else_edge)
{
    return height << 58 | then_edge << 29 | else_edge;
}

static int compare_words(const void *a, const void *b)
{
    uint64_t x = *(const uint64_t *)a, y = *(const uint64_t *)b;
    return (x > y) - (x < y);
}

void sort_words(uint64_t *words, size_t count)
{
    qsort(words, count, sizeof *words, compare_words);
}

static struct table empty_table(const char *name, uint32_t settings)
{
    struct table t = {name, settings, 0, 0, malloc(8 * (LONGEST + 1)), 0};
    if (!t.bytes) abort();
    return t;
}

/* Appends these records of one height in ascending order. */
static void append(struct table *t, uint64_t *words, uint32_t count)
{
    sort_words(words, count);
    for (uint32_t i = 0; i < count; i++) put_word(t->bytes, ++t->count, words[i]);
}

/* The table with its header and its count. */
static struct table closed(struct table t, uint32_t flag)
{
    put_word(t.bytes, 0, word_of(t.settings, t.count, 2 * t.count + flag));
    t.len = 8 * ((size_t)t.count + 1);
    uint8_t *sheet = malloc(t.len);
    if (!sheet) abort();
    t.total = plain_count(t.bytes, t.len, sheet, t.len);
    if (t.total >> 63) abort(); /* refused: not a table */
    free(sheet);
    return t;
}

/* --- diagrams given by states ------------------------------------------------------------- */

#define STATES 1024 /* at most */

/* The record of a state and, in `flag`, whether the state's edge to it is flagged; 0 if none is needed. */
static uint64_t record_of(uint32_t height, uint32_t then_edge, uint32_t else_edge, uint32_t *flag)
{
    *flag = then_edge & 1;
    return then_edge == else_edge ? 0 : word_of(height, then_edge ^ *flag, else_edge ^ *flag);
}

/* One height: `edge` has then-edge and else-edge of each state before and its edge in [0] after. */
static void add_height(struct table *t, uint32_t height, uint32_t (*edge)[2], uint32_t states)
{
    uint64_t words[STATES], word;
    uint32_t count = 0, flag, i, k;
    for (i = 0; i < states; i++) {
        word = record_of(height, edge[i][0], edge[i][1], &flag);
        for (k = 0; k < count && words[k] != word; k++) {}
        if (word && k == count) words[count++] = word;
    }
    append(t, words, count);
    for (i = 0; i < states; i++) {
        word = record_of(height, edge[i][0], edge[i][1], &flag);
        for (k = t->count; word && word_at(t->bytes, k) != word; k--) {}
        if (word) edge[i][0] = 2 * k + flag;
    }
}

static struct table sample_a(void)
{
    struct table t = empty_table("sample A", 3);
    put_word(t.bytes, 1, word_of(1, 0, 1));
    put_word(t.bytes, 2, word_of(2, 2, 3));
    put_word(t.bytes, 3, word_of(3, 4, 0));
    t.count = 3;
    return closed(t, 0);
}

/* State 0: the vertex before is out; state 1: it is in. */
static struct table path_63(void)
{
    struct table t = empty_table("path 63", TOP);
    uint32_t edge[2][2] = {{0, 0}, {0, 0}};
    for (uint32_t h = 1; h <= TOP; h++) {
        uint32_t out = edge[0][0], in = edge[1][0];
        edge[0][0] = in;
        edge[0][1] = out;
        edge[1][0] = 1;
        edge[1][1] = out;
        add_height(&t, h, edge, h < TOP ? 2 : 1);
    }
    return closed(t, edge[0][0] & 1);
}

/* State i: 31 - i settings are still to be chosen; under height h at most 63 - h are chosen. */
static struct table exactly_31(void)
{
    struct table t = empty_table("31 of 63", TOP);
    uint32_t edge[32][2];
    for (uint32_t i = 0; i < 32; i++) edge[i][0] = i < 31;
    for (uint32_t h = 1; h <= TOP; h++) {
        uint32_t states = TOP - h < 31 ? TOP - h + 1 : 32;
        for (uint32_t i = 0; i < states; i++) {
            edge[i][1] = edge[i][0];
            edge[i][0] = i < 31 ? edge[i + 1][0] : 1;
        }
        add_height(&t, h, edge, states);
    }
    return closed(t, edge[0][0] & 1);
}

/* State i: the settings so far are a number with remainder i; under height h it is below 2^(63 - h). */
struct table multiples(const char *name, uint32_t m)
{
    struct table t = empty_table(name, TOP);
    uint32_t edge[STATES][2], below[STATES];
    for (uint32_t i = 0; i < m; i++) edge[i][0] = i > 0;
    for (uint32_t h = 1; h <= TOP; h++) {
        uint32_t states = TOP - h < 10 && 1u << (TOP - h) < m ? 1u << (TOP - h) : m;
        for (uint32_t i = 0; i < m; i++) below[i] = edge[i][0];
        for (uint32_t i = 0; i < states; i++) {
            edge[i][0] = below[(2 * i + 1) % m];
            edge[i][1] = below[2 * i % m];
        }
        add_height(&t, h, edge, states);
    }
    return closed(t, edge[0][0] & 1);
}

/* --- random tables ------------------------------------------------------------------------ */

/* How wide a height may be: few records can be told apart at the bottom, few are named at the top. */
static uint32_t widest(uint32_t h)
{
    static const uint32_t bottom[] = {0, 1, 6, 120};
    uint32_t top = TOP - h < 16 ? 1u << (TOP - h) : LONGEST;
    return h <= 3 && bottom[h] < top ? bottom[h] : top;
}

/* Even widths, with the given sum. */
static void widths(uint32_t count, uint32_t *width)
{
    uint32_t even = 0, sum = 0;
    while (sum < count) {
        even++;
        for (uint32_t h = 1; h <= TOP; h++) sum += even <= widest(h);
    }
    for (uint32_t h = 1; h <= TOP; h++) {
        width[h] = even < widest(h) ? even : widest(h);
        if (sum > count && width[h] == even) {
            width[h]--;
            sum--;
        }
    }
}

static int is_among(const uint64_t *words, uint32_t count, uint64_t word)
{
    for (uint32_t i = 0; i < count; i++)
        if (words[i] == word) return 1;
    return 0;
}

/* `count` records of height h over the nodes below `first`; of these, the last `below` have to be named. */
static void draw_height(uint64_t *seed, uint32_t h, uint64_t *words, uint32_t count, uint32_t first, uint32_t below)
{
    uint32_t name = first - below; /* the next node to be named */
    for (uint32_t i = 0; i < count; i++) {
        uint32_t left = first - name, must = left > count - i ? 2 : left > 0, tries = 0;
        uint64_t word;
        do {
            if (++tries > 1000000) abort();
            uint32_t a = next_random(seed) % first, b = next_random(seed) % first, bits = next_random(seed) >> 62;
            if (must) a = name;
            if (must == 2) b = name + 1;
            uint32_t upper = bits & 2 ? a : b, lower = bits & 2 ? b : a;
            word = upper == lower ? word_of(h, 2 * upper, 2 * lower + 1) : word_of(h, 2 * upper, 2 * lower + (bits & 1));
        } while (is_among(words, i, word));
        words[i] = word;
        name += must;
    }
}

struct table wide(const char *name, uint32_t count)
{
    struct table t = empty_table(name, TOP);
    uint32_t width[TOP + 1] = {0};
    uint64_t seed = count, *words = malloc(8 * LONGEST);
    if (!words) abort();
    widths(count, width);
    for (uint32_t h = 1; h <= TOP; h++) {
        draw_height(&seed, h, words, width[h], t.count + 1, width[h - 1]);
        append(&t, words, width[h]);
    }
    free(words);
    return closed(t, next_random(&seed) & 1);
}

struct table workload(enum workload w)
{
    switch (w) {
    case SAMPLE_A: return sample_a();
    case PATH_63: return path_63();
    case EXACTLY_31: return exactly_31();
    case MIDDLE: return wide("wide 4,000", 4000);
    case WIDE: return wide("wide 65,535", LONGEST);
    case MULTIPLES_1021: return multiples("multiples of 1,021", 1021);
    default: return closed(empty_table("no setup", TOP), 1);
    }
}
