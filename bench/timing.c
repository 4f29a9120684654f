/* Timing: ours and plain C by turns, call by call, so that drift hits both; medians. */
#include "timing.h"

#include <emmintrin.h>
#include <stdlib.h>
#include <string.h>
#include <time.h>

#include "memory.h"

#define ROUNDS 20000 /* most readings of a side */
#define LEAST 9      /* fewest */
#define DRAWN 64     /* numbers drawn in advance */

double now(void)
{
    struct timespec t;
    clock_gettime(CLOCK_MONOTONIC, &t);
    return (double)t.tv_sec + 1e-9 * (double)t.tv_nsec;
}

static int compare_values(const void *a, const void *b)
{
    double x = *(const double *)a, y = *(const double *)b;
    return (x > y) - (x < y);
}

double median(double *values, unsigned count)
{
    qsort(values, count, sizeof *values, compare_values);
    return count % 2 ? values[count / 2] : (values[count / 2 - 1] + values[count / 2]) / 2;
}

static void flush(const uint8_t *p, size_t len)
{
    for (size_t i = 0; i < len; i += 64) _mm_clflush(p + i);
}

static void blank(uint8_t *p, size_t len)
{
    if (p) memset(p, 0, len);
}

static void clear(const struct lent *m)
{
    blank(m->sheet, m->sheet_len);
    blank(m->sheet2, m->sheet2_len);
    blank(m->pairs, m->pairs_len);
    blank(m->out, m->out_len);
    flush(m->table, m->table_len);
    flush(m->table2, m->table2_len);
    flush(m->ranks, m->ranks_len);
    flush(m->sheet, m->sheet_len);
    flush(m->sheet2, m->sheet2_len);
    flush(m->pairs, m->pairs_len);
    flush(m->out, m->out_len);
    _mm_mfence();
}

static uint64_t call_any(enum side side, enum operation op, const struct lent *m, struct numbers x)
{
    return op < JOINED ? call(side, op, m, x) : call_two(side, op, m);
}

double reading(enum side side, enum operation op, enum condition c, const struct lent *m, const struct numbers *x,
               unsigned batch)
{
    volatile uint64_t kept = 0;
    if (c == CLEARED) clear(m);
    else kept = call_any(side, op, m, x[0]);
    double start = now();
    for (unsigned i = 0; i < batch; i++) kept += call_any(side, op, m, x[i % DRAWN]);
    return 1e6 * (now() - start) / batch;
}

/* What the clock itself takes, in microseconds. */
static double clock_cost(void)
{
    double values[101];
    for (int i = 0; i < 101; i++) {
        double start = now();
        values[i] = 1e6 * (now() - start);
    }
    return median(values, 101);
}

/* Both sides with this memory; `x` has twice the same DRAWN numbers, to start anywhere. */
static void time_lent(enum operation op, enum condition c, const struct lent *m, const struct numbers *x, unsigned batch,
                      double seconds, double *micros)
{
    double *values[SIDES], end = now() + seconds, clock = clock_cost();
    unsigned rounds = 0;
    for (int side = 0; side < SIDES; side++)
        if (!(values[side] = malloc(ROUNDS * sizeof(double)))) abort();
    for (; rounds < LEAST || (rounds < ROUNDS && now() < end); rounds++)
        for (unsigned turn = 0; turn < SIDES; turn++) {
            enum side side = (rounds + turn) % SIDES;
            values[side][rounds] = reading(side, op, c, m, x + rounds % DRAWN, batch);
        }
    for (int side = 0; side < SIDES; side++) {
        micros[side] = median(values[side], rounds) - clock / batch;
        free(values[side]);
    }
}

void time_both(const struct table *t, enum operation op, enum condition c, double seconds, double *micros)
{
    struct lent m = lend(t, op);
    struct numbers x[2 * DRAWN];
    uint64_t seed = op + 1;
    for (int i = 0; i < DRAWN; i++) x[i] = x[i + DRAWN] = draw_numbers(op, t, &m, &seed);
    time_lent(op, c, &m, x, c == WARM && !is_list(op) ? 1 + 2000 / (t->count + 1) : 1, seconds, micros);
    give_back(&m);
}

static const struct numbers none[2 * DRAWN];

void time_loose(const struct table *t, enum condition c, double seconds, double *micros)
{
    struct lent m = lend(t, MAKE_PROPER);
    time_lent(MAKE_PROPER, c, &m, none, 1, seconds, micros);
    give_back(&m);
}

void time_two(const struct two *w, enum condition c, enum room room, double seconds, double *micros)
{
    struct lent m = lend_two(w);
    if (room == JUST_ENOUGH) m.pairs_len = 32 * w->pairs;
    time_lent(w->op, c, &m, none, 1, seconds, micros);
    give_back(&m);
}
