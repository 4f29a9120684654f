/* bench INSTRUCTIONS SVG: compares ours with plain C, times both and BuDDy, writes the plot, prints the report.
 * INSTRUCTIONS has a line "workload operation side count" for each dump of callgrind; see instructions.c. */
#include <stdio.h>
#include <stdlib.h>

#include "compare.h"
#include "instructions.h"
#include "plot.h"
#include "report.h"

#define POINTS 16
#define PASSES 5           /* over everything that is timed */
#define WIDE_SECONDS 0.3   /* a pass, for each operation and condition on the wide table */
#define CELL_SECONDS 0.04  /* on the others */
#define POINT_SECONDS 0.06 /* on a point of the plot */
#define BUDDY_SECONDS 0.4
#define TWO_SECONDS 0.1    /* a pass, for each condition on a row of two tables */
#define BUDDY_TWO_SECONDS 0.3
#define LOOSE_SECONDS 0.1  /* a pass, for each condition on a loose table */
#define BUDDY_LOOSE_SECONDS 0.3
#define DRAWN_TABLES 200   /* small loose ones that are compared */

static FILE *opened(const char *path, const char *mode)
{
    FILE *f = fopen(path, mode);
    if (f) return f;
    perror(path);
    exit(1);
}

/* Counted are four workloads by all operations, and the multiples of 1,021 by the two rows of closest. */
static void read_instructions(const char *path, struct results *r)
{
    unsigned w, op, side, lines = 0, all = (4 * OPERATIONS + 2 + ROWS + LOOSE) * SIDES, two = MEASURED, loose = two + ROWS;
    double count;
    FILE *f = opened(path, "r");
    for (; fscanf(f, "%u %u %u %lf", &w, &op, &side, &count) == 4; lines++) {
        if (w < MEASURED && op < OPERATIONS && side < SIDES) r->instructions[w][op][side] = count / COUNTED_CALLS;
        if (w >= two && w < loose && side < SIDES) r->row_instructions[w - two][side] = count;
        if (w >= loose && w < loose + LOOSE && side < SIDES) r->loose_instructions[w - loose][side] = count;
    }
    fclose(f);
    if (lines == all) return;
    fprintf(stderr, "bench: %u instruction counts instead of %u\n", lines, all);
    exit(1);
}

/* One pass over all workloads. */
static void time_workloads(const struct results *r, double (*micros)[OPERATIONS][CONDITIONS][SIDES], double (*buddy)[BUDDY])
{
    for (int w = 0; w < MEASURED; w++)
        for (int op = 0; op < OPERATIONS; op++)
            for (int c = 0; c < CONDITIONS; c++)
                if (is_called(op, w))
                    time_both(&r->table[w], op, c, w == WIDE ? WIDE_SECONDS : CELL_SECONDS, micros[w][op][c]);
    for (int w = 0; w < WORKLOADS; w++) time_buddy(&r->table[w], BUDDY_SECONDS, buddy[w]);
}

/* One pass over the rows of two tables. */
static void time_rows(const struct results *r, double (*micros)[CONDITIONS][SIDES], double (*full)[SIDES])
{
    for (int i = 0; i < ROWS; i++) {
        for (int c = 0; c < CONDITIONS; c++) time_two(&r->row[i], c, TWICE, TWO_SECONDS, micros[i][c]);
        time_two(&r->row[i], WARM, JUST_ENOUGH, TWO_SECONDS, full[i]);
    }
}

static void time_rows_buddy(const struct results *r, enum sizing sizing, double (*buddy)[BUDDY])
{
    for (int i = 0; i < ROWS; i++) time_buddy_two(&r->row[i], sizing, BUDDY_TWO_SECONDS, buddy[i]);
}

/* One pass over the loose tables. */
static void time_loose_rows(const struct results *r, double (*micros)[CONDITIONS][SIDES], double (*buddy)[BUDDY])
{
    for (int i = 0; i < LOOSE; i++) {
        for (int c = 0; c < CONDITIONS; c++) time_loose(&r->loose[i].table, c, LOOSE_SECONDS, micros[i][c]);
        time_buddy_loose(&r->loose[i].table, BUDDY_LOOSE_SECONDS, buddy[i]);
    }
}

/* One pass over the tables of the plot. */
static void time_points(struct point *points)
{
    for (int i = 0; i < POINTS; i++) {
        uint32_t count = 4096 * (i + 1) < LONGEST ? 4096 * (i + 1) : LONGEST;
        struct table t = wide("plot", count);
        points[i].count = count;
        time_both(&t, RANK, WARM, POINT_SECONDS, points[i].micros);
        time_both(&t, PART_WRITE, WARM, POINT_SECONDS, points[i].micros + SIDES);
        free(t.bytes);
    }
}

/* For each pair of figures, ours and plain C, those of its quietest pass: the one in which they took least. The PASSES
 * rows of `pairs` pairs stand one after another. */
static void quietest(const double *passes, unsigned pairs, double *out)
{
    for (unsigned i = 0; i < pairs; i++) {
        const double *best = passes + SIDES * i;
        for (unsigned p = 1; p < PASSES; p++) {
            const double *pair = passes + SIDES * (p * pairs + i);
            if (pair[OURS] + pair[PLAIN] < best[OURS] + best[PLAIN]) best = pair;
        }
        for (int side = 0; side < SIDES; side++) out[SIDES * i + side] = best[side];
    }
}

/* For each row of figures, those of the pass that is best for BuDDy: the least whole job / ours. The PASSES times `rows`
 * rows stand one after another. */
static void best_for_buddy(double (*passes)[BUDDY], unsigned rows, double (*out)[BUDDY])
{
    for (unsigned i = 0; i < rows; i++) {
        const double *best = passes[i];
        for (unsigned p = 1; p < PASSES; p++) {
            const double *one = passes[p * rows + i];
            if (one[WHOLE] / one[BESIDE] < best[WHOLE] / best[BESIDE]) best = one;
        }
        for (int k = 0; k < BUDDY; k++) out[i][k] = best[k];
    }
}

static void time_all(struct results *r, struct point *points)
{
    static double micros[PASSES][MEASURED][OPERATIONS][CONDITIONS][SIDES];
    double buddy[PASSES][WORKLOADS][BUDDY], lines[PASSES][POINTS * LINES], line[POINTS * LINES];
    double row_micros[PASSES][ROWS][CONDITIONS][SIDES], row_buddy[SIZINGS][PASSES][ROWS][BUDDY];
    double row_full[PASSES][ROWS][SIDES], loose_micros[PASSES][LOOSE][CONDITIONS][SIDES], loose_buddy[PASSES][LOOSE][BUDDY];
    for (int p = 0; p < PASSES; p++) {
        time_workloads(r, micros[p], buddy[p]);
        time_rows(r, row_micros[p], row_full[p]);
        for (int z = 0; z < SIZINGS; z++) time_rows_buddy(r, z, row_buddy[z][p]);
        time_loose_rows(r, loose_micros[p], loose_buddy[p]);
        time_points(points);
        for (int i = 0; i < POINTS * LINES; i++) lines[p][i] = points[i / LINES].micros[i % LINES];
    }
    quietest(&micros[0][0][0][0][0], MEASURED * OPERATIONS * CONDITIONS, &r->micros[0][0][0][0]);
    quietest(&row_micros[0][0][0][0], ROWS * CONDITIONS, &r->row_micros[0][0][0]);
    quietest(&row_full[0][0][0], ROWS, &r->row_full[0][0]);
    quietest(&loose_micros[0][0][0][0], LOOSE * CONDITIONS, &r->loose_micros[0][0][0]);
    best_for_buddy(buddy[0], WORKLOADS, r->buddy);
    best_for_buddy(loose_buddy[0], LOOSE, r->loose_buddy);
    for (int z = 0; z < SIZINGS; z++) best_for_buddy(row_buddy[z][0], ROWS, r->row_buddy[z]);
    quietest(&lines[0][0], POINTS * LINES / SIDES, line);
    for (int i = 0; i < POINTS * LINES; i++) points[i / LINES].micros[i % LINES] = line[i];
}

/* Makes the tables and compares ours with plain C on them. */
static void compare_all(struct results *r)
{
    for (int w = 0; w < ALL_WORKLOADS; w++) {
        struct table t = workload(w);
        for (int op = 0; op < OPERATIONS; op++)
            if (is_called(op, w)) r->calls += compare(&t, op);
        if (w < MEASURED) r->table[w] = t;
        else free(t.bytes);
    }
    for (int i = 0; i < ALL_ROWS; i++) {
        struct two w = row(i);
        r->calls += compare_two(&w);
        if (i < ROWS) r->row[i] = w;
    }
    for (int i = 0; i < ALL_LOOSE + DRAWN_TABLES; i++) {
        struct loose l = i < ALL_LOOSE ? loose_row(i) : drawn(i);
        r->calls += compare_loose(&l);
        if (i < LOOSE) r->loose[i] = l;
        else free_loose(&l);
    }
}

int main(int argc, char **argv)
{
    static struct results r;
    struct point points[POINTS];
    if (argc != 3) return fprintf(stderr, "usage: bench INSTRUCTIONS SVG\n"), 2;
    read_instructions(argv[1], &r);
    compare_all(&r);
    time_all(&r, points);
    FILE *svg = opened(argv[2], "w");
    write_plot(svg, points, POINTS);
    fclose(svg);
    print_report(&r);
    return 0;
}
