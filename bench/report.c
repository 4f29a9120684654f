/* The report: Markdown that reads as plain text too. */
#include "report.h"

#include <stdio.h>
#include <string.h>
#include <unistd.h>

/* Of instructions, ours / plain C. */
#define BAR 1.3
#define PART_WRITE_BAR 1.5
#define LIST_BAR 1.5
#define COUNT_ON_BAR 1.5
#define CLOSEST_BAR 1.5
#define TWO_BAR 2.5
#define PROPER_BAR 1.5
#define LOOSE_BAR 2.0

#define BUDDY_BAR 20.0
#define BUDDY_TWO_BAR 1.0
#define BUDDY_LOOSE_BAR 4.0
#define GROWTH_BAR 1.5      /* ours a record at 65,535 / at 4,000 */
#define SINGLE_BAR 300.0    /* single calls / the list */
#define ROW_BAR (1.0 / 3.0) /* numbers in a row / spread */
#define FEW_BAR 0.25        /* 3 settings on / 31 */

/* The processor's model, of /proc/cpuinfo. */
static void print_machine(void)
{
    char line[256], *model = NULL;
    FILE *f = fopen("/proc/cpuinfo", "r");
    while (f && !model && fgets(line, sizeof line, f))
        if (!strncmp(line, "model name", 10)) model = strchr(line, ':');
    if (f) fclose(f);
    if (model) model[strcspn(model, "\n")] = 0;
    printf("Machine: %s, %ld cores; gcc %s -O3.\n\n", model ? model + 2 : "unknown processor", sysconf(_SC_NPROCESSORS_ONLN),
           __VERSION__);
}

/* The end of a row: its medians, warm and cleared. */
static void print_two_conditions(const double micros[][SIDES])
{
    const double *a = micros[WARM], *c = micros[CLEARED];
    printf(" %9.2f | %10.2f | %5.2f | %12.2f | %13.2f | %5.2f |\n", a[OURS], a[PLAIN], a[OURS] / a[PLAIN], c[OURS], c[PLAIN],
           c[OURS] / c[PLAIN]);
}

static void print_medians(const struct results *r)
{
    printf("## Times\n\n"
           "Medians in µs a call, ours and plain C by turns, of the quietest of five passes; ratio = ours / plain C.\n"
           "Span and part-write: part %d of %d. A list has %d numbers, drawn over the whole count, or neighbours in its middle.\n"
           "Count on: exactly 3 settings on, or 31; its sheet has 64 places a node. Closest: of setups that are one setting off, or\n"
           "two; its sheet has 2 places a node. Of sample A and the wide tables none was found two off.\n"
           "Warm: the same memory again and again. Cleared: before each call sheet and out memory are zeroed, and they,\n"
           "the table and the list are flushed from the caches.\n\n"
           "| table              |     N | operation      | ours warm | plain warm | ratio | ours cleared | plain cleared | ratio |\n"
           "|--------------------|------:|----------------|----------:|-----------:|------:|-------------:|--------------:|------:|\n",
           PART, PARTS, ITEMS);
    for (int w = 0; w < MEASURED; w++)
        for (int op = 0; op < OPERATIONS; op++) {
            if (!is_called(op, w)) continue;
            printf("| %-18s | %5u | %-14s |", r->table[w].name, r->table[w].count, operation_name(op));
            print_two_conditions(r->micros[w][op]);
        }
    printf("\n![rank and part-write against N](bench.svg)\n\n");
}

static void print_instructions(const struct results *r)
{
    printf("## Instructions\n\n"
           "Instructions a call, and a record, counted by callgrind, libc's included: the noise-free ratio.\n\n"
           "| table              | operation      |     ours |  plain C | ours a record | plain C a record | ratio |\n"
           "|--------------------|----------------|---------:|---------:|--------------:|-----------------:|------:|\n");
    for (int w = 0; w < MEASURED; w++)
        for (int op = 0; op < OPERATIONS; op++) {
            const double *i = r->instructions[w][op], records = r->table[w].count;
            if (i[OURS] > 0)
                printf("| %-18s | %-14s | %8.0f | %8.0f | %13.1f | %16.1f | %5.2f |\n", r->table[w].name, operation_name(op),
                       i[OURS], i[PLAIN], i[OURS] / records, i[PLAIN] / records, i[OURS] / i[PLAIN]);
        }
    printf("\n");
}

static void print_buddy(const struct results *r)
{
    printf("## Count beside BuDDy\n\n"
           "The same diagram in BuDDy, in µs. Its whole job: loading from the table's bytes with bdd_ite, and bdd_satcount.\n"
           "bdd_init and bdd_setvarnum are not timed; its tables are sized for it. Ours: count, cleared, by turns with BuDDy.\n"
           "Of five passes this is the one that is best for BuDDy.\n\n"
           "| table       |    whole | satcount |   ours | whole / ours | satcount / ours |\n"
           "|-------------|---------:|---------:|-------:|-------------:|----------------:|\n");
    for (int w = 0; w < WORKLOADS; w++) {
        const double *b = r->buddy[w], ours = b[BESIDE];
        printf("| %-11s | %8.1f | %8.1f | %6.1f | %12.1f | %15.1f |\n", r->table[w].name, b[WHOLE], b[ALONE], ours,
               b[WHOLE] / ours, b[ALONE] / ours);
    }
    printf("\n");
}

/* A line of the bars. `bound` is "≤", "<" or "≥", or empty where no bar was set. */
static void print_bar(const char *operation, const char *what, const char *bound, double bar, double measured)
{
    int holds = !strcmp(bound, "≥") ? measured >= bar : !strcmp(bound, "<") ? measured < bar : measured <= bar;
    if (*bound)
        printf("| %-14s %-38s | %s %6.2f | %8.2f | %-7s |\n", operation, what, bound, bar, measured, holds ? "holds" : "missed");
    else
        printf("| %-14s %-38s |          | %8.2f |         |\n", operation, what, measured);
}

/* The list beside single calls, and what its numbers cost where they are neighbours. */
static void print_list_bars(const struct results *r)
{
    double unrank = r->instructions[WIDE][UNRANK][OURS], span = r->instructions[WIDE][SPAN][OURS];
    double spread = r->instructions[WIDE][LIST_SPREAD][OURS], row = r->instructions[WIDE][LIST_ROW][OURS];
    double singly = r->micros[WIDE][UNRANK][WARM][OURS], at_once = r->micros[WIDE][LIST_SPREAD][WARM][OURS];
    print_bar("list spread", "single unranks / list, instructions", "≥", SINGLE_BAR, ITEMS * unrank / spread);
    print_bar("list spread", "single unranks / list, time warm", "≥", SINGLE_BAR, ITEMS * singly / at_once);
    print_bar("list in a row", "row / spread, instructions", "", 0, row / spread);
    print_bar("list in a row", "row / spread, instructions less span's", "<", ROW_BAR, (row - span) / (spread - span));
}

/* The bar on 31 of 63, and few settings on beside many. */
static void print_count_on_bars(const struct results *r)
{
    double few = r->instructions[WIDE][COUNT_ON_3][OURS], many = r->instructions[WIDE][COUNT_ON_31][OURS];
    const double *exactly = r->instructions[EXACTLY_31][COUNT_ON_31];
    print_bar("count on, 31", "31 of 63: instructions", "≤", COUNT_ON_BAR, exactly[OURS] / exactly[PLAIN]);
    print_bar("count on, 3", "3 on / 31 on, instructions", "≤", FEW_BAR, few / many);
}

/* On the multiples of 1,021, where setups are two off. */
static void print_closest_bars(const struct results *r)
{
    for (int op = CLOSEST_1; op <= CLOSEST_2; op++) {
        const double *i = r->instructions[MULTIPLES_1021][op];
        print_bar(operation_name(op), "multiples of 1,021: instructions", op == CLOSEST_2 ? "≤" : "", CLOSEST_BAR,
                  i[OURS] / i[PLAIN]);
    }
}

/* Whether one was set on the wide table. */
static int has_bar(enum operation op)
{
    return op != LIST_ROW && op != COUNT_ON_3 && !is_closest(op);
}

static double bar_of(enum operation op)
{
    return op == PART_WRITE ? PART_WRITE_BAR : is_list(op) ? LIST_BAR : is_count_on(op) ? COUNT_ON_BAR : BAR;
}

static void print_bars_head(const char *tables, const char *more)
{
    printf("## The bars, on %s\n\n%s"
           "| what                                                  | bar      | measured | verdict |\n"
           "|-------------------------------------------------------|----------|---------:|---------|\n", tables, more);
}

static void print_bars(const struct results *r)
{
    print_bars_head("the wide table", "Instructions: ours / plain C.\n\n");
    for (int op = 0; op < OPERATIONS; op++)
        print_bar(operation_name(op), "instructions", has_bar(op) ? "≤" : "", bar_of(op),
                  r->instructions[WIDE][op][OURS] / r->instructions[WIDE][op][PLAIN]);
    print_list_bars(r);
    print_count_on_bars(r);
    print_closest_bars(r);
    print_bar("count", "BuDDy's whole job / ours", "≥", BUDDY_BAR, r->buddy[WIDE][WHOLE] / r->buddy[WIDE][BESIDE]);
    printf("\n");
}

static void print_two_medians(const struct results *r)
{
    printf("## Two tables made into one\n\n"
           "The pair sheet holds twice the pairs of edges that the tables have. Medians in µs a call, as above.\n\n"
           "| tables                   | pairs | operation | ours warm | plain warm | ratio "
           "| ours cleared | plain cleared | ratio |\n"
           "|--------------------------|------:|-----------|----------:|-----------:|------:"
           "|-------------:|--------------:|------:|\n");
    for (int i = 0; i < ROWS; i++) {
        printf("| %-24s | %5zu | %-9s |", r->row[i].name, r->row[i].pairs, operation_name(r->row[i].op));
        print_two_conditions(r->row_micros[i]);
    }
    printf("\n");
}

static void print_two_full(const struct results *r)
{
    printf("With a pair sheet for just the pairs, warm: the hash table is full in the end, and its last searches are long. (Plain C\n"
           "has two slots for each pair there.)\n\n"
           "| tables                   | operation |     ours | plain C | ours, of that with twice the room |\n"
           "|--------------------------|-----------|---------:|--------:|----------------------------------:|\n");
    for (int i = 0; i < ROWS; i++) {
        const double *f = r->row_full[i];
        printf("| %-24s | %-9s | %8.1f | %7.1f | %33.2f |\n", r->row[i].name, operation_name(r->row[i].op), f[OURS], f[PLAIN],
               f[OURS] / r->row_micros[i][WARM][OURS]);
    }
    printf("\n");
}

static void print_two_instructions(const struct results *r)
{
    printf("Instructions a call, and a pair:\n\n"
           "| tables                   | operation |     ours |  plain C | ours a pair | plain C a pair | ratio |\n"
           "|--------------------------|-----------|---------:|---------:|------------:|---------------:|------:|\n");
    for (int i = 0; i < ROWS; i++) {
        const double *a = r->row_instructions[i], pairs = (double)r->row[i].pairs;
        printf("| %-24s | %-9s | %8.0f | %8.0f | %11.1f | %14.1f | %5.2f |\n", r->row[i].name, operation_name(r->row[i].op),
               a[OURS], a[PLAIN], a[OURS] / pairs, a[PLAIN] / pairs, a[OURS] / a[PLAIN]);
    }
    printf("\n");
}

static const char *const sizing_names[] = {"fitted", "roomy"};

static void print_two_buddy(const struct results *r)
{
    printf("Beside BuDDy, in µs, as for count. Its whole job: loading both diagrams from the tables' bytes, and bdd_apply. Fitted:\n"
           "with nodes and cache entries by the number of pairs, which is best for it and known only afterwards. Roomy: with\n"
           "1,000,000 nodes and 100,000 entries for every row. Plain C / whole: its time, cleared, of BuDDy's.\n\n"
           "| BuDDy  | tables                   | operation |    whole |    apply |     ours | whole / ours | apply / ours | plain C / whole |\n"
           "|--------|--------------------------|-----------|---------:|---------:|---------:|-------------:|-------------:|----------------:|\n");
    for (int z = 0; z < SIZINGS; z++)
        for (int i = 0; i < ROWS; i++) {
            const double *b = r->row_buddy[z][i], ours = b[BESIDE];
            printf("| %-6s | %-24s | %-9s | %8.1f | %8.1f | %8.1f | %12.2f | %12.2f | %15.2f |\n", sizing_names[z], r->row[i].name,
                   operation_name(r->row[i].op), b[WHOLE], b[ALONE], ours, b[WHOLE] / ours, b[ALONE] / ours,
                   r->row_micros[i][CLEARED][PLAIN] / b[WHOLE]);
        }
    printf("\n");
}

/* A bar of two tables, which are named with it. */
static void print_two_bar(const struct two *w, const char *what, const char *bound, double bar, double measured)
{
    char named[64];
    snprintf(named, sizeof named, "%s: %s", w->name, what);
    print_bar(operation_name(w->op), named, bound, bar, measured);
}

static void print_two_bars(const struct results *r)
{
    print_bars_head("two tables", "Instructions: ours / plain C. BuDDy: its whole job / ours.\n\n");
    for (int i = 0; i < ROWS; i++)
        print_two_bar(&r->row[i], "instructions", "≤", TWO_BAR, r->row_instructions[i][OURS] / r->row_instructions[i][PLAIN]);
    for (int z = SIZINGS - 1; z >= 0; z--)
        for (int i = 0; i < ROWS; i++) {
            char what[32];
            snprintf(what, sizeof what, "%s BuDDy", sizing_names[z]);
            print_two_bar(&r->row[i], what, "≥", BUDDY_TWO_BAR, r->row_buddy[z][i][WHOLE] / r->row_buddy[z][i][BESIDE]);
        }
    printf("\n");
}

static void print_loose_medians(const struct results *r)
{
    printf("## Loose tables made proper\n\n"
           "Proper 65,535 is wide 65,535 as it is, and shuffled 65,535 the same with its records in random order, about half of them\n"
           "turned, with the flags of all edges to them; the mixed table has repeats, unused records and equal edges too. N: records of\n"
           "the loose table, N': of the proper one. Medians in µs a call, as above.\n\n"
           "| table           |     N |    N' | ours warm | plain warm | ratio | ours cleared | plain cleared | ratio |\n"
           "|-----------------|------:|------:|----------:|-----------:|------:|-------------:|--------------:|------:|\n");
    for (int i = 0; i < LOOSE; i++) {
        printf("| %-15s | %5u | %5u |", r->loose[i].table.name, r->loose[i].table.count, r->loose[i].proper.count);
        print_two_conditions(r->loose_micros[i]);
    }
    printf("\n");
}

/* Instructions a record of the loose table. */
static double a_record(const struct results *r, enum loose_row i, enum side side)
{
    return r->loose_instructions[i][side] / r->loose[i].table.count;
}

static void print_loose_instructions(const struct results *r)
{
    printf("Instructions a call, and a record of the loose table:\n\n"
           "| table           |     ours |  plain C | ours a record | plain C a record | ratio |\n"
           "|-----------------|---------:|---------:|--------------:|-----------------:|------:|\n");
    for (int i = 0; i < LOOSE; i++) {
        const double *a = r->loose_instructions[i];
        printf("| %-15s | %8.0f | %8.0f | %13.1f | %16.1f | %5.2f |\n", r->loose[i].table.name, a[OURS], a[PLAIN],
               a_record(r, i, OURS), a_record(r, i, PLAIN), a[OURS] / a[PLAIN]);
    }
    printf("\n");
}

static void print_loose_buddy(const struct results *r)
{
    printf("Beside BuDDy, in µs, as for count. Its whole job: putting the records in order of height, and loading them with bdd_ite\n"
           "from the lowest up. Making: bdd_init and bdd_setvarnum, which the whole job does not count here either. Plain C / whole: its\n"
           "time, cleared, of BuDDy's.\n\n"
           "| table           |   making |    whole |     ours | whole / ours | with making / ours | plain C / whole |\n"
           "|-----------------|---------:|---------:|---------:|-------------:|-------------------:|----------------:|\n");
    for (int i = 0; i < LOOSE; i++) {
        const double *b = r->loose_buddy[i], ours = b[BESIDE];
        printf("| %-15s | %8.1f | %8.1f | %8.1f | %12.2f | %18.2f | %15.2f |\n", r->loose[i].table.name, b[MAKING], b[WHOLE], ours,
               b[WHOLE] / ours, (b[WHOLE] + b[MAKING]) / ours, r->loose_micros[i][CLEARED][PLAIN] / b[WHOLE]);
    }
    printf("\n");
}

static void print_loose_bar(const struct results *r, enum loose_row i, const char *what, const char *bound, double bar,
                            double measured)
{
    char named[64];
    snprintf(named, sizeof named, "%s: %s", r->loose[i].table.name, what);
    print_bar(operation_name(MAKE_PROPER), named, bound, bar, measured);
}

static void print_loose_bars(const struct results *r)
{
    print_bars_head("loose tables", "Instructions: ours / plain C. Growth: ours a record / ours a record of shuffled 4,000. BuDDy: "
                                    "its whole job / ours.\n\n");
    for (int i = 0; i < LOOSE; i++)
        print_loose_bar(r, i, "instructions", i == PROPER || i == SHUFFLED ? "≤" : "", i == PROPER ? PROPER_BAR : LOOSE_BAR,
                        r->loose_instructions[i][OURS] / r->loose_instructions[i][PLAIN]);
    for (int i = SHUFFLED_16000; i <= SHUFFLED; i++)
        print_loose_bar(r, i, "growth", i == SHUFFLED ? "≤" : "", GROWTH_BAR,
                        a_record(r, i, OURS) / a_record(r, SHUFFLED_4000, OURS));
    for (int i = 0; i < LOOSE; i++)
        print_loose_bar(r, i, "BuDDy", i == SHUFFLED ? "≥" : "", BUDDY_LOOSE_BAR,
                        r->loose_buddy[i][WHOLE] / r->loose_buddy[i][BESIDE]);
}

void print_report(const struct results *r)
{
    printf("# The bench\n\n");
    print_machine();
    printf("In %u calls ours and plain C gave the same answers and left the same bytes; BuDDy counts the same.\n\n", r->calls);
    print_medians(r);
    print_instructions(r);
    print_buddy(r);
    print_two_medians(r);
    print_two_full(r);
    print_two_instructions(r);
    print_two_buddy(r);
    print_loose_medians(r);
    print_loose_instructions(r);
    print_loose_buddy(r);
    print_bars(r);
    print_two_bars(r);
    print_loose_bars(r);
}
