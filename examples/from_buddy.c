/*
 * From a BDD package to a table: the rules of a slide scanner as a BDD of BuDDy, its nodes written as
 * a loose table in the order in which they are met, that made proper, and its first setups listed.
 *     gcc examples/from_buddy.c $(pkg-config --cflags --libs setupbook) -lbdd -o target/from_buddy
 */
#include <bdd.h>
#include <inttypes.h>
#include <stdio.h>
#include <stdlib.h>

#include "setupbook.h"

/* How many setups are listed. */
#define LISTED 6

/* The settings from the first to the last; BuDDy's variables have the same numbers. */
enum { BRIGHTFIELD, FLUORESCENCE, X20, X40, OIL, AUTOFOCUS, STACK, MIRROR_1, MIRROR_4 = MIRROR_1 + 3, SETTINGS };
static const char *const names[] = {"brightfield", "fluorescence", "20x", "40x", "oil", "autofocus", "stack",
                                    "mirror 1", "mirror 2", "mirror 3", "mirror 4"};

/* `so_far` with one more. BuDDy keeps only what has a reference. */
static BDD with(BDD so_far, BDD more, int operation)
{
    BDD made = bdd_addref(bdd_apply(so_far, more, operation));
    bdd_delref(so_far);
    return made;
}

static BDD scanner_rules(void)
{
    BDD rules = bddtrue;
    int i;
    for (i = MIRROR_1; i <= MIRROR_4; i++) /* each turns the picture over: an even number is in */
        rules = with(rules, bdd_ithvar(i), bddop_xor);
    rules = with(rules, bdd_xor(bdd_ithvar(BRIGHTFIELD), bdd_ithvar(FLUORESCENCE)), bddop_and);
    rules = with(rules, bdd_xor(bdd_ithvar(X20), bdd_ithvar(X40)), bddop_and);
    rules = with(rules, bdd_imp(bdd_ithvar(OIL), bdd_ithvar(X40)), bddop_and);
    return with(rules, bdd_imp(bdd_ithvar(STACK), bdd_ithvar(AUTOFOCUS)), bddop_and);
}

/* A table as it is written, and the record of each of BuDDy's nodes, 0 if it has none yet. */
struct loose {
    uint8_t *table;
    uint64_t records, *number;
};

/* Word k: 8 bytes, most significant first. */
static void put_word(struct loose *loose, uint64_t k, uint64_t upper, uint64_t middle, uint64_t lower)
{
    uint64_t word = upper << 58 | middle << 29 | lower;
    int byte;
    for (byte = 7; byte >= 0; byte--, word >>= 8)
        loose->table[8 * k + byte] = (uint8_t)word;
}

/* The sink is `true`, and a flagged edge to it `false`. BuDDy has no other flags. */
static uint64_t edge_to(const struct loose *loose, BDD node)
{
    return node == bddtrue ? 0 : node == bddfalse ? 1 : 2 * loose->number[node];
}

/* The records of a node and of all that it leads to. */
static void write_node(struct loose *loose, BDD node)
{
    if (node == bddtrue || node == bddfalse || loose->number[node] != 0)
        return;
    loose->number[node] = ++loose->records;
    write_node(loose, bdd_high(node));
    write_node(loose, bdd_low(node));
    put_word(loose, loose->number[node], (uint64_t)(SETTINGS - bdd_var(node)),
             edge_to(loose, bdd_high(node)), edge_to(loose, bdd_low(node)));
}

/* Lists the first setups. 1 if the table has `count` of them: the last one is there, and none after it (14). */
static int list(const uint8_t *table, size_t len, uint8_t *sheet, size_t sheet_len, uint64_t count)
{
    uint64_t rank, setup;
    int i;
    for (rank = 0; rank < LISTED && rank < count; rank++) {
        setup = setupbook_unrank(table, len, rank, sheet, sheet_len);
        printf("%" PRIu64 ":", rank);
        for (i = 0; i < SETTINGS; i++)
            if (setup >> (SETTINGS - 1 - i) & 1)
                printf(" %s", names[i]);
        putchar('\n');
    }
    return !setupbook_is_refusal(setupbook_unrank(table, len, count - 1, sheet, sheet_len))
        && setupbook_refusal(setupbook_unrank(table, len, count, sheet, sheet_len)) == 14;
}

int main(void)
{
    static uint8_t proper[SETUPBOOK_LONGEST];
    bdd_init(10000, 1000);
    bdd_setvarnum(SETTINGS);
    BDD rules = scanner_rules();

    size_t len = 8 * ((size_t)bdd_nodecount(rules) + 1), sheet_len = setupbook_loose_sheet_len(len);
    struct loose loose = {malloc(len), 0, calloc((size_t)bdd_getallocnum(), sizeof(uint64_t))};
    uint8_t *sheet = malloc(sheet_len);
    if (loose.table == NULL || loose.number == NULL || sheet == NULL)
        return 1;
    write_node(&loose, rules);
    put_word(&loose, 0, SETTINGS, loose.records, edge_to(&loose, rules));

    uint64_t answer[3];
    uint64_t refusal = setupbook_make_proper(loose.table, len, sheet, sheet_len, proper, sizeof proper, answer);
    if (refusal != 0) {
        printf("refused %" PRIu64 " at %" PRIu64 "\n", refusal, answer[0]);
        return 1;
    }
    printf("loose: %" PRIu64 " records, proper: %" PRIu64 "\n", loose.records, answer[0] / 8 - 1);
    uint64_t count = (uint64_t)bdd_satcount(rules); /* a double: exact below 2^53 */
    int same = list(proper, (size_t)answer[0], sheet, sheet_len, count);
    printf("BuDDy counts %" PRIu64 " setups, the table has %s\n", count, same ? "as many" : "not as many");
    free(loose.table);
    free(loose.number);
    free(sheet);
    bdd_done();
    return same ? 0 : 1;
}
