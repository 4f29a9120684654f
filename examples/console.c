/*
 * A console over one table: `console TABLEFILE [FOLDER]` reads commands from standard input, one a
 * line of at most 99 characters.
 *     number RANK     prints the setup with this rank, as n binary digits
 *     numbers FILE    prints the setups of a file of ranks, one a line and none below the one before
 *                     it, by one call
 *     setup DIGITS    prints the rank of the setup with these binary digits
 *     on M            prints how many permitted setups have exactly M settings on
 *     why DIGITS      prints the first settings of the setup with these binary digits by which it is
 *                     ruled out, and the smallest permitted setup that agrees in all but the last of
 *                     them; or `permitted`, or `nothing is permitted`
 *     closest DIGITS  prints the permitted setup that differs from the one with these binary digits in
 *                     the fewest settings, and in how many it differs
 *     parts K         writes the K parts of the table to FOLDER (or here), as part0.table,
 *                     part1.table, ..., reads them back and lists the first setups of each: its
 *                     rank in the part, its digits and its rank in the whole table
 *     join FILE       makes this table and the one in the file into one, of the setups of either, and
 *                     lists its first setups: its rank in the result, and its digits
 *     share FILE      the same of the setups of both
 *     without FILE    the same of the setups of this table that are not in the other
 * A refusal is printed as `refused 14 at 0`, one of the other table as `refused 4 at 2 of table 2`.
 * Any other line is answered by `what?`, and so is a file with a line that is no number. If there are
 * no settings, `-` stands for the digits of the only setup.
 */
#include <inttypes.h>
#include <limits.h>
#include <stdio.h>
#include <stdlib.h>
#include <string.h>

#include "setupbook.h"

/* How many setups of a part are listed. */
#define LISTED 4

/* Memory for a line that is read. */
#define LINE 100

struct book {
    uint8_t *table;
    size_t table_len;
    uint8_t *sheet; /* long enough for every call but count-on */
    size_t sheet_len;
};

/* Memory of exactly this length, or of one byte for none. */
static uint8_t *allocate(size_t len)
{
    return malloc(len > 0 ? len : 1);
}

static size_t longer(size_t a, size_t b)
{
    return a > b ? a : b;
}

/* The length of a file, or -1. A directory may claim LONG_MAX. */
static long length_of(FILE *file)
{
    long len = fseek(file, 0, SEEK_END) == 0 ? ftell(file) : -1;
    return len < LONG_MAX && fseek(file, 0, SEEK_SET) == 0 ? len : -1;
}

/* 1 if the file could be read whole. The book is to be freed in either case. */
static int read_book(struct book *book, const char *path)
{
    int done = 0;
    FILE *file = fopen(path, "rb");
    long len = file != NULL ? length_of(file) : -1;
    book->table = book->sheet = NULL;
    if (len >= 0) {
        book->table_len = (size_t)len;
        book->table = allocate(book->table_len);
        book->sheet_len = longer(setupbook_sheet_len(book->table_len),
                                 setupbook_closest_sheet_len(book->table_len));
        book->sheet = allocate(book->sheet_len);
        done = book->table != NULL && book->sheet != NULL
            && fread(book->table, 1, book->table_len, file) == book->table_len;
    }
    if (file != NULL)
        fclose(file);
    if (!done)
        fprintf(stderr, "console: cannot read %s\n", path);
    return done;
}

static void free_book(struct book *book)
{
    free(book->table);
    free(book->sheet);
}

/* 1 if the file could be written whole. */
static int write_file(const char *path, const uint8_t *bytes, size_t len)
{
    FILE *file = fopen(path, "wb");
    int done = file != NULL && fwrite(bytes, 1, len, file) == len;
    if (file != NULL && fclose(file) != 0)
        done = 0;
    if (!done)
        fprintf(stderr, "console: cannot write %s\n", path);
    return done;
}

/* n is in the upper six bits of the header. */
static unsigned settings(const struct book *book)
{
    return book->table_len > 0 ? book->table[0] / 4u : 0;
}

static uint64_t rank_of(const struct book *book, uint64_t setup)
{
    return setupbook_rank(book->table, book->table_len, setup, book->sheet, book->sheet_len);
}

static uint64_t setup_of(const struct book *book, uint64_t rank)
{
    return setupbook_unrank(book->table, book->table_len, rank, book->sheet, book->sheet_len);
}

/* 1 if all of the text is a number in this base, below 2^64. */
static int parse(const char *text, unsigned base, uint64_t *number)
{
    if (*text == '\0')
        return 0;
    for (*number = 0; *text != '\0'; text++) {
        unsigned digit = (unsigned)(*text - '0');
        if (*text < '0' || digit >= base || *number > (UINT64_MAX - digit) / base)
            return 0;
        *number = *number * base + digit;
    }
    return 1;
}

/* Reads a line, without its newline; one that does not fit is read as empty. 0 if there is none. */
static int read_line(FILE *file, char *line)
{
    size_t len = 0;
    int c = getc(file);
    if (c == EOF)
        return 0;
    for (; c != EOF && c != '\n'; c = getc(file))
        if (len < LINE)
            line[len++] = (char)c;
    line[len < LINE ? len : 0] = '\0';
    return 1;
}

static void print_refused(uint64_t refusal, uint64_t place)
{
    printf("refused %" PRIu64 " at %" PRIu64 "\n", refusal, place);
}

static void print_refusal(uint64_t answer)
{
    print_refused(setupbook_refusal(answer), setupbook_place(answer));
}

static void print_setup(uint64_t setup, unsigned n)
{
    if (n == 0)
        putchar('-');
    while (n > 0)
        putchar(setup >> --n & 1 ? '1' : '0');
}

static void print_line(const struct book *book, uint64_t setup)
{
    print_setup(setup, settings(book));
    putchar('\n');
}

static void answer_number(const struct book *book, uint64_t rank)
{
    uint64_t answer = setup_of(book, rank);
    if (setupbook_is_refusal(answer))
        print_refusal(answer);
    else
        print_line(book, answer);
}

static void answer_setup(const struct book *book, uint64_t setup)
{
    uint64_t answer = rank_of(book, setup);
    if (setupbook_is_refusal(answer))
        print_refusal(answer);
    else
        printf("%" PRIu64 "\n", answer);
}

/* The sheet for it is 64 times as long as the table, so it is lent for this call alone. */
static void answer_on(const struct book *book, uint64_t m)
{
    size_t len = setupbook_count_sheet_len(book->table_len);
    uint8_t *sheet = allocate(len);
    uint64_t answer[3], refusal;
    if (sheet == NULL)
        return;
    refusal = setupbook_count_on(book->table, book->table_len, m, sheet, len, answer);
    if (refusal != 0)
        print_refused(refusal, answer[0]);
    else
        printf("%" PRIu64 "\n", answer[0]);
    free(sheet);
}

static void answer_why(const struct book *book, uint64_t setup)
{
    uint64_t answer[3];
    uint64_t refusal = setupbook_ruled_out(book->table, book->table_len, setup,
                                           book->sheet, book->sheet_len, answer);
    unsigned n = settings(book), p = (unsigned)answer[1];
    if (refusal != 0)
        print_refused(refusal, answer[0]);
    else if (answer[0] == 0)
        puts("permitted");
    else if (answer[0] == 1)
        puts("nothing is permitted");
    else {
        print_setup(setup >> (n - p), p);
        putchar(' ');
        print_line(book, answer[2]);
    }
}

static void answer_closest(const struct book *book, uint64_t setup)
{
    uint64_t answer[3];
    uint64_t refusal = setupbook_closest(book->table, book->table_len, setup,
                                         book->sheet, book->sheet_len, answer);
    if (refusal != 0)
        print_refused(refusal, answer[0]);
    else {
        print_setup(answer[0], settings(book));
        printf(" %" PRIu64 "\n", answer[1]);
    }
}

/* Item i of a list: 8 bytes, most significant first. */
static void put_item(uint8_t *list, size_t i, uint64_t number)
{
    int byte;
    for (byte = 7; byte >= 0; byte--, number >>= 8)
        list[8 * i + byte] = (uint8_t)number;
}

static uint64_t item_of(const uint8_t *list, size_t i)
{
    uint64_t number = 0;
    int byte;
    for (byte = 0; byte < 8; byte++)
        number = number << 8 | list[8 * i + byte];
    return number;
}

/* 1 if the file could be read. It is at its start again afterwards. */
static int count_lines(FILE *file, size_t *lines)
{
    char line[LINE];
    for (*lines = 0; read_line(file, line); ++*lines)
        ;
    return !ferror(file) && fseek(file, 0, SEEK_SET) == 0;
}

/* 1 if the next lines of the file are as many ranks. */
static int read_ranks(FILE *file, uint8_t *ranks, size_t items)
{
    char line[LINE];
    uint64_t rank;
    size_t i;
    for (i = 0; i < items; i++) {
        if (!read_line(file, line) || !parse(line, 10, &rank))
            return 0;
        put_item(ranks, i, rank);
    }
    return 1;
}

/* One call for the whole list. */
static void answer_list(const struct book *book, const uint8_t *ranks, uint8_t *setups, size_t items)
{
    uint64_t answer[3];
    uint64_t refusal = setupbook_unrank_list(book->table, book->table_len, ranks, 8 * items,
                                             book->sheet, book->sheet_len, setups, 8 * items, answer);
    size_t i;
    if (refusal != 0)
        print_refused(refusal, answer[0]);
    else
        for (i = 0; i < items; i++)
            print_line(book, item_of(setups, i));
}

static void answer_numbers(const struct book *book, const char *path)
{
    FILE *file = fopen(path, "r");
    size_t items = 0;
    int readable = file != NULL && count_lines(file, &items);
    uint8_t *ranks = allocate(8 * items), *setups = allocate(8 * items);
    if (!readable || ranks == NULL || setups == NULL)
        fprintf(stderr, "console: cannot read %s\n", path);
    else if (read_ranks(file, ranks, items))
        answer_list(book, ranks, setups, items);
    else
        puts("what?");
    free(ranks);
    free(setups);
    if (file != NULL)
        fclose(file);
}

/* Lists the first setups of a part, with their ranks in the whole if there is one, and `more` if some
 * are left. */
static void list_part(const struct book *whole, const struct book *part)
{
    uint64_t rank, setup;
    for (rank = 0; rank < LISTED; rank++) {
        setup = setup_of(part, rank);
        if (setupbook_is_refusal(setup)) /* 14: that was the last one */
            return;
        printf("%" PRIu64 " ", rank);
        print_setup(setup, settings(part));
        if (whole != NULL)
            printf(" %" PRIu64, rank_of(whole, setup));
        putchar('\n');
    }
    if (!setupbook_is_refusal(setup_of(part, rank)))
        puts("more");
}

/* Writes part j of k to a file and lists it from there. 1 if that could be done. */
static int answer_part(const struct book *book, uint64_t k, uint64_t j, const char *path)
{
    static uint8_t out[SETUPBOOK_LONGEST];
    uint64_t answer = setupbook_part_write(book->table, book->table_len, k, j,
                                           book->sheet, book->sheet_len, out, sizeof out);
    struct book part;
    int done;
    if (setupbook_is_refusal(answer)) {
        print_refusal(answer);
        return 0;
    }
    if (!write_file(path, out, (size_t)answer))
        return 0;
    done = read_book(&part, path);
    if (done) {
        printf("part %" PRIu64 " of %" PRIu64 ": %" PRIu64 " bytes\n", j, k, answer);
        list_part(book, &part);
    }
    free_book(&part);
    return done;
}

static void answer_parts(const struct book *book, uint64_t k, const char *folder)
{
    size_t size = strlen(folder) + sizeof "/part18446744073709551615.table";
    char *path = malloc(size);
    uint64_t j = 0;
    if (path == NULL)
        return;
    do { /* once at least, so that k = 0 is refused */
        snprintf(path, size, "%s/part%" PRIu64 ".table", folder, j);
    } while (answer_part(book, k, j, path) && ++j < k);
    free(path);
}

typedef uint64_t operation(const uint8_t *, size_t, uint8_t *, size_t, const uint8_t *, size_t,
                           uint8_t *, size_t, uint8_t *, size_t, uint8_t *, size_t, uint64_t *);

/* The result in `out`, with a pair sheet that grows until the pairs have room (20 says that they have
 * not). The refusal, or 0; 20 if there is no memory for more. */
static uint64_t combine(operation *make, const struct book *book, const struct book *other,
                        uint8_t *out, uint64_t *answer)
{
    uint64_t refusal = 20;
    size_t len;
    for (len = 32; refusal == 20 && len <= SIZE_MAX / 4; len *= 4) {
        uint8_t *pairs = allocate(len);
        if (pairs == NULL)
            return refusal;
        refusal = make(book->table, book->table_len, book->sheet, book->sheet_len,
                       other->table, other->table_len, other->sheet, other->sheet_len,
                       pairs, len, out, SETUPBOOK_LONGEST, answer);
        free(pairs);
    }
    return refusal;
}

static void answer_combined(operation *make, const struct book *book, const char *path)
{
    static uint8_t out[SETUPBOOK_LONGEST];
    uint64_t answer[3] = {0, 0, 0}, refusal;
    struct book other, result;
    if (read_book(&other, path)) {
        refusal = combine(make, book, &other, out, answer);
        if (refusal != 0) {
            printf("refused %" PRIu64 " at %" PRIu64, refusal, answer[0]);
            if (answer[1] == 2)
                printf(" of table 2");
            putchar('\n');
        } else {
            printf("%" PRIu64 " bytes\n", answer[0]);
            result.table = out;
            result.table_len = (size_t)answer[0];
            result.sheet_len = setupbook_sheet_len(result.table_len);
            result.sheet = allocate(result.sheet_len);
            if (result.sheet != NULL)
                list_part(NULL, &result);
            free(result.sheet);
        }
    }
    free_book(&other);
}

static void answer_line(const struct book *book, const char *folder, const char *line)
{
    uint64_t given;
    if (strncmp(line, "number ", 7) == 0 && parse(line + 7, 10, &given))
        answer_number(book, given);
    else if (strncmp(line, "numbers ", 8) == 0)
        answer_numbers(book, line + 8);
    else if (strncmp(line, "setup ", 6) == 0 && parse(line + 6, 2, &given))
        answer_setup(book, given);
    else if (strcmp(line, "setup -") == 0 && settings(book) == 0)
        answer_setup(book, 0);
    else if (strncmp(line, "on ", 3) == 0 && parse(line + 3, 10, &given))
        answer_on(book, given);
    else if (strncmp(line, "why ", 4) == 0 && parse(line + 4, 2, &given))
        answer_why(book, given);
    else if (strcmp(line, "why -") == 0 && settings(book) == 0)
        answer_why(book, 0);
    else if (strncmp(line, "closest ", 8) == 0 && parse(line + 8, 2, &given))
        answer_closest(book, given);
    else if (strcmp(line, "closest -") == 0 && settings(book) == 0)
        answer_closest(book, 0);
    else if (strncmp(line, "parts ", 6) == 0 && parse(line + 6, 10, &given))
        answer_parts(book, given, folder);
    else if (strncmp(line, "join ", 5) == 0)
        answer_combined(setupbook_join, book, line + 5);
    else if (strncmp(line, "share ", 6) == 0)
        answer_combined(setupbook_share, book, line + 6);
    else if (strncmp(line, "without ", 8) == 0)
        answer_combined(setupbook_without, book, line + 8);
    else
        puts("what?");
}

int main(int argc, char **argv)
{
    struct book book;
    char line[LINE];
    int readable;

    if (argc != 2 && argc != 3) {
        fprintf(stderr, "usage: console TABLEFILE [FOLDER]\n");
        return 1;
    }
    readable = read_book(&book, argv[1]);
    while (readable && read_line(stdin, line))
        answer_line(&book, argc == 3 ? argv[2] : ".", line);
    free_book(&book);
    return readable ? 0 : 1;
}
