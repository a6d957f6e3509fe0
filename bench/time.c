/* Runs every candidate on the sheets that run.py hands over on standard input, and prints what each
   answered and its best time.

   Input, in 8-byte words, group after group: reading, n, how many sheets, how many batches, what the group is about
   (0 whole tables, 1 one column, 2 moving, 3 prices), for each sheet the stage whose column is asked for, or the k of
   the 2^k that it is moved by, or 0, for each sheet n prices, the sheets row by row, in reading 3 each with its n
   weights after it, then for each sheet its matrix A column by column. Output: a line with OpenBLAS's build and
   kernels, or "none"; then for each group a line with the number of its candidates, and for each of them a line with
   the name, a tab and the nanoseconds for one call (0 without batches), and a line for each sheet: 0 or the number of
   the refusal, and the words of the answer in hexadecimal, n × n of a table, n of a column or of prices, and as many
   as the sheet has where it is moved. */
#define _POSIX_C_SOURCE 200809L
#include <stdint.h>
#include <stdio.h>
#include <stdlib.h>
#include <string.h>
#include <time.h>

#include "yulanbowls.h"

enum { LIMIT = 32, MOST = LIMIT * LIMIT + LIMIT, WORKSPACE = 64 * LIMIT, MOST_GROUPS = 256, MOST_CANDIDATES = 22 };
enum { WEIGHTS = 3 };                         /* the reading whose sheets have n weights after their numbers */
enum { TURN = 10 };                           /* batches of a group before the next group has its turn */
enum { IN_SECONDS = 0 };                      /* the e of every sheet: no answer depends on it */
static const double shortest_batch = 20000.0; /* nanoseconds: long beside what a look at the clock costs */

struct group {
    uint64_t reading, n, sheets, batches, about;
    int64_t *asked; /* of each sheet the stage whose column is asked for, or the k that it is moved by */
    double *prices, *numbers, *matrices;
    uint64_t calls[MOST_CANDIDATES]; /* in a batch */
    double best[MOST_CANDIDATES];
};

/* The groups that a candidate takes part in: those about whole tables, those about one column, where whole tables
   stand beside the columns, those about moving, those about prices, again with whole tables beside them, each under
   its number in the input, or those about whole tables that have reading 1 or 3. */
enum part { TABLES, COLUMNS, MOVES, PRICES, TABLES_BUT_MARGINS };

struct candidate {
    const char *name;
    size_t (*call)(const struct group *g, size_t at, double *answer);
    enum part part;
    int n_numbers; /* whether its answer is n numbers */
};

/* How many numbers each sheet of a group has. */
static size_t length_of(const struct group *g)
{
    return g->n * g->n + (g->reading == WEIGHTS ? g->n : 0);
}

static const double *sheet_of(const struct group *g, size_t at)
{
    return &g->numbers[at * length_of(g)];
}

static size_t proved(const struct group *g, size_t at, double *answer)
{
    size_t allowance, row, column;
    return yulanbowls_table(g->reading, g->n, IN_SECONDS, sheet_of(g, at), length_of(g), answer, g->n * g->n,
                            &allowance, &row, &column);
}

static size_t proved_column(const struct group *g, size_t at, double *answer)
{
    size_t allowance, row, column;
    return yulanbowls_column(g->reading, g->n, IN_SECONDS, sheet_of(g, at), length_of(g), (size_t)g->asked[at],
                             answer, g->n, &allowance, &row, &column);
}

static size_t proved_prices(const struct group *g, size_t at, double *answer)
{
    size_t allowance, row, column;
    return yulanbowls_prices(g->reading, g->n, IN_SECONDS, sheet_of(g, at), length_of(g), &g->prices[at * g->n], g->n,
                             answer, g->n, &allowance, &row, &column);
}

static size_t proved_move(const struct group *g, size_t at, double *answer)
{
    size_t row, column, places = length_of(g);
    int64_t moved_e;
    return yulanbowls_move(g->reading, g->n, IN_SECONDS, sheet_of(g, at), places, g->asked[at], answer, places,
                           &moved_e, &row, &column);
}

/* The library of another commit, under other names. */
#ifdef OTHER
size_t other_table(size_t reading, size_t n, int64_t e, const double *sheet, size_t sheet_len, double *answer,
                   size_t answer_len, size_t *allowance, size_t *row, size_t *column);
size_t other_column(size_t reading, size_t n, int64_t e, const double *sheet, size_t sheet_len, size_t stage,
                    double *answer, size_t answer_len, size_t *allowance, size_t *row, size_t *column);
size_t other_move(size_t reading, size_t n, int64_t e, const double *sheet, size_t sheet_len, int64_t k, double *area,
                  size_t area_len, int64_t *moved_e, size_t *row, size_t *column);

size_t other_prices(size_t reading, size_t n, int64_t e, const double *sheet, size_t sheet_len, const double *prices,
                    size_t prices_len, double *answer, size_t answer_len, size_t *allowance, size_t *row,
                    size_t *column);

static size_t other(const struct group *g, size_t at, double *answer)
{
    size_t allowance, row, column;
    return other_table(g->reading, g->n, IN_SECONDS, sheet_of(g, at), length_of(g), answer, g->n * g->n, &allowance,
                       &row, &column);
}

static size_t other_one(const struct group *g, size_t at, double *answer)
{
    size_t allowance, row, column;
    return other_column(g->reading, g->n, IN_SECONDS, sheet_of(g, at), length_of(g), (size_t)g->asked[at], answer,
                        g->n, &allowance, &row, &column);
}

static size_t other_moved(const struct group *g, size_t at, double *answer)
{
    size_t row, column, places = length_of(g);
    int64_t moved_e;
    return other_move(g->reading, g->n, IN_SECONDS, sheet_of(g, at), places, g->asked[at], answer, places, &moved_e,
                      &row, &column);
}

static size_t other_priced(const struct group *g, size_t at, double *answer)
{
    size_t allowance, row, column;
    return other_prices(g->reading, g->n, IN_SECONDS, sheet_of(g, at), length_of(g), &g->prices[at * g->n], g->n,
                        answer, g->n, &allowance, &row, &column);
}
#endif

#define STEPS(suffix)                                                                        \
    int steps_##suffix(size_t n, const double *sheet, double *answer);                       \
    int weighted_##suffix(size_t n, const double *sheet, double *answer);                    \
    static size_t table_##suffix(const struct group *g, size_t at, double *answer)           \
    {                                                                                        \
        const double *sheet = sheet_of(g, at);                                               \
        int done = g->reading == WEIGHTS ? weighted_##suffix(g->n, sheet, answer)            \
                                         : steps_##suffix(g->n, sheet, answer);              \
        return done ? 0 : 10;                                                                \
    }
STEPS(plain_O2)
STEPS(plain_O3)
STEPS(checked_O2)
STEPS(checked_O3)
STEPS(plain_native)

#define COLUMN_STEPS(suffix)                                                                 \
    int column_##suffix(size_t n, const double *sheet, size_t column, double *answer);       \
    static size_t one_##suffix(const struct group *g, size_t at, double *answer)             \
    {                                                                                        \
        return column_##suffix(g->n, sheet_of(g, at), (size_t)g->asked[at] - 1, answer) ? 0 : 10; \
    }
COLUMN_STEPS(plain_O3)
COLUMN_STEPS(checked_O3)

#define PRICE_STEPS(suffix)                                                                  \
    int prices_##suffix(size_t n, const double *sheet, const double *prices, double *answer); \
    static size_t priced_##suffix(const struct group *g, size_t at, double *answer)          \
    {                                                                                        \
        return prices_##suffix(g->n, sheet_of(g, at), &g->prices[at * g->n], answer) ? 0 : 10; \
    }
PRICE_STEPS(plain_O3)
PRICE_STEPS(checked_O3)

/* Weights are not moved. */
#define MOVE(way)                                                                            \
    int way##_plain_O3(size_t n, const double *sheet, int k, double *answer);                \
    static size_t moved_by_##way(const struct group *g, size_t at, double *answer)           \
    {                                                                                        \
        if (g->reading == WEIGHTS)                                                           \
            memcpy(&answer[g->n * g->n], &sheet_of(g, at)[g->n * g->n], g->n * sizeof *answer); \
        return way##_plain_O3(g->n, sheet_of(g, at), (int)g->asked[at], answer) ? 0 : 16;    \
    }
MOVE(move)
MOVE(ldexp)

#ifdef LAPACK
void dgetrf_(const int *m, const int *n, double *a, const int *lda, int *pivots, int *info);
void dgetri_(const int *n, double *a, const int *lda, const int *pivots, double *work, const int *lwork, int *info);
char *openblas_get_config(void);
char *openblas_get_corename(void);

/* The copy of A into place is timed, the forming of A and the workspace are not. The inverse comes column
   by column. */
static size_t lapack(const struct group *g, size_t at, double *answer)
{
    static double work[WORKSPACE];
    static int pivots[LIMIT];
    const int n = (int)g->n, size = WORKSPACE;
    int info;
    memcpy(answer, &g->matrices[at * g->n * g->n], g->n * g->n * sizeof(double));
    dgetrf_(&n, &n, answer, &n, pivots, &info);
    if (info == 0)
        dgetri_(&n, answer, &n, pivots, work, &size, &info);
    return (size_t)info;
}
#endif

static const struct candidate candidates[] = {
    {"yulanbowls", proved, TABLES, 0},
#ifdef OTHER
    {"other library", other, TABLES, 0},
#endif
    {"C -O3", table_plain_O3, TABLES_BUT_MARGINS, 0},
    {"C -O2", table_plain_O2, TABLES_BUT_MARGINS, 0},
    {"checked C -O3", table_checked_O3, TABLES_BUT_MARGINS, 0},
    {"checked C -O2", table_checked_O2, TABLES_BUT_MARGINS, 0},
    {"C -O3 -march=native", table_plain_native, TABLES_BUT_MARGINS, 0},
#ifdef LAPACK
    {"LAPACK", lapack, TABLES, 0},
#endif
    {"yulanbowls, whole table", proved, COLUMNS, 0},
    {"yulanbowls, one column", proved_column, COLUMNS, 1},
#ifdef OTHER
    {"other library, one column", other_one, COLUMNS, 1},
#endif
    {"C -O3, one column", one_plain_O3, COLUMNS, 1},
    {"checked C -O3, one column", one_checked_O3, COLUMNS, 1},
    {"yulanbowls, moving", proved_move, MOVES, 0},
#ifdef OTHER
    {"other library, moving", other_moved, MOVES, 0},
#endif
    {"C -O3, moving", moved_by_move, MOVES, 0},
    {"C -O3, ldexp of each number", moved_by_ldexp, MOVES, 0},
    {"yulanbowls, table alone", proved, PRICES, 0},
    {"yulanbowls, prices", proved_prices, PRICES, 1},
#ifdef OTHER
    {"other library, prices", other_priced, PRICES, 1},
#endif
    {"C -O3, prices", priced_plain_O3, PRICES, 1},
    {"checked C -O3, prices", priced_checked_O3, PRICES, 1},
};
#define CANDIDATES (sizeof candidates / sizeof candidates[0])
_Static_assert(CANDIDATES <= MOST_CANDIDATES, "room for every candidate");

static int takes_part(const struct group *g, size_t c)
{
    if (candidates[c].part == TABLES_BUT_MARGINS)
        return g->about == TABLES && g->reading != 2;
    return g->about == candidates[c].part;
}

/* Nanoseconds of so many calls, the sheets in turn. The round moves the stack, so that a row's best time
   does not hang on where the tables of this one program happen to lie. */
static double batch(const struct group *g, size_t c, uint64_t calls, uint64_t round)
{
    static double answer[MOST];
    volatile char moved[64 * (1 + round % 64)];
    struct timespec start, end;
    moved[0] = 0;
    (void)moved;
    clock_gettime(CLOCK_MONOTONIC, &start);
    for (uint64_t call = 0, at = 0; call < calls; call++) {
        candidates[c].call(g, at, answer);
        at = at + 1 < g->sheets ? at + 1 : 0;
    }
    clock_gettime(CLOCK_MONOTONIC, &end);
    return (double)(end.tv_sec - start.tv_sec) * 1e9 + (double)(end.tv_nsec - start.tv_nsec);
}

/* Every sheet has the same share of a batch. A batch is long enough if it is so several times in a row: the
   first calls of a program are slow. */
static void choose_calls(struct group *g)
{
    for (size_t c = 0; c < CANDIDATES; c++)
        if (takes_part(g, c)) {
            g->calls[c] = g->sheets;
            for (int enough = 0; enough < 3; enough++)
                if (batch(g, c, g->calls[c], 0) < shortest_batch) {
                    g->calls[c] *= 2;
                    enough = -1;
                }
            g->best[c] = 1e18;
        }
}

/* One batch of each candidate, in every second round from the last to the first: after code with wide vectors
   the processor keeps a lower clock for a while, which would always meet the same candidate. */
static void measure(struct group *g, uint64_t round)
{
    for (size_t k = 0; k < CANDIDATES; k++) {
        size_t c = round % 2 == 0 ? k : CANDIDATES - 1 - k;
        if (takes_part(g, c)) {
            double each = batch(g, c, g->calls[c], round) / (double)g->calls[c];
            if (each < g->best[c])
                g->best[c] = each;
        }
    }
}

/* Candidates take turns, and so do groups, until all have had their batches: a slow moment of the machine
   meets all candidates of a group alike, and a longer one does not last for all turns of a group. */
static void measure_all(struct group *groups, size_t count)
{
    int left = 1;
    for (size_t g = 0; g < count; g++)
        if (groups[g].batches > 0)
            choose_calls(&groups[g]);
    for (uint64_t done = 0; left; done += TURN) {
        left = 0;
        for (size_t g = 0; g < count; g++)
            for (uint64_t round = done; round < done + TURN && round < groups[g].batches; round++) {
                measure(&groups[g], round);
                left = 1;
            }
    }
}

static void print_answers(const struct group *g, size_t c)
{
    size_t places = candidates[c].n_numbers ? g->n : g->about == MOVES ? length_of(g) : g->n * g->n;
    for (size_t at = 0; at < g->sheets; at++) {
        double answer[MOST] = {0.0};
        printf("%zu", candidates[c].call(g, at, answer));
        for (size_t place = 0; place < places; place++) {
            uint64_t word;
            memcpy(&word, &answer[place], sizeof word);
            printf(" %016llx", (unsigned long long)word);
        }
        printf("\n");
    }
}

static void print_group(const struct group *g)
{
    int many = 0;
    for (size_t c = 0; c < CANDIDATES; c++)
        many += takes_part(g, c);
    printf("%d\n", many);
    for (size_t c = 0; c < CANDIDATES; c++)
        if (takes_part(g, c)) {
            printf("%s\t%.3f\n", candidates[c].name, g->batches > 0 ? g->best[c] : 0.0);
            print_answers(g, c);
        }
}

/* So many words, or the end of the program. */
static void read_words(void *to, size_t count)
{
    if (fread(to, 8, count, stdin) != count) {
        fprintf(stderr, "time: the input ends inside a group\n");
        exit(2);
    }
}

/* So many words, in memory of their own. */
static void *read_many(size_t count)
{
    void *words = malloc(count * 8);
    if (words == NULL)
        exit(2);
    read_words(words, count);
    return words;
}

/* The next group of the input; 0 at its end. */
static int read_group(struct group *g)
{
    if (fread(&g->reading, 8, 1, stdin) != 1)
        return 0;
    read_words(&g->n, 1);
    read_words(&g->sheets, 1);
    read_words(&g->batches, 1);
    read_words(&g->about, 1);
    if (g->n < 1 || g->n > LIMIT || g->sheets < 1) {
        fprintf(stderr, "time: a group of %zu stages and %zu sheets\n", (size_t)g->n, (size_t)g->sheets);
        exit(2);
    }
    g->asked = read_many(g->sheets);
    g->prices = read_many(g->sheets * g->n);
    g->numbers = read_many(g->sheets * length_of(g));
    g->matrices = read_many(g->sheets * g->n * g->n);
    return 1;
}

int main(void)
{
    static struct group groups[MOST_GROUPS];
    size_t count = 0;
    while (count < MOST_GROUPS && read_group(&groups[count]))
        count++;
    if (count == MOST_GROUPS) {
        fprintf(stderr, "time: too many groups\n");
        return 2;
    }
    measure_all(groups, count);
#ifdef LAPACK
    printf("%s\t%s\n", openblas_get_config(), openblas_get_corename());
#else
    printf("none\n");
#endif
    for (size_t g = 0; g < count; g++)
        print_group(&groups[g]);
    return 0;
}
