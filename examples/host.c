/*
 * Prints the table of a sheet file, and times that follow from it, by the proved library: host FILE, or host < FILE.
 * With host FILE COPY the sheet that was loaded is saved as COPY too. With host FILE COPY K it is moved to another
 * time unit first, every number but the weights times 2^K: K = -10 makes rates per second rates per tick, at 1,024
 * ticks a second, and the copy says so.
 *
 *   (cd crates/hosts_c && rt lib)
 *   mkdir -p target/staticlib && cp crates/hosts_c/out/libhosts_c.a target/staticlib/libhosts.a
 *   cc -std=c99 -Wall -Wextra -pedantic -I include examples/host.c target/staticlib/libhosts.a -o target/host
 *   python3 tools/sheet.py make examples/signing.txt | target/host
 *
 * The first line says the unit of all times: 2^0 seconds are seconds. The numbers are printed with 17 digits, which
 * read back as the same numbers. A refusal is printed as its number, row and column, with exit status 1.
 */
#include <errno.h>
#include <inttypes.h>
#include <stdio.h>
#include <stdlib.h>

#include "yulanbowls.h"

/* A sheet as it was loaded or moved: rates are per unit of 2^e seconds, and times in that unit. In reading 3 weights
 * follow the n * n numbers. */
struct sheet {
    size_t reading, n;
    int64_t e;
    double numbers[YULANBOWLS_SHEET_NUMBERS];
};

static size_t count_numbers(const struct sheet *s)
{
    return s->n * s->n + (s->reading == 3 ? s->n : 0);
}

/* What a call is refused with. */
struct refusal {
    size_t number, row, column;
};

static int print_refusal(const struct refusal *no)
{
    printf("refused %zu %zu %zu\n", no->number, no->row, no->column);
    return 1;
}

static void print_table(const struct sheet *s, const double *table, size_t allowance)
{
    printf("times in units of 2^%" PRId64 " seconds\n", s->e);
    for (size_t i = 0; i < s->n; i++) {
        for (size_t j = 0; j < s->n; j++) {
            printf("%s%.17g", j == 0 ? "" : " ", table[i * s->n + j]);
        }
        printf("\n");
    }
    printf("each within a factor (1 + 2^-53)^%zu of the exact number\n", allowance);
}

/* The time at the last stage of a request that enters at the first. */
static int print_last(const struct sheet *s)
{
    double time;
    struct refusal no;

    no.number = yulanbowls_entry(s->reading, s->n, s->e, s->numbers, count_numbers(s), 1, s->n, &time, &no.row,
                                 &no.column);
    if (no.number != 0) {
        return print_refusal(&no);
    }
    printf("stage 1 to stage %zu: %.17g\n", s->n, time);
    return 0;
}

static void print_times(const double *times, size_t n)
{
    for (size_t i = 0; i < n; i++) {
        printf(" %.17g", times[i]);
    }
    printf("\n");
}

/* The times at the last stage from every stage, for a sheet of reading 1: a column of the table by itself. */
static int print_column(const struct sheet *s)
{
    double times[YULANBOWLS_STAGES];
    size_t allowance;
    struct refusal no;

    no.number = yulanbowls_column(s->reading, s->n, s->e, s->numbers, count_numbers(s), s->n, times,
                                  YULANBOWLS_STAGES, &allowance, &no.row, &no.column);
    if (no.number != 0) {
        return print_refusal(&no);
    }
    printf("at stage %zu from each stage:", s->n);
    print_times(times, s->n);
    return 0;
}

/* The times at all stages together, from every stage: the price of a request where each unit of time costs 1. */
static int print_totals(const struct sheet *s)
{
    double prices[YULANBOWLS_STAGES], times[YULANBOWLS_STAGES];
    size_t allowance;
    struct refusal no;

    for (size_t j = 0; j < s->n; j++) {
        prices[j] = 1.0;
    }
    no.number = yulanbowls_prices(s->reading, s->n, s->e, s->numbers, count_numbers(s), prices, s->n, times,
                                  YULANBOWLS_STAGES, &allowance, &no.row, &no.column);
    if (no.number != 0) {
        return print_refusal(&no);
    }
    printf("at all stages from each stage:");
    print_times(times, s->n);
    return 0;
}

static int print_sheet(const struct sheet *s)
{
    double table[YULANBOWLS_NUMBERS];
    size_t allowance;
    struct refusal no;

    no.number = yulanbowls_table(s->reading, s->n, s->e, s->numbers, count_numbers(s), table, YULANBOWLS_NUMBERS,
                                 &allowance, &no.row, &no.column);
    if (no.number != 0) {
        return print_refusal(&no);
    }
    print_table(s, table, allowance);
    if (print_last(s) != 0 || (s->reading == 1 && print_column(s) != 0)) {
        return 1;
    }
    return print_totals(s);
}

static int save_sheet(const struct sheet *s, const char *name)
{
    uint8_t bytes[YULANBOWLS_FILE_BYTES];
    size_t length;
    struct refusal no;
    FILE *to;
    int done;

    no.number = yulanbowls_save_numbers(s->reading, s->n, s->e, s->numbers, count_numbers(s), bytes, sizeof bytes,
                                        &length, &no.row, &no.column);
    if (no.number != 0) {
        return print_refusal(&no);
    }
    if ((to = fopen(name, "wb")) == NULL) {
        perror(name);
        return 2;
    }
    done = fwrite(bytes, 1, length, to) == length;
    if (fclose(to) != 0 || !done) {
        perror(name);
        return 2;
    }
    return 0;
}

/* The copy has the unit that the move hands over. */
static int save_moved(const struct sheet *s, int64_t k, const char *name)
{
    struct sheet moved;
    struct refusal no;

    moved.reading = s->reading;
    moved.n = s->n;
    no.number = yulanbowls_move(s->reading, s->n, s->e, s->numbers, count_numbers(s), k, moved.numbers,
                                YULANBOWLS_SHEET_NUMBERS, &moved.e, &no.row, &no.column);
    if (no.number != 0) {
        return print_refusal(&no);
    }
    return save_sheet(&moved, name);
}

/* One byte more than the longest file is read, so that a longer one is noticed. Without a k the copy is the sheet
 * as it was loaded. */
static int print_file(FILE *from, const char *copy, const int64_t *k)
{
    uint8_t bytes[YULANBOWLS_FILE_BYTES + 1];
    struct sheet s;
    struct refusal no;
    size_t length = fread(bytes, 1, sizeof bytes, from);
    int status = 0;

    if (ferror(from)) {
        perror("host");
        return 2;
    }
    no.number = yulanbowls_read_numbers(bytes, length, s.numbers, YULANBOWLS_SHEET_NUMBERS, &s.reading, &s.n, &s.e,
                                        &no.row, &no.column);
    if (no.number != 0) {
        return print_refusal(&no);
    }
    if (copy != NULL) {
        status = k == NULL ? save_sheet(&s, copy) : save_moved(&s, *k, copy);
    }
    return status != 0 ? status : print_sheet(&s);
}

/* Whether the text is a whole number of 64 bits, and that number. The library judges its range. */
static int read_power(const char *text, int64_t *k)
{
    char *end;

    errno = 0;
    *k = strtoll(text, &end, 10);
    return errno == 0 && end != text && *end == '\0';
}

int main(int count, char **words)
{
    FILE *from = stdin;
    int64_t k;
    int status;

    if (count > 4 || (count == 4 && !read_power(words[3], &k))) {
        fprintf(stderr, "usage: host [FILE [COPY [K]]]\n");
        return 2;
    }
    if (count >= 2 && (from = fopen(words[1], "rb")) == NULL) {
        perror(words[1]);
        return 2;
    }
    status = print_file(from, count >= 3 ? words[2] : NULL, count == 4 ? &k : NULL);
    fclose(from);
    return status;
}
