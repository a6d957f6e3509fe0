/* The steps for leaving rates of document 01, in its order and with the pivots of document 02, U8, in plain C: for
   the whole table, for one column of it, and for prices from it. run.py compiles this file several times: SUFFIX
   gives each build its own function names, with CHECKED every range test of document 01 stands at its step, and with
   WEIGHTED it is the whole table of a sheet with weights, with the pivots of U10, and nothing else. Questions 1 to 9
   are not asked. Beside them, without CHECKED, the product of a sheet and a power of two, in two ways.

   The working tables have 32 numbers to a row. s stands apart from the sizes t, so the loop over a row may
   run over the diagonal place of t: no step reads that place. */
#include <float.h>
#include <math.h>
#include <stddef.h>
#include <string.h>

#define LIMIT 32
#define JOINED(a, b) a##b
#define JOIN(a, b) JOINED(a, b)
#ifdef WEIGHTED
#define WHOLE_TABLE JOIN(weighted_, SUFFIX)
#else
#define WHOLE_TABLE JOIN(steps_, SUFFIX)
#endif

/* Row i of t from the sheet's sizes, and s_i from its diagonal. A zero of either sign is plus zero. */
static inline void load_row(size_t n, const double *restrict sheet, size_t i, double (*restrict t)[LIMIT],
                            double *restrict s)
{
    for (size_t j = 0; j < n; j++)
        t[i][j] = 0.0 - sheet[i * n + j];
    s[i] = sheet[i * n + i] + 0.0;
}

/* All rows, and the identity for b. */
static inline void load(size_t n, const double *restrict sheet, double (*restrict t)[LIMIT],
                        double (*restrict b)[LIMIT], double *restrict s)
{
    for (size_t i = 0; i < n; i++) {
        load_row(n, sheet, i, t, s);
        memset(b[i], 0, n * sizeof(double));
        b[i][i] = 1.0;
    }
}

#ifdef WEIGHTED

/* The pivot of stage k: from plus zero the sizes of its row, each times the weight of its stage, from the last back,
   and s_k last, all over the weight of stage k. The weights follow the n * n numbers of the sheet. */
static inline double row_pivot(size_t n, size_t k, const double *restrict row, double s, const double *restrict sheet)
{
    const double *weights = &sheet[n * n];
    double sum = 0.0;
    for (size_t j = n; j-- > k + 1;)
        sum += row[j] * weights[j];
    return (sum + s) / weights[k];
}

#else

/* The pivot of stage k: from plus zero the sizes of its row from the last back, and s_k last. */
static inline double row_pivot(size_t n, size_t k, const double *restrict row, double s, const double *restrict sheet)
{
    double pivot = 0.0;
    (void)sheet;
    for (size_t j = n; j-- > k + 1;)
        pivot += row[j];
    return pivot + s;
}

/* All rows, and one column of the identity for b. */
static inline void load_column(size_t n, const double *restrict sheet, size_t column, double (*restrict t)[LIMIT],
                               double *restrict b, double *restrict s)
{
    for (size_t i = 0; i < n; i++) {
        load_row(n, sheet, i, t, s);
        b[i] = i == column ? 1.0 : 0.0;
    }
}

#endif

#ifndef CHECKED

/* Adds m times the numbers `from` to the numbers `to`. */
static inline void add_multiple(size_t count, double m, const double *restrict from, double *restrict to)
{
    for (size_t j = 0; j < count; j++)
        to[j] += m * from[j];
}

/* The whole table; 1 always. */
int WHOLE_TABLE(size_t n, const double *restrict sheet, double *restrict answer)
{
    double t[LIMIT][LIMIT], b[LIMIT][LIMIT], s[LIMIT], p[LIMIT];
    load(n, sheet, t, b, s);
    for (size_t k = 0; k < n; k++) {
        double pivot = row_pivot(n, k, t[k], s[k], sheet);
        p[k] = pivot;
        for (size_t i = k + 1; i < n; i++) {
            double m = t[i][k] / pivot;
            s[i] += m * s[k];
            add_multiple(n - (k + 1), m, &t[k][k + 1], &t[i][k + 1]);
            add_multiple(k + 1, m, b[k], b[i]);
        }
    }
    for (size_t k = n - 1; k > 0; k--)
        for (size_t i = 0; i < k; i++)
            add_multiple(n, t[i][k] / p[k], b[k], b[i]);
    for (size_t i = 0; i < n; i++)
        for (size_t j = 0; j < n; j++)
            answer[i * n + j] = b[i][j] / p[i];
    return 1;
}

#ifndef WEIGHTED

/* One column, counted from 0; 1 always. */
int JOIN(column_, SUFFIX)(size_t n, const double *restrict sheet, size_t column, double *restrict answer)
{
    double t[LIMIT][LIMIT], b[LIMIT], s[LIMIT], p[LIMIT];
    load_column(n, sheet, column, t, b, s);
    for (size_t k = 0; k < n; k++) {
        double pivot = row_pivot(n, k, t[k], s[k], sheet);
        p[k] = pivot;
        for (size_t i = k + 1; i < n; i++) {
            double m = t[i][k] / pivot;
            s[i] += m * s[k];
            add_multiple(n - (k + 1), m, &t[k][k + 1], &t[i][k + 1]);
            if (k >= column)
                b[i] += m * b[k];
        }
    }
    for (size_t k = n - 1; k > 0; k--)
        for (size_t i = 0; i < k; i++)
            b[i] += t[i][k] / p[k] * b[k];
    for (size_t i = 0; i < n; i++)
        answer[i] = b[i] / p[i];
    return 1;
}

/* The price of a request by its entry stage; 1 always. */
int JOIN(prices_, SUFFIX)(size_t n, const double *restrict sheet, const double *restrict prices,
                          double *restrict answer)
{
    double x[LIMIT * LIMIT];
    WHOLE_TABLE(n, sheet, x);
    for (size_t i = 0; i < n; i++) {
        double sum = 0.0;
        for (size_t j = 0; j < n; j++)
            sum += x[i * n + j] * prices[j];
        answer[i] = sum;
    }
    return 1;
}

/* The sheet times 2^k; 1 always. Its loop is short, and takes twice as long where it lies across two cache lines. */
__attribute__((aligned(64)))
int JOIN(move_, SUFFIX)(size_t n, const double *restrict sheet, int k, double *restrict answer)
{
    double power = ldexp(1.0, k);
    for (size_t place = 0; place < n * n; place++)
        answer[place] = sheet[place] * power;
    return 1;
}

/* The same number by number, without a power. */
int JOIN(ldexp_, SUFFIX)(size_t n, const double *restrict sheet, int k, double *restrict answer)
{
    for (size_t place = 0; place < n * n; place++)
        answer[place] = ldexp(sheet[place], k);
    return 1;
}

#endif

#else

/* Flags are numbers, 0.0 while all is well, and there is one for each column: such a loop becomes vector
   code in plain x86-64, a single flag does not. No number of the steps is negative, so a number is finite
   where it is at most DBL_MAX, and a finite sum has finite terms: its test is also theirs. The diagonal
   place of t, which is no step, keeps its column's flag. */

/* The flag after a result that must be finite. */
static inline double finite(double flag, double result)
{
    return result <= DBL_MAX ? flag : 1.0;
}

/* The flag after a product or quotient that must be above `least` unless the number y in it is zero. */
static inline double above(double flag, double result, double least, double y)
{
    return result > least ? flag : (y == 0.0 ? flag : 1.0);
}

/* What products with m must be above: with m zero, every product passes. */
static inline double least_product(double m)
{
    return m == 0.0 ? -1.0 : DBL_MIN;
}

static inline void add_multiple(size_t count, double m, const double *restrict from, double *restrict to,
                                double *restrict flags)
{
    double least = least_product(m);
    for (size_t j = 0; j < count; j++) {
        double product = m * from[j];
        double sum = to[j] + product;
        flags[j] = finite(above(flags[j], product, least, from[j]), sum);
        to[j] = sum;
    }
}

#ifdef WEIGHTED

/* The flag after the steps that weights add to the pivot of stage k. Its sum is above zero, and is not finite where a
   product is not, and then neither is the pivot, which is tested for that. */
static inline double weighted_steps(double flag, size_t n, size_t k, const double *restrict row,
                                    const double *restrict sheet, double pivot, double *restrict flags)
{
    const double *weights = &sheet[n * n];
    for (size_t j = k + 1; j < n; j++)
        flags[j] = above(flags[j], row[j] * weights[j], DBL_MIN, row[j]);
    return pivot > DBL_MIN ? flag : 1.0;
}

#endif

/* The whole table; 1 where every step is in range, else 0 with no place changed. */
int WHOLE_TABLE(size_t n, const double *restrict sheet, double *restrict answer)
{
    double t[LIMIT][LIMIT], b[LIMIT][LIMIT], s[LIMIT], p[LIMIT], flags[LIMIT] = {0.0}, flag = 0.0;
    load(n, sheet, t, b, s);
    for (size_t k = 0; k < n; k++) {
        double pivot = row_pivot(n, k, t[k], s[k], sheet);
        flag = finite(flag, pivot);
#ifdef WEIGHTED
        flag = weighted_steps(flag, n, k, t[k], sheet, pivot, flags);
#endif
        p[k] = pivot;
        for (size_t i = k + 1; i < n; i++) {
            double m = t[i][k] / pivot;
            flag = finite(above(flag, m, DBL_MIN, t[i][k]), m);
            double product = m * s[k];
            s[i] += product;
            flag = finite(above(flag, product, least_product(m), s[k]), s[i]);
            double kept = flags[i];
            add_multiple(n - (k + 1), m, &t[k][k + 1], &t[i][k + 1], &flags[k + 1]);
            flags[i] = kept;
            add_multiple(k + 1, m, b[k], b[i], flags);
        }
    }
    for (size_t k = n - 1; k > 0; k--)
        for (size_t i = 0; i < k; i++) {
            double m = t[i][k] / p[k];
            flag = finite(above(flag, m, DBL_MIN, t[i][k]), m);
            add_multiple(n, m, b[k], b[i], flags);
        }
    for (size_t i = 0; i < n; i++)
        for (size_t j = 0; j < n; j++) {
            double x = b[i][j] / p[i];
            flags[j] = finite(above(flags[j], x, DBL_MIN, b[i][j]), x);
            b[i][j] = x;
        }
    for (size_t j = 0; j < n; j++)
        flag += flags[j];
    if (flag != 0.0)
        return 0;
    for (size_t i = 0; i < n; i++)
        memcpy(&answer[i * n], b[i], n * sizeof(double));
    return 1;
}

#ifndef WEIGHTED

/* One column, counted from 0; 1 where every step of it is in range, else 0 with no place changed. */
int JOIN(column_, SUFFIX)(size_t n, const double *restrict sheet, size_t column, double *restrict answer)
{
    double t[LIMIT][LIMIT], b[LIMIT], s[LIMIT], p[LIMIT], flags[LIMIT] = {0.0}, flag = 0.0;
    load_column(n, sheet, column, t, b, s);
    for (size_t k = 0; k < n; k++) {
        double pivot = row_pivot(n, k, t[k], s[k], sheet);
        flag = finite(flag, pivot);
        p[k] = pivot;
        for (size_t i = k + 1; i < n; i++) {
            double m = t[i][k] / pivot;
            flag = finite(above(flag, m, DBL_MIN, t[i][k]), m);
            add_multiple(1, m, &s[k], &s[i], &flag);
            double kept = flags[i];
            add_multiple(n - (k + 1), m, &t[k][k + 1], &t[i][k + 1], &flags[k + 1]);
            flags[i] = kept;
            if (k >= column)
                add_multiple(1, m, &b[k], &b[i], &flag);
        }
    }
    for (size_t k = n - 1; k > 0; k--)
        for (size_t i = 0; i < k; i++) {
            double m = t[i][k] / p[k];
            flag = finite(above(flag, m, DBL_MIN, t[i][k]), m);
            add_multiple(1, m, &b[k], &b[i], &flags[i]);
        }
    for (size_t i = 0; i < n; i++) {
        double x = b[i] / p[i];
        flags[i] = finite(above(flags[i], x, DBL_MIN, b[i]), x);
        b[i] = x;
    }
    for (size_t j = 0; j < n; j++)
        flag += flags[j];
    if (flag != 0.0)
        return 0;
    memcpy(answer, b, n * sizeof(double));
    return 1;
}

/* The price of a request by its entry stage; 1 where every step of it is in range, else 0 with no place changed. */
int JOIN(prices_, SUFFIX)(size_t n, const double *restrict sheet, const double *restrict prices,
                          double *restrict answer)
{
    double x[LIMIT * LIMIT], p[LIMIT], flags[LIMIT] = {0.0}, flag = 0.0;
    if (!WHOLE_TABLE(n, sheet, x))
        return 0;
    for (size_t i = 0; i < n; i++) {
        double sum = 0.0;
        for (size_t j = 0; j < n; j++)
            sum += x[i * n + j] * prices[j];
        flag = finite(flag, sum);
        p[i] = sum;
    }
    for (size_t i = 0; i < n; i++)
        for (size_t j = 0; j < n; j++)
            flags[j] = above(flags[j], x[i * n + j] * prices[j], least_product(prices[j]), x[i * n + j]);
    for (size_t j = 0; j < n; j++)
        flag += flags[j];
    if (flag != 0.0)
        return 0;
    memcpy(answer, p, n * sizeof(double));
    return 1;
}

#endif

#endif
