/*
 * Yulanbowls for C and C++ programs: dwell times from a flow sheet. The archive is libhosts.a for x86-64 Linux;
 * README.md says how it is built. What is promised below is proved of the library's code;
 * the exact statements are the `ensures` of crates/hosts_c/src/lib.rt, crates/hosts/specs/,
 * crates/table_calls/specs/, crates/file_calls/specs/ and crates/move_calls/specs/, and for what joins a move
 * with other calls crates/commuting/specs/.
 *
 * The sheet
 *   n stages, 1 to 32, a time unit of 2^e seconds, e from -512 to 512, and n * n numbers, row by row, so at most
 *   1,024. Off the diagonal, place (i, j) holds minus the rate of moving from stage i to stage j. The diagonal
 *   place of stage i holds
 *     reading 1: the rate at which requests leave for good, zero or above;
 *     reading 2: the margin of row i, above zero;
 *     reading 3: the weighted row sum of row i, above zero, which is the sum over j of entry (i, j) of the exact
 *                matrix times the weight of stage j.
 *   In reading 3 the weights of the n stages, above zero, follow the n * n numbers, so such a sheet has n * n + n
 *   numbers, at most 1,056.
 *   Rates, margins and weighted row sums are per unit: with e = 0 per second, with e = -10 per tick of a clock that
 *   ticks 1,024 times a second. Weights have no unit. Times are in the same unit as rates. So e says what the numbers
 *   mean and changes none of them: for every e in its range a table, a column or an entry has the same bits.
 *   Stages, rows and columns are numbered from 1, and the weights are row n + 1, with that of stage j in column j.
 *   In reading 1 a stage whose row and column are all zero, the diagonal place included, is idle. Idle stages keep
 *   their numbers and n counts them, but the computation leaves them out. A zero of either sign is a zero.
 *
 * The answer of a call
 *   Every call but yulanbowls_report returns 0 if it is accepted, and else the number of its refusal. `*row`
 *   and `*column` are then those of the refusal, 0 and 0 where it has none and where the call is accepted. A
 *   refused call changes nothing else: every other out place and every place of a lent area keep what they
 *   held. The reasons that a call can be refused for are looked for in this order, each in the whole sheet before
 *   the next: 1, 2, 12, 3, 4, 18, 5 to 9, 19, 10, then 15, 17, 16. In a file 11 to 13 are looked for record by
 *   record, then 14 and then 4. The first decides.
 *
 *   number  the call is refused because                                          row, column
 *        1  the reading is none of 1, 2 and 3, or, for a column, is not 1         0, 0
 *        2  n is below 1 or above 32                                              0, 0
 *        3  the sheet has more or fewer than n * n numbers, in reading 3 than     0, 0
 *           n * n + n
 *        4  the area has room for fewer than n * n numbers (a table), n (a        0, 0
 *           column, prices), those of the sheet (reading a file, moving), or
 *           12 + n * (8n + 8) bytes, in reading 3 8n + 6 more (saving)
 *        5  a stage that is asked for is below 1 or above n                       0, 0
 *        6  a number is an infinity or a NaN                                      of the first such number
 *        7  a number has the wrong sign: off the diagonal it is above zero,       of the first such number
 *           or on it below zero (reading 1) or not above zero (readings 2
 *           and 3), or it is a weight and not above zero
 *        8  a number is not zero and smaller in size than 2^-1022                 of the first such number
 *        9  reading 1: from some stage that is not idle no chain of moves         of the lowest such stage, 0
 *           leads out
 *       10  a step of the computation leaves the range of binary64: a result      0, 0
 *           is not finite, or a product or quotient of numbers that are not
 *           zero is not above 2^-1022
 *       11  the file ends inside a record                                         of the row due (head: 0), 0
 *       12  e is below -512 or above 512, or the file's first record is no        0, 0
 *           head with reading 1, 2 or 3, 1 to 32 stages and such an e
 *       13  a record is not the row that is due, of n numbers, or, after the      of the row due, 0
 *           rows of reading 3, not that of the n weights
 *       14  bytes follow the last row, in reading 3 the weights                   0, 0
 *       15  k is below -512 or above 512                                          0, 0
 *       16  the exact product of 2^k and a number that is neither zero nor a      0, 0
 *           weight is larger in size than the largest finite number, or
 *           smaller than 2^-1022
 *       17  e + k is below -512 or above 512                                      0, 0
 *       18  there are more or fewer than n prices                                 0, 0
 *       19  a price is an infinity or a NaN, negative, or not zero and smaller    the first such price's
 *           than 2^-1022                                                          number, 0
 *
 *   yulanbowls_table can return 1 to 4, 6 to 10 and 12, yulanbowls_entry 1 to 3, 5 to 10 and 12, yulanbowls_column
 *   1 to 10 and 12, yulanbowls_prices 1 to 4, 6 to 10, 12, 18 and 19, the two readers of files 4 and 11 to 14, the
 *   two writers 1 to 4 and 12, and yulanbowls_move 1 to 4, 6 to 8, 12 and 15 to 17.
 *
 * What the caller owes, in every call (nothing tests it)
 *   - Each pointer is not null, is aligned for its type, and points to as many numbers or bytes as the
 *     length behind it says, or to one place where no length follows. A length may be 0: the pointer is then
 *     still not null. What a place that the call may write holds before does not matter.
 *   - No two of the places and areas of a call overlap, and while it runs no other thread writes to any
 *     of them or reads what the call may write. Calls keep nothing, so threads may call at the same time.
 *   - The floating-point environment is that in which a C program starts: results are rounded to nearest,
 *     small numbers are neither flushed to zero nor read as zero, exceptions are masked. The code uses SSE2,
 *     which every x86-64 has. A call may set status flags.
 *   - Some 60,000 bytes of stack are left for the call (measured, not proved). It takes no memory
 *     elsewhere, and needs memcpy and memset of the C library alone.
 */
#ifndef YULANBOWLS_H
#define YULANBOWLS_H

#include <stddef.h>
#include <stdint.h>

#ifdef __cplusplus
extern "C" {
#endif

/* The largest n, the most numbers of a table and of a sheet, the least and the largest e of a time unit, the bytes of
 * the longest sheet file, and the bytes that yulanbowls_report has to be lent. */
#define YULANBOWLS_STAGES 32
#define YULANBOWLS_NUMBERS 1024
#define YULANBOWLS_SHEET_NUMBERS 1056
#define YULANBOWLS_UNIT_LEAST (-512)
#define YULANBOWLS_UNIT_MOST 512
#define YULANBOWLS_FILE_BYTES 8722
#define YULANBOWLS_TEXT_BYTES 32768

/*
 * The whole table. Accepted: the first n * n places of `answer` hold it row by row, place (i, j) the time, in
 * units of 2^e seconds, that a request entering at stage i spends at stage j, and later places are unchanged.
 * Every entry in the row or the column of an idle stage is plus zero. `*allowance` is E = 4n^3 (reading 1), 12n^3
 * (reading 2) or 6n^3 (reading 3): the exact matrix of the stages that are not idle has one inverse, no entry of
 * which is negative, and each of their entries is within a factor (1 + 2^-53)^E of that inverse's, above and below,
 * so it is zero exactly where that is zero. The bits are those of the published steps, each rounded once; a pivot
 * adds a stage's rates to later stages from the last one back, beginning at plus zero, and its leaving rate at the
 * end. In reading 3 it adds these rates times the weights of the stages that they lead to, then the weighted row sum,
 * and divides by the stage's own weight; each product and the quotient is a step, also where a weight is 1.
 */
size_t yulanbowls_table(size_t reading, size_t n, int64_t e,
                        const double *sheet, size_t sheet_length,
                        double *answer, size_t answer_length,
                        size_t *allowance, size_t *row, size_t *column);

/*
 * Entry (i, j) of the table. Accepted: `*seconds`, in units of 2^e seconds, has the bits of that entry in the
 * whole table, and its accuracy. It is refused with 10 wherever the whole table is.
 */
size_t yulanbowls_entry(size_t reading, size_t n, int64_t e,
                        const double *sheet, size_t sheet_length,
                        size_t i, size_t j,
                        double *seconds, size_t *row, size_t *column);

/*
 * The column of one stage, for reading 1 alone: readings 2 and 3 are refused with 1. `answer` needs room for n
 * numbers. Accepted: its first n places hold the column, place i the time, in units of 2^e seconds, that a request
 * entering at stage i spends at `stage`, and later places are unchanged. `*allowance` is E = 4n^3, and each
 * number is within a factor (1 + 2^-53)^E of that entry of the exact inverse, or plus zero for an idle stage, as
 * in the table. Where the whole table is accepted so is each of its columns, with the same bits. The call takes
 * fewer steps than the table, so it may be accepted where the whole table is refused with 10; its accuracy is
 * the same there. The column of an idle stage is n plus zeros; it is refused with 10 where a step that serves
 * every column leaves the range.
 */
size_t yulanbowls_column(size_t reading, size_t n, int64_t e,
                         const double *sheet, size_t sheet_length,
                         size_t stage,
                         double *answer, size_t answer_length,
                         size_t *allowance, size_t *row, size_t *column);

/*
 * The price of a request by the stage at which it enters. `prices` are n prices per unit of 2^e seconds, price j for
 * the time at stage j, each zero or positive; a zero of either sign is a zero. `answer` needs room for n numbers.
 * Accepted: place i of its first n places holds the price of a request that enters at stage i, which is the sum of
 * the entries (i, j) of the table times price j, from plus zero and with j rising, each operation rounded once; later
 * places are unchanged. A request that enters at an idle stage costs plus zero. `*allowance` is E = 4n^3 + n (reading
 * 1), 12n^3 + n (reading 2) or 6n^3 + n (reading 3): each number is within a factor (1 + 2^-53)^E of the exact price,
 * which is the sum of the entries of the exact inverse times the prices, zero in an idle row or column. Refused with
 * 10 wherever the whole table is, and where a product or a sum of the prices leaves the range.
 */
size_t yulanbowls_prices(size_t reading, size_t n, int64_t e,
                         const double *sheet, size_t sheet_length,
                         const double *prices, size_t prices_length,
                         double *answer, size_t answer_length,
                         size_t *allowance, size_t *row, size_t *column);

/*
 * Reads a sheet file that is in memory. Accepted: `*reading`, `*n` and `*e` are those of its head, the first n * n
 * places of `area` hold its numbers row by row, in reading 3 the next n its weights, and later places are unchanged.
 * An area of YULANBOWLS_SHEET_NUMBERS has room for every sheet. A file from before units, with no e in its head, is
 * in seconds: `*e` is 0. The numbers are not judged: that is for the calls above. A NaN of the file becomes a NaN,
 * whose bits may differ; every other number keeps its bits.
 */
size_t yulanbowls_read_numbers(const uint8_t *bytes, size_t bytes_length,
                               double *area, size_t area_length,
                               size_t *reading, size_t *n, int64_t *e, size_t *row, size_t *column);

/* The same into 64-bit words, which keep the bits of every number, of a NaN too. */
size_t yulanbowls_read_words(const uint8_t *bytes, size_t bytes_length,
                             uint64_t *area, size_t area_length,
                             size_t *reading, size_t *n, int64_t *e, size_t *row, size_t *column);

/*
 * Saves a sheet as a file in memory. Accepted: the first `*length` bytes of `bytes` are the file, and later bytes are
 * unchanged. A file has 12 + n * (8n + 8) bytes, and in reading 3 another 8n + 6 for the weights, so at most
 * YULANBOWLS_FILE_BYTES. The numbers are not judged: a sheet with a NaN, a wrong sign or a stage that nobody leaves
 * is saved too. Read back, the file gives the same reading, n, e and numbers, weights included. Every number keeps
 * its bits, but a NaN is written as 7ff8000000000000.
 */
size_t yulanbowls_save_numbers(size_t reading, size_t n, int64_t e,
                               const double *sheet, size_t sheet_length,
                               uint8_t *bytes, size_t bytes_length,
                               size_t *length, size_t *row, size_t *column);

/* The same from 64-bit words, which keep the bits of every number, of a NaN too: what
 * yulanbowls_read_words has read is saved as the bytes that it was read from, or, if it was read from a file from
 * before units, as that file with e = 0 in its head. */
size_t yulanbowls_save_words(size_t reading, size_t n, int64_t e,
                             const uint64_t *sheet, size_t sheet_length,
                             uint8_t *bytes, size_t bytes_length,
                             size_t *length, size_t *row, size_t *column);

/*
 * Moves a sheet to another time unit: every number but the weights times 2^k, for k from -512 to 512. Accepted: the
 * first n * n places of `area` hold the results row by row, in reading 3 the next n the weights with their bits, and
 * later places are unchanged; `*moved_e` is e + k, the e of the unit of the moved sheet. Each result is exact, and a
 * zero keeps its sign.
 *
 * The numbers of a sheet are rates, so from seconds, e = 0, to a clock that ticks 1,024 times a second k is -10: a
 * rate per tick is the rate per second divided by 1,024. The table of the moved sheet counts ticks, 1,024 to the
 * second: if the table of the sheet and that of the moved sheet are both accepted, each entry of the second has the
 * bits of the first's times 2^-k, and so have a column, an entry, and prices for the same `prices`. Moving by a and
 * then by b gives the bits and the e of moving by a + b, if both moves are accepted and a + b is from -512 to 512.
 *
 * 9 and 10 are not looked for: a sheet with a stage that nobody leaves is moved too, and the table may refuse a
 * moved sheet although it accepts the sheet itself.
 */
size_t yulanbowls_move(size_t reading, size_t n, int64_t e,
                       const double *sheet, size_t sheet_length,
                       int64_t k,
                       double *area, size_t area_length,
                       int64_t *moved_e, size_t *row, size_t *column);

/*
 * The text that the dwell program prints for a sheet file: its table or its refusal. The text stands at the
 * start of `text`, with no zero byte at its end; later bytes are unchanged. Returns the text's length. If
 * `text_length` is below YULANBOWLS_TEXT_BYTES the call returns 0 and changes nothing.
 * dwell judges at most YULANBOWLS_FILE_BYTES + 1 bytes of its input; this call judges all that it is lent.
 */
size_t yulanbowls_report(const uint8_t *bytes, size_t bytes_length,
                         uint8_t *text, size_t text_length);

#ifdef __cplusplus
}
#endif

#endif
