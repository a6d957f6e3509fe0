#!/usr/bin/env python3
"""The independent reference of the dwell-times project.

Everything here is written from document 01 ("Dwell times from a flow sheet"), document 02 (the requests
after it) and source document 000 alone.  It holds the steps with binary64 numbers and their range test,
the questions, the services, the sheet file, the dwell program, the exact inverse with the accuracy rule,
random sheets, and a self-test.  A Python float is a binary64 number and each of +, *, / is one rounding to nearest,
ties to even; nothing here uses a fused or compensated operation.  Stages are numbered from 0 in the
code and from 1 in every answer.
"""
from __future__ import annotations

import itertools
import math
import random
import re
import struct
import sys
import time
from collections import Counter
from dataclasses import dataclass
from fractions import Fraction
from typing import Callable, Iterable, Optional, Sequence, TypeVar, Union

LIMIT = 32                      # the most stages of a sheet, and so 32 × 32 the most numbers of a table
SMALLEST_NORMAL = 2.0 ** -1022  # products and quotients of nonzero numbers stay above it
LARGEST = sys.float_info.max
FURTHEST_POWER = 512            # for k from -512 to 512 a sheet is moved by 2^k, and for such e its unit is 2^e seconds
IN_SECONDS = 0                  # the e of a sheet in seconds
LEAVING_RATES, MARGINS, WEIGHTS = 1, 2, 3
READINGS = (LEAVING_RATES, MARGINS, WEIGHTS)

Row = list[float]
Matrix = list[Row]
T = TypeVar("T")


# ==== Answers ====

@dataclass(frozen=True)
class Refused:
    """A no to a question: its number, a row and a column, 0 and 0 unless stated (01, "The questions")."""
    number: int
    row: int = 0
    column: int = 0


@dataclass(frozen=True)
class Table:
    """The whole table, row by row, with its allowance."""
    n: int
    allowance: int
    entries: list[float]


@dataclass(frozen=True)
class Column:
    """One column of the table, from every entry stage, with its allowance."""
    entries: list[float]
    allowance: int


@dataclass(frozen=True)
class Prices:
    """The price of a request by its entry stage, with the allowance of these numbers."""
    entries: list[float]
    allowance: int


@dataclass(frozen=True)
class Seconds:
    """One entry of the table."""
    value: float


@dataclass(frozen=True)
class Loaded:
    """A sheet read from a file, its unit being 2^e seconds; the words keep every bit of its numbers, NaN patterns
    included."""
    reading: int
    n: int
    e: int
    words: list[int]

    @property
    def numbers(self) -> list[float]:
        return [number_of(word) for word in self.words]


@dataclass(frozen=True)
class Saved:
    """The file that a sheet is saved as; the call hands over its length."""
    data: bytes


@dataclass(frozen=True)
class Moved:
    """The numbers of a sheet in another time unit, row by row, then its weights, if it has any, as they were, and
    the e of that unit."""
    numbers: list[float]
    e: int


def bits_of(number: float) -> int:
    """The 64 bits of a number."""
    return struct.unpack("<Q", struct.pack("<d", number))[0]


def number_of(word: int) -> float:
    """The number with these 64 bits."""
    return struct.unpack("<d", struct.pack("<Q", word))[0]


ONE_NAN = 0x7ff8000000000000    # the word of every NaN that is a number: it keeps none of its own bits


def word_of(number: float) -> int:
    """The word as which a number is saved."""
    return ONE_NAN if number != number else bits_of(number)


# ==== One step: one rounding and its range test (01, question 10) ====

class OutOfRange(Exception):
    """Some step left the range.  Question 10 is no exactly when this is raised, wherever that is."""


def checked(result: float, above_smallest: bool) -> float:
    """The rounded result of a step, which must be finite and, where asked, above 2^-1022."""
    if not math.isfinite(result) or (above_smallest and not result > SMALLEST_NORMAL):
        raise OutOfRange
    return result


def add(x: float, y: float) -> float:
    """A sum, rounded once."""
    return checked(x + y, False)


def mul(x: float, y: float) -> float:
    """A product, rounded once."""
    return checked(x * y, x != 0.0 and y != 0.0)


def div(x: float, y: float) -> float:
    """A quotient, rounded once; y is a pivot, an a_i or a weight and never zero."""
    return checked(x / y, x != 0.0)


def running_sum(start: float, terms: Iterable[float]) -> float:
    """Adds the terms one by one, in their order, to the start."""
    total = start
    for term in terms:
        total = add(total, term)
    return total


# ==== Steps for leaving rates, on r stages in compact order (01, "Steps for leaving rates") ====

@dataclass(frozen=True)
class Elimination:
    """What the steps that serve every column leave behind.

    multipliers[k][i] is the downward m of stage k and row i where i > k, the upward one where i < k.
    """
    pivots: list[float]
    multipliers: Matrix


def pivot(s_k: float, later_sizes: Row, weights: Optional[Row]) -> float:
    """p_k: from plus zero, t_kj for j falling from n to k+1, and s_k last (02, U8).

    With the weights z_k to z_n, t_kj·z_j is added for t_kj, and the sum is divided by z_k (02, U10).  Each of these
    products and the quotient is a step; without weights there are none, so weights of 1 are not the same.
    """
    if weights is None:
        return add(running_sum(0.0, reversed(later_sizes)), s_k)
    z_k, *later_weights = weights
    products = [mul(t, z) for t, z in zip(later_sizes, later_weights, strict=True)]
    return div(pivot(s_k, products, None), z_k)


def eliminate(sizes: Matrix, leaving: Row, weights: Optional[Row] = None) -> Elimination:
    """The steps that serve every column: pivots, multipliers, s and t; weights stand in the pivots alone."""
    r = len(leaving)
    t = [list(row) for row in sizes]
    s = list(leaving)
    p: list[float] = []
    m = [[0.0] * r for _ in range(r)]
    for k in range(r):
        p.append(pivot(s[k], t[k][k + 1:], weights and weights[k:]))
        for i in range(k + 1, r):
            m[k][i] = div(t[i][k], p[k])
            s[i] = add(s[i], mul(m[k][i], s[k]))
            for j in range(k + 1, r):
                if j != i:
                    t[i][j] = add(t[i][j], mul(m[k][i], t[k][j]))
    for k in range(r - 1, 0, -1):
        for i in range(k):
            m[k][i] = div(t[i][k], p[k])
    return Elimination(p, m)


def solve_column(elimination: Elimination, j: Optional[int]) -> list[float]:
    """The steps of column j of b, which starts as column j of the identity, and its last divisions; without a
    j those of a column of zeros (02, U3)."""
    p, m = elimination.pivots, elimination.multipliers
    r = len(p)
    b = [1.0 if i == j else 0.0 for i in range(r)]
    for k in range(j or 0, r):  # stage k touches the columns 1 to k alone
        for i in range(k + 1, r):
            b[i] = add(b[i], mul(m[k][i], b[k]))
    for k in range(r - 1, 0, -1):
        for i in range(k):
            b[i] = add(b[i], mul(m[k][i], b[k]))
    return [div(b[i], p[i]) for i in range(r)]


def invert_leaving_rates(sizes: Matrix, leaving: Row, weights: Optional[Row] = None) -> Matrix:
    """The whole of the steps, those of leaving rates and, with weights, of reading 3: x_ij = b_ij / p_i.  OutOfRange
    where some step leaves the range."""
    elimination = eliminate(sizes, leaving, weights)
    columns = [solve_column(elimination, j) for j in range(len(leaving))]
    return [list(row) for row in zip(*columns)]


@dataclass(frozen=True)
class RangeFacts:
    """Whether the steps that serve every column are in range, and those of each column by themselves."""
    shared: bool
    columns: list[bool]


def in_range(steps: Callable[[], object]) -> bool:
    """Whether these steps stay in range."""
    try:
        steps()
    except OutOfRange:
        return False
    return True


def range_facts(sizes: Matrix, leaving: Row) -> RangeFacts:
    """The two kinds of range facts of the steps for leaving rates, kept apart."""
    try:
        elimination = eliminate(sizes, leaving)
    except OutOfRange:
        return RangeFacts(False, [])
    return RangeFacts(True, [in_range(lambda: solve_column(elimination, j)) for j in range(len(leaving))])


# ==== Steps for margins (01, "Steps for margins"; 000, formulas (1) and (2), Theorem 3.2) ====

def invert_margins(sizes: Matrix, margins: Row) -> Matrix:
    """The whole of the steps for margins.  OutOfRange where some step leaves the range."""
    h, a, k = nekrasov_sums(sizes, margins)
    kept = [i for i in range(len(margins)) if h[i] != 0.0]
    x = [[0.0] * len(margins) for _ in margins]
    kept_sizes, kept_leaving = kept_system(sizes, margins, a, k, kept)
    y = invert_leaving_rates(kept_sizes, kept_leaving)
    for row, i in enumerate(kept):
        for column, j in enumerate(kept):
            x[i][j] = mul(k[i], y[row][column])
    join_stages_not_kept(x, sizes, a, kept)
    return x


def nekrasov_sums(t: Matrix, d: Row) -> tuple[Row, Row, Row]:
    """For i rising: h_i, a_i = d_i + h_i and k_i = h_i / a_i; the sums start at plus zero."""
    n = len(d)
    h: Row = []
    a: Row = []
    k: Row = []
    for i in range(n):
        terms = (mul(t[i][j], k[j]) if j < i else t[i][j] for j in range(n) if j != i)
        h.append(running_sum(0.0, terms))
        a.append(add(d[i], h[i]))
        k.append(div(h[i], a[i]))
    return h, a, k


def kept_system(t: Matrix, d: Row, a: Row, k: Row, kept: list[int]) -> tuple[Matrix, Row]:
    """New off-diagonal sizes t_ij·k_j of the kept stages; new leaving rates over every j > i, kept or not."""
    new_sizes = [[mul(t[i][j], k[j]) if j != i else 0.0 for j in kept] for i in kept]
    new_leaving = [running_sum(0.0, (mul(t[i][j], div(d[j], a[j])) for j in range(i + 1, len(d))))
                   for i in kept]
    return new_sizes, new_leaving


def join_stages_not_kept(x: Matrix, t: Matrix, a: Row, kept: list[int]) -> None:
    """Each stage not kept joins the known ones, from the highest down; sums over known j rise in j."""
    known = list(kept)
    for k in range(len(a) - 1, -1, -1):
        if k in kept:
            continue
        for i in known:
            x[i][k] = running_sum(0.0, (mul(x[i][j], div(t[j][k], a[k])) for j in known))
            x[k][i] = 0.0
        x[k][k] = div(1.0, a[k])
        known = sorted(known + [k])


# ==== The sheet and the questions (01, "The sheet and its two readings", "The questions, in order"; 02, U10) ====

def sheet_length(reading: int, n: int) -> int:
    """How many numbers a sheet has: n × n, and in reading 3 n weights after them."""
    return n * n + (n if reading == WEIGHTS else 0)


MOST_NUMBERS = sheet_length(WEIGHTS, LIMIT)


def square(n: int, sheet: Sequence[T]) -> list[T]:
    """The n × n numbers of a sheet, without the weights after them."""
    return list(sheet[:n * n])


def weights_of(reading: int, n: int, sheet: Sequence[T]) -> Optional[list[T]]:
    """The weights z_j of a sheet of reading 3."""
    return list(sheet[n * n:]) if reading == WEIGHTS else None


def sheet_parts(n: int, sheet: Sequence[float]) -> tuple[Matrix, Row]:
    """The sizes t_ij (zero on the diagonal) and the diagonal parameters; either zero becomes plus zero."""
    sizes = [[0.0 - sheet[i * n + j] if j != i else 0.0 for j in range(n)] for i in range(n)]
    return sizes, [sheet[i * n + i] + 0.0 for i in range(n)]


def live_stages(reading: int, n: int, sheet: Sequence[float]) -> list[int]:
    """The stages that are not idle, in their order.  In reading 1 a stage whose row and column are all zero, the
    diagonal included, is idle (02, U3); in readings 2 and 3 none is."""
    return [i for i in range(n) if reading != LEAVING_RATES
            or any(sheet[i * n + j] != 0.0 or sheet[j * n + i] != 0.0 for j in range(n))]


def compact(live: Sequence[int], matrix: Sequence[Sequence[T]]) -> list[list[T]]:
    """The rows and columns of the live stages alone."""
    return [[matrix[i][j] for j in live] for i in live]


def live_parts(n: int, sheet: Sequence[float], live: Sequence[int]) -> tuple[Matrix, Row]:
    """The sizes and diagonal parameters of the live stages."""
    sizes, diagonal = sheet_parts(n, sheet)
    return compact(live, sizes), [diagonal[i] for i in live]


def own_places(n: int, live: Sequence[int], values: Sequence[T], zero: T) -> list[T]:
    """The values of the live stages, each under its own stage's number, and zero at every idle one."""
    own = dict(zip(live, values, strict=True))
    return [own.get(i, zero) for i in range(n)]


def own_rows(n: int, live: Sequence[int], matrix: Sequence[Sequence[T]], zero: T) -> list[list[T]]:
    """The same for the rows and columns of a matrix."""
    return own_places(n, live, [own_places(n, live, row, zero) for row in matrix], [zero] * n)


def allowance(reading: int, n: int) -> int:
    """4n³ for leaving rates, 12n³ for margins, 6n³ with weights; n counts idle stages too."""
    return {LEAVING_RATES: 4, MARGINS: 12, WEIGHTS: 6}[reading] * n ** 3


def price_allowance(reading: int, n: int) -> int:
    """That of prices (02, U7): "with n added to the exponent"."""
    return allowance(reading, n) + n


def ask_reading(reading: int) -> Optional[Refused]:
    """Question 1: is the reading 1, 2 or 3?"""
    return None if reading in READINGS else Refused(1)


def ask_leaving_rates(reading: int) -> Optional[Refused]:
    """Question 1 for one column: is the reading 1?  (02, U2: "Reading 2 gets 1."; U10 admits 3 elsewhere.)"""
    return None if reading == LEAVING_RATES else Refused(1)


def ask_size(n: int) -> Optional[Refused]:
    """Question 2: is n from 1 to 32?  Nothing is formed from n before it is asked."""
    return None if 1 <= n <= LIMIT else Refused(2)


def ask_unit(e: int) -> Optional[Refused]:
    """Question 12 of a call that is handed e (02, U5), asked after 2: is e from −512 to 512?"""
    return None if -FURTHEST_POWER <= e <= FURTHEST_POWER else Refused(12)


def ask_sheet_length(reading: int, n: int, sheet: Sequence[object]) -> Optional[Refused]:
    """Question 3: does the sheet hold exactly n × n numbers, and in reading 3 n more?"""
    return None if len(sheet) == sheet_length(reading, n) else Refused(3)


def ask_area(needed: int, area_length: int) -> Optional[Refused]:
    """Question 4: does the lent area hold as many numbers, or bytes, as the call needs?"""
    return None if area_length >= needed else Refused(4)


def ask_stages(n: int, *stages: int) -> Optional[Refused]:
    """Question 5: are the stages asked for, two for one entry and one for one column, from 1 to n?"""
    return None if all(1 <= stage <= n for stage in stages) else Refused(5)


def first_bad_place(number: int, n: int, sheet: Sequence[float],
                    good: Callable[[float, bool], bool]) -> Optional[Refused]:
    """Searches row by row, the weights as row n + 1, for a number that is not good, given whether it stands for a
    move, off the diagonal."""
    for place, x in enumerate(sheet):
        i, j = divmod(place, n)
        if not good(x, i < n and i != j):
            return Refused(number, i + 1, j + 1)
    return None


def ask_finite(n: int, sheet: Sequence[float]) -> Optional[Refused]:
    """Question 6: is every number finite?"""
    return first_bad_place(6, n, sheet, lambda x, _: math.isfinite(x))


def ask_signs(reading: int, n: int, sheet: Sequence[float]) -> Optional[Refused]:
    """Question 7: off-diagonals zero or negative, diagonals zero or positive (reading 1) or positive (readings 2 and
    3), weights positive?"""
    def good(x: float, move: bool) -> bool:
        if move:
            return x <= 0.0
        return x >= 0.0 if reading == LEAVING_RATES else x > 0.0
    return first_bad_place(7, n, sheet, good)


def ask_normal(n: int, sheet: Sequence[float]) -> Optional[Refused]:
    """Question 8: is every number zero or at least 2^-1022 in size?"""
    return first_bad_place(8, n, sheet, lambda x, _: x == 0.0 or abs(x) >= SMALLEST_NORMAL)


def ask_trapped(reading: int, n: int, sheet: Sequence[float]) -> Optional[Refused]:
    """Question 9, reading 1 alone: marks stages that get out until no more are found; the lowest other is
    trapped, but an idle stage is not."""
    if reading != LEAVING_RATES:
        return None
    sizes, leaving = sheet_parts(n, sheet)
    marked = [s > 0.0 for s in leaving]
    count = -1
    while sum(marked) != count:
        count = sum(marked)
        marked = [marked[i] or any(sizes[i][j] != 0.0 and marked[j] for j in range(n)) for i in range(n)]
    trapped = [i for i in live_stages(reading, n, sheet) if not marked[i]]
    return Refused(9, trapped[0] + 1) if trapped else None


def ask_places(reading: int, n: int, sheet: Sequence[float]) -> Optional[Refused]:
    """Questions 6 to 8, each asked of the whole sheet before the next."""
    return ask_finite(n, sheet) or ask_signs(reading, n, sheet) or ask_normal(n, sheet)


def ask_numbers(reading: int, n: int, sheet: Sequence[float]) -> Optional[Refused]:
    """Questions 6 to 9."""
    return ask_places(reading, n, sheet) or ask_trapped(reading, n, sheet)


def ask_power(k: int) -> Optional[Refused]:
    """Question 15 (02, U4): is k from −512 to 512?"""
    return None if -FURTHEST_POWER <= k <= FURTHEST_POWER else Refused(15)


def ask_new_unit(e: int, k: int) -> Optional[Refused]:
    """Question 17 (02, U5), asked after 15: is e + k from −512 to 512?"""
    return Refused(17) if ask_unit(e + k) else None


def times_power(x: float, k: int) -> Fraction:
    """The exact x·2^k of a finite x, whether or not a float holds it."""
    return Fraction(x) * Fraction(2) ** k


def ask_results(n: int, sheet: Sequence[float], k: int) -> Optional[Refused]:
    """Question 16 (02, U4): is every exact result zero, or in size neither above the largest finite number nor
    below 2^-1022?  Weights are not moved."""
    sizes = [abs(times_power(x, k)) for x in square(n, sheet)]
    return None if all(size == 0 or SMALLEST_NORMAL <= size <= LARGEST for size in sizes) else Refused(16)


def ask_price_count(n: int, prices: Sequence[float]) -> Optional[Refused]:
    """Question 18 (02, U7), asked after 4: are there n prices?"""
    return None if len(prices) == n else Refused(18)


def ask_prices(prices: Sequence[float]) -> Optional[Refused]:
    """Question 19 (02, U7), asked after 9: is every price finite, not negative, and zero or at least 2^-1022?  One
    search for all these faults; the first price that has one is the row."""
    for j, price in enumerate(prices):
        if not (math.isfinite(price) and price >= 0.0 and (price == 0.0 or price >= SMALLEST_NORMAL)):
            return Refused(19, j + 1)
    return None


# ==== The services ====

def invert(reading: int, n: int, sheet: Sequence[float]) -> Union[Matrix, Refused]:
    """The table by its reading's steps, or question 10's no.  Idle stages are left out of the steps, and every
    entry in an idle row or column is plus zero."""
    live = live_stages(reading, n, sheet)
    parts = live_parts(n, sheet, live)
    try:
        x = (invert_margins(*parts) if reading == MARGINS
             else invert_leaving_rates(*parts, weights_of(reading, n, sheet)))
    except OutOfRange:
        return Refused(10)
    return own_rows(n, live, x, 0.0)


def ask_sheet(reading: int, n: int, e: int, sheet: Sequence[object]) -> Optional[Refused]:
    """Questions 1, 2, 12 and 3, in this order."""
    return ask_reading(reading) or ask_size(n) or ask_unit(e) or ask_sheet_length(reading, n, sheet)


def table(reading: int, n: int, e: int, sheet: Sequence[float], area_length: int) -> Union[Table, Refused]:
    """The whole table in the sheet's unit, 2^e seconds: questions 1, 2, 12, 3, 4, 6, 7, 8, 9, 10."""
    refusal = ask_sheet(reading, n, e, sheet) or ask_area(n * n, area_length) or ask_numbers(reading, n, sheet)
    if refusal:
        return refusal
    x = invert(reading, n, sheet)
    if isinstance(x, Refused):
        return x
    return Table(n, allowance(reading, n), [number for row in x for number in row])


def entry(reading: int, n: int, e: int, sheet: Sequence[float], i: int, j: int) -> Union[Seconds, Refused]:
    """One entry: questions 1, 2, 12, 3, 5, 6, 7, 8, 9, 10; stages i and j are numbered from 1."""
    refusal = ask_sheet(reading, n, e, sheet) or ask_stages(n, i, j) or ask_numbers(reading, n, sheet)
    if refusal:
        return refusal
    x = invert(reading, n, sheet)
    return x if isinstance(x, Refused) else Seconds(x[i - 1][j - 1])


def column(reading: int, n: int, e: int, sheet: Sequence[float], stage: int,
           area_length: int) -> Union[Column, Refused]:
    """One column (02, U2): questions 1, 2, 12, then 3 to 10, of which 1 asks for reading 1, 4 for n numbers and 5
    about the one stage; 10 looks at the steps that serve every column and at those of this column of b, and at no
    other.  For an idle stage all steps of the others are taken with a column of zeros."""
    refusal = (ask_leaving_rates(reading) or ask_sheet(reading, n, e, sheet) or ask_area(n, area_length)
               or ask_stages(n, stage) or ask_numbers(reading, n, sheet))
    if refusal:
        return refusal
    live = live_stages(reading, n, sheet)
    own = live.index(stage - 1) if stage - 1 in live else None
    try:
        entries = solve_column(eliminate(*live_parts(n, sheet, live)), own)
    except OutOfRange:
        return Refused(10)
    return Column(own_places(n, live, entries, 0.0), allowance(reading, n))


def request_price(row: Sequence[float], prices: Sequence[float]) -> float:
    """The price at a stage (02, U7): starts at plus zero and adds entry (i, j) times price j, j rising."""
    return running_sum(0.0, (mul(x, price) for x, price in zip(row, prices, strict=True)))


def request_prices(reading: int, n: int, e: int, sheet: Sequence[float], prices: Sequence[float],
                   area_length: int) -> Union[Prices, Refused]:
    """The price of a request by its entry stage (02, U7): questions 1, 2, 12, 3, 4 for n numbers, 18, 6 to 9, 19, and
    10 of the whole table's steps and of these."""
    refusal = (ask_sheet(reading, n, e, sheet) or ask_area(n, area_length) or ask_price_count(n, prices)
               or ask_numbers(reading, n, sheet) or ask_prices(prices))
    if refusal:
        return refusal
    x = invert(reading, n, sheet)
    if isinstance(x, Refused):
        return x
    try:
        return Prices([request_price(row, prices) for row in x], price_allowance(reading, n))
    except OutOfRange:
        return Refused(10)


def move(reading: int, n: int, e: int, sheet: Sequence[float], k: int, area_length: int) -> Union[Moved, Refused]:
    """Every number times 2^k, which makes the unit 2^(e + k) seconds (02, U4 and U5), and the weights as they are
    (02, U10): questions 1, 2, 12, 3, 4 for the whole sheet, 6, 7 and 8, then 15, 17 and 16, and no other."""
    refusal = (ask_sheet(reading, n, e, sheet) or ask_area(len(sheet), area_length) or ask_places(reading, n, sheet)
               or ask_power(k) or ask_new_unit(e, k) or ask_results(n, sheet, k))
    return refusal or Moved([*(moved_number(x, k) for x in square(n, sheet)), *sheet[n * n:]], e + k)


def moved_number(x: float, k: int) -> float:
    """The float that is x·2^k; a zero keeps its sign."""
    exact = times_power(x, k)
    result = x if exact == 0 else float(exact)
    if Fraction(result) != exact:
        raise ArithmeticError(f"no float is {x} times 2^{k}")
    return result


# ==== The sheet file and the dwell program (01, "The sheet file"; 02, U5 and U10) ====

HEAD, SHEET_ROW, SHEET_WEIGHTS = 1, 2, 3    # kinds of records
LENGTH_AND_KIND = "<IH"     # what stands before the payload of a record, little-endian like all
HEAD_PAYLOAD = "<HHh"       # reading, n and a signed e: what is written
SHORT_HEAD_PAYLOAD = "<HH"  # document 01's head, which is still read: e is 0


def records_due(reading: int, n: int) -> list[tuple[int, bytes]]:
    """The records after the head, in order: the kind of each, and what its payload has before n 64-bit words.  A row
    has its number there, and the weights of reading 3, which are due as row n + 1, nothing."""
    rows = [(SHEET_ROW, struct.pack("<H", row)) for row in range(1, n + 1)]
    return [*rows, (SHEET_WEIGHTS, b"")] if reading == WEIGHTS else rows


def n_words(n: int) -> str:
    """The form of n 64-bit words."""
    return f"<{n}Q"


def file_length(reading: int, n: int) -> int:
    """The bytes of the file of n stages that is written."""
    payloads = [struct.calcsize(HEAD_PAYLOAD)]
    payloads += [len(before) + struct.calcsize(n_words(n)) for _, before in records_due(reading, n)]
    return sum(struct.calcsize(LENGTH_AND_KIND) + payload for payload in payloads)


LONGEST_FILE = file_length(WEIGHTS, LIMIT)


def record(kind: int, payload: bytes) -> bytes:
    """A record: 4-byte length of the payload, 2-byte kind, the payload, little-endian."""
    return struct.pack(LENGTH_AND_KIND, len(payload), kind) + payload


def make_head(reading: int, n: int, e: int) -> bytes:
    """The head of a file."""
    return record(HEAD, struct.pack(HEAD_PAYLOAD, reading, n, e))


def make_short_head(reading: int, n: int) -> bytes:
    """The head of a file by document 01 alone."""
    return record(HEAD, struct.pack(SHORT_HEAD_PAYLOAD, reading, n))


def make_records(reading: int, n: int, words: Sequence[int]) -> bytes:
    """The records of a file after its head: its rows, and in reading 3 its weights."""
    return b"".join(record(kind, before + struct.pack(n_words(n), *words[at * n:(at + 1) * n]))
                    for at, (kind, before) in enumerate(records_due(reading, n)))


def make_file_words(reading: int, n: int, e: int, words: Sequence[int]) -> bytes:
    """The sheet file of a sheet of 64-bit words in units of 2^e seconds."""
    return make_head(reading, n, e) + make_records(reading, n, words)


def make_file(reading: int, n: int, e: int, numbers: Sequence[float]) -> bytes:
    """The sheet file of a sheet of numbers."""
    return make_file_words(reading, n, e, [bits_of(x) for x in numbers])


def make_short_file_words(reading: int, n: int, words: Sequence[int]) -> bytes:
    """The sheet file with document 01's head, which says no unit."""
    return make_short_head(reading, n) + make_records(reading, n, words)


def make_short_file(reading: int, n: int, numbers: Sequence[float]) -> bytes:
    """The same of a sheet of numbers."""
    return make_short_file_words(reading, n, [bits_of(x) for x in numbers])


def read_record(data: bytes, at: int) -> Optional[tuple[int, bytes, int]]:
    """Kind, payload and end of the record that starts here; None where bytes are missing (11)."""
    start = at + struct.calcsize(LENGTH_AND_KIND)
    if start > len(data):
        return None
    length, kind = struct.unpack_from(LENGTH_AND_KIND, data, at)
    end = start + length
    return None if end > len(data) else (kind, data[start:end], end)


def records_of(data: bytes) -> list[bytes]:
    """The records of a file up to the first that misses bytes."""
    found = read_record(data, 0)
    return [data[:found[2]], *records_of(data[found[2]:])] if found else []


def read_head(payload: bytes) -> Optional[tuple[int, int, int]]:
    """Reading, n and e of a head's payload; None where it is no head's (12)."""
    if len(payload) == struct.calcsize(SHORT_HEAD_PAYLOAD):
        reading, n = struct.unpack(SHORT_HEAD_PAYLOAD, payload)
        e = IN_SECONDS
    elif len(payload) == struct.calcsize(HEAD_PAYLOAD):
        reading, n, e = struct.unpack(HEAD_PAYLOAD, payload)
    else:
        return None
    return None if ask_reading(reading) or ask_size(n) or ask_unit(e) else (reading, n, e)


def load(data: bytes, area_length: int) -> Union[Loaded, Refused]:
    """File reading: 11 to 14 record by record, then questions 1, 2 and 4."""
    head = read_record(data, 0)
    if head is None:
        return Refused(11, 0)
    kind, payload, at = head
    said = read_head(payload) if kind == HEAD else None
    if said is None:
        return Refused(12)
    reading, n, e = said
    words: list[int] = []
    for row, (kind_due, before) in enumerate(records_due(reading, n), 1):
        found = read_record(data, at)
        if found is None:
            return Refused(11, row)
        kind, payload, at = found
        numbers = payload[len(before):]
        if kind != kind_due or not payload.startswith(before) or len(numbers) != struct.calcsize(n_words(n)):
            return Refused(13, row)
        words += struct.unpack(n_words(n), numbers)
    if at != len(data):
        return Refused(14)
    return ask_reading(reading) or ask_size(n) or ask_area(len(words), area_length) or Loaded(reading, n, e, words)


def save(reading: int, n: int, e: int, words: Sequence[int], area_length: int) -> Union[Saved, Refused]:
    """Saving (02, U1 and U5): questions 1, 2, 12, 3, then 4, which asks for the bytes of the file, and no other."""
    refusal = ask_sheet(reading, n, e, words) or ask_area(file_length(reading, n), area_length)
    return refusal or Saved(make_file_words(reading, n, e, words))


def save_numbers(reading: int, n: int, e: int, sheet: Sequence[float], area_length: int) -> Union[Saved, Refused]:
    """Saving a sheet of numbers: each by its bits, and a NaN as the one NaN."""
    return save(reading, n, e, [word_of(number) for number in sheet], area_length)


def table_of_stream(stream: bytes) -> Union[tuple[Loaded, Table], Refused]:
    """The sheet and table of a file; at most one byte more than the longest file is judged."""
    sheet = load(stream[:LONGEST_FILE + 1], MOST_NUMBERS)
    if isinstance(sheet, Refused):
        return sheet
    answer = table(sheet.reading, sheet.n, sheet.e, sheet.numbers, LIMIT * LIMIT)
    return answer if isinstance(answer, Refused) else (sheet, answer)


def dwell(stream: bytes) -> str:
    """What the dwell program prints, each line ended by a newline."""
    found = table_of_stream(stream)
    if isinstance(found, Refused):
        return refused_line(found)
    sheet, answer = found
    lines = [f"seconds {answer.n} {answer.allowance} {sheet.e}\n"]
    for place, x in enumerate(answer.entries):
        lines.append(f"{place // answer.n + 1} {place % answer.n + 1} {bits_of(x):016x}\n")
    return "".join(lines)


def refused_line(refusal: Refused) -> str:
    """The line that the dwell program prints for a refusal."""
    return f"refused {refusal.number} {refusal.row} {refusal.column}\n"


# ==== The exact side (01, "The sheet and its two readings", the accuracy rule; 02, U10) ====

Quotient = tuple[int, int]      # numerator and positive denominator, compared by multiplying across
Inverse = list[list[Quotient]]
FractionMatrix = list[list[Fraction]]
EXACT_MARGINS_LIMIT = 6         # the exact a_ii of margins double their digits with every stage


def exact_from_row_sums(t: FractionMatrix, s: list[Fraction], z: list[Fraction]) -> list[Fraction]:
    """The exact a_ii for which s = Az: s_i plus all t_ij·z_j, divided by z_i.  The row sums of leaving rates are Az
    with every weight 1."""
    return [(s_i + sum(t_ij * z_j for t_ij, z_j in zip(row, z, strict=True))) / z_i
            for row, s_i, z_i in zip(t, s, z, strict=True)]


def exact_from_margins(t: FractionMatrix, d: list[Fraction], trim: Callable[[Fraction], Fraction]) -> list[Fraction]:
    """The exact a_ii of margins; every k_i = h_i / a_ii is trimmed, which the exact matrix does not do."""
    a: list[Fraction] = []
    k: list[Fraction] = []
    for i, margin in enumerate(d):
        h = sum((t[i][j] * k[j] for j in range(i)), Fraction(0)) + sum(t[i][i + 1:], Fraction(0))
        a.append(margin + h)
        k.append(trim(h / a[i]))
    return a


def exact_matrix(reading: int, n: int, sheet: Sequence[float],
                 trim: Callable[[Fraction], Fraction] = lambda k: k) -> FractionMatrix:
    """The exact matrix A that the sheet stands for."""
    sizes, parameters = sheet_parts(n, sheet)
    t = [[Fraction(x) for x in row] for row in sizes]
    diagonal = [Fraction(x) for x in parameters]
    weights = [Fraction(z) for z in weights_of(reading, n, sheet) or [1.0] * n]
    a = exact_from_margins(t, diagonal, trim) if reading == MARGINS else exact_from_row_sums(t, diagonal, weights)
    return [[a[i] if i == j else -t[i][j] for j in range(n)] for i in range(n)]


def whole_matrix(matrix: FractionMatrix) -> tuple[list[list[int]], list[Fraction], list[int]]:
    """Whole numbers M with row factors R and column divisors C, M_ij = R_i · A_ij / C_j, kept short."""
    n = len(matrix)
    rows, factors = [], []
    for row in matrix:
        common = math.lcm(*(x.denominator for x in row))
        whole = [x.numerator * (common // x.denominator) for x in row]
        shared = math.gcd(*whole)
        rows.append([x // shared for x in whole])
        factors.append(Fraction(common, shared))
    divisors = [math.gcd(*(rows[i][j] for i in range(n))) for j in range(n)]
    return [[row[j] // divisors[j] for j in range(n)] for row in rows], factors, divisors


def adjugate(m: list[list[int]]) -> Optional[tuple[list[list[int]], int]]:
    """Z and D > 0 with M·Z = D·identity, by fraction-free (Bareiss) elimination and back substitution.

    None where some leading minor is not positive: then a matrix without positive off-diagonals is no
    nonsingular M-matrix.
    """
    n = len(m)
    u = [list(m[i]) + [1 if i == j else 0 for j in range(n)] for i in range(n)]
    previous = 1
    for k in range(n):
        p = u[k][k]
        if p <= 0:
            return None
        for i in range(k + 1, n):
            factor = u[i][k]
            for j in range(k, 2 * n):
                if u[i][j] or (factor and u[k][j]):
                    u[i][j] = (p * u[i][j] - factor * u[k][j]) // previous
        previous = p
    z = [[0] * n for _ in range(n)]
    for i in range(n - 1, -1, -1):
        for j in range(n):
            rest = sum(u[i][l] * z[l][j] for l in range(i + 1, n) if u[i][l] and z[l][j])
            z[i][j] = (previous * u[i][n + j] - rest) // u[i][i]
    for i in range(n):
        for j in range(n):
            product = sum(m[i][l] * z[l][j] for l in range(n) if m[i][l])
            if product != (previous if i == j else 0):
                raise ArithmeticError("M·Z is not D times the identity")
    return z, previous


def inverse_of(matrix: FractionMatrix) -> Optional[Inverse]:
    """The exact inverse, checked by A times X = identity in whole numbers; None as for adjugate."""
    whole, factors, divisors = whole_matrix(matrix)
    solved = adjugate(whole)
    if solved is None:
        return None
    z, determinant = solved
    n = len(matrix)
    return [[(z[i][j] * factors[j].numerator, determinant * factors[j].denominator * divisors[i])
             for j in range(n)] for i in range(n)]


def rounded(q: Fraction, digits: int, up: bool) -> Fraction:
    """A number of so many binary digits just below or just above q ≥ 0."""
    if q == 0:
        return q
    shift = digits - q.numerator.bit_length() + q.denominator.bit_length()
    scaled = q * Fraction(2) ** shift
    return (math.ceil(scaled) if up else math.floor(scaled)) / Fraction(2) ** shift


def exact_bounds(reading: int, n: int, sheet: Sequence[float]) -> tuple[Inverse, Inverse]:
    """Bounds of the exact inverse, entry by entry; both are the exact inverse where that is short enough.

    It is the inverse over the stages that are not idle, each under its own number, and zero in an idle row or
    column (02, U3).

    The exact a_ii of margins grow beyond reach with n.  With k_i trimmed downward every a_ii is at most
    the exact one; if that matrix is a nonsingular M-matrix so is A, and its inverse is nowhere below A's
    (L^-1 − A^-1 = A^-1 (A − L) L^-1).  Trimmed upward the same holds the other way round.  Digits are
    added until the two agree to 2^-64.
    """
    if reading == MARGINS and n > EXACT_MARGINS_LIMIT:
        return trimmed_bounds(reading, n, sheet)
    live = live_stages(reading, n, sheet)
    inverse = inverse_of(compact(live, exact_matrix(reading, n, sheet)))
    if inverse is None:
        raise ArithmeticError("the exact matrix is no nonsingular M-matrix")
    whole = own_rows(n, live, inverse, (0, 1))
    return whole, whole


def trimmed_bounds(reading: int, n: int, sheet: Sequence[float]) -> tuple[Inverse, Inverse]:
    """The bounds by trimming, for any n (see exact_bounds)."""
    digits = 160
    while True:
        above = inverse_of(exact_matrix(reading, n, sheet, lambda k: rounded(k, digits, False)))
        if above is not None:
            below = inverse_of(exact_matrix(reading, n, sheet, lambda k: rounded(k, digits, True)))
            assert below is not None
            if all(agree(below[i][j], above[i][j]) for i in range(n) for j in range(n)):
                return below, above
        digits *= 2


def agree(low: Quotient, high: Quotient) -> bool:
    """Whether low ≤ high ≤ low·(1 + 2^-64)."""
    left, right = low[0] * high[1], high[0] * low[1]
    return left <= right and right << 64 <= left * (2 ** 64 + 1)


def at_most(left: int, right: int, exponent: int) -> bool:
    """left·(2^53)^E ≤ right·(2^53 + 1)^E for nonnegative whole numbers.

    Bernoulli's 1 + E·u ≤ (1 + u)^E ≤ 1 / (1 − E·u), u = 2^-53, decides nearly always.
    """
    if left << 53 <= right * (2 ** 53 + exponent):
        return True
    if exponent < 2 ** 53 and left * (2 ** 53 - exponent) > right << 53:
        return False
    return left << (53 * exponent) <= right * (2 ** 53 + 1) ** exponent


def near(x: Quotient, y: Quotient, exponent: int) -> bool:
    """The accuracy rule's words for one entry: neither is negative and each is at most the other·(1+u)^E."""
    left, right = x[0] * y[1], y[0] * x[1]
    return left >= 0 and right >= 0 and at_most(left, right, exponent) and at_most(right, left, exponent)


def roundings(x: Quotient, y: Quotient) -> float:
    """The difference over the smaller of the two, in units of 2^-53; infinite where that is no float."""
    left, right = x[0] * y[1], y[0] * x[1]
    try:
        return (abs(left - right) << 53) / min(left, right) if left != right else 0.0
    except (ZeroDivisionError, OverflowError):
        return math.inf


@dataclass(frozen=True)
class EntryError:
    """How far one entry of a table is from the exact one, and whether the accuracy rule allows it."""
    row: int
    column: int
    roundings: float
    allowances: float
    within: bool


def entry_error(i: int, j: int, entry_ij: float, low: Quotient, high: Quotient, most: int) -> EntryError:
    """Compares entry (i, j) with the bounds of the exact one by the accuracy rule."""
    if not math.isfinite(entry_ij):
        return EntryError(i + 1, j + 1, math.inf, math.inf, False)
    x = entry_ij.as_integer_ratio()
    error = max(roundings(x, low), roundings(x, high))
    return EntryError(i + 1, j + 1, error, error / most, near(x, low, most) and near(x, high, most))


def accuracy(reading: int, n: int, sheet: Sequence[float], entries: Sequence[float]) -> list[EntryError]:
    """Compares a table with the exact inverse by the accuracy rule (demand 3)."""
    low, high = exact_bounds(reading, n, sheet)
    most = allowance(reading, n)
    return [entry_error(i, j, entries[i * n + j], low[i][j], high[i][j], most) for i in range(n) for j in range(n)]


def column_accuracy(n: int, sheet: Sequence[float], columns: dict[int, Sequence[float]]) -> list[EntryError]:
    """Compares columns, each under its stage, with those of the exact inverse (02, U2: "The accuracy rule
    covers this column whenever it is accepted")."""
    low, high = exact_bounds(LEAVING_RATES, n, sheet)
    most = allowance(LEAVING_RATES, n)
    return [entry_error(i, stage - 1, entries[i], low[i][stage - 1], high[i][stage - 1], most)
            for stage, entries in columns.items() for i in range(n)]


def exact_price(row: Sequence[Quotient], prices: Sequence[float]) -> Quotient:
    """The sum of y_ij times price j, exactly."""
    total = sum((Fraction(*y) * Fraction(price) for y, price in zip(row, prices, strict=True)), Fraction(0))
    return total.numerator, total.denominator


def price_accuracy(reading: int, n: int, sheet: Sequence[float], prices: Sequence[float],
                   entries: Sequence[float]) -> list[EntryError]:
    """Compares prices with the exact ones, those of the rule's y (02, U7: "The accuracy rule covers prices with n
    added to the exponent"); their errors have column 0."""
    low, high = exact_bounds(reading, n, sheet)
    most = price_allowance(reading, n)
    return [entry_error(i, -1, entries[i], exact_price(low[i], prices), exact_price(high[i], prices), most)
            for i in range(n)]


# ==== Random sheets ====

@dataclass(frozen=True)
class Style:
    """What a random sheet looks like: share of nonzero moves, binary orders that the rates spread to
    either side of 1, binary orders by which the diagonal stays below them, share of nonzero leaving
    rates (reading 1), of stages not kept (reading 2) or of weights that are 1 (reading 3)."""
    density: float
    spread: int
    below: int
    share: float


def random_style(rng: random.Random, widest: int = 300) -> Style:
    """A style; 20 binary orders below the moves is a millionth."""
    spread = min(widest, rng.choice([0, 3, 30, 100, 200, 300]))
    below = rng.choice([0, 0, 20, 60, 200, 400])
    return Style(rng.choice([0.1, 0.3, 0.6, 1.0]), spread, below, rng.choice([0.0, 0.2, 0.5, 1.0]))


def random_size(rng: random.Random, spread: int, below: int = 0) -> float:
    """A positive number 1 ≤ m < 2 times a power of two; often one whose digits round badly."""
    digits = rng.choice([0, 1, 2 ** 52 - 1, rng.getrandbits(52), rng.getrandbits(52), rng.getrandbits(52)])
    return math.ldexp(1.0 + digits * 2.0 ** -52, rng.randint(-spread, spread) - below)


def random_zero(rng: random.Random) -> float:
    """A zero of either sign."""
    return rng.choice([0.0, -0.0])


def random_sheet(rng: random.Random, reading: int, n: int, style: Style) -> list[float]:
    """A sheet that questions 6 to 9 pass."""
    moves = [[j != i and rng.random() < style.density for j in range(n)] for i in range(n)]
    chosen = [rng.random() < style.share for _ in range(n)]
    positive = [True] * n
    if reading == LEAVING_RATES:
        positive = chosen
        let_out(rng, moves, positive)
    elif reading == MARGINS:
        drop_stages(moves, chosen)
    sheet = []
    for i in range(n):
        for j in range(n):
            if i == j:
                sheet.append(random_size(rng, style.spread, style.below) if positive[i] else random_zero(rng))
            else:
                sheet.append(-random_size(rng, style.spread) if moves[i][j] else random_zero(rng))
    if reading == WEIGHTS:
        sheet += [1.0 if one else random_size(rng, style.spread) for one in chosen]
    return sheet


def uneven_sheet(rng: random.Random, n: int) -> list[float]:
    """A sheet of reading 1 that questions 6 to 9 pass and of which often only some columns are in range.

    Moves one way, to later or to earlier stages, are hundreds of binary orders below the others.  The steps
    that serve every column take one such number as a factor, those of b one for each move of a chain.
    """
    later, density, back = rng.random() < 0.5, rng.choice([0.3, 0.6, 1.0]), rng.choice([0.0, 0.3, 1.0])
    below, spread = rng.choice([150, 300, 450, 600, 700]), rng.choice([3, 3, 300])

    def number(i: int, j: int) -> float:
        if i == j:
            return random_size(rng, spread)
        small = (i < j) == later
        if rng.random() >= (density if small else back):
            return random_zero(rng)
        return -random_size(rng, 100, below) if small else -random_size(rng, 3)

    return [number(i, j) for i in range(n) for j in range(n)]


def any_sheet(rng: random.Random, n: int) -> list[float]:
    """A sheet of reading 1 that may be accepted or refused with any number from 6 to 10."""
    sheet = uneven_sheet(rng, n) if rng.random() < 0.4 else random_sheet(rng, LEAVING_RATES, n, random_style(rng))
    if rng.random() < 0.3:
        return [x if rng.random() < 0.3 else random_zero(rng) for x in sheet]
    return spoilt(rng, sheet) if rng.random() < 0.3 else sheet


def spoilt(rng: random.Random, sheet: Sequence[float]) -> list[float]:
    """A sheet with one number, at any place, that questions 6 to 8 may refuse."""
    place = rng.randrange(len(sheet))
    bad = rng.choice([math.nan, math.inf, 1.0, -1.0, 2.0 ** -1074, -2.0 ** -1074, 0.0, -0.0])
    return [*sheet[:place], bad, *sheet[place + 1:]]


def sheet_to_move(rng: random.Random, reading: int, n: int) -> list[float]:
    """A sheet that questions 6 to 8 pass, its rates about any power of two that a float holds, near to one another
    or far apart, and its weights about another one; stages may be trapped or idle."""
    middle, spread, zeros = rng.randint(-1022, 1023), rng.choice([0, 0, 3, 100, 1000]), rng.choice([0.0, 0.3, 0.9])

    def size(about: int) -> float:
        order = min(max(about + rng.randint(-spread, spread), -1022), 1023)
        return math.ldexp(random_size(rng, 0), order)

    def number(i: int, j: int) -> float:
        if rng.random() < zeros and (i != j or reading == LEAVING_RATES):
            return random_zero(rng)
        return math.copysign(size(middle), 1 if i == j else -1)

    sheet = [number(i, j) for i in range(n) for j in range(n)]
    if reading == WEIGHTS:
        about = rng.randint(-1022, 1023)
        sheet += [size(about) for _ in range(n)]
    return sheet


def random_power(rng: random.Random, n: int, sheet: Sequence[float]) -> int:
    """A k from −512 to 512: mostly one that brings the least or the largest number that is moved to an end of the
    range of results, or one power of two to either side of it."""
    orders = [math.frexp(x)[1] - 1 for x in square(n, sheet) if x != 0.0]
    ends = [-1022 - min(orders), 1023 - max(orders)] if orders else []
    near = [k for end in ends for k in (end - 1, end, end + 1) if abs(k) <= FURTHEST_POWER]
    return rng.choice(near) if near and rng.random() < 0.6 else rng.randint(-FURTHEST_POWER, FURTHEST_POWER)


def sheet_to_commute(rng: random.Random, reading: int, n: int) -> tuple[list[float], int]:
    """A sheet and a power to move it by: often one for which both tables are in range, or only one of them."""
    kind = rng.random()
    if kind < 0.3:
        sheet = sheet_to_move(rng, reading, n)
        return sheet, random_power(rng, n, sheet)
    if kind < 0.5 and reading == LEAVING_RATES:
        sheet = uneven_sheet(rng, n)
    else:
        sheet = random_sheet(rng, reading, n, random_style(rng, rng.choice([3, 30, 300])))
    if kind > 0.8 and reading == LEAVING_RATES:
        sheet = [x if rng.random() < 0.3 else random_zero(rng) for x in sheet]
    return sheet, rng.choice([-1, 1, -10, 10, rng.randint(-100, 100), rng.randint(-512, 512),
                              random_power(rng, n, sheet)])


def random_prices(rng: random.Random, n: int) -> list[float]:
    """Prices that question 19 passes: about 1 or about some other power of two, often one at an end of the range, near
    to one another or far apart, some of them zeros of either sign."""
    middle = rng.choice([0, 0, -1000, 1000, rng.randint(-1000, 1000)])
    spread, zeros = rng.choice([0, 3, 20]), rng.choice([0.0, 0.1, 0.5, 1.0])
    return [random_zero(rng) if rng.random() < zeros else math.ldexp(random_size(rng, spread), middle)
            for _ in range(n)]


def random_unit(rng: random.Random) -> int:
    """The e of a sheet's unit: seconds, ticks of 1/1,024 second, an end of its range, or any other."""
    return rng.choice([IN_SECONDS, -10, -FURTHEST_POWER, FURTHEST_POWER, *(
        rng.randint(-FURTHEST_POWER, FURTHEST_POWER) for _ in range(4))])


def among_idle(rng: random.Random, n: int, sheet: Sequence[float], total: int) -> tuple[list[int], list[float]]:
    """A sheet of n stages among idle ones, so many in all: where its own stages come to stand, in their order,
    and the numbers."""
    live = sorted(rng.sample(range(total), n))
    wide = [random_zero(rng) for _ in range(total * total)]
    for place, x in enumerate(sheet):
        wide[live[place // n] * total + live[place % n]] = x
    return live, wide


def let_out(rng: random.Random, moves: list[list[bool]], positive: list[bool]) -> None:
    """Gives every stage a chain to one stage that leaves."""
    order = list(range(len(positive)))
    rng.shuffle(order)
    positive[order[0]] = True
    for place in range(1, len(order)):
        moves[order[place]][rng.choice(order[:place])] = True


def drop_stages(moves: list[list[bool]], dropped: list[bool]) -> None:
    """Makes h_i zero for the dropped stages: they may point to earlier dropped ones alone, in chains."""
    for i, row in enumerate(moves):
        if dropped[i]:
            for j in range(len(row)):
                row[j] = row[j] and j < i and dropped[j]


def edge_pair(rng: random.Random, reading: int, n: int, sheet: list[float],
              stage: Optional[int] = None) -> Optional[tuple[list[float], list[float]]]:
    """An accepted sheet and one refused with 10, equal but for one number, there one last place apart; for
    the whole table, or for the column of a stage.

    One nonzero number of an accepted sheet is carried towards an end of the range until acceptance
    flips, and then bisected; None where it never flips.
    """
    place = rng.choice([at for at, x in enumerate(sheet) if x != 0.0])

    def with_size(word: int) -> list[float]:
        return sheet[:place] + [math.copysign(number_of(word), sheet[place])] + sheet[place + 1:]

    def out_of_range(word: int) -> bool:
        changed_sheet = with_size(word)
        return Refused(10) == (table(reading, n, IN_SECONDS, changed_sheet, n * n) if stage is None
                               else column(reading, n, IN_SECONDS, changed_sheet, stage, n))

    edge = edge_of_range(rng, bits_of(abs(sheet[place])), out_of_range)
    return (with_size(edge[0]), with_size(edge[1])) if edge else None


def price_edge_pair(rng: random.Random, reading: int, n: int, sheet: Sequence[float],
                    prices: Sequence[float]) -> Optional[tuple[list[float], list[float]]]:
    """Accepted prices and some that are refused with 10, equal but for one price, there one last place apart; None
    where acceptance never flips."""
    place = rng.randrange(n)

    def with_price(word: int) -> list[float]:
        return [*prices[:place], number_of(word), *prices[place + 1:]]

    def out_of_range(word: int) -> bool:
        return Refused(10) == request_prices(reading, n, IN_SECONDS, sheet, with_price(word), n)

    edge = edge_of_range(rng, bits_of(prices[place] or 1.0), out_of_range)
    return (with_price(edge[0]), with_price(edge[1])) if edge else None


def edge_of_range(rng: random.Random, accepted: int, out_of_range: Callable[[int], bool]) -> Optional[tuple[int, int]]:
    """The words of two positive numbers, one last place apart, of which the second is out of range: from one that is
    not towards an end of the range that is; None where there are no such two."""
    ends = [bits_of(SMALLEST_NORMAL), bits_of(LARGEST)]
    flipped = [word for word in rng.sample(ends, 2) if out_of_range(word)]
    if out_of_range(accepted) or not flipped:
        return None
    refused = flipped[0]
    while abs(accepted - refused) > 1:
        middle = (accepted + refused) // 2
        if out_of_range(middle):
            refused = middle
        else:
            accepted = middle
    return accepted, refused


# ==== Self-test.  Expected values come from the papers, from exact fractions or from a calculation by hand. ====

NAN, INF = math.nan, math.inf
LEAST_INT64, GREATEST_INT64 = -2 ** 63, 2 ** 63 - 1
UNITS = [0, -512, -511, -10, -1, 1, 10, 511, 512]       # e in its range, both ends among them
# k and e out of their range, some of them such that their low bytes alone are in it
POWERS_OUT_OF_RANGE = [-513, 513, -1024, 1024, 65535, -65536, 2 ** 32, -2 ** 32, 2 ** 32 + 10, 2 ** 32 - 10,
                       LEAST_INT64, GREATEST_INT64]
P_SHEET = [1.0, -1.0, -1.0, 0.0]
P_TABLE = [1.0, 1.0, 1.0, 2.0]
P_PRINTED = """seconds 2 32 0
1 1 3ff0000000000000
1 2 3ff0000000000000
2 1 3ff0000000000000
2 2 4000000000000000
"""
# With weights, by hand: A is [4, -1 | -1, 1.25], whose determinant is 4.
W_SHEET = [2.0, -1.0, -1.0, 1.5, 1.0, 2.0]
W_TABLE = [0.3125, 0.25, 0.25, 1.0]


class Failed(Exception):
    """A check that did not hold."""


def words_of(answer: Union[Refused, Sequence[float]]) -> Union[Refused, list[str]]:
    """A refusal, or the bits of each number in hexadecimal."""
    return answer if isinstance(answer, Refused) else [f"{bits_of(x):016x}" for x in answer]


def in_reading(reading: int, numbers: Sequence[float]) -> list[float]:
    """n × n numbers as a sheet of a reading: in reading 3 with good weights, at both ends of their range and 1."""
    weights = [1.0, LARGEST, SMALLEST_NORMAL]
    return [*numbers, *weights[:math.isqrt(len(numbers))]] if reading == WEIGHTS else list(numbers)


def units_for_move(k: int) -> list[int]:
    """Some e from which question 17 is answered yes for k, or not asked."""
    return [e for e in UNITS if ask_power(k) or not ask_new_unit(e, k)]


class Checks:
    """Counts the checks and stops at the first that fails."""

    def __init__(self) -> None:
        self.count = 0
        self.units = itertools.cycle(UNITS)

    def unit(self) -> int:
        """An e in its range, another one at each call: no answer but a move's depends on it."""
        return next(self.units)

    def true(self, what: str, holds: bool) -> None:
        self.count += 1
        if not holds:
            raise Failed(what)

    def equal(self, what: str, got: object, expected: object) -> None:
        self.true(f"{what}: got {got}, expected {expected}", got == expected)

    def gives(self, what: str, reading: int, n: int, sheet: Sequence[float],
              expected: Union[Refused, list[float]]) -> None:
        """The whole table and each single entry give these bits, or both services this refusal.  So do the
        columns for reading 1, unless a step is out of range; for readings 2 and 3 they are refused with 1."""
        got = table(reading, n, self.unit(), sheet, n * n)
        if reading != LEAVING_RATES:
            self.equal(f"{what}, one column", column(reading, n, self.unit(), sheet, 1, n), Refused(1))
        if isinstance(expected, Refused):
            self.equal(what, got, expected)
            self.equal(f"{what}, one entry", entry(reading, n, self.unit(), sheet, 1, 1), expected)
            if reading == LEAVING_RATES and expected.number != 10:
                self.equal(f"{what}, one column", column(reading, n, self.unit(), sheet, 1, n), expected)
            return
        self.true(f"{what}: {got}", isinstance(got, Table))
        self.equal(f"{what}, n and allowance", (got.n, got.allowance), (n, (4, 12, 6)[reading - 1] * n * n * n))
        self.equal(what, words_of(got.entries), words_of(expected))
        for place, x in enumerate(expected):
            one = entry(reading, n, self.unit(), sheet, place // n + 1, place % n + 1)
            self.true(f"{what}, one entry: {one}", isinstance(one, Seconds) and bits_of(one.value) == bits_of(x))
        for stage in range(1, n + 1) if reading == LEAVING_RATES else ():
            self.column(f"{what}, column {stage}", n, sheet, stage, expected[stage - 1::n])

    def column(self, what: str, n: int, sheet: Sequence[float], stage: int,
               expected: Union[Refused, Sequence[float]]) -> None:
        """One column of reading 1 gives these bits with their allowance, or this refusal."""
        got = column(LEAVING_RATES, n, self.unit(), sheet, stage, n)
        self.equal(what, words_of(got.entries if isinstance(got, Column) else got), words_of(expected))
        if isinstance(got, Column):
            self.equal(f"{what}, allowance", got.allowance, 4 * n * n * n)

    def prices(self, what: str, reading: int, n: int, sheet: Sequence[float], prices: Sequence[float],
               expected: Union[Refused, Sequence[float]]) -> None:
        """Prices, with just enough room and with more, are these bits with their allowance, or this refusal."""
        for room in (n, n + 5):
            got = request_prices(reading, n, self.unit(), sheet, prices, room)
            self.equal(what, words_of(got.entries if isinstance(got, Prices) else got), words_of(expected))
            if isinstance(got, Prices):
                self.equal(f"{what}, allowance", got.allowance, (4, 12, 6)[reading - 1] * n * n * n + n)

    def moves(self, what: str, reading: int, n: int, sheet: Sequence[float], k: int,
              expected: Union[Refused, Sequence[float]]) -> None:
        """Moving by 2^k, with just enough room and with more, gives these bits and e + k, or this refusal, which is
        not 17."""
        units = units_for_move(k)
        for room, e in ((len(sheet), units[0]), (len(sheet) + 5, units[-1])):
            got = move(reading, n, e, sheet, k, room)
            self.equal(f"{what}, times 2^{k}", words_of(got.numbers if isinstance(got, Moved) else got),
                       words_of(expected))
            if isinstance(got, Moved):
                self.equal(f"{what}, e + k", got.e, e + k)


def test_document_sheets(check: Checks) -> None:
    """All of "Sheets to try"; B and D as 02, U3 has them; sheets with weights (02, U10)."""
    for name, reading, n, sheet, expected in [
            ("A", 1, 1, [2.0], [0.5]),
            ("B", 1, 1, [0.0], [0.0]),
            ("P", 1, 2, P_SHEET, P_TABLE),
            ("C", 1, 2, [0.0, -1.0, -1.0, 0.0], Refused(9, 1, 0)),
            ("D", 1, 2, [1.0, 0.0, 0.0, 0.0], [1.0, 0.0, 0.0, 0.0]),
            ("E", 1, 1, [2.0 ** 1021], [2.0 ** -1021]),
            ("F", 1, 1, [2.0 ** 1022], Refused(10, 0, 0)),
            ("G", 2, 1, [0.0], Refused(7, 1, 1)),
            ("H", 2, 2, [3.0, -1.0, -4.0, 1.0], [0.5, 0.25, 1.0, 1.0]),
            ("I", 2, 2, [2.0, 0.0, -1.0, 4.0], [0.5, 0.0, 0.125, 0.25]),
            ("J", 1, 2, [1.0, NAN, 5.0, 1.0], Refused(6, 1, 2)),
            ("K", 1, 1, [3.0], [number_of(0x3fd5555555555555)]),
            ("n = 0", 1, 0, [], Refused(2, 0, 0)),
            ("n = 33", 1, 33, [1.0] * 1089, Refused(2, 0, 0)),
            ("-2^-1074 off the diagonal", 1, 2, [1.0, -2.0 ** -1074, 0.0, 1.0], Refused(8, 1, 2)),
            # -2^-1022 passes 8: here a quotient is then 2^-1022 itself, and here all steps are in range
            ("-2^-1022 off the diagonal", 1, 2, [1.0, -2.0 ** -1022, 0.0, 1.0], Refused(10, 0, 0)),
            ("-2^-1022, in range", 1, 2, [1.0, -2.0 ** -1022, 0.0, 2.0 ** -10],
             [1.0, 2.0 ** -1012, 0.0, 2.0 ** 10]),
            # with weights 1 a product is 2^-1022 itself
            ("-2^-1022 with weights", 3, 2, [1.0, -2.0 ** -1022, 0.0, 2.0 ** -10, 1.0, 1.0], Refused(10, 0, 0)),
            ("W", 3, 2, W_SHEET, W_TABLE), ("one stage with a weight", 3, 1, [2.0, 0.5], [0.25])]:
        check.gives(f"sheet {name}", reading, n, sheet, expected)
    check.equal("matrix of H", exact_matrix(2, 2, [3.0, -1.0, -4.0, 1.0]), [[4, -1], [-4, 2]])
    check.equal("matrix of W", exact_matrix(3, 2, W_SHEET), [[4, -1], [-1, Fraction(5, 4)]])


def test_order_and_places(check: Checks) -> None:
    """The questions in order, each asked of the whole sheet before the next, with their places."""
    two_to_1022 = 2.0 ** 1022
    check.gives("6 before 7", 1, 2, [5.0, 1.0, NAN, 1.0], Refused(6, 2, 1))
    check.gives("7 before 8", 1, 2, [1.0, -2.0 ** -1074, 1.0, 1.0], Refused(7, 2, 1))
    check.gives("8 before 9", 1, 2, [0.0, -2.0 ** -1074, 0.0, 0.0], Refused(8, 1, 2))
    check.gives("8 on the diagonal", 2, 2, [1.0, 0.0, 0.0, 2.0 ** -1074], Refused(8, 2, 2))
    check.gives("9 before 10", 1, 2, [two_to_1022, -1.0, 0.0, 0.0], Refused(9, 2, 0))
    check.gives("infinite is 6", 1, 2, [1.0, 0.0, 0.0, INF], Refused(6, 2, 2))
    check.gives("-infinite is 6", 2, 1, [-INF], Refused(6, 1, 1))
    check.gives("negative diagonal", 1, 2, [1.0, 0.0, 0.0, -1.0], Refused(7, 2, 2))
    check.gives("negative diagonal, margins", 2, 1, [-1.0], Refused(7, 1, 1))
    check.gives("lowest trapped stage", 1, 4, [0.0, 0.0, 0.0, -1.0, 0.0, 0.0, -1.0, 0.0,
                                               0.0, -1.0, 0.0, 0.0, 0.0, 0.0, 0.0, 1.0], Refused(9, 2, 0))
    for reading in (0, 4, 2 ** 64 - 1):
        check.equal("1 before 2", table(reading, 0, 513, [], 0), Refused(1))
        check.equal("1 before 2, entry", entry(reading, 0, 513, [], 0, 0), Refused(1))
    for reading in READINGS:
        for n in (0, 33, 2 ** 32, 2 ** 63, 2 ** 64 - 1):
            check.equal("2 before 12", table(reading, n, -513, [NAN], 0), Refused(2))
            check.equal("2 before 12, entry", entry(reading, n, 513, [NAN], 0, 0), Refused(2))
        for length in {0, 1, 3, 4, 5, 6, 7} - {6 if reading == 3 else 4}:
            check.equal("3 before 4", table(reading, 2, -512, [NAN] * length, 0), Refused(3))
            check.equal("3 before 5", entry(reading, 2, 512, [NAN] * length, 0, 0), Refused(3))
    check.equal("4 before 6", table(1, 1, 0, [NAN], 0), Refused(4))
    check.equal("4 before 6, weights", table(3, 1, 0, [NAN, NAN], 0), Refused(4))
    for reading, sheet in ((1, P_SHEET), (3, W_SHEET)):
        check.equal("area one short", table(reading, 2, -10, sheet, 3), Refused(4))
        check.true("a larger area", isinstance(table(reading, 2, 10, sheet, 2000), Table))
    check.equal("5 before 6", entry(1, 1, 0, [NAN], 2, 1), Refused(5))
    for i, j in [(0, 1), (1, 0), (3, 1), (1, 3), (2 ** 64 - 1, 1), (1, 2 ** 64 - 1)]:
        check.equal("5", entry(1, 2, check.unit(), P_SHEET, i, j), Refused(5))
        check.equal("5, weights", entry(3, 2, check.unit(), W_SHEET, i, j), Refused(5))
    check.equal("entry of a refused table", entry(1, 2, 0, [1.0, 0.0, 0.0, two_to_1022], 1, 1), Refused(10))


def test_places_of_weights(check: Checks) -> None:
    """Questions 6 to 8 with weights (02, U10): each of the whole sheet, weights included, before the next; a bad
    weight stands at row n + 1, column j.  9 is not asked."""
    tiny, good = 2.0 ** -1074, [1.0, -1.0, -1.0, 1.0]
    for what, numbers, weights, expected in [
            ("6 of a weight before 7", [0.0], [NAN], Refused(6, 2, 1)),
            ("a weight that is zero", [2.0], [0.0], Refused(7, 2, 1)),
            ("a weight that is minus zero", [2.0], [-0.0], Refused(7, 2, 1)),
            ("a weight that is negative", [2.0], [-1.0], Refused(7, 2, 1)),
            ("a weight that is infinite", [2.0], [INF], Refused(6, 2, 1)),
            ("a weight that is minus infinite", [2.0], [-INF], Refused(6, 2, 1)),
            ("a weight that is too small", [2.0], [tiny], Refused(8, 2, 1)),
            ("a weight just too small", [2.0], [number_of(bits_of(SMALLEST_NORMAL) - 1)], Refused(8, 2, 1)),
            ("a diagonal that is zero", [0.0], [1.0], Refused(7, 1, 1)),
            ("a diagonal that is minus zero", [-0.0], [1.0], Refused(7, 1, 1)),
            ("the diagonal before the weight", [0.0], [0.0], Refused(7, 1, 1)),
            ("no idle stages", [1.0, 0.0, 0.0, 0.0], [1.0, 1.0], Refused(7, 2, 2)),
            ("the first weight", good, [NAN, INF], Refused(6, 3, 1)),
            ("the last weight", good, [1.0, -1.0], Refused(7, 3, 2)),
            ("6 of the last weight before 7 of a row", [1.0, 1.0, 0.0, 1.0], [0.0, INF], Refused(6, 3, 2)),
            ("6 of a row before 6 of a weight", [1.0, 0.0, NAN, 1.0], [NAN, 1.0], Refused(6, 2, 1)),
            ("7 of a weight before 8 of a row", [1.0, -tiny, 0.0, 1.0], [1.0, 0.0], Refused(7, 3, 2)),
            ("7 of a weight before 8 of one before", good, [tiny, -1.0], Refused(7, 3, 2)),
            ("8 of a row before 8 of a weight", [1.0, -1.0, 0.0, tiny], [tiny, 1.0], Refused(8, 2, 2)),
            ("8 of a weight before 10", [1.0, -LARGEST, 0.0, 2.0 ** 1022], [1.0, tiny], Refused(8, 3, 2))]:
        check.gives(what, WEIGHTS, math.isqrt(len(numbers)), [*numbers, *weights], expected)


def faults(reading: int, n: int, sheet: Sequence[float]) -> list[tuple[int, int, int]]:
    """Every place that one of questions 6 to 8 refuses, by its bits: question, row and column."""
    found = []
    for place, x in enumerate(sheet):
        row, column, word = place // n + 1, place % n + 1, bits_of(x)
        move, size = row <= n and row != column, word % 2 ** 63
        wrong_sign = word >> 63 != move if size else not move and reading != LEAVING_RATES
        found += [(question, row, column) for question, bad in (
            (6, size >= 0x7ff << 52), (7, wrong_sign), (8, 0 < size < 1 << 52)) if bad]
    return found


def test_random_places(check: Checks, rng: random.Random) -> None:
    """Spoilt sheets of each reading: the least of all faults, by question, then row, then column, is told."""
    told: Counter[tuple[int, int, bool]] = Counter()
    for at in range(3000):
        reading, n = rng.choice(READINGS), rng.randint(1, 4) if at % 100 else LIMIT
        sheet = random_sheet(rng, reading, n, random_style(rng, 3))
        for _ in range(rng.randint(1, 4)):
            sheet = spoilt(rng, sheet)
        expected = min(faults(reading, n, sheet), default=None)
        check.equal(f"6 to 8 of {sheet}", ask_places(reading, n, sheet), Refused(*expected) if expected else None)
        if expected:
            told[reading, expected[0], expected[1] > n] += 1
    for reading, of_weight in [*((reading, False) for reading in READINGS), (WEIGHTS, True)]:
        for question in (6, 7, 8):
            case = reading, question, of_weight
            check.true(f"{case}: {told[case]}", told[case] > 20)


def test_zeros(check: Checks) -> None:
    """A zero of either sign counts as plus zero, and a table's zeros are plus zero."""
    check.gives("minus zero, leaving rate", 1, 2, [-0.0, -1.0, -1.0, -0.0], Refused(9, 1, 0))
    check.gives("minus zero, margin", 2, 2, [1.0, 0.0, 0.0, -0.0], Refused(7, 2, 2))
    check.gives("P with minus zero", 1, 2, [1.0, -1.0, -1.0, -0.0], P_TABLE)
    for zero in (0.0, -0.0):
        check.gives("diagonal sheet", 1, 2, [2.0, zero, zero, 4.0], [0.5, 0.0, 0.0, 0.25])
        check.gives("diagonal sheet, margins", 2, 2, [2.0, zero, zero, 4.0], [0.5, 0.0, 0.0, 0.25])
        check.gives("I", 2, 2, [2.0, zero, -1.0, 4.0], [0.5, 0.0, 0.125, 0.25])
        check.gives("diagonal sheet, weights", 3, 2, [2.0, zero, zero, 4.0, 1.0, 2.0], [0.5, 0.0, 0.0, 0.5])


def test_range(check: Checks) -> None:
    """The range test of a single step, and the sheets at its edge."""
    least = number_of(bits_of(SMALLEST_NORMAL) + 1)
    for what, step, expected in [
            ("product at 2^-1022", lambda: mul(2.0 ** -500, 2.0 ** -522), False),
            ("product above it", lambda: mul(least, 1.0), True),
            ("product with zero", lambda: mul(0.0, 2.0 ** -1022), True),
            ("product that vanishes", lambda: mul(2.0 ** -600, 2.0 ** -600), False),
            ("product that overflows", lambda: mul(2.0 ** 600, 2.0 ** 600), False),
            ("quotient at 2^-1022", lambda: div(1.0, 2.0 ** 1022), False),
            ("quotient above it", lambda: div(least, 1.0), True),
            ("quotient of zero", lambda: div(0.0, 3.0), True),
            ("quotient that overflows", lambda: div(2.0 ** 600, 2.0 ** -600), False),
            ("sum that overflows", lambda: add(LARGEST, LARGEST), False),
            ("largest sum", lambda: add(LARGEST, 1.0), True),
            ("smallest sum", lambda: add(0.0, 2.0 ** -1022), True)]:
        check.equal(what, in_range(step), expected)
    check.gives("a product rounds to 2^-1022", 1, 2,
                [(1 + 2.0 ** -52) * 2.0 ** -500, -1.0, -(1 - 2.0 ** -53) * 2.0 ** -522, 1.0], Refused(10))
    check.gives("a quotient just above 2^-1022", 1, 1, [2.0 ** 1022 - 2.0 ** 969], [number_of(0x0010000000000001)])
    tiny = 2.0 ** -1022
    check.gives("d_2 / a_2 beside a zero t_12", 2, 3, [1.0, 0.0, -1.0, 0.0, tiny, -1.0, 0.0, 0.0, 1.0], Refused(10))
    check.gives("d_1 / a_1 is never taken", 2, 2, [tiny, -1.0, 0.0, 1.0], [1.0, 1.0, 0.0, 1.0])
    check.gives("a weighted size just above 2^-1022", 3, 2, [1.0, -2 * tiny, 0.0, 2.0 ** -10, 1.0, 1.0],
                [1.0, 2.0 ** -1011, 0.0, 2.0 ** 10])
    check.gives("a weighted size rounds to 2^-1022", 3, 2,
                [1.0, -(1 + 2.0 ** -52) * 2.0 ** -500, 0.0, 1.0, 1.0, (1 - 2.0 ** -53) * 2.0 ** -522], Refused(10))
    check.gives("a zero size beside a small weight", 3, 2, [1.0, 0.0, 0.0, 2.0 ** 10 * tiny, 1.0, tiny],
                [1.0, 0.0, 0.0, 2.0 ** -10])
    check.gives("a weighted sum over its weight is 2^-1022", 3, 1, [2.0 ** -511, 2.0 ** 511], Refused(10))
    check.gives("it is just above", 3, 1, [2.0 ** -511, 2.0 ** 510], [2.0 ** 1021])
    test_range_of_each_step(check)
    check.equal("range facts kept apart", range_facts([[0.0, 0.0], [0.0, 0.0]], [1.0, 2.0 ** 1022]),
                RangeFacts(True, [True, False]))
    check.equal("shared step out of range", range_facts([[0.0, LARGEST], [0.0, 0.0]], [LARGEST, 1.0]),
                RangeFacts(False, []))


def test_range_of_each_step(check: Checks) -> None:
    """For each kind of step a sheet in which one step of that kind leaves the range first, made by hand."""
    tiny, huge, most = 2.0 ** -600, 2.0 ** 600, LARGEST
    for what, reading, n, sheet in [
            ("pivot", 1, 3, [1.0, 0.0, 0.0, 0.0, most, -most, 0.0, 0.0, 1.0]),
            ("downward m", 1, 2, [huge, 0.0, -tiny, 1.0]),
            ("m·s_k", 1, 2, [tiny, -1.0, -tiny, 1.0]),
            ("s_i + m·s_k", 1, 2, [most, 0.0, -most, most]),
            ("m·t_kj", 1, 3, [1.0, 0.0, -tiny, -tiny, 1.0, 0.0, 0.0, 0.0, 1.0]),
            ("downward m·b_kj", 1, 3, [1.0, 0.0, 0.0, -tiny, 1.0, 0.0, 0.0, -tiny, 1.0]),
            ("upward m", 1, 2, [1.0, -tiny, 0.0, huge]),
            ("upward m·b_kj", 1, 3, [1.0, -tiny, 0.0, 0.0, 1.0, -tiny, 0.0, 0.0, 1.0]),
            ("b_ij / p_i", 1, 2, [1.0, 0.0, 0.0, 2.0 ** 1022]),
            ("t_ij·k_j in h", 2, 2, [huge, -1.0, -tiny, 1.0]),
            ("h", 2, 3, [1.0, -most, -most, 0.0, 1.0, 0.0, 0.0, 0.0, 1.0]),
            ("a = d + h", 2, 2, [most, -most, 0.0, 1.0]),
            ("k = h / a", 2, 2, [huge, -tiny, 0.0, 1.0]),
            ("new size", 2, 3, [1.0, -tiny, -1.0, 0.0, huge, -1.0, 0.0, 0.0, 1.0]),
            ("t·(d / a)", 2, 3, [1.0, -tiny, -1.0, 0.0, tiny, -1.0, 0.0, 0.0, 1.0]),
            ("k_i·y_ij", 2, 3, [huge, -tiny, -1.0, 0.0, 1.0, -1.0, 0.0, 0.0, 1.0]),
            ("1 / a_k", 2, 1, [2.0 ** 1022]),
            ("t_jk / a_k", 2, 2, [huge, 0.0, -tiny, 1.0]),
            ("x_ij·(t_jk / a_k)", 2, 2, [1.0, 0.0, -tiny, huge]),
            ("t_kj·z_j too small", 3, 2, [1.0, -tiny, 0.0, 1.0, 1.0, tiny]),
            ("t_kj·z_j too large", 3, 2, [1.0, -huge, 0.0, 1.0, 1.0, huge]),
            ("sum of the t_kj·z_j", 3, 3, [1.0, -most, -most, 0.0, 1.0, 0.0, 0.0, 0.0, 1.0, huge, 1.0, 1.0]),
            ("that and s_k", 3, 2, [most, -most, 0.0, 1.0, huge, 1.0]),
            ("sum / z_k too small", 3, 1, [tiny, huge]), ("sum / z_k too large", 3, 1, [huge, tiny]),
            ("the last pivot's sum / z_n", 3, 2, [1.0, 0.0, 0.0, huge, 1.0, tiny]),
            ("downward m, with weights", 3, 2, [huge, 0.0, -tiny, 1.0, 1.0, 1.0]),
            ("m·s_k, with weights", 3, 2, [tiny, -1.0, -tiny, 1.0, 1.0, 1.0]),
            ("b_ij / p_i, with weights", 3, 2, [1.0, 0.0, 0.0, 2.0 ** 1022, 1.0, 1.0])]:
        check.gives(f"{what} out of range", reading, n, sheet, Refused(10))
    chain = [[0.0, 0.0, 0.0], [tiny, 0.0, 0.0], [0.0, tiny, 0.0]]
    check.equal("column 1 alone", range_facts(chain, [1.0] * 3), RangeFacts(True, [False, True, True]))
    chain = [[0.0, tiny, 0.0], [0.0, 0.0, tiny], [0.0, 0.0, 0.0]]
    check.equal("column 3 alone", range_facts(chain, [1.0] * 3), RangeFacts(True, [True, True, False]))


def test_order_of_steps(check: Checks) -> None:
    """The places where document 01 differs from the algorithms of 000, and the order of a pivot's steps, with weights
    and without."""
    check.gives("leaving rates over every j > i", 2, 2, [3.0, -1.0, 0.0, 1.0], [0.25, 0.25, 0.0, 1.0])
    for what, reading, n, sheet, i, j, bits in [
            ("a single kept stage", 2, 2, [1.0, -5.0, 0.0, 1.0], 1, 1, 0x3fc5555555555556),
            ("t times (d / a)", 2, 2, [4.0, -3.0, -1.0, 1.0], 1, 1, 0x3fca1f58d0fac689),
            ("t / a", 2, 2, [5.0, 0.0, -3.0, 1.0], 2, 1, 0x3fe3333333333333),
            ("sums over known stages rise", 2, 4, [1.0, 0.0, 0.0, 0.0, -7.0, 3.0, 0.0, -3.0,
                                                   -7.0, 0.0, 4.0, 0.0, -3.0, -5.0, -5.0, 7.0],
             2, 1, 0x4003618618618619),
            # by hand: h_1, a_1 and the leaving rate are 2^53, each 1 added later being lost
            ("h and leaving rates rise", 2, 4, [1.0, -2.0 ** 53, -1.0, -1.0, 0.0, 1.0, 0.0, 0.0,
                                                0.0, 0.0, 1.0, 0.0, 0.0, 0.0, 0.0, 1.0], 1, 1, 0x3ca0000000000000),
            # by hand: h_2 = 2^53·k_1 + 1 + 1 is 2^53, k_1 and k_2 are 1, p_2 = 2 + 2^53, x_22 = 1 / p_2
            ("products first in h", 2, 4, [2.0 ** -60, 0.0, 0.0, -1.0, -2.0 ** 53, 1.0, -1.0, -1.0,
                                           0.0, 0.0, 1.0, 0.0, 0.0, 0.0, 0.0, 1.0], 2, 2, 0x3c9ffffffffffffe),
            # by hand: p_1 = ((0 + 1) + 1) + 2^53 in each; with 2^53 first, each 1 would be lost
            ("a pivot adds s_k last", 1, 3, [2.0 ** 53, -1.0, -1.0, 0.0, 1.0, 0.0, 0.0, 0.0, 1.0],
             1, 1, 0x3c9ffffffffffffe),
            ("a pivot's sizes fall", 1, 4, [0.0, -2.0 ** 53, -1.0, -1.0, 0.0, 1.0, 0.0, 0.0,
                                            0.0, 0.0, 1.0, 0.0, 0.0, 0.0, 0.0, 1.0], 1, 1, 0x3c9ffffffffffffe),
            # k_2 and k_3 are 1, and 2^53 is the leaving rate of stage 1
            ("margins have the same pivots", 2, 4, [2.0 ** -60, -1.0, -1.0, -2.0 ** 53, 0.0, 2.0 ** -60, 0.0, -1.0,
                                                    0.0, 0.0, 2.0 ** -60, -1.0, 0.0, 0.0, 0.0, 1.0],
             1, 1, 0x3c9ffffffffffffe),
            # by hand: upward b_11 is 1, plus 2^-53 of stage 3 (a tie, 1), plus 2^-53 + 2^-60 of stage 2
            # (1 + 2^-52), over p_1 = 1 + 2^-52; the other order gives 1 + 2^-52
            ("upward from the last stage", 1, 3, [1.0, -(2.0 ** -53 + 2.0 ** -60), -2.0 ** -53,
                                                  -(1 + 2.0 ** -52), 0.0, 0.0, -(1 + 2.0 ** -52), 0.0, 0.0],
             1, 1, 0x3ff0000000000000),
            # by hand: the products are 2^53, 1 and 1, and p_1 = ((0 + 1) + 1) + 2^53, over 2; x_11 = 1 / (2^52 + 1)
            ("weighted sizes fall", 3, 4, [2.0 ** -60, -2.0 ** 53, -2.0, -4.0, 0.0, 1.0, 0.0, 0.0, 0.0, 0.0, 1.0, 0.0,
                                           0.0, 0.0, 0.0, 1.0, 2.0, 1.0, 0.5, 0.25], 1, 1, 0x3caffffffffffffe),
            # by hand: p_1 = ((0 + 1) + 1) + 2^53, over 1/2; x_11 = 1 / (2^54 + 4)
            ("s_k comes after them", 3, 3, [2.0 ** 53, -2.0, -4.0, 0.0, 1.0, 0.0, 0.0, 0.0, 1.0, 0.5, 0.5, 0.25],
             1, 1, 0x3c8ffffffffffffe),
            # by hand: 3 / 10 is the number 0.3, where 1 / 10 + 2 / 10 is the next one; x_11 = 1 / 0.3
            ("the sum is divided", 3, 2, [1.0, -2.0, 0.0, 1.0, 10.0, 1.0], 1, 1, bits_of(float(1 / Fraction(0.3)))),
            # by hand: the square of 1 + 2^-30 rounds to 1 + 2^-29, and 2^-53 more is a tie that goes back there,
            # while the exact square is above the tie; x_11 = 1 / (1 + 2^-29) rounds to 1 - 2^-29
            ("a weighted size is rounded by itself", 3, 2, [2.0 ** -53, -(1 + 2.0 ** -30), 0.0, 1.0,
                                                            1.0, 1 + 2.0 ** -30], 1, 1, 0x3fefffffff000000)]:
        got = entry(reading, n, check.unit(), sheet, i, j)
        check.true(f"{what}: {got}", isinstance(got, Seconds) and bits_of(got.value) == bits)


def test_rounding(check: Checks, rng: random.Random) -> None:
    """Each step is the exact result rounded once: a Fraction becomes the nearest float, ties to even."""
    steps = [(add, lambda x, y: x + y), (mul, lambda x, y: x * y), (div, lambda x, y: x / y)]
    for _ in range(700):
        x, y = random_size(rng, 600), random_size(rng, 600)
        for step, exact in steps:
            try:
                expected = float(exact(Fraction(x), Fraction(y)))
                expected_in_range = step is add or expected > 2.0 ** -1022
            except OverflowError:
                expected, expected_in_range = INF, False
            check.equal("range of a step", in_range(lambda: step(x, y)), expected_in_range)
            if expected_in_range:
                check.equal("a step", step(x, y), expected)


class Ranged(float):
    """A number whose sums, products and quotients raise OutOfRange where they leave the range."""

    def __add__(self, other: float) -> Ranged:
        return Ranged.step(float.__add__(self, other), True)

    def __mul__(self, other: float) -> Ranged:
        return Ranged.step(float.__mul__(self, other), self == 0 or other == 0)

    def __truediv__(self, other: float) -> Ranged:
        return Ranged.step(float.__truediv__(self, other), self == 0)

    @staticmethod
    def step(result: float, may_be_small: bool) -> Ranged:
        """A result, by the ends of its range; no result of the steps is negative."""
        least = 0.0 if may_be_small else number_of(0x0010000000000001)
        if not least <= result <= number_of(0x7fefffffffffffff):
            raise OutOfRange
        return Ranged(result)


def literal_steps(n: int, sheet: Sequence[float], columns: Sequence[int], number: type[float]) -> list[float]:
    """Document 01's steps for leaving rates word by word, under the stages' own numbers from 1, with b as a
    table with these columns alone and idle stages passed over; the pivots are those of document 02, U8, or, where
    weights follow the sheet's n × n numbers, of U10.  With `Ranged` for number each step has its range test, with
    `float` none has."""
    idle = {i for i in range(1, n + 1) if not any(sheet[(i - 1) * n:i * n]) and not any(sheet[i - 1:n * n:n])}
    places = [i for i in range(1, n + 1) if i not in idle]
    t = {(i, j): number(0.0 - sheet[(i - 1) * n + j - 1]) for i in places for j in places if i != j}
    s = {i: number(sheet[(i - 1) * n + i - 1] + 0.0) for i in places}
    z = {j: number(weight) for j, weight in enumerate(sheet[n * n:], 1)}
    b = {(i, j): number(i == j) for i in places for j in columns}
    p: dict[int, float] = {}
    for k in places:
        later = [i for i in places if i > k]
        p[k] = number(0.0)
        for j in range(n, k, -1):
            if j in later:
                p[k] = p[k] + (t[k, j] * z[j] if z else t[k, j])
        p[k] = p[k] + s[k]
        if z:
            p[k] = p[k] / z[k]
        for i in later:
            m = t[i, k] / p[k]
            s[i] = s[i] + m * s[k]
            for j in later:
                if j != i:
                    t[i, j] = t[i, j] + m * t[k, j]
            for j in columns:
                if j <= k:
                    b[i, j] = b[i, j] + m * b[k, j]
    for k in reversed(places):
        for i in places:
            if i < k:
                m = t[i, k] / p[k]
                for j in columns:
                    b[i, j] = b[i, j] + m * b[k, j]
    return [0.0 if i in idle else b[i, j] / p[i] for i in range(1, n + 1) for j in columns]


def test_literal_steps(check: Checks, rng: random.Random) -> None:
    """The steps column by column have the bits of the text's whole table, without range tests, and its decision with
    them; so have sheets with weights at the edge of the range."""
    seen: Counter[tuple[int, bool]] = Counter()
    for at in range(900):
        reading, n = rng.choice([LEAVING_RATES, WEIGHTS]), rng.randint(1, 9)
        sheet = random_sheet(rng, reading, n, random_style(rng, 60 if at % 3 else 300))
        pair = edge_pair(rng, reading, n, sheet) if at % 5 == 0 and n < 6 else None
        for numbers in [sheet, *(pair or ())]:
            got = table(reading, n, check.unit(), numbers, n * n)
            seen[reading, isinstance(got, Table)] += 1
            check.equal(f"step by step, {numbers}", words_of(got.entries if isinstance(got, Table) else got),
                        words_of(literal_answer(n, numbers, range(1, n + 1))))
            if isinstance(got, Table):
                check.equal("column by column", words_of(got.entries),
                            words_of(literal_steps(n, numbers, range(1, n + 1), float)))
    check.true(f"tables of each kind: {seen}", len(seen) == 4 and min(seen.values()) > 30)


def literal_answer(n: int, sheet: Sequence[float], columns: Sequence[int]) -> Union[Refused, list[float]]:
    """These columns by the text's steps with their range tests, row by row."""
    try:
        return literal_steps(n, sheet, columns, Ranged)
    except OutOfRange:
        return Refused(10)


def test_column_questions(check: Checks) -> None:
    """One column: the questions in order, what is handed over, and a table of which one column is in range."""
    half = [1.0, 0.0, 0.0, 2.0 ** 1022]
    check.equal("column 1 of a refused table", column(1, 2, 0, half, 1, 2), Column([1.0, 0.0], 32))
    check.equal("column 2 of it", column(1, 2, 0, half, 2, 2), Refused(10))
    check.equal("that table", table(1, 2, 0, half, 4), Refused(10))
    lost_pivot = [1.0, 0.0, 0.0, 0.0, LARGEST, -LARGEST, 0.0, 0.0, 1.0]
    for stage in (1, 2, 3):
        check.column("a pivot that overflows", 3, lost_pivot, stage, Refused(10))
        check.equal("the same step by step", literal_answer(3, lost_pivot, [stage]), Refused(10))
    # by hand: 2^970 + (2^970 + 2^919) is exact, and with s_1 rounds to the largest number; from s_1 on it is that
    # number before 2^970 is added, a tie that overflows.  2^969 + 2^969 makes such a tie, each alone is lost.
    check.column("a pivot that s_1 first would lose", 3, [LARGEST - 2.0 ** 971, -(2.0 ** 970 + 2.0 ** 919), -2.0 ** 970,
                                                          0.0, 1.0, 0.0, 0.0, 0.0, 1.0],
                 3, [2.0 ** -54 * (1 + 2.0 ** -52), 0.0, 1.0])
    check.column("a pivot that s_1 first would keep", 3, [LARGEST, -2.0 ** 969, -2.0 ** 969,
                                                          0.0, 1.0, 0.0, 0.0, 0.0, 1.0], 3, Refused(10))
    for stage, expected in ((1, [1.0, 1.0]), (2, [1.0, 2.0])):
        check.column("column of P", 2, P_SHEET, stage, expected)
        check.equal("a larger area", column(1, 2, check.unit(), P_SHEET, stage, 2000), Column(expected, 32))
    for reading in (0, 2, 3, 2 ** 64 - 1):
        check.equal("1 before 2, column", column(reading, 0, 513, [], 0, 0), Refused(1))
        for sheet in (P_SHEET, W_SHEET):
            check.equal("1 of a good sheet", column(reading, 2, 0, sheet, 1, 2), Refused(1))
    for n in (0, 33, 2 ** 32, 2 ** 63, 2 ** 64 - 1):
        check.equal("2 before 12, column", column(1, n, -513, [NAN], 0, 0), Refused(2))
    for length in (0, 1, 3, 5):
        check.equal("3 before 4, column", column(1, 2, 512, [NAN] * length, 0, 0), Refused(3))
    for room in (0, 1):
        check.equal("4 before 5", column(1, 2, -512, [NAN] * 4, 0, room), Refused(4))
    for stage in (0, 3, 2 ** 63, 2 ** 64 - 1):
        check.equal("5 before 6, column", column(1, 2, -10, [NAN] * 4, stage, 2), Refused(5))
    for what, sheet, expected in [
            ("6 before 7", [5.0, 1.0, NAN, 1.0], Refused(6, 2, 1)),
            ("7 before 8", [1.0, -2.0 ** -1074, 1.0, 1.0], Refused(7, 2, 1)),
            ("8 before 9", [0.0, -2.0 ** -1074, 0.0, 0.0], Refused(8, 1, 2)),
            ("9 before 10", [2.0 ** 1022, -1.0, 0.0, 0.0], Refused(9, 2, 0))]:
        for stage in (1, 2):
            check.column(f"{what}, column {stage}", 2, sheet, stage, expected)


def test_column_range(check: Checks) -> None:
    """The steps that each column takes, by sheets in which one step leaves the range, made by hand."""
    tiny, huge, out = 2.0 ** -600, 2.0 ** 600, Refused(10)
    for what, n, sheet, expected in [
            ("a downward m", 2, [huge, 0.0, -tiny, 1.0], [out, out]),
            ("an upward m", 2, [1.0, -tiny, 0.0, huge], [out, out]),
            ("m·t_kj", 3, [1.0, 0.0, -tiny, -tiny, 1.0, 0.0, 0.0, 0.0, 1.0], [out] * 3),
            ("a downward m·b_kj", 3, [1.0, 0.0, 0.0, -tiny, 1.0, 0.0, 0.0, -tiny, 1.0],
             [out, [0.0, 1.0, tiny], [0.0, 0.0, 1.0]]),
            ("an upward m·b_kj", 3, [1.0, -tiny, 0.0, 0.0, 1.0, -tiny, 0.0, 0.0, 1.0],
             [[1.0, 0.0, 0.0], [tiny, 1.0, 0.0], out]),
            ("b_12 / p_1", 2, [2.0 ** 500, -tiny, 0.0, 1.0], [[2.0 ** -500, 0.0], out])]:
        check.gives(f"{what} out of range", LEAVING_RATES, n, sheet, out)
        for stage in range(1, n + 1):
            check.column(f"{what}, column {stage}", n, sheet, stage, expected[stage - 1])


@dataclass
class PartlyInRange:
    """What came up of sheets whose whole table is refused with 10."""
    sheets: int = 0
    accepted: int = 0
    refused: int = 0
    of_allowance: float = 0.0

    def note(self, n: int, accepted: int, errors: list[EntryError]) -> None:
        self.sheets += 1
        self.accepted += accepted
        self.refused += n - accepted
        self.of_allowance = max([self.of_allowance, *(error.allowances for error in errors)])

    def line(self) -> str:
        return (f"columns: {self.sheets} random sheets with the table out of range, {self.accepted} columns of them "
                f"accepted, {self.refused} refused; largest error {self.of_allowance:.4f} of the allowance")


def check_columns(check: Checks, n: int, sheet: list[float], seen: PartlyInRange) -> None:
    """Every column of a sheet that 6 to 9 pass has the bits and the decision of the text's steps for it, and
    is accepted with the table; where the table is not, the accepted ones keep the accuracy rule."""
    got, whole = table(LEAVING_RATES, n, check.unit(), sheet, n * n), literal_answer(n, sheet, range(1, n + 1))
    check.equal(f"table of {sheet}", words_of(got.entries if isinstance(got, Table) else got), words_of(whole))
    kept: dict[int, list[float]] = {}
    for stage in range(1, n + 1):
        alone = literal_answer(n, sheet, [stage])
        check.column(f"column {stage} of {sheet}", n, sheet, stage, alone)
        if isinstance(alone, list):
            kept[stage] = alone
    if isinstance(whole, list):
        check.equal("accepted with the table", len(kept), n)
        for stage, entries in kept.items():
            check.equal(f"column {stage} of the table", words_of(entries), words_of(whole[stage - 1::n]))
        return
    check.true("a column of a refused table is refused", len(kept) < n)
    errors = column_accuracy(n, sheet, kept)
    for error in errors:
        check.true(f"accuracy of a column of {sheet}: {error}", error.within)
    seen.note(n, len(kept), errors)


def test_random_columns(check: Checks, rng: random.Random, long: bool) -> None:
    """Random sheets, with rates so far apart that the table is often out of range and some columns are not, often
    with idle stages, and sheets at the edge of the range of one column."""
    seen = PartlyInRange()
    for at in range(1500 if long else 300):
        n = rng.randint(1, 7)
        sheet = uneven_sheet(rng, n) if at % 3 else random_sheet(rng, LEAVING_RATES, n, random_style(rng))
        total = n + rng.choice([0, 0, 1, 3])
        check_columns(check, total, among_idle(rng, n, sheet, total)[1], seen)
    for n in range(8, LIMIT + 1, 1 if long else 6):
        check_columns(check, n, uneven_sheet(rng, n), seen)
    edges = 0
    for _ in range(300 if long else 60):
        n = rng.randint(1, 5)
        pair = edge_pair(rng, LEAVING_RATES, n, uneven_sheet(rng, n), rng.randint(1, n))
        for sheet in pair or ():
            check_columns(check, n, sheet, seen)
            edges += 1
    check.true("columns of each kind", min(seen.accepted, seen.refused, edges) > 50)
    print(seen.line(), flush=True)


def leads_out(moves: list[list[bool]], leaves: list[bool], i: int, chain: tuple[int, ...] = ()) -> bool:
    """Brute force: some chain of moves without repetition leads from stage i to one that leaves."""
    return leaves[i] or any(moves[i][j] and leads_out(moves, leaves, j, chain + (i,))
                            for j in range(len(leaves)) if j != i and j not in chain)


def test_trapped(check: Checks, rng: random.Random) -> None:
    """Question 9 against every chain: all patterns up to n = 3, random ones up to n = 6.  A stage that nothing
    is present of is idle."""
    for n in (1, 2, 3, 4, 5, 6):
        patterns = range(2 ** (n * n)) if n <= 3 else (rng.getrandbits(n * n) & rng.getrandbits(n * n)
                                                       for _ in range(400))
        for pattern in patterns:
            present = [bool(pattern >> place & 1) for place in range(n * n)]
            moves = [[i != j and present[i * n + j] for j in range(n)] for i in range(n)]
            leaves = [present[i * n + i] for i in range(n)]
            sheet = [(1.0 if p % (n + 1) == 0 else -1.0) if present[p] else 0.0 for p in range(n * n)]
            live = [i for i in range(n) if any(present[i * n + j] or present[j * n + i] for j in range(n))]
            trapped = [i + 1 for i in live if not leads_out(moves, leaves, i)]
            got = table(1, n, check.unit(), sheet, n * n)
            if trapped:
                check.equal(f"trapped, {sheet}", got, Refused(9, trapped[0], 0))
            else:
                check.true(f"not trapped, {sheet}", isinstance(got, Table))
                on_diagonal = [i for i in range(n) if got.entries[i * n + i] != 0.0]
                check.equal("zero on the diagonal where idle and nowhere else", on_diagonal, live)


def test_idle(check: Checks) -> None:
    """Idle stages (02, U3): the cases of the papers, and sheets made by hand."""
    p, zeros = P_SHEET, [0.0, -0.0, 0.0]
    for what, n, sheet, expected in [
            ("one idle stage", 1, [-0.0], [0.0]),
            ("only idle stages", 3, zeros * 3, [0.0] * 9),
            ("P after an idle stage", 3, [*zeros, -0.0, *p[:2], 0.0, *p[2:]],
             [0.0, 0.0, 0.0, 0.0, 1.0, 1.0, 0.0, 1.0, 2.0]),
            ("P around an idle stage", 3, [1.0, -0.0, -1.0, *zeros, -1.0, 0.0, -0.0],
             [1.0, 0.0, 1.0, 0.0, 0.0, 0.0, 1.0, 0.0, 2.0]),
            ("P before an idle stage", 3, [*p[:2], 0.0, *p[2:], -0.0, *zeros],
             [1.0, 1.0, 0.0, 1.0, 2.0, 0.0, 0.0, 0.0, 0.0]),
            ("a stage that is moved to and has no way out", 2, [1.0, -1.0, 0.0, 0.0], Refused(9, 2)),
            ("a stage that is not moved to and has a way out", 2, [0.0, -1.0, 0.0, 1.0], [1.0, 1.0, 0.0, 1.0]),
            ("a leaving rate and no move", 2, [4.0, -0.0, 0.0, 2.0], [0.25, 0.0, 0.0, 0.5]),
            ("two stages that move to each other", 2, [0.0, -1.0, -1.0, 0.0], Refused(9, 1)),
            ("trapped after an idle stage", 3, [*zeros, 0.0, 0.0, -1.0, 0.0, -1.0, 0.0], Refused(9, 2)),
            ("9 before 10 beside an idle stage", 3, [*zeros, 0.0, 2.0 ** 1022, -1.0, *zeros], Refused(9, 3)),
            ("10 beside an idle stage", 2, [0.0, 0.0, 0.0, 2.0 ** 1022], Refused(10)),
            ("6 in a row of zeros", 2, [0.0, NAN, 0.0, 0.0], Refused(6, 1, 2)),
            ("7 in a row of zeros", 2, [0.0, 0.0, 1.0, 0.0], Refused(7, 2, 1))]:
        check.gives(what, LEAVING_RATES, n, sheet, expected)
    many = table(LEAVING_RATES, LIMIT, 0, [-0.0] * 1024, 1024)
    check.equal("32 idle stages", (words_of(many.entries), many.allowance), (["0" * 16] * 1024, 131072))
    check.gives("margins have no idle stages", MARGINS, 2, [1.0, 0.0, 0.0, 0.0], Refused(7, 2, 2))
    check.column("an idle stage beside a last division out of range", 2, [0.0, 0.0, 0.0, 2.0 ** 1022], 1, [0.0, 0.0])
    check.column("that division", 2, [0.0, 0.0, 0.0, 2.0 ** 1022], 2, Refused(10))
    for stage in (1, 2, 3):
        check.column("an idle stage beside a pivot that overflows", 3,
                     [0.0, 0.0, 0.0, 0.0, LARGEST, -LARGEST, 0.0, 0.0, 1.0], stage, Refused(10))


def among_others(refusal: Refused, live: Sequence[int]) -> Refused:
    """A refusal of a sheet, as the sheet has it whose stages these are: the number stays, the place moves."""
    own = [0, *(i + 1 for i in live)]
    return Refused(refusal.number, own[refusal.row], own[refusal.column])


def check_among_idle(check: Checks, rng: random.Random, n: int, sheet: list[float],
                     total: int) -> Union[Table, Refused]:
    """A sheet with idle stages put in anywhere: no bit of an entry and no refusal's number changes, the new rows
    and columns are plus zero, and the column of an idle stage takes the steps that serve every column.  The
    answer is handed back."""
    live, wide = among_idle(rng, n, sheet, total)
    alone = table(LEAVING_RATES, n, check.unit(), sheet, n * n)
    got = table(LEAVING_RATES, total, check.unit(), wide, total * total)
    if isinstance(alone, Refused):
        expected = among_others(alone, live)
    else:
        own = {live[place // n] * total + live[place % n]: x for place, x in enumerate(alone.entries)}
        expected = [own.get(place, 0.0) for place in range(total * total)]
    check.equal(f"{sheet} among idle stages", words_of(got.entries if isinstance(got, Table) else got),
                words_of(expected))
    i, j = rng.randrange(total), rng.randrange(total)
    one = entry(LEAVING_RATES, total, check.unit(), wide, i + 1, j + 1)
    check.equal(f"entry ({i + 1}, {j + 1}) of {wide}", words_of([one.value] if isinstance(one, Seconds) else one),
                words_of(expected if isinstance(expected, Refused) else [expected[i * total + j]]))
    for stage in range(1, total + 1) if total < 12 else rng.sample(range(1, total + 1), 3):
        check.column(f"column {stage} of {wide}", total, wide, stage, expected_among_idle(n, sheet, live, total, stage))
    return got


def expected_among_idle(n: int, sheet: list[float], live: Sequence[int], total: int,
                        stage: int) -> Union[Refused, list[float]]:
    """The column of a stage of that sheet, by the sheet without the idle stages."""
    if stage - 1 in live:
        alone = column(LEAVING_RATES, n, IN_SECONDS, sheet, live.index(stage - 1) + 1, n)
    else:
        steps = ask_numbers(LEAVING_RATES, n, sheet) or literal_answer(n, sheet, [])    # with no column of b
        alone = steps if isinstance(steps, Refused) else Column([0.0] * n, 0)
    if isinstance(alone, Refused):
        return among_others(alone, live)
    return [alone.entries[live.index(i)] if i in live else 0.0 for i in range(total)]


def test_units(check: Checks) -> None:
    """The e that a call is handed (02, U5): 12 out of its range, after 2 and before 3, in every service on a sheet;
    in its range it changes no answer."""
    for e in POWERS_OUT_OF_RANGE:
        for what, sheet, reading, room in [("12 before 3", [NAN] * 3, 1, 0), ("12 before 4", [NAN] * 4, 1, 0),
                                           ("12 before 6", [NAN] * 4, 1, 60), ("12 alone", P_SHEET, 1, 60),
                                           ("12 before 3, margins", [NAN] * 5, 2, 0),
                                           ("12 alone, margins", [3.0, -1.0, -4.0, 1.0], 2, 60),
                                           ("12 before 3, weights", [NAN] * 4, 3, 0),
                                           ("12 alone, weights", W_SHEET, 3, 100)]:
            check.equal(f"{what}, e = {e}", table(reading, 2, e, sheet, room), Refused(12))
            check.equal(f"{what}, e = {e}, entry", entry(reading, 2, e, sheet, 0, 3), Refused(12))
            check.equal(f"{what}, e = {e}, a good entry", entry(reading, 2, e, sheet, 1, 1), Refused(12))
            check.equal(f"{what}, e = {e}, column", column(1, 2, e, sheet, 0, room), Refused(12))
            check.equal(f"{what}, e = {e}, a good column", column(1, 2, e, sheet, 1, room), Refused(12))
            for other in (MARGINS, WEIGHTS):
                check.equal(f"1 before 12, e = {e}, column", column(other, 2, e, sheet, 1, room), Refused(1))
            check.equal(f"{what}, e = {e}, saving", save(reading, 2, e, [0] * len(sheet), room), Refused(12))
            check.equal(f"{what}, e = {e}, saving numbers", save_numbers(reading, 2, e, sheet, room), Refused(12))
            for k in (-e, 0, 600, 513, -513):
                check.equal(f"{what}, e = {e}, moving by {k}", move(reading, 2, e, sheet, k, room), Refused(12))
    for e in range(-514, 515):
        within = -512 <= e <= 512
        check.equal(f"table, e = {e}", table(1, 2, e, P_SHEET, 4), Table(2, 32, P_TABLE) if within else Refused(12))
        check.equal(f"entry, e = {e}", entry(1, 2, e, P_SHEET, 2, 2), Seconds(2.0) if within else Refused(12))
        check.equal(f"column, e = {e}", column(1, 2, e, P_SHEET, 2, 2),
                    Column([1.0, 2.0], 32) if within else Refused(12))
        check.equal(f"saving, e = {e}", isinstance(save_numbers(1, 2, e, P_SHEET, 60), Saved), within)
        check.equal(f"moving by 0, e = {e}", move(1, 2, e, P_SHEET, 0, 4), Moved(P_SHEET, e) if within else Refused(12))
        check.equal(f"weights, e = {e}", table(3, 2, e, W_SHEET, 4), Table(2, 48, W_TABLE) if within else Refused(12))


def test_price_documents(check: Checks) -> None:
    """Prices (02, U7): sheets of the papers, the order of the sum, zeros of either sign, idle stages, and steps that
    leave the range, by hand."""
    chain, two_53 = [0.0, -1.0, 0.0, 0.0, 0.0, -1.0, 0.0, 0.0, 1.0], 2.0 ** 53
    beyond, most, below = 2.0 ** 1022, LARGEST, 2.0 ** -1074
    for what, reading, n, sheet, prices, expected in [
            ("A", 1, 1, [2.0], [3.0], [1.5]), ("P", 1, 2, P_SHEET, [1.0, 2.0], [3.0, 5.0]),
            ("P, one price", 1, 2, P_SHEET, [0.0, 1.0], [1.0, 2.0]), ("no price", 1, 2, P_SHEET, [0.0, 0.0], [0.0, 0.0]),
            ("H", 2, 2, [3.0, -1.0, -4.0, 1.0], [1.0, 3.0], [1.25, 4.0]),
            ("I", 2, 2, [2.0, 0.0, -1.0, 4.0], [8.0, 16.0], [4.0, 5.0]),
            ("W", 3, 2, W_SHEET, [1.0, 2.0], [0.8125, 2.25]), ("a weight", 3, 1, [2.0, 0.5], [8.0], [2.0]),
            ("j rises", 1, 3, chain, [two_53, 1.0, 1.0], [two_53, 2.0, 1.0]),
            ("j rises, the other way round", 1, 3, chain, [1.0, 1.0, two_53], [two_53 + 2.0, two_53, two_53]),
            ("a product is rounded by itself", 1, 2, [0.0, -1.0, 0.0, 3.0], [1.0, 3.0], [2.0, 1.0]),
            ("minus zero", 1, 2, P_SHEET, [-0.0, 1.0], [1.0, 2.0]),
            ("only minus zeros", 1, 2, P_SHEET, [-0.0, -0.0], [0.0, 0.0]),
            ("B", 1, 1, [0.0], [7.0], [0.0]), ("D", 1, 2, [1.0, 0.0, 0.0, 0.0], [5.0, 3.0], [5.0, 0.0]),
            ("D, the idle stage's price alone", 1, 2, [1.0, 0.0, 0.0, 0.0], [0.0, 3.0], [0.0, 0.0]),
            ("a product above 2^-1022", 1, 1, [1.0], [2 * SMALLEST_NORMAL], [2 * SMALLEST_NORMAL]),
            ("a product that is 2^-1022", 1, 1, [1.0], [SMALLEST_NORMAL], Refused(10)),
            ("a product that rounds to 2^-1022", 1, 1, [2.0], [(2 - 2.0 ** -52) * SMALLEST_NORMAL], Refused(10)),
            ("a zero entry beside a small price", 1, 2, [1.0, 0.0, 0.0, 0.0], [1.0, SMALLEST_NORMAL], [1.0, 0.0]),
            ("a product that overflows", 2, 1, [2.0 ** -600], [2.0 ** 600], Refused(10)),
            ("the largest price", 1, 2, P_SHEET, [most, 0.0], [most, most]),
            ("a sum that overflows", 1, 2, P_SHEET, [most, most], Refused(10)),
            ("the table out of range, prices zero", 1, 2, [1.0, 0.0, 0.0, beyond], [1.0, 0.0], Refused(10)),
            ("19 before 10", 1, 2, [1.0, 0.0, 0.0, beyond], [0.0, -1.0], Refused(19, 2)),
            ("a pivot out of range, prices zero", 3, 1, [2.0 ** -600, 2.0 ** 600], [0.0], Refused(10)),
            ("19 before 10, weights", 3, 1, [2.0 ** -600, 2.0 ** 600], [-1.0], Refused(19, 1)),
            ("8 of a weight before 19", 3, 1, [1.0, below], [NAN], Refused(8, 2, 1)),
            ("9 before 19", 1, 2, [1.0, -1.0, 0.0, 0.0], [NAN, NAN], Refused(9, 2)),
            ("8 before 19", 1, 2, [1.0, -below, 0.0, 0.0], [NAN, NAN], Refused(8, 1, 2)),
            ("7 before 19", 2, 1, [0.0], [-1.0], Refused(7, 1, 1)), ("6 before 19", 1, 1, [INF], [NAN], Refused(6, 1, 1)),
            ("a NaN", 1, 2, P_SHEET, [NAN, -1.0], Refused(19, 1)), ("infinite", 1, 2, P_SHEET, [1.0, INF], Refused(19, 2)),
            ("minus infinite", 2, 1, [1.0], [-INF], Refused(19, 1)), ("negative", 1, 2, P_SHEET, [1.0, -1.0], Refused(19, 2)),
            ("too small", 1, 2, P_SHEET, [below, NAN], Refused(19, 1)),
            ("just too small", 1, 1, [1.0], [number_of(bits_of(SMALLEST_NORMAL) - 1)], Refused(19, 1)),
            ("negative and too small", 1, 2, P_SHEET, [0.0, -below], Refused(19, 2))]:
        check.prices(what, reading, n, sheet, prices, expected)
    check.equal("[NaN] with no prices", request_prices(1, 1, 0, [NAN], [], 1), Refused(18))


def test_price_order(check: Checks) -> None:
    """Prices: each question before the next, where both are answered no."""
    for reading in (0, 4, 2 ** 64 - 1):
        check.equal("1 before 2, prices", request_prices(reading, 0, 513, [], [], 0), Refused(1))
        check.equal("1 of a good sheet, prices", request_prices(reading, 2, 0, P_SHEET, [1.0, 1.0], 2), Refused(1))
    for reading in READINGS:
        one, nans = in_reading(reading, [1.0]), in_reading(reading, [NAN] * 4)
        for n in (0, 33, 2 ** 32, 2 ** 63, 2 ** 64 - 1):
            check.equal("2 before 12, prices", request_prices(reading, n, -513, [NAN], [NAN], 0), Refused(2))
        for e in POWERS_OUT_OF_RANGE:
            check.equal(f"12 before 3, prices, e = {e}", request_prices(reading, 2, e, [NAN], [NAN], 0), Refused(12))
            check.equal(f"12 alone, e = {e}", request_prices(reading, 1, e, one, [1.0], 1), Refused(12))
        for length in {0, 1, 3, 4, 5, 6, 7} - {len(nans)}:
            check.equal("3 before 4, prices", request_prices(reading, 2, 512, [NAN] * length, [NAN], 0), Refused(3))
        for room in (0, 1):
            check.equal("4 before 18", request_prices(reading, 2, -512, nans, [NAN], room), Refused(4))
        for length in (0, 1, 3, 4):
            good = in_reading(reading, [1.0, 0.0, 0.0, 1.0])
            check.equal("18 before 6", request_prices(reading, 2, 0, nans, [NAN] * length, 2), Refused(18))
            check.equal("18 alone", request_prices(reading, 2, 0, good, [1.0] * length, 2), Refused(18))


def price_by_fractions(row: Sequence[float], prices: Sequence[float]) -> Optional[float]:
    """A price by exact fractions, each result rounded by itself; None where a step leaves the range."""
    total = Fraction(0)
    try:
        for x, price in zip(row, prices, strict=True):
            exact = Fraction(x) * Fraction(price)
            product = float(exact)
            if exact != 0 and not product > SMALLEST_NORMAL:
                return None
            total = Fraction(float(total + Fraction(product)))
    except OverflowError:
        return None
    return float(total)


def check_prices(check: Checks, worst: Worst, n: int, sheet: Sequence[float], prices: Sequence[float]) -> bool:
    """Prices of a sheet that 6 to 9 pass: they have the bits and the decision that exact fractions give for the rows
    of its table, and keep the accuracy rule; whether they are accepted."""
    whole = table(worst.reading, n, check.unit(), sheet, n * n)
    if isinstance(whole, Refused):
        check.prices("the table is refused", worst.reading, n, sheet, prices, Refused(10))
        return False
    rows = [whole.entries[i * n:i * n + n] for i in range(n)]
    expected = [price_by_fractions(row, prices) for row in rows]
    if None in expected:
        check.prices(f"{sheet} at {prices}", worst.reading, n, sheet, prices, Refused(10))
        worst.out_of_range += 1
        return False
    check.prices(f"{sheet} at {prices}", worst.reading, n, sheet, prices, expected)
    errors = price_accuracy(worst.reading, n, sheet, prices, expected)
    for error in errors:
        check.true(f"accuracy of prices {prices} of {sheet}: {error}", error.within)
    worst.note(n, errors)
    return True


def test_random_prices(check: Checks, rng: random.Random, long: bool) -> None:
    """Random sheets of each reading, often with idle stages, at random prices and at prices at the edge of the
    range."""
    for reading, name in NAMES_OF_READINGS.items():
        worst = Worst(reading, f"prices of {name}")
        for at in range(2000 if long else 400):
            n = rng.randint(1, 6) if at % 100 else rng.randint(7, LIMIT if long else 12)
            sheet = random_sheet(rng, reading, n, random_style(rng, 300 if n < 7 else 30))
            if reading == LEAVING_RATES and n < 7:
                own, n = n, n + rng.choice([0, 0, 1, 3])
                sheet = among_idle(rng, own, sheet, n)[1]
            prices = random_prices(rng, n)
            check_prices(check, worst, n, sheet, prices)
            pair = price_edge_pair(rng, reading, n, sheet, prices) if at % 5 == 0 and n < 7 else None
            if pair is not None:
                worst.edges += 1
                check.true("accepted at the edge", check_prices(check, worst, n, sheet, pair[0]))
                check.prices("refused at the edge", reading, n, sheet, pair[1], Refused(10))
        check.true("prices of each kind", min(worst.accepted, worst.out_of_range, worst.edges) > 20)
        print(worst.line(), flush=True)


def test_moving_units(check: Checks) -> None:
    """Moving: what e becomes, 17 at both ends of its range, and the order of 8, 15, 17 and 16."""
    for e, k, expected in [
            (0, -10, -10), (-10, 10, 0), (512, -512, 0), (-512, 512, 0), (512, 0, 512), (-512, 0, -512), (511, 1, 512),
            (-511, -1, -512), (0, 512, 512), (0, -512, -512), (256, 256, 512), (-300, -212, -512), (500, -512, -12),
            (512, 1, None), (-512, -1, None), (1, 512, None), (-1, -512, None), (512, 512, None), (-512, -512, None),
            (257, 256, None), (-300, -213, None)]:
        check.equal(f"e = {e} by {k}", move(1, 1, e, [1.0], k, 1),
                    Refused(17) if expected is None else Moved([2.0 ** k], expected))
    for reading in READINGS:
        for e in range(-512, 513):
            for end in (-512, 512):
                k = end - e
                for past, within in ((0, True), (1 if end > 0 else -1, False)):
                    if abs(k + past) <= 512:
                        got = move(reading, 1, e, in_reading(reading, [1.0]), k + past, 2)
                        check.equal(f"e = {e} to {end + past}", got,
                                    Moved(in_reading(reading, [2.0 ** k]), end) if within else Refused(17))
    tiny = 2.0 ** -1074
    for what, sheet, e, k, expected in [
            ("8 before 17", [1.0, -tiny, 0.0, 1.0], 512, 1, Refused(8, 1, 2)),
            ("15 before 17, above", [1.0, 0.0, 0.0, 1.0], 512, 513, Refused(15)),
            ("15 before 17, below", [1.0, 0.0, 0.0, 1.0], -512, -513, Refused(15)),
            ("15 though e + k is in range", [1.0, 0.0, 0.0, 1.0], -512, 600, Refused(15)),
            ("15 before 17 before 16", [1.0, 0.0, 0.0, LARGEST], 512, 513, Refused(15)),
            ("17 before 16, above", [1.0, 0.0, 0.0, LARGEST], 512, 1, Refused(17)),
            ("17 before 16, below", [1.0, -SMALLEST_NORMAL, 0.0, 1.0], -512, -1, Refused(17)),
            ("17 alone", [1.0, -1.0, 0.0, 1.0], 512, 1, Refused(17)),
            ("16 at an end of e", [1.0, 0.0, 0.0, LARGEST], 511, 1, Refused(16)),
            ("16 at the other end", [1.0, -SMALLEST_NORMAL, 0.0, 1.0], -511, -1, Refused(16)),
            ("15 for the least k", [1.0, 0.0, 0.0, 1.0], -512, LEAST_INT64, Refused(15)),
            ("15 for the greatest k", [1.0, 0.0, 0.0, 1.0], 512, GREATEST_INT64, Refused(15))]:
        for reading in READINGS:
            check.equal(what, move(reading, 2, e, in_reading(reading, sheet), k, 6), expected)
    check.equal("12 before 8", move(1, 2, 513, [1.0, -tiny, 0.0, 1.0], -1, 4), Refused(12))
    check.equal("12 though e + k is in range", move(1, 2, 513, P_SHEET, -1, 4), Refused(12))
    check.equal("4 before 17", move(1, 2, 512, P_SHEET, 1, 3), Refused(4))


def test_moving_documents(check: Checks) -> None:
    """Moving (02, U4): the cases of the papers, sheets of document 01, zeros, and sheets that no table takes."""
    nearly_two = 2 - 2.0 ** -52
    for what, reading, n, sheet, k, expected in [
            ("2^-510", 1, 1, [2.0 ** -510], -512, [2.0 ** -1022]),
            ("2^-511", 1, 1, [2.0 ** -511], -512, Refused(16)),
            ("a product that rounds to 2^-1022", 1, 1, [nearly_two * 2.0 ** -511], -512, Refused(16)),
            ("the same of margins", 2, 1, [nearly_two * 2.0 ** -511], -512, Refused(16)),
            ("P in ticks", 1, 2, P_SHEET, -10, [2.0 ** -10, -2.0 ** -10, -2.0 ** -10, 0.0]),
            ("P as it is", 1, 2, P_SHEET, 0, P_SHEET),
            ("H", 2, 2, [3.0, -1.0, -4.0, 1.0], 3, [24.0, -8.0, -32.0, 8.0]),
            ("I", 2, 2, [2.0, -0.0, -1.0, 4.0], -1, [1.0, -0.0, -0.5, 2.0]),
            ("a third", 1, 1, [number_of(0x3fd5555555555555)], 2, [number_of(0x3ff5555555555555)]),
            ("zeros of either sign", 1, 2, [-0.0, 0.0, -0.0, 1.0], 3, [-0.0, 0.0, -0.0, 8.0]),
            ("only zeros", 1, 2, [0.0, -0.0, 0.0, -0.0], -512, [0.0, -0.0, 0.0, -0.0]),
            ("only zeros, upward", 1, 2, [-0.0, -0.0, 0.0, 0.0], 512, [-0.0, -0.0, 0.0, 0.0]),
            ("C, where both stages are trapped", 1, 2, [0.0, -1.0, -1.0, 0.0], 1, [0.0, -2.0, -2.0, 0.0]),
            ("a way in and none out", 1, 2, [1.0, -1.0, 0.0, -0.0], 9, [512.0, -512.0, 0.0, -0.0]),
            ("E becomes F", 1, 1, [2.0 ** 1021], 1, [2.0 ** 1022]),
            ("a table out of range", 1, 2, [1.0, 0.0, 0.0, 2.0 ** 1022], 1, [2.0, 0.0, 0.0, 2.0 ** 1023]),
            ("margins out of range", 2, 1, [2.0 ** 1022], -500, [2.0 ** 522]),
            ("W in ticks", 3, 2, W_SHEET, -10, [2.0 ** -9, -2.0 ** -10, -2.0 ** -10, 1.5 * 2.0 ** -10, 1.0, 2.0]),
            ("W as it is", 3, 2, W_SHEET, 0, W_SHEET),
            ("the largest weight", 3, 1, [1.0, LARGEST], 512, [2.0 ** 512, LARGEST]),
            ("the smallest weight", 3, 1, [1.0, SMALLEST_NORMAL], -512, [2.0 ** -512, SMALLEST_NORMAL]),
            ("zeros beside weights", 3, 2, [1.0, -0.0, 0.0, 3.0, 0.1, 0.3], 1, [2.0, -0.0, 0.0, 6.0, 0.1, 0.3]),
            ("16 beside good weights", 3, 1, [2.0 ** -511, 1.0], -512, Refused(16)),
            ("a pivot out of range", 3, 1, [2.0 ** -600, 2.0 ** 600], 1, [2.0 ** -599, 2.0 ** 600])]:
        check.moves(what, reading, n, sheet, k, expected)


def test_moving_order(check: Checks) -> None:
    """Moving: each question before the next, where both are answered no."""
    tiny, good = 2.0 ** -1074, [2.0, -1.0, -1.0, 2.0]
    for reading in (0, 4, 2 ** 64 - 1):
        check.equal("1 before 2, moving", move(reading, 0, 513, [], 600, 0), Refused(1))
        check.equal("1 of a good sheet, moving", move(reading, 2, 0, good, 1, 4), Refused(1))
    for reading in READINGS:
        for n in (0, 33, 2 ** 32, 2 ** 63, 2 ** 64 - 1):
            check.equal("2 before 12, moving", move(reading, n, 513, [NAN], 600, 0), Refused(2))
        check.equal("33 stages, moving", move(reading, 33, 0, [1.0] * 1122, 1, 1122), Refused(2))
        needed = 6 if reading == 3 else 4
        for length in {0, 1, 3, 4, 5, 6, 7} - {needed}:
            check.equal("3 before 4, moving", move(reading, 2, 512, [NAN] * length, 600, 0), Refused(3))
        for room in range(needed):
            check.equal("4 before 6, moving", move(reading, 2, 512, [NAN] * needed, 600, room), Refused(4))
            check.equal("4 of a good sheet", move(reading, 2, 0, in_reading(reading, good), 1, room), Refused(4))
        for what, sheet, k, expected in [
                ("6 before 7", [5.0, 1.0, NAN, 1.0], 600, Refused(6, 2, 1)),
                ("infinite is 6", [1.0, 0.0, -INF, 1.0], 600, Refused(6, 2, 1)),
                ("6 alone", [1.0, 0.0, 0.0, INF], -1, Refused(6, 2, 2)),
                ("7 before 8", [1.0, -tiny, 1.0, 1.0], 600, Refused(7, 2, 1)),
                ("7 alone", [1.0, 1.0, 0.0, 1.0], 1, Refused(7, 1, 2)),
                ("8 before 15", [1.0, -tiny, 0.0, 1.0], 600, Refused(8, 1, 2)),
                ("8 before 16", [1.0, -tiny, 0.0, LARGEST], 1, Refused(8, 1, 2)),
                ("8 although the result is large enough", [1.0, -tiny, 0.0, 1.0], 512, Refused(8, 1, 2)),
                ("15 before 16, above", [1.0, 0.0, 0.0, LARGEST], 513, Refused(15)),
                ("15 before 16, below", [1.0, -SMALLEST_NORMAL, 0.0, 1.0], -513, Refused(15)),
                ("16 alone", [1.0, 0.0, -LARGEST, 1.0], 1, Refused(16))]:
            check.moves(what, reading, 2, in_reading(reading, sheet), k, expected)
    for what, weight, k, expected in [
            ("6 of a weight", NAN, 600, Refused(6, 2, 1)), ("7 of a weight", -0.0, 600, Refused(7, 2, 1)),
            ("7 before 8 of a weight", -tiny, 1, Refused(7, 2, 1)),
            ("8 of a weight before 15", tiny, 600, Refused(8, 2, 1)),
            ("8 of a weight before 16", tiny, 512, Refused(8, 2, 1))]:
        check.moves(what, 3, 1, [2.0 ** 600, weight], k, expected)
    check.moves("a margin that is zero", 2, 1, [0.0], 600, Refused(7, 1, 1))
    check.moves("a margin that is minus zero", 2, 2, [1.0, 0.0, 0.0, -0.0], 1, Refused(7, 2, 2))


def test_moving_ends(check: Checks) -> None:
    """Moving: both ends of the range of k, and for every k the last number at either end of the range of results
    that is moved and the first that is not, on the diagonal and beside it."""
    for reading in READINGS:
        for k in (-FURTHEST_POWER, FURTHEST_POWER):
            check.moves("an end of the range of k", reading, 1, in_reading(reading, [1.0]), k,
                        in_reading(reading, [2.0 ** k]))
        for k in POWERS_OUT_OF_RANGE:
            check.moves("past it", reading, 1, in_reading(reading, [1.0]), k, Refused(15))
    for k in range(-512, 513):
        # k lowers or raises the exponent field, which is 1 for 2^-1022 and 2046 for the largest number
        low, high = bits_of(SMALLEST_NORMAL), bits_of(LARGEST)
        within = {low + (max(0, -k) << 52): max(low, low + (k << 52)),
                  high - (max(0, k) << 52): min(high, high + (k << 52))}
        past = {low + (-k << 52) - 1} if k < 0 else {high - (k << 52) + 1} if k > 0 else set()
        for reading in READINGS:
            for before, after in within.items():
                check.moves("within", reading, 1, in_reading(reading, [number_of(before)]), k,
                            in_reading(reading, [number_of(after)]))
            for before in past:
                check.moves("past an end", reading, 1, in_reading(reading, [number_of(before)]), k, Refused(16))
                check.moves("past an end, off the diagonal", reading, 2,
                            in_reading(reading, [1.0, 0.0, -number_of(before), 1.0]), k, Refused(16))


def moved_bits(n: int, sheet: Sequence[float], k: int) -> Union[Refused, list[int]]:
    """Question 16 and the results by their bits alone: the exponent field of each nonzero number, plus k, has to be
    one of a finite number that is at least 2^-1022.  What stands after the n × n numbers keeps its bits."""
    words = [bits_of(x) for x in sheet]
    moved = [place for place in range(n * n) if words[place] & 2 ** 63 - 1]
    if not all(1 <= (words[place] >> 52 & 0x7ff) + k <= 0x7fe for place in moved):
        return Refused(16)
    for place in moved:
        words[place] += k << 52
    return words


def check_moved_again(check: Checks, rng: random.Random, reading: int, n: int, sheet: Sequence[float], k: int,
                      numbers: Sequence[float]) -> bool:
    """The numbers of a moved sheet, moved back, have the bits of the sheet.  Moved further they have those of the
    sheet moved once, by the sum; whether that was tried."""
    check.moves("and back", reading, n, numbers, -k, sheet)
    further = random_power(rng, n, numbers)
    again = move(reading, n, IN_SECONDS, numbers, further, len(numbers))
    if isinstance(again, Refused) or ask_power(k + further):
        return False
    check.moves("two moves as one", reading, n, sheet, k + further, again.numbers)
    return True


def test_random_moves(check: Checks, rng: random.Random, long: bool) -> None:
    """Moving random sheets: the bits and decisions of `moved_bits`, and moves of what was moved."""
    moved = refused = further = 0
    for at in range(12000 if long else 2000):
        reading, n = rng.choice(READINGS), rng.randint(1, 6) if at % 100 else LIMIT
        sheet = sheet_to_move(rng, reading, n)
        k = random_power(rng, n, sheet)
        got, expected = move(reading, n, IN_SECONDS, sheet, k, len(sheet)), moved_bits(n, sheet, k)
        check.equal(f"{sheet} by 2^{k}", [bits_of(x) for x in got.numbers] if isinstance(got, Moved) else got, expected)
        if isinstance(got, Moved):
            moved += 1
            check.equal("each by ldexp", words_of(got.numbers),
                        words_of([math.ldexp(x, k) for x in sheet[:n * n]] + sheet[n * n:]))
            further += check_moved_again(check, rng, reading, n, sheet, k, got.numbers)
        else:
            refused += 1
    check.true(f"{moved} sheets moved, {further} again, {refused} refused", min(moved, further, refused) > 100)


def divided(words: Sequence[int], k: int) -> list[int]:
    """Numbers of a table, each divided by 2^k, all by their bits (02, U9): plus zero stays, and else the exponent field
    is less by k, and still one of a finite number that is at least 2^-1022."""
    if not all(word == 0 or 1 <= (word >> 52) - k <= 0x7fe for word in words):
        raise ArithmeticError(f"a number of {words} divided by 2^{k} is out of range")
    return [word and word - (k << 52) for word in words]


Commuting = Counter[tuple[str, int, bool, bool]]    # service, reading, and which of two calls were accepted


def check_commutes(check: Checks, service: str, reading: int, k: int, got: Union[Table, Column, Prices, Refused],
                   moved: Union[Table, Column, Prices, Refused], seen: Commuting) -> None:
    """Two calls of a service, on a sheet and on that sheet moved by 2^k.  If both are accepted, the second has the
    numbers of the first divided by 2^k, and the same allowance.  Which of the two were accepted is counted."""
    accepted = not isinstance(got, Refused), not isinstance(moved, Refused)
    seen[(service, reading, *accepted)] += 1
    if all(accepted):
        check.equal(f"{service}, moved by 2^{k}", [bits_of(x) for x in moved.entries],
                    divided([bits_of(x) for x in got.entries], k))
        check.equal(f"{service}, allowance", moved.allowance, got.allowance)
    elif any(accepted):
        refused = moved if accepted[0] else got
        check.equal(f"{service}, moved by 2^{k}, one alone", refused, Refused(10))


def check_services(check: Checks, rng: random.Random, reading: int, n: int, e: int, sheet: Sequence[float], k: int,
                   moved: Moved, seen: Commuting) -> None:
    """Every service on a sheet and on that sheet moved by 2^k."""
    check_commutes(check, "table", reading, k, table(reading, n, e, sheet, n * n),
                   table(reading, n, moved.e, moved.numbers, n * n), seen)
    i, j = rng.randint(1, n), rng.randint(1, n)
    one, other = entry(reading, n, e, sheet, i, j), entry(reading, n, moved.e, moved.numbers, i, j)
    if isinstance(one, Seconds) and isinstance(other, Seconds):
        check.equal(f"entry of {sheet}", [bits_of(other.value)], divided([bits_of(one.value)], k))
    prices = random_prices(rng, n)
    check_commutes(check, "prices", reading, k, request_prices(reading, n, e, sheet, prices, n),
                   request_prices(reading, n, moved.e, moved.numbers, prices, n), seen)
    if reading == LEAVING_RATES:
        check_commutes(check, "column", reading, k, column(1, n, e, sheet, j, n),
                       column(1, n, moved.e, moved.numbers, j, n), seen)


def test_commuting_documents(check: Checks) -> None:
    """The papers' sheets moved, with their tables: what both are accepted for is the same but for the power, and that
    one is accepted does not say that the other is."""
    for what, reading, n, sheet, k, expected in [
            ("P in ticks", 1, 2, P_SHEET, -10, [1024.0, 1024.0, 1024.0, 2048.0]),
            ("P", 1, 2, P_SHEET, 512, [2.0 ** -512, 2.0 ** -512, 2.0 ** -512, 2.0 ** -511]),
            ("H", 2, 2, [3.0, -1.0, -4.0, 1.0], 3, [0.0625, 0.03125, 0.125, 0.125]),
            ("I", 2, 2, [2.0, 0.0, -1.0, 4.0], -1, [1.0, 0.0, 0.25, 0.5]),
            ("B, which is idle", 1, 1, [0.0], -512, [0.0]),
            ("D, half of it idle", 1, 2, [1.0, -0.0, 0.0, 0.0], 2, [0.25, 0.0, 0.0, 0.0]),
            ("E becomes F", 1, 1, [2.0 ** 1021], 1, Refused(10)),
            ("F becomes E", 1, 1, [2.0 ** 1022], -1, [2.0 ** -1021]),
            ("E and F of margins", 2, 1, [2.0 ** 1021], 1, Refused(10)),
            ("W in ticks", 3, 2, W_SHEET, -10, [320.0, 256.0, 256.0, 1024.0]),
            ("E and F with a weight", 3, 1, [2.0 ** 1000, 2.0 ** -21], 1, Refused(10)),
            ("F and E with a weight", 3, 1, [2.0 ** 1001, 2.0 ** -21], -1, [2.0 ** -1021]),
            ("a weighted size that leaves the range", 3, 2, [1.0, -2.0 ** -900, 0.0, 1.0, 1.0, 2.0 ** -121], -1,
             Refused(10)),
            ("C stays trapped", 1, 2, [0.0, -1.0, -1.0, 0.0], 5, Refused(9, 1))]:
        moved = move(reading, n, IN_SECONDS, sheet, k, len(sheet))
        got = table(reading, n, moved.e, moved.numbers, n * n)
        check.equal(what, words_of(got if isinstance(got, Refused) else got.entries), words_of(expected))


def test_two_moves(check: Checks) -> None:
    """Moving by a and then by b, beside moving by a + b: the same numbers and the same e; 15 where a + b is out of
    range, although both moves are accepted; and the single move is accepted where one of the two is not."""
    for what, e, sheet, a, b, expected in [
            ("there and back", 0, [2.0 ** -510], -512, 512, Moved([2.0 ** -510], 0)),
            ("a + b at its end", -512, [2.0 ** -900], 300, 212, Moved([2.0 ** -388], 0)),
            ("a + b past its end", -512, [2.0 ** -900], 300, 213, Refused(15)),
            ("a + b far past it", -512, [2.0 ** -1000], 512, 512, Refused(15)),
            ("from one end of e to the other", 512, [2.0 ** 600], -512, -512, Refused(15)),
            ("no move at all", 7, [3.0], 0, 0, Moved([3.0], 7))]:
        for reading in READINGS:
            first = move(reading, 1, e, in_reading(reading, sheet), a, 2)
            second = move(reading, 1, first.e, first.numbers, b, 2)
            single = move(reading, 1, e, in_reading(reading, sheet), a + b, 2)
            check.equal(what, single, expected if isinstance(expected, Refused)
                        else Moved(in_reading(reading, expected.numbers), expected.e))
            check.true(what, isinstance(second, Moved) and (single == second or single == Refused(15)))
    check.equal("a first move that is refused", move(1, 1, 0, [2.0 ** 1000], 100, 1), Refused(16))
    check.equal("where the single one is not", move(1, 1, 0, [2.0 ** 1000], 100 - 200, 1), Moved([2.0 ** 900], -100))
    zeros = move(1, 2, -100, [0.0, -0.0, -0.0, 5.0], 90, 4)
    check.equal("signs of zeros", words_of(move(1, 2, zeros.e, zeros.numbers, -30, 4).numbers),
                words_of(move(1, 2, -100, [0.0, -0.0, -0.0, 5.0], 60, 4).numbers))


def test_random_commuting(check: Checks, rng: random.Random, long: bool) -> None:
    """Random sheets, moved and moved back: every service on both."""
    seen: Commuting = Counter()
    for at in range(20000 if long else 4000):
        reading, n = rng.choice(READINGS), rng.randint(1, 5) if at % 300 else LIMIT
        sheet, k = sheet_to_commute(rng, reading, n)
        e = rng.randint(max(-FURTHEST_POWER, -FURTHEST_POWER - k), min(FURTHEST_POWER, FURTHEST_POWER - k))
        moved = move(reading, n, e, sheet, k, len(sheet))
        if isinstance(moved, Moved):
            check_services(check, rng, reading, n, e, sheet, k, moved, seen)
            check_services(check, rng, reading, n, moved.e, moved.numbers, -k, Moved(sheet, e), seen)
    services = [*((service, reading) for service in ("table", "prices") for reading in READINGS), ("column", 1)]
    for service, accepted, moved_accepted in itertools.product(services, (False, True), (False, True)):
        case = *service, accepted, moved_accepted
        check.true(f"{case}: {seen[case]}", seen[case] > 20)


def changed(data: bytes, at: int, form: str, value: int) -> bytes:
    """The bytes with one field changed."""
    field = struct.pack(form, value)
    return data[:at] + field + data[at + len(field):]


def test_file(check: Checks, rng: random.Random) -> None:
    """The file format: round trips, every cut, every field changed, the order of 11 to 14 and 4."""
    for reading in READINGS:
        for n in (1, 2, 3, 7, 31, 32):
            needed, after_rows = (n * n + n, 8 * n + 6) if reading == 3 else (n * n, 0)
            words = [rng.getrandbits(64) for _ in range(needed)]
            words[-1] = rng.choice([0x7ff0000000000001, 0xfff8000000000000, 0x7ff8dead00000000, 1 << 63])
            unit = check.unit()
            for data, head_bytes, e in ((make_file_words(reading, n, unit, words), 12, unit),
                                        (make_short_file_words(reading, n, words), 10, 0)):
                check.equal("length of a file", len(data), head_bytes + n * (8 * n + 8) + after_rows)
                check.equal("round trip", load(data, needed), Loaded(reading, n, e, words))
                check.equal("an area one short", load(data, needed - 1), Refused(4))
                check.equal("one more byte, small area", load(data + b"\0", 0), Refused(14))
    check.equal("longest file", (LONGEST_FILE, len(make_file(3, 32, 0, [1.0] * 1056))), (8722, 8722))
    check.equal("longest file without weights", len(make_file(1, 32, 0, [1.0] * 1024)), 8460)
    check.equal("bytes of A's file in ticks", make_file(1, 1, -10, [2.0]).hex(),
                "060000000100" "01000100f6ff" "0a0000000200" "0100" "0000000000000040")
    check.equal("bytes of A's file by document 01", make_short_file(1, 1, [2.0]).hex(),
                "040000000100" "01000100" "0a0000000200" "0100" "0000000000000040")
    for number, word in [("0x7ff8dead00000001", 0x7ff8dead00000001), ("-0x1p-1022", 0x8010000000000000),
                         ("-0", 1 << 63), ("0.5", 0x3fe0000000000000), ("inf", 0x7ff0000000000000)]:
        check.equal(f"number {number}", parse_word(number), word)
    loaded = load(make_file(1, 2, 7, P_SHEET), 4)
    check.true("numbers of P's file", isinstance(loaded, Loaded) and loaded.numbers == P_SHEET)
    test_damaged_file(check, make_file(1, 2, 7, P_SHEET), 12, 7)
    test_damaged_file(check, make_short_file(1, 2, P_SHEET), 10, 0)
    test_weights_of_files(check, make_file(3, 2, 7, W_SHEET), 12, 7)
    test_weights_of_files(check, make_short_file(3, 2, W_SHEET), 10, 0)
    check.equal("10,006 bytes", load(struct.pack("<IH", 9000, 2) + bytes(10000), 1024), Refused(12))


def test_weights_of_files(check: Checks, data: bytes, rows: int, e: int) -> None:
    """W's file, its two rows of 24 bytes from this byte on and then the 22 bytes of its weights, which are due as
    row 3: cut anywhere, with each field of the weights changed, and with other records in their place."""
    check.equal("W's file", load(data, 6), Loaded(3, 2, e, [bits_of(x) for x in W_SHEET]))
    check.equal("its weights", data[rows + 48:].hex(), "100000000300" "000000000000f03f" "0000000000000040")
    for cut in range(len(data)):
        row_due = 0 if cut < rows else 1 + (cut - rows) // 24
        check.equal(f"cut at {cut}", load(data[:cut], 0), Refused(11, row_due))
    for at, form, values, expected in [
            (0, "<I", (0, 1, 8, 14, 15), Refused(13, 3)), (0, "<I", (17, 24, 2 ** 32 - 1), Refused(11, 3)),
            (4, "<H", (0, 1, 2, 4, 259), Refused(13, 3))]:
        for value in values:
            check.equal(f"field at {at} of the weights is {value}",
                        load(changed(data, rows + 48 + at, form, value), 0), expected)
    before, weights = data[:rows + 48], data[rows + 48:]
    third_row = record(SHEET_ROW, struct.pack("<H2Q", 3, 0, 0))
    for what, file, expected in [
            ("a longer record in their place", before + record(SHEET_WEIGHTS, bytes(24)), Refused(13, 3)),
            ("an empty record in their place", before + record(SHEET_WEIGHTS, b""), Refused(13, 3)),
            ("a third row in their place", before + third_row, Refused(13, 3)),
            ("the weights as a row", before + record(SHEET_ROW, weights[6:]), Refused(13, 3)),
            ("14 after the weights", data + b"\0", Refused(14)), ("weights twice", data + weights, Refused(14)),
            ("a third row after them", data + third_row, Refused(14)),
            ("weights before the rows", data[:rows] + weights + data[rows:rows + 48], Refused(13, 1)),
            ("13 of the weights before 14", before + record(SHEET_WEIGHTS, b"") + bytes(9), Refused(13, 3)),
            ("13 of a row before 11 of the weights", changed(before, rows + 30, "<H", 9), Refused(13, 2)),
            ("the same with reading 1", changed(data, 6, "<H", 1), Refused(14)),
            ("the same with reading 2", changed(data, 6, "<H", 2), Refused(14)),
            ("the same with reading 4", changed(data, 6, "<H", 4), Refused(12))]:
        check.equal(what, load(file, 0), expected)
    for reading in (LEAVING_RATES, MARGINS):
        without = make_file(reading, 2, e, W_SHEET)
        check.equal("no weights where they are due", load(changed(without, 6, "<H", 3), 0), Refused(11, 3))
    for room in range(6):
        check.equal(f"4 of W's file in {room} places", load(data, room), Refused(4))


def test_damaged_file(check: Checks, data: bytes, rows: int, e: int) -> None:
    """P's file, its rows from this byte on and of 24 bytes each: cut anywhere, and with each field changed."""
    for cut in range(rows + 48):
        row_due = 0 if cut < rows else 1 if cut < rows + 24 else 2
        check.equal(f"cut at {cut}", load(data[:cut], 0), Refused(11, row_due))
    words = [bits_of(x) for x in P_SHEET]
    head, first, second, after = Refused(12), Refused(13, 1), Refused(13, 2), rows + 42
    for at, form, values, expected in [
            (0, "<I", (0, 3, 5, 7, 8, 48, after), head), (0, "<I", (after + 1, 2 ** 31, 2 ** 32 - 1), Refused(11, 0)),
            (4, "<H", (0, 2, 3, 257), head), (6, "<H", (0, 4, 257), head), (6, "<H", (2,), Loaded(2, 2, e, words)),
            (6, "<H", (3,), Refused(11, 3)),
            (8, "<H", (0, 33, 258, 65535), head), (8, "<H", (1, 3, 32), first),
            (rows, "<I", (0, 1, 17, 19, 42), first), (rows, "<I", (43, 2 ** 32 - 1), Refused(11, 1)),
            (rows + 4, "<H", (0, 1, 3, 258), first), (rows + 6, "<H", (0, 2, 257), first),
            (rows + 24, "<I", (0, 17), second), (rows + 24, "<I", (19, 2 ** 32 - 1), Refused(11, 2)),
            (rows + 28, "<H", (0, 1, 3, 258), second), (rows + 30, "<H", (0, 1, 3, 258), second),
            (rows + 8, "<Q", (0x7ff8dead00000001,), Loaded(1, 2, e, [0x7ff8dead00000001] + words[1:]))]:
        for value in values:
            check.equal(f"field at {at} is {value}", load(changed(data, at, form, value), 4), expected)
    check.equal("a bad row before a cut one", load(changed(data, rows + 6, "<H", 9)[:rows + 40], 4), first)
    no_row = record(SHEET_ROW, b"")
    check.equal("a row of length 0", load(data[:rows] + no_row + data[rows + 24:], 4), first)
    check.equal("a row of length 0 at the end", load(data[:rows + 24] + no_row, 4), second)


def test_units_of_files(check: Checks) -> None:
    """The e of a head (02, U5): two bytes in two's complement, both ends of its range, and the lengths of a head."""
    words = [bits_of(x) for x in P_SHEET]
    rows = make_records(LEAVING_RATES, 2, words)

    def file_with(payload: bytes) -> bytes:
        return record(HEAD, payload) + rows

    for word in range(65536):
        e = word if word < 32768 else word - 65536
        got = load(file_with(b"\1\0\2\0" + bytes([word % 256, word // 256])), 4)
        check.equal(f"a head with the word {word:04x}", got,
                    Loaded(1, 2, e, words) if -512 <= e <= 512 else Refused(12))
    for e, last in ((-1, "ffff"), (-512, "00fe"), (512, "0002"), (0, "0000"), (-10, "f6ff"), (255, "ff00")):
        check.equal(f"the bytes of e = {e}", make_head(1, 2, e).hex(), "060000000100" "01000200" + last)
    for last in ("fffd", "0102", "0080", "ff7f", "0003"):     # -513, 513, -32768, 32767, 768
        check.equal(f"e is {last}", load(file_with(bytes.fromhex("01000200" + last)), 4), Refused(12))
    for payload in (b"", b"\1\0", b"\1\0\2", b"\1\0\2\0\0", b"\1\0\2\0\0\0\0", b"\1\0\2\0\0\0\0\0"):
        check.equal(f"a head of {len(payload)} bytes", load(file_with(payload), 4), Refused(12))
        check.equal("the same, nothing after it", load(record(HEAD, payload), 4), Refused(12))
    check.equal("a head of four bytes", load(file_with(b"\1\0\2\0"), 4), Loaded(1, 2, 0, words))
    check.equal("12 of a whole head, a cut row", load(record(HEAD, b"\1\0\2\0\1\2") + rows[:3], 0), Refused(12))
    check.equal("a short head of 33 stages", load(make_short_head(1, 33) + rows, 4), Refused(12))
    check.equal("a short head of reading 3, no weights", load(make_short_head(3, 2) + rows, 6), Refused(11, 3))
    check.equal("a short head of reading 4", load(make_short_head(4, 2) + rows, 4), Refused(12))
    for e in UNITS:
        short = make_short_file(2, 2, P_SHEET)
        check.equal("a four-byte head saved", save(2, 2, load(short, 4).e, load(short, 4).words, 60),
                    Saved(bytes.fromhex("060000000100" "02000200" "0000") + short[10:]))
        data = make_file(1, 2, e, P_SHEET)
        again = load(data, 4)
        check.equal("a six-byte head saved", save(again.reading, again.n, again.e, again.words, 60), Saved(data))
        short = make_short_file(3, 2, W_SHEET)
        check.equal("the same with weights", save(3, 2, load(short, 6).e, load(short, 6).words, 82),
                    Saved(bytes.fromhex("060000000100" "03000200" "0000") + short[10:]))
    mailed = load(make_short_file(1, 2, P_SHEET), 4)
    in_ticks = move(mailed.reading, mailed.n, mailed.e, mailed.numbers, -10, 4)
    saved = save_numbers(mailed.reading, mailed.n, in_ticks.e, in_ticks.numbers, 60)
    check.equal("P loaded, moved to ticks and saved", dwell(saved.data), "seconds 2 32 -10\n1 1 4090000000000000\n"
                "1 2 4090000000000000\n2 1 4090000000000000\n2 2 40a0000000000000\n")
    mailed = load(make_short_file(3, 2, W_SHEET), 6)
    moved = move(mailed.reading, mailed.n, mailed.e, mailed.numbers, 2, 6)
    saved = save_numbers(mailed.reading, mailed.n, moved.e, moved.numbers, 82)
    check.equal("W loaded, moved to four seconds and saved", dwell(saved.data), "seconds 2 48 2\n"
                "1 1 3fb4000000000000\n1 2 3fb0000000000000\n2 1 3fb0000000000000\n2 2 3fd0000000000000\n")


def test_saving(check: Checks, rng: random.Random) -> None:
    """Saving: the bytes in full, the order of 1, 2, 12, 3 and 4, no other number, and both round trips."""
    check.equal("P saved", save(1, 2, -10, [bits_of(x) for x in P_SHEET], 60), Saved(bytes.fromhex(
        "060000000100" "01000200" "f6ff" "120000000200" "0100" "000000000000f03f" "000000000000f0bf"
        "120000000200" "0200" "000000000000f0bf" "0000000000000000")))
    check.equal("W saved", save(3, 2, 512, [bits_of(x) for x in W_SHEET], 82), Saved(bytes.fromhex(
        "060000000100" "03000200" "0002" "120000000200" "0100" "0000000000000040" "000000000000f0bf"
        "120000000200" "0200" "000000000000f0bf" "000000000000f83f" "100000000300" "000000000000f03f"
        "0000000000000040")))
    for what, arguments, expected in [
            ("reading 0", (0, 0, 513, [], 0), 1), ("reading 4", (4, 33, 0, [], 0), 1),
            ("n = 0", (1, 0, -513, [], 0), 2), ("n = 33", (2, 33, 0, [0] * 1089, 9000), 2),
            ("n = 2^63", (1, 2 ** 63, 513, [], 0), 2),
            ("e = 513", (1, 2, 513, [0] * 3, 0), 12), ("e = -513", (2, 2, -513, [0] * 4, 60), 12),
            ("a number too few", (1, 2, 512, [0] * 3, 0), 3), ("a number too many", (2, 2, -512, [0] * 5, 60), 3),
            ("a byte too few", (1, 2, 0, [0] * 4, 59), 4), ("no room", (2, 1, 0, [0], 0), 4),
            ("no weights", (3, 2, 0, [0] * 4, 0), 3), ("a weight too few", (3, 2, 0, [0] * 5, 82), 3),
            ("a weight too many", (3, 2, 0, [0] * 7, 82), 3), ("weights in reading 1", (1, 2, 0, [0] * 6, 82), 3),
            ("a byte too few for weights", (3, 2, 0, [0] * 6, 81), 4)]:
        check.equal(f"saving, {what}", save(*arguments), Refused(expected))
    for reading in READINGS:
        for n in range(1, LIMIT + 1):
            e, size, count = check.unit(), 12 + n * (8 * n + 8), n * n
            if reading == 3:
                size, count = size + 8 * n + 6, count + n
            words = [rng.choice([rng.getrandbits(64), 0x7ff0000000000001, 0xfff8000000000000, 0, 1 << 63, 1])
                     for _ in range(count)]
            saved = save(reading, n, e, words, size)
            check.true(f"{n} stages saved", isinstance(saved, Saved) and len(saved.data) == size)
            check.equal("loaded again", load(saved.data, count), Loaded(reading, n, e, words))
            check.equal("saved again", save(reading, n, e, load(saved.data, count).words, size + 5), saved)
            check.equal("one byte too few", save(reading, n, e, words, size - 1), Refused(4))
            numbers = load(saved.data, count).numbers
            as_one_nan = [ONE_NAN if x != x else word for x, word in zip(numbers, words)]
            check.equal("numbers, NaN as one", load(save_numbers(reading, n, e, numbers, size).data, count),
                        Loaded(reading, n, e, as_one_nan))


def test_dwell(check: Checks) -> None:
    """What the program prints, and how many bytes it judges."""
    check.equal("dwell of P", dwell(make_file(1, 2, 0, P_SHEET)), P_PRINTED)
    check.equal("dwell of P by document 01", dwell(make_short_file(1, 2, P_SHEET)), P_PRINTED)
    for e in UNITS:
        check.equal(f"dwell of P, e = {e}", dwell(make_file(1, 2, e, P_SHEET)),
                    P_PRINTED.replace("seconds 2 32 0", f"seconds 2 32 {e}"))
    check.equal("dwell of I", dwell(make_file(2, 2, -512, [2.0, -0.0, -1.0, 4.0])),
                "seconds 2 96 -512\n1 1 3fe0000000000000\n1 2 0000000000000000\n"
                "2 1 3fc0000000000000\n2 2 3fd0000000000000\n")
    check.equal("dwell of B", dwell(make_file(1, 1, 0, [0.0])), "seconds 1 4 0\n1 1 0000000000000000\n")
    check.equal("dwell of D", dwell(make_file(1, 2, 512, [1.0, -0.0, 0.0, -0.0])),
                "seconds 2 32 512\n1 1 3ff0000000000000\n1 2 0000000000000000\n"
                "2 1 0000000000000000\n2 2 0000000000000000\n")
    check.equal("dwell of W", dwell(make_file(3, 2, 0, W_SHEET)), "seconds 2 48 0\n1 1 3fd4000000000000\n"
                "1 2 3fd0000000000000\n2 1 3fd0000000000000\n2 2 3ff0000000000000\n")
    check.equal("dwell of a weight, a short head", dwell(make_short_file(3, 1, [2.0, 0.5])),
                "seconds 1 6 0\n1 1 3fd0000000000000\n")
    doubled = [2.0 if i == j else 0.0 for i in range(32) for j in range(32)]
    longest = make_file(3, 32, -10, doubled + [4.0] * 32)
    for data, first, last in ((make_file(1, 32, -10, doubled), "131072", "3fe"), (longest, "196608", "400")):
        lines = dwell(data).split("\n")
        check.equal("dwell of 32 stages", (lines[0], lines[33], lines[1024:]),
                    (f"seconds 32 {first} -10", "2 1 0000000000000000", [f"32 32 {last}0000000000000", ""]))
    for what, data, line in [
            ("nothing", b"", "11 0 0"),
            ("a way in and none out", make_file(1, 2, 0, [1.0, -1.0, 0.0, 0.0]), "9 2 0"),
            ("C", make_file(1, 2, 0, [0.0, -1.0, -1.0, 0.0]), "9 1 0"),
            ("F", make_file(1, 1, 1, [2.0 ** 1022]), "10 0 0"), ("G", make_file(2, 1, 0, [0.0]), "7 1 1"),
            ("J", make_file(1, 2, -1, [1.0, NAN, 5.0, 1.0]), "6 1 2"),
            ("a signalling NaN", make_file_words(1, 1, 0, [0x7ff0000000000001]), "6 1 1"),
            ("a cut row", make_file(1, 2, 0, P_SHEET)[:-1], "11 2 0"), ("n = 33", make_head(1, 33, 0), "12 0 0"),
            ("n = 33 by document 01", record(1, b"\1\0\x21\0"), "12 0 0"),
            ("reading 4", record(1, b"\4\0\1\0"), "12 0 0"), ("reading 3 alone", record(1, b"\3\0\1\0"), "11 1 0"),
            ("no weights", make_head(3, 2, 0) + make_records(1, 2, [bits_of(1.0)] * 4), "11 3 0"),
            ("weights that are not due", make_head(1, 2, 0) + make_records(3, 2, [bits_of(1.0)] * 6), "14 0 0"),
            ("a weight that is NaN", make_file(3, 1, 0, [0.0, NAN]), "6 2 1"),
            ("a weight that is 0", make_file(3, 1, 0, [2.0, 0.0]), "7 2 1"),
            ("e = 513", make_file(1, 2, 513, P_SHEET), "12 0 0"),
            ("e = -513", make_file(1, 2, -513, P_SHEET), "12 0 0"),
            ("a head of five bytes", record(1, b"\1\0\1\0\0"), "12 0 0"), ("more bytes", longest + b"\0", "14 0 0"),
            ("many more bytes", longest + bytes(9000), "14 0 0"),
            ("length 8718", struct.pack("<IH", 8718, 2) + bytes(10000), "11 0 0"),
            ("length 8717", struct.pack("<IH", 8717, 2) + bytes(10000), "12 0 0")]:
        check.equal(f"dwell of {what}", dwell(data), f"refused {line}\n")


def test_exact_side(check: Checks, rng: random.Random) -> None:
    """A times X is the identity over Fractions, the bounds enclose, and the rule is the rule's words."""
    for round_ in range(90):
        reading, n = rng.choice(READINGS), rng.randint(1, 5)
        sheet = random_sheet(rng, reading, n, random_style(rng))
        a = exact_matrix(reading, n, sheet)
        low, high = exact_bounds(reading, n, sheet)
        check.true("one exact inverse", low is high)
        x = [[Fraction(*q) for q in row] for row in low]
        product = [[sum(a[i][l] * x[l][j] for l in range(n)) for j in range(n)] for i in range(n)]
        check.equal("A times X", product, [[int(i == j) for j in range(n)] for i in range(n)])
        check.true("X is not negative", all(q >= 0 for row in x for q in row))
        if reading != MARGINS:
            z = [Fraction(weight) for weight in sheet[n * n:]] or [1] * n
            check.equal("s = Az", [sum(a_ij * z_j for a_ij, z_j in zip(row, z)) for row in a],
                        [Fraction(sheet[i * n + i]) for i in range(n)])
        elif round_ % 2:
            below, above = trimmed_bounds(reading, n, sheet)
            check.true("trimmed bounds enclose", all(
                Fraction(*below[i][j]) <= x[i][j] <= Fraction(*above[i][j]) for i in range(n) for j in range(n)))
    for exponent in (0, 1, 4, 32, 96, 500):
        y, x = 2 ** (53 * exponent), (2 ** 53 + 1) ** exponent
        check.true("at the allowance", near((x, 1), (y, 1), exponent) and near((y, 7), (x, 7), exponent))
        check.true("past it", not near((x + 1, 1), (y, 1), exponent) and not near((y, 7), (x + 1, 7), exponent))
        check.true("zero iff zero", near((0, 1), (0, 5), exponent) and not near((0, 1), (1, 5), exponent)
                   and not near((1, 5), (0, 1), exponent))
        check.true("negative", not near((-1, 1), (-1, 1), exponent))
    check.equal("units", (roundings((2 ** 53 + 3, 2), (2 ** 52, 1)), roundings((2 ** 52, 1), (2 ** 53 + 3, 2)),
                          roundings((0, 1), (0, 2)), roundings((0, 1), (1, 2))), (3.0, 3.0, 0.0, INF))


NAMES_OF_READINGS = {LEAVING_RATES: "leaving rates", MARGINS: "margins", WEIGHTS: "weights"}


@dataclass
class Worst:
    """The largest errors seen for one kind of sheets."""
    reading: int
    name: str
    accepted: int = 0
    out_of_range: int = 0
    edges: int = 0
    per_stage: tuple[float, int] = (0.0, 1)     # roundings over n, and n
    of_allowance: tuple[float, int] = (0.0, 1)  # and n

    def note(self, n: int, errors: list[EntryError]) -> None:
        self.accepted += 1
        self.per_stage = max(self.per_stage, (max(error.roundings for error in errors) / n, n))
        self.of_allowance = max(self.of_allowance, (max(error.allowances for error in errors), n))

    def line(self) -> str:
        return (f"{self.name}: {self.accepted} random sheets accepted ({self.edges} at the edge of the range), "
                f"{self.out_of_range} out of range; largest error {self.per_stage[0]:.3f}·n roundings "
                f"(n = {self.per_stage[1]}), {self.of_allowance[0]:.4f} of the allowance "
                f"(n = {self.of_allowance[1]})")


def check_accuracy(check: Checks, worst: Worst, n: int, sheet: list[float]) -> bool:
    """An accepted table keeps the accuracy rule; a sheet made to pass 6 to 9 is refused with 10 alone."""
    got = table(worst.reading, n, check.unit(), sheet, n * n)
    if isinstance(got, Refused):
        check.equal("the only refusal", got, Refused(10))
        worst.out_of_range += 1
        return False
    errors = accuracy(worst.reading, n, sheet, got.entries)
    for error in errors:
        check.true(f"accuracy of reading {worst.reading}, {sheet}: {error}", error.within)
    check.true("zeros are plus zero", all(math.copysign(1.0, x) == 1.0 for x in got.entries))
    worst.note(n, errors)
    return True


def test_random_sheets(check: Checks, rng: random.Random, long: bool) -> None:
    """Random sheets of each reading against the exact inverse, with sheets at the edge of the range."""
    for reading, name in NAMES_OF_READINGS.items():
        worst = Worst(reading, name)
        for _ in range(4000 if long else 700):
            n = rng.randint(1, 7)
            check_accuracy(check, worst, n, random_sheet(rng, reading, n, random_style(rng)))
        for n in range(8, LIMIT + 1):
            for _ in range(5 if long else 1):
                widest = 300 if long or n <= 16 else 30
                check_accuracy(check, worst, n, random_sheet(rng, reading, n, random_style(rng, widest)))
        for _ in range(1000 if long else 150):
            n = rng.randint(1, 5)
            pair = edge_pair(rng, reading, n, random_sheet(rng, reading, n, random_style(rng)))
            if pair is not None:
                worst.edges += 1
                apart = [abs(bits_of(x) - bits_of(y)) for x, y in zip(*pair)]
                check.equal("one last place apart", sorted(apart), [0] * (len(apart) - 1) + [1])
                check.true("accepted at the edge", check_accuracy(check, worst, n, pair[0]))
                check.gives("refused at the edge", reading, n, pair[1], Refused(10))
        for _ in range(30):
            n = rng.randint(1, 5)
            sheet = random_sheet(rng, reading, n, random_style(rng, 30))
            got = table(reading, n, check.unit(), sheet, n * n)
            check.gives("entries of a table", reading, n, sheet, got if isinstance(got, Refused) else got.entries)
        print(worst.line(), flush=True)


def check_exact_among_idle(check: Checks, rng: random.Random, worst: Worst, n: int, widest: int, total: int) -> None:
    """A random sheet among idle stages keeps the accuracy rule, also at the edge of the range.  The rule's exact
    inverse is that of the sheet without them, and zero elsewhere; so is the table, by its bits."""
    sheet = random_sheet(rng, LEAVING_RATES, n, random_style(rng, widest))
    live, wide = among_idle(rng, n, sheet, total)
    inverse, of_all = exact_bounds(LEAVING_RATES, n, sheet)[0], exact_bounds(LEAVING_RATES, total, wide)[0]
    check.equal("inverse over the other stages", [[of_all[i][j] for j in live] for i in live], inverse)
    zero = [(i, j) for i in range(total) for j in range(total) if i not in live or j not in live]
    check.true("zero in idle rows and columns", all(of_all[i][j][0] == 0 for i, j in zero))
    pair = edge_pair(rng, LEAVING_RATES, total, wide) if total < 9 else None
    worst.edges += pair is not None
    for numbers in [wide, *(pair or ())]:
        if check_accuracy(check, worst, total, numbers):
            entries = table(LEAVING_RATES, total, check.unit(), numbers, total * total).entries
            check.true("plus zero in idle rows and columns", all(bits_of(entries[i * total + j]) == 0 for i, j in zero))


def test_random_idle(check: Checks, rng: random.Random, long: bool) -> None:
    """Random sheets with idle stages: beside the same sheets without them, and against the exact inverse."""
    answers: dict[int, int] = {}
    for _ in range(3000 if long else 600):
        n = rng.randint(1, 6)
        got = check_among_idle(check, rng, n, any_sheet(rng, n), n + rng.randint(0, 4))
        number = got.number if isinstance(got, Refused) else 0
        answers[number] = answers.get(number, 0) + 1
    check.true(f"every answer came up: {answers}", set(answers) == {0, 6, 7, 8, 9, 10} and min(answers.values()) > 5)
    for n in range(1, LIMIT, 1 if long else 6):
        check_among_idle(check, rng, n, random_sheet(rng, LEAVING_RATES, n, random_style(rng, 30)), LIMIT)
    worst = Worst(LEAVING_RATES, "leaving rates with idle stages")
    for _ in range(1000 if long else 150):
        n = rng.randint(1, 5)
        check_exact_among_idle(check, rng, worst, n, 300, n + rng.randint(1, 4))
    for n in range(6, LIMIT, 3 if long else 9):
        check_exact_among_idle(check, rng, worst, n, 30, LIMIT)
    print(worst.line(), flush=True)


def self_test(long: bool) -> int:
    """Runs every check; the exit status."""
    check, rng, start = Checks(), random.Random(20240101), time.monotonic()
    try:
        test_document_sheets(check)
        test_order_and_places(check)
        test_places_of_weights(check)
        test_random_places(check, rng)
        test_zeros(check)
        test_range(check)
        test_order_of_steps(check)
        test_rounding(check, rng)
        test_literal_steps(check, rng)
        test_column_questions(check)
        test_column_range(check)
        test_trapped(check, rng)
        test_idle(check)
        test_price_documents(check)
        test_price_order(check)
        test_moving_documents(check)
        test_moving_order(check)
        test_moving_ends(check)
        test_units(check)
        test_moving_units(check)
        test_commuting_documents(check)
        test_two_moves(check)
        test_file(check, rng)
        test_units_of_files(check)
        test_saving(check, rng)
        test_dwell(check)
        test_exact_side(check, rng)
        test_random_sheets(check, rng, long)
        test_random_columns(check, rng, long)
        test_random_idle(check, rng, long)
        test_random_prices(check, rng, long)
        test_random_moves(check, rng, long)
        test_random_commuting(check, rng, long)
    except Failed as failure:
        print(f"FAILED after {check.count} checks: {failure}")
        return 1
    print(f"{time.monotonic() - start:.1f} seconds")
    print(f"{check.count} checks passed")
    return 0


# ==== Command line ====

USAGE = """usage: reference.py COMMAND
  dwell < FILE               print what the dwell program prints for this sheet file
  file READING N E NUMBER... write a sheet file, its unit being 2^E seconds, to standard output, from N × N numbers
                             and, in reading 3, N weights; a number is a decimal or hexadecimal float (-0.5,
                             -0x1p-1022, nan, inf) or a word of 0x and 16 hexadecimal digits
  accuracy < FILE            print for each entry: row, column, bits, its error in roundings (units of
                             2^-53) and in allowances, and whether the accuracy rule holds
  --self-test [--long]       check this reference; --long takes minutes and goes through every n up to 32
  --help                     print this
"""


def parse_word(text: str) -> int:
    """The 64 bits of a number from the command line."""
    if re.fullmatch(r"0x[0-9a-fA-F]{16}", text):
        return int(text, 16)
    return bits_of(float.fromhex(text) if "x" in text.lower() else float(text))


def print_accuracy(data: bytes) -> int:
    """The accuracy command; the exit status tells whether the rule holds."""
    found = table_of_stream(data)
    if isinstance(found, Refused):
        print(refused_line(found), end="")
        return 0
    sheet, answer = found
    errors = accuracy(sheet.reading, sheet.n, sheet.numbers, answer.entries)
    for error, x in zip(errors, answer.entries):
        print(f"{error.row} {error.column} {bits_of(x):016x} {error.roundings:.4f} {error.allowances:.6f} "
              f"{'within' if error.within else 'TOO FAR'}")
    return 0 if all(error.within for error in errors) else 1


def write_file(arguments: list[str]) -> int:
    """The file command: reading, n, e, then the numbers of the sheet."""
    try:
        reading, n, e = (int(text) for text in arguments[:3])
        words = [parse_word(text) for text in arguments[3:]]
        needed = sheet_length(reading, n)
        if len(words) != needed:
            raise ValueError(f"{n} stages in reading {reading} need {needed} numbers, not {len(words)}")
        data = make_file_words(reading, n, e, words)
    except (ValueError, OverflowError, struct.error) as error:
        print(f"file: {error}", file=sys.stderr)
        return 2
    sys.stdout.buffer.write(data)
    return 0


def main(arguments: list[str]) -> int:
    """Runs one command; the exit status."""
    if arguments == ["--self-test"] or arguments == ["--self-test", "--long"]:
        return self_test("--long" in arguments)
    if arguments == ["dwell"]:
        sys.stdout.write(dwell(sys.stdin.buffer.read(LONGEST_FILE + 1)))
        return 0
    if arguments == ["accuracy"]:
        return print_accuracy(sys.stdin.buffer.read(LONGEST_FILE + 1))
    if arguments[:1] == ["file"] and len(arguments) >= 4:
        return write_file(arguments[1:])
    print(USAGE, end="", file=sys.stdout if arguments == ["--help"] else sys.stderr)
    return 0 if arguments == ["--help"] else 2


if __name__ == "__main__":
    sys.exit(main(sys.argv[1:]))
