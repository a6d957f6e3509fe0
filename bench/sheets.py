"""The sheets of the benchmark, made from fixed seeds, and the count of rows that need the full range test."""
from __future__ import annotations

import math
import random
import sys
from pathlib import Path

sys.path.insert(0, str(Path(__file__).resolve().parent.parent / "tools"))
import reference  # noqa: E402  the path comes first

Sheet = list[float]


def dense(rng: random.Random, n: int, diagonal: float, spread: float = 0.0) -> Sheet:
    """Every move there, sizes from 0.5 to 2, times 10 to a power up to `spread` either way; the diagonal
    parameter is `diagonal` times such a number.  Good for readings 1 and 2."""
    def size() -> float:
        return rng.uniform(0.5, 2.0) * 10.0 ** rng.uniform(-spread, spread)
    return [diagonal * size() if i == j else -size() for i in range(n) for j in range(n)]


def with_weights(rng: random.Random, n: int, share: float, spread: float = 0.0) -> Sheet:
    """Reading 3: a dense sheet whose weighted row sums are `share` times such a number, and weights from 0.5 to 2,
    times 10 to a power up to `spread` either way."""
    return dense(rng, n, share) + [rng.uniform(0.5, 2.0) * 10.0 ** rng.uniform(-spread, spread) for _ in range(n)]


def with_stages_not_kept(rng: random.Random, n: int, margin: float, larger: float) -> Sheet:
    """Reading 2: every second stage from the first has no move (h is 0), and moves of later stages to it
    are `larger` times the others, as in source document 000, Table 2."""
    sheet = dense(rng, n, margin)
    for i in range(n):
        for j in range(n):
            if i != j and i % 2 == 0:
                sheet[i * n + j] = 0.0
            elif j < i and j % 2 == 0:
                sheet[i * n + j] *= larger
    return sheet


def with_idle_stages(rng: random.Random, n: int) -> Sheet:
    """Reading 1: every second stage from the second is idle, the others are dense."""
    sheet = dense(rng, n, 0.01)
    return [0.0 if i % 2 == 1 or j % 2 == 1 else sheet[i * n + j] for i in range(n) for j in range(n)]


def others_alone(n: int, sheet: Sheet) -> Sheet:
    """The sheet of the stages that are not idle."""
    live = reference.live_stages(1, n, sheet)
    return [sheet[i * n + j] for i in live for j in live]


def scaled(sheet: Sheet, exponent: int) -> Sheet:
    """The sheet with every rate times 2^exponent."""
    return [math.ldexp(x, exponent) for x in sheet]


def lowest_accepted(n: int, sheet: Sheet) -> int:
    """The least exponent for which the sheet scaled by that power of two is accepted."""
    accepted, refused = -900, -1100
    while accepted - refused > 1:
        middle = (accepted + refused) // 2
        if isinstance(reference.table(1, n, reference.IN_SECONDS, scaled(sheet, middle), n * n), reference.Table):
            accepted = middle
        else:
            refused = middle
    return accepted


def small_moves(rng: random.Random, n: int, exponent: int) -> Sheet:
    """Leaving rates near 1 and moves near 2^exponent."""
    return [x if p % (n + 1) == 0 else math.ldexp(x, exponent) for p, x in enumerate(dense(rng, n, 1.0))]


def pairs(rng: random.Random, n: int) -> Sheet:
    """Stages in pairs, n even.  The first of a pair moves to the second at hardly more than 2^-1022, the
    second to the first at a quarter of its leaving rate; both move to the second of every earlier pair.  At
    every second stage the quick test fails for the one row of sizes that changes, and yet every step is in range."""
    def size(i: int, j: int) -> float:
        if i // 2 == j // 2:
            return 2.0 ** -1022 * rng.uniform(2.0, 3.0) if i < j else 2.0 ** -102
        return 2.0 ** -103 * rng.uniform(1.0, 2.0) if j < i and j % 2 == 1 else 0.0
    return [2.0 ** -100 if i == j else -size(i, j) for i in range(n) for j in range(n)]


def line(rng: random.Random, n: int) -> Sheet:
    """Each stage moves to the next alone, and only the last leaves: question 9 marks one stage at a turn."""
    return [rng.uniform(0.5, 2.0) if i == j == n - 1 else -rng.uniform(0.5, 2.0) if j == i + 1 else 0.0
            for i in range(n) for j in range(n)]


def rows_to_test(n: int) -> int:
    """The row updates of the sizes, and the rows of b, downward and upward."""
    return n * (n - 1) // 2 + 2 * (n - 1)


def full_tests(n: int, sheet: Sheet) -> int:
    """How many of those fail the quick range test and are tested product by product.  A row of sizes passes
    where its multiplier times the bound of the row that is added is above 2^-1022, a row of b where each of
    its multipliers times the bound of all rows done is; a bound is the least of 1 and the nonzero numbers.
    The steps run on where they leave the range."""
    t, s = reference.sheet_parts(n, sheet)
    b = [[1.0 if i == j else 0.0 for j in range(n)] for i in range(n)]
    m = [[0.0] * n for _ in range(n)]
    p, count = [], 0

    def bound(numbers: list[float]) -> float:
        return min([1.0] + [x for x in numbers if x != 0.0])

    def passes(factor: float, least: float) -> bool:
        return factor == 0.0 or factor * least > reference.SMALLEST_NORMAL

    for k in range(n):
        p.append(sum(t[k][k + 1:], s[k]))
        least = bound([s[k], *t[k][k + 1:]])
        for i in range(k + 1, n):
            m[i][k] = t[i][k] / p[k]
            count += t[i][k] != 0.0 and not m[i][k] * least > reference.SMALLEST_NORMAL
            s[i] += m[i][k] * s[k]
            t[i] = [t[i][j] + m[i][k] * t[k][j] if j > k and j != i else t[i][j] for j in range(n)]
    for i in range(n):
        for k in range(i + 1, n):
            m[i][k] = t[i][k] / p[k]
    for rows in (list(range(n)), list(reversed(range(n)))):
        least = 1.0
        for place, i in enumerate(rows):
            done = rows[:place]
            count += not all(passes(m[i][k], least) for k in done)
            for k in done:
                b[i] = [x + m[i][k] * y for x, y in zip(b[i], b[k])]
            least = bound([least, *b[i]])
    return count
