#!/usr/bin/env python3
"""Makes the cases that the program `cases` runs and what it must write, from the independent reference:

    python3 crates/cases/expected.py stdin > crates/cases/stdin
    python3 crates/cases/expected.py stdout > crates/cases/stdout

dwell's input: all sheets of document 01, the cases of its reading that a file can carry, damaged files, sheets
at the edge of the range, and random sheets of readings 1 and 2 with every n from 1 to 32; in files with document 01's
head and in files that say their unit. Calls of the whole table and of one entry where a file cannot: sizes and units
out of range, sheets and areas of a wrong length, stages out of range.
Files for both readers: cut at every byte, a byte of a record's head changed, lengths, one byte more, a small area;
heads of every length, and units at both ends of their range and past them.
Sheets of every n for both writers, in several units, NaN patterns among them, each loaded again; calls that saving
refuses.
One column: its questions in order, every column of document 01's sheets of reading 1, and random sheets with every
n from 1 to 32, among them many whose table is out of range while the column is not.
Idle stages: first, between others, last, many and alone, with zeros of either sign; stages that are nearly idle; the
entries and columns of an idle stage, and those beside it.
Moving to another time unit: the questions in order, both ends of the range of k, of the new unit and of the results,
zeros of either sign, sheets that no table takes, 32 stages, random sheets by the last k that moves them and the first
that does not, and 1 by every k.
Prices: the questions in order, every fault of a price, the papers' sheets, orders of the sum, zeros of either sign,
idle stages, each way to leave the range, prices at the edge of it, and random sheets of readings 1 and 2 with every n
from 1 to 32.
Moving and the services: sheets moved in two moves and in one, and the table, one column and prices of the sheet and of
the moved sheet, which are compared before they are written.
Weights: all of this for reading 3, with random sheets of some n up to 32; each question of the rows and the weights
before the next, every step that weights add, orders of a pivot's steps, their record in files, and moves that leave
them as they are.
Before an accepted table, column or price is written it is compared with the exact inverse by the accuracy rule.
"""
from __future__ import annotations

import itertools
import random
import struct
import sys
from collections import Counter
from pathlib import Path
from typing import Iterable, Iterator, NamedTuple, Sequence, Union

sys.path.insert(0, str(Path(__file__).resolve().parents[2] / "tools"))
sys.dont_write_bytecode = True

from reference import (GREATEST_INT64, HEAD, IN_SECONDS, INF, LARGEST, LEAST_INT64, LIMIT, NAN, P_SHEET,  # noqa: E402
                       POWERS_OUT_OF_RANGE, SHEET_ROW, SHEET_WEIGHTS, W_SHEET, Column, Loaded, Moved, Prices, Refused,
                       Saved, Style, Table, accuracy, among_idle, bits_of, column, column_accuracy, divided, dwell,
                       edge_pair, entry, file_length, load, make_file, make_head, make_records, make_short_file,
                       make_short_file_words, make_short_head, move, number_of, price_accuracy, price_edge_pair,
                       random_prices, random_sheet, random_size, random_style, range_facts, record, records_of,
                       request_prices, save, sheet_length, sheet_parts, sheet_to_move, table, table_of_stream,
                       uneven_sheet, word_of)

Sheet = tuple[int, int, list[float]]  # reading, n, numbers

SMALLEST = 2.0 ** -1022

UNITS = [0, -10, 512, -512, 10, -1, 256, -257]      # e of sheets whose answers do not depend on it

# Document 01, "Sheets to try", with the off-diagonals -2^-1074 and -2^-1022.
DOCUMENT: list[Sheet] = [
    (1, 1, [2.0]), (1, 1, [0.0]), (1, 2, P_SHEET), (1, 2, [0.0, -1.0, -1.0, 0.0]), (1, 2, [1.0, 0.0, 0.0, 0.0]),
    (1, 1, [2.0 ** 1021]), (1, 1, [2.0 ** 1022]), (2, 1, [0.0]), (2, 2, [3.0, -1.0, -4.0, 1.0]),
    (2, 2, [2.0, 0.0, -1.0, 4.0]), (1, 2, [1.0, NAN, 5.0, 1.0]), (1, 1, [3.0]),
    (1, 2, [1.0, -2.0 ** -1074, 0.0, 1.0]), (1, 2, [1.0, -SMALLEST, 0.0, 1.0]),
    (1, 2, [1.0, -SMALLEST, 0.0, 2.0 ** -10])]

# Each question of the whole sheet before the next, and the first bad place.
ORDER: list[Sheet] = [
    (1, 2, [5.0, 1.0, NAN, 1.0]), (1, 2, [1.0, -2.0 ** -1074, 1.0, 1.0]), (1, 2, [0.0, -2.0 ** -1074, 0.0, 0.0]),
    (2, 2, [1.0, 0.0, 0.0, 2.0 ** -1074]), (1, 2, [2.0 ** 1022, 0.0, 0.0, 0.0]), (1, 2, [1.0, 0.0, 0.0, INF]),
    (2, 1, [-INF]), (1, 2, [1.0, 0.0, 0.0, -1.0]), (2, 1, [-1.0]),
    (1, 4, [0.0, 0.0, 0.0, -1.0, 0.0, 0.0, -1.0, 0.0, 0.0, -1.0, 0.0, 0.0, 0.0, 0.0, 0.0, 1.0])]

# A zero of either sign.
ZEROS: list[Sheet] = [
    (1, 1, [-0.0]), (2, 2, [1.0, 0.0, 0.0, -0.0]), (1, 2, [1.0, -1.0, -1.0, -0.0]), (1, 2, [2.0, -0.0, 0.0, 4.0]),
    (2, 2, [2.0, 0.0, -0.0, 4.0]), (2, 2, [2.0, -0.0, -1.0, 4.0])]

# The rounded result decides, and only steps that are taken count.
RANGE: list[Sheet] = [
    (1, 2, [(1 + 2.0 ** -52) * 2.0 ** -500, -1.0, -(1 - 2.0 ** -53) * 2.0 ** -522, 1.0]),
    (1, 1, [2.0 ** 1022 - 2.0 ** 969]), (2, 3, [1.0, 0.0, -1.0, 0.0, SMALLEST, -1.0, 0.0, 0.0, 1.0]),
    (2, 2, [SMALLEST, -1.0, 0.0, 1.0]), (1, 2, [1.0, 0.0, 0.0, 2.0 ** 1022])]

# Orders and groupings of the steps that other texts have otherwise.
ORDERS_OF_STEPS: list[Sheet] = [
    (2, 2, [3.0, -1.0, 0.0, 1.0]), (2, 2, [1.0, -5.0, 0.0, 1.0]), (2, 2, [4.0, -3.0, -1.0, 1.0]),
    (2, 2, [5.0, 0.0, -3.0, 1.0]),
    (2, 4, [1.0, 0.0, 0.0, 0.0, -7.0, 3.0, 0.0, -3.0, -7.0, 0.0, 4.0, 0.0, -3.0, -5.0, -5.0, 7.0]),
    (2, 4, [1.0, -2.0 ** 53, -1.0, -1.0, 0.0, 1.0, 0.0, 0.0, 0.0, 0.0, 1.0, 0.0, 0.0, 0.0, 0.0, 1.0]),
    (2, 4, [2.0 ** -60, 0.0, 0.0, -1.0, -2.0 ** 53, 1.0, -1.0, -1.0, 0.0, 0.0, 1.0, 0.0, 0.0, 0.0, 0.0, 1.0]),
    (1, 3, [2.0 ** 53, -1.0, -1.0, 0.0, 1.0, 0.0, 0.0, 0.0, 1.0]),
    (1, 4, [0.0, -2.0 ** 53, -1.0, -1.0, 0.0, 1.0, 0.0, 0.0, 0.0, 0.0, 1.0, 0.0, 0.0, 0.0, 0.0, 1.0]),
    (2, 4, [2.0 ** -60, -1.0, -1.0, -2.0 ** 53, 0.0, 2.0 ** -60, 0.0, -1.0,
            0.0, 0.0, 2.0 ** -60, -1.0, 0.0, 0.0, 0.0, 1.0]),
    (1, 3, [1.0, -(2.0 ** -53 + 2.0 ** -60), -2.0 ** -53, -(1 + 2.0 ** -52), 0.0, 0.0, -(1 + 2.0 ** -52), 0.0, 0.0])]


def steps_out_of_range() -> list[Sheet]:
    """For each kind of step a sheet in which one step of that kind leaves the range first."""
    tiny, huge, most = 2.0 ** -600, 2.0 ** 600, LARGEST
    return [
        (1, 3, [1.0, 0.0, 0.0, 0.0, most, -most, 0.0, 0.0, 1.0]),       # a pivot
        (1, 2, [huge, 0.0, -tiny, 1.0]),                                # a downward m
        (1, 2, [tiny, -1.0, -tiny, 1.0]),                               # m·s_k
        (1, 2, [most, 0.0, -most, most]),                               # s_i + m·s_k
        (1, 3, [1.0, 0.0, -tiny, -tiny, 1.0, 0.0, 0.0, 0.0, 1.0]),      # m·t_kj
        (1, 3, [1.0, 0.0, 0.0, -tiny, 1.0, 0.0, 0.0, -tiny, 1.0]),      # a downward m·b_kj
        (1, 2, [1.0, -tiny, 0.0, huge]),                                # an upward m
        (1, 3, [1.0, -tiny, 0.0, 0.0, 1.0, -tiny, 0.0, 0.0, 1.0]),      # an upward m·b_kj
        (2, 2, [huge, -1.0, -tiny, 1.0]),                               # t_ij·k_j in h
        (2, 3, [1.0, -most, -most, 0.0, 1.0, 0.0, 0.0, 0.0, 1.0]),      # h
        (2, 2, [most, -most, 0.0, 1.0]),                                # a = d + h
        (2, 2, [huge, -tiny, 0.0, 1.0]),                                # k = h / a
        (2, 3, [1.0, -tiny, -1.0, 0.0, huge, -1.0, 0.0, 0.0, 1.0]),     # a new size
        (2, 3, [1.0, -tiny, -1.0, 0.0, tiny, -1.0, 0.0, 0.0, 1.0]),     # t·(d / a)
        (2, 3, [huge, -tiny, -1.0, 0.0, 1.0, -1.0, 0.0, 0.0, 1.0]),     # k_i·y_ij
        (2, 1, [2.0 ** 1022]),                                          # 1 / a_k
        (2, 2, [huge, 0.0, -tiny, 1.0]),                                # t_jk / a_k
        (2, 2, [1.0, 0.0, -tiny, huge])]                                # x_ij·(t_jk / a_k)


def damaged_rows(p: bytes) -> list[bytes]:
    """P's file with either head, cut, with a row that is not the one due, and with a byte more."""
    head, first, second = p[:-48], p[-48:-24], p[-24:]
    bad_row = first[:6] + struct.pack("<H", 9) + first[8:]
    return [p[:1], head[:-1], head, p[:-25], p[:-24], p[:-1], p + b"\0", head + bad_row + second,
            head + bad_row + second[:16], head + record(SHEET_ROW, b"") + second, head + first + record(SHEET_ROW, b"")]


def damaged_files() -> list[bytes]:
    """Files that are refused before a sheet is known, and the bytes that dwell judges."""
    p = make_file(1, 2, -10, P_SHEET)
    doubled = [2.0 if i % (LIMIT + 1) == 0 else 0.0 for i in range(LIMIT * LIMIT)]
    longest = make_file(3, LIMIT, 512, doubled + [1.0] * LIMIT)
    return [
        b"", *damaged_rows(p), *damaged_rows(make_short_file(1, 2, P_SHEET)), make_head(1, 33, 0),
        make_short_head(1, 33), make_short_head(1, 0), make_short_head(4, 1), make_head(0, 1, 0),
        record(SHEET_ROW, struct.pack("<HH", 1, 1)), record(HEAD, b"\1\0"), record(HEAD, b"\1\0\1\0\0"),
        make_file(1, 2, 513, P_SHEET), make_file(1, 2, -513, P_SHEET),
        struct.pack("<IH", 2 ** 32 - 1, HEAD) + p[6:], longest + b"\0", longest + bytes(4000), longest[:-1],
        *(struct.pack("<IH", length, SHEET_ROW) + bytes(10000) for length in (8718, 8717, 8716, 9000))]


def accepted(sheet: Sheet) -> bool:
    reading, n, numbers = sheet
    return isinstance(table(reading, n, IN_SECONDS, numbers, n * n), Table)


def edge_of(sheet: Sheet) -> list[Sheet]:
    """An accepted sheet and one refused with 10, one last place apart, between a refused sheet and the
    same sheet with one number of size 1; the refused sheet alone where no such change is accepted."""
    reading, n, numbers = sheet
    for place, number in enumerate(numbers):
        def with_size(word: int) -> Sheet:
            size = number_of(word) if number > 0.0 else -number_of(word)
            return reading, n, numbers[:place] + [size] + numbers[place + 1:]

        inside, outside = bits_of(1.0), bits_of(abs(number))
        if number == 0.0 or not accepted(with_size(inside)):
            continue
        while abs(inside - outside) > 1:
            middle = (inside + outside) // 2
            if accepted(with_size(middle)):
                inside = middle
            else:
                outside = middle
        return [with_size(inside), with_size(outside)]
    return [sheet]


def random_edges(rng: random.Random, count: int, readings: Sequence[int]) -> Iterator[Sheet]:
    """Random sheets of few stages, carried to the edge of the range."""
    for _ in range(count):
        reading, n = rng.choice(readings), rng.randint(1, 4)
        pair = edge_pair(rng, reading, n, random_sheet(rng, reading, n, random_style(rng)))
        if pair is not None:
            yield reading, n, pair[0]
            yield reading, n, pair[1]


def small_sheets(rng: random.Random, count: int, readings: Sequence[int]) -> Iterator[Sheet]:
    """Random sheets of few stages and every style, accepted or out of range."""
    for _ in range(count):
        reading, n = rng.choice(readings), rng.randint(1, 7)
        yield reading, n, random_sheet(rng, reading, n, random_style(rng))


def accepted_sheet(rng: random.Random, reading: int, n: int, style: Style) -> Sheet:
    """An accepted sheet of this style, or of one whose rates spread less."""
    spread, below = style.spread, style.below
    for _ in range(200):
        sheet = reading, n, random_sheet(rng, reading, n, Style(style.density, spread, below, style.share))
        if accepted(sheet):
            return sheet
        spread, below = spread * 9 // 10, below * 9 // 10
    raise ArithmeticError("no accepted sheet of this style")


# Dense and sparse; rates over hundreds of binary orders; leaving rates a millionth of the moving rates
# and far less; stages that are not kept.
STYLES = [Style(1.0, 3, 20, 0.2), Style(0.1, 200, 0, 0.5), Style(0.3, 30, 60, 0.5), Style(1.0, 100, 0, 1.0),
          Style(0.6, 0, 200, 0.2), Style(0.1, 30, 20, 1.0), Style(1.0, 30, 400, 0.0), Style(0.3, 150, 60, 0.2)]


def of_sizes(rng: random.Random, reading: int, sizes: Iterable[int]) -> Iterator[Sheet]:
    """For each of these n an accepted sheet."""
    for n in sizes:
        yield accepted_sheet(rng, reading, n, STYLES[(n + 3 * reading) % len(STYLES)])


def bad_last_number(rng: random.Random, reading: int, n: int) -> Iterator[Sheet]:
    """A large sheet with a bad last number."""
    sheet = random_sheet(rng, reading, n, Style(0.5, 30, 0, 0.5))
    for last in (NAN, -1.0, 2.0 ** -1074, LARGEST):
        yield reading, n, sheet[:-1] + [last]


def many_trapped() -> Sheet:
    """A sheet in which cycles of stages are trapped."""
    n = 20
    leaving = {0: 1.0, n - 1: 1.0}
    moves = {(i, (7 * i + 3) % n) for i in range(n)}
    return 1, n, [leaving.get(i, 0.0) if i == j else -float((i, j) in moves) for i in range(n) for j in range(n)]


def files(sheets: Iterable[Sheet]) -> Iterator[bytes]:
    """A file of each sheet: one after the other in the units above, and then one by document 01."""
    for (reading, n, numbers), e in zip(sheets, itertools.cycle([*UNITS, None])):
        yield make_short_file(reading, n, numbers) if e is None else make_file(reading, n, e, numbers)


def inputs() -> list[bytes]:
    """What dwell is given."""
    rng = random.Random(20260101)
    sheets = DOCUMENT + ORDER + ZEROS + RANGE + ORDERS_OF_STEPS
    for sheet in steps_out_of_range():
        sheets.append(sheet)
        sheets += edge_of(sheet)
    sheets += random_edges(rng, 40, [1, 2])
    sheets += small_sheets(rng, 100, [1, 2])
    for reading in (1, 2):
        sheets += of_sizes(rng, reading, range(1, LIMIT + 1))
    sheets += [*bad_last_number(rng, 1, 19), *bad_last_number(rng, 2, LIMIT), many_trapped()]
    return [*damaged_files(), *files(sheets)]


# ==== The cases and what each writes ====

AREA_NUMBER, AREA_WORD, AREA_BYTE = 0.5, 101, 7     # what the places of an area hold before the call


class Case(NamedTuple):
    """The bytes that the program reads, and the text that it must write."""
    data: bytes
    text: str


def packed(letter: str, words: list[int], rest: bytes = b"") -> bytes:
    """The letter of a call, 64-bit words, a negative one in two's complement, and further bytes."""
    return letter.encode() + struct.pack(f"<{len(words)}Q", *(word % 2 ** 64 for word in words)) + rest


def number_bits(word: int) -> int:
    """The bits of the f64 that a word becomes: a NaN keeps no payload."""
    return word_of(number_of(word))


def line(answer: object, handed: list[int], words: list[int]) -> str:
    """A refusal or zeros, what an accepted call hands over, and words in hexadecimal."""
    refusal = (answer.number, answer.row, answer.column) if isinstance(answer, Refused) else (0, 0, 0)
    return "".join(f" {count}" for count in [*refusal, *handed]) + "".join(f" {word:016x}" for word in words) + "\n"


def check_accuracy(reading: int, n: int, sheet: list[float], answer: Union[Table, Refused]) -> None:
    """An accepted table keeps the accuracy rule."""
    if isinstance(answer, Table) and not all(error.within for error in accuracy(reading, n, sheet, answer.entries)):
        raise ArithmeticError(f"reading {reading}, {sheet}: not within the allowance")


def dwell_case(data: bytes) -> Case:
    found = table_of_stream(data)
    if not isinstance(found, Refused):
        check_accuracy(found[0].reading, found[0].n, found[0].numbers, found[1])
    return Case(packed("d", [], data), dwell(data))


def table_case(reading: int, n: int, e: int, sheet: list[float], room: int) -> Case:
    answer = table(reading, n, e, sheet, room)
    check_accuracy(reading, n, sheet, answer)
    area = [AREA_NUMBER] * room
    if isinstance(answer, Table):
        area[:n * n] = answer.entries
    return Case(packed("t", [reading, n, e, room, *(bits_of(x) for x in sheet)]),
                line(answer, [answer.allowance] if isinstance(answer, Table) else [], [bits_of(x) for x in area]))


def entry_case(reading: int, n: int, e: int, sheet: list[float], i: int, j: int) -> Case:
    answer = entry(reading, n, e, sheet, i, j)
    return Case(packed("e", [reading, n, e, i, j, *(bits_of(x) for x in sheet)]),
                line(answer, [], [] if isinstance(answer, Refused) else [bits_of(answer.value)]))


def entries_case(reading: int, e: int, sheet: list[float]) -> Case:
    """Every entry of a sheet of 32 stages, each by itself: those of its table."""
    answer = table(reading, LIMIT, e, sheet, LIMIT * LIMIT)
    assert isinstance(answer, Table)
    return Case(packed("a", [reading, LIMIT, e, *(bits_of(x) for x in sheet)]),
                "".join(line(answer, [], [bits_of(x)]) for x in answer.entries))


def handed_head(answer: Union[Loaded, Refused]) -> list[int]:
    """What a reader hands over beside the numbers."""
    return [answer.reading, answer.n, answer.e] if isinstance(answer, Loaded) else []


def file_case(data: bytes, room: int) -> Case:
    """Both readers have the same answer, and areas of their own."""
    answer = load(data, room)
    words = answer.words if isinstance(answer, Loaded) else []
    areas = [words + [AREA_WORD] * (room - len(words)),
             [number_bits(word) for word in words] + [bits_of(AREA_NUMBER)] * (room - len(words))]
    return Case(packed("f", [room], data), "".join(line(answer, handed_head(answer), area) for area in areas))


def save_cases(reading: int, n: int, e: int, words: list[int], room: int) -> Iterator[Case]:
    """A sheet saved as words and as numbers: the answer and every byte; then what loading that file gives."""
    for letter, sheet, unset in (("s", words, AREA_WORD), ("n", [number_bits(word) for word in words], bits_of(AREA_NUMBER))):
        answer = save(reading, n, e, sheet, room)
        data = answer.data if isinstance(answer, Saved) else b""
        area = data + bytes([AREA_BYTE]) * (room - len(data))
        again = load(data, len(sheet))
        loaded = again.words if isinstance(again, Loaded) else [unset] * len(sheet)
        text = line(answer, [len(data)] if isinstance(answer, Saved) else [], [])[:-1] + f" {area.hex()}\n"
        yield Case(packed(letter, [reading, n, e, room, *words]), text + line(again, handed_head(again), loaded))


def save_any_words(rng: random.Random, reading: int, n: int) -> Iterator[Case]:
    """A sheet of any words, NaN patterns among them, with room to spare or just enough."""
    words = [rng.choice([rng.getrandbits(64), 0x7ff0000000000001 + rng.getrandbits(40), 0xfff8000000000000, 1 << 63,
                         0]) for _ in range(sheet_length(reading, n))]
    return save_cases(reading, n, UNITS[n % len(UNITS)], words, file_length(reading, n) + n % 3)


def saves(rng: random.Random) -> Iterator[Case]:
    """Sheets of every n, with room to spare or just enough; sheets that saving refuses, in the questions' order; each
    unit, and a sheet that was loaded from a file by document 01."""
    for n in range(1, LIMIT + 1):
        as_words, as_numbers = save_any_words(rng, 1 + n % 2, n)
        yield as_words
        if n <= 12 or n == LIMIT:
            yield as_numbers
    p = [bits_of(x) for x in P_SHEET]
    for reading, n, e, words, room in [
            (0, 0, 513, [], 0), (4, 33, 0, p, 59), (1, 0, -513, [], 0), (2, 33, 0, [0] * 1089, 8500),
            (1, 2 ** 63, 513, p, 0), (2, 2, 513, p[:3], 0), (1, 2, -513, p, 60), (2, 2, GREATEST_INT64, p, 0),
            (1, 2, LEAST_INT64, p, 60), (2, 2, 512, p[:3], 0), (1, 2, -512, p + [0], 60), (1, 2, 0, p, 59),
            (2, 2, -10, p, 0), (1, 2, 10, p, 60)]:
        yield from save_cases(reading, n, e, words, room)
    for e in [*UNITS, 511, -511, 255, -256]:
        yield next(save_cases(1, 1, e, p[:1], 28))
    loaded = load(make_short_file_words(2, 2, p), 4)
    assert isinstance(loaded, Loaded) and loaded.e == 0
    yield from save_cases(loaded.reading, loaded.n, loaded.e, loaded.words, 61)


def both(reading: int, n: int, e: int, sheet: list[float]) -> list[Case]:
    """The whole table with room to spare, and the first entry."""
    return [table_case(reading, n, e, sheet, 6), entry_case(reading, n, e, sheet, 1, 1)]


def every_entry(reading: int, e: int, sheet: list[float]) -> list[Case]:
    """A sheet of two stages: its table, and each entry with the stages 0 and 3 next to them."""
    return [table_case(reading, 2, e, sheet, 6),
            *(entry_case(reading, 2, e, sheet, i, j) for i in range(4) for j in range(4))]


def large(reading: int, e: int, weights: Sequence[float] = ()) -> list[Case]:
    """A sheet of 32 stages, and every one of its entries."""
    rates = [-1.0, 0.0, -0.1, -3.0, -0.0, -1.0e-7, -1.0e-7]
    sheet = [1.0e-6 if i == j else rates[(5 * i + 3 * j) % 7] for i in range(LIMIT) for j in range(LIMIT)]
    sheet += weights
    return [table_case(reading, LIMIT, e, sheet, 1030), entries_case(reading, e, sheet)]


def units() -> Iterator[Case]:
    """The unit of a table and of an entry: out of its range before a sheet of a wrong length, an area that is too
    short, stages out of range and bad numbers; at both ends of its range."""
    for e in POWERS_OUT_OF_RANGE:
        yield table_case(1, 2, e, [NAN] * 3, 0)
        yield entry_case(2, 2, e, [NAN] * 5, 0, 3)
    for e in (513, -513):
        yield table_case(2, 2, e, [NAN] * 4, 3)
        yield entry_case(1, 2, e, [NAN] * 4, 3, 1)
        yield from both(1, 2, e, P_SHEET)
    for e in (-512, 512):
        yield from both(1, 2, e, P_SHEET)


def calls() -> list[Case]:
    """Questions 1, 2, 12, 3, 4 and 5, each before the numbers are looked at, and accepted and refused sheets."""
    return [
        *both(0, 0, 513, [NAN]), *both(4, 1, 0, [NAN]), *both(1, 0, -513, []), *both(2, 33, 0, [1.0] * 1089),
        *both(1, 2 ** 63, GREATEST_INT64, [NAN]), *units(), table_case(1, 2, 512, [NAN] * 3, 3),
        table_case(1, 2, -512, [NAN] * 5, 0), entry_case(2, 2, 512, [NAN] * 3, 0, 0), table_case(1, 2, 0, [NAN] * 4, 3),
        table_case(1, 1, -10, [NAN], 0), entry_case(1, 1, 10, [NAN], 2, 1), *both(1, 1, 0, [NAN]),
        *every_entry(1, 0, P_SHEET), *every_entry(2, -10, [4.0, -3.0, -1.0, 1.0]),
        *every_entry(2, 512, [5.0, 0.0, -3.0, 1.0]), *every_entry(1, -512, [1.0, 1.0, -1.0, 0.0]),
        *every_entry(1, 1, [0.0, -1.0, -1.0, 0.0]), *every_entry(1, -1, [1.0, 0.0, 0.0, 2.0 ** 1022]), *large(1, -10),
        *large(2, 512)]


# ==== One column ====

class Asked(NamedTuple):
    """A sheet of reading 1 and the stage whose column is asked for."""
    n: int
    sheet: list[float]
    stage: int

    def kind(self) -> tuple[bool, bool]:
        """Whether the whole table is accepted, and whether the column is."""
        return (accepted((1, self.n, self.sheet)),
                isinstance(column(1, self.n, IN_SECONDS, self.sheet, self.stage, self.n), Column))


def column_case(reading: int, n: int, e: int, sheet: list[float], stage: int, room: int) -> Case:
    answer = column(reading, n, e, sheet, stage, room)
    area = [AREA_NUMBER] * room
    if isinstance(answer, Column):
        if not all(error.within for error in column_accuracy(n, sheet, {stage: answer.entries})):
            raise ArithmeticError(f"column {stage} of {sheet}: not within the allowance")
        area[:n] = answer.entries
    return Case(packed("c", [reading, n, e, room, stage, *(bits_of(x) for x in sheet)]),
                line(answer, [answer.allowance] if isinstance(answer, Column) else [], [bits_of(x) for x in area]))


def column_questions() -> Iterator[Case]:
    """Questions 1, 2, 12, 3, 4 and 5, each before the next and before the numbers are looked at; room to spare and
    none."""
    nans = [NAN] * 4
    for reading, n, e, sheet, stage, room in [
            (0, 0, 513, [NAN], 0, 0), (2, 0, 513, [NAN], 0, 0), (3, 33, 0, [], 0, 0), (2 ** 63, 2, 0, P_SHEET, 1, 2),
            (2, 2, -513, P_SHEET, 1, 2), (2, 2, 0, P_SHEET, 1, 2), (1, 0, 513, [], 0, 0),
            (1, 33, 0, [1.0] * 1089, 1, 33), (1, 2 ** 63, -513, [NAN], 0, 0), (1, 2 ** 64 - 1, 0, [1.0], 1, 1),
            *((1, 2, e, nans[:3], 0, 0) for e in POWERS_OUT_OF_RANGE), (1, 2, 513, P_SHEET, 1, 2),
            (1, 2, -513, P_SHEET, 2, 2), (1, 2, 513, nans, 3, 1), (1, 2, 0, [], 0, 0), (1, 2, 512, nans[:3], 1, 0),
            (1, 2, -512, [*nans, NAN], 3, 2), (1, 2, -10, nans, 0, 1), (1, 2, 10, nans, 1, 0), (1, 1, 0, [NAN], 2, 0),
            (1, 2, 1, nans, 0, 2), (1, 2, -1, nans, 3, 2), (1, 2, 0, nans, 2 ** 63, 4), (1, 2, 0, nans, 1, 2),
            (1, 1, 0, [4.0], 1, 0), (1, 1, 0, [4.0], 1, 1), (1, 1, -10, [4.0], 1, 3)]:
        yield column_case(reading, n, e, sheet, stage, room)
    for e, room in ((512, 1), (-512, 2), (0, 4)):
        for stage in range(4):
            yield column_case(1, 2, e, P_SHEET, stage, room)


def every_column() -> Iterator[Asked]:
    """Every column of the sheets above that have reading 1, of one in which only the last division is out, and of two
    whose first pivot is the largest number in one order and overflows in another."""
    for reading, n, sheet in [*DOCUMENT, *ORDER, *ZEROS, *RANGE, *ORDERS_OF_STEPS, *steps_out_of_range(),
                              (1, 2, [2.0 ** 500, -2.0 ** -600, 0.0, 1.0]),
                              (1, 3, [LARGEST - 2.0 ** 971, -(2.0 ** 970 + 2.0 ** 919), -2.0 ** 970,
                                      0.0, 1.0, 0.0, 0.0, 0.0, 1.0]),
                              (1, 3, [LARGEST, -2.0 ** 969, -2.0 ** 969, 0.0, 1.0, 0.0, 0.0, 0.0, 1.0])]:
        for stage in range(1, n + 1) if reading == 1 else ():
            yield Asked(n, sheet, stage)


def column_edges(rng: random.Random, count: int) -> Iterator[Asked]:
    """Sheets of few stages on either side of the edge of one column's range."""
    for _ in range(count):
        n = rng.randint(1, 4)
        stage = rng.randint(1, n)
        for sheet in edge_pair(rng, 1, n, uneven_sheet(rng, n), stage) or ():
            yield Asked(n, sheet, stage)


def partly_in_range(rng: random.Random, n: int) -> tuple[list[float], list[int], list[int]]:
    """A sheet of three stages or more whose table is out of range, with the stages whose columns are not,
    and those whose columns are."""
    while True:
        sheet = uneven_sheet(rng, n)
        facts = range_facts(*sheet_parts(n, sheet))
        if facts.shared and len(set(facts.columns)) == 2:
            stages = range(1, n + 1)
            return (sheet, [stage for stage in stages if facts.columns[stage - 1]],
                    [stage for stage in stages if not facts.columns[stage - 1]])


def some_columns(rng: random.Random) -> Iterator[Asked]:
    """For each n from 1 to 32 one column: of an accepted table where n is odd, the first, the middle and the last
    in turn; of a table out of range where n is even. For few stages also a refused column, and more of both."""
    for n in [*range(1, LIMIT + 1), *[3, 4, 5, 6, 7] * 3]:
        if n % 2 == 1 or n == 2:
            style = STYLES[n * 5 % len(STYLES)]
            yield Asked(n, accepted_sheet(rng, 1, n, style)[2], [1, (n + 1) // 2, n][n // 2 % 3])
        if n % 2 == 0 and n > 2 or n in (3, 5, 7):
            sheet, inside, outside = partly_in_range(rng, n)
            yield Asked(n, sheet, rng.choice(inside))
            if n <= 12:
                yield Asked(n, sheet, rng.choice(outside))


def columns(rng: random.Random) -> Iterator[Case]:
    """All cases of one column; columns that are accepted with their table, without it, and not, come up often."""
    asked = [*every_column(), *column_edges(rng, 12), *some_columns(rng)]
    kinds = Counter(one.kind() for one in asked)
    assert min(kinds[True, True], kinds[False, True], kinds[False, False]) >= 20 and not kinds[True, False]
    yield from column_questions()
    for at, one in enumerate(asked):
        yield column_case(1, one.n, UNITS[at % len(UNITS)], one.sheet, one.stage, one.n + at % 3)


# ==== Idle stages ====

AROUND_IDLE = [1.0, -0.0, -1.0, 0.0, -0.0, -0.0, -1.0, 0.0, 0.0]    # P with an idle stage between its two
IDLE_AND_RANGE = [0.0, 0.0, 0.0, 2.0 ** 1022]                       # only the column of the idle stage is in range
IDLE_AND_PIVOT = [0.0, 0.0, 0.0, 0.0, LARGEST, -LARGEST, 0.0, 0.0, 1.0]     # a pivot overflows, so no column is

IDLE: list[Sheet] = [
    (1, 3, [-0.0, 0.0, -0.0, 0.0, 1.0, -1.0, -0.0, -1.0, -0.0]), (1, 3, AROUND_IDLE),
    (1, 3, [1.0, -1.0, -0.0, -1.0, 0.0, 0.0, 0.0, -0.0, -0.0]),
    (1, 2, [1.0, -1.0, 0.0, 0.0]), (1, 2, [0.0, -1.0, 0.0, 1.0]),           # moved to without a way out; not moved to
    (1, 3, [0.0, -0.0, 0.0, -0.0, 0.25, 0.0, 0.0, -0.0, -0.0]),             # a leaving rate and no move
    (1, 3, [0.0, 0.0, 0.0, 0.0, 0.0, -1.0, 0.0, -1.0, 0.0]),                # trapped after an idle stage
    (1, 3, [0.0, 0.0, 0.0, 0.0, 2.0 ** 1022, -1.0, 0.0, 0.0, 0.0]),         # 9 before 10
    (1, 2, IDLE_AND_RANGE), (1, 3, IDLE_AND_PIVOT),
    (1, LIMIT, [-0.0 if place % 3 == 0 else 0.0 for place in range(LIMIT * LIMIT)])]


def idle_stages(rng: random.Random) -> Iterator[Case]:
    """Sheets with idle stages by dwell; their tables, entries and columns, each where the answer differs."""
    live, wide = among_idle(rng, 21, accepted_sheet(rng, 1, 21, STYLES[2])[2], LIMIT)
    for data in files([*IDLE, (1, LIMIT, wide)]):
        yield dwell_case(data)
    yield table_case(1, 3, -10, AROUND_IDLE, 11)
    yield table_case(1, 2, 0, IDLE_AND_RANGE, 4)
    for i, j in ((1, 3), (1, 2), (2, 3), (2, 2)):       # in no idle row or column, in one, in both
        yield entry_case(1, 3, 10, AROUND_IDLE, i, j)
    yield entry_case(1, 2, 0, IDLE_AND_RANGE, 1, 1)
    idle = next(i for i in range(LIMIT) if i not in live)
    for n, sheet, stage in [(1, [-0.0], 1), (2, [1.0, -1.0, 0.0, 0.0], 2), (3, AROUND_IDLE, 2), (3, AROUND_IDLE, 3),
                            (2, IDLE_AND_RANGE, 1), (2, IDLE_AND_RANGE, 2), (3, IDLE_AND_PIVOT, 1),
                            (LIMIT, wide, idle + 1), (LIMIT, wide, live[-1] + 1)]:
        yield column_case(1, n, -10, sheet, stage, n + 1)


# ==== Moving ====

NEARLY_TWO = 2 - 2.0 ** -52

# A sheet, the e of its unit, and the k that it is moved by.
MOVES: list[tuple[Sheet, int, int]] = [
    # 16 is decided by the exact product: the third rounds to 2^-1022
    ((1, 1, [2.0 ** -510]), 0, -512), ((1, 1, [2.0 ** -511]), 0, -512), ((1, 1, [NEARLY_TWO * 2.0 ** -511]), 9, -512),
    ((1, 2, P_SHEET), 0, -10), ((2, 2, [3.0, -1.0, -4.0, 1.0]), -13, 3), ((2, 2, [2.0, -0.0, -1.0, 4.0]), 1, -1),
    ((1, 2, [-0.0, 0.0, -0.0, 1.0]), -3, 3), ((1, 2, [0.0, -0.0, 0.0, -0.0]), 500, -512),
    # 9 and 10 are not asked
    ((1, 2, [0.0, -1.0, -1.0, 0.0]), -10, 1), ((1, 1, [2.0 ** 1022]), 0, 1), ((2, 1, [2.0 ** 1022]), 0, -512),
    # both ends of the range of results, at either end of the range of k and at 0
    ((1, 1, [2.0 ** 511]), 0, 512), ((1, 1, [2.0 ** 512]), 0, 512), ((2, 1, [NEARLY_TWO * 2.0 ** 511]), -1, 512),
    ((1, 2, [SMALLEST, -LARGEST, -SMALLEST, LARGEST]), 512, 0), ((1, 2, [1.0, -LARGEST, 0.0, 1.0]), 0, 1),
    ((2, 2, [1.0, 0.0, -SMALLEST, 1.0]), 0, -1), ((2, 2, [1.0, -LARGEST, -SMALLEST, 1.0]), -100, -1),
    # past the range of k
    ((1, 1, [1.0]), 0, 513), ((2, 1, [1.0]), 0, -513), ((1, 1, [1.0]), 0, 2 ** 32), ((1, 1, [1.0]), 0, LEAST_INT64),
    ((2, 1, [1.0]), 0, GREATEST_INT64),
    # both ends of the range of e + k, and past them
    ((1, 1, [1.0]), 512, -512), ((2, 1, [1.0]), -512, 512), ((1, 1, [1.0]), 500, 12), ((1, 1, [1.0]), 500, 13),
    ((2, 1, [1.0]), -100, -412), ((2, 1, [1.0]), -100, -413), ((1, 1, [1.0]), 512, 1), ((1, 1, [1.0]), -512, -1),
    ((2, 1, [1.0]), 512, 512), ((1, 1, [1.0]), -512, -512), ((1, 1, [1.0]), -512, 0), ((1, 1, [1.0]), 1, 512),
    # e past its range by one, where e + k is in it, and by far
    ((1, 1, [1.0]), 513, -1), ((2, 1, [1.0]), -513, 1), ((1, 1, [1.0]), 2 ** 32, 0), ((1, 1, [1.0]), LEAST_INT64, 512),
    ((1, 1, [1.0]), GREATEST_INT64, 1),
    # each question before the next: 12 before 6, 6 to 8 before 15 and 17, 15 before 17, 17 before 16
    ((1, 2, [NAN] * 4), 513, 600), ((1, 2, [5.0, 1.0, NAN, 1.0]), 0, 600),
    ((2, 2, [1.0, -2.0 ** -1074, 1.0, 1.0]), 0, 600), ((1, 2, [1.0, -2.0 ** -1074, 0.0, 1.0]), 0, 600),
    ((1, 2, [1.0, 0.0, 0.0, LARGEST]), 0, 513), ((2, 1, [-0.0]), 0, 1),
    ((1, 2, [1.0, -2.0 ** -1074, 0.0, 1.0]), 512, 1), ((1, 1, [LARGEST]), 512, 513), ((1, 1, [SMALLEST]), -512, -513),
    ((2, 1, [1.0]), -512, 1000), ((1, 1, [LARGEST]), 512, 1), ((2, 1, [SMALLEST]), -512, -1),
    ((2, 1, [LARGEST]), 511, 1)]


def move_case(reading: int, n: int, e: int, sheet: list[float], k: int, room: int) -> Case:
    answer = move(reading, n, e, sheet, k, room)
    area = [AREA_NUMBER] * room
    if isinstance(answer, Moved):
        area[:len(answer.numbers)] = answer.numbers
    return Case(packed("m", [reading, n, e, room, k, *(bits_of(x) for x in sheet)]),
                line(answer, [answer.e] if isinstance(answer, Moved) else [], [bits_of(x) for x in area]))


def move_edges(rng: random.Random, count: int, readings: Sequence[int]) -> Iterator[tuple[Sheet, int]]:
    """So many random sheets, every second one upward, each with the last k that moves it and the first that does
    not."""
    for at in range(count):
        while True:
            reading, n, step = rng.choice(readings), rng.randint(1, 6), 1 if at % 2 else -1
            sheet = sheet_to_move(rng, reading, n)
            moved = [isinstance(move(reading, n, IN_SECONDS, sheet, step * size, len(sheet)), Moved)
                     for size in range(513)]
            if not all(moved):
                break
        first = moved.index(False)
        yield (reading, n, sheet), step * (first - 1)
        yield (reading, n, sheet), step * first


def moves(rng: random.Random) -> Iterator[Case]:
    """Questions 1, 2, 12, 3 and 4 in order; the sheets above; 32 stages, once with a last number that cannot be moved
    so far; random sheets by the last k that moves them and the first that does not; 1 by every k, which gives 2^k."""
    for reading, n, e, sheet, room in [(0, 0, 513, [NAN], 0), (4, 1, 0, [1.0], 1), (1, 33, 0, [1.0] * 1089, 5),
                                       (2, 2 ** 63, -513, [NAN], 0), (1, 2, 513, [NAN] * 3, 0),
                                       (2, 2, LEAST_INT64, [NAN] * 5, 0), (1, 2, 512, [NAN] * 3, 0),
                                       (2, 2, -512, [NAN] * 4, 3)]:
        yield move_case(reading, n, e, sheet, 600, room)
    for at, ((reading, n, sheet), e, k) in enumerate(MOVES):
        yield move_case(reading, n, e, sheet, k, n * n + at % 3)
    sheet = random_sheet(rng, 1, LIMIT, STYLES[0])
    yield move_case(1, LIMIT, 0, sheet, -10, 1030)
    yield move_case(1, LIMIT, -10, sheet[:-1] + [LARGEST], 10, 1024)
    for (reading, n, sheet), k in move_edges(rng, 4, [1, 2]):
        yield move_case(reading, n, IN_SECONDS, sheet, k, n * n + 1)
    for k in range(-512, 513):
        yield move_case(1, 1, IN_SECONDS, [1.0], k, 1)


# ==== Prices ====

CHAIN = [0.0, -1.0, 0.0, 0.0, 0.0, -1.0, 0.0, 0.0, 1.0]     # its table has a row of three ones
HALF = [1.0, 0.0, 0.0, 2.0 ** 1022]                         # its table is out of range
PRICED: list[tuple[Sheet, list[float]]] = [
    ((1, 1, [2.0]), [3.0]), ((1, 2, P_SHEET), [1.0, 2.0]), ((2, 2, [3.0, -1.0, -4.0, 1.0]), [1.0, 3.0]),
    ((2, 2, [2.0, 0.0, -1.0, 4.0]), [8.0, 16.0]),
    # j rises; a product is rounded by itself
    ((1, 3, CHAIN), [2.0 ** 53, 1.0, 1.0]), ((1, 3, CHAIN), [1.0, 1.0, 2.0 ** 53]),
    ((2, 2, [3.0, -1.0, 0.0, 7.0]), [0.1, 0.3]),
    # zeros of either sign, idle stages
    ((1, 2, P_SHEET), [-0.0, 1.0]), ((1, 2, P_SHEET), [-0.0, -0.0]), ((1, 1, [0.0]), [7.0]),
    ((1, 2, [1.0, 0.0, 0.0, 0.0]), [5.0, 3.0]), ((1, 3, AROUND_IDLE), [1.0, 1.0, 1.0]),
    # products and sums in range and out of it
    ((1, 1, [1.0]), [2 * SMALLEST]), ((1, 1, [1.0]), [SMALLEST]), ((1, 1, [2.0]), [NEARLY_TWO * SMALLEST]),
    ((1, 2, [1.0, 0.0, 0.0, 0.0]), [1.0, SMALLEST]), ((2, 1, [2.0 ** -600]), [2.0 ** 600]),
    ((1, 2, P_SHEET), [LARGEST, 0.0]), ((1, 2, P_SHEET), [LARGEST, LARGEST]), ((1, 2, HALF), [1.0, 0.0]),
    # each fault of a price, before 10
    ((1, 2, HALF), [0.0, -1.0]), ((1, 2, P_SHEET), [NAN, -1.0]), ((1, 2, P_SHEET), [1.0, INF]), ((2, 1, [1.0]), [-INF]),
    ((1, 2, P_SHEET), [2.0 ** -1074, NAN]), ((1, 2, P_SHEET), [0.0, -2.0 ** -1074]),
    ((1, 2, P_SHEET), [1.0, number_of(bits_of(SMALLEST) - 1)]), ((2, 2, [2.0, 0.0, -1.0, 4.0]), [0.0, -SMALLEST])]


def price_case(reading: int, n: int, e: int, sheet: list[float], prices: list[float], room: int) -> Case:
    answer = request_prices(reading, n, e, sheet, prices, room)
    area = [AREA_NUMBER] * room
    if isinstance(answer, Prices):
        if not all(error.within for error in price_accuracy(reading, n, sheet, prices, answer.entries)):
            raise ArithmeticError(f"prices {prices} of {sheet}: not within the allowance")
        area[:n] = answer.entries
    return Case(packed("p", [reading, n, e, room, len(prices), *(bits_of(x) for x in [*prices, *sheet])]),
                line(answer, [answer.allowance] if isinstance(answer, Prices) else [], [bits_of(x) for x in area]))


def price_questions() -> Iterator[Case]:
    """Questions 1, 2, 12, 3, 4, 18 and 6 to 9, each before the next and before the prices are looked at."""
    nans = [NAN] * 4
    for reading, n, e, sheet, prices, room in [
            (0, 0, 513, [], [], 0), (4, 2, 0, P_SHEET, [1.0, 1.0], 2), (1, 0, -513, [NAN], [], 0),
            (2, 33, 0, [1.0] * 1089, [1.0] * 33, 33), (1, 2 ** 63, 513, [NAN], [], 0),
            *((1, 2, e, nans[:3], nans[:3], 0) for e in (513, -513, 2 ** 32, LEAST_INT64, GREATEST_INT64)),
            (2, 2, 512, nans[:3], [], 0), (1, 2, -512, [*nans, NAN], [NAN], 2), (1, 2, 0, nans, [], 1),
            (2, 2, -10, nans, [NAN], 0), (1, 2, 10, nans, [NAN], 2), (1, 2, 0, nans, nans[:3], 4), (1, 1, 0, [NAN], [], 1),
            (2, 2, 1, P_SHEET, [], 2), (1, 2, -1, P_SHEET, [1.0, 1.0, 1.0], 2)]:
        yield price_case(reading, n, e, sheet, prices, room)
    for reading, sheet in [(1, [5.0, 1.0, NAN, 1.0]), (2, [1.0, -2.0 ** -1074, 1.0, 1.0]),
                           (1, [0.0, -2.0 ** -1074, 0.0, 0.0]), (1, [1.0, -1.0, 0.0, 0.0]), (2, [1.0, 0.0, 0.0, -0.0])]:
        yield price_case(reading, 2, 0, sheet, nans[:2], 2)


def prices_about_one(rng: random.Random, reading: int, n: int) -> Case:
    """An accepted sheet at prices about 1."""
    sheet = accepted_sheet(rng, reading, n, STYLES[n * 5 % len(STYLES)])[2]
    given = [random_size(rng, 3) if rng.random() < 0.9 else -0.0 for _ in range(n)]
    return price_case(reading, n, IN_SECONDS, sheet, given, n + 1)


def price_edges(rng: random.Random, count: int, readings: Sequence[int]) -> Iterator[Case]:
    """Sheets of few stages at prices on either side of the edge of the range, so many cases."""
    edges = 0
    while edges < count:
        reading, n = rng.choice(readings), rng.randint(1, 4)
        sheet = accepted_sheet(rng, reading, n, STYLES[0])[2]
        for given in price_edge_pair(rng, reading, n, sheet, random_prices(rng, n)) or ():
            yield price_case(reading, n, IN_SECONDS, sheet, given, n)
            edges += 1


def prices(rng: random.Random) -> Iterator[Case]:
    """All cases of prices of readings 1 and 2; for each n a sheet of either reading in turn."""
    yield from price_questions()
    for at, ((reading, n, sheet), given) in enumerate(PRICED):
        yield price_case(reading, n, UNITS[at % len(UNITS)], sheet, given, n + at % 3)
    for n in range(1, LIMIT + 1):
        yield prices_about_one(rng, 1 + n % 2, n)
    live, wide = among_idle(rng, 13, accepted_sheet(rng, 1, 13, STYLES[2])[2], 20)
    yield price_case(1, 20, -10, wide, [float(j + 1) for j in range(20)], 20)
    yield from price_edges(rng, 10, [1, 2])


# ==== Moving and the services (document 02, U9) ====

# Sheets with the power that each is moved by: E, which becomes F, and F, which becomes E; P, H and I; a sheet with an
# idle stage.
COMMUTING: list[tuple[Sheet, int]] = [
    ((1, 1, [2.0 ** 1021]), 1), ((2, 1, [2.0 ** 1022]), -1), ((1, 2, P_SHEET), -10),
    ((2, 2, [3.0, -1.0, -4.0, 1.0]), 3), ((2, 2, [2.0, -0.0, -1.0, 4.0]), -512),
    ((1, 3, [2.0, -0.0, -1.0, 0.0, -0.0, 0.0, 0.0, -0.0, 4.0]), 500)]


def accepted_both_ways(rng: random.Random, kinds: Iterable[tuple[int, int]]) -> Iterator[tuple[Sheet, int]]:
    """For each reading and n a random sheet, with a power, that is accepted before it is moved and after."""
    for at, (reading, n) in enumerate(kinds):
        reading, n, sheet = accepted_sheet(rng, reading, n, STYLES[at])
        while True:
            k = rng.choice([-1, 1]) * rng.randint(1, 400)
            moved = move(reading, n, IN_SECONDS, sheet, k, len(sheet))
            if isinstance(moved, Moved) and accepted((reading, n, moved.numbers)):
                break
        yield (reading, n, sheet), k


def in_two_moves(rng: random.Random, sheet: Sheet, k: int) -> Iterator[Case]:
    """A sheet moved by one power, and what that leaves by another; then by k, the sum of the two, in an area that holds
    the same before."""
    reading, n, numbers = sheet
    room = len(numbers) + 2
    while True:
        a = rng.randint(max(-512, k - 512), min(512, k + 512))
        first = move(reading, n, IN_SECONDS, numbers, a, room)
        if isinstance(first, Moved):
            break
    second, single = move(reading, n, a, first.numbers, k - a, room), move(reading, n, IN_SECONDS, numbers, k, room)
    if second != single:
        raise ArithmeticError(f"{sheet} by 2^{a} and then by 2^{k - a} is not {sheet} by 2^{k}")
    yield move_case(reading, n, IN_SECONDS, numbers, a, room)
    yield move_case(reading, n, a, first.numbers, k - a, room)
    yield move_case(reading, n, IN_SECONDS, numbers, k, room)


def same_but_for_the_power(k: int, first: Union[Table, Column, Prices, Refused],
                           second: Union[Table, Column, Prices, Refused]) -> None:
    """What a service gives for a sheet and for the sheet moved by 2^k, if it accepts both."""
    if not isinstance(first, Refused) and not isinstance(second, Refused):
        if [bits_of(x) for x in second.entries] != divided([bits_of(x) for x in first.entries], k):
            raise ArithmeticError(f"{second} is not {first} divided by 2^{k}")


def commuting(rng: random.Random, sheets: Sequence[tuple[Sheet, int]],
              kinds: Sequence[tuple[int, int]]) -> Iterator[Case]:
    """These sheets and random ones of these readings and n, moved in two moves and in one, and the table, one column
    and prices before and after."""
    for (reading, n, sheet), k in itertools.chain(sheets, accepted_both_ways(rng, kinds)):
        yield from in_two_moves(rng, (reading, n, sheet), k)
        moved = move(reading, n, IN_SECONDS, sheet, k, len(sheet))
        stage, prices = rng.randint(1, n), random_prices(rng, n)
        pairs = [(table(reading, n, e, numbers, n * n), column(reading, n, e, numbers, stage, n),
                  request_prices(reading, n, e, numbers, prices, n))
                 for e, numbers in ((IN_SECONDS, sheet), (moved.e, moved.numbers))]
        for first, second in zip(*pairs):
            same_but_for_the_power(k, first, second)
        for e, numbers in ((IN_SECONDS, sheet), (moved.e, moved.numbers)):
            yield table_case(reading, n, e, numbers, n * n + 1)
            yield column_case(reading, n, e, numbers, stage, n)
            yield price_case(reading, n, e, numbers, prices, n)


# ==== Files ====

def changed(data: bytes, at: int, new: bytes) -> bytes:
    """The file with these bytes in the place of its own."""
    return data[:at] + new + data[at + len(new):]


def damaged(data: bytes, room: int) -> list[Case]:
    """A file, whole and with each kind of damage."""
    cases = [file_case(data[:at], room) for at in range(len(data) + 1)]
    start = 0
    for at_record, own in enumerate(records_of(data)):
        for at in range(start, start + (8 if at_record else len(own))):
            cases.append(file_case(changed(data, at, bytes([(data[at] + 1) % 256])), room))
        cases.append(file_case(changed(data, start, struct.pack("<I", 2 ** 32 - 1)), room))
        start += len(own)
    needed = len(load(data, room).words)
    return cases + [file_case(data + b"\0", room), file_case(data, needed), file_case(data, needed - 1)]


def heads() -> Iterator[Case]:
    """Files of one stage with heads of every length up to 8, and with many e: at both ends of its range and past them,
    and words that are in it only by their low byte, or without their sign."""
    rows = make_records(1, 1, [bits_of(2.0)])
    for length in range(9):
        yield file_case(record(HEAD, b"\1\0\1\0\0\0\0\0"[:length]) + rows, 2)
    for e in (512, -512, 511, -511, 513, -513, 255, -255, 256, -256, 768, -768, 32767, -32768, 0x0a00, -0x0a00, 1, -1):
        yield file_case(make_head(2, 1, e) + rows, 2)
    yield file_case(make_head(1, 1, 513) + rows[:5], 0)     # 12 before 11 at row 1, and before 4
    yield file_case(make_head(3, 33, 600), 0)


# ==== Weights (document 02, U10) ====

# W, one stage, and sheets of the other readings with weights; zeros of either sign; weights of 1, whose products are
# steps; products and quotients at the edge of the range, and a zero beside a small weight.
WEIGHTED: list[Sheet] = [
    (3, 2, W_SHEET), (3, 1, [2.0, 0.5]), (3, 1, [3.0, 7.0]), (3, 2, [3.0, -1.0, -4.0, 1.0, 1.0, 3.0]),
    (3, 2, [2.0, -0.0, 0.0, 4.0, 1.0, 2.0]), (3, 2, [1.0, -SMALLEST, 0.0, 2.0 ** -10, 1.0, 1.0]),
    (3, 2, [1.0, -2 * SMALLEST, 0.0, 2.0 ** -10, 1.0, 1.0]),
    (3, 2, [1.0, -(1 + 2.0 ** -52) * 2.0 ** -500, 0.0, 1.0, 1.0, (1 - 2.0 ** -53) * 2.0 ** -522]),
    (3, 2, [1.0, 0.0, 0.0, 2.0 ** 10 * SMALLEST, 1.0, SMALLEST]), (3, 1, [2.0 ** -511, 2.0 ** 511]),
    (3, 1, [2.0 ** -511, 2.0 ** 510]), (3, 1, [2.0 ** 1021, 1.0]), (3, 1, [2.0 ** 1021, 0.5]),
    # sizes times weights fall, s_k comes after them, the sum is divided, and each product is rounded by itself
    (3, 4, [2.0 ** -60, -2.0 ** 53, -2.0, -4.0, 0.0, 1.0, 0.0, 0.0, 0.0, 0.0, 1.0, 0.0, 0.0, 0.0, 0.0, 1.0,
            2.0, 1.0, 0.5, 0.25]),
    (3, 3, [2.0 ** 53, -2.0, -4.0, 0.0, 1.0, 0.0, 0.0, 0.0, 1.0, 0.5, 0.5, 0.25]),
    (3, 2, [1.0, -2.0, 0.0, 1.0, 10.0, 1.0]),
    (3, 2, [2.0 ** -53, -(1 + 2.0 ** -30), 0.0, 1.0, 1.0, 1 + 2.0 ** -30])]

# Each of 6 to 8 of the rows and of the weights, which are row n + 1, before the next; 9 is not asked.
WEIGHT_PLACES: list[Sheet] = [
    *((3, 1, [2.0, weight]) for weight in (NAN, INF, -INF, 0.0, -0.0, -1.0, 2.0 ** -1074, -2.0 ** -1074,
                                           number_of(bits_of(SMALLEST) - 1))),
    (3, 1, [0.0, NAN]), (3, 1, [0.0, 0.0]), (3, 1, [-0.0, 1.0]), (3, 2, [1.0, 0.0, 0.0, 0.0, 1.0, 1.0]),
    (3, 2, [1.0, -1.0, -1.0, 1.0, NAN, INF]), (3, 2, [1.0, -1.0, -1.0, 1.0, 1.0, -1.0]),
    (3, 2, [1.0, 1.0, 0.0, 1.0, 0.0, INF]), (3, 2, [1.0, 0.0, NAN, 1.0, NAN, 1.0]),
    (3, 2, [1.0, -2.0 ** -1074, 0.0, 1.0, 1.0, 0.0]), (3, 2, [1.0, -1.0, 0.0, 1.0, 2.0 ** -1074, -1.0]),
    (3, 2, [1.0, -1.0, 0.0, 2.0 ** -1074, 2.0 ** -1074, 1.0]),
    (3, 2, [1.0, -LARGEST, 0.0, 2.0 ** 1022, 1.0, 2.0 ** -1074])]


def weighted_steps_out_of_range() -> list[Sheet]:
    """For each kind of step that weights add, and for some others, a sheet in which one leaves the range first."""
    tiny, huge, most = 2.0 ** -600, 2.0 ** 600, LARGEST
    return [
        (3, 2, [1.0, -tiny, 0.0, 1.0, 1.0, tiny]),                                          # t_kj·z_j too small
        (3, 2, [1.0, -huge, 0.0, 1.0, 1.0, huge]),                                          # t_kj·z_j too large
        (3, 3, [1.0, -most, -most, 0.0, 1.0, 0.0, 0.0, 0.0, 1.0, huge, 1.0, 1.0]),          # their sum
        (3, 2, [most, -most, 0.0, 1.0, huge, 1.0]),                                         # that and s_k
        (3, 1, [tiny, huge]), (3, 1, [huge, tiny]), (3, 2, [1.0, 0.0, 0.0, huge, 1.0, tiny]),   # the quotient by z_k
        (3, 2, [huge, 0.0, -tiny, 1.0, 1.0, 1.0]),                                          # a downward m
        (3, 2, [tiny, -1.0, -tiny, 1.0, 1.0, 1.0]),                                         # m·s_k
        (3, 3, [1.0, -tiny, 0.0, 0.0, 1.0, -tiny, 0.0, 0.0, 1.0, 1.0, 1.0, 1.0])]           # an upward m·b_kj


def weighted_sheets(rng: random.Random) -> Iterator[Sheet]:
    """What dwell is given of reading 3."""
    yield from WEIGHTED + WEIGHT_PLACES
    for sheet in weighted_steps_out_of_range():
        yield sheet
        yield from edge_of(sheet)
    yield from random_edges(rng, 20, [3])
    yield from small_sheets(rng, 30, [3])
    yield from of_sizes(rng, 3, [*range(1, 11), 13, 16, 20, 25, 29, LIMIT])
    yield from bad_last_number(rng, 3, LIMIT)


def weighted_files() -> Iterator[Case]:
    """The record of the weights: cut and changed in every byte, of another kind or length, missing, in another place
    and not due; dwell of some of these, and areas that are too small."""
    w = make_file(3, 2, -10, W_SHEET)
    head, first, second, own = records_of(w)
    yield from damaged(w, 9)
    yield from damaged(make_short_file_words(3, 1, [0x7FF4000012345678, 1 << 63]), 3)
    for data in (head + first + second, head + own + first + second, head + first + own + second, w + own,
                 head + first + second + first, head + first + second + record(SHEET_ROW, own[6:]),
                 *(head + first + second + record(SHEET_WEIGHTS, bytes(length)) for length in (0, 8, 15, 17, 24)),
                 *(head + first + second + record(kind, own[6:]) for kind in (1, 4, 259)),
                 *(make_head(reading, 2, 0) + first + second + own for reading in (1, 2, 4)),
                 make_head(3, 2, 513) + first + second + own):
        yield file_case(data, 9)
        yield dwell_case(data)
    for room in (0, 4, 5, 6):
        yield file_case(w, room)


def weighted_calls() -> Iterator[Case]:
    """Questions 1, 2, 12, 3, 4 and 5 of a sheet with weights: a table needs no room for them, a moved sheet does."""
    for n, e, sheet in [(0, 513, [NAN]), (33, -513, [NAN]), (2 ** 63, 0, [NAN]), (2, 513, [NAN] * 4),
                        (2, 0, [NAN] * 4), (2, 0, W_SHEET[:-1]), (2, 0, W_SHEET + [1.0]), (2, -512, [NAN] * 6)]:
        yield from both(3, n, e, sheet)
        yield move_case(3, n, e, sheet, 600, 0)
        yield column_case(3, n, e, sheet, 1, 2)
        yield price_case(3, n, e, sheet, [NAN], 0)
    yield table_case(1, 2, 0, W_SHEET, 4)
    yield column_case(3, 2, 0, W_SHEET, 1, 2)
    for room in range(7):
        yield table_case(3, 2, 0, W_SHEET, room)
        yield move_case(3, 2, 0, W_SHEET, -10, room)
    yield from every_entry(3, 512, W_SHEET)
    yield from every_entry(3, -10, [1.0, -SMALLEST, 0.0, 2.0 ** -10, 1.0, 1.0])
    yield from large(3, -512, [0.5 + j % 7 for j in range(LIMIT)])


# A sheet with weights, the e of its unit, and the k that it is moved by: 16 does not look at weights.
WEIGHTED_MOVES: list[tuple[Sheet, int, int]] = [
    ((3, 2, W_SHEET), 0, -10), ((3, 2, [1.0, -0.0, 0.0, 3.0, 0.1, 0.3]), -1, 1), ((3, 1, [1.0, LARGEST]), 0, 512),
    ((3, 1, [1.0, SMALLEST]), 0, -512), ((3, 1, [2.0 ** -510, 2.0 ** -600]), 0, -512),
    ((3, 1, [2.0 ** -511, 1.0]), 0, -512), ((3, 1, [2.0 ** 512, 1.0]), 0, 512),
    ((3, 2, [1.0, 0.0, -LARGEST, 1.0, 1.0, 1.0]), 0, 1), ((3, 1, [2.0 ** -600, 2.0 ** 600]), 0, 1),
    ((3, 1, [2.0 ** 600, NAN]), 0, 600), ((3, 1, [2.0 ** 600, -0.0]), 512, 1),
    ((3, 1, [2.0 ** 600, 2.0 ** -1074]), 0, 512), ((3, 1, [1.0, 1.0]), 0, 513), ((3, 1, [LARGEST, 1.0]), 512, 1)]


# W; sheets that become E and F, by their weights; a product that leaves the range.
WEIGHTED_COMMUTING: list[tuple[Sheet, int]] = [
    ((3, 2, W_SHEET), -10), ((3, 1, [2.0 ** 1000, 2.0 ** -21]), 1), ((3, 1, [2.0 ** 1001, 2.0 ** -21]), -1),
    ((3, 2, [1.0, -2.0 ** -900, 0.0, 1.0, 1.0, 2.0 ** -121]), -1)]


def weighted_moves(rng: random.Random) -> Iterator[Case]:
    """These moves, 32 stages, and random sheets by the last k that moves them and the first that does not."""
    for at, ((reading, n, sheet), e, k) in enumerate(WEIGHTED_MOVES):
        yield move_case(reading, n, e, sheet, k, len(sheet) + at % 3)
    yield move_case(3, LIMIT, 0, random_sheet(rng, 3, LIMIT, STYLES[0]), -10, 1060)
    for (reading, n, sheet), k in move_edges(rng, 4, [3]):
        yield move_case(reading, n, IN_SECONDS, sheet, k, len(sheet) + 1)


def weighted_prices(rng: random.Random) -> Iterator[Case]:
    """Prices of sheets with weights: by hand, each question of the weights before 19, out of range, some n, and at
    the edge of the range."""
    pivot_out = [2.0 ** -600, 2.0 ** 600]
    for n, sheet, given in [(2, W_SHEET, [1.0, 2.0]), (2, W_SHEET, [-0.0, 1.0]), (1, [2.0, 0.5], [8.0]),
                            (1, [1.0, NAN], [NAN]), (1, [1.0, 0.0], [NAN]), (1, [1.0, 2.0 ** -1074], [NAN]),
                            (1, pivot_out, [0.0]), (1, pivot_out, [-1.0]), (2, W_SHEET, [1.0, INF]),
                            (2, W_SHEET, [1.0])]:
        yield price_case(3, n, IN_SECONDS, sheet, given, n + 1)
    for n in (1, 2, 3, 5, 8, 13, 21, LIMIT):
        yield prices_about_one(rng, 3, n)
    yield from price_edges(rng, 6, [3])


def weights(rng: random.Random) -> Iterator[Case]:
    """All cases of reading 3."""
    for data in files(weighted_sheets(rng)):
        yield dwell_case(data)
    yield from weighted_calls()
    yield from weighted_files()
    for n in (1, 2, 3, 4, 7, 12, 19, LIMIT):
        yield from save_any_words(rng, 3, n)
    w = [bits_of(x) for x in W_SHEET]
    for e, words, room in [(513, w, 82), (0, w[:4], 82), (0, w[:5], 0), (0, [*w, 0], 82), (-10, w, 81), (512, w, 82)]:
        yield from save_cases(3, 2, e, words, room)
    yield from weighted_moves(rng)
    yield from weighted_prices(rng)
    yield from commuting(rng, WEIGHTED_COMMUTING, [(3, 2), (3, 3), (3, 5), (3, 12)])


def cases() -> list[Case]:
    one_nan = make_short_file_words(2, 1, [0xFFF4000012345678])
    return [*(dwell_case(data) for data in inputs()), *calls(), *damaged(make_file(1, 2, -10, P_SHEET), 5),
            *damaged(one_nan, 5), *heads(), *saves(random.Random(20260202)), *columns(random.Random(20260303)),
            *idle_stages(random.Random(20260404)), *moves(random.Random(20260505)), *prices(random.Random(20260606)),
            *commuting(random.Random(20260707), COMMUTING, [(1, 3), (2, 4), (1, 8), (2, 8), (2, 16)]),
            *weights(random.Random(20260808))]


def main(arguments: list[str]) -> int:
    if arguments == ["stdin"]:
        for case in cases():
            sys.stdout.buffer.write(struct.pack("<I", len(case.data)) + case.data)
        return 0
    if arguments == ["stdout"]:
        for case in cases():
            sys.stdout.write(case.text)
        return 0
    print("usage: expected.py stdin | expected.py stdout", file=sys.stderr)
    return 2


if __name__ == "__main__":
    sys.exit(main(sys.argv[1:]))
