#!/usr/bin/env python3
"""Tests of the library for hosts; run by `python3 tools/test_hosts.py`.

Builds the library and calls every export (`tools/hosts.py`), so that each call is held to the reference;
the tests say which calls.  `tools/fuzz.py` makes many random ones.
"""
from __future__ import annotations

import itertools
import os
import random
import re
import shlex
import shutil
import struct
import sys
import tempfile
import threading
import unittest
from collections import Counter
from pathlib import Path
from typing import NamedTuple, Optional, Sequence

from fuzz import EXPORTS, LAWS
from hosts import ARCHIVE, CC, HEADER, PLACES, ROOT, TEXT_BYTES, Calls, Library, Told, declared, must, run
import reference
from reference import (LARGEST, POWERS_OUT_OF_RANGE, READINGS, UNITS, W_SHEET, W_TABLE, WEIGHTS, Moved, Refused,
                       Saved, bits_of, in_reading, number_of, sheet_length)

STRICT = ["-Wall", "-Wextra", "-pedantic", "-Werror", "-I", str(ROOT / "include")]
NAN, INF = float("nan"), float("inf")


class Built:
    """What is built once for all tests."""
    folder: tempfile.TemporaryDirectory[str]
    library: Library


def setUpModule() -> None:
    """Builds the archive and a shared object of it."""
    Built.folder = tempfile.TemporaryDirectory()
    Built.library = Library(Built.folder.name)


def tearDownModule() -> None:
    """Removes what was built outside the repository's target folder."""
    Built.folder.cleanup()


class HostTest(unittest.TestCase):
    """A test with random numbers of its own, and the calls.  A sheet is in units of 2^e seconds; where a test does not
    say e, each call takes another one of its range."""

    def setUp(self) -> None:
        """Starts the random numbers and the units anew."""
        self.rng = random.Random(20240607)
        self.units = itertools.cycle(UNITS)
        self.calls = Calls(Built.library, self.rng)

    def unit(self, e: Optional[int]) -> int:
        """This e, or the next one."""
        return next(self.units) if e is None else e

    def table(self, reading: int, n: int, sheet: Sequence[float], room: Optional[int] = None,
              e: Optional[int] = None) -> Told:
        """The whole table of a sheet with an area of so many places (n × n if not said)."""
        return self.calls.table(reading, n, self.unit(e), [bits_of(x) for x in sheet], n * n if room is None else room)

    def entry(self, reading: int, n: int, sheet: Sequence[float], i: int, j: int, e: Optional[int] = None) -> Told:
        """Entry (i, j) of a sheet."""
        return self.calls.entry(reading, n, self.unit(e), [bits_of(x) for x in sheet], i, j)

    def column(self, reading: int, n: int, sheet: Sequence[float], stage: int, room: Optional[int] = None,
               e: Optional[int] = None) -> Told:
        """The column of a stage with an area of so many places (n if not said)."""
        words = [bits_of(x) for x in sheet]
        return self.calls.column(reading, n, self.unit(e), words, stage, n if room is None else room)

    def columns(self, n: int, sheet: Sequence[float]) -> list[Told]:
        """Every column of a sheet of reading 1."""
        return [self.column(1, n, sheet, stage) for stage in range(1, n + 1)]

    def prices(self, reading: int, n: int, sheet: Sequence[float], prices: Sequence[float], room: Optional[int] = None,
               e: Optional[int] = None) -> Told:
        """The prices of a sheet's requests with an area of so many places (n if not said)."""
        words, given = [bits_of(x) for x in sheet], [bits_of(x) for x in prices]
        return self.calls.prices(reading, n, self.unit(e), words, given, n if room is None else room)

    def sheet(self, reading: int, n: int, sheet: Sequence[float]) -> Told:
        """The whole table of a sheet, and its first and last entry, which is refused alike."""
        answer = self.table(reading, n, sheet)
        self.assertEqual(self.entry(reading, n, sheet, 1, n), answer)
        self.assertEqual(self.entry(reading, n, sheet, n, 1), answer)
        return answer

    def file(self, data: bytes, room: int = PLACES) -> Told:
        """A file read into numbers and into words, each with an area of so many places."""
        answer = self.calls.read("yulanbowls_read_numbers", data, room)
        self.assertEqual(self.calls.read("yulanbowls_read_words", data, room), answer)
        return answer

    def save(self, reading: int, n: int, words: Sequence[int], room: int, e: Optional[int] = None) -> Told:
        """A sheet saved as numbers and as words, each in so many bytes."""
        e = self.unit(e)
        answer = self.calls.save("yulanbowls_save_numbers", reading, n, e, words, room)
        self.assertEqual(self.calls.save("yulanbowls_save_words", reading, n, e, words, room), answer)
        return answer

    def move(self, reading: int, n: int, sheet: Sequence[float], k: int, room: Optional[int] = None,
             e: Optional[int] = None) -> Told:
        """A sheet moved by 2^k into a second area of so many places (those of the sheet if not said); an e that is
        not said is one for which e + k is in its range."""
        e = self.rng.choice(reference.units_for_move(k)) if e is None else e
        return self.calls.move(reading, n, e, [bits_of(x) for x in sheet], k, len(sheet) if room is None else room)

    def report(self, data: bytes, room: int = TEXT_BYTES) -> bytes:
        """The report on a file in an area of so many bytes."""
        return self.calls.report(data, room)


# ==== Sheets and files ====

class Sheet(NamedTuple):
    """A sheet of the documents, or one beside an edge of a question."""
    reading: int
    n: int
    numbers: list[float]


SMALLEST = 2.0 ** -1022
SHEETS = [
    Sheet(1, 1, [2.0]), Sheet(1, 1, [0.0]), Sheet(1, 2, [1.0, -1.0, -1.0, 0.0]), Sheet(1, 2, [0.0, -1.0, -1.0, 0.0]),
    Sheet(1, 2, [1.0, 0.0, 0.0, 0.0]), Sheet(1, 1, [2.0 ** 1021]), Sheet(1, 1, [2.0 ** 1022]), Sheet(2, 1, [0.0]),
    Sheet(2, 2, [3.0, -1.0, -4.0, 1.0]), Sheet(2, 2, [2.0, 0.0, -1.0, 4.0]), Sheet(1, 2, [1.0, NAN, 5.0, 1.0]),
    Sheet(1, 1, [3.0]), Sheet(1, 1, [-0.0]), Sheet(2, 1, [-0.0]), Sheet(1, 2, [1.0, -0.0, -0.0, 1.0]),
    Sheet(1, 2, [5.0, 1.0, NAN, 1.0]), Sheet(1, 2, [1.0, 0.0, 0.0, INF]), Sheet(2, 1, [-INF]),
    Sheet(1, 2, [1.0, 0.0, 0.5, 1.0]), Sheet(1, 2, [1.0, 0.0, 0.0, -1.0]), Sheet(2, 1, [-1.0]),
    Sheet(1, 2, [1.0, -2.0 ** -1074, 0.0, 1.0]), Sheet(1, 2, [1.0, -SMALLEST, 0.0, 1.0]),
    Sheet(1, 2, [1.0, -SMALLEST, 0.0, 2.0 ** -10]), Sheet(2, 2, [1.0, 0.0, 0.0, 2.0 ** -1074]),
    Sheet(1, 2, [1.0, 0.0, 0.0, 2.0 ** 1022]), Sheet(2, 2, [3.0, -1.0, 0.0, 1.0]), Sheet(2, 2, [1.0, -5.0, 0.0, 1.0]),
    Sheet(2, 2, [4.0, -3.0, -1.0, 1.0]), Sheet(2, 2, [5.0, 0.0, -3.0, 1.0]), Sheet(2, 2, [SMALLEST, -1.0, 0.0, 1.0]),
    Sheet(2, 3, [1.0, 0.0, -1.0, 0.0, SMALLEST, -1.0, 0.0, 0.0, 1.0]),
    Sheet(1, 3, [1.0, -0.0, -1.0, 0.0, -0.0, -0.0, -1.0, 0.0, 0.0]), Sheet(1, 2, [1.0, -1.0, 0.0, 0.0]),
    Sheet(1, 2, [0.0, 0.0, 0.0, 2.0 ** 1022]), Sheet(3, 2, W_SHEET), Sheet(3, 1, [2.0, 0.5]),
    Sheet(3, 2, [1.0, -SMALLEST, 0.0, 2.0 ** -10, 1.0, 1.0]), Sheet(3, 1, [0.0, NAN]), Sheet(3, 1, [2.0, 0.0]),
    Sheet(3, 1, [2.0, -0.0]), Sheet(3, 1, [2.0, 2.0 ** -1074]), Sheet(3, 1, [-0.0, 1.0]),
    Sheet(3, 2, [1.0, -1.0, -0.0, 1.0, 1.0, INF]), Sheet(3, 2, [1.0, 0.0, 0.0, 0.0, 1.0, 1.0]),
]


def random_sheets(rng: random.Random, stages: Sequence[int], widest: int = 300) -> list[Sheet]:
    """A random sheet of each reading for each number of stages."""
    return [Sheet(reading, n, reference.random_sheet(rng, reading, n, reference.random_style(rng, widest)))
            for n in stages for reading in READINGS]


def file_of(sheet: Sheet, e: int = 0) -> bytes:
    """The sheet file of a sheet."""
    return reference.make_file(sheet.reading, sheet.n, e, sheet.numbers)


def good_files(rng: random.Random) -> list[bytes]:
    """Files of every small size and of the longest, with words of all kinds, some with document 01's head."""
    files = [file_of(sheet, e) if e is not None else reference.make_short_file(*sheet)
             for sheet, e in zip(SHEETS + random_sheets(rng, [1, 2, 3, 5, 8, 32]), itertools.cycle([*UNITS, None]))]
    for n, reading in itertools.product((1, 4, 32), READINGS):
        words = [rng.choice([rng.getrandbits(64), 0x7ff0000000000001 + rng.getrandbits(40)])
                 for _ in range(sheet_length(reading, n))]
        files.append(reference.make_file_words(reading, n, reference.random_unit(rng), words))
        files.append(reference.make_short_file_words(reading, n, words))
    return files


def bad_files() -> list[bytes]:
    """Files that are refused, with either head, each for another reason."""
    sheet = Sheet(1, 2, [1.0, -1.0, -1.0, 0.0])
    files = [b"", struct.pack("<IH", 9000, 2) + bytes(10000), file_of(sheet, 513), file_of(sheet, -513)]
    for whole in (file_of(sheet, -10), reference.make_short_file(*sheet)):
        rows = whole[-48:]
        at_rows, row = len(whole) - len(rows), len(rows) // 2
        head = whole[:at_rows]
        files += [whole[:5], whole[:6], head[:-1], head, head + rows[:5], head + rows[:row - 1], whole[:-1],
                  whole + b"\0", whole + bytes(9000), rows, head + head + rows, head + rows[row:] + rows[:row],
                  head + rows[:row] + rows[:row]]
        for at, form, value in [(0, "<I", 5), (0, "<I", 7), (0, "<I", 2 ** 32 - 1), (4, "<H", 2), (6, "<H", 0),
                                (6, "<H", 3), (6, "<H", 4), (8, "<H", 0), (8, "<H", 33), (at_rows, "<I", 0),
                                (at_rows, "<I", 17), (at_rows + 4, "<H", 1), (at_rows + 6, "<H", 2),
                                (at_rows + 6, "<H", 0), (at_rows + row, "<I", 19), (at_rows + 6 + row, "<H", 1)]:
            changed = bytearray(whole)
            struct.pack_into(form, changed, at, value)
            files.append(bytes(changed))
    return files + bad_weight_files()


def bad_weight_files() -> list[bytes]:
    """Files whose weights are cut, of another kind or length, missing, in another place or not due."""
    files = []
    for whole in (reference.make_file(3, 2, 7, W_SHEET), reference.make_short_file(3, 2, W_SHEET)):
        before, weights = whole[:-22], whole[-22:]
        files += [before, before + weights[:5], whole[:-1], whole + b"\0", whole + weights,
                  before[:-48] + weights + before[-48:], before + before[-24:],
                  *(before + reference.record(3, bytes(length)) for length in (0, 8, 15, 17, 18, 24)),
                  *(before + reference.record(kind, bytes(16)) for kind in (0, 1, 2, 4, 259))]
        for reading in (1, 2):
            files.append(whole[:6] + struct.pack("<H", reading) + whole[8:])
    return files


# ==== The tests ====

class TableTest(HostTest):
    """The whole table, with the entry beside it."""

    def test_known_sheets(self) -> None:
        """The documents' sheets, and sheets beside an edge; all of 6 to 10 come up."""
        numbers = {self.sheet(*sheet)[0] for sheet in SHEETS}
        self.assertEqual(numbers, {0, 6, 7, 8, 9, 10})

    def test_random_sheets(self) -> None:
        """Random sheets of every size, of which most are accepted."""
        sheets = random_sheets(self.rng, range(1, 33), 30) + random_sheets(self.rng, [1, 2, 3, 4, 5, 6, 7] * 12)
        accepted = [sheet.reading for sheet in sheets if self.sheet(*sheet) == (0, 0, 0)]
        self.assertGreater(min(accepted.count(reading) for reading in READINGS), 40)

    def test_edge_of_the_range(self) -> None:
        """Pairs of sheets one last place apart, of which one is accepted and the other is 10."""
        found = 0
        for sheet in random_sheets(self.rng, [1, 2, 3, 4] * 12):
            pair = reference.edge_pair(self.rng, *sheet)
            if pair is not None:
                found += 1
                self.assertEqual(self.sheet(sheet.reading, sheet.n, pair[0]), (0, 0, 0))
                self.assertEqual(self.sheet(sheet.reading, sheet.n, pair[1]), (10, 0, 0))
        self.assertGreater(found, 20)

    def test_one_bad_number(self) -> None:
        """A random sheet with one number spoilt, anywhere."""
        for sheet in random_sheets(self.rng, [2, 3, 7, 32], 30) * 6:
            numbers = list(sheet.numbers)
            at = self.rng.randrange(len(numbers))
            numbers[at] = self.rng.choice([NAN, INF, -INF, 1.0, -1.0, 2.0 ** -1074, -2.0 ** -1074, -0.0])
            self.sheet(sheet.reading, sheet.n, numbers)

    def test_lengths(self) -> None:
        """Sheets and areas that are too short, right, too long or empty; later places stay as they are."""
        for sheet in random_sheets(self.rng, [1, 2, 5, 32], 3):
            needed = sheet.n * sheet.n
            for room in (0, needed - 1, needed, needed + 1, needed + 50, PLACES + 7):
                self.table(*sheet, room)
            for numbers in ([], sheet.numbers[:-1], sheet.numbers + [0.0]):
                self.assertEqual(self.table(sheet.reading, sheet.n, numbers), (3, 0, 0))
                self.assertEqual(self.table(sheet.reading, sheet.n, numbers, 0), (3, 0, 0))
        self.assertEqual(self.table(1, 1, [NAN], 0), (4, 0, 0))

    def test_reading_and_size(self) -> None:
        """Readings and sizes out of range, also those at which n × n would not fit a word."""
        for reading in (0, 4, 2 ** 63, 2 ** 64 - 1):
            self.assertEqual(self.table(reading, 0, [], 0), (1, 0, 0))
            self.assertEqual(self.table(reading, 1, [1.0], 1), (1, 0, 0))
        for n in (0, 33, 2 ** 32, 2 ** 63, 2 ** 64 - 1):
            for reading in READINGS:
                self.assertEqual(self.table(reading, n, [NAN], 0), (2, 0, 0))
                self.assertEqual(self.table(reading, n, [], 5), (2, 0, 0))
        self.assertEqual(self.table(1, 33, [1.0] * 1089, 1089), (2, 0, 0))
        self.assertEqual(self.table(3, 33, [1.0] * 1122, 1122), (2, 0, 0))

    def test_bits_of_nan(self) -> None:
        """NaN patterns of every kind are 6."""
        for word in (0x7ff0000000000001, 0x7ff8000000000000, 0xffffffffffffffff, 0xfff0000000000001):
            self.assertEqual(self.table(1, 1, [number_of(word)]), (6, 1, 1))


class EntryTest(HostTest):
    """One entry."""

    def test_every_entry(self) -> None:
        """Every entry of random sheets has the bits of the table."""
        for sheet in random_sheets(self.rng, [1, 2, 3, 4, 6], 30) * 2:
            for i in range(1, sheet.n + 1):
                for j in range(1, sheet.n + 1):
                    self.entry(*sheet, i, j)

    def test_stages(self) -> None:
        """Stages out of range are 5, after 3 and before 6."""
        for sheet in random_sheets(self.rng, [1, 3, 32], 3):
            for bad in (0, sheet.n + 1, 2 ** 63, 2 ** 64 - 1):
                self.assertEqual(self.entry(*sheet, bad, 1), (5, 0, 0))
                self.assertEqual(self.entry(*sheet, 1, bad), (5, 0, 0))
        self.assertEqual(self.entry(1, 1, [NAN], 2, 1), (5, 0, 0))
        self.assertEqual(self.entry(1, 1, [], 2, 1), (3, 0, 0))

    def test_reading_and_size(self) -> None:
        """Readings and sizes out of range."""
        for reading in (0, 4, 2 ** 64 - 1):
            self.assertEqual(self.entry(reading, 0, [], 0, 0), (1, 0, 0))
        for n, reading in itertools.product((0, 33, 2 ** 32, 2 ** 63, 2 ** 64 - 1), READINGS):
            self.assertEqual(self.entry(reading, n, [NAN], 0, 0), (2, 0, 0))


class ColumnTest(HostTest):
    """One column."""

    def test_known_sheets(self) -> None:
        """The sheets of the table: 6 to 9 as there; with the table every column, and with 10 not every one."""
        numbers = set()
        for sheet in SHEETS:
            if sheet.reading != 1:
                self.assertEqual(self.column(*sheet, 1), (1, 0, 0))
                continue
            whole, answers = self.table(*sheet), self.columns(sheet.n, sheet.numbers)
            numbers |= {number for number, _, _ in answers}
            if whole[0] == 10:
                self.assertIn((10, 0, 0), answers)
            else:
                self.assertEqual(answers, [whole] * sheet.n)
        self.assertEqual(numbers, {0, 6, 7, 8, 9, 10})

    def test_one_of_two(self) -> None:
        """The first column is in range, the second is not, and so is the table."""
        sheet = [1.0, 0.0, 0.0, 2.0 ** 1022]
        self.assertEqual(self.columns(2, sheet), [(0, 0, 0), (10, 0, 0)])
        self.assertEqual(self.table(1, 2, sheet), (10, 0, 0))

    def test_lost_pivot(self) -> None:
        """A pivot that overflows is noticed, also by the column in which no later number shows it."""
        sheet = [1.0, 0.0, 0.0, 0.0, reference.LARGEST, -reference.LARGEST, 0.0, 0.0, 1.0]
        self.assertEqual(self.columns(3, sheet), [(10, 0, 0)] * 3)

    def test_every_size(self) -> None:
        """Columns of random sheets of every size, the first and the last among them; most are accepted."""
        accepted = 0
        for n in range(1, 33):
            sheet = reference.random_sheet(self.rng, 1, n, reference.random_style(self.rng, 30))
            whole = self.table(1, n, sheet)
            for stage in {1, n, self.rng.randint(1, n)}:
                answer = self.column(1, n, sheet, stage)
                if whole == (0, 0, 0):
                    self.assertEqual(answer, whole)
                    accepted += 1
        self.assertGreater(accepted, 40)

    def test_some_columns(self) -> None:
        """Sheets of which only some columns are in range, of few stages and of many."""
        found = []
        for n in [3, 4, 5, 6, 7] * 20 + [12, 19, 32] * 2:
            sheet = reference.uneven_sheet(self.rng, n)
            answers, whole = self.columns(n, sheet), self.table(1, n, sheet)
            self.assertEqual(whole == (0, 0, 0), answers == [(0, 0, 0)] * n)
            found += answers if whole == (10, 0, 0) else []
        self.assertGreater(min(found.count((0, 0, 0)), found.count((10, 0, 0))), 50)

    def test_edge_of_the_range(self) -> None:
        """Pairs of sheets one last place apart, of which one has the column and the other is 10."""
        found = 0
        for n in [1, 2, 3, 4] * 12:
            stage = self.rng.randint(1, n)
            pair = reference.edge_pair(self.rng, 1, n, reference.uneven_sheet(self.rng, n), stage)
            if pair is not None:
                found += 1
                self.assertEqual(self.column(1, n, pair[0], stage), (0, 0, 0))
                self.assertEqual(self.column(1, n, pair[1], stage), (10, 0, 0))
        self.assertGreater(found, 20)

    def test_one_bad_number(self) -> None:
        """A random sheet with one number spoilt, anywhere, is refused for every stage alike."""
        for n in (2, 3, 7, 32) * 6:
            numbers = reference.random_sheet(self.rng, 1, n, reference.random_style(self.rng, 30))
            numbers[self.rng.randrange(n * n)] = self.rng.choice([NAN, INF, -INF, 2.0 ** -1074, -2.0 ** -1074])
            self.assertEqual(self.column(1, n, numbers, 1), self.column(1, n, numbers, n))

    def test_lengths(self) -> None:
        """Sheets and areas that are too short, right, too long or empty; later places stay as they are."""
        for n in (1, 2, 5, 32):
            numbers = reference.random_sheet(self.rng, 1, n, reference.random_style(self.rng, 3))
            for room in (n, n + 1, n + 50, PLACES + 7):
                self.assertEqual(self.column(1, n, numbers, n, room), (0, 0, 0))
            for room in (0, n - 1):
                self.assertEqual(self.column(1, n, numbers, 1, room), (4, 0, 0))
                self.assertEqual(self.column(1, n, [NAN] * (n * n), 0, room), (4, 0, 0))
            for wrong in ([], numbers[:-1], numbers + [0.0]):
                self.assertEqual(self.column(1, n, wrong, 1), (3, 0, 0))
                self.assertEqual(self.column(1, n, wrong, 0, 0), (3, 0, 0))

    def test_stages(self) -> None:
        """A stage out of range is 5, after 4 and before 6."""
        for n in (1, 3, 32):
            for bad in (0, n + 1, 2 ** 63, 2 ** 64 - 1):
                self.assertEqual(self.column(1, n, [NAN] * (n * n), bad), (5, 0, 0))
                self.assertEqual(self.column(1, n, [1.0] * (n * n), bad, n - 1), (4, 0, 0))

    def test_reading_and_size(self) -> None:
        """Readings other than 1 and sizes out of range, also those at which n × n would not fit a word."""
        for reading in (0, 2, 3, 4, 2 ** 63, 2 ** 64 - 1):
            self.assertEqual(self.column(reading, 0, [], 0, 0), (1, 0, 0))
            self.assertEqual(self.column(reading, 1, [1.0], 1), (1, 0, 0))
        for n in (0, 33, 2 ** 32, 2 ** 63, 2 ** 64 - 1):
            self.assertEqual(self.column(1, n, [NAN], 0, 0), (2, 0, 0))
            self.assertEqual(self.column(1, n, [], 1, 5), (2, 0, 0))
        self.assertEqual(self.column(1, 33, [1.0] * 1089, 1), (2, 0, 0))

    def test_bits_of_nan(self) -> None:
        """NaN patterns of every kind are 6."""
        for word in (0x7ff0000000000001, 0x7ff8000000000000, 0xffffffffffffffff, 0xfff0000000000001):
            self.assertEqual(self.column(1, 1, [number_of(word)], 1), (6, 1, 1))


class PriceTest(HostTest):
    """Prices of a request."""

    def test_known_sheets(self) -> None:
        """The sheets of the table, with good prices as there, and with a bad one before 10."""
        for sheet in SHEETS:
            whole = self.table(*sheet)
            for prices in ([1.0] * sheet.n, [-0.0] * sheet.n, [0.0, 2.5][-sheet.n:]):
                if len(prices) == sheet.n:
                    self.assertEqual(self.prices(*sheet, prices), whole)
            bad = (19, sheet.n, 0) if whole[0] in (0, 10) else whole
            self.assertEqual(self.prices(*sheet, [0.0] * (sheet.n - 1) + [-1.0]), bad)

    def test_documents(self) -> None:
        """The cases of the papers, an order of the sum that others have otherwise, and each way to leave the range."""
        edge, chain = [1.0, 0.0, 0.0, 2.0 ** 1022], [0.0, -1.0, 0.0, 0.0, 0.0, -1.0, 0.0, 0.0, 1.0]
        for n, sheet, prices, expected in [
                (1, [NAN], [], (18, 0, 0)), (2, edge, [0.0, -1.0], (19, 2, 0)), (2, edge, [1.0, 0.0], (10, 0, 0)),
                (3, chain, [2.0 ** 53, 1.0, 1.0], (0, 0, 0)), (3, chain, [1.0, 1.0, 2.0 ** 53], (0, 0, 0)),
                (1, [1.0], [SMALLEST], (10, 0, 0)), (1, [1.0], [2 * SMALLEST], (0, 0, 0)),
                (1, [2.0], [(2 - 2.0 ** -52) * SMALLEST], (10, 0, 0)), (1, [2.0 ** -600], [2.0 ** 600], (10, 0, 0)),
                (2, [1.0, -1.0, -1.0, 0.0], [LARGEST, 0.0], (0, 0, 0)),
                (2, [1.0, -1.0, -1.0, 0.0], [LARGEST, LARGEST], (10, 0, 0)),
                (2, [1.0, 0.0, 0.0, 0.0], [1.0, SMALLEST], (0, 0, 0))]:
            self.assertEqual(self.prices(1, n, sheet, prices), expected)

    def test_every_size(self) -> None:
        """Random sheets of every size and reading at random prices; most are accepted."""
        answers = []
        for n in range(1, 33):
            for sheet in random_sheets(self.rng, [n], 30):
                answers += [self.prices(*sheet, prices) for prices in
                            ([1.0] * n, [reference.random_size(self.rng, 3) for _ in range(n)],
                             reference.random_prices(self.rng, n))]
        self.assertGreater(answers.count((0, 0, 0)), 220)

    def test_edge_of_the_range(self) -> None:
        """Pairs of prices one last place apart, of which one is accepted and the other is 10."""
        found = 0
        for sheet in random_sheets(self.rng, [1, 2, 3, 4] * 8, 30):
            pair = reference.price_edge_pair(self.rng, *sheet, reference.random_prices(self.rng, sheet.n))
            if pair is not None:
                found += 1
                self.assertEqual([self.prices(*sheet, prices) for prices in pair], [(0, 0, 0), (10, 0, 0)])
        self.assertGreater(found, 20)

    def test_bad_prices(self) -> None:
        """One search for every fault of a price: the first bad one is told, wherever others stand."""
        faults = [NAN, INF, -INF, -1.0, -SMALLEST, 2.0 ** -1074, -2.0 ** -1074, number_of(bits_of(SMALLEST) - 1),
                  *(number_of(word) for word in (0x7ff0000000000001, 0xffffffffffffffff, 0xfff8000000000000))]
        for sheet in random_sheets(self.rng, [1, 2, 5, 32], 3):
            for fault in faults:
                first = self.rng.randrange(sheet.n)
                prices = [1.0] * first + [fault] + [self.rng.choice([1.0, *faults]) for _ in range(first + 1, sheet.n)]
                self.assertEqual(self.prices(*sheet, prices), (19, first + 1, 0))
            for good in (SMALLEST, LARGEST, -0.0, 0.0):
                self.assertIn(self.prices(*sheet, [good] * sheet.n), [(0, 0, 0), (10, 0, 0)])

    def test_lengths(self) -> None:
        """Sheets, prices and areas that are too short, right, too long or empty; later places stay as they are."""
        for sheet in random_sheets(self.rng, [1, 2, 5, 32], 3):
            n, prices, whole = sheet.n, [1.0] * sheet.n, self.table(*sheet)
            for room in (0, n - 1):
                self.assertEqual(self.prices(*sheet, prices, room), (4, 0, 0))
                self.assertEqual(self.prices(*sheet, [], room), (4, 0, 0))
            for room in (n, n + 1, n * n, PLACES + 7):
                self.assertEqual(self.prices(*sheet, prices, room), whole)
                for given in ([], prices[:-1], prices + [1.0], prices * 2):
                    self.assertEqual(self.prices(*sheet, given, room), (18, 0, 0))
            for numbers in ([], sheet.numbers[:-1], sheet.numbers + [0.0]):
                self.assertEqual(self.prices(sheet.reading, n, numbers, [], 0), (3, 0, 0))

    def test_order(self) -> None:
        """Each question before the next, where both are answered no."""
        for reading in (0, 4, 2 ** 64 - 1):
            self.assertEqual(self.prices(reading, 0, [], [], 0), (1, 0, 0))
        for n, reading in itertools.product((0, 33, 2 ** 32, 2 ** 63, 2 ** 64 - 1), READINGS):
            self.assertEqual(self.prices(reading, n, [NAN], [NAN], 0), (2, 0, 0))
        for reading, sheet, expected in [
                (1, [5.0, 1.0, NAN, 1.0], (6, 2, 1)), (2, [1.0, -2.0 ** -1074, 1.0, 1.0], (7, 2, 1)),
                (1, [0.0, -2.0 ** -1074, 0.0, 0.0], (8, 1, 2)), (1, [1.0, -1.0, 0.0, 0.0], (9, 2, 0)),
                (3, [1.0, -1.0, 0.0, 1.0, 1.0, NAN], (6, 3, 2)),
                (3, [1.0, -2.0 ** -1074, 0.0, 1.0, 0.0, 1.0], (7, 3, 1)),
                (3, [1.0, -1.0, 0.0, 1.0, 1.0, 2.0 ** -1074], (8, 3, 2))]:
            self.assertEqual(self.prices(reading, 2, sheet, [NAN] * 3), (18, 0, 0))
            self.assertEqual(self.prices(reading, 2, sheet, [NAN] * 2), expected)


class IdleTest(HostTest):
    """Idle stages: the table, every entry, every column and prices."""

    def every_call(self, n: int, sheet: Sequence[float]) -> Told:
        """The table of a sheet of reading 1, prices and every entry, which are answered alike, and the report."""
        answer = self.table(1, n, sheet)
        self.assertEqual(self.prices(1, n, sheet, [0.0] * n), answer)
        for i in range(1, n + 1):
            for j in range(1, n + 1):
                self.assertEqual(self.entry(1, n, sheet, i, j), answer)
        self.report(file_of(Sheet(1, n, list(sheet))))
        return answer

    def test_documents(self) -> None:
        """The sheets of the documents; a stage that is moved to, or moves, is not idle."""
        for n, sheet, expected in [
                (1, [0.0], (0, 0, 0)), (1, [-0.0], (0, 0, 0)), (2, [1.0, 0.0, 0.0, 0.0], (0, 0, 0)),
                (2, [0.0, -0.0, -0.0, 1.0], (0, 0, 0)), (2, [1.0, -1.0, 0.0, 0.0], (9, 2, 0)),
                (2, [0.0, -1.0, -1.0, 0.0], (9, 1, 0)), (2, [0.0, -1.0, 0.0, 1.0], (0, 0, 0)),
                (3, [0.0, 0.0, 0.0, 0.0, 0.0, -1.0, 0.0, -1.0, 0.0], (9, 2, 0))]:
            self.assertEqual(self.every_call(n, sheet), expected)
            self.assertEqual(self.columns(n, sheet), [expected] * n)

    def test_columns_beside_10(self) -> None:
        """The column of an idle stage takes the steps that serve every column, and no last division that leaves
        the range; a pivot that overflows is noticed although no later number shows it."""
        self.assertEqual(self.every_call(2, [0.0, 0.0, 0.0, 2.0 ** 1022]), (10, 0, 0))
        self.assertEqual(self.columns(2, [0.0, 0.0, 0.0, 2.0 ** 1022]), [(0, 0, 0), (10, 0, 0)])
        most = reference.LARGEST
        self.assertEqual(self.columns(3, [0.0, 0.0, 0.0, 0.0, most, -most, 0.0, 0.0, 1.0]), [(10, 0, 0)] * 3)
        self.assertEqual(self.columns(3, [most, -most, 0.0, 0.0, 1.0, 0.0, 0.0, 0.0, 0.0]), [(10, 0, 0)] * 3)

    def test_only_idle(self) -> None:
        """Only idle stages, of every number, with zeros of either sign."""
        for n in range(1, 33):
            sheet = [reference.random_zero(self.rng) for _ in range(n * n)]
            self.assertEqual(self.sheet(1, n, sheet), (0, 0, 0))
            self.assertEqual(self.column(1, n, sheet, self.rng.randint(1, n), n + 2), (0, 0, 0))
            self.assertEqual(self.table(1, n, sheet, n * n + 5), (0, 0, 0))

    def test_among_others(self) -> None:
        """Idle stages put in anywhere change no refusal's number, and in the table and columns no other entry."""
        found = set()
        for n in [1, 2, 3, 4, 5] * 20:
            sheet, total = reference.any_sheet(self.rng, n), n + self.rng.randint(1, 3)
            live, wide = reference.among_idle(self.rng, n, sheet, total)
            alone, answers = self.table(1, n, sheet), self.columns(total, wide)
            self.assertEqual(self.every_call(total, wide)[0], alone[0])
            self.assertEqual([answers[i][0] for i in live], [told[0] for told in self.columns(n, sheet)])
            found.add(alone[0])
        self.assertEqual(found, {0, 6, 7, 8, 9, 10})

    def test_many(self) -> None:
        """32 stages of which one, some or all but one are idle."""
        for n in (1, 2, 9, 16, 23, 30, 31):
            sheet = reference.random_sheet(self.rng, 1, n, reference.random_style(self.rng, 3))
            live, wide = reference.among_idle(self.rng, n, sheet, 32)
            self.assertEqual(self.sheet(1, 32, wide), self.table(1, n, sheet))
            self.report(file_of(Sheet(1, 32, wide)))
            idle = [i for i in range(32) if i not in live]
            for i in {live[0], live[-1], idle[0], idle[-1]}:
                self.assertEqual(self.column(1, 32, wide, i + 1), (0, 0, 0))

    def test_nearly_idle(self) -> None:
        """One number in the row, the column or the diagonal place of a stage that is idle else."""
        for n in (2, 3, 5, 8) * 10:
            sheet = reference.random_sheet(self.rng, 1, n - 1, reference.random_style(self.rng, 3))
            live, wide = reference.among_idle(self.rng, n - 1, sheet, n)
            idle = next(i for i in range(n) if i not in live)
            size = self.rng.choice([1.0, SMALLEST, reference.LARGEST])
            for row, column in ((idle, idle), (idle, self.rng.choice(live)), (self.rng.choice(live), idle)):
                numbers = list(wide)
                numbers[row * n + column] = size if row == column else -size
                answer = self.every_call(n, numbers)
                self.assertEqual(answer == (9, idle + 1, 0), column == idle and row != idle)
                self.columns(n, numbers)

    def test_margins(self) -> None:
        """Margins have no idle stages: a zero on the diagonal is 7, and without moves every stage has its seconds."""
        self.assertEqual(self.sheet(2, 2, [1.0, 0.0, 0.0, 0.0]), (7, 2, 2))
        self.assertEqual(self.sheet(2, 2, [1.0, -0.0, 0.0, 4.0]), (0, 0, 0))


class FileTest(HostTest):
    """File reading, into numbers and into words."""

    def test_good_files(self) -> None:
        """Files that are read, with room enough, just enough and too little."""
        for data in good_files(self.rng):
            needed = sheet_length(*struct.unpack_from("<HH", data, 6))
            for room in (PLACES + 3, needed + 1, needed):
                self.assertEqual(self.file(data, room), (0, 0, 0))
            for room in (needed - 1, 0):
                self.assertEqual(self.file(data, room), (4, 0, 0))

    def test_bad_files(self) -> None:
        """Files that are refused, each with room and without; all of 11 to 14 come up, and 11 and 13 of the weights
        of two stages, which are due as row 3."""
        numbers = {self.file(data, room)[0] for data in bad_files() for room in (PLACES, 0)}
        self.assertEqual(numbers, {11, 12, 13, 14})
        told = {self.file(data, room) for data in bad_weight_files() for room in (PLACES, 0)}
        self.assertEqual(told, {(11, 3, 0), (13, 3, 0), (13, 1, 0), (14, 0, 0)})

    def test_cut_and_changed_files(self) -> None:
        """A file cut anywhere, and one with any byte changed."""
        numbers = [2.0, 0.0, -1.0, 0.0, 4.0, 0.0, 0.0, 0.0, 1.0]
        for sheet in (Sheet(2, 3, numbers), Sheet(3, 3, numbers + [3.0, 0.5, 1.0])):
            for data in (file_of(sheet, -10), reference.make_short_file(*sheet)):
                for at in range(len(data)):
                    self.file(data[:at])
                    self.file(data[:at] + bytes([data[at] ^ 1 << self.rng.randrange(8)]) + data[at + 1:])


class SaveTest(HostTest):
    """Saving, of numbers and of words."""

    def words(self, reading: int, n: int) -> list[int]:
        """Words of all kinds: NaN patterns, zeros of either sign, any bits."""
        return [self.rng.choice([self.rng.getrandbits(64), 0x7ff0000000000001, 0xfff8000000000000, 0, 1 << 63, 1])
                for _ in range(sheet_length(reading, n))]

    def test_every_size(self) -> None:
        """Sheets of every size, with room enough, just enough and too little."""
        for reading in READINGS:
            for n in range(1, 33):
                needed = 12 + n * (8 * n + 8) + (8 * n + 6 if reading == 3 else 0)
                for room in (needed, needed + 1, needed + 99):
                    self.assertEqual(self.save(reading, n, self.words(reading, n), room), (0, 0, 0))
                for room in (needed - 1, 9, 0):
                    self.assertEqual(self.save(reading, n, self.words(reading, n), room), (4, 0, 0))

    def test_sheets_that_no_table_takes(self) -> None:
        """NaN, wrong signs and trapped stages are saved."""
        for sheet in SHEETS:
            words = [bits_of(x) for x in sheet.numbers]
            self.assertEqual(self.save(sheet.reading, sheet.n, words, reference.LONGEST_FILE), (0, 0, 0))

    def test_refusals(self) -> None:
        """1, 2 and 3, each before the next, also where n × n would not fit a word."""
        for reading in (0, 4, 2 ** 63, 2 ** 64 - 1):
            self.assertEqual(self.save(reading, 0, [], 0), (1, 0, 0))
        for n, reading in itertools.product((0, 33, 2 ** 32, 2 ** 63, 2 ** 64 - 1), READINGS):
            self.assertEqual(self.save(reading, n, [], 0), (2, 0, 0))
            self.assertEqual(self.save(reading, n, [1] * 1122, 9100), (2, 0, 0))
        for n, reading in itertools.product((1, 2, 32), READINGS):
            words = self.words(reading, n)
            for wrong in ([], words[:-1], words + [0]):
                self.assertEqual(self.save(reading, n, wrong, 0), (3, 0, 0))


class MoveTest(HostTest):
    """Moving to another time unit."""

    def test_documents(self) -> None:
        """The cases of the documents, in each reading: 16 is decided by the exact product, before any rounding."""
        for reading in READINGS:
            for number, expected in ((2.0 ** -510, 0), (2.0 ** -511, 16), ((2 - 2.0 ** -52) * 2.0 ** -511, 16)):
                self.assertEqual(self.move(reading, 1, in_reading(reading, [number]), -512), (expected, 0, 0))
            self.assertEqual(self.move(reading, 2, in_reading(reading, [1.0, -1.0, 0.0, 3.0]), -10), (0, 0, 0))

    def test_known_sheets(self) -> None:
        """Sheets that are refused with 9 or 10, or accepted, by the table are moved; 6 to 8 are refused as there."""
        for sheet in SHEETS:
            answer = self.table(*sheet)
            expected = answer if answer[0] in (6, 7, 8) else (0, 0, 0)
            self.assertEqual(self.move(*sheet, 0), expected)
            self.assertEqual(self.move(*sheet, 513), expected if expected[0] else (15, 0, 0))
            for k in (-512, -10, -1, 1, 10, 512):
                self.assertIn(self.move(*sheet, k), [expected, expected if expected[0] else (16, 0, 0)])

    def test_zeros(self) -> None:
        """A zero of either sign is kept, for every number of stages and by the longest moves."""
        for n in range(1, 33):
            sheet = [reference.random_zero(self.rng) for _ in range(n * n)]
            for k in (-512, self.rng.randint(-511, 511), 512):
                self.assertEqual(self.move(1, n, sheet, k, n * n + 2), (0, 0, 0))

    def test_range_of_k(self) -> None:
        """k at its ends and past them, also by far, and where its lower half alone would be in range."""
        for reading in READINGS:
            for n in (1, 3, 32):
                sheet = [1.5 if p % (n + 1) == 0 else -0.75 for p in range(n * n)]
                sheet += [2.0 ** (-1022 + 65 * j) for j in range(n)] if reading == 3 else []
                for k in (-512, -511, -1, 0, 1, 511, 512):
                    self.assertEqual(self.move(reading, n, sheet, k), (0, 0, 0))
                for k in POWERS_OUT_OF_RANGE:
                    self.assertEqual(self.move(reading, n, sheet, k), (15, 0, 0))

    def test_every_power(self) -> None:
        """1 by every k is 2^k, whose bits are k + 1,023 and 52 zeros."""
        for k in range(-512, 513):
            self.assertEqual(self.move(1, 1, [1.0], k), (0, 0, 0))
            moved = reference.move(1, 1, reference.IN_SECONDS, [1.0], k, 1)
            self.assertEqual([bits_of(x) for x in moved.numbers], [(k + 1023) << 52])

    def test_range_of_results(self) -> None:
        """For every second k the last number that is moved, at either end of the range, and the first that is not,
        at any place of a sheet."""
        low, high = bits_of(SMALLEST), bits_of(LARGEST)
        for k in range(-512, 513, 2):
            within, past = (low - (k << 52), -1) if k < 0 else (high - (k << 52), 1)
            reading, n = self.rng.choice(READINGS), self.rng.choice([1, 2, 3])
            place = self.rng.randrange(n * n)
            for word, expected in ((within, 0), (within + past, 16 if k else 6)):
                sheet = [1.0 if p % (n + 1) == 0 else reference.random_zero(self.rng) for p in range(n * n)]
                sheet[place] = number_of(word) if place % (n + 1) == 0 else -number_of(word)
                sheet = in_reading(reading, sheet)
                self.assertEqual(self.move(reading, n, sheet, k, len(sheet) + 1)[0], expected)

    def test_random_sheets(self) -> None:
        """Sheets of every size about any power of two, moved, and back again with their bits."""
        answers = []
        for n in [*range(1, 33), *[1, 2, 3, 4, 5, 6, 7] * 20]:
            for reading in READINGS:
                sheet = reference.sheet_to_move(self.rng, reading, n)
                k = reference.random_power(self.rng, n, sheet)
                answers.append(self.move(reading, n, sheet, k, len(sheet) + n))
                moved = reference.move(reading, n, reference.IN_SECONDS, sheet, k, len(sheet))
                if isinstance(moved, Moved):
                    self.assertEqual(self.move(reading, n, moved.numbers, -k), (0, 0, 0))
        self.assertEqual(set(answers), {(0, 0, 0), (16, 0, 0)})
        self.assertGreater(min(answers.count((0, 0, 0)), answers.count((16, 0, 0))), 50)

    def test_lengths(self) -> None:
        """Sheets and areas that are too short, right, too long or empty; later places stay as they are."""
        for sheet in random_sheets(self.rng, [1, 2, 5, 32], 3):
            needed = len(sheet.numbers)
            for room in (needed, needed + 1, needed + 50, PLACES + 7):
                self.assertEqual(self.move(*sheet, -10, room), (0, 0, 0))
            for room in (0, sheet.n - 1, needed - 1):
                self.assertEqual(self.move(*sheet, -10, room), (4, 0, 0))
            for numbers in ([], sheet.numbers[:-1], sheet.numbers + [0.0]):
                self.assertEqual(self.move(sheet.reading, sheet.n, numbers, -10), (3, 0, 0))

    def test_order(self) -> None:
        """Each question before the next, where both are answered no."""
        tiny = 2.0 ** -1074
        for reading in (0, 4, 2 ** 63, 2 ** 64 - 1):
            self.assertEqual(self.move(reading, 0, [], 600, 0), (1, 0, 0))
            self.assertEqual(self.move(reading, 1, [1.0], 1), (1, 0, 0))
        for reading in READINGS:
            for n in (0, 33, 2 ** 32, 2 ** 63, 2 ** 64 - 1):
                self.assertEqual(self.move(reading, n, [NAN], 600, 0), (2, 0, 0))
                self.assertEqual(self.move(reading, n, [], 1, 5), (2, 0, 0))
            needed = sheet_length(reading, 2)
            self.assertEqual(self.move(reading, 33, [1.0] * sheet_length(reading, 33), 1), (2, 0, 0))
            self.assertEqual(self.move(reading, 2, [NAN] * (needed - 1), 600, 0), (3, 0, 0))
            self.assertEqual(self.move(reading, 2, [NAN] * needed, 600, needed - 1), (4, 0, 0))
            for sheet, k, expected in [
                    ([5.0, 1.0, NAN, 1.0], 600, (6, 2, 1)), ([1.0, -tiny, 1.0, 1.0], 600, (7, 2, 1)),
                    ([1.0, -tiny, 0.0, 1.0], 600, (8, 1, 2)), ([1.0, -tiny, 0.0, LARGEST], 1, (8, 1, 2)),
                    ([1.0, 0.0, 0.0, LARGEST], 513, (15, 0, 0)), ([1.0, -SMALLEST, 0.0, 1.0], -513, (15, 0, 0)),
                    ([1.0, 0.0, -LARGEST, 1.0], 1, (16, 0, 0))]:
                self.assertEqual(self.move(reading, 2, in_reading(reading, sheet), k), expected)
                self.assertEqual(self.move(reading, 2, in_reading(reading, sheet), k, 9), expected)

    def test_one_bad_number(self) -> None:
        """A random sheet with one number spoilt, anywhere, by k in its range and out of it."""
        for sheet in random_sheets(self.rng, [2, 3, 7, 32], 30) * 6:
            numbers = list(sheet.numbers)
            numbers[self.rng.randrange(len(numbers))] = self.rng.choice(
                [NAN, INF, -INF, 1.0, -1.0, 2.0 ** -1074, -2.0 ** -1074, -0.0, LARGEST, -SMALLEST])
            for k in (-512, -1, 1, 512, 513):
                self.move(sheet.reading, sheet.n, numbers, k)

    def test_bits_of_nan(self) -> None:
        """NaN patterns of every kind are 6."""
        for word in (0x7ff0000000000001, 0x7ff8000000000000, 0xffffffffffffffff, 0xfff0000000000001):
            self.assertEqual(self.move(1, 1, [number_of(word)], 1), (6, 1, 1))

    def test_laws(self) -> None:
        """A moved sheet has the sheet's numbers divided by the power, and two moves are one; that one sheet is accepted
        does not say that the other is: E moved by 1 is F."""
        for reading in READINGS:
            self.assertEqual(self.table(reading, 1, in_reading(reading, [2.0 ** 1021])), (0, 0, 0))
            self.assertEqual(self.move(reading, 1, in_reading(reading, [2.0 ** 1021]), 1), (0, 0, 0))
            self.assertEqual(self.calls.left[0], bits_of(2.0 ** 1022))
            self.assertEqual(self.table(reading, 1, in_reading(reading, [2.0 ** 1022])), (10, 0, 0))
        for law, cases in LAWS.values():
            seen: Counter[str] = Counter()
            for _ in range(1200):
                law(self.calls, self.rng, seen)
            self.assertLessEqual(cases, set(seen))


class UnitTest(HostTest):
    """The unit of a sheet: e in the calls, in the heads of files, and after a move."""
    P = [1.0, -1.0, -1.0, 0.0]

    def test_out_of_range(self) -> None:
        """12 in every service on a sheet, after 1 and 2 and before 3, 4, 5 and 6."""
        nans = [NAN] * 4
        for e in POWERS_OUT_OF_RANGE:
            for sheet in ([], nans[:3], nans, self.P, nans + nans):
                words = [bits_of(x) for x in sheet]
                for room in (0, 60):
                    self.assertEqual(self.table(1, 2, sheet, room, e), (12, 0, 0))
                    self.assertEqual(self.column(1, 2, sheet, 0, room, e), (12, 0, 0))
                    self.assertEqual(self.prices(1, 2, sheet, [NAN], room, e), (12, 0, 0))
                    self.assertEqual(self.save(2, 2, words, room, e), (12, 0, 0))
                    for k in (-1, 0, 1, 600):
                        self.assertEqual(self.move(1, 2, sheet, k, room, e), (12, 0, 0))
                self.assertEqual(self.entry(2, 2, sheet, 0, 3, e), (12, 0, 0))
                self.assertEqual(self.entry(1, 2, sheet, 1, 1, e), (12, 0, 0))
                self.assertEqual(self.table(3, 2, sheet, 60, e), (12, 0, 0))
            for n in (0, 33, 2 ** 63):
                self.assertEqual(self.table(1, n, nans, 0, e), (2, 0, 0))
                self.assertEqual(self.column(1, n, nans, 0, 0, e), (2, 0, 0))
                self.assertEqual(self.prices(1, n, nans, nans, 0, e), (2, 0, 0))
                self.assertEqual(self.entry(1, n, nans, 0, 0, e), (2, 0, 0))
                self.assertEqual(self.save(1, n, [], 0, e), (2, 0, 0))
                self.assertEqual(self.move(1, n, nans, 600, 0, e), (2, 0, 0))
            self.assertEqual(self.column(2, 2, self.P, 1, 2, e), (1, 0, 0))
            self.assertEqual(self.column(3, 2, W_SHEET, 1, 2, e), (1, 0, 0))

    def test_every_unit(self) -> None:
        """Every e from -514 to 514 in each call and in a file."""
        words = [bits_of(x) for x in self.P]
        for e in range(-514, 515):
            expected = (0, 0, 0) if abs(e) <= 512 else (12, 0, 0)
            self.assertEqual(self.table(1, 2, self.P, 5, e), expected)
            self.assertEqual(self.entry(1, 2, self.P, 2, 1, e), expected)
            self.assertEqual(self.column(1, 2, self.P, 2, 3, e), expected)
            self.assertEqual(self.prices(1, 2, self.P, [1.0, 2.0], 3, e), expected)
            self.assertEqual(self.save(1, 2, words, 61, e), expected)
            self.assertEqual(self.move(1, 2, self.P, 0, 5, e), expected)
            for sheet in (Sheet(1, 2, self.P), Sheet(3, 2, W_SHEET)):
                self.assertEqual(self.file(file_of(sheet, e), 7), expected)
                self.report(file_of(sheet, e))
            self.assertEqual(self.table(3, 2, W_SHEET, 5, e), expected)
            self.assertEqual(self.move(3, 2, W_SHEET, 0, 7, e), expected)

    def test_heads(self) -> None:
        """Heads of every length up to 9, and every 17th word in the place of e."""
        rows = reference.make_records(1, 1, [bits_of(4.0)])
        accepted = [length for length in range(10)
                    if self.file(reference.record(1, b"\1\0\1\0\0\0\0\0\0"[:length]) + rows, 1) == (0, 0, 0)]
        self.assertEqual(accepted, [4, 6])
        for word in range(0, 65536, 17):
            head = reference.record(1, struct.pack("<HHH", 2, 1, word))
            self.assertEqual(self.file(head + rows, 1)[0], 0 if word <= 512 or word >= 65024 else 12)

    def test_loaded_and_saved(self) -> None:
        """A file that says its unit is saved as its bytes; one that does not, with e = 0 in its head."""
        for data in good_files(self.rng):
            loaded = reference.load(data, PLACES)
            size = reference.file_length(loaded.reading, loaded.n)
            with_unit = data if len(data) == size else struct.pack("<I", 6) + data[4:10] + b"\0\0" + data[10:]
            saved = reference.save(loaded.reading, loaded.n, loaded.e, loaded.words, size)
            self.assertEqual(saved, Saved(with_unit))
            self.assertEqual(self.save(loaded.reading, loaded.n, loaded.words, size, loaded.e), (0, 0, 0))

    def test_moved_unit(self) -> None:
        """e + k at both ends of its range and past them, from every third e."""
        for e in range(-512, 513, 3):
            for k, expected in [(-512 - e, 0), (512 - e, 0), (-513 - e, 17), (513 - e, 17)]:
                if abs(k) <= 512:
                    reading, n = self.rng.choice(READINGS), self.rng.choice([1, 2, 3])
                    sheet = in_reading(reading, [1.0 if p % (n + 1) == 0 else -1.5 for p in range(n * n)])
                    self.assertEqual(self.move(reading, n, sheet, k, len(sheet) + 1, e), (expected, 0, 0))

    def test_order_of_moving(self) -> None:
        """8 before 15, 15 before 17, 17 before 16."""
        tiny = 2.0 ** -1074
        for reading in READINGS:
            for sheet, e, k, expected in [
                    ([1.0, -tiny, 0.0, 1.0], 512, 1, (8, 1, 2)), ([1.0, 0.0, 0.0, LARGEST], 512, 513, (15, 0, 0)),
                    ([1.0, -SMALLEST, 0.0, 1.0], -512, -513, (15, 0, 0)),
                    ([1.0, 0.0, 0.0, 1.0], -512, 600, (15, 0, 0)), ([1.0, 0.0, 0.0, 1.0], -512, -2 ** 63, (15, 0, 0)),
                    ([1.0, 0.0, 0.0, 1.0], 512, 2 ** 63 - 1, (15, 0, 0)),
                    ([1.0, 0.0, 0.0, LARGEST], 512, 1, (17, 0, 0)), ([1.0, -SMALLEST, 0.0, 1.0], -512, -1, (17, 0, 0)),
                    ([1.0, 0.0, 0.0, LARGEST], 511, 1, (16, 0, 0)), ([1.0, -SMALLEST, 0.0, 1.0], -511, -1, (16, 0, 0))]:
                self.assertEqual(self.move(reading, 2, in_reading(reading, sheet), k, 6, e), expected)


class WeightTest(HostTest):
    """Sheets with weights."""

    def every_call(self, n: int, sheet: Sequence[float]) -> Told:
        """The table of a sheet with weights, every entry and prices, which are answered alike; the column is 1."""
        answer = self.sheet(WEIGHTS, n, sheet)
        self.assertEqual(self.prices(WEIGHTS, n, sheet, [0.0] * n), answer)
        self.assertEqual(self.column(WEIGHTS, n, sheet, n), (1, 0, 0))
        for i, j in itertools.product(range(1, n + 1), repeat=2) if n < 5 else ():
            self.assertEqual(self.entry(WEIGHTS, n, sheet, i, j), answer)
        self.report(file_of(Sheet(WEIGHTS, n, list(sheet))))
        return answer

    def test_documents(self) -> None:
        """W, whose table and prices are found by hand, with their allowances; a product with a weight of 1 is a
        step."""
        self.assertEqual(self.every_call(2, W_SHEET), (0, 0, 0))
        self.assertEqual(self.table(WEIGHTS, 2, W_SHEET), (0, 0, 0))
        self.assertEqual(self.calls.left, (*(bits_of(x) for x in W_TABLE), 48))
        self.assertEqual(self.prices(WEIGHTS, 2, W_SHEET, [1.0, 2.0]), (0, 0, 0))
        self.assertEqual(self.calls.left, (bits_of(0.8125), bits_of(2.25), 50))
        self.assertEqual(self.table(WEIGHTS, 1, [2.0, 0.5]), (0, 0, 0))
        self.assertEqual(self.calls.left, (bits_of(0.25), 6))
        small = [1.0, -SMALLEST, 0.0, 2.0 ** -10]
        self.assertEqual(self.table(1, 2, small), (0, 0, 0))
        self.assertEqual(self.every_call(2, small + [1.0, 1.0]), (10, 0, 0))

    def test_bad_weights(self) -> None:
        """A weight spoilt in any place is told at row n + 1, in every call that looks at numbers."""
        for n in (1, 2, 5, 32):
            sheet = reference.random_sheet(self.rng, WEIGHTS, n, reference.random_style(self.rng, 3))
            for j in range(1, n + 1):
                for bad, number in [(NAN, 6), (INF, 6), (-INF, 6), (0.0, 7), (-0.0, 7), (-1.0, 7), (2.0 ** -1074, 8),
                                    (number_of(bits_of(SMALLEST) - 1), 8), (number_of(0x7ff0000000000001), 6)]:
                    spoilt = list(sheet)
                    spoilt[n * n + j - 1] = bad
                    self.assertEqual(self.table(WEIGHTS, n, spoilt), (number, n + 1, j))
                    self.assertEqual(self.move(WEIGHTS, n, spoilt, 1), (number, n + 1, j))
                self.assertEqual(self.every_call(n, spoilt), (number, n + 1, j))

    def test_order(self) -> None:
        """Each of 6 to 8 is asked of the weights too before the next; of two bad weights the first is told."""
        tiny = 2.0 ** -1074
        for sheet, expected in [
                ([0.0, NAN], (6, 2, 1)), ([2.0, 0.0], (7, 2, 1)), ([0.0, 0.0], (7, 1, 1)),
                ([1.0, 1.0, 0.0, 1.0, 0.0, INF], (6, 3, 2)), ([1.0, -tiny, 0.0, 1.0, 1.0, 0.0], (7, 3, 2)),
                ([1.0, -1.0, 0.0, tiny, tiny, 1.0], (8, 2, 2)), ([1.0, -1.0, 0.0, 1.0, tiny, -1.0], (7, 3, 2)),
                ([1.0, -LARGEST, 0.0, 2.0 ** 1022, tiny, tiny], (8, 3, 1)),
                ([1.0, 0.0, 0.0, 0.0, 1.0, 1.0], (7, 2, 2))]:
            n = 1 if len(sheet) == 2 else 2
            self.assertEqual(self.every_call(n, sheet), expected)
            self.assertEqual(self.move(WEIGHTS, n, sheet, 600), expected)

    def test_lengths(self) -> None:
        """A sheet without its weights, or with some of them; a table needs no room for them, a moved sheet does."""
        for n in (1, 2, 5, 32):
            sheet = reference.random_sheet(self.rng, WEIGHTS, n, reference.random_style(self.rng, 3))
            for wrong in (sheet[:n * n], sheet[:-1], sheet + [1.0]):
                self.assertEqual(self.sheet(WEIGHTS, n, wrong), (3, 0, 0))
                self.assertEqual(self.prices(WEIGHTS, n, wrong, [0.0] * n), (3, 0, 0))
                self.assertEqual(self.move(WEIGHTS, n, wrong, 1), (3, 0, 0))
            for reading in (1, 2):
                self.assertEqual(self.table(reading, n, sheet), (3, 0, 0))
            self.assertEqual(self.table(WEIGHTS, n, sheet, n * n), (0, 0, 0))
            self.assertEqual(self.table(WEIGHTS, n, sheet, n * n - 1), (4, 0, 0))
            for room in (n * n, n * n + n - 1):
                self.assertEqual(self.move(WEIGHTS, n, sheet, 1, room), (4, 0, 0))

    def test_steps_out_of_range(self) -> None:
        """Each step that weights add, beside a sheet in which it is in range."""
        tiny, huge = 2.0 ** -600, 2.0 ** 600
        for within, past in [
                ([1.0, -2 * SMALLEST, 0.0, 2.0 ** -10, 1.0, 1.0], [1.0, -SMALLEST, 0.0, 2.0 ** -10, 1.0, 1.0]),
                ([1.0, -1.0, 0.0, huge, 1.0, huge], [1.0, -huge, 0.0, huge, 1.0, huge]),
                ([LARGEST / 2, -LARGEST / 4, 0.0, 1.0, huge, 1.0], [LARGEST, -LARGEST, 0.0, 1.0, huge, 1.0]),
                ([2.0 ** -511, 2.0 ** 510], [2.0 ** -511, 2.0 ** 511]), ([huge, 1.0], [huge, tiny]),
                ([2.0 ** 1021, 1.0], [2.0 ** 1021, 0.5])]:
            n = 1 if len(within) == 2 else 2
            self.assertEqual(self.every_call(n, within), (0, 0, 0), within)
            self.assertEqual(self.every_call(n, past), (10, 0, 0), past)

    def test_edge_of_the_range(self) -> None:
        """Pairs of sheets that differ by one last place of a weight, of which one is accepted and the other is 10."""
        found = 0
        for n in [1, 2, 3, 4] * 20:
            sheet = reference.random_sheet(self.rng, WEIGHTS, n, reference.random_style(self.rng))
            pair = reference.edge_pair(self.rng, WEIGHTS, n, sheet)
            if pair is not None and pair[0][:n * n] == pair[1][:n * n]:
                found += 1
                self.assertEqual([self.every_call(n, numbers) for numbers in pair], [(0, 0, 0), (10, 0, 0)])
        self.assertGreater(found, 10)

    def test_moved_weights(self) -> None:
        """Weights keep their bits whatever k is, at both ends of their range too."""
        for k in (-512, -1, 0, 10, 512):
            for weights in ([1.0, 2.0], [LARGEST, SMALLEST], [0.1, 2.0 ** 1023]):
                self.assertEqual(self.move(WEIGHTS, 2, [2.0, -1.0, -0.0, 1.5, *weights], k, 9, 0), (0, 0, 0))
                self.assertEqual(self.calls.left[4:6], tuple(bits_of(x) for x in weights))

    def test_files(self) -> None:
        """A file with weights is saved as its bytes, with either head; NaN patterns among the weights are kept as
        words."""
        for n in (1, 2, 7, 32):
            words = [self.rng.choice([self.rng.getrandbits(64), 0x7ff0000000000001]) for _ in range(n * n + n)]
            data = reference.make_file_words(WEIGHTS, n, -10, words)
            self.assertEqual(self.file(data, n * n + n), (0, 0, 0))
            self.assertEqual(self.file(reference.make_short_file_words(WEIGHTS, n, words), n * n + n), (0, 0, 0))
            self.assertEqual(self.save(WEIGHTS, n, words, len(data), -10), (0, 0, 0))
            self.assertEqual(reference.save(WEIGHTS, n, -10, words, len(data)), Saved(data))


class ReportTest(HostTest):
    """The text that dwell prints."""

    def test_texts(self) -> None:
        """Good and bad files, in areas of the least length and longer."""
        words = set()
        for data in good_files(self.rng) + bad_files():
            words.add(self.report(data).split()[0])
            self.report(data, TEXT_BYTES + 77)
        self.assertEqual(words, {b"seconds", b"refused"})

    def test_as_dwell(self) -> None:
        """On the bytes that dwell judges the text is dwell's, also of a longer file."""
        for data in good_files(self.rng)[:8] + bad_files():
            judged = data[:reference.LONGEST_FILE + 1]
            self.assertEqual(self.report(judged), reference.dwell(data).encode())

    def test_short_areas(self) -> None:
        """An area that is too short is left alone."""
        data = file_of(SHEETS[0])
        for room in (0, 1, 100, TEXT_BYTES - 1):
            self.assertEqual(self.report(data, room), b"")
            self.assertEqual(self.report(b"", room), b"")


class ThreadTest(HostTest):
    """Calls in several threads at the same time."""

    def test_threads(self) -> None:
        """Each thread gets the answers of its own sheets, several times over."""
        sheets = random_sheets(self.rng, [4, 9, 16], 30)
        failures: list[Exception] = []

        def work(mine: Sheet) -> None:
            try:
                for _ in range(8):
                    self.table(*mine)
                    self.column(*mine, mine.n)
                    self.file(file_of(mine))
                    self.move(*mine, -10)
            except Exception as failure:
                failures.append(failure)

        threads = [threading.Thread(target=work, args=(sheet,)) for sheet in sheets]
        for thread in threads:
            thread.start()
        for thread in threads:
            thread.join()
        self.assertEqual(failures, [])


class LinkTest(HostTest):
    """The header, the archive's symbols and the example."""

    def build(self, source: str, compiler: Sequence[str], *words: str) -> str:
        """Compiles a source and links it with the archive, warnings being errors."""
        program = str(Path(Built.folder.name) / f"{Path(source).stem}-{len(os.listdir(Built.folder.name))}")
        must(*compiler, *words, *STRICT, source, str(ARCHIVE), "-o", program)
        return program

    def test_symbols(self) -> None:
        """The archive defines what the header declares, keeps no data, and needs two functions of C's."""
        symbols = re.findall(r"^[0-9a-f ]{16} (\w) (\S+)$", run("nm", str(ARCHIVE)).stdout.decode(), re.MULTILINE)
        self.assertEqual({name for kind, name in symbols if kind == "T"}, set(declared()))
        self.assertLessEqual({name for kind, name in symbols if kind == "U"}, {"memcpy", "memset"})
        self.assertEqual({kind for kind, _ in symbols} & set("BDCbd"), set())

    def test_constants(self) -> None:
        """The header's sizes are the documents'."""
        constants = dict(re.findall(r"#define YULANBOWLS_(\w+) \(?(-?\d+)\)?$", HEADER.read_text(), re.MULTILINE))
        self.assertEqual({name: int(value) for name, value in constants.items()},
                         {"STAGES": reference.LIMIT, "NUMBERS": reference.LIMIT ** 2, "SHEET_NUMBERS": PLACES,
                          "UNIT_LEAST": -reference.FURTHEST_POWER, "UNIT_MOST": reference.FURTHEST_POWER,
                          "FILE_BYTES": reference.LONGEST_FILE, "TEXT_BYTES": TEXT_BYTES})

    def test_refusals(self) -> None:
        """The header lists every number that a call can be refused with, and says of each call which; fuzz.py looks
        for just these.  Of the report, which returns a length, it says nothing."""
        text = re.sub(r"^ \* *", "", HEADER.read_text(), flags=re.MULTILINE)
        listed = [int(number) for number in re.findall(r"^(\d+)  [a-z]", text, re.MULTILINE)]
        self.assertEqual(listed, list(range(1, len(listed) + 1)))
        self.assertEqual(set(listed), set().union(*(refusals for _, refusals in EXPORTS.values())))
        said = re.search(r"^yulanbowls_table can return [^.]*", text, re.MULTILINE)[0].replace("\n", " ")
        calls = re.findall(r"(yulanbowls_\w+|the two \w+)[a-z ]* (\d+(?:(?: to | and |, )\d+)*)", said)
        both = {"the two readers": "yulanbowls_read_", "the two writers": "yulanbowls_save_"}
        returned = {name: {number for first, last in re.findall(r"(\d+)(?: to (\d+))?", numbers)
                           for number in range(int(first), int(last or first) + 1)}
                    for who, numbers in calls for name in declared() if name.startswith(both.get(who, who))}
        self.assertEqual(returned, {name: refusals for name, (_, refusals) in EXPORTS.items()
                                    if name != "yulanbowls_report"})

    def test_cxx(self) -> None:
        """The header serves C++ too."""
        compiler = shutil.which("c++")
        if compiler is None:
            self.skipTest("no C++ compiler")
        source = Path(Built.folder.name) / "twice.cc"
        source.write_text('#include "yulanbowls.h"\n#include "yulanbowls.h"\nint main() {\n'
                          "  unsigned char bytes[2] = {0, 0};\n"
                          "  return static_cast<int>(yulanbowls_report(bytes, 1, bytes + 1, 1));\n}\n")
        self.assertEqual(run(self.build(str(source), [compiler])).returncode, 0)

    def printed(self, data: bytes) -> tuple[int, str]:
        """What the example prints for a file, by the reference, and its exit status."""
        judged = data[:reference.LONGEST_FILE + 1]
        loaded = reference.load(judged, PLACES)
        if isinstance(loaded, Refused):
            return 1, reference.refused_line(loaded)
        n, numbers = loaded.n, loaded.numbers
        answer = reference.table(loaded.reading, n, loaded.e, numbers, PLACES)
        if isinstance(answer, Refused):
            return 1, reference.refused_line(answer)
        rows = [" ".join(f"{x:.17g}" for x in answer.entries[i * n:(i + 1) * n]) for i in range(n)]
        last = reference.entry(loaded.reading, n, loaded.e, numbers, 1, n)
        column = " ".join(f"{x:.17g}" for x in answer.entries[n - 1::n])
        whole = reference.request_prices(loaded.reading, n, loaded.e, numbers, [1.0] * n, n)
        text = "".join(f"{line}\n" for line in [
            f"times in units of 2^{loaded.e} seconds", *rows,
            f"each within a factor (1 + 2^-53)^{answer.allowance} of the exact number",
            f"stage 1 to stage {n}: {last.value:.17g}",
            *([f"at stage {n} from each stage: {column}"] if loaded.reading == 1 else [])])
        if isinstance(whole, Refused):
            return 1, text + reference.refused_line(whole)
        return 0, text + "at all stages from each stage: " + " ".join(f"{x:.17g}" for x in whole.entries) + "\n"

    def test_example(self) -> None:
        """examples/host.c compiles as C99 without a warning, and prints tables and refusals."""
        host = self.build(str(ROOT / "examples" / "host.c"), CC, "-std=c99")
        sheet = Path(Built.folder.name) / "line.sheet"
        for data in good_files(self.rng) + bad_files():
            status, text = self.printed(data)
            sheet.write_bytes(data)
            for done in (run(host, str(sheet)), run(host, stdin=data)):
                self.assertEqual((done.returncode, done.stdout.decode()), (status, text))

    def test_example_saves(self) -> None:
        """The example saves what it loaded, whether or not a table can be made of it."""
        host = self.build(str(ROOT / "examples" / "host.c"), CC, "-std=c99")
        sheet, copy = Path(Built.folder.name) / "line.sheet", Path(Built.folder.name) / "copy.sheet"
        for data in good_files(self.rng):
            status, text = self.printed(data)
            sheet.write_bytes(data)
            copy.unlink(missing_ok=True)
            done = run(host, str(sheet), str(copy))
            self.assertEqual((done.returncode, done.stdout.decode()), (status, text))
            loaded = reference.load(data, PLACES)
            saved = reference.save_numbers(loaded.reading, loaded.n, loaded.e, loaded.numbers, reference.LONGEST_FILE)
            self.assertEqual(Saved(copy.read_bytes()), saved)

    def test_example_moves(self) -> None:
        """With a K the example saves the sheet moved by 2^K, in its new unit; a sheet that is not moved is not saved
        either."""
        host = self.build(str(ROOT / "examples" / "host.c"), CC, "-std=c99")
        sheet, copy = Path(Built.folder.name) / "line.sheet", Path(Built.folder.name) / "copy.sheet"
        powers = [-10, 512, 0, -512, 513, -2 ** 63, 3, 2 ** 63 - 1]
        answers = set()
        for at, data in enumerate(good_files(self.rng)):
            loaded, k = reference.load(data, PLACES), powers[at % len(powers)]
            moved = reference.move(loaded.reading, loaded.n, loaded.e, loaded.numbers, k, PLACES)
            sheet.write_bytes(data)
            copy.unlink(missing_ok=True)
            done = run(host, str(sheet), str(copy), str(k))
            if isinstance(moved, Moved):
                self.assertEqual((done.returncode, done.stdout.decode()), self.printed(data))
                self.assertEqual(copy.read_bytes(),
                                 reference.make_file(loaded.reading, loaded.n, moved.e, moved.numbers))
                answers.add(0)
            else:
                self.assertEqual((done.returncode, done.stdout.decode()), (1, reference.refused_line(moved)))
                self.assertFalse(copy.exists())
                answers.add(moved.number)
        self.assertGreaterEqual(answers, {0, 6, 7, 15, 16, 17})

    def test_example_misused(self) -> None:
        """The example tells a file that is not there, too many words, and a K that is no whole number of 64 bits."""
        host = self.build(str(ROOT / "examples" / "host.c"), CC, "-std=c99")
        self.assertEqual(run(host, "no/such/file").returncode, 2)
        sheet = Path(Built.folder.name) / "line.sheet"
        sheet.write_bytes(file_of(SHEETS[0]))
        copy = Path(Built.folder.name) / "never.sheet"
        usage = b"usage: host [FILE [COPY [K]]]\n"
        for words in (["1", "d"], [""], ["x"], ["1.5"], ["7x"], ["-"], [str(2 ** 63)], [str(-2 ** 63 - 1)]):
            done = run(host, str(sheet), str(copy), *words)
            self.assertEqual((done.returncode, done.stdout), (2, usage), words)
        self.assertFalse(copy.exists())
        for words in ([], ["-10"]):
            self.assertEqual(run(host, str(sheet), "no/such/folder/copy", *words).returncode, 2)


def main() -> int:
    """Runs all tests; the exit status."""
    suite = unittest.defaultTestLoader.loadTestsFromModule(sys.modules[__name__])
    result = unittest.TextTestRunner(stream=sys.stdout).run(suite)
    if result.wasSuccessful():
        print(f"hosts: all {result.testsRun} tests passed ({shlex.join(CC)})")
    else:
        print(f"hosts: FAILED, {len(result.failures) + len(result.errors)} of {result.testsRun} tests")
    return 0 if result.wasSuccessful() else 1


if __name__ == "__main__":
    sys.exit(main())
