#!/usr/bin/env python3
"""Sheet files for planners: made from text, shown as text, and dwell's output laid out as a table or, with unit
prices, as a price list.

`sheet.py make --help` describes the text forms and `sheet.py prices --help` those of unit prices; documents 01 and 02
describe the sheet file, the steps of prices and the refusals.
Stages are numbered from 0 in the code and from 1 in files and messages.
"""
from __future__ import annotations

import argparse
import csv
import math
import os
import re
import struct
import sys
from dataclasses import dataclass, field
from decimal import ROUND_UP, Context, Decimal
from typing import Iterable, Iterator, NamedTuple, Sequence

LIMIT = 32                 # the most stages of a sheet
LONGEST_TEXT = 1 << 20     # the most bytes read of a text, of unit prices or of dwell's output
SMALLEST = 2.0 ** -1022    # the smallest size of a number that is not zero
LEAVING_RATES, MARGINS, WEIGHTS = 1, 2, 3
READINGS = {"leaving-rates": LEAVING_RATES, "margins": MARGINS, "weights": WEIGHTS}
# The words for the parameters of a stage, that on the diagonal first, and what each of them is called
PARAMETER_WORDS = {LEAVING_RATES: ("leaves",), MARGINS: ("margin",), WEIGHTS: ("sum", "weight")}
PARAMETER_NAMES = {"leaves": "leaving rate", "margin": "margin", "sum": "weighted row sum", "weight": "weight"}
LAST_WORDS = {words[-1]: reading for reading, words in PARAMETER_WORDS.items()}     # at the end of a header row
RATES_ARE_TYPED = "rates are typed as positive numbers"
IN_SECONDS, IN_TICKS = 0, -10   # the e of units that have a name; any unit is 2^e seconds
UNITS = {"seconds": IN_SECONDS, "ticks": IN_TICKS}
FURTHEST_UNIT = 512             # e is from -512 to 512
UNIT_WORD = "unit"
FIRST_WORDS = ("reading", "stage", "stages", UNIT_WORD)
PRICE_WORD = "price"
SEPARATORS = ("\t", ";", ",")   # between the cells of a row


class Problem(Exception):
    """Ends the command with this one-line message and exit status 1."""


# ==== Numbers ====

DECIMAL = re.compile(r"[+-]?([0-9]+\.?[0-9]*|\.[0-9]+)([eE][+-]?[0-9]+)?")
HEXADECIMAL = re.compile(r"[+-]?0[xX]([0-9a-fA-F]+\.?[0-9a-fA-F]*|\.[0-9a-fA-F]+)([pP][+-]?[0-9]+)?")


def read_number(text: str) -> float:
    """The binary64 number nearest to a decimal or hexadecimal text; ValueError says what is wrong."""
    decimal, hexadecimal = DECIMAL.fullmatch(text), HEXADECIMAL.fullmatch(text)
    if decimal:
        number, digits = float(text), decimal[1]
    elif hexadecimal:
        number, digits = hexadecimal_number(text), hexadecimal[1]
    else:
        raise ValueError(f"{text!r} is not a number (write it like 0.25, 1e-6 or 0x1p-20)")
    if math.isinf(number):
        raise ValueError(f"{text!r} is too large (a number stays below 2^1024, about 1.8e308)")
    if abs(number) < SMALLEST and digits.strip("0."):
        raise ValueError(f"{text!r} is too small (a number is zero or at least 2^-1022, about 2.2e-308)")
    return number


def is_number(text: str) -> bool:
    """Whether a text is a decimal or hexadecimal number, of any size."""
    return any(form.fullmatch(text) for form in (DECIMAL, HEXADECIMAL))


def hexadecimal_number(text: str) -> float:
    """The number nearest to a hexadecimal text, infinite where it is too large."""
    try:
        return float.fromhex(text)
    except OverflowError:
        return math.inf


def shortest(number: float) -> str:
    """The shortest decimal that reads back as this number."""
    return repr(number).removesuffix(".0")


def exact(number: float) -> str:
    """The number as a C99 hexadecimal float, as printf's %a writes it."""
    return re.sub(r"\.?0*p", "p", number.hex()) if math.isfinite(number) else repr(number)


def written(numbers: Iterable[float], hexadecimal: bool) -> list[str]:
    """Each number as a shortest decimal, or as a hexadecimal float."""
    return [exact(number) if hexadecimal else shortest(number) for number in numbers]


def word_of(number: float) -> int:
    """The 64 bits of a number."""
    return struct.unpack("<Q", struct.pack("<d", number))[0]


def number_of(word: int) -> float:
    """The number with these 64 bits."""
    return struct.unpack("<d", struct.pack("<Q", word))[0]


# ==== Units ====

def read_unit(words: Sequence[str]) -> int:
    """The e of the unit that these words say; ValueError says what is wrong."""
    if len(words) == 1 and words[0] in UNITS:
        return UNITS[words[0]]
    power = re.fullmatch(r"2\^([+-]?[0-9]{1,3}) seconds", " ".join(words))
    if power is None or abs(int(power[1])) > FURTHEST_UNIT:
        raise ValueError(f"the unit is 'seconds', 'ticks' or '2^E seconds' with E from -{FURTHEST_UNIT} to "
                         f"{FURTHEST_UNIT}")
    return int(power[1])


def unit_words(e: int) -> str:
    """The words for a unit, which read_unit reads."""
    return next((words for words, of_words in UNITS.items() if of_words == e), f"2^{e} seconds")


def unit_heading(e: int) -> str:
    """What a table counts."""
    return {IN_SECONDS: "Seconds", IN_TICKS: "Ticks of 1/1,024 second"}.get(e, f"Units of 2^{e} seconds")


def one_unit(e: int) -> str:
    """What a unit price is paid for."""
    return {IN_SECONDS: "second", IN_TICKS: "tick of 1/1,024 second"}.get(e, f"2^{e} seconds")


# ==== What a text says ====

class Given(NamedTuple):
    """A number and the line that gives it."""
    number: float
    line: int


@dataclass
class Draft:
    """What a text has said so far, with the lines that said it."""
    source: str
    reading: int = 0                                    # 0 until it is said
    e: int = IN_SECONDS
    unit_line: int = 0                                  # where the unit is said, 0 where it is not
    names: list[str] = field(default_factory=list)
    lines: list[int] = field(default_factory=list)      # where each stage is named, or has its row
    rates: dict[tuple[int, int], Given] = field(default_factory=dict)
    parameters: dict[tuple[int, str], Given] = field(default_factory=dict)      # by stage and word

    def problem(self, line: int, message: str) -> Problem:
        """A problem with its place."""
        return problem_at(self.source, line, message)

    def take_unit(self, words: Sequence[str], line: int, hint: str = "") -> None:
        """Takes the unit; a hint stands behind what is wrong."""
        if self.unit_line:
            raise self.problem(line, f"the unit is given twice (first on line {self.unit_line}){hint}")
        try:
            self.e = read_unit(words)
        except ValueError as error:
            raise self.problem(line, f"{error}{hint}") from None
        self.unit_line = line

    def add_stage(self, name: str, line: int) -> None:
        """Takes one more stage."""
        check_name(self.source, line, name)
        if name in self.names:
            first = self.lines[self.names.index(name)]
            raise self.problem(line, f"stage {name!r} is named twice (first on line {first})")
        if len(self.names) == LIMIT:
            raise self.problem(line, f"stage {name!r} is one too many: a sheet has at most {LIMIT} stages")
        self.names.append(name)
        self.lines.append(line)

    def stage(self, name: str, line: int) -> int:
        """The number of a stage that was named before."""
        return stage_at(self.source, line, self.names, name)

    def add_rate(self, i: int, j: int, text: str, line: int) -> None:
        """Takes the rate from stage i to stage j."""
        where = f"from {self.names[i]!r} to {self.names[j]!r}"
        if i == j:
            raise self.problem(line, f"stage {self.names[i]!r} has a rate to itself")
        if (i, j) in self.rates:
            first = self.rates[i, j].line
            raise self.problem(line, f"the rate {where} is given twice (first on line {first})")
        self.rates[i, j] = Given(size_at(self.source, line, text, RATES_ARE_TYPED), line)

    def add_parameter(self, i: int, word: str, text: str, line: int) -> None:
        """Takes a parameter of stage i, by its word; all but leaving rates have to be positive."""
        what = f"the {PARAMETER_NAMES[word]} of {self.names[i]!r}"
        if (i, word) in self.parameters:
            first = self.parameters[i, word].line
            raise self.problem(line, f"{what} is given twice (first on line {first})")
        rule = RATES_ARE_TYPED if self.reading == LEAVING_RATES else f"{PARAMETER_NAMES[word]}s are positive"
        number = size_at(self.source, line, text, rule)
        if self.reading != LEAVING_RATES and number == 0.0:
            raise self.problem(line, f"{what} is zero ({rule})")
        self.parameters[i, word] = Given(number, line)

    def parameter(self, i: int, word: str) -> float:
        """A parameter of stage i: a missing leaving rate is zero, another missing one is a problem."""
        if (i, word) in self.parameters:
            return self.parameters[i, word].number
        if self.reading != LEAVING_RATES:
            raise self.problem(self.lines[i], f"stage {self.names[i]!r} has no {PARAMETER_NAMES[word]}")
        return 0.0


def problem_at(source: str, line: int, message: str) -> Problem:
    """A problem with its place."""
    return Problem(f"{source}:{line}: {message}")


def stage_at(source: str, line: int, names: Sequence[str], name: str, hint: str = "") -> int:
    """The number of the stage that a line names; a hint stands behind a name that no stage has."""
    if name not in names:
        raise problem_at(source, line, f"unknown stage {name!r}{hint}")
    return names.index(name)


def size_at(source: str, line: int, text: str, rule: str) -> float:
    """A typed number that is zero or positive; the rule stands behind one that is negative."""
    try:
        number = read_number(text)
    except ValueError as error:
        raise problem_at(source, line, str(error)) from None
    if number < 0.0:
        raise problem_at(source, line, f"{text!r} is negative ({rule})")
    return abs(number)


def check_name(source: str, line: int, name: str) -> None:
    """A name is not empty, can be printed and holds no double quote."""
    if not name:
        raise problem_at(source, line, "a stage has an empty name")
    if not name.isprintable() or '"' in name:
        raise problem_at(source, line, f"the name {name!r} holds a double quote or a character that is not printable")


def read_text(source: str, lines: Sequence[str]) -> Draft:
    """The draft of a text in either form."""
    for at, line in enumerate(lines, 1):
        if is_skipped(line):
            continue
        first = line.split()[0]
        if first == "reading":
            return read_lines(source, lines)
        if separator_of(line, LAST_WORDS) is None or (first in FIRST_WORDS and "\t" not in line):
            raise problem_at(source, at, "a text begins with 'reading leaving-rates', 'reading margins', 'reading "
                                         "weights' or a header row of stage names, which a row with the unit may "
                                         "precede")
        return read_matrix(source, lines)
    raise problem_at(source, len(lines), "the text is empty")


def is_skipped(line: str) -> bool:
    """Whether a line is blank, a row of empty cells or a comment (a spreadsheet may quote that)."""
    return re.fullmatch(r'[\s,;]*|\s*"?\s*#.*', line) is not None


def decode(source: str, data: bytes) -> str:
    """The text of UTF-8 bytes, with or without a byte order mark."""
    try:
        return data.decode("utf-8-sig")
    except UnicodeDecodeError as error:
        raise problem_at(source, data[:error.start].count(b"\n") + 1, "this is not UTF-8 text") from None


def lines_of(source: str, data: bytes) -> list[str]:
    """The lines of a text, whatever ends them."""
    return decode(source, data).replace("\r\n", "\n").replace("\r", "\n").split("\n")


# ==== The form with a line for each rate ====

BARE_WORD = r'(?:(?!->)[^\s",;#])+'
TOKEN = re.compile(rf'\s*("[^"]*"|->|[,;]|{BARE_WORD}|#.*|$)')


def split_line(source: str, at: int, line: str) -> list[str]:
    """The words of a line without its comment; quoted names keep their quotes."""
    words: list[str] = []
    place = 0
    while place < len(line):
        token = TOKEN.match(line, place)
        if token is None:
            raise problem_at(source, at, "a double quote is not closed")
        if token[1] and not token[1].startswith("#"):
            words.append(token[1])
        place = token.end()
    return words


def read_lines(source: str, lines: Sequence[str]) -> Draft:
    """The draft of a text in lines: the reading first, then the unit, stages, rates and parameters."""
    draft: Draft | None = None
    for at, line in enumerate(lines, 1):
        words = split_line(source, at, line)
        if words and draft is None:
            draft = Draft(source, take_reading(source, at, words))
        elif words and draft is not None:
            take_line(draft, at, line, words)
    if draft is None or not draft.names:
        raise problem_at(source, len(lines), "no stage is named")
    return draft


def take_reading(source: str, at: int, words: Sequence[str]) -> int:
    """The reading that the first line names."""
    if len(words) != 2 or words[1] not in READINGS:
        raise problem_at(source, at, "the reading is 'leaving-rates', 'margins' or 'weights'")
    return READINGS[words[1]]


STAGE_OF_THIS_NAME = " (a stage of this name stands in quotes)"


def take_line(draft: Draft, at: int, line: str, words: Sequence[str]) -> None:
    """Takes one line after the reading."""
    if len(words) == 4 and words[1] == "->":
        i, j = (draft.stage(bare(word), at) for word in (words[0], words[2]))
        draft.add_rate(i, j, words[3], at)
    elif words[0] == "reading":
        raise draft.problem(at, f"the reading is given twice{STAGE_OF_THIS_NAME}")
    elif words[0] == UNIT_WORD:
        draft.take_unit(words[1:], at, STAGE_OF_THIS_NAME)
    elif words[0] in ("stage", "stages"):
        take_stages(draft, at, words)
    elif len(words) == 3 and words[1] in PARAMETER_NAMES:
        take_parameter(draft, at, words)
    else:
        raise draft.problem(at, wrong_shape(draft.reading, line, words))


def take_stages(draft: Draft, at: int, words: Sequence[str]) -> None:
    """Takes the names of a 'stage' or 'stages' line."""
    names = [bare(word) for word in words[1:] if word not in (",", ";")]
    if not names or "->" in words or (words[0] == "stage" and len(names) > 1):
        raise draft.problem(at, "write 'stage NAME' or 'stages NAME NAME ...' (quote a name with spaces)")
    for name in names:
        draft.add_stage(name, at)


def take_parameter(draft: Draft, at: int, words: Sequence[str]) -> None:
    """Takes a line with a parameter, such as 'NAME leaves NUMBER'."""
    i = draft.stage(bare(words[0]), at)
    if words[1] not in PARAMETER_WORDS[draft.reading]:
        has = PARAMETER_NAMES[PARAMETER_WORDS[draft.reading][-1]]
        raise draft.problem(at, f"this text has {has}s, not {PARAMETER_NAMES[words[1]]}s")
    draft.add_parameter(i, words[1], words[2], at)


def bare(word: str) -> str:
    """A name without its quotes."""
    return word[1:-1].strip() if word.startswith('"') else word


def wrong_shape(reading: int, line: str, words: Sequence[str]) -> str:
    """What to say of a line that has none of the shapes."""
    has_cells = "," in words or ";" in words or "\t" in line.split("#")[0]
    if has_cells and "->" not in words and not any(word in words for word in PARAMETER_NAMES):
        return "a row of a matrix stands among lines (a text keeps to one form)"
    shapes = ["'FROM -> TO RATE'", *(f"'NAME {word} NUMBER'" for word in PARAMETER_WORDS[reading])]
    return f"write {', '.join(shapes[:-1])} or {shapes[-1]} (quote a name with spaces; numbers have a decimal point)"


# ==== The form of a matrix, as a spreadsheet exports it ====

def separator_before(line: str, last_words: Iterable[str]) -> str | None:
    """What stands before the last cell of a row, where that is one of these words."""
    last = re.search(rf'([\t;,])[ "]*({"|".join(last_words)})[ "]*[\s;,]*$', line, re.IGNORECASE)
    return last[1] if last else None


def separator_of(line: str, last_words: Iterable[str]) -> str | None:
    """What stands between the cells of a header row: what stands before its last cell, one of these words."""
    any_other = next((separator for separator in SEPARATORS if separator in line), None)
    return separator_before(line, last_words) or any_other


def cells_of(source: str, at: int, line: str, separator: str) -> list[str]:
    """The cells of a row without the empty ones at its end."""
    try:
        row = next(csv.reader([line], delimiter=separator, skipinitialspace=True, strict=True), [])
    except csv.Error:
        raise problem_at(source, at, "a double quote is not closed or stands inside a cell") from None
    cells = [cell.strip() for cell in row]
    while cells and not cells[-1]:
        cells.pop()
    return cells


def rows_of(source: str, lines: Sequence[str], last_words: Iterable[str]) -> Iterator[tuple[int, list[str]]]:
    """The rows that are neither blank nor comments, with their lines; the first, which may be a header row that ends
    with one of these words, decides the separator."""
    separator: str | None = None
    for at, line in enumerate(lines, 1):
        if is_skipped(line):
            continue
        separator = separator or separator_of(line, last_words) or ","
        cells = cells_of(source, at, line, separator)
        if cells:
            yield at, cells


def read_matrix(source: str, lines: Sequence[str]) -> Draft:
    """The draft of a matrix: a row with the unit if there is one, a header row with the names, then a row for each
    stage."""
    draft = Draft(source)
    header = 0
    seen: set[int] = set()
    for at, cells in rows_of(source, lines, LAST_WORDS):
        if header:
            take_row(draft, at, cells, seen)
        elif is_unit_row(cells):
            draft.take_unit(" ".join(cells[1:]).lower().split(), at)
        else:
            take_header(draft, at, cells)
            header = at
    if not header:
        raise problem_at(source, len(lines), "no header row of stage names follows the unit" if draft.unit_line
                         else "the text is empty")
    for i, name in enumerate(draft.names):
        if i not in seen:
            raise problem_at(source, header, f"stage {name!r} has no row")
    return draft


def is_unit_row(cells: Sequence[str]) -> bool:
    """Whether a row before the stages says the unit; a header row may have any first cell."""
    return cells[0].lower() == UNIT_WORD and cells[-1].lower() not in LAST_WORDS


def take_header(draft: Draft, at: int, cells: Sequence[str]) -> None:
    """Takes a header row: any first cell, the names, and the words for the parameters of a stage."""
    reading = LAST_WORDS.get(cells[-1].lower(), 0)
    words = PARAMETER_WORDS.get(reading, ())
    names = cells[1:len(cells) - len(words)]
    if not words or not names or tuple(cell.lower() for cell in cells[-len(words):]) != words:
        raise draft.problem(at, "a header row has a first cell, the stage names, and 'leaves', 'margin' or the two "
                                "cells 'sum' and 'weight' at its end")
    draft.reading = reading
    for name in names:
        draft.add_stage(name, at)


def take_row(draft: Draft, at: int, cells: Sequence[str], seen: set[int]) -> None:
    """Takes the row of one stage: its name, its rates and its parameters."""
    n, words = len(draft.names), PARAMETER_WORDS[draft.reading]
    if len(cells) == 1 and cells[0] not in draft.names and is_line(cells[0]):
        raise draft.problem(at, "a line of the other form stands in a matrix (a text keeps to one form)")
    if cells[0] not in draft.names and is_unit_row(cells):
        raise draft.problem(at, "the row with the unit stands before the header row")
    i = draft.stage(cells[0], at)
    if i in seen:
        raise draft.problem(at, f"stage {cells[0]!r} has two rows (first on line {draft.lines[i]})")
    if len(cells) > 1 + n + len(words):
        raise draft.problem(at, f"the row has {len(cells)} cells, the header has {1 + n + len(words)}")
    seen.add(i)
    draft.lines[i] = at
    for j, cell in enumerate(cells[1:n + 1]):
        if is_filled(cell) and not (i == j and is_zero(cell)):
            draft.add_rate(i, j, cell, at)
    for word, cell in zip(words, cells[n + 1:]):
        if is_filled(cell):
            draft.add_parameter(i, word, cell, at)


def is_line(cell: str) -> bool:
    """Whether this looks like a line of the other form."""
    words = cell.split()
    return "->" in cell or words[0] in FIRST_WORDS or any(word in words for word in PARAMETER_NAMES)


def is_filled(cell: str) -> bool:
    """Whether a cell holds a number; spreadsheets may show a zero as a single dash."""
    return cell not in ("", "-")


def is_zero(cell: str) -> bool:
    """Whether a cell holds a zero."""
    try:
        return read_number(cell) == 0.0
    except ValueError:
        return False


# ==== The sheet and its file ====

@dataclass(frozen=True)
class Sheet:
    """A sheet as its file holds it, in units of 2^e seconds: n × n numbers by their bits, row by row, and in
    reading 3 n weights after them."""
    reading: int
    n: int
    e: int
    words: list[int]

    def parameters(self, i: int) -> list[int]:
        """The parameters of stage i by their bits: that on the diagonal, and its weight."""
        weights = self.words[self.n * self.n:]
        return [self.words[i * self.n + i], *weights[i:i + 1]]


@dataclass(frozen=True)
class Refused:
    """A refusal: its number, a row and a column."""
    number: int
    row: int = 0
    column: int = 0


def sheet_of(draft: Draft) -> Sheet:
    """The sheet of a text; a missing rate or leaving rate is zero, another missing parameter is a problem."""
    n, words = len(draft.names), PARAMETER_WORDS[draft.reading]
    of_stages = [[draft.parameter(i, word) for word in words] for i in range(n)]
    diagonal, *weights = zip(*of_stages, strict=True)
    numbers = [0.0] * (n * n)
    numbers[::n + 1] = diagonal
    for (i, j), rate in draft.rates.items():
        numbers[i * n + j] = 0.0 - rate.number
    return Sheet(draft.reading, n, draft.e, [word_of(number) for part in (numbers, *weights) for number in part])


HEAD = "<HHh"           # reading, n and a signed e
SHORT_HEAD = "<HH"      # a head from before units, which is still read: e is 0


def rows_due(reading: int, n: int) -> range:
    """The rows of a sheet file, which the weights follow as row n + 1."""
    return range(1, n + 2 if reading == WEIGHTS else n + 1)


def row_start(n: int, row: int) -> tuple[int, bytes]:
    """The kind of the record that is due as a row, and what stands before its n numbers: a row has its own number
    there, and the weights nothing."""
    return (2, struct.pack("<H", row)) if row <= n else (3, b"")


def record(kind: int, payload: bytes) -> bytes:
    """A record of a sheet file: length, kind, payload."""
    return struct.pack("<IH", len(payload), kind) + payload


def file_of(sheet: Sheet) -> bytes:
    """The sheet file: a head, then the rows, then the weights if there are any."""
    n, data = sheet.n, record(1, struct.pack(HEAD, sheet.reading, sheet.n, sheet.e))
    for row in rows_due(sheet.reading, n):
        kind, start = row_start(n, row)
        data += record(kind, start + struct.pack(f"<{n}Q", *sheet.words[(row - 1) * n:row * n]))
    return data


LONGEST_FILE = len(file_of(Sheet(WEIGHTS, LIMIT, IN_SECONDS, [0] * (LIMIT + 1) * LIMIT)))


def take_record(data: bytes, at: int) -> tuple[int, bytes, int] | None:
    """Kind, payload and end of the record that starts here; None where bytes are missing."""
    if len(data) - at < 6:
        return None
    length, kind = struct.unpack_from("<IH", data, at)
    end = at + 6 + length
    return (kind, data[at + 6:end], end) if end <= len(data) else None


def read_head(payload: bytes) -> tuple[int, int, int] | None:
    """Reading, n and e of the head of a file; None where it is no head."""
    forms = {struct.calcsize(form): form for form in (SHORT_HEAD, HEAD)}
    if len(payload) not in forms:
        return None
    reading, n, *unit = struct.unpack(forms[len(payload)], payload)
    e = unit[0] if unit else IN_SECONDS
    fits = reading in READINGS.values() and 1 <= n <= LIMIT and abs(e) <= FURTHEST_UNIT
    return (reading, n, e) if fits else None


def read_file(data: bytes) -> Sheet | Refused:
    """The sheet of a file, or the refusal that dwell prints for it (11 to 14)."""
    head = take_record(data, 0)
    if head is None:
        return Refused(11)
    kind, payload, at = head
    said = read_head(payload) if kind == 1 else None
    if said is None:
        return Refused(12)
    reading, n, e = said
    words: list[int] = []
    for row in rows_due(reading, n):
        due = take_record(data, at)
        if due is None:
            return Refused(11, row)
        kind, payload, at = due
        kind_due, start = row_start(n, row)
        if kind != kind_due or len(payload) != len(start) + 8 * n or not payload.startswith(start):
            return Refused(13, row)
        words += struct.unpack_from(f"<{n}Q", payload, len(start))
    return Sheet(reading, n, e, words) if at == len(data) else Refused(14)


# ==== A sheet as text ====

def show_text(sheet: Sheet, names: Sequence[str]) -> str:
    """A sheet in the form with a line for each rate."""
    reading = next(word for word, reading in READINGS.items() if reading == sheet.reading)
    quoted = [quote(name) for name in names]
    lines = [f"reading {reading}", f"{UNIT_WORD} {unit_words(sheet.e)}"]
    lines += ["stages " + " ".join(quoted[at:at + 8]) for at in range(0, sheet.n, 8)]
    for i in range(sheet.n):
        of_stage = list(stage_lines(sheet, quoted, i))
        lines += [""] + of_stage if of_stage else []
    return "\n".join(lines) + "\n"


def stage_lines(sheet: Sheet, quoted: Sequence[str], i: int) -> Iterator[str]:
    """The lines of one stage: its rates, then its parameters; rates and leaving rates that are plus zero are left
    out."""
    for j in range(sheet.n):
        word = sheet.words[i * sheet.n + j]
        if i != j and word != 0:
            yield f"{quoted[i]} -> {quoted[j]} {shown(word, 0.0 - number_of(word))}"
    for text, word in zip(PARAMETER_WORDS[sheet.reading], sheet.parameters(i), strict=True):
        if word != 0 or sheet.reading != LEAVING_RATES:
            yield f"{quoted[i]} {text} {shown(word, number_of(word))}"


def shown(word: int, typed: float) -> str:
    """A number as it is typed; the bits follow where `make` does not write them for it."""
    made_by_make = SMALLEST <= typed < math.inf
    return shortest(typed) if made_by_make else f"{shortest(typed)}  # bits {word:016x}"


def quote(name: str) -> str:
    """A name as the text form writes it, quoted where it has to be."""
    return name if re.fullmatch(BARE_WORD, name) and name not in FIRST_WORDS else f'"{name}"'


# ==== dwell's output as a table ====

@dataclass(frozen=True)
class Table:
    """The table that dwell prints, in units of 2^e seconds, row by row, with its allowance."""
    n: int
    allowance: int
    e: int
    numbers: list[float]

    def row(self, i: int) -> list[float]:
        """The times of a request that enters at stage i."""
        return self.numbers[i * self.n:(i + 1) * self.n]


def read_answer(source: str, data: bytes) -> Table | Refused:
    """What dwell printed: a table or a refusal."""
    lines = decode(source, data).removesuffix("\n").split("\n")
    refused = re.fullmatch(r"refused ([0-9]{1,9}) ([0-9]{1,9}) ([0-9]{1,9})", lines[0])
    if refused and len(lines) == 1:
        return Refused(*map(int, refused.groups()))
    head = re.fullmatch(r"seconds ([0-9]{1,2}) ([0-9]{1,9}) (0|-?[1-9][0-9]{0,2})", lines[0])
    if head is None or not 1 <= int(head[1]) <= LIMIT or abs(int(head[3])) > FURTHEST_UNIT:
        raise problem_at(source, 1, "this is not dwell's output ('seconds' or 'refused' and numbers)")
    n = int(head[1])
    numbers = [read_entry(source, lines, n, place) for place in range(n * n)]
    if len(lines) > 1 + n * n:
        raise problem_at(source, n * n + 2, "dwell's output goes on after its last entry")
    return Table(n, int(head[2]), int(head[3]), numbers)


def read_entry(source: str, lines: Sequence[str], n: int, place: int) -> float:
    """The entry at a place, from its line."""
    row, column = place // n + 1, place % n + 1
    line = lines[place + 1] if place + 1 < len(lines) else ""
    entry = re.fullmatch(rf"{row} {column} ([0-9a-f]{{16}})", line)
    if entry is None:
        raise problem_at(source, place + 2, f"the entry of row {row}, column {column} is missing or damaged")
    return number_of(int(entry[1], 16))


def table_text(table: Table, names: Sequence[str], hexadecimal: bool) -> str:
    """The table, aligned, with a line before that says what it is, and after it one on idle stages, if it has
    any, and one on its accuracy."""
    texts = written(table.numbers, hexadecimal)
    blocks = [["", *names]]
    blocks += [[name, *align(texts[j::table.n])] for j, name in enumerate(names)]
    columns = [pad(block) for block in blocks]
    lines = ["  ".join(cells).rstrip() for cells in zip(*columns)]
    heading = f"{unit_heading(table.e)} at each stage (columns) for a request that enters at the stage on the left:"
    idle = idle_lines(table, names, "Its row and column are zero.", "Their rows and columns are zero.")
    return page(heading, lines, [*idle, accuracy_line(table.allowance)])


def page(heading: str, lines: Sequence[str], notes: Sequence[str]) -> str:
    """Lines with a heading above and notes below."""
    return "\n".join([heading, "", *lines, "", *notes]) + "\n"


def idle_lines(table: Table, names: Sequence[str], of_one: str, of_several: str) -> list[str]:
    """A line that names the idle stages, if there are any, and says what that means for one or for several: no other
    stage has a zero on the diagonal."""
    idle = [quote(name) for i, name in enumerate(names) if table.row(i)[i] == 0.0]
    meaning = of_one if len(idle) == 1 else of_several
    return [f"Idle, without any rate or leaving rate: {', '.join(idle)}. {meaning}"] if idle else []


def align(texts: Sequence[str]) -> list[str]:
    """The numbers of a column, padded so that their units stand under each other."""
    parts = [re.fullmatch(r"([^.ep]*)(.*)", text) for text in texts]
    halves = [(part[1], part[2]) for part in parts if part]
    before, after = (max(len(half[side]) for half in halves) for side in (0, 1))
    return [left.rjust(before) + right.ljust(after) for left, right in halves]


def pad(cells: Sequence[str]) -> list[str]:
    """A column with its heading; names stand at the left in the first column, at the right in others."""
    width = max(len(cell) for cell in cells)
    return [cell.ljust(width) if not cells[0] else cell.rjust(width) for cell in cells]


def accuracy_line(allowance: int) -> str:
    """What the allowance promises; (1 + u)^E - 1 is at most E·u / (1 - E·u), here rounded up to two digits."""
    most = Context(prec=2, rounding=ROUND_UP).divide(Decimal(allowance), Decimal(2 ** 53 - allowance))
    return (f"Each number is within a factor (1 + 1/2^53)^{allowance} of the exact one, "
            f"off by at most {most:.1e} of it.")


# ==== Unit prices ====

def read_unit_prices(source: str, lines: Sequence[str], names: Sequence[str], hint: str) -> list[float]:
    """The unit price of each stage, from a text in either form; a hint stands behind a name that no stage has."""
    given: dict[int, Given] = {}
    for at, name, text in unit_price_entries(source, lines):
        i = stage_at(source, at, names, name, hint)
        if i in given:
            raise problem_at(source, at, f"the price of {name!r} is given twice (first on line {given[i].line})")
        if not is_filled(text):
            raise problem_at(source, at, no_price(name))
        given[i] = Given(size_at(source, at, text, "prices are zero or positive"), at)
    for i, name in enumerate(names):
        if i not in given:
            raise problem_at(source, len(lines), no_price(name))
    return [given[i].number for i in range(len(names))]


def no_price(name: str) -> str:
    """What to say of a stage whose price is missing."""
    return f"stage {name!r} has no price (a price of zero is typed as 0)"


def unit_price_entries(source: str, lines: Sequence[str]) -> Iterator[tuple[int, str, str]]:
    """Line, stage and price of each entry, the price empty where it is missing; the first line decides the form."""
    first = next(((at, line) for at, line in enumerate(lines, 1) if not is_skipped(line)), (0, ""))
    return price_rows(source, lines) if is_price_header(source, *first) else price_lines(source, lines)


def is_price_header(source: str, at: int, line: str) -> bool:
    """Whether a row ends with the cell 'price', and is not a stage and its price with a comment that ends so."""
    words = split_line(source, at, line)
    is_entry = len(words) == 2 and is_number(words[1])
    return separator_before(line, [PRICE_WORD]) is not None and not is_entry


def price_lines(source: str, lines: Sequence[str]) -> Iterator[tuple[int, str, str]]:
    """The entries of the form with a line for each stage."""
    for at, line in enumerate(lines, 1):
        words = split_line(source, at, line)
        if len(words) > 2 or any(word in words for word in (",", ";", "->")):
            raise problem_at(source, at, "write 'NAME PRICE' (quote a name with spaces; numbers have a decimal point; "
                                         "rows of a spreadsheet follow a header row of two cells, the second 'price')")
        if words:
            yield at, bare(words[0]), "".join(words[1:])


def price_rows(source: str, lines: Sequence[str]) -> Iterator[tuple[int, str, str]]:
    """The entries of the form that a spreadsheet exports: a header row, then a row for each stage."""
    rows = rows_of(source, lines, [PRICE_WORD])
    at, header = next(rows)
    if len(header) != 2 or header[1].lower() != PRICE_WORD:
        raise problem_at(source, at, "a header row of prices has two cells, the second 'price'")
    for at, cells in rows:
        if len(cells) > 2:
            raise problem_at(source, at, f"the row has {len(cells)} cells, the header has 2")
        yield at, cells[0], "".join(cells[1:])


# ==== The price list ====

def request_price(times: Sequence[float], prices: Sequence[float]) -> float | None:
    """The price of a request that spends these times, each operation rounded once (02, U7); None where a step leaves
    the range."""
    total = 0.0
    for time, price in zip(times, prices, strict=True):
        product = time * price
        too_small = time != 0.0 and price != 0.0 and not product > SMALLEST
        total += product
        if too_small or not math.isfinite(total):
            return None
    return total


def request_prices(table: Table, names: Sequence[str], prices: Sequence[float]) -> list[float]:
    """The price of a request by the stage at which it enters; a step that leaves the range is refused in words."""
    found: list[float] = []
    for i in range(table.n):
        price = request_price(table.row(i), prices)
        if price is None:
            raise Problem(f"refused (10): a step of the price at {stage_label(i + 1, names)} leaves the range of "
                          "binary64 numbers, since some prices are too large or too small for the times of the table.")
        found.append(price)
    return found


def price_list_text(table: Table, names: Sequence[str], prices: Sequence[float], hexadecimal: bool) -> str:
    """The price of a request by the stage at which it enters, aligned, with a line before that says what it is, and
    after it one on idle stages, if there are any, and one on accuracy."""
    texts = align(written(request_prices(table, names, prices), hexadecimal))
    width = max(len(name) for name in names)
    lines = [f"{name.ljust(width)}  {text}".rstrip() for name, text in zip(names, texts, strict=True)]
    heading = f"Price of a request by the stage at which it enters, for prices per {one_unit(table.e)}:"
    no_time = "No time is spent there, so"
    idle = idle_lines(table, names, f"{no_time} its unit price does not count and its request price is zero.",
                      f"{no_time} their unit prices do not count and their request prices are zero.")
    return page(heading, lines, [*idle, accuracy_line(table.allowance + table.n)])


# ==== Refusals in words ====

REASONS = {
    1: "the reading is not 1 (leaving rates), 2 (margins) or 3 (weights), or one column is asked for and it is not 1",
    2: "the number of stages is not from 1 to 32",
    3: "the sheet does not hold exactly n × n numbers for its n stages, and n weights after them in reading 3",
    4: "the room lent for the answer is smaller than it needs (n × n numbers for a table, as many as the sheet has "
       "where it is loaded or moved, n for one column or for prices, the file's bytes for saving)",
    5: "a stage that was asked for is not one of the sheet's stages",
    6: "{number} is not a finite number",
    7: "{number} has the wrong sign (rates and leaving rates are zero or positive; margins, weighted row sums and "
       "weights are positive)",
    8: "{number} is too small (a number is zero or at least 2^-1022, about 2.2e-308)",
    9: "a request at {stage} never gets out, since no chain of moves leads from there to a stage with a "
       "leaving rate above zero",
    10: "a step of the calculation leaves the range of binary64 numbers, since some rates, weights or prices are too "
        "large, too small or too far apart",
    11: "the file ends before {record} is complete",
    12: "the file does not begin with the head of a sheet (reading 1, 2 or 3, 1 to 32 stages, a unit of 2^E seconds "
        "with E from -512 to 512), or a call was handed a unit out of that range",
    13: "the file has something else where {record} is due (another kind, length or row number)",
    14: "the file goes on after its last row, or in reading 3 after its weights",
    15: "the power of two to move by is not from -512 to 512",
    16: "a number that is moved would be larger than the largest binary64 number, or smaller than 2^-1022",
    17: "the unit of the moved sheet would be out of range (2^E seconds, E from -512 to 512)",
    18: "the prices are not n in number, one for each of the sheet's n stages",
    19: "the unit price of {stage} is not a number, is infinite or negative, or is too small (a price is zero or at "
        "least 2^-1022, about 2.2e-308)",
}


def refusal_sentence(refused: Refused, names: Sequence[str]) -> str:
    """A refusal in plain words, with its place and the names of its stages."""
    reason = REASONS.get(refused.number, "this number has no words here")
    words = reason.format(stage=stage_label(refused.row, names), number=number_label(refused, names),
                          record=record_label(refused, names))
    return f"refused ({refused.number}{place_of(refused)}): {words}."


def number_label(refused: Refused, names: Sequence[str]) -> str:
    """The number of a sheet that stands at a place."""
    stage, other = stage_label(refused.row, names), stage_label(refused.column, names)
    if refused.row == refused.column:
        return f"the leaving rate, margin or weighted row sum of {stage}"
    if refused.row < refused.column:
        return f"the rate from {stage} to {other}"
    return row_label(refused.row, f"the rate from {stage} to {other}", f"the weight of {other}", names)


def record_label(refused: Refused, names: Sequence[str]) -> str:
    """The record of a file that is due as a row."""
    row = f"the row of {stage_label(refused.row, names)}" if refused.row else "the head"
    return row_label(refused.row, row, "the record of the weights", names) if refused.row > 1 else row


def row_label(row: int, of_row: str, of_weights: str, names: Sequence[str]) -> str:
    """What a row is called: the weights are row n + 1, and without names n is not known."""
    if not names:
        return f"{of_row} (or, in a sheet of weights with n = {row - 1}, {of_weights})"
    return of_weights if row == len(names) + 1 else of_row


def stage_label(number: int, names: Sequence[str]) -> str:
    """A stage by its number, and by its name where that is known."""
    return f"stage {number} ({names[number - 1]})" if 1 <= number <= len(names) else f"stage {number}"


def place_of(refused: Refused) -> str:
    """The place of a refusal, where it has one."""
    if refused.column:
        return f" at row {refused.row}, column {refused.column}"
    return f" at row {refused.row}" if refused.row else ""


# ==== Commands ====

FORMS = """\
A text has one of two forms.  Blank lines are left out in both.

Lines, the reading first; # begins a comment:
  reading leaving-rates          or: reading margins, or: reading weights
  unit ticks                     the time unit: seconds, ticks, or 2^E seconds with E from -512 to 512; a tick
                                 is 2^-10 seconds, 1/1,024 second; without this line the unit is the second
  stages intake signer           the stages in their order, 1 to 32; several such lines may stand
  stage "key ceremony"           one stage; a name with spaces stands in double quotes
  intake -> signer 0.25          a rate per unit from one stage to another
  signer leaves 1e-6             a leaving rate (reading leaving-rates)
  signer margin 0.5              a margin (reading margins)
  signer sum 0.25                a weighted row sum (reading weights)
  signer weight 3                a weight (reading weights)

A matrix, as a spreadsheet exports it, with commas, tabs or semicolons between the cells; a row that
begins with # is a comment:
  unit,ticks                     the time unit, as above; without this row the unit is the second
  from,intake,signer,leaves      any first cell, the stages in their order, then 'leaves', 'margin' or two cells,
                                 'sum' and 'weight'
  intake,,0.25,                  a row for each stage: its rates, then its leaving rate, its margin, or its
                                 weighted row sum and its weight
  signer,0.05,,1e-6              an empty cell, a dash or a missing cell at the end is zero

Rates are per unit, and the table counts units.  Rates are typed as positive numbers, decimal (0.25, 1e-6)
or hexadecimal (0x1p-20), and rounded to the nearest binary64 number.  A missing rate or leaving rate is
zero; a missing margin, weighted row sum or weight is an error, and so is one of zero.  With leaving rates, a
stage that has none, and no rate to or from another stage, is idle: it keeps its place, and its row and column
of the table are zero.  The file is UTF-8 text.  Errors are one line, FILE:LINE: and what is wrong, with exit
status 1.

The weighted row sum of a stage is the rate at which it is done with a request (1 / its average time there)
times its weight, minus each rate that leads away from it times the weight of the stage that it leads to."""

PRICE_FORMS = """\
Unit prices have one of two forms.  Blank lines are left out in both.

Lines, one for each stage, in any order; # begins a comment:
  intake 0.25                    a stage and its price for each unit of time that a request spends there
  "key ceremony" 1e-6            a name with spaces stands in double quotes

Rows, as a spreadsheet exports them, with commas, tabs or semicolons between the cells; a row that begins
with # is a comment:
  stage,price                    any first cell, then 'price'
  intake,0.25                    a row for each stage, in any order
  key ceremony,1e-6

Prices are per unit of the table's time, which the heading of the list names.  They are typed as positive
numbers or zero, decimal (0.25, 1e-6) or hexadecimal (0x1p-20), and rounded to the nearest binary64 number.
Every stage has a price: an empty cell or a dash is an error, and a price of zero is typed as 0.  The file
is UTF-8 text.  Errors are one line, FILE:LINE: and what is wrong, with exit status 1.

The price of a request starts at zero and adds, stage by stage, its time there times the unit price."""

OVERVIEW = """\
From numbers in a text file or a spreadsheet to a table of seconds, and from unit prices to a price list:
  python3 tools/sheet.py make line.txt > line.sheet
  crates/dwell/out/dwell < line.sheet | python3 tools/sheet.py table --names line.txt
  crates/dwell/out/dwell < line.sheet | python3 tools/sheet.py prices prices.txt --names line.txt

FILE, TEXT and PRICES may be - for standard input.  `sheet.py make --help` describes the text forms,
`sheet.py prices --help` those of unit prices."""


def read_bytes(path: str, most: int) -> bytes:
    """At most so many bytes of a file, or of standard input for -."""
    try:
        if path == "-":
            return sys.stdin.buffer.read(most)
        with open(path, "rb") as file:
            return file.read(most)
    except OSError as error:
        raise Problem(f"{path}: {error.strerror}") from None


def source_name(path: str) -> str:
    """What messages call a file."""
    return "<stdin>" if path == "-" else path


def lines_of_path(path: str) -> list[str]:
    """The lines of the text at a path."""
    data = read_bytes(path, LONGEST_TEXT + 1)
    if len(data) > LONGEST_TEXT:
        raise Problem(f"{source_name(path)}: the text is longer than {LONGEST_TEXT} bytes")
    return lines_of(source_name(path), data)


def draft_of_path(path: str) -> Draft:
    """The draft of the text at a path."""
    return read_text(source_name(path), lines_of_path(path))


def check_standard_input(*paths: str | None) -> None:
    """Standard input is at most one of the files that a command reads."""
    if paths.count("-") > 1:
        raise Problem("standard input cannot be read twice: give a file its name")


def names_for(options: argparse.Namespace) -> list[str]:
    """The names that --names gives, none without it."""
    check_standard_input(options.names, options.file)
    return [] if options.names is None else draft_of_path(options.names).names


def names_of_all(options: argparse.Namespace, names: list[str], n: int) -> list[str]:
    """A name for each of n stages: the given ones, or s1, s2, ..."""
    if options.names is not None and len(names) != n:
        raise Problem(f"{source_name(options.names)}: the text names {len(names)} stages, "
                      f"{source_name(options.file)} has {n}")
    return names or [f"s{number}" for number in range(1, n + 1)]


def run_make(options: argparse.Namespace) -> bytes:
    """The make command."""
    if sys.stdout.isatty():
        raise Problem("a sheet file is not text: send it to a file (> FILE) or to dwell (| crates/dwell/out/dwell)")
    return file_of(sheet_of(draft_of_path(options.text)))


def run_show(options: argparse.Namespace) -> bytes:
    """The show command; like dwell it judges at most one byte more than the longest file."""
    names = names_for(options)
    found = read_file(read_bytes(options.file, LONGEST_FILE + 1))
    if isinstance(found, Refused):
        raise Problem(f"{source_name(options.file)}: {refusal_sentence(found, names)}")
    return show_text(found, names_of_all(options, names, found.n)).encode()


def table_for(options: argparse.Namespace) -> tuple[Table, list[str]]:
    """The table that dwell printed and a name for each of its stages; a refusal is told in words."""
    names = names_for(options)
    found = read_answer(source_name(options.file), read_bytes(options.file, LONGEST_TEXT))
    if isinstance(found, Refused):
        raise Problem(refusal_sentence(found, names))
    return found, names_of_all(options, names, found.n)


def run_table(options: argparse.Namespace) -> bytes:
    """The table command."""
    table, names = table_for(options)
    return table_text(table, names, options.hex).encode()


def run_prices(options: argparse.Namespace) -> bytes:
    """The prices command."""
    check_standard_input(options.prices, options.file, options.names)
    lines = lines_of_path(options.prices)
    table, names = table_for(options)
    hint = " (without --names the stages are s1, s2, ...)" if options.names is None else ""
    prices = read_unit_prices(source_name(options.prices), lines, names, hint)
    return price_list_text(table, names, prices, options.hex).encode()


def parser() -> argparse.ArgumentParser:
    """The command line."""
    raw = argparse.RawDescriptionHelpFormatter
    top = argparse.ArgumentParser(prog="sheet.py", epilog=OVERVIEW, formatter_class=raw,
                                  description="Makes and shows sheet files, lays out dwell's output and prices "
                                              "requests.")
    commands = top.add_subparsers(title="commands", required=True, metavar="COMMAND")
    make = commands.add_parser("make", help="write a sheet file, made from a text, to standard output",
                               description="Writes the sheet file of a text to standard output.",
                               epilog=FORMS, formatter_class=raw)
    make.add_argument("text", metavar="TEXT", help="a text in one of the forms below, - for standard input")
    make.set_defaults(run=run_make)
    show = commands.add_parser("show", help="print a sheet file as a text",
                               description="Prints a sheet file as a text of lines, its unit among them. A number "
                                           "that make cannot have written is followed by its bits in a comment.")
    show.add_argument("file", metavar="FILE", help="a sheet file, - for standard input")
    show.set_defaults(run=run_show)
    table = commands.add_parser("table", help="print dwell's output as an aligned table, or a refusal in words",
                                description="Prints dwell's output as an aligned table of decimals, the shortest "
                                            "digits that read back, says their unit above it and names idle stages "
                                            "below it. A refusal becomes a sentence on standard error with exit "
                                            "status 1.")
    table.set_defaults(run=run_table)
    prices = commands.add_parser("prices", help="print a price list: the price of a request by the stage at which it "
                                                "enters",
                                 description="Prints the price of a request by the stage at which it enters, from unit "
                                             "prices and dwell's\noutput, as an aligned list of decimals, the shortest "
                                             "digits that read back.  A refusal becomes a\nsentence on standard error "
                                             "with exit status 1.",
                                 epilog=PRICE_FORMS, formatter_class=raw)
    prices.add_argument("prices", metavar="PRICES", help="unit prices in one of the forms below, - for standard input")
    prices.set_defaults(run=run_prices)
    for command in (table, prices):
        command.add_argument("file", metavar="FILE", nargs="?", default="-",
                             help="what dwell printed; standard input without it or for -")
        command.add_argument("--hex", action="store_true", help="print exact hexadecimal floats (C99) instead")
    for command in (show, table, prices):
        command.add_argument("--names", metavar="TEXT", help="a text whose stage names are used, - for standard "
                                                             "input; without it stages are s1, s2, ...")
    return top


def main(arguments: Sequence[str]) -> int:
    """Runs one command; the exit status."""
    options = parser().parse_args(arguments)
    try:
        sys.stdout.buffer.write(options.run(options))
        sys.stdout.buffer.flush()
    except Problem as problem:
        print(problem, file=sys.stderr)
        return 1
    except OSError as error:
        os.dup2(os.open(os.devnull, os.O_WRONLY), sys.stdout.fileno())  # nothing more is tried at the end
        if not isinstance(error, BrokenPipeError):
            print(f"standard output: {error.strerror}", file=sys.stderr)
        return 1
    except KeyboardInterrupt:
        return 130
    return 0


if __name__ == "__main__":
    sys.exit(main(sys.argv[1:]))
