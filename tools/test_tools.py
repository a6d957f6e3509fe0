#!/usr/bin/env python3
"""Tests of tools/sheet.py and of the examples; run by `python3 tools/test_tools.py`.

The environment variable DWELL holds the command of the dwell program, which reads a sheet file on
standard input; without it the reference stands in.  Expected bytes are packed here from fractions of the
typed numbers, expected seconds are exact inverses over fractions, and expected prices are those of the
reference; nothing is compared with a stored copy of the tool's output except the walk-through, whose
commands are run again.
"""
from __future__ import annotations

import io
import itertools
import os
import pty
import random
import re
import shlex
import struct
import subprocess
import sys
import tempfile
import unittest
from collections import Counter
from fractions import Fraction
from pathlib import Path
from typing import Callable, NamedTuple, Sequence

ROOT = Path(__file__).resolve().parent.parent
SHEET = [sys.executable, str(ROOT / "tools" / "sheet.py")]
REFERENCE = [sys.executable, str(ROOT / "tools" / "reference.py"), "dwell"]
DWELL = shlex.split(os.environ["DWELL"]) if "DWELL" in os.environ else REFERENCE
READING_WORDS = {1: "leaving-rates", 2: "margins", 3: "weights"}
DIAGONAL_WORDS = {1: "leaves", 2: "margin", 3: "sum"}
ALLOWANCES = {1: 4, 2: 12, 3: 6}    # over n³

START_FOLDER = os.getcwd()

sys.dont_write_bytecode = True
sys.path.insert(0, str(ROOT / "tools"))
import reference  # noqa: E402
import sheet  # noqa: E402

Exact = list[list[Fraction]]


# ==== Running the tools ====

class Result(NamedTuple):
    """What a command gave."""
    status: int
    out: bytes
    err: str


def run(*arguments: str, stdin: bytes = b"") -> Result:
    """Runs sheet.py in this process, with standard streams of its own."""
    kept = sys.stdin, sys.stdout, sys.stderr
    out, err = io.BytesIO(), io.BytesIO()
    sys.stdin = io.TextIOWrapper(io.BytesIO(stdin))
    sys.stdout = io.TextIOWrapper(out, encoding="utf-8", write_through=True)
    sys.stderr = io.TextIOWrapper(err, encoding="utf-8", write_through=True)
    try:
        status = sheet.main(arguments)
    except SystemExit as stop:
        status = int(str(stop.code))
    finally:
        streams = sys.stdin, sys.stdout, sys.stderr
        sys.stdin, sys.stdout, sys.stderr = kept
    result = Result(status, out.getvalue(), err.getvalue().decode())
    for stream in streams:
        stream.close()
    return result


def process(*arguments: str, stdout: int = subprocess.PIPE) -> Result:
    """Runs sheet.py as a process."""
    done = subprocess.run([*SHEET, *arguments], stdin=subprocess.DEVNULL, stdout=stdout, stderr=subprocess.PIPE,
                          check=False)
    return Result(done.returncode, done.stdout or b"", done.stderr.decode())


def dwell(data: bytes) -> bytes:
    """What the dwell program prints for a sheet file; the reference stands in without a process of its own."""
    if DWELL is REFERENCE:
        return reference.dwell(data).encode()
    return subprocess.run(DWELL, input=data, stdout=subprocess.PIPE, cwd=START_FOLDER, check=False).stdout


class ToolTest(unittest.TestCase):
    """A test with a folder of its own and short ways to run the tools there."""

    def setUp(self) -> None:
        """Makes the folder and goes there."""
        folder = tempfile.TemporaryDirectory()
        self.addCleanup(folder.cleanup)
        self.folder = folder.name
        os.chdir(self.folder)
        self.addCleanup(os.chdir, START_FOLDER)

    def write(self, name: str, content: str | bytes) -> str:
        """Writes a file into the folder."""
        data = content.encode() if isinstance(content, str) else content
        (Path(self.folder) / name).write_bytes(data)
        return name

    def good(self, *arguments: str, stdin: bytes = b"") -> bytes:
        """The output of a command that succeeds and says nothing else."""
        result = run(*arguments, stdin=stdin)
        self.assertEqual((result.status, result.err), (0, ""))
        return result.out

    def bad(self, *arguments: str, stdin: bytes = b"") -> str:
        """The one line that a command says when it fails."""
        result = run(*arguments, stdin=stdin)
        self.assertEqual((result.status, result.out), (1, b""), result.err)
        self.assertEqual(result.err.count("\n"), 1, result.err)
        return result.err.removesuffix("\n")

    def make(self, text: str | bytes, name: str = "line.txt") -> bytes:
        """The sheet file of a text."""
        return self.good("make", self.write(name, text))

    def assert_shortest(self, text: str, x: float) -> None:
        """The text reads back as x; with one digit less it does not (where x is no power of two)."""
        self.assertEqual(float(text), x)
        digits = digits_of(text)
        if digits > 1 and x.hex().split(".")[1].split("p")[0].strip("0"):
            self.assertNotEqual(float(f"{x:.{digits - 2}e}"), x, text)

    def check_alignment(self, rows: Sequence[str], names: Sequence[str]) -> None:
        """The units of the numbers of a column stand under each other."""
        units = []
        for name, row in zip(names, rows):
            rest = " " * len(name) + row[len(name):]
            units.append([found.end() for found in re.finditer(r"(?<!\S)(0x)?[0-9]+", rest)])
        self.assertEqual(len({tuple(row) for row in units}), 1, "\n".join(rows))

    def check_accuracy_line(self, out: bytes, allowance: int) -> None:
        """The last line names the allowance and a bound of two digits that is just above it."""
        last = re.fullmatch(r"Each number is within a factor \(1 \+ 1/2\^53\)\^(\d+) of the exact one, "
                            r"off by at most (\d\.\de-\d+) of it\.", out.decode().split("\n")[-2])
        self.assertIsNotNone(last)
        assert last is not None
        self.assertEqual(int(last[1]), allowance)
        least = Fraction(allowance, 2 ** 53)
        self.assertTrue(least / (1 - least) <= Fraction(last[2]) <= least * Fraction(111, 100))


# ==== Sheets, files and exact values, apart from the tools ====

class Typed(NamedTuple):
    """A sheet as it is typed: names, rates by pair of stages, leaving rates, margins or weighted row sums by stage,
    the words for its unit, none where it is not said, and weights, for each stage or for none."""
    reading: int
    names: list[str]
    rates: dict[tuple[int, int], str]
    diagonal: dict[int, str]
    unit: str = ""
    weights: Sequence[str] = ()


def value(text: str) -> Fraction:
    """The exact value of a decimal or hexadecimal text."""
    if "x" not in text.lower():
        return Fraction(text)
    mantissa, _, exponent = text.lower().replace("0x", "").partition("p")
    whole, _, part = mantissa.partition(".")
    return Fraction(int(whole + part or "0", 16), 16 ** len(part)) * Fraction(2) ** int(exponent or "0")


def nearest(exact: Fraction) -> int:
    """The bits of the binary64 number nearest to a fraction (a division of whole numbers rounds once)."""
    return struct.unpack("<Q", struct.pack("<d", exact.numerator / exact.denominator))[0]


def number(word: int) -> float:
    """The number with these bits."""
    return struct.unpack("<d", struct.pack("<Q", word))[0]


def packed(reading: int, n: int, words: Sequence[int], e: int = 0) -> bytes:
    """A sheet file in units of 2^e seconds, packed by documents 01 and 02."""
    return struct.pack("<IHHHh", 6, 1, reading, n, e) + packed_rows(n, words)


def packed_short(reading: int, n: int, words: Sequence[int]) -> bytes:
    """A sheet file with document 01's head, which says no unit."""
    return struct.pack("<IHHH", 4, 1, reading, n) + packed_rows(n, words)


def packed_rows(n: int, words: Sequence[int]) -> bytes:
    """The rows of a sheet file, and a record of weights where n words follow those of the rows."""
    rows = [struct.pack(f"<IHH{n}Q", 2 + 8 * n, 2, i + 1, *words[i * n:(i + 1) * n]) for i in range(n)]
    return b"".join(rows) + (struct.pack(f"<IH{n}Q", 8 * n, 3, *words[n * n:]) if len(words) > n * n else b"")


def power_of(unit: str) -> int:
    """The e of the unit of 2^e seconds that these words say."""
    named = {"": 0, "seconds": 0, "ticks": -10}
    return named[unit] if unit in named else int(unit.removeprefix("2^").removesuffix(" seconds"))


def expected_file(typed: Typed) -> bytes:
    """The sheet file that a typed sheet stands for."""
    n = len(typed.names)
    words = [0] * (n * n)
    for (i, j), text in typed.rates.items():
        words[i * n + j] = nearest(-value(text)) if value(text) else 0
    for i, text in typed.diagonal.items():
        words[i * n + i] = nearest(value(text))
    words += [nearest(value(text)) for text in typed.weights]
    return packed(typed.reading, n, words, power_of(typed.unit))


def quoted(name: str) -> str:
    """A name in quotes where it has more than letters and digits."""
    bare = re.fullmatch(r"\w+", name) and name not in ("reading", "stage", "stages", "unit")
    return name if bare else f'"{name}"'


def as_lines(typed: Typed) -> str:
    """A typed sheet as lines."""
    names = [quoted(name) for name in typed.names]
    lines = [f"reading {READING_WORDS[typed.reading]}", *(f"stage {name}" for name in names)]
    lines += [f"unit {typed.unit}"] if typed.unit else []
    lines += [f"{names[i]} -> {names[j]} {text}" for (i, j), text in typed.rates.items()]
    lines += [f"{names[i]} {DIAGONAL_WORDS[typed.reading]} {text}" for i, text in typed.diagonal.items()]
    lines += [f"{name} weight {text}" for name, text in zip(names, typed.weights)]
    return "\n".join(lines) + "\n"


def as_matrix(typed: Typed, separator: str) -> str:
    """A typed sheet as a matrix."""
    n = len(typed.names)
    names = [f'"{name}"' if separator in name else name for name in typed.names]
    rows = [["unit", typed.unit]] if typed.unit else []
    rows.append(["from / to", *names, DIAGONAL_WORDS[typed.reading], *(["weight"] if typed.weights else [])])
    for i, name in enumerate(names):
        rows.append([name, *(typed.rates.get((i, j), "") for j in range(n)), typed.diagonal.get(i, ""),
                     *typed.weights[i:i + 1]])
    return "".join(separator.join(row) + "\n" for row in rows)


def random_text(rng: random.Random) -> str:
    """A positive number as someone may type it."""
    digits = "".join(rng.choice("0123456789") for _ in range(rng.randint(0, 25)))
    return rng.choice([
        f"{rng.randint(1, 9)}.{digits}e{rng.randint(-300, 300)}", f"{rng.randint(1, 999)}", f"0.{digits}1",
        f".{digits}5", f"+{rng.randint(1, 9)}.", f"{rng.randint(1, 9)}E-6", f"0x{rng.randint(1, 2 ** 70):x}",
        f"0X1.{rng.getrandbits(60):X}P{rng.randint(-1000, 1000)}", f"0x.{rng.randint(1, 2 ** 50):x}p+3"])


def random_rate(rng: random.Random) -> str:
    """A short decimal between 1e-9 and 1e6."""
    return f"{rng.randint(1, 999)}e{rng.randint(-9, 3)}"


def random_unit(rng: random.Random) -> str:
    """The words for a unit, or none."""
    return rng.choice(["", "seconds", "ticks", "2^512 seconds", "2^-512 seconds", "2^+7 seconds", "2^-10 seconds",
                       f"2^{rng.randint(-512, 512)} seconds"])


def random_typed(rng: random.Random, reading: int, n: int,
                 text: Callable[[random.Random], str] = random_text) -> Typed:
    """A sheet with some rates of each stage; a leaving rate may be missing, and so may the unit."""
    names = rng.sample(["intake", "key ceremony", "Sign", "x-1", "größe", "leaves", "stage", "a, b", "c;d", "#7",
                        "p->q", "reading", "margin", "unit", "100", "-", "sum", "weight",
                        *(f"stage {k}" for k in range(40))], n)
    share = rng.choice([0.1, 0.5, 1.0])
    rates = {(i, j): text(rng) for i in range(n) for j in range(n) if i != j and rng.random() < share}
    diagonal = {i: text(rng) for i in range(n) if reading != 1 or rng.random() < 0.6}
    weights = [text(rng) for _ in range(n)] if reading == 3 else ()
    return Typed(reading, names, rates, diagonal, random_unit(rng), weights)


def exact_matrix(typed: Typed, exact_of: Callable[[str], Fraction] = value) -> Exact:
    """The matrix A that the typed numbers stand for (01, "The sheet and its two readings"; 02, U10)."""
    n = len(typed.names)
    t = [[exact_of(typed.rates.get((i, j), "0")) for j in range(n)] for i in range(n)]
    z = [exact_of(text) for text in typed.weights or ["1"] * n]
    a: list[Fraction] = []
    share: list[Fraction] = []
    for i in range(n):
        counted = [share[j] if typed.reading == 2 and j < i else z[j] for j in range(n)]
        h = sum((t[i][j] * counted[j] for j in range(n)), Fraction(0))
        a.append((exact_of(typed.diagonal.get(i, "0")) + h) / z[i])
        share.append(h / a[i] if a[i] else Fraction(0))
    return [[a[i] if i == j else -t[i][j] for j in range(n)] for i in range(n)]


def live_stages(typed: Typed) -> list[int]:
    """The stages that are not idle: with leaving rates those that some number is typed for and is not zero."""
    if typed.reading != 1:
        return list(range(len(typed.names)))
    moving = {i for pair, text in typed.rates.items() if value(text) for i in pair}
    return sorted(moving | {i for i, text in typed.diagonal.items() if value(text)})


def exact_seconds(typed: Typed, exact_of: Callable[[str], Fraction] = value) -> Exact:
    """The inverse over the stages that are not idle, under their own numbers, and zeros (02, U3)."""
    n, live, matrix = len(typed.names), live_stages(typed), exact_matrix(typed, exact_of)
    inverse = exact_inverse([[matrix[i][j] for j in live] for i in live])
    seconds = [[Fraction(0)] * n for _ in range(n)]
    for i, row in zip(live, inverse):
        for j, x in zip(live, row):
            seconds[i][j] = x
    return seconds


def exact_inverse(matrix: Exact) -> Exact:
    """The inverse over fractions, by Gauss-Jordan elimination."""
    n = len(matrix)
    rows = [list(row) + [Fraction(int(i == j)) for j in range(n)] for i, row in enumerate(matrix)]
    for k in range(n):
        rows[k] = [x / rows[k][k] for x in rows[k]]
        for i in range(n):
            if i != k and rows[i][k]:
                rows[i] = [x - rows[i][k] * y for x, y in zip(rows[i], rows[k])]
    return [row[n:] for row in rows]


def rounded_value(text: str) -> Fraction:
    """The exact value of the binary64 number nearest to a text, which is what the sheet holds."""
    return Fraction(number(nearest(value(text))))


def is_near(x: float, y: Fraction, allowance: int) -> bool:
    """Each is at most the other times 1 + E/2^53, which (1 + 1/2^53)^E is not below."""
    factor = 1 + Fraction(allowance, 2 ** 53)
    return x >= 0 and y >= 0 and Fraction(x) <= y * factor and y <= Fraction(x) * factor


def digits_of(text: str) -> int:
    """The significant digits of a decimal."""
    return len(re.sub(r"e.*|[.]", "", text).lstrip("0").rstrip("0") or "0")


def split_table(out: bytes, names: Sequence[str]) -> tuple[str, list[list[str]], list[str]]:
    """The first line of a table, its cells and its lines with numbers; checks the layout."""
    lines = out.decode().split("\n")
    end = 3 + len(names)
    assert lines[1] == "" and lines[end] == "" and lines[-1] == "" and len(lines) - end in (3, 4), lines
    assert not any(line != line.rstrip() for line in lines), "blanks at the end of a line"
    heading, rows = lines[2], lines[3:end]
    assert re.sub(r"\s+", " ", heading).strip() == re.sub(r"\s+", " ", " ".join(names)), heading
    cells = []
    for name, row in zip(names, rows, strict=True):
        assert row.startswith(name + " "), row
        cells.append(row[len(name):].split())
    return lines[0], cells, rows


def split_list(out: bytes, names: Sequence[str]) -> tuple[str, list[str], list[str]]:
    """The first line of a price list, its prices and its lines with prices; checks the layout."""
    lines = out.decode().split("\n")
    end = 2 + len(names)
    assert lines[1] == "" and lines[end] == "" and lines[-1] == "" and len(lines) - end in (3, 4), lines
    assert not any(line != line.rstrip() for line in lines), "blanks at the end of a line"
    width = max(len(name) for name in names) + 2
    prices = []
    for name, line in zip(names, lines[2:end], strict=True):
        assert line.startswith(name.ljust(width)), line
        prices.append(line[width:].strip())
    return lines[0], prices, lines[2:end]


def as_price_lines(names: Sequence[str], prices: Sequence[str]) -> str:
    """Unit prices as lines."""
    return "".join(f"{quoted(name)} {price}\n" for name, price in zip(names, prices, strict=True))


def as_price_rows(names: Sequence[str], prices: Sequence[str], separator: str) -> str:
    """Unit prices as a spreadsheet exports them."""
    rows = [("stage", "price"), *((f'"{name}"' if separator in name else name, price)
                                  for name, price in zip(names, prices, strict=True))]
    return "".join(separator.join(row) + "\n" for row in rows)


def shuffled(rng: random.Random, lines: str, first: int = 0) -> str:
    """The lines in another order, but for the first ones."""
    kept, rest = lines.splitlines()[:first], lines.splitlines()[first:]
    return "\n".join([*kept, *rng.sample(rest, len(rest))]) + "\n"


def counted(e: int) -> str:
    """What a table in units of 2^e seconds says that it counts."""
    return "Seconds" if e == 0 else "Ticks of 1/1,024 second" if e == -10 else f"Units of 2^{e} seconds"


def paid_for(e: int) -> str:
    """What a price list in units of 2^e seconds says that prices are per."""
    return "second" if e == 0 else "tick of 1/1,024 second" if e == -10 else f"2^{e} seconds"


def idle_line(out: bytes) -> str:
    """What a table or a price list says of idle stages below its numbers, nothing without such a line."""
    last_lines = out.decode().split("\n\n")[-1].split("\n")
    return last_lines[0] if len(last_lines) == 3 else ""


# ==== The tests ====

class Make(ToolTest):
    """Files made from texts."""

    def test_document_sheet_p(self) -> None:
        """Sheet P of document 01 in seconds, byte by byte, and what dwell prints for it."""
        data = self.make("reading leaving-rates\nstages a b\na -> b 1\nb -> a 1\na leaves 1\n")
        self.assertEqual(data.hex(), "060000000100" "010002000000" "120000000200" "0100" "000000000000f03f"
                                     "000000000000f0bf" "120000000200" "0200" "000000000000f0bf" "0000000000000000")
        self.assertEqual(dwell(data), b"seconds 2 32 0\n1 1 3ff0000000000000\n1 2 3ff0000000000000\n"
                                      b"2 1 3ff0000000000000\n2 2 4000000000000000\n")

    def test_lines(self) -> None:
        """Random sheets of every size as lines: each number is the nearest to what was typed."""
        rng = random.Random(1)
        for n in range(1, 33):
            for reading in (1, 2, 3):
                typed = random_typed(rng, reading, n)
                self.assertEqual(self.make(as_lines(typed)), expected_file(typed), as_lines(typed))

    def test_matrix(self) -> None:
        """Random sheets as matrices with each separator."""
        rng = random.Random(2)
        for n, reading in itertools.product((1, 2, 3, 8, 32), (1, 2, 3)):
            for separator in ",;\t":
                typed = random_typed(rng, reading, n)
                typed = typed._replace(names=[name.replace("#", "") for name in typed.names])
                text = as_matrix(typed, separator)
                self.assertEqual(self.make(text), expected_file(typed), text)

    def test_layout_of_lines(self) -> None:
        """Comments, blank lines, tabs, quotes, commas between names, line ends, a BOM, standard input."""
        plain = "reading margins\nstage a\nstage b\nstage c d\n".replace("c d", '"c d"')
        plain += 'a -> b 0.5\nb -> "c d" 2\na margin 1\nb margin 2\n"c d" margin 3\n'
        data = self.make(plain)
        other = ('# head\n\n  reading\tmargins # a comment, with "one quote\n\nstages a, b\nstage "c d"  # two\n'
                 'a->b 0.5\n\tb  ->\t"c d"   2#no blank before\n"a" margin 1\nb margin 0x2\n"c d" margin 3.0\n')
        self.assertEqual(self.make(other), data)
        self.assertEqual(self.make(other.replace("\n", "\r\n")), data)
        self.assertEqual(self.make(other.replace("\n", "\r")), data)
        self.assertEqual(self.make(b"\xef\xbb\xbf" + other.encode()), data)
        self.assertEqual(self.make(other.removesuffix("\n")), data)
        self.assertEqual(self.good("make", "-", stdin=other.encode()), data)

    def test_layout_of_a_matrix(self) -> None:
        """What spreadsheets write: quotes, CRLF, a BOM, empty cells and rows, dashes, blanks, any order of rows."""
        typed = Typed(1, ["a", "b c", "d, e"], {(0, 1): "0.5", (2, 0): "1e-6"}, {1: "2"})
        data = expected_file(typed)
        for text in ['x,a,b c,"d, e",leaves\na,,0.5,,\nb c,,,,2\n"d, e",1e-6,,,\n',
                     '"","a","b c","d, e","Leaves"\n"a","","0.5","",""\n"b c","","","","2"\n"d, e","1e-6","","",""\n',
                     ',a,b c,"d, e",leaves,,\na,0,0.5,0,0,,\nb c,0,0,0,2,,\n"d, e",1e-6,0,0,0,,\n,,,,,,\n',
                     '# top\n\n"# a, b; c",,,,\n,a , b c, "d, e",LEAVES\n"d, e",1e-6\n'
                     'a, - ,0.5, -\n b c ,-,,-,2\n#x\n',
                     'x;a;b c;d, e;leaves\na;;0.5\nb c;;;;2\nd, e;1e-6;;;\n',
                     'x\ta\tb c\td, e\tleaves\na\t\t0.5\nb c\t\t\t\t2\nd, e\t1e-6\t\t\t\n',
                     'stage\ta\tb c\td, e\tleaves\na\t\t0.5\nb c\t\t\t\t2\nd, e\t1e-6\t\t\t\n',
                     'stage,a,b c,"d, e",leaves\na,,0.5,,\nb c,,,,2\n"d, e",1e-6,,,\n']:
            self.assertEqual(self.make(text), data, text)
            self.assertEqual(self.make(text.replace("\n", "\r\n"), "line.csv"), data, text)
            self.assertEqual(self.make(b"\xef\xbb\xbf" + text.encode()), data, text)

    def test_separators_in_names(self) -> None:
        """A name may hold a separator that is not the one of its matrix, or any separator in quotes."""
        data = packed(1, 2, [nearest(Fraction(1)), nearest(Fraction(-2)), 0, 0])
        for text in ["x,a;b,c,leaves\na;b,,2,1\nc\n", 'x,"a,b",c;d, "Leaves",,\n"a,b",,2,1\nc;d\n',
                     'x;a,b;"c;d";leaves\na,b;;2;1\n"c;d"\n', "x\ta, b; c\td\tleaves\t\na, b; c\t\t2\t1\nd\t\n"]:
            self.assertEqual(self.make(text), data, text)

    def test_zeros(self) -> None:
        """Missing rates, typed zeros and minus zeros all become plus zero."""
        data = packed(1, 2, [0, 0, nearest(Fraction(-1)), 0])
        self.assertEqual(self.make("reading leaving-rates\nstages a b\nb -> a 1\n"), data)
        zeros = "a -> b -0.0\na leaves 0\nb leaves -0\n"
        self.assertEqual(self.make("reading leaving-rates\nstages a b\nb -> a 1\n" + zeros), data)
        self.assertEqual(self.make(",a,b,leaves\na,0,-0,0x0p0\nb,1,-0,0e999\n"), data)

    def test_edges_of_the_range(self) -> None:
        """The largest and the smallest numbers that a sheet may hold are taken."""
        for text in ("0x1p-1022", "2.2250738585072014e-308", "1.7976931348623157e308", "0x1.fffffffffffffp1023"):
            data = self.make(f"reading margins\nstage a\na margin {text}\n")
            self.assertEqual(data, packed(2, 1, [nearest(value(text))]))

    def test_terminal(self) -> None:
        """Binary output to a terminal is refused with a sentence."""
        self.write("line.txt", "reading leaving-rates\nstage a\na leaves 1\n")
        master, slave = pty.openpty()
        result = process("make", "line.txt", stdout=slave)
        os.close(slave)
        os.close(master)
        self.assertEqual(result.status, 1)
        self.assertRegex(result.err, r"^a sheet file is not text: .*> FILE.*\n$")


START = "reading leaving-rates\nstages a b\n"
MARGINS = "reading margins\nstages a b\n"
WEIGHTS = "reading weights\nstages a b\n"
MATRIX = "from,a,b,leaves\n"
WEIGHT_MATRIX = "from,a,b,sum,weight\n"
THE_READING = "the reading is 'leaving-rates', 'margins' or 'weights'"
LAST_CELLS = "'leaves', 'margin' or the two cells 'sum' and 'weight' at its end"
ERRORS: list[tuple[str, int, str]] = [
    # the text, the line of the error, and words of its message
    ("", 1, "the text is empty"),
    ("# only\n\n  # comments\n", 4, "the text is empty"),
    ("\n,,,\n", 3, "the text is empty"),
    ('"","",""\n', 2, "the text is empty"),
    ("stages a b\nreading margins\n", 1, "a text begins with 'reading"),
    ("stages a, b\n", 1, "a text begins with 'reading"),
    ("\n# x\na leaves 1\n", 3, "a text begins with 'reading"),
    *((f"reading{words}\n", 1, THE_READING) for words in ("", " rates", " margins please", " weight", " Weights")),
    (START + "reading margins\n", 3, "the reading is given twice"),
    ("reading margins\n\n# nothing\n", 4, "no stage is named"),
    (START + "\na -> c 1\n", 4, "unknown stage 'c'"),
    (START + "c -> a 1\n", 3, "unknown stage 'c'"),
    (START + "c leaves 1\n", 3, "unknown stage 'c'"),
    (START + "A leaves 1\n", 3, "unknown stage 'A'"),
    (START + "stage b\n", 3, "stage 'b' is named twice (first on line 2)"),
    ("reading margins\nstages a b a\n", 2, "stage 'a' is named twice (first on line 2)"),
    (START + "a -> b 1\n\na -> b 1\n", 5, "the rate from 'a' to 'b' is given twice (first on line 3)"),
    (START + "a leaves 0\nb leaves 1\na leaves 1\n", 5, "the leaving rate of 'a' is given twice (first on line 3)"),
    (MARGINS + "a margin 1\na margin 1\n", 4, "the margin of 'a' is given twice (first on line 3)"),
    (START + "a -> a 1\n", 3, "stage 'a' has a rate to itself"),
    (START + "a -> b fast\n", 3, "'fast' is not a number"),
    (START + "a -> b nan\n", 3, "'nan' is not a number"),
    (START + "a -> b inf\n", 3, "'inf' is not a number"),
    (START + "a -> b 1_000\n", 3, "'1_000' is not a number"),
    (START + "a -> b 5%\n", 3, "'5%' is not a number"),
    (START + "a -> b 0x\n", 3, "'0x' is not a number"),
    (START + "a -> b 1p3\n", 3, "'1p3' is not a number"),
    (START + "a -> b .\n", 3, "'.' is not a number"),
    (START + "a -> b \u0661\n", 3, "is not a number"),
    (START + 'a -> b "1"\n', 3, "is not a number"),
    (START + "a -> b -0.5\n", 3, "'-0.5' is negative"),
    (START + "a leaves -0x1p-3\n", 3, "'-0x1p-3' is negative"),
    (MARGINS + "a margin -1\n", 3, "'-1' is negative"),
    (MARGINS + "a margin 0.0\n", 3, "the margin of 'a' is zero"),
    (START + "a -> b 1e309\n", 3, "'1e309' is too large"),
    (START + "a -> b 0x1p1024\n", 3, "'0x1p1024' is too large"),
    (START + "a -> b 1e-400\n", 3, "'1e-400' is too small"),
    (START + "a -> b -1e-400\n", 3, "'-1e-400' is too small"),
    (START + "a -> b 0x1p-1023\n", 3, "'0x1p-1023' is too small"),
    (START + "a -> b 2.225073858507201e-308\n", 3, "is too small"),
    (START + "a -> b 0x1p-99999\n", 3, "is too small"),
    (MARGINS + "a margin 1\n", 2, "stage 'b' has no margin"),
    (MARGINS + "a margin 1\nb leaves 1\n", 4, "this text has margins, not leaving rates"),
    (START + "a margin 1\n", 3, "this text has leaving rates, not margins"),
    (START + "a sum 1\n", 3, "this text has leaving rates, not weighted row sums"),
    (MARGINS + "a weight 1\n", 3, "this text has margins, not weights"),
    (WEIGHTS + "a leaves 1\n", 3, "this text has weights, not leaving rates"),
    (WEIGHTS + "a sum 1\na margin 1\n", 4, "this text has weights, not margins"),
    (WEIGHTS + "c weight 1\n", 3, "unknown stage 'c'"),
    (WEIGHTS + "a sum 1\na sum 1\n", 4, "the weighted row sum of 'a' is given twice (first on line 3)"),
    (WEIGHTS + "a weight 1\nb sum 1\na weight 2\n", 5, "the weight of 'a' is given twice (first on line 3)"),
    (WEIGHTS + "a sum 0\n", 3, "the weighted row sum of 'a' is zero (weighted row sums are positive)"),
    (WEIGHTS + "a sum 1\na weight -0.0\n", 4, "the weight of 'a' is zero (weights are positive)"),
    (WEIGHTS + "a sum -1\n", 3, "'-1' is negative (weighted row sums are positive)"),
    (WEIGHTS + "a weight -0x1p3\n", 3, "'-0x1p3' is negative (weights are positive)"),
    (WEIGHTS + "a -> b -1\n", 3, "'-1' is negative (rates are typed as positive numbers)"),
    (WEIGHTS + "a weight heavy\n", 3, "'heavy' is not a number"),
    (WEIGHTS + "a weight 1e309\n", 3, "'1e309' is too large"),
    (WEIGHTS + "a weight 1e-309\n", 3, "'1e-309' is too small"),
    (WEIGHTS, 2, "stage 'a' has no weighted row sum"),
    (WEIGHTS + "a sum 1\nb sum 1\nb weight 1\n", 2, "stage 'a' has no weight"),
    (WEIGHTS + "a sum 1\na weight 1\nb weight 1\n", 2, "stage 'b' has no weighted row sum"),
    ("reading weights\nstage a\n\nstage b\na sum 1\na weight 1\nb sum 1\n", 4, "stage 'b' has no weight"),
    (WEIGHTS + "a sum 1 weight 2\n", 3, "write 'FROM -> TO RATE', 'NAME sum NUMBER' or 'NAME weight NUMBER' (quote"),
    (WEIGHTS + "a sum 0,5\n", 3, "numbers have a decimal point"),
    (MARGINS + "a b 1\n", 3, "write 'FROM -> TO RATE' or 'NAME margin NUMBER' (quote a name with spaces"),
    ("reading margins\nstages " + " ".join(f"s{k}" for k in range(20)) + "\n\nstages "
     + " ".join(f"t{k}" for k in range(13)) + "\n", 4, "stage 't12' is one too many: a sheet has at most 32 stages"),
    (START + "a -> b\n", 3, "write 'FROM -> TO RATE'"),
    (START + "a -> b 1 2\n", 3, "write 'FROM -> TO RATE'"),
    (START + "a b 1\n", 3, "write 'FROM -> TO RATE' or 'NAME leaves NUMBER' (quote a name with spaces"),
    (START + "a -> b 0,5\n", 3, "numbers have a decimal point"),
    (START + "a leaves 0,5\n", 3, "numbers have a decimal point"),
    (START + "speed 5\n", 3, "write 'FROM -> TO RATE'"),
    *((START + f"unit{words}\n", 3, "the unit is 'seconds', 'ticks' or '2^E seconds' with E from -512 to 512 "
       "(a stage of this name stands in quotes)")
      for words in ("", " 5", " second", " minutes", " Ticks", ' "ticks"', " seconds seconds", " 2^3", " 2^513 seconds",
                    " 2^-513 seconds", " 2^ seconds", " 2^1.5 seconds", " 2^x seconds", " 2^-10 ticks", " -10",
                    " 2 ^ 3 seconds", " 2^\u0661 seconds", " 4^3 seconds", " 2^99999999999 seconds", " leaves 1",
                    " 2^--1 seconds", " 2^3, seconds")),
    (START + "unit ticks\n\nunit seconds\n", 5, "the unit is given twice (first on line 3) (a stage of this name"),
    (START + "unit -> a 5\n", 3, "unknown stage 'unit'"),
    ("unit ticks\nreading margins\n", 1, "a text begins with 'reading"),
    (START + "key ceremony leaves 5\n", 3, "quote a name with spaces"),
    (START + "stage\n", 3, "write 'stage NAME'"),
    (START + "stages ,\n", 3, "write 'stage NAME'"),
    (START + "stage key ceremony\n", 3, "quote a name with spaces"),
    (START + "stages c -> d\n", 3, "write 'stage NAME'"),
    (START + 'stage "c\n', 3, "a double quote is not closed"),
    (START + 'stage ""\n', 3, "a stage has an empty name"),
    (START + 'stage " "\n', 3, "a stage has an empty name"),
    (START + 'stage "a\u0007b"\n', 3, "not printable"),
    (START + "a,0,1,2\n", 3, "a row of a matrix stands among lines (a text keeps to one form)"),
    (START + "a;0;1;2\n", 3, "a row of a matrix stands among lines"),
    (START + "a\t0\t1\t2\n", 3, "a row of a matrix stands among lines"),
    (MATRIX + "a,,1,\na -> b 1\n", 3, "a line of the other form stands in a matrix (a text keeps to one form)"),
    (MATRIX + "a leaves 1\n", 2, "a line of the other form stands in a matrix"),
    (WEIGHT_MATRIX + "a weight 1\n", 2, "a line of the other form stands in a matrix"),
    (WEIGHT_MATRIX + "a,,1,1,1,1\n", 2, "the row has 6 cells, the header has 5"),
    (WEIGHT_MATRIX + "a,,1,0,1\n", 2, "the weighted row sum of 'a' is zero (weighted row sums are positive)"),
    (WEIGHT_MATRIX + "a,,1,1,-0\n", 2, "the weight of 'a' is zero (weights are positive)"),
    (WEIGHT_MATRIX + "a,,1,1,-2\n", 2, "'-2' is negative (weights are positive)"),
    (WEIGHT_MATRIX + "a,,1,1,1\nb,,,1\n", 3, "stage 'b' has no weight"),
    (WEIGHT_MATRIX + "b,,,1,-\na,,1,1,1\n", 2, "stage 'b' has no weight"),
    (WEIGHT_MATRIX + "a,,1,,1\nb,,,1,1\n", 2, "stage 'a' has no weighted row sum"),
    (WEIGHT_MATRIX + "a,,1\nb,,,1,1\n", 2, "stage 'a' has no weighted row sum"),
    (WEIGHT_MATRIX + "a,,1,1,1\n", 1, "stage 'b' has no row"),
    (MATRIX + "reading margins\n", 2, "a line of the other form stands in a matrix"),
    *((f"{header}\na,,1,1,1\n", 1, LAST_CELLS)
      for header in ("from,a,b", "a,leaves", "from,a,b,weight", "from,a,b,sum", "from,a,b,weight,sum", "sum,weight",
                     "from,sum,weight", "from,a,b,sum,,weight", "from,a,b,sum,weights", "from,a,b,margin,weight")),
    ("from,a,,leaves\n", 1, "a stage has an empty name"),
    ("from,a,b,a,leaves\n", 1, "stage 'a' is named twice (first on line 1)"),
    ('from,"a""b",leaves\n', 1, "holds a double quote"),
    ("from," + ",".join(f"s{k}" for k in range(33)) + ",leaves\n", 1, "stage 's32' is one too many"),
    (MATRIX + "a,,1,\n\nc,,,1\n", 4, "unknown stage 'c'"),
    (MATRIX + ",,1,\n", 2, "unknown stage ''"),
    (MATRIX + "a,,1,\nb,,,1\na,,1,\n", 4, "stage 'a' has two rows (first on line 2)"),
    ("# x\n" + MATRIX + "a,,1,1\n", 2, "stage 'b' has no row"),
    (MATRIX + "a,1,1,\nb,,,1\n", 2, "stage 'a' has a rate to itself"),
    (MATRIX + "a,x,1,\nb,,,1\n", 2, "stage 'a' has a rate to itself"),
    (MATRIX + 'a,,"0,5",\nb,,,1\n', 2, "'0,5' is not a number"),
    (MATRIX + "a,,-1,\nb,,,1\n", 2, "'-1' is negative"),
    (MATRIX + "a,,1,-1\nb,,,1\n", 2, "'-1' is negative"),
    (MATRIX + "a,,1,#REF!\nb,,,1\n", 2, "'#REF!' is not a number"),
    (MATRIX + "a,,1,,9\nb,,,1\n", 2, "the row has 5 cells, the header has 4"),
    (MATRIX + 'a,,"1,\nb,,,1\n', 2, "a double quote is not closed"),
    (MATRIX + 'a,,"1"2,\nb,,,1\n', 2, "a double quote is not closed or stands inside a cell"),
    *((f"unit{cells}\n" + MATRIX + "a,,1,1\nb,,,\n", 1, "the unit is 'seconds', 'ticks' or '2^E seconds' with E from "
       "-512 to 512") for cells in (",", ",5", ",second", ",2^513 seconds", ",ticks,x", ",,", ',"2^-10"')),
    ("# x\nunit,ticks\nUnit,ticks\n" + MATRIX + "a,,1,1\nb,,,\n", 3, "the unit is given twice (first on line 2)"),
    ("unit,ticks\n\n", 3, "no header row of stage names follows the unit"),
    ("unit,ticks\na,,1,1\n", 2, LAST_CELLS),
    ("unit,leaves\n", 1, LAST_CELLS),
    ("unit,sum,weight\n", 1, LAST_CELLS),
    (MATRIX + "unit,ticks\na,,1,1\nb,,,\n", 2, "the row with the unit stands before the header row"),
    (MATRIX + "unit ticks\n", 2, "a line of the other form stands in a matrix"),
    ("from,a,b,margin\na,,1,1\nb,,,\n", 3, "stage 'b' has no margin"),
    ("from,a,b,margin\na,,1,1\nb,,,0\n", 3, "the margin of 'b' is zero"),
]


class Errors(ToolTest):
    """Errors are one line that names the file and the line, with exit status 1."""

    def test_texts(self) -> None:
        """Every error of a text."""
        for text, line, words in ERRORS:
            with self.subTest(text=text):
                said = self.bad("make", self.write("line.txt", text))
                self.assertTrue(said.startswith(f"line.txt:{line}: "), said)
                self.assertIn(words, said)

    def test_standard_input(self) -> None:
        """A text on standard input has a name too."""
        self.assertEqual(self.bad("make", "-", stdin=b"reading x\n"), f"<stdin>:1: {THE_READING}")

    def test_bytes(self) -> None:
        """Bytes that are not UTF-8, and a text that is too long."""
        self.assertEqual(self.bad("make", self.write("line.txt", b"reading margins\nstage a\n\xff\n")),
                         "line.txt:3: this is not UTF-8 text")
        self.assertRegex(self.bad("make", self.write("line.txt", b"#" * (1 << 20) + b"\n")), "^line.txt: .*longer")
        self.assertRegex(self.bad("make", "/dev/zero"), "^/dev/zero: .*longer")

    def test_no_file(self) -> None:
        """A file that is not there."""
        self.write("prices.txt", "s1 1\n")
        for arguments in (["make", "no.txt"], ["show", "no.txt"], ["table", "no.txt"],
                          ["table", "--names", "no.txt"], ["prices", "no.txt"], ["prices", "prices.txt", "no.txt"],
                          ["prices", "prices.txt", "--names", "no.txt"]):
            self.assertEqual(self.bad(*arguments), "no.txt: No such file or directory")

    def test_standard_input_twice(self) -> None:
        """Standard input is read for one purpose."""
        for arguments in (["show", "-", "--names", "-"], ["table", "--names", "-"], ["table", "-", "--names", "-"],
                          ["prices", "-"], ["prices", "-", "-"], ["prices", "-", "out.txt", "--names", "-"],
                          ["prices", "prices.txt", "--names", "-"], ["prices", "-", "-", "--names", "-"]):
            self.assertEqual(self.bad(*arguments), "standard input cannot be read twice: give a file its name")

    def test_usage(self) -> None:
        """Help ends with status 0, a wrong command line with 2."""
        for command in ([], ["make"], ["show"], ["table"], ["prices"]):
            self.assertIn(b"usage: sheet.py", self.good(*command, "--help"))
        self.assertIn(b"FROM", self.good("make", "--help").upper())
        for word in (b"\n  signer leaves ", b"\n  signer margin ", b"\n  signer sum ", b"\n  signer weight "):
            self.assertIn(word, self.good("make", "--help"))
        self.assertIn(b"\n  stage,price  ", self.good("prices", "--help"))
        self.assertIn(b"sheet.py prices prices.txt --names line.txt\n", self.good("--help"))
        for arguments in ([], ["weigh"], ["make"], ["make", "a", "b"], ["show", "--hex", "x"], ["prices"],
                          ["prices", "a", "b", "c"]):
            self.assertEqual(run(*arguments).status, 2)

    def test_output(self) -> None:
        """A reader that stops early and a full disk end the command without a trace of its inside."""
        data = packed(2, 32, [nearest(Fraction(1 if k % 33 == 0 else -1)) for k in range(1024)])
        name = self.write("line.sheet", data)
        with open("/dev/full", "wb") as full:
            result = process("show", name, stdout=full.fileno())
        self.assertEqual((result.status, result.err), (1, "standard output: No space left on device\n"))
        reader, writer = os.pipe()
        os.close(reader)
        result = process("show", name, stdout=writer)
        os.close(writer)
        self.assertEqual((result.status, result.err), (1, ""))
        result = process("show", name)
        self.assertEqual((result.status, result.err), (0, ""))
        self.assertEqual(result, run("show", name))


class Show(ToolTest):
    """Sheet files as text."""

    def test_round_trip(self) -> None:
        """What make wrote comes back with the same bytes, with names and without, in each reading."""
        rng = random.Random(3)
        for n in (1, 2, 3, 4, 5, 8, 9, 16, 31, 32):
            for reading in (1, 2, 3):
                typed = random_typed(rng, reading, n)
                data = self.make(as_lines(typed))
                self.write("line.sheet", data)
                text = self.good("show", "line.sheet")
                self.assertEqual(self.make(text, "shown.txt"), data)
                named = self.good("show", "line.sheet", "--names", "line.txt")
                self.assertEqual(self.make(named, "shown.txt"), data)
                self.assertEqual(self.good("show", "-", "--names", "shown.txt", stdin=data), named)
                self.assertEqual(self.good("show", "line.sheet", "--names", "-", stdin=named), named)
                self.assertNotIn(b"#", re.sub(rb'"[^"]*"', b"", named))

    def test_lines_and_numbers(self) -> None:
        """The shown numbers are the shortest decimals that read back, one line each."""
        rng = random.Random(4)
        words = [0 if rng.random() < 0.3 else nearest(-value(random_text(rng))) for _ in range(49)]
        for i in range(7):
            words[i * 8] = nearest(value(random_text(rng)))
        text = self.good("show", "-", stdin=packed(1, 7, words)).decode()
        self.assertTrue(text.startswith("reading leaving-rates\nunit seconds\nstages s1 s2 s3 s4 s5 s6 s7\n\n"))
        found = [0] * 49
        for i, shape, j, typed in re.findall(r"^s(\d) (->|leaves)(?: s(\d))? (\S+)$", text, re.MULTILINE):
            place = (int(i) - 1) * 7 + int(j or i) - 1
            self.assertEqual(shape == "leaves", place % 8 == 0)
            found[place] = nearest(value(typed) if shape == "leaves" else -value(typed))
            self.assert_shortest(typed, abs(number(words[place])))
        self.assertEqual(found, words)
        self.assertEqual(len([line for line in text.split("\n") if line]), 3 + sum(word != 0 for word in words))

    def test_numbers_that_make_does_not_write(self) -> None:
        """NaN, infinities, wrong signs, minus zeros and numbers below 2^-1022 are shown with their bits."""
        cases = [(0x7ff8dead00000001, "nan", "nan"), (0xfff0000000000001, "nan", "nan"),
                 (0x7ff0000000000000, "inf", "-inf"), (0xfff0000000000000, "-inf", "inf"),
                 (0x8000000000000000, "-0", "0"), (1, "5e-324", "-5e-324"), (0x8000000000000001, "-5e-324", "5e-324"),
                 (0x000fffffffffffff, "2.225073858507201e-308", None), (0x4014000000000000, None, "-5"),
                 (0xc014000000000000, "-5", None)]
        for word, diagonal, off in cases:
            text = self.good("show", "-", stdin=packed(1, 2, [word, word, 0, 0])).decode()
            if diagonal is not None:
                self.assertIn(f"\ns1 leaves {diagonal}  # bits {word:016x}\n", text)
            if off is not None:
                self.assertIn(f"\ns1 -> s2 {off}  # bits {word:016x}\n", text)
            text = self.good("show", "-", stdin=packed(3, 1, [word, word])).decode()
            if diagonal is not None:
                self.assertIn(f"\ns1 sum {diagonal}  # bits {word:016x}\n", text)
                self.assertIn(f"\ns1 weight {diagonal}  # bits {word:016x}\n", text)
        self.assertIn("\ns1 margin 0  # bits 0000000000000000\n",
                      self.good("show", "-", stdin=packed(2, 1, [0])).decode())
        self.assertIn("\ns1 sum 0  # bits 0000000000000000\ns1 weight 0  # bits 0000000000000000\n",
                      self.good("show", "-", stdin=packed(3, 1, [0, 0])).decode())
        nan = self.good("show", "-", stdin=packed(1, 2, [0, 0x7ff8dead00000001, 0, 0]))
        self.assertEqual(self.bad("make", "-", stdin=nan),
                         "<stdin>:5: 'nan' is not a number (write it like 0.25, 1e-6 or 0x1p-20)")

    def test_damaged_files(self) -> None:
        """A file that dwell does not read is refused in words, by the same number and row."""
        self.write("names.txt", "reading margins\nstages first second\n")
        words = [nearest(Fraction(x)) for x in (1, -1, -1, 0)]
        damaged = [struct.pack("<IH", length, 2) + bytes(10000) for length in (8717, 8718)]
        damaged += [packed(1, 2, words, e) for e in (513, -513, -32768)]
        damaged += [struct.pack("<IH", length, 1) + bytes([1, 0, 2, 0, 0, 0, 0, 0])[:length] + packed_rows(2, words)
                    for length in (0, 3, 5, 7, 8)]
        for data in (packed(1, 2, words, -10), packed_short(1, 2, words)):
            rows = len(data) - 48
            damaged += [data[:cut] for cut in (0, 5, 6, rows - 1, rows, rows + 5, rows + 23, rows + 24, rows + 47)]
            damaged += [data + b"\0", data + bytes(10000)]
            damaged += [data[:at] + bytes([at + 3]) + data[at + 1:]
                        for at in (0, 4, 6, rows, rows + 4, rows + 6, rows + 24, rows + 28, rows + 30)]
            damaged += [data[:8] + bytes([count]) + data[9:] for count in (0, 1, 3, 33)]
            damaged += [data[:6] + bytes([reading]) + data[7:] for reading in (0, 3, 4)]
        weights = packed_rows(2, [0] * 6)[48:]
        with_weights = packed(3, 2, [nearest(Fraction(x)) for x in (2, -1, -1, 1, 1, 2)], 7)
        rows = with_weights[:-22]
        damaged += [with_weights[:cut] for cut in (12, 36, 59, 60, 65, 66, 81)]
        damaged += [with_weights + b"\0", with_weights + weights, rows + packed_rows(2, [0] * 4)[:24],
                    rows + struct.pack("<IH", 8, 3) + bytes(8), rows + struct.pack("<IH", 24, 3) + bytes(24),
                    rows + struct.pack("<IH", 16, 4) + bytes(16), packed(1, 2, words) + weights]
        rows_told = set()
        for content in damaged:
            printed = re.fullmatch(r"refused (\d+) (\d+) 0\n", dwell(content).decode())
            assert printed is not None, content
            row = int(printed[2])
            said = self.bad("show", self.write("x.sheet", content), "--names", "names.txt")
            place = f" at row {row}" if row else ""
            self.assertTrue(said.startswith(f"x.sheet: refused ({printed[1]}{place}): the file "), said)
            if row:
                self.assertIn(["the row of stage 1 (first)", "the row of stage 2 (second)",
                               "the record of the weights"][row - 1], said)
            rows_told.add((printed[1], row))
        self.assertEqual(rows_told, {("11", 0), ("11", 1), ("11", 2), ("11", 3), ("12", 0), ("13", 1), ("13", 2),
                                     ("13", 3), ("14", 0)})
        self.assertIn("refused (11", self.bad("show", "/dev/null"))
        self.assertIn("refused (12", self.bad("show", "/dev/zero"))

    def test_names(self) -> None:
        """The names have to be as many as the stages; a matrix has names too."""
        self.write("line.csv", "x,key check,b,margin\nkey check,,1,1\nb,,,1\n")
        data = packed(1, 2, [nearest(Fraction(x)) for x in (1, -1, -1, 0)])
        self.assertEqual(self.good("show", "-", "--names", "line.csv", stdin=data).decode(),
                         'reading leaving-rates\nunit seconds\nstages "key check" b\n\n"key check" -> b 1\n'
                         '"key check" leaves 1\n\nb -> "key check" 1\n')
        self.assertEqual(self.bad("show", "-", "--names", "line.csv", stdin=packed(1, 1, [0])),
                         "line.csv: the text names 2 stages, <stdin> has 1")


class Tables(ToolTest):
    """dwell's output as a table."""

    def check_table(self, typed: Typed) -> list[float] | None:
        """make, dwell and table on a typed sheet against the exact inverse of what the sheet holds."""
        self.write("line.txt", as_lines(typed))
        printed = dwell(self.good("make", "line.txt"))
        if printed.startswith(b"refused"):
            return None
        n = len(typed.names)
        words = [int(line.split()[2], 16) for line in printed.decode().split("\n")[1:-1]]
        out = self.good("table", "--names", "line.txt", stdin=printed)
        first, cells, rows = split_table(out, typed.names)
        self.assertEqual(first, f"{counted(power_of(typed.unit))} at each stage (columns) for a request that enters "
                                "at the stage on the left:")
        texts = [text for row in cells for text in row]
        self.assertEqual([nearest(value(text)) for text in texts], words)
        for text, word in zip(texts, words):
            self.assert_shortest(text, number(word))
        self.check_alignment(rows, typed.names)
        allowance = ALLOWANCES[typed.reading] * n ** 3
        exact = exact_seconds(typed, rounded_value)
        for place, word in enumerate(words):
            self.assertTrue(is_near(number(word), exact[place // n][place % n], allowance))
        self.assertEqual(idle_line(out) != "", len(live_stages(typed)) < n)
        self.check_accuracy_line(out, allowance)
        self.check_hexadecimal(printed, typed.names, words)
        return [number(word) for word in words]

    def check_hexadecimal(self, printed: bytes, names: Sequence[str], words: Sequence[int]) -> None:
        """With --hex the same bits are printed as hexadecimal floats without needless zeros."""
        _, cells, rows = split_table(self.good("table", "--hex", "--names", "line.txt", stdin=printed), names)
        texts = [text for row in cells for text in row]
        self.assertEqual([nearest(value(text)) for text in texts], list(words))
        for text in texts:
            self.assertRegex(text, r"^0x(0p\+0|1(\.[0-9a-f]{0,12}[1-9a-f])?p[+-]\d+)$")
        self.check_alignment(rows, names)

    def test_random_sheets(self) -> None:
        """Random sheets of each reading; leaving rates far below the rates."""
        rng = random.Random(5)
        accepted = Counter(reading for n in (1, 2, 2, 3, 3, 4, 5, 6) for reading in (1, 2, 3)
                           if self.check_table(random_typed(rng, reading, n, random_rate)) is not None)
        self.assertGreater(min(accepted[reading] for reading in (1, 2, 3)), 3)

    def test_idle_stages(self) -> None:
        """Random sheets, each with one to three idle stages at any places."""
        rng = random.Random(8)
        for n in (1, 2, 2, 3, 3, 4, 5, 6):
            typed = random_typed(rng, 1, n, random_rate)
            left = set(range(n)) - set(rng.sample(range(n), rng.randint(1, min(n, 3))))
            rates = {pair: text for pair, text in typed.rates.items() if left.issuperset(pair)}
            typed = typed._replace(rates=rates, diagonal={i: random_rate(rng) for i in left})
            self.assertIsNotNone(self.check_table(typed))

    def test_thirty_two_stages(self) -> None:
        """A line of 32 stages with a loop and leaving rates of a millionth."""
        names = [f"bench {k}" for k in range(1, 33)]
        rates = {(i, (i + 1) % 32): f"0.{i + 1}" for i in range(32)}
        rates |= {(i, (i * 7 + 3) % 32): "0.25" for i in range(0, 32, 3) if (i * 6 + 2) % 32 not in (0, 31)}
        typed = Typed(1, names, {pair: text for pair, text in rates.items() if pair[0] != pair[1]},
                      {i: "1e-6" for i in range(32)})
        self.assertIsNotNone(self.check_table(typed))
        weights = [f"{i % 5 + 1}e{i % 7 - 3}" for i in range(32)]
        self.assertIsNotNone(self.check_table(typed._replace(reading=3, weights=weights)))

    def test_without_names(self) -> None:
        """Stages are s1, s2, ... without --names; a file is read as well as standard input."""
        printed = dwell(packed(1, 2, [nearest(Fraction(x)) for x in (1, -1, -1, 0)]))
        out = self.good("table", stdin=printed)
        self.assertEqual(split_table(out, ["s1", "s2"])[1], [["1", "1"], ["1", "2"]])
        self.assertEqual(self.good("table", "-", stdin=printed), out)
        self.assertEqual(self.good("table", self.write("out.txt", printed)), out)

    def test_names_from_standard_input(self) -> None:
        """--names - beside a file; a text needs no more than its reading and its stages."""
        self.write("out.txt", "seconds 1 12 0\n1 1 3fd5555555555555\n")
        out = self.good("table", "out.txt", "--names", "-", stdin=b"reading margins\nstage only\n")
        self.assertEqual(split_table(out, ["only"])[1], [["0.3333333333333333"]])
        self.assertEqual(self.bad("table", "out.txt", "--names", "-", stdin=b"reading margins\nstages a b\n"),
                         "<stdin>: the text names 2 stages, out.txt has 1")

    def test_known_hexadecimals(self) -> None:
        """Hexadecimal floats as C's printf writes them."""
        for word, text in [(0x3fd5555555555555, "0x1.5555555555555p-2"), (0x3ff0000000000000, "0x1p+0"),
                           (0, "0x0p+0"), (0x0010000000000001, "0x1.0000000000001p-1022"),
                           (0x4028000000000000, "0x1.8p+3"),
                           (0x7fefffffffffffff, "0x1.fffffffffffffp+1023"), (0x4030100000000000, "0x1.01p+4")]:
            out = self.good("table", "--hex", stdin=f"seconds 1 4 0\n1 1 {word:016x}\n".encode())
            self.assertEqual(split_table(out, ["s1"])[1], [[text]])

    def test_not_dwells_output(self) -> None:
        """Input that dwell did not print is told by its line."""
        good = "seconds 2 32 0\n" + "".join(f"{place} 4000000000000000\n" for place in ("1 1", "1 2", "2 1", "2 2"))
        for text, line in [("", 1), ("hello\n", 1), ("seconds 0 4 0\n", 1), ("seconds 33 4 0\n", 1), ("refused 7\n", 1),
                           *((good.replace("32 0", f"32{last}"), 1)
                             for last in ("", " ", " 513", " -513", " -0", " 00", " +1", " 1.5", " x", " 0 0", " 0 ")),
                           ("refused 7 1 1\nmore\n", 1), (good[:40], 3), (good.replace("1 2 4", "1 3 4"), 3),
                           (good.replace("2 2 4", "2 2 g"), 5), (good + "2 3 4000000000000000\n", 6),
                           (good.replace("seconds", "Seconds"), 1), (good.replace("2 1 4", "2 1  4"), 4)]:
            self.assertTrue(self.bad("table", stdin=text.encode()).startswith(f"<stdin>:{line}: "), text)
        self.assertEqual(self.bad("table", stdin=b"seconds 1 4 0\n\xff"), "<stdin>:2: this is not UTF-8 text")


class Idle(ToolTest):
    """Stages without any rate, from a text to the table."""

    LINES = "reading leaving-rates\nstages a gluing b packing\na -> b 1\nb -> a 1\na leaves 1\n"
    CELLS = [["1", "0", "1", "0"], ["0"] * 4, ["1", "0", "2", "0"], ["0"] * 4]

    def table(self, text: str, *options: str) -> bytes:
        """The table of a text with its names."""
        return self.good("table", *options, "--names", "line.txt", stdin=dwell(self.make(text)))

    def test_lines(self) -> None:
        """Sheet P with two idle stages: the table, and the line that names them."""
        out = self.table(self.LINES)
        self.assertEqual(split_table(out, ["a", "gluing", "b", "packing"])[1], self.CELLS)
        self.assertEqual(idle_line(out), "Idle, without any rate or leaving rate: gluing, packing. "
                                         "Their rows and columns are zero.")
        self.assertEqual(idle_line(self.table(self.LINES, "--hex")), idle_line(out))
        zeros = "gluing -> a 0\nb -> packing 0.0\ngluing leaves 0\npacking leaves -0\n"
        self.assertEqual(self.table(self.LINES + zeros), out)

    def test_one(self) -> None:
        """One idle stage; names that stand in quotes in a text do so in the line; none without an idle stage."""
        out = self.table('reading leaving-rates\nstages a "glue, then press"\na leaves 4\n')
        self.assertEqual(split_table(out, ["a", "glue, then press"])[1], [["0.25", "0"], ["0", "0"]])
        self.assertEqual(idle_line(out), 'Idle, without any rate or leaving rate: "glue, then press". '
                                         "Its row and column are zero.")
        self.assertEqual(idle_line(self.table("reading leaving-rates\nstages a b\na leaves 4\nb -> a 1\n")), "")
        self.assertEqual(idle_line(self.table("reading margins\nstages a b\na margin 4\nb margin 1\n")), "")

    def test_all(self) -> None:
        """Only idle stages, without names."""
        printed = dwell(packed(1, 3, [0, 1 << 63, 0] * 3))
        out = self.good("table", stdin=printed)
        self.assertEqual(split_table(out, ["s1", "s2", "s3"])[1], [["0"] * 3] * 3)
        self.assertEqual(idle_line(out), "Idle, without any rate or leaving rate: s1, s2, s3. "
                                         "Their rows and columns are zero.")

    def test_matrix(self) -> None:
        """The row of an idle stage has empty cells, dashes, zeros or no cells at all, and is not left out."""
        data = self.make(self.LINES)
        for row in ("gluing,,,,,", "gluing,-,-,-,-,-", "gluing,0,0,0,0,0", "gluing", "gluing,,-,0"):
            text = f"from,a,gluing,b,packing,leaves\na,,,1,,1\n{row}\nb,1,,,,\npacking\n"
            self.assertEqual(self.make(text, "line.csv"), data, text)
            self.assertEqual(self.make(text.replace(",", ";"), "line.csv"), data, text)
        out = self.good("table", "--names", "line.csv", stdin=dwell(data))
        self.assertEqual(split_table(out, ["a", "gluing", "b", "packing"])[1], self.CELLS)
        self.assertEqual(self.bad("make", self.write("line.csv", "from,a,gluing,leaves\na,,,1\n")),
                         "line.csv:1: stage 'gluing' has no row")

    def test_show(self) -> None:
        """A sheet file keeps its idle stages, which have no line of their own in the text."""
        data = self.make(self.LINES)
        shown = self.good("show", "-", "--names", "line.txt", stdin=data).decode()
        self.assertEqual(shown, "reading leaving-rates\nunit seconds\nstages a gluing b packing\n\n"
                                "a -> b 1\na leaves 1\n\nb -> a 1\n")
        self.assertEqual(self.make(shown), data)
        only = packed(1, 32, [0] * 1024)
        self.assertEqual(self.make(self.good("show", "-", stdin=only)), only)

    def test_nearly_idle(self) -> None:
        """A stage that is moved to and has no way out is trapped; one with a leaving rate alone is like any other."""
        moved_to = self.make("reading leaving-rates\nstages a b\na -> b 1\na leaves 1\n")
        self.assertIn("refused (9 at row 2): a request at stage 2 never gets out",
                      self.bad("table", stdin=dwell(moved_to)))
        out = self.table("reading leaving-rates\nstages a b\na leaves 1\nb leaves 2\n")
        self.assertEqual((split_table(out, ["a", "b"])[1], idle_line(out)), ([["1", "0"], ["0", "0.5"]], ""))


class Units(ToolTest):
    """The time unit, from a text to the file, back to a text, and to the table."""

    RATES = "stages a b\na -> b 1\nb -> a 1\na leaves 1\n"
    ROWS = "from,a,b,leaves\na,,1,1\nb,1,,\n"
    WORDS = [nearest(Fraction(x)) for x in (1, -1, -1, 0)]

    def test_words(self) -> None:
        """Each way to say a unit, in lines and in a matrix; the numbers are those that are typed."""
        for unit, e in [("seconds", 0), ("ticks", -10), ("2^0 seconds", 0), ("2^-10 seconds", -10), ("2^6 seconds", 6),
                        ("2^+6 seconds", 6), ("2^512 seconds", 512), ("2^-512 seconds", -512), ("2^007 seconds", 7)]:
            data = packed(1, 2, self.WORDS, e)
            for text in (f"reading leaving-rates\nunit {unit}\n{self.RATES}",
                         f"reading leaving-rates\n{self.RATES}\n  unit\t {unit}   # at the end\n",
                         f"unit,{unit}\n{self.ROWS}", f"# a comment\n\n Unit , {unit.upper()} ,,,\n{self.ROWS}",
                         f'"unit","{unit}"\n{self.ROWS}', f"unit;{unit};;\n{self.ROWS}".replace(",", ";"),
                         f"unit\t{unit}\n{self.ROWS}".replace(",", "\t")):
                self.assertEqual(self.make(text), data, text)

    def test_none(self) -> None:
        """Without a unit a text is in seconds; a file always says its unit."""
        for text in (f"reading leaving-rates\n{self.RATES}", self.ROWS):
            self.assertEqual(self.make(text), packed(1, 2, self.WORDS, 0))

    def test_a_stage_of_this_name(self) -> None:
        """A stage may be named unit: in quotes where its line would begin with it, and in a matrix as it is."""
        words = [nearest(Fraction(x)) for x in (3, -1, 0, 2)]
        for text in ('reading leaving-rates\nunit ticks\nstages unit b\nunit -> b 1\n"unit" leaves 3\nb leaves 2\n',
                     "unit,ticks\nunit,unit,b,leaves\nunit,,1,3\nb,,,2\n"):
            self.assertEqual(self.make(text), packed(1, 2, words, -10), text)
        self.assertEqual(self.make("unit,unit,b,leaves\nunit,,1,3\nb,,,2\n"), packed(1, 2, words, 0))
        shown = self.good("show", "-", "--names", "line.txt", stdin=packed(1, 2, words, 3)).decode()
        self.assertEqual(shown, 'reading leaving-rates\nunit 2^3 seconds\nstages "unit" b\n\n"unit" -> b 1\n'
                                '"unit" leaves 3\n\nb leaves 2\n')
        self.assertEqual(self.make(shown), packed(1, 2, words, 3))

    def test_show(self) -> None:
        """The unit of every file is shown, also of one that says none, and read back."""
        for e in range(-512, 513):
            data = packed(2, 1, [nearest(Fraction(3))], e)
            shown = self.good("show", "-", stdin=data).decode()
            unit = {0: "seconds", -10: "ticks"}.get(e, f"2^{e} seconds")
            self.assertEqual(shown, f"reading margins\nunit {unit}\nstages s1\n\ns1 margin 3\n")
            self.assertEqual(self.good("make", "-", stdin=shown.encode()), data)
        short = packed_short(2, 1, [nearest(Fraction(3))])
        shown = self.good("show", "-", stdin=short)
        self.assertEqual(shown, b"reading margins\nunit seconds\nstages s1\n\ns1 margin 3\n")
        self.assertEqual(self.good("make", "-", stdin=shown), packed(2, 1, [nearest(Fraction(3))], 0))

    def test_table(self) -> None:
        """The heading says what is counted, and no number depends on the unit."""
        for e in (0, -10, 10, 512, -512, -1, 100):
            printed = dwell(packed(1, 2, self.WORDS, e))
            self.assertEqual(printed.split(b"\n")[0], b"seconds 2 32 %d" % e)
            first, cells, _ = split_table(self.good("table", stdin=printed), ["s1", "s2"])
            self.assertEqual(first, f"{counted(e)} at each stage (columns) for a request that enters at the stage on "
                                    "the left:")
            self.assertEqual(cells, [["1", "1"], ["1", "2"]])
        self.assertEqual(dwell(packed_short(1, 2, self.WORDS)), dwell(packed(1, 2, self.WORDS, 0)))

    def test_longest_file(self) -> None:
        """The tool reads the longest file, and like dwell one byte more."""
        longest = packed(3, 32, [0] * 1056, 512)
        self.assertEqual((len(longest), sheet.LONGEST_FILE), (8722, 8722))
        self.assertIn(b"\nunit 2^512 seconds\n", self.good("show", "-", stdin=longest))
        self.assertIn("refused (14)", self.bad("show", "-", stdin=longest + b"\0"))


class Weights(ToolTest):
    """Sheets with weights, from a text to the file, back to a text, and to the table."""

    LINES = "reading weights\nstages a b\na -> b 1\nb -> a 1\na sum 2\nb sum 1.5\na weight 1\nb weight 2\n"
    WORDS = [nearest(Fraction(x)) for x in (2, -1, -1, Fraction(3, 2), 1, 2)]

    def test_bytes(self) -> None:
        """A sheet of two stages with weights, byte by byte, and what dwell prints: A is [4, -1 | -1, 1.25]."""
        data = self.make(self.LINES)
        self.assertEqual(data.hex(), "060000000100" "030002000000" "120000000200" "0100" "0000000000000040"
                                     "000000000000f0bf" "120000000200" "0200" "000000000000f0bf" "000000000000f83f"
                                     "100000000300" "000000000000f03f" "0000000000000040")
        self.assertEqual(dwell(data), b"seconds 2 48 0\n1 1 3fd4000000000000\n1 2 3fd0000000000000\n"
                                      b"2 1 3fd0000000000000\n2 2 3ff0000000000000\n")

    def test_layouts(self) -> None:
        """Lines and rows in any order, both words in capitals in a header row, blanks, quotes and empty cells."""
        data = packed(3, 2, self.WORDS)
        for text in ["reading weights\nstages a b\nb weight 2\na weight 0x1\nb -> a 1\na sum 2.\na -> b 1.0\n"
                     "b sum 1.5\n",
                     "from,a,b,sum,weight\na,,1,2,1\nb,1,,1.5,2\n", "x,a,b,Sum,WEIGHT\nb,1,0,1.5,2\na,-,1,2,1\n",
                     '"","a","b","sum","weight",""\n"a","","1","2","1"\n"b","1","","1.5","2",,\n',
                     "x;a;b; sum ; weight ;;\na;;1;2;1;;\nb;1;;1.5;2\n",
                     "x\ta\tb\tsum\tweight\na\t\t1\t2\t1\nb\t1\t\t1.5\t2\n",
                     "weight,a,b,sum,weight\na,,1,2,1\nb,1,,1.5,2\n",
                     "reading weights\nstages sum weight\nsum -> weight 1\nweight -> sum 1\nsum sum 2\n"
                     "weight sum 1.5\nsum weight 1\nweight weight 2\n",
                     "from,sum,weight,sum,weight\nsum,,1,2,1\nweight,1,,1.5,2\n"]:
            self.assertEqual(self.make(text), data, text)
            self.assertEqual(self.make(text.replace("\n", "\r\n")), data, text)

    def test_edges_of_the_range(self) -> None:
        """The largest and the smallest weights are taken."""
        for text in ("0x1p-1022", "2.2250738585072014e-308", "1.7976931348623157e308", "0x1.fffffffffffffp1023"):
            data = self.make(f"reading weights\nstage a\na sum {text}\na weight {text}\n")
            self.assertEqual(data, packed(3, 1, [nearest(value(text))] * 2))

    def test_show(self) -> None:
        """The text of a file with weights: after its rates each stage has its weighted row sum and its weight."""
        shown = self.good("show", "-", stdin=packed(3, 2, self.WORDS, -10)).decode()
        self.assertEqual(shown, "reading weights\nunit ticks\nstages s1 s2\n\ns1 -> s2 1\ns1 sum 2\ns1 weight 1\n\n"
                                "s2 -> s1 1\ns2 sum 1.5\ns2 weight 2\n")
        self.assertEqual(self.make(shown), packed(3, 2, self.WORDS, -10))
        self.assertEqual(self.good("show", "-", stdin=packed_short(3, 2, self.WORDS)).decode(),
                         shown.replace("unit ticks", "unit seconds"))

    def test_table(self) -> None:
        """The table of a text with weights, with its allowance; weights that are all doubled, with their sums, give
        the same table, and no stage is idle."""
        out = self.good("table", "--names", "line.txt", stdin=dwell(self.make(self.LINES)))
        self.assertEqual(split_table(out, ["a", "b"])[1], [["0.3125", "0.25"], ["0.25", "1"]])
        self.check_accuracy_line(out, 48)
        doubled = "reading weights\nstages a b\na -> b 1\nb -> a 1\na sum 4\nb sum 3\na weight 2\nb weight 4\n"
        self.assertEqual(dwell(self.make(doubled)), dwell(self.make(self.LINES)))
        apart = "reading weights\nstages a b\na sum 4\nb sum 3\na weight 2\nb weight 0.75\n"
        out = self.good("table", stdin=dwell(self.make(apart)))
        self.assertEqual((split_table(out, ["s1", "s2"])[1], idle_line(out)), ([["0.5", "0"], ["0", "0.25"]], ""))


ROWS = "stage,price\n"
NO_PRICE = "has no price (a price of zero is typed as 0)"
ONE_PRICE = ("write 'NAME PRICE' (quote a name with spaces; numbers have a decimal point; rows of a spreadsheet follow "
             "a header row of two cells, the second 'price')")
TOO_LARGE = "is too large (a number stays below 2^1024, about 1.8e308)"
TOO_SMALL = "is too small (a number is zero or at least 2^-1022, about 2.2e-308)"
NEGATIVE = "is negative (prices are zero or positive)"
NO_NUMBER = "is not a number (write it like 0.25, 1e-6 or 0x1p-20)"
PRICE_ERRORS: list[tuple[str, int, str]] = [
    # unit prices for the stages a, b and "key check", the line of the error, and its message
    ("", 1, f"stage 'a' {NO_PRICE}"),
    ("# only\n\n  \n", 4, f"stage 'a' {NO_PRICE}"),
    ('b 1\n"key check" 1\n', 3, f"stage 'a' {NO_PRICE}"),
    ("b 1\na 1\n\n# the end", 4, f"stage 'key check' {NO_PRICE}"),
    ("a 1\nb\n", 2, f"stage 'b' {NO_PRICE}"),
    ("a 1\nb # 2\n", 2, f"stage 'b' {NO_PRICE}"),
    ("a 1\nb -\n", 2, f"stage 'b' {NO_PRICE}"),
    ("a 1\n\nb 1\na 1\n", 4, "the price of 'a' is given twice (first on line 1)"),
    ("a 0\na\n", 2, "the price of 'a' is given twice (first on line 1)"),
    ("a 1\nc 1\n", 2, "unknown stage 'c'"),
    ("A 1\n", 1, "unknown stage 'A'"),
    ("c\n", 1, "unknown stage 'c'"),
    ("unit ticks\n", 1, "unknown stage 'unit'"),
    ('"a\u0007" 1\n', 1, "unknown stage 'a\\x07'"),
    ('"" 1\n', 1, "unknown stage ''"),
    ("a -0.5\n", 1, f"'-0.5' {NEGATIVE}"),
    ("a -0x1p-1022\n", 1, f"'-0x1p-1022' {NEGATIVE}"),
    ("a 1e309\n", 1, f"'1e309' {TOO_LARGE}"),
    ("a 0x1p1024\n", 1, f"'0x1p1024' {TOO_LARGE}"),
    ("a 1e-400\n", 1, f"'1e-400' {TOO_SMALL}"),
    ("a -1e-400\n", 1, f"'-1e-400' {TOO_SMALL}"),
    ("a 0x1p-1023\n", 1, f"'0x1p-1023' {TOO_SMALL}"),
    ("a 2.225073858507201e-308\n", 1, f"'2.225073858507201e-308' {TOO_SMALL}"),
    ("a dear\n", 1, f"'dear' {NO_NUMBER}"),
    ("a nan\n", 1, f"'nan' {NO_NUMBER}"),
    ("a inf\n", 1, f"'inf' {NO_NUMBER}"),
    ('a "1"\n', 1, f"'\"1\"' {NO_NUMBER}"),
    ("a $1\n", 1, f"'$1' {NO_NUMBER}"),
    ("a price\n", 1, f"'price' {NO_NUMBER}"),
    ("stage price\na 1\n", 1, "unknown stage 'stage'"),
    ("a 1 2\n", 1, ONE_PRICE),
    ("a 0,5\n", 1, ONE_PRICE),
    ("a,1\n", 1, ONE_PRICE),
    ("a;1\n", 1, ONE_PRICE),
    ("a,\n", 1, ONE_PRICE),
    ("a -> b 1\n", 1, ONE_PRICE),
    ("a ->\n", 1, ONE_PRICE),
    ("key check 1\n", 1, ONE_PRICE),
    ("key check\t1\n", 1, ONE_PRICE),
    ("# x\n\nstage,price,note\n", 3, ONE_PRICE),
    ("price,stage\n", 1, ONE_PRICE),
    ("stage,prices\n", 1, ONE_PRICE),
    ('a 1\n"b 1\n', 2, "a double quote is not closed"),
    ("stage,unit,price\n", 1, "a header row of prices has two cells, the second 'price'"),
    ('"stage,price"\n', 1, "a header row of prices has two cells, the second 'price'"),
    ('stage,"the, price"\n', 1, "a header row of prices has two cells, the second 'price'"),
    ("\n" + ROWS, 3, f"stage 'a' {NO_PRICE}"),
    (ROWS + "b,1\nkey check,1\n", 4, f"stage 'a' {NO_PRICE}"),
    (ROWS + "a,1\n\nb,\nkey check,1\n", 4, f"stage 'b' {NO_PRICE}"),
    (ROWS + "a,1\nb\nkey check,1\n", 3, f"stage 'b' {NO_PRICE}"),
    (ROWS + "a,1\nb, - \nkey check,1\n", 3, f"stage 'b' {NO_PRICE}"),
    (ROWS + 'a,""\n', 2, f"stage 'a' {NO_PRICE}"),
    (ROWS + "a,1\nb,1\na,1\n", 4, "the price of 'a' is given twice (first on line 2)"),
    (ROWS + "a,1\nc,1\n", 3, "unknown stage 'c'"),
    (ROWS + ",1\n", 2, "unknown stage ''"),
    (ROWS + "a 1\n", 2, "unknown stage 'a 1'"),
    (ROWS + "a,1,2\n", 2, "the row has 3 cells, the header has 2"),
    (ROWS + "a,0,5\n", 2, "the row has 3 cells, the header has 2"),
    (ROWS + 'a,"0,5"\n', 2, f"'0,5' {NO_NUMBER}"),
    ("stage;price\na;0,5\n", 2, f"'0,5' {NO_NUMBER}"),
    (ROWS + "a,#REF!\n", 2, f"'#REF!' {NO_NUMBER}"),
    (ROWS + "a,-1\n", 2, f"'-1' {NEGATIVE}"),
    (ROWS + "a,1e309\n", 2, f"'1e309' {TOO_LARGE}"),
    (ROWS + "a,1e-309\n", 2, f"'1e-309' {TOO_SMALL}"),
    (ROWS + 'a,"1\n', 2, "a double quote is not closed or stands inside a cell"),
    (ROWS + 'a,"1"2\n', 2, "a double quote is not closed or stands inside a cell"),
]


class UnitPrices(ToolTest):
    """Unit prices, read from both forms: where every table entry is 1 or 0 as in the identity, they are the list."""

    def list_of(self, text: str | bytes, names: Sequence[str] = ("a", "b", "key check")) -> list[str]:
        """The prices, as hexadecimal floats, of a list for the identity table."""
        arguments = self.identity(names)
        return split_list(self.good("prices", self.write("prices.txt", text), *arguments, "--hex"), names)[1]

    def identity(self, names: Sequence[str]) -> list[str]:
        """The arguments for a table that is the identity, and for these names."""
        n = len(names)
        entries = [f"{i} {j} {nearest(Fraction(int(i == j))):016x}\n" for i in range(1, n + 1) for j in range(1, n + 1)]
        self.write("out.txt", f"seconds {n} {4 * n ** 3} 0\n" + "".join(entries))
        self.write("names.txt", "reading leaving-rates\n" + "".join(f"stage {quoted(name)}\n" for name in names))
        return ["out.txt", "--names", "names.txt"]

    def test_lines(self) -> None:
        """Lines in any order, for every number of stages: each price is the nearest to what was typed."""
        rng = random.Random(11)
        for n in range(1, 33):
            names, texts = random_typed(rng, 1, n).names, [random_text(rng) for _ in range(n)]
            text = shuffled(rng, as_price_lines(names, texts))
            self.assertEqual([nearest(value(x)) for x in self.list_of(text, names)],
                             [nearest(value(x)) for x in texts], text)

    def test_rows(self) -> None:
        """Rows of a spreadsheet in any order, with each separator."""
        rng = random.Random(12)
        for n in (1, 2, 3, 8, 32):
            for separator in ",;\t":
                names = [name.replace("#", "") for name in random_typed(rng, 1, n).names]
                texts = [random_text(rng) for _ in range(n)]
                text = shuffled(rng, as_price_rows(names, texts, separator), 1)
                self.assertEqual([nearest(value(x)) for x in self.list_of(text, names)],
                                 [nearest(value(x)) for x in texts], text)

    def test_layouts(self) -> None:
        """Comments, blank lines, tabs, quotes, empty cells, line ends, a BOM, standard input, in both forms."""
        for text in ['a 0.5\nb 0x3\n"key check" 1e0\n',
                     '# head, price\n\n  "key check"\t1 # a comment, with "one quote\n\nb 3#no blank\n"a"   .5\n',
                     "a 0.5 # before tax, price\nb 3\n\"key check\" 1.0",
                     "stage,price\na,0.5\nb,3\nkey check,1\n",
                     '"# head, price",\n\n,PRICE,\n"b","3",""\n key check , 1 \n,,\n#x\na,0.5,,\n',
                     'Stage #,price\nb,3\nkey check,1\na,0.5', '"a, b; c","Price"\nb,3\n"key check",1\na,0.5\n',
                     "a, b;price;;\na;0.5;\nb;3\nkey check;1\n", "a;b,price\na,0.5\nb,3\nkey check,1\n",
                     "price\tPrice\na\t0.5\nb\t3\t\t\nkey check\t1\n", "\tprice\na\t0.5\nb\t3\nkey check\t1\n"]:
            for same in (text, text.replace("\n", "\r\n"), text.replace("\n", "\r"), "\ufeff" + text):
                self.assertEqual(self.list_of(same), ["0x1p-1", "0x1.8p+1", "0x1p+0"], same)
            out = self.good("prices", "-", *self.identity(("a", "b", "key check")), stdin=text.encode())
            self.assertEqual(split_list(out, ["a", "b", "key check"])[1], ["0.5", "3", "1"])

    def test_odd_names(self) -> None:
        """A name that begins with # stands in quotes in lines, and words of the text form are names like others."""
        self.assertEqual(self.list_of('"#7" 2\n', ["#7"]), ["0x1p+1"])
        self.assertEqual(self.list_of('unit 2\n"a, price" 3\nstage 1\n', ["a, price", "stage", "unit"]),
                         ["0x1.8p+1", "0x1p+0", "0x1p+1"])
        self.assertEqual(self.list_of("stage,price\nprice,5\nstage,6\n", ["price", "stage"]),
                         ["0x1.4p+2", "0x1.8p+2"])

    def test_zeros(self) -> None:
        """A typed zero, of either sign, is a price, and the request price is plus zero."""
        for zero in ("0", "-0", "-0.0", "0e999", "0x0p0", "-0x0.0p+0"):
            self.assertEqual(self.list_of(f"a {zero}\nb 1\n\"key check\" {zero}\n"), ["0x0p+0", "0x1p+0", "0x0p+0"])
            self.assertEqual(self.list_of(f"x,price\na,{zero}\nb,{zero}\nkey check,{zero}\n"), ["0x0p+0"] * 3)

    def test_edges_of_the_range(self) -> None:
        """The largest and the smallest prices are read; the smallest is in range where the time is 2."""
        self.assertEqual(self.list_of("a 1.7976931348623157e308\nb 0x1.fffffffffffffp1023\n\"key check\" 0x1p-1021\n"),
                         ["0x1.fffffffffffffp+1023", "0x1.fffffffffffffp+1023", "0x1p-1021"])
        self.write("prices.txt", "s1 1\ns2 2.2250738585072014e-308\n")
        out = self.good("prices", "prices.txt", "--hex", stdin=b"seconds 2 32 0\n1 1 4000000000000000\n"
                        b"1 2 0000000000000000\n2 1 0000000000000000\n2 2 4000000000000000\n")
        self.assertEqual(split_list(out, ["s1", "s2"])[1], ["0x1p+1", "0x1p-1021"])

    def test_problems(self) -> None:
        """Every error of unit prices is one line, the file, the line and these words."""
        arguments = self.identity(("a", "b", "key check"))
        for text, line, words in PRICE_ERRORS:
            with self.subTest(text=text):
                self.assertEqual(self.bad("prices", self.write("prices.txt", text), *arguments),
                                 f"prices.txt:{line}: {words}")

    def test_standard_input(self) -> None:
        """Unit prices on standard input have a name too."""
        self.assertEqual(self.bad("prices", "-", *self.identity(["a"]), stdin=b"\nb 1\n"),
                         "<stdin>:2: unknown stage 'b'")

    def test_without_names(self) -> None:
        """Without --names the stages are s1, s2, ..., which a message on another name says."""
        self.identity(["a", "b"])
        out = self.good("prices", self.write("prices.txt", "s2 3\ns1 2\n"), "out.txt")
        self.assertEqual(split_list(out, ["s1", "s2"])[1], ["2", "3"])
        self.assertEqual(self.bad("prices", self.write("prices.txt", "s1 2\nb 3\n"), "out.txt"),
                         "prices.txt:2: unknown stage 'b' (without --names the stages are s1, s2, ...)")
        self.assertEqual(self.bad("prices", self.write("prices.txt", "s1 2\n"), "out.txt"),
                         f"prices.txt:2: stage 's2' {NO_PRICE}")

    def test_bytes(self) -> None:
        """Bytes that are not UTF-8, and a text that is too long."""
        arguments = self.identity(["a"])
        self.assertEqual(self.bad("prices", self.write("prices.txt", b"a 1\n\xff\n"), *arguments),
                         "prices.txt:2: this is not UTF-8 text")
        self.assertEqual(self.bad("prices", self.write("prices.txt", b"#" * (1 << 20) + b"\n"), *arguments),
                         "prices.txt: the text is longer than 1048576 bytes")


class PriceLists(ToolTest):
    """The price of a request by the stage at which it enters, from unit prices and dwell's output."""

    P = packed(1, 2, [nearest(Fraction(x)) for x in (1, -1, -1, 0)])
    OUT_OF_RANGE = ("leaves the range of binary64 numbers, since some prices are too large or too small for the times "
                    "of the table.")

    def listed(self, printed: bytes, prices: Sequence[float], *options: str) -> Result:
        """What the command gives for dwell's output and prices, without names."""
        typed = as_price_lines([f"s{j + 1}" for j in range(len(prices))], [price.hex() for price in prices])
        return run("prices", self.write("prices.txt", typed), *options, stdin=printed)

    def check_against_reference(self, reading: int, n: int, e: int, numbers: Sequence[float],
                                prices: Sequence[float]) -> str:
        """The bits, the allowance and the decision of the reference; which decision that is."""
        printed = dwell(packed(reading, n, [reference.bits_of(x) for x in numbers], e))
        expected = reference.request_prices(reading, n, e, numbers, prices, n)
        result = self.listed(printed, prices, "--hex")
        if isinstance(expected, reference.Refused):
            self.assertEqual(expected, reference.Refused(10))
            self.assertEqual((result.status, result.out, result.err.count("\n")), (1, b"", 1))
            of_table = printed == b"refused 10 0 0\n"
            start = "refused (10): a step of the " + ("calculation " if of_table else "price at stage ")
            self.assertTrue(result.err.startswith(start), result.err)
            return "table" if of_table else "prices"
        self.assertEqual((result.status, result.err), (0, ""))
        texts = split_list(result.out, [f"s{j + 1}" for j in range(n)])[1]
        self.assertEqual([nearest(value(text)) for text in texts], [reference.bits_of(x) for x in expected.entries])
        self.assertNotIn("-0x", result.out.decode())
        self.check_accuracy_line(result.out, expected.allowance)
        return "accepted"

    def check_list(self, typed: Typed, prices: Sequence[str]) -> bool:
        """make, dwell and prices on a typed sheet against the exact prices of what the sheet holds; whether they are
        accepted."""
        self.write("line.txt", as_lines(typed))
        self.write("prices.txt", as_price_lines(typed.names, prices))
        printed = dwell(self.good("make", "line.txt"))
        if printed.startswith(b"refused"):
            return False
        n, e = len(typed.names), power_of(typed.unit)
        out = self.good("prices", "prices.txt", "--names", "line.txt", stdin=printed)
        first, texts, rows = split_list(out, typed.names)
        self.assertEqual(first, f"Price of a request by the stage at which it enters, for prices per {paid_for(e)}:")
        self.check_alignment(rows, typed.names)
        self.assertEqual(idle_line(out) != "", len(live_stages(typed)) < n)
        allowance = ALLOWANCES[typed.reading] * n ** 3 + n
        self.check_accuracy_line(out, allowance)
        paid = [rounded_value(price) for price in prices]
        for text, times in zip(texts, exact_seconds(typed, rounded_value), strict=True):
            self.assert_shortest(text, float(text))
            exact = sum((x * price for x, price in zip(times, paid, strict=True)), Fraction(0))
            self.assertTrue(is_near(float(text), exact, allowance), text)
        self.check_hexadecimal(printed, typed.names, [nearest(value(text)) for text in texts])
        return True

    def check_hexadecimal(self, printed: bytes, names: Sequence[str], words: Sequence[int]) -> None:
        """With --hex the same bits are printed as hexadecimal floats without needless zeros."""
        out = self.good("prices", "prices.txt", "--hex", "--names", "line.txt", stdin=printed)
        _, texts, rows = split_list(out, names)
        self.assertEqual([nearest(value(text)) for text in texts], list(words))
        for text in texts:
            self.assertRegex(text, r"^0x(0p\+0|1(\.[0-9a-f]{0,12}[1-9a-f])?p[+-]\d+)$")
        self.check_alignment(rows, names)

    def test_document_sheet_p(self) -> None:
        """Sheet P of document 01 at the prices 1 and 2: the whole list, from standard input and from a file."""
        out = ("Price of a request by the stage at which it enters, for prices per second:\n\ns1  3\ns2  5\n\n"
               "Each number is within a factor (1 + 1/2^53)^34 of the exact one, off by at most 3.8e-15 of it.\n")
        self.assertEqual(self.listed(dwell(self.P), [1.0, 2.0]), Result(0, out.encode(), ""))
        self.write("out.txt", dwell(self.P))
        self.assertEqual(self.good("prices", "prices.txt", "out.txt").decode(), out)
        self.assertEqual(self.good("prices", "prices.txt", "-", stdin=dwell(self.P)).decode(), out)
        self.assertEqual(self.good("prices", "prices.txt", "out.txt", "--hex").decode(),
                         out.replace(" 3\n", " 0x1.8p+1\n").replace(" 5\n", " 0x1.4p+2\n"))
        self.write("line.txt", 'reading margins\nstages a "b c"\n')
        named = self.good("prices", "-", "out.txt", "--names", "line.txt", stdin=b'"b c" 2\na 1\n')
        self.assertEqual(named.decode(), out.replace("s1  3", "a    3").replace("s2  5", "b c  5"))

    def test_known_prices(self) -> None:
        """The order of the sum, the rounding of each operation, each reading and zeros of either sign, by hand."""
        chain, two_53 = [0.0, -1.0, 0.0, 0.0, 0.0, -1.0, 0.0, 0.0, 1.0], 2.0 ** 53
        for reading, n, numbers, prices, expected in [
                (1, 1, [2.0], [3.0], ["1.5"]), (2, 2, [3.0, -1.0, -4.0, 1.0], [1.0, 3.0], ["1.25", "4"]),
                (2, 2, [2.0, 0.0, -1.0, 4.0], [8.0, 16.0], ["4", "5"]),
                (3, 2, [2.0, -1.0, -1.0, 1.5, 1.0, 2.0], [1.0, 2.0], ["0.8125", "2.25"]),
                (1, 3, chain, [two_53, 1.0, 1.0], ["9007199254740992", "2", "1"]),
                (1, 3, chain, [1.0, 1.0, two_53], ["9007199254740994", "9007199254740992", "9007199254740992"]),
                (1, 2, [0.0, -1.0, 0.0, 3.0], [1.0, 3.0], ["2", "1"]),
                (1, 2, [1.0, -1.0, -1.0, 0.0], [-0.0, 1.0], ["1", "2"]),
                (1, 2, [1.0, -1.0, -1.0, 0.0], [-0.0, -0.0], ["0", "0"])]:
            result = self.listed(dwell(packed(reading, n, [reference.bits_of(x) for x in numbers])), prices)
            self.assertEqual((result.status, result.err), (0, ""))
            self.assertEqual(split_list(result.out, [f"s{j + 1}" for j in range(n)])[1], expected)

    def test_random_sheets(self) -> None:
        """Random sheets of each reading and random prices against exact fractions."""
        rng = random.Random(13)
        accepted: Counter[int] = Counter()
        for n in (1, 2, 2, 3, 3, 4, 5, 6):
            for reading in (1, 2, 3):
                typed = random_typed(rng, reading, n, random_rate)
                accepted[reading] += self.check_list(typed, [rng.choice(["0", random_rate(rng)]) for _ in range(n)])
        self.assertGreater(min(accepted[reading] for reading in (1, 2, 3)), 3)

    def test_thirty_two_stages(self) -> None:
        """A loop of 32 stages with leaving rates of a millionth."""
        rates = {(i, (i + 1) % 32): f"0.{i + 1}" for i in range(32)}
        typed = Typed(1, [f"bench {k}" for k in range(1, 33)], rates, {i: "1e-6" for i in range(32)})
        self.assertTrue(self.check_list(typed, [f"{k}e-3" for k in range(32)]))

    def test_reference(self) -> None:
        """Random sheets in random units, often with idle stages, at random prices: bits and decisions."""
        rng = random.Random(14)
        decisions = []
        for at in range(400):
            reading, n = rng.choice([1, 2, 3]), rng.randint(1, 6) if at % 20 else rng.randint(7, 16)
            numbers = reference.random_sheet(rng, reading, n, reference.random_style(rng, 300 if n < 7 else 30))
            if reading == 1:
                own, n = n, n + rng.choice([0, 0, 1, 2])
                numbers = reference.among_idle(rng, own, numbers, n)[1]
            decisions.append(self.check_against_reference(reading, n, reference.random_unit(rng), numbers,
                                                          reference.random_prices(rng, n)))
        for decision, least in (("accepted", 100), ("table", 5), ("prices", 20)):
            self.assertGreater(decisions.count(decision), least, decision)

    def test_reference_at_the_edge(self) -> None:
        """Prices one last place apart, of which the reference accepts the first alone."""
        rng = random.Random(15)
        pairs = []
        for _ in range(60):
            reading, n = rng.choice([1, 2, 3]), rng.randint(1, 4)
            numbers = reference.random_sheet(rng, reading, n, reference.random_style(rng, 30))
            edge = reference.price_edge_pair(rng, reading, n, numbers, reference.random_prices(rng, n))
            if edge is not None:
                pairs.append([self.check_against_reference(reading, n, 0, numbers, prices) for prices in edge])
        self.assertGreater(len(pairs), 20)
        self.assertEqual(pairs, [["accepted", "prices"]] * len(pairs))

    def test_steps_out_of_range(self) -> None:
        """A product that is too small or overflows and a sum that overflows are refused at the first stage that has
        one; a zero beside a number of any size is not."""
        most, least = reference.LARGEST, 2.0 ** -1022
        one, half, twice, large = (packed(1, 1, [reference.bits_of(x)]) for x in (1.0, 2.0, 0.5, 2.0 ** -600))
        later = packed(1, 2, [reference.bits_of(x) for x in (1.0, 0.0, -1.0, 0.0)])   # its table is [1, 0 | 1, 1]
        for data, prices, stage in [
                (one, [least], 1), (half, [(2 - 2.0 ** -52) * least], 1), (half, [2 * least], 1), (twice, [most], 1),
                (large, [2.0 ** 424], 1), (self.P, [most, most], 1), (self.P, [most, most / 2], 1),
                (later, [most, most], 2), (later, [1.0, least], 2), (later, [most, 2.0 ** 971], 2)]:
            self.assertEqual(self.listed(dwell(data), prices), Result(
                1, b"", f"refused (10): a step of the price at stage {stage} (s{stage}) {self.OUT_OF_RANGE}\n"))
        for data, prices, expected in [
                (one, [2 * least], ["0x1p-1021"]), (half, [(2 + 2.0 ** -51) * least], ["0x1.0000000000001p-1022"]),
                (twice, [most / 2], ["0x1.fffffffffffffp+1023"]), (large, [2.0 ** 423], ["0x1p+1023"]),
                (self.P, [most, 0.0], ["0x1.fffffffffffffp+1023"] * 2), (later, [1.0, 2 * least], ["0x1p+0"] * 2),
                (later, [0.0, 2 * least], ["0x0p+0", "0x1p-1021"]),
                (later, [most, 2.0 ** 969], ["0x1.fffffffffffffp+1023"] * 2)]:
            result = self.listed(dwell(data), prices, "--hex")
            self.assertEqual((result.status, result.err), (0, ""))
            self.assertEqual(split_list(result.out, ["s1", "s2"][:len(prices)])[1], expected)

    def test_out_of_range_with_names(self) -> None:
        """The sentence has the stage's name."""
        self.write("names.txt", 'reading leaving-rates\nstages a "key check"\n')
        self.write("prices.txt", 'a 0x1p1023\n"key check" 0x1p1023\n')
        self.assertEqual(self.bad("prices", "prices.txt", "--names", "names.txt", stdin=dwell(
            packed(1, 2, [nearest(Fraction(x)) for x in (1, 0, -1, 0)]))),
            f"refused (10): a step of the price at stage 2 (key check) {self.OUT_OF_RANGE}")

    def test_idle_stages(self) -> None:
        """Idle stages are named; the price of a request there is zero, and their unit prices change no other."""
        self.write("line.txt", Idle.LINES)
        printed = dwell(self.good("make", "line.txt"))
        names = ["a", "gluing", "b", "packing"]
        for idle_prices in (("0", "0"), ("7", "0x1.8p1000"), ("0x1p-1022", "1e308")):
            self.write("prices.txt", as_price_lines(names, ["1", idle_prices[0], "2", idle_prices[1]]))
            out = self.good("prices", "prices.txt", "--names", "line.txt", stdin=printed)
            self.assertEqual(split_list(out, names)[1], ["3", "0", "5", "0"])
            self.assertEqual(idle_line(out), "Idle, without any rate or leaving rate: gluing, packing. No time is "
                                             "spent there, so their unit prices do not count and their request "
                                             "prices are zero.")
            self.check_accuracy_line(out, 260)
        self.write("line.txt", 'reading leaving-rates\nstages a "glue, then press"\na leaves 4\n')
        self.write("prices.txt", 'a 2\n"glue, then press" 1\n')
        printed = dwell(self.good("make", "line.txt"))
        out = self.good("prices", "prices.txt", "--names", "line.txt", "--hex", stdin=printed)
        self.assertEqual(split_list(out, ["a", "glue, then press"])[1], ["0x1p-1", "0x0p+0"])
        self.assertEqual(idle_line(out), 'Idle, without any rate or leaving rate: "glue, then press". No time is spent '
                                         "there, so its unit price does not count and its request price is zero.")
        result = self.listed(dwell(self.P), [0.0, 0.0])
        self.assertEqual((split_list(result.out, ["s1", "s2"])[1], idle_line(result.out)), (["0", "0"], ""))

    def test_units(self) -> None:
        """The heading says what prices are per, and no number depends on the unit."""
        for e, unit in [(0, "second"), (-10, "tick of 1/1,024 second"), (10, "2^10 seconds"), (-1, "2^-1 seconds"),
                        (512, "2^512 seconds"), (-512, "2^-512 seconds")]:
            result = self.listed(dwell(packed(1, 2, Units.WORDS, e)), [1.0, 2.0])
            self.assertEqual((result.status, result.err), (0, ""))
            first, texts, _ = split_list(result.out, ["s1", "s2"])
            self.assertEqual(first, f"Price of a request by the stage at which it enters, for prices per {unit}:")
            self.assertEqual(texts, ["3", "5"])

    def test_refused_by_dwell(self) -> None:
        """A refusal of dwell is told in the words of the table command, whatever the prices are."""
        self.write("names.txt", "reading leaving-rates\nstages a b\n")
        self.write("prices.txt", "nobody -1\n")
        for data, start in [(packed(1, 2, [nearest(Fraction(x)) for x in (1, -1, 0, 0)]),
                             "refused (9 at row 2): a request at stage 2 (b) never gets out"),
                            (packed(1, 1, [nearest(Fraction(2) ** 1022)]), "refused (10): a step of the calculation"),
                            (packed(2, 2, [0] * 4), "refused (7 at row 1, column 1): "), (b"", "refused (11): ")]:
            said = self.bad("prices", "prices.txt", "--names", "names.txt", stdin=dwell(data))
            self.assertTrue(said.startswith(start), said)
            self.assertEqual(said, self.bad("table", "--names", "names.txt", stdin=dwell(data)))
        self.assertEqual(self.bad("prices", "prices.txt", stdin=b"refused 19 2 0\n"),
                         self.bad("table", stdin=b"refused 19 2 0\n"))

    def test_other_input(self) -> None:
        """What dwell did not print, and names that are too many, are told as by the table command."""
        self.write("prices.txt", "s1 1\ns2 1\n")
        self.assertEqual(self.bad("prices", "prices.txt", stdin=b"hello\n"),
                         "<stdin>:1: this is not dwell's output ('seconds' or 'refused' and numbers)")
        self.write("names.txt", "reading leaving-rates\nstages a b c\n")
        self.assertEqual(self.bad("prices", "prices.txt", "--names", "names.txt", stdin=dwell(self.P)),
                         "names.txt: the text names 3 stages, <stdin> has 2")


class Refusals(ToolTest):
    """Refusals in words."""

    WORDS = {1: "reading is not 1", 2: "not from 1 to 32", 3: "n × n numbers", 4: "room lent", 5: "asked for",
             6: "not a finite number", 7: "wrong sign", 8: "too small", 9: "never gets out", 10: "range of binary64",
             11: "the file ends before", 12: "does not begin with the head", 13: "something else where",
             14: "goes on after", 15: "power of two to move by", 16: "a number that is moved",
             17: "the unit of the moved sheet", 18: "the prices are not n in number", 19: "the unit price of"}

    def said(self, printed: bytes) -> str:
        """What table says of a refusal, with names."""
        self.write("names.txt", 'reading margins\nstages intake "key ceremony" signer\n')
        return self.bad("table", "--names", "names.txt", stdin=printed)

    def test_every_number(self) -> None:
        """Each number from 1 to 19 in one sentence, with the place and the stages' names where it has them."""
        self.assertEqual(list(self.WORDS), list(range(1, 20)))
        for refusal, words in self.WORDS.items():
            row = 2 if refusal in (6, 7, 8, 9, 11, 13, 19) else 0
            column = 3 if refusal in (6, 7, 8) else 0
            sentence = self.said(f"refused {refusal} {row} {column}\n".encode())
            place = f" at row {row}" * bool(row) + f", column {column}" * bool(column)
            self.assertTrue(sentence.startswith(f"refused ({refusal}{place}): "), sentence)
            self.assertTrue(sentence.endswith("."), sentence)
            self.assertIn(words, sentence)
            self.assertEqual("stage 2 (key ceremony)" in sentence, row == 2, sentence)
            self.assertEqual("stage 3 (signer)" in sentence, column == 3, sentence)
            self.assertNotRegex(sentence, r"[{}]|stage 0")

    def test_prices(self) -> None:
        """The sentences that speak of prices, which calls of the library may be refused with."""
        for printed, sentence in [
                (b"refused 4 0 0\n", "refused (4): the room lent for the answer is smaller than it needs (n × n "
                 "numbers for a table, as many as the sheet has where it is loaded or moved, n for one column or for "
                 "prices, the file's bytes for saving)."),
                (b"refused 10 0 0\n", "refused (10): a step of the calculation leaves the range of binary64 numbers, "
                 "since some rates, weights or prices are too large, too small or too far apart."),
                (b"refused 18 0 0\n", "refused (18): the prices are not n in number, one for each of the sheet's n "
                 "stages."),
                (b"refused 19 2 0\n", "refused (19 at row 2): the unit price of stage 2 (key ceremony) is not a "
                 "number, is infinite or negative, or is too small (a price is zero or at least 2^-1022, about "
                 "2.2e-308).")]:
            self.assertEqual(self.said(printed), sentence)

    def test_places(self) -> None:
        """On the diagonal it is a leaving rate, a margin or a weighted row sum, elsewhere a rate; row 0 of a file is
        its head."""
        self.assertIn("the leaving rate, margin or weighted row sum of stage 1 (intake) is",
                      self.said(b"refused 6 1 1\n"))
        self.assertIn("the rate from stage 1 (intake) to stage 2 (key ceremony) is", self.said(b"refused 6 1 2\n"))
        self.assertIn("before the head is complete", self.said(b"refused 11 0 0\n"))
        self.assertIn("the row of stage 3 (signer)", self.said(b"refused 11 3 0\n"))
        self.assertIn("the row of stage 9 is", self.said(b"refused 11 9 0\n"))
        self.assertIn("stage 9 never", self.said(b"refused 9 9 0\n"))
        self.assertIn("a unit of 2^E seconds with E from -512 to 512", self.said(b"refused 12 0 0\n"))
        self.assertTrue(self.said(b"refused 77 0 0\n").startswith("refused (77): "))
        self.assertIn("the rate from stage 1 to stage 2 is not", self.bad("table", stdin=b"refused 6 1 2\n"))

    def test_places_of_weights(self) -> None:
        """The weights are row n + 1: with names n is known, and without them both meanings of a row are told."""
        for printed, words in [
                (b"refused 6 4 2\n", ": the weight of stage 2 (key ceremony) is not a finite number."),
                (b"refused 7 4 3\n", ": the weight of stage 3 (signer) has the wrong sign (rates and leaving rates "
                 "are zero or positive; margins, weighted row sums and weights are positive)."),
                (b"refused 8 4 1\n", ": the weight of stage 1 (intake) is too small"),
                (b"refused 8 3 1\n", ": the rate from stage 3 (signer) to stage 1 (intake) is too small"),
                (b"refused 11 4 0\n", ": the file ends before the record of the weights is complete."),
                (b"refused 13 4 0\n", ": the file has something else where the record of the weights is due (another "
                 "kind, length or row number)."),
                (b"refused 14 0 0\n", ": the file goes on after its last row, or in reading 3 after its weights.")]:
            self.assertIn(words, self.said(printed))
        for printed, words in [
                (b"refused 6 4 2\n", ": the rate from stage 4 to stage 2 (or, in a sheet of weights with n = 3, the "
                 "weight of stage 2) is not a finite number."),
                (b"refused 6 2 2\n", ": the leaving rate, margin or weighted row sum of stage 2 is not"),
                (b"refused 11 2 0\n", ": the file ends before the row of stage 2 (or, in a sheet of weights with "
                 "n = 1, the record of the weights) is complete."),
                (b"refused 11 1 0\n", ": the file ends before the row of stage 1 is complete."),
                (b"refused 11 0 0\n", ": the file ends before the head is complete.")]:
            self.assertIn(words, self.bad("table", stdin=printed))

    def test_through_dwell(self) -> None:
        """Sheets that dwell refuses, through the program."""
        one, move, sheet_a = nearest(Fraction(1)), nearest(Fraction(-1)), packed(1, 1, [nearest(Fraction(2))])
        for data, start in [
                (packed(1, 2, [one, 0x7ff8000000000000, one, one]), "refused (6 at row 1, column 2): the rate from"),
                (packed(2, 1, [0]), "refused (7 at row 1, column 1): the leaving rate, margin or weighted row sum"),
                (packed(3, 3, [one, 0, 0, 0, one, 0, 0, 0, one, one, 0, one]),
                 "refused (7 at row 4, column 2): the weight of stage 2 (key ceremony) has the wrong sign"),
                (packed(3, 3, [one, 0, 0, 0, one, 0, 0, 0, one, one, 0, one])[:-1],
                 "refused (11 at row 4): the file ends before the record of the weights"),
                (packed(1, 2, [one, 0, 0x8000000000000001, one]), "refused (8 at row 2, column 1): the rate from"),
                (packed(1, 2, [one, move, 0, 0]), "refused (9 at row 2): a request at stage 2 (key ceremony) never"),
                (packed(1, 1, [nearest(Fraction(2) ** 1022)]), "refused (10): "), (b"", "refused (11): "),
                (sheet_a[:-1], "refused (11 at row 1): "), (b"\4\0\0\0\1\0\4\0\1\0", "refused (12): "),
                (packed(1, 1, [one], 513), "refused (12): "), (packed(1, 1, [one], -513), "refused (12): "),
                (sheet_a[:16] + b"\3" + sheet_a[17:], "refused (13 at row 1): "),
                (sheet_a + b"\0", "refused (14): ")]:
            self.assertTrue(self.said(dwell(data)).startswith(start), start)

    def test_a_trapped_text(self) -> None:
        """From a text to the sentence."""
        self.write("line.txt", "reading leaving-rates\nstages a b\na -> b 1\nb -> a 1\n")
        said = self.bad("table", "--names", "line.txt", stdin=dwell(self.good("make", "line.txt")))
        self.assertEqual(said, "refused (9 at row 1): a request at stage 1 (a) never gets out, since no chain of "
                               "moves leads from there to a stage with a leaving rate above zero.")


class Garbage(ToolTest):
    """Whatever the input is, a command succeeds or says one line."""

    def check(self, *arguments: str, stdin: bytes) -> None:
        """Status 0 without a message, or 1 with one line and no output."""
        result = run(*arguments, stdin=stdin)
        self.assertIn((result.status, result.err.count("\n"), bool(result.out)), [(0, 0, True), (1, 1, False)],
                      (stdin, result))

    def changed(self, rng: random.Random, data: bytes, pieces: Sequence[bytes]) -> bytes:
        """The data with a few stretches replaced by pieces."""
        for _ in range(rng.randint(1, 4)):
            at = rng.randint(0, len(data))
            data = data[:at] + rng.choice(pieces) + data[at + rng.randint(0, 6):]
        return data

    def test_texts(self) -> None:
        """Examples with stretches replaced; what make accepts comes back from show."""
        rng = random.Random(6)
        pieces = [b"", b"\n", b'"', b"#", b",", b";", b"\t", b"->", b" ", b"-", b"0", b"1e9", b"\xff", b"\0", b"\r",
                  b"stages", b"reading", b"leaves", b"weight", b"sum", b"weights", b"\xc2\xa0", b"\xe2\x80\xa8",
                  b"\x0b", b"nan", b"a b", b"unit", b"ticks", b"2^3 seconds"]
        texts = [(ROOT / "examples" / name).read_bytes()
                 for name in ("signing.txt", "panel.txt", "coating.txt", "retired.txt", "terminal.txt", "cards.csv")]
        texts.append(b"unit,ticks\nfrom,a,b,sum,weight\na,,1,2,1\nb,1,,1.5,2\n")
        short = [re.sub(rb"(?m)^.?#.*\n", b"", text) for text in texts]
        for _ in range(1000):
            text = self.changed(rng, rng.choice(short), pieces)
            self.check("make", "-", stdin=text)
            made = run("make", "-", stdin=text)
            if made.status == 0:
                shown = self.good("show", "-", "--names", self.write("line.txt", text), stdin=made.out)
                self.assertEqual(self.good("make", "-", stdin=shown), made.out)

    def test_unit_prices(self) -> None:
        """Unit prices in both forms with stretches replaced, and dwell's output that no dwell prints."""
        rng = random.Random(9)
        pieces = [b"", b"\n", b'"', b"#", b",", b";", b"\t", b"->", b" ", b"-", b"0", b"1e9", b"\xff", b"\0", b"\r",
                  b"price", b"\xc2\xa0", b"\xe2\x80\xa8", b"nan", b"1e308", b"s1", b'"#7" 5']
        texts = [b"s1 0.5\ns2 1e-6 # x\n", b"stage,price\ns1,0.5\ns2,1\n", b"x;Price\ns2;1\ns1;0x1p-1022\n"]
        one = nearest(Fraction(1))
        entries = [0, 1, 1 << 63, one, one | 1 << 63, *(top << 48 for top in (0x7ff0, 0xfff0, 0x7ff8, 0x7fe0, 0x10))]
        for _ in range(400):
            words = [rng.choice(entries) if rng.random() < 0.5 else one for _ in range(4)]
            output = "seconds 2 32 0\n" + "".join(f"{place // 2 + 1} {place % 2 + 1} {word:016x}\n"
                                                  for place, word in enumerate(words))
            text = rng.choice(texts)
            self.write("prices.txt", self.changed(rng, text, pieces) if rng.random() < 0.7 else text)
            self.check("prices", "prices.txt", stdin=output.encode())
            self.check("prices", "prices.txt", "--hex", stdin=output.encode())

    def test_files_and_output(self) -> None:
        """Sheet files and dwell's output with bytes replaced."""
        rng = random.Random(7)
        pieces = [b"", b"\0", b"\1", b"\2", b"\x7f\xff", b"\n", b" ", b"3", b"ff", b"refused 1 2 3", b"\xc3"]
        words = [nearest(Fraction(k % 4 == 0) - Fraction(1, 3)) for k in range(9)]
        files = [packed(2, 3, words, -10), packed(3, 3, words + [nearest(Fraction(k)) for k in (1, 2, 3)], 7)]
        output = (b"seconds 2 32 -10\n1 1 3ff0000000000000\n1 2 3ff0000000000000\n"
                  b"2 1 3ff0000000000000\n2 2 7ff0000000000000\n")
        for _ in range(300):
            self.check("show", "-", stdin=self.changed(rng, rng.choice(files), pieces))
            self.check("table", stdin=self.changed(rng, output, pieces))
            self.check("table", "--hex", stdin=self.changed(rng, output, pieces))


# ==== The examples and the walk-through ====

def read_lines(path: Path) -> Typed:
    """A text of lines, read in a few lines of its own (plain names only)."""
    text = re.sub(r"#.*", "", path.read_text())
    names = " ".join(re.findall(r"^stages (.*)$", text, re.MULTILINE)).split()
    moves = re.findall(r"^(\w+) *-> *(\w+) +(\S+)", text, re.MULTILINE)
    last = re.findall(r"^(\w+) +(?:leaves|margin|sum) +(\S+)", text, re.MULTILINE)
    weights = dict(re.findall(r"^(\w+) +weight +(\S+)", text, re.MULTILINE))
    reading = next(number for number, word in READING_WORDS.items() if f"reading {word}" in text)
    return Typed(reading, names, {(names.index(a), names.index(b)): x for a, b, x in moves},
                 {names.index(a): x for a, x in last}, "".join(re.findall(r"^unit (.*)$", text, re.MULTILINE)),
                 [weights[name] for name in names] if weights else ())


def norm(matrix: Exact) -> Fraction:
    """The largest sum of sizes in a row."""
    return max(sum((abs(x) for x in row), Fraction(0)) for row in matrix)


def to_digits(x: Fraction, digits: int) -> Fraction:
    """A positive fraction rounded to so many decimal digits."""
    exponent = 0
    while x >= Fraction(10) ** (exponent + 1):
        exponent += 1
    while x < Fraction(10) ** exponent:
        exponent -= 1
    return round(x * Fraction(10) ** (digits - 1 - exponent)) / Fraction(10) ** (digits - 1 - exponent)


class Examples(ToolTest):
    """What the examples say is true."""

    CARDS = Typed(1, ["Receive", "Sign", "Key check", "Ship"],
                  {(0, 1): "0.25", (1, 2): "0.125", (2, 1): "0.025", (2, 3): "0.22"}, {2: "0.005", 3: "0.5"})

    def seconds(self, name: str, names: Sequence[str]) -> list[list[Fraction]]:
        """The table of an example, read from its decimals."""
        path = str(ROOT / "examples" / name)
        out = self.good("table", "--names", path, stdin=dwell(self.good("make", path)))
        return [[value(text) for text in row] for row in split_table(out, names)[1]]

    def test_signing(self) -> None:
        """A condition number of 5.6e7: a rounded diagonal is off by 6.3e-11, dwell by less than 1e-15."""
        typed = read_lines(ROOT / "examples" / "signing.txt")
        self.assertEqual((typed.reading, len(typed.names), len(typed.rates), len(typed.diagonal)), (1, 5, 7, 5))
        for i, leaving in typed.diagonal.items():
            self.assertEqual(value(leaving) * 10 ** 6, max(value(x) for (k, _), x in typed.rates.items() if k == i))
        matrix = exact_matrix(typed)
        exact = exact_inverse(matrix)
        self.assertEqual(to_digits(norm(matrix) * norm(exact), 2), Fraction("5.6e7"))
        rounded = [[Fraction(number(nearest(x))) if i == j else x for j, x in enumerate(row)]
                   for i, row in enumerate(matrix)]
        changed = exact_inverse(rounded)
        worst = max(abs(changed[i][j] / exact[i][j] - 1) for i in range(5) for j in range(5))
        self.assertEqual(to_digits(worst, 2), Fraction("6.3e-11"))
        for row, exact_row in zip(self.seconds("signing.txt", typed.names), exact, strict=True):
            for x, y in zip(row, exact_row, strict=True):
                self.assertLess(abs(x / y - 1), Fraction("1e-15"))

    def test_panel(self) -> None:
        """The margins give the rates of the comment, one row sum is negative, dwell is off by at most 1e-15."""
        typed = read_lines(ROOT / "examples" / "panel.txt")
        matrix = exact_matrix(typed)
        self.assertEqual((typed.reading, typed.names), (2, ["packing", "test", "repair", "cut", "printer"]))
        done = ["0.5", "0.2", "0.02", "0.025", "0.0125"]
        self.assertEqual([matrix[i][i] for i in range(5)], [Fraction(text) for text in done])
        self.assertEqual(sum(matrix[3]), Fraction("0.025") - Fraction("0.2"))
        for row, exact_row in zip(self.seconds("panel.txt", typed.names), exact_inverse(matrix), strict=True):
            for x, y in zip(row, exact_row, strict=True):
                self.assertLessEqual(abs(x - y), y / 10 ** 15)

    def test_coating(self) -> None:
        """The weights give the rates of the comment.  The row sum of slitting is negative, and in every order of the
        stages eight of its forty cards come back or more, so its margin is negative too.  The table is exact, and
        other weights have the same matrix."""
        typed = read_lines(ROOT / "examples" / "coating.txt")
        self.assertEqual((typed.reading, typed.names), (3, ["slitting", "coating", "check", "packing"]))
        self.assertEqual(self.good("make", str(ROOT / "examples" / "coating.txt")), expected_file(typed))
        matrix = exact_matrix(typed)
        done = [Fraction(text) for text in ("0.015625", "0.25", "0.15625", "0.5")]
        self.assertEqual([matrix[i][i] for i in range(4)], done)
        self.assertEqual((-matrix[0][1], -matrix[2][1]), (40 * done[0], done[2] / 5))
        self.assertEqual(sum(matrix[0]), done[0] - 40 * done[0])
        for order in itertools.permutations(range(4)):
            share: dict[int, Fraction] = {}
            for i in order:
                comes_back = sum((-matrix[i][j] * share.get(j, Fraction(1)) for j in range(4) if j != i), Fraction(0))
                share[i] = comes_back / matrix[i][i]
            self.assertGreaterEqual(share[0], 8, order)
        self.assertEqual(self.seconds("coating.txt", typed.names), exact_inverse(matrix))
        weights = [Fraction(x) for x in (300, 7, 6, 5)]
        sums = [sum(x * weight for x, weight in zip(row, weights, strict=True)) for row in matrix]
        self.assertGreater(min(sums), 0)
        other = typed._replace(diagonal={i: str(x) for i, x in enumerate(sums)}, weights=[str(x) for x in weights])
        self.assertEqual(exact_matrix(other), matrix)

    def test_cards(self) -> None:
        """The matrix says the same as lines with its numbers."""
        self.assertEqual(self.good("make", str(ROOT / "examples" / "cards.csv")), expected_file(self.CARDS))
        exact = exact_inverse(exact_matrix(self.CARDS))
        for row, exact_row in zip(self.seconds("cards.csv", self.CARDS.names), exact, strict=True):
            for x, y in zip(row, exact_row, strict=True):
                self.assertLessEqual(abs(x - y), y / 10 ** 15)

    def test_retired(self) -> None:
        """Two idle stages; the other numbers are those of the sheet without them."""
        path = ROOT / "examples" / "retired.txt"
        typed = read_lines(path)
        self.assertEqual([(i + 1, name) for i, name in enumerate(typed.names) if i not in live_stages(typed)],
                         [(2, "gluing"), (5, "packing")])
        rows, exact = self.seconds("retired.txt", typed.names), exact_seconds(typed)
        for row, exact_row in zip(rows, exact, strict=True):
            for x, y in zip(row, exact_row, strict=True):
                self.assertLessEqual(abs(x - y), y / 10 ** 15)
        self.assertEqual(value(typed.diagonal[0]) * 20, value(typed.rates[0, 2]))
        short = path.read_text().replace("gluing ", "").replace(" packing\n", "\n")
        alone = self.good("table", "--names", "line.txt", stdin=dwell(self.make(short)))
        cells = split_table(alone, ["cutting", "signing", "shipping"])[1]
        self.assertEqual([[value(text) for text in row] for row in cells],
                         [[rows[i][j] for j in (0, 2, 3)] for i in (0, 2, 3)])

    def test_terminal(self) -> None:
        """The file says ticks, the comments' ticks are those of the rates, and 1,024 ticks of the table are a second of
        the table whose rates are per second, bit for bit."""
        path = ROOT / "examples" / "terminal.txt"
        typed = read_lines(path)
        self.assertEqual((typed.unit, typed.names), ("ticks", ["slot", "reader", "check", "tray"]))
        self.assertEqual(self.good("make", str(path)), expected_file(typed))
        spent = [1 / (sum((value(text) for (i, _), text in typed.rates.items() if i == k), Fraction(0))
                      + value(typed.diagonal.get(k, "0"))) for k in range(4)]
        self.assertEqual(spent, [128, 512, 1000, 2000])
        self.assertEqual(value(typed.rates[2, 1]) * 10, 1 / spent[2])
        ticks, exact = self.seconds("terminal.txt", typed.names), exact_seconds(typed)
        for row, exact_row in zip(ticks, exact, strict=True):
            for x, y in zip(row, exact_row, strict=True):
                self.assertLessEqual(abs(x - y), y / 10 ** 15)

        def per_second(text: str) -> str:
            return (number(nearest(value(text))) * 1024).hex()

        moved = Typed(1, typed.names, {pair: per_second(text) for pair, text in typed.rates.items()},
                      {i: per_second(text) for i, text in typed.diagonal.items()}, "seconds")
        out = self.good("table", "--names", "line.txt", "--hex", stdin=dwell(self.make(as_lines(moved))))
        in_ticks = self.good("table", "--names", str(path), "--hex", stdin=dwell(self.good("make", str(path))))
        self.assertEqual([[value(text) for text in row] for row in split_table(in_ticks, typed.names)[1]],
                         [[value(text) * 1024 for text in row] for row in split_table(out, typed.names)[1]])

    def test_prices(self) -> None:
        """The prices are for the stages of the cards, and those of the list are exact; of a card that enters at the key
        check, 1.07 cents are for the signer."""
        path, cards = str(ROOT / "examples" / "prices.txt"), str(ROOT / "examples" / "cards.csv")
        typed = dict(re.findall(r'^"?(\w[\w ]*\w)"? +([0-9.]+)', Path(path).read_text(), re.MULTILINE))
        self.assertEqual(sorted(typed), sorted(self.CARDS.names))
        paid = [[x * value(typed[name]) for x, name in zip(times, self.CARDS.names, strict=True)]
                for times in exact_seconds(self.CARDS)]
        out = self.good("prices", path, "--names", cards, stdin=dwell(self.good("make", cards)))
        self.assertEqual([value(text) for text in split_list(out, self.CARDS.names)[1]], [sum(row) for row in paid])
        self.assertEqual(to_digits(paid[2][1], 3), Fraction("1.07"))

    def test_walk_through(self) -> None:
        """Each command of the walk-through prints what stands below it."""
        pages = [ROOT / "README.md"]
        found = [re.findall(r"^```\n(\$ .*?)^```", page.read_text(), re.MULTILINE | re.DOTALL) for page in pages]
        blocks = [block for of_page in found for block in of_page if "tools/sheet.py" in block]
        self.assertTrue(blocks)
        for folder in ("tools", "examples"):
            os.symlink(ROOT / folder, Path(self.folder) / folder)
        program = Path(self.folder) / "crates" / "dwell" / "out" / "dwell"
        program.parent.mkdir(parents=True)
        program.write_text(f"#!/bin/sh\ncd {shlex.quote(START_FOLDER)}\nexec {shlex.join(DWELL)}\n")
        program.chmod(0o755)
        for block in blocks:
            for command, printed in re.findall(r"^\$ (.*)\n((?:(?!\$ ).*\n)*)", block, re.MULTILINE):
                done = subprocess.run(["bash", "-c", command], stdout=subprocess.PIPE, stderr=subprocess.STDOUT,
                                      cwd=self.folder, check=False)
                self.assertEqual(done.stdout.decode(), printed, command)


def main() -> int:
    """Runs all tests; the exit status."""
    suite = unittest.defaultTestLoader.loadTestsFromModule(sys.modules[__name__])
    result = unittest.TextTestRunner(stream=sys.stdout).run(suite)
    if result.wasSuccessful():
        print(f"tools: all {result.testsRun} tests passed (dwell: {shlex.join(DWELL)})")
    else:
        print(f"tools: FAILED, {len(result.failures) + len(result.errors)} of {result.testsRun} tests")
    return 0 if result.wasSuccessful() else 1


if __name__ == "__main__":
    sys.exit(main())
