"""The library for hosts in this process, each call held to the reference.

`Library` builds target/staticlib/libhosts.a by `rt lib` in crates/hosts_c, or takes an archive that is there, makes
a shared object of it and loads that.  `Calls` makes single calls: every lent area and out place stands between
guards and holds random bits before the call, and afterwards the number returned and every place are those that
`tools/reference.py` gives.  A `Difference` says what is not.  The environment variable CC names the C compiler.
"""
from __future__ import annotations

import ctypes
import os
import random
import re
import shlex
import shutil
import struct
import subprocess
import sys
from pathlib import Path
from typing import Optional, Sequence, Union

sys.dont_write_bytecode = True
sys.path.insert(0, str(Path(__file__).resolve().parent))
import reference  # noqa: E402
from reference import Column, Loaded, Moved, Prices, Refused, Saved, Seconds, Table, bits_of, number_of  # noqa: E402

ROOT = Path(__file__).resolve().parent.parent
HEADER = ROOT / "include" / "yulanbowls.h"
CRATE = ROOT / "crates" / "hosts_c"
ARCHIVE = ROOT / "target" / "staticlib" / "libhosts.a"
CC = shlex.split(os.environ.get("CC", "cc"))
TEXT_BYTES = 32768
PLACES = reference.MOST_NUMBERS     # room for every sheet, and so for every table

Told = tuple[int, int, int]     # number, row and column; zeros where a call is accepted


class Difference(AssertionError):
    """A call that did something else than the reference says."""


# ==== The library ====

def run(*command: str, stdin: bytes = b"", folder: Path = ROOT) -> subprocess.CompletedProcess[bytes]:
    """Runs a command in the repository."""
    return subprocess.run(command, input=stdin, stdout=subprocess.PIPE, stderr=subprocess.STDOUT, cwd=folder,
                          check=False)


def must(*command: str, folder: Path = ROOT) -> None:
    """Runs a command that has to succeed."""
    done = run(*command, folder=folder)
    if done.returncode != 0:
        raise RuntimeError(f"{shlex.join(command)} failed:\n{done.stdout.decode()}")


def declared() -> dict[str, list[str]]:
    """The functions that the header declares, with the names of their parameters in order."""
    text = re.sub(r"/\*.*?\*/", "", HEADER.read_text(), flags=re.DOTALL)
    found = re.findall(r"\bsize_t (\w+)\(([^)]*)\);", text)
    return {name: [re.findall(r"\w+", part)[-1] for part in parts.split(",")] for name, parts in found}


def build() -> None:
    """The archive, proved and built."""
    must("rt", "lib", folder=CRATE)
    ARCHIVE.parent.mkdir(parents=True, exist_ok=True)
    shutil.copyfile(CRATE / "out" / "libhosts_c.a", ARCHIVE)


class Library:
    """The archive as a shared object; parameters go in the order in which the header declares them."""

    def __init__(self, folder: str, archive: Optional[Path] = None) -> None:
        if archive is None:
            build()
        shared = str(Path(folder) / "libhosts.so")
        must(*CC, "-shared", "-Wl,--whole-archive", str(archive or ARCHIVE), "-Wl,--no-whole-archive", "-o", shared)
        library = ctypes.CDLL(shared)
        self.parameters = declared()
        self.functions = {}
        for name, order in self.parameters.items():
            function = getattr(library, name)
            function.restype, function.argtypes = ctypes.c_size_t, [ctypes.c_size_t] * len(order)
            self.functions[name] = function

    def call(self, name: str, **arguments: Union[int, "Lent"]) -> int:
        """Calls an export: an area under its name goes in as its address, `NAME_length` is its length, and a number
        goes in as an unsigned word, a negative one as its two's complement."""
        words: list[int] = []
        for parameter in self.parameters[name]:
            if parameter.endswith("_length") and parameter not in arguments:
                words.append(arguments[parameter[:-len("_length")]].length)
            else:
                value = arguments[parameter]
                words.append(value.address if isinstance(value, Lent) else value % 2 ** 64)
        return self.functions[name](*words)


class Lent:
    """A lent area, or one place, between guards."""
    GUARD = b"guarded!" * 8

    def __init__(self, content: bytes, width: int = 8) -> None:
        self.length = len(content) // width
        self.content = content
        self.memory = bytearray(self.GUARD + content + self.GUARD)
        self.pinned = (ctypes.c_char * len(self.memory)).from_buffer(self.memory)
        self.address = ctypes.addressof(self.pinned) + len(self.GUARD)
        if self.address % width:
            raise RuntimeError("an area is not aligned")

    def after(self) -> bytes:
        """What the area holds now; the guards are checked."""
        start, end = len(self.GUARD), len(self.GUARD) + len(self.content)
        if self.memory[:start] != self.GUARD or self.memory[end:] != self.GUARD:
            raise Difference("a place outside the lent area was written")
        return bytes(self.memory[start:end])

    def words(self) -> tuple[int, ...]:
        """The same as 64-bit words."""
        return struct.unpack(f"<{self.length}Q", self.after())


def packed(words: Sequence[int]) -> bytes:
    """64-bit words as bytes."""
    return struct.pack(f"<{len(words)}Q", *words)


def told(answer: object) -> Told:
    """Number, row and column of an answer of the reference."""
    return (answer.number, answer.row, answer.column) if isinstance(answer, Refused) else (0, 0, 0)


def report_text(data: bytes) -> bytes:
    """What a report on all these bytes is; dwell itself looks at no more than a longest file and a byte."""
    answer = reference.load(data, PLACES)
    return (reference.refused_line(answer) if isinstance(answer, Refused) else reference.dwell(data)).encode()


# ==== The calls ====

class Calls:
    """Single calls, each held to the reference; a call's answer is handed back.  `left` is what the last table,
    column, entry, prices or move left: the words of its area, and behind them what it handed over."""

    def __init__(self, library: Library, rng: random.Random) -> None:
        self.library, self.rng = library, rng
        self.left: tuple[int, ...] = ()

    def area(self, places: int) -> Lent:
        """An area with any bits in it, NaN patterns among them."""
        content = bytearray(self.rng.randbytes(8 * places))
        for at in range(6, len(content), 24):
            content[at] |= 0xf0
            content[at + 1] |= 0x7f
        return Lent(bytes(content))

    def place(self) -> Lent:
        """An out place."""
        return Lent(self.rng.randbytes(8))

    @staticmethod
    def same(got: object, expected: object, what: str) -> None:
        """Two values that have to be equal."""
        if got != expected:
            raise Difference(f"{what}: {got} where the reference has {expected}")

    def refusal(self, number: int, row: Lent, column: Lent, answer: object) -> Told:
        """The number returned and the places of row and column."""
        self.same((number, *row.words(), *column.words()), told(answer), "number, row and column")
        return told(answer)

    def handed(self, place: Lent, word: Optional[int], what: str) -> None:
        """An out place: what the call hands over, a negative number as its two's complement, and what it held before
        where the call is refused."""
        self.same(place.after(), place.content if word is None else packed([word % 2 ** 64]), what)

    def filled(self, area: Lent, allowance: Lent, answer: Union[Table, Column, Prices, Refused]) -> None:
        """The answer area and the allowance after a table, a column or prices were asked for."""
        if isinstance(answer, Refused):
            entries, word = b"", None
        else:
            entries, word = packed([bits_of(x) for x in answer.entries]), answer.allowance
        self.handed(allowance, word, "allowance")
        self.same(area.after(), entries + area.content[len(entries):], "answer area")
        self.left = area.words() + allowance.words()

    def table(self, reading: int, n: int, e: int, words: Sequence[int], room: int) -> Told:
        """The whole table of a sheet, given by its 64-bit words, with an area of so many places."""
        sheet, area = Lent(packed(words)), self.area(room)
        allowance, row, column = self.place(), self.place(), self.place()
        number = self.library.call("yulanbowls_table", reading=reading, n=n, e=e, sheet=sheet, answer=area,
                                   allowance=allowance, row=row, column=column)
        answer = reference.table(reading, n, e, [number_of(word) for word in words], room)
        self.filled(area, allowance, answer)
        self.same(sheet.after(), sheet.content, "sheet")
        return self.refusal(number, row, column, answer)

    def column(self, reading: int, n: int, e: int, words: Sequence[int], stage: int, room: int) -> Told:
        """The column of a stage of a sheet, with an area of so many places."""
        sheet, area = Lent(packed(words)), self.area(room)
        allowance, row, column = self.place(), self.place(), self.place()
        number = self.library.call("yulanbowls_column", reading=reading, n=n, e=e, sheet=sheet, stage=stage,
                                   answer=area, allowance=allowance, row=row, column=column)
        answer = reference.column(reading, n, e, [number_of(word) for word in words], stage, room)
        self.filled(area, allowance, answer)
        self.same(sheet.after(), sheet.content, "sheet")
        return self.refusal(number, row, column, answer)

    def entry(self, reading: int, n: int, e: int, words: Sequence[int], i: int, j: int) -> Told:
        """Entry (i, j) of a sheet."""
        sheet, seconds, row, column = Lent(packed(words)), self.place(), self.place(), self.place()
        number = self.library.call("yulanbowls_entry", reading=reading, n=n, e=e, sheet=sheet, i=i, j=j,
                                   seconds=seconds, row=row, column=column)
        answer = reference.entry(reading, n, e, [number_of(word) for word in words], i, j)
        self.handed(seconds, bits_of(answer.value) if isinstance(answer, Seconds) else None, "seconds")
        self.left = seconds.words()
        self.same(sheet.after(), sheet.content, "sheet")
        return self.refusal(number, row, column, answer)

    def prices(self, reading: int, n: int, e: int, words: Sequence[int], given: Sequence[int], room: int) -> Told:
        """The prices of a sheet's requests, the unit prices given by their 64-bit words, with an area of so many
        places."""
        sheet, prices, area = Lent(packed(words)), Lent(packed(given)), self.area(room)
        allowance, row, column = self.place(), self.place(), self.place()
        number = self.library.call("yulanbowls_prices", reading=reading, n=n, e=e, sheet=sheet, prices=prices,
                                   answer=area, allowance=allowance, row=row, column=column)
        answer = reference.request_prices(reading, n, e, [number_of(word) for word in words],
                                          [number_of(word) for word in given], room)
        self.filled(area, allowance, answer)
        self.same(sheet.after(), sheet.content, "sheet")
        self.same(prices.after(), prices.content, "prices")
        return self.refusal(number, row, column, answer)

    def read(self, name: str, data: bytes, room: int) -> Told:
        """A file read by one of the two readers into an area of so many places."""
        source, area = Lent(data, 1), self.area(room)
        reading, n, e, row, column = (self.place() for _ in range(5))
        number = self.library.call(name, bytes=source, area=area, reading=reading, n=n, e=e, row=row, column=column)
        answer = reference.load(data, room)
        loaded = isinstance(answer, Loaded)
        self.handed(reading, answer.reading if loaded else None, "reading")
        self.handed(n, answer.n if loaded else None, "n")
        self.handed(e, answer.e if loaded else None, "e")
        self.numbers(name, area, answer.words if loaded else [])
        self.same(source.after(), data, "file")
        return self.refusal(number, row, column, answer)

    def numbers(self, name: str, area: Lent, words: Sequence[int]) -> None:
        """The area after file reading. A number has the word's bits; for a NaN it is some NaN."""
        after = list(area.words())
        if name == "yulanbowls_read_numbers":
            for at, word in enumerate(words):
                if number_of(word) != number_of(word) and number_of(after[at]) != number_of(after[at]):
                    after[at] = word
        self.same(packed(after), packed(words) + area.content[8 * len(words):], "area")

    def save(self, name: str, reading: int, n: int, e: int, words: Sequence[int], room: int) -> Told:
        """A sheet, given by its 64-bit words, saved by one of the two writers into an area of so many bytes."""
        sheet, area = Lent(packed(words)), Lent(self.rng.randbytes(room), 1)
        length, row, column = self.place(), self.place(), self.place()
        number = self.library.call(name, reading=reading, n=n, e=e, sheet=sheet, bytes=area, length=length, row=row,
                                   column=column)
        if name == "yulanbowls_save_numbers":
            answer = reference.save_numbers(reading, n, e, [number_of(word) for word in words], room)
        else:
            answer = reference.save(reading, n, e, words, room)
        data = answer.data if isinstance(answer, Saved) else b""
        self.handed(length, len(data) if isinstance(answer, Saved) else None, "length")
        self.same(area.after(), data + area.content[len(data):], "bytes")
        self.same(sheet.after(), sheet.content, "sheet")
        return self.refusal(number, row, column, answer)

    def move(self, reading: int, n: int, e: int, words: Sequence[int], k: int, room: int) -> Told:
        """A sheet moved by 2^k, any signed 64-bit k, into a second area of so many places."""
        sheet, area = Lent(packed(words)), self.area(room)
        moved_e, row, column = self.place(), self.place(), self.place()
        number = self.library.call("yulanbowls_move", reading=reading, n=n, e=e, sheet=sheet, k=k, area=area,
                                   moved_e=moved_e, row=row, column=column)
        answer = reference.move(reading, n, e, [number_of(word) for word in words], k, room)
        moved = packed([bits_of(x) for x in answer.numbers]) if isinstance(answer, Moved) else b""
        self.handed(moved_e, answer.e if isinstance(answer, Moved) else None, "moved_e")
        self.same(area.after(), moved + area.content[len(moved):], "area")
        self.same(sheet.after(), sheet.content, "sheet")
        self.left = area.words() + moved_e.words()
        return self.refusal(number, row, column, answer)

    def report(self, data: bytes, room: int) -> bytes:
        """The report on a file in an area of so many bytes; the text is handed back."""
        source, area = Lent(data, 1), Lent(self.rng.randbytes(room), 1)
        length = self.library.call("yulanbowls_report", bytes=source, text=area)
        text = report_text(data) if room >= TEXT_BYTES else b""
        self.same(length, len(text), "length of the text")
        self.same(area.after(), text + area.content[len(text):], "text")
        self.same(source.after(), data, "file")
        return text
