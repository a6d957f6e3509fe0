#!/usr/bin/env python3
"""Random, damaged and edge calls of every function that the library for hosts exports, each held to the reference.

    python3 tools/fuzz.py [--calls N] [--seed S] [--only NAME] [--archive FILE]

makes N calls of each export (10,000 if not said) in this process and compares the number returned, every out
place and every place of every lent area, before and after, bit for bit (`tools/hosts.py`).  The calls depend
on the seed alone.  A line for each export says how many calls had which answer.  Exit status 1 at the first
difference, which is printed with its call, or if a refusal of an export, an accepted sheet with idle stages where it
makes seconds, or, but for one column, a sheet with weights that is accepted and one that is refused for its weights
where it looks at them, never came up in 10,000 calls or more.

Then it tries as many times each law that joins several calls, on what the library itself wrote: moving units commutes
with the services, and two moves are one (document 02, U9).  A line for each law says how often which case came up;
exit status 1 where a law does not hold, or where a case never came up in 10,000 tries or more.
"""
from __future__ import annotations

import argparse
import math
import random
import struct
import sys
import tempfile
import time
from collections import Counter
from dataclasses import dataclass
from pathlib import Path
from typing import Callable, NamedTuple, Sequence

from hosts import PLACES, TEXT_BYTES, Calls, Difference, Library, Told, declared
import reference
from reference import FURTHEST_POWER, LARGEST, POWERS_OUT_OF_RANGE, READINGS, SMALLEST_NORMAL, bits_of

HUGE = [2 ** 32, 2 ** 63, 2 ** 64 - 1]


# ==== Sheets ====

@dataclass
class Sheet:
    """A sheet as it is lent: the reading, the number of stages, the e of its unit, and the numbers as 64-bit
    words."""
    reading: int
    n: int
    e: int
    words: list[int]


def some_n(rng: random.Random, few: int = 9) -> int:
    """Mostly few stages, which the reference is quick with; at times any number of them."""
    return rng.randint(1, 32) if rng.random() < 0.005 else rng.randint(1, few)


def edge_number(rng: random.Random) -> float:
    """A size at or beside an end of the range, or where a product of two of them is."""
    exponent = rng.choice([-1022, -1021, -600, -512, -511, -510, -100, 0, 0, 1, 100, 510, 511, 512, 1021, 1022, 1023])
    digits = rng.choice([0, 1, 2 ** 51, 2 ** 52 - 2, 2 ** 52 - 1])
    return math.ldexp(1.0 + digits * 2.0 ** -52, exponent)


def edge_sheet(rng: random.Random, reading: int, n: int) -> list[float]:
    """A sheet of such numbers, some of them zero, with weights, some of them 1; stages may be trapped or not kept."""
    few = [edge_number(rng) for _ in range(rng.randint(1, 3))]

    def number(i: int, j: int) -> float:
        if rng.random() < 0.4 and (i != j or reading == reference.LEAVING_RATES):
            return reference.random_zero(rng)
        return rng.choice(few) if i == j else -rng.choice(few)

    weights = [rng.choice([1.0, *few]) for _ in range(n)] if reading == reference.WEIGHTS else []
    return [number(i, j) for i in range(n) for j in range(n)] + weights


def trapped_sheet(rng: random.Random, n: int) -> list[float]:
    """Leaving rates on few stages or none, and few moves."""
    density = rng.choice([0.1, 0.3, 0.6])

    def number(i: int, j: int) -> float:
        share = 0.3 if i == j else density
        if rng.random() >= share:
            return reference.random_zero(rng)
        return rng.choice([1.0, 3.0]) if i == j else -rng.choice([1.0, 3.0])

    return [number(i, j) for i in range(n) for j in range(n)]


def table_numbers(rng: random.Random, reading: int, n: int) -> list[float]:
    """The numbers of a sheet of some kind."""
    kind = rng.random()
    if kind < 0.3:
        return edge_sheet(rng, reading, n)
    if kind < 0.4 and reading == reference.LEAVING_RATES:
        return trapped_sheet(rng, n)
    numbers = reference.random_sheet(rng, reading, n, reference.random_style(rng, rng.choice([30, 300])))
    if kind > 0.99 and n <= 4:
        pair = reference.edge_pair(rng, reading, n, numbers)
        return rng.choice(pair) if pair else numbers
    return numbers


def damaged(rng: random.Random, words: Sequence[int]) -> list[int]:
    """One or two numbers spoilt: no number, a wrong sign, too small, or any bits."""
    spoilt = list(words)
    for _ in range(rng.randint(1, 2)):
        at = rng.randrange(len(spoilt))
        spoilt[at] = rng.choice([
            0x7ff8000000000000, 0xfff0000000000001, 0x7ff0000000000000, 0xfff0000000000000, 1, 2 ** 63 + 1,
            bits_of(SMALLEST_NORMAL) - 1, spoilt[at] ^ 2 ** 63, spoilt[at] ^ 1 << rng.randrange(64), 0, 2 ** 63,
            bits_of(LARGEST), bits_of(-LARGEST), bits_of(-SMALLEST_NORMAL), rng.getrandbits(64)])
    return spoilt


def lost_pivot_sheet(rng: random.Random, n: int) -> list[float]:
    """A sheet of two stages or more in which one pivot overflows, and no other number of the columns before it
    shows that: moves go to later stages alone, and none to that pivot's stage."""
    k = rng.randrange(n - 1)
    summed = rng.sample(range(k, n), 2)     # two terms of the pivot

    def number(i: int, j: int) -> float:
        if i == k and j in summed:
            return LARGEST if i == j else -LARGEST
        if i == j:
            return reference.random_size(rng, 0)
        if i > j or j == k or rng.random() < 0.5:
            return reference.random_zero(rng)
        return -reference.random_size(rng, 3)

    return [number(i, j) for i in range(n) for j in range(n)]


def column_numbers(rng: random.Random, n: int) -> list[float]:
    """The numbers of a sheet of reading 1: mostly rates so far apart that often only some columns are in range."""
    kind = rng.random()
    if kind < 0.4:
        return table_numbers(rng, reference.LEAVING_RATES, n)
    if kind < 0.43 and n > 1:
        return lost_pivot_sheet(rng, n)
    numbers = reference.uneven_sheet(rng, n)
    if kind > 0.98 and n <= 4:
        pair = reference.edge_pair(rng, reference.LEAVING_RATES, n, numbers, rng.randint(1, n))
        return rng.choice(pair) if pair else numbers
    return numbers


def idle_sheet(rng: random.Random, n: int, make: Callable[[random.Random, int], list[float]]) -> list[float]:
    """A sheet of reading 1 with idle stages at any places, at times with no others; at times one of them is
    idle but for a single number in its row or its column."""
    live = rng.choice([0, n - 1, *range(n + 1)])
    own, numbers = reference.among_idle(rng, live, make(rng, live) if live else [], n)
    idle = [i for i in range(n) if i not in own]
    if idle and rng.random() < 0.3:
        i, j = rng.choice(idle), rng.randrange(n)
        size = rng.choice([1.0, SMALLEST_NORMAL, LARGEST, edge_number(rng)])
        row, column = rng.choice([(i, j), (j, i), (i, i)])
        numbers[row * n + column] = size if row == column else -size
    return numbers


def some_numbers(rng: random.Random, reading: int, n: int, for_column: bool = False) -> list[float]:
    """The numbers of a sheet; of reading 1 often with idle stages."""
    def make(rng: random.Random, n: int) -> list[float]:
        return column_numbers(rng, n) if for_column else table_numbers(rng, reading, n)

    with_idle = reading == reference.LEAVING_RATES and rng.random() < 0.25
    return idle_sheet(rng, n, make) if with_idle else make(rng, n)


def some_sheet(rng: random.Random, for_column: bool = False) -> Sheet:
    """A sheet to make seconds of, as a caller may lend it."""
    reading, n = 1 if for_column else rng.choice(READINGS), some_n(rng)
    return lent(rng, reading, n, some_numbers(rng, reading, n, for_column))


def sheet_to_move(rng: random.Random) -> Sheet:
    """A sheet to move, as a caller may lend it: of rates about any power of two, or one to make seconds of."""
    reading, n = rng.choice(READINGS), some_n(rng)
    make = reference.sheet_to_move if rng.random() < 0.6 else some_numbers
    return lent(rng, reading, n, make(rng, reading, n))


def lent(rng: random.Random, reading: int, n: int, numbers: Sequence[float]) -> Sheet:
    """A sheet as a caller may lend it: most are whole, some are damaged or not what the other arguments say."""
    words = [bits_of(x) for x in numbers]
    if rng.random() < 0.2:
        words = damaged(rng, words)
    if rng.random() < 0.03:
        words = rng.choice([words[:-1], words + [0], [], words * 2, words[:n * n], words + words[:n]])
    if rng.random() < 0.03:
        reading = rng.choice([0, 4, *READINGS, *HUGE])
    if rng.random() < 0.03:
        n = rng.choice([0, 33, n - 1, n + 1, *HUGE])
    return Sheet(reading, n, some_unit(rng), words)


def some_unit(rng: random.Random) -> int:
    """The e of a sheet's unit: mostly in its range, and then often an end of it; at times out of it, also by far."""
    return rng.choice(POWERS_OUT_OF_RANGE) if rng.random() < 0.04 else reference.random_unit(rng)


def unit_to_move(rng: random.Random, k: int) -> int:
    """The e of a sheet that is moved by k: mostly one for which e + k is in its range, or at an end of it or beside
    that."""
    kind = rng.random()
    if kind < 0.3 or abs(k) > FURTHEST_POWER:
        return some_unit(rng)
    least, most = max(-FURTHEST_POWER, -FURTHEST_POWER - k), min(FURTHEST_POWER, FURTHEST_POWER - k)
    if kind < 0.6:
        return (most if k > 0 else least) + rng.choice([-1, 0, 1])
    return rng.randint(least, most)


def some_stage(rng: random.Random, n: int) -> int:
    """A stage that is asked for: mostly one of the sheet's."""
    if rng.random() < 0.03:
        return rng.choice([0, n + 1, *HUGE]) % 2 ** 64
    return rng.randint(1, min(max(n, 1), 32))


def some_power(rng: random.Random, n: int, words: Sequence[int]) -> int:
    """A k to move a sheet by: mostly in its range, and then often one that brings a number of the sheet to an end of
    the range of results or one power of two to either side of it; at times out of its range, also by far."""
    kind = rng.random()
    if kind < 0.06:
        return rng.choice(POWERS_OUT_OF_RANGE)
    if kind < 0.12:
        return rng.choice([-512, -511, -10, 0, 10, 511, 512])
    return reference.random_power(rng, n, [reference.number_of(word) for word in words])


def some_prices(rng: random.Random, sheet: Sheet) -> list[int]:
    """Unit prices, one for each stage: mostly good ones, about 1, at an end of the range, or one last place to either
    side of the edge of acceptance; some damaged, or not n in number."""
    n, kind = min(sheet.n, 33), rng.random()
    numbers = [edge_number(rng) for _ in range(n)] if kind < 0.2 else reference.random_prices(rng, n)
    if kind > 0.98 and 1 <= n <= 3 and len(sheet.words) == reference.sheet_length(sheet.reading, n):
        pair = reference.price_edge_pair(rng, sheet.reading, n, [reference.number_of(word) for word in sheet.words],
                                         numbers)
        numbers = rng.choice(pair) if pair else numbers
    words = [bits_of(x) for x in numbers]
    if words and rng.random() < 0.15:
        words = damaged(rng, words)
    return rng.choice([words[:-1], words + [0], [], words * 2]) if rng.random() < 0.04 else words


def some_room(rng: random.Random, needed: int) -> int:
    """The length of an area for so many numbers: mostly enough."""
    kind = rng.random()
    if kind < 0.06:
        return rng.choice([0, max(0, needed - 1), rng.randrange(needed + 1)])
    return needed + (0 if kind < 0.4 else rng.choice([1, 2, 7, 40]) if kind < 0.97 else PLACES)


def room_for_sheet(rng: random.Random, reading: int, n: int) -> int:
    """The length of an area for a sheet: mostly enough, and at times without room for the weights."""
    needed = reference.sheet_length(reading, min(n, 33))
    return min(n, 33) ** 2 if rng.random() < 0.02 else some_room(rng, needed)


# ==== Files ====

def some_file(rng: random.Random) -> bytes:
    """A sheet file: of a sheet or of any words; most are whole."""
    n, reading = some_n(rng, 6), rng.choice(READINGS)
    if rng.random() < 0.5:
        words = [bits_of(x) for x in some_numbers(rng, reading, n)]
    else:
        reading = rng.choice([0, 4]) if rng.random() < 0.09 else reading
        words = [rng.choice([rng.getrandbits(64), 0x7ff0000000000001, 0xfff8000000000000])
                 for _ in range(reference.sheet_length(reading, n))]
    data = head_of_file(rng, reading, n) + reference.make_records(reading, n, words)
    return data if rng.random() < 0.35 else damaged_file(rng, data)


def head_of_file(rng: random.Random, reading: int, n: int) -> bytes:
    """The head of a file: one that says its unit, which is at times out of range, or document 01's."""
    if rng.random() < 0.3:
        return reference.make_short_head(reading, n)
    unit = rng.choice([-513, 513, -32768, 32767]) if rng.random() < 0.04 else reference.random_unit(rng)
    return reference.make_head(reading, n, unit)


def damaged_file(rng: random.Random, data: bytes) -> bytes:
    """A file that is cut, longer, has a field changed, or has records that are exchanged, missing, twice there or
    weights that are not due."""
    records, kind = reference.records_of(data), rng.randrange(6)
    if kind == 0:
        return data[:rng.randrange(len(data))]
    if kind == 1:
        return data + bytes(rng.choice([1, 1, 2, 30, 9000]))
    if kind == 2:
        at = rng.randrange(len(data))
        return data[:at] + bytes([data[at] ^ 1 << rng.randrange(8)]) + data[at + 1:]
    if kind == 3:
        head, *rest = records
        i, j = rng.randrange(len(rest)), rng.randrange(len(rest))
        weights = reference.record(reference.SHEET_WEIGHTS, rest[0][8:])
        return head + b"".join(rng.choice([
            [*rest[:i], rest[j], *rest[i + 1:]], [*rest[:i], *rest[i + 1:]], [*rest, rest[i]], [*rest, weights],
            [*rest[:i], weights, *rest[i:]], [*rest[:i], weights, *rest[i + 1:]]]))
    at = rng.randrange(len(records))
    start, record = len(b"".join(records[:at])), records[at]
    own_fields = [(place, "<H") for place in range(8, len(record), 2)] if at == 0 else []
    place, form = rng.choice([(0, "<I"), (4, "<H"), (6, "<H"), *own_fields])
    old = struct.unpack_from(form, record, place)[0]
    new = rng.choice([0, 1, 2, 3, 4, 5, 6, 7, 32, 33, 512, 513, -512, -513, old + 1, old - 1, old + 8, 8717, 8718,
                      2 ** 16 - 1, 2 ** 32 - 1])
    changed = bytearray(data)
    struct.pack_into(form, changed, start + place, new % (2 ** 32 if form == "<I" else 2 ** 16))
    return bytes(changed) + bytes(rng.choice([0, 0, 9000]))


# ==== The exports ====

class Outcome(NamedTuple):
    """What came of a call: 0 or the number of the refusal, and whether the sheet is accepted with weights, refused
    for them, as row n + 1, or accepted with idle stages."""
    number: int
    weights: bool = False
    at_weights: bool = False
    idle: bool = False


Call = Callable[[Calls, random.Random], Outcome]


def outcome(told: Told, reading: int, n: int) -> Outcome:
    """The outcome of a call on a sheet."""
    number, row, _ = told
    return Outcome(number, number == 0 and reading == reference.WEIGHTS, number != 0 and row == n + 1)


def outcome_of_times(told: Told, reading: int, n: int, words: Sequence[int]) -> Outcome:
    """The same of a call that makes seconds of this sheet."""
    came, numbers = outcome(told, reading, n), [reference.number_of(word) for word in words]
    return came._replace(idle=came.number == 0 and len(reference.live_stages(reading, n, numbers)) < n)


def call_table(calls: Calls, rng: random.Random) -> Outcome:
    """The whole table."""
    sheet = some_sheet(rng)
    told = calls.table(sheet.reading, sheet.n, sheet.e, sheet.words, some_room(rng, min(sheet.n, 33) ** 2))
    return outcome_of_times(told, sheet.reading, sheet.n, sheet.words)


def call_entry(calls: Calls, rng: random.Random) -> Outcome:
    """One entry."""
    sheet = some_sheet(rng)
    i, j = some_stage(rng, sheet.n), some_stage(rng, sheet.n)
    told = calls.entry(sheet.reading, sheet.n, sheet.e, sheet.words, i, j)
    return outcome_of_times(told, sheet.reading, sheet.n, sheet.words)


def call_column(calls: Calls, rng: random.Random) -> Outcome:
    """One column."""
    sheet = some_sheet(rng, for_column=True)
    stage = some_stage(rng, sheet.n)
    told = calls.column(sheet.reading, sheet.n, sheet.e, sheet.words, stage, some_room(rng, min(sheet.n, 33)))
    return outcome_of_times(told, sheet.reading, sheet.n, sheet.words)


def call_prices(calls: Calls, rng: random.Random) -> Outcome:
    """Prices."""
    sheet = some_sheet(rng)
    prices = some_prices(rng, sheet)
    told = calls.prices(sheet.reading, sheet.n, sheet.e, sheet.words, prices, some_room(rng, min(sheet.n, 33)))
    return outcome_of_times(told, sheet.reading, sheet.n, sheet.words)


def reader(name: str) -> Call:
    """One of the two readers of files."""
    def call(calls: Calls, rng: random.Random) -> Outcome:
        data = some_file(rng)
        reading, n = (data[6], data[8]) if len(data) > 8 else (1, 1)
        return outcome(calls.read(name, data, room_for_sheet(rng, reading, n)), reading, n)
    return call


def saved_sheet(rng: random.Random) -> Sheet:
    """A sheet to save: one that may be judged otherwise, or any words, NaN patterns among them."""
    sheet = some_sheet(rng)
    if rng.random() < 0.5:
        sheet.words = [rng.choice([rng.getrandbits(64), 0x7ff0000000000001, 0xfff8000000000000, 0x7ff8000000000000, 2 ** 63])
                       for _ in sheet.words]
    return sheet


def writer(name: str) -> Call:
    """One of the two writers of files."""
    def call(calls: Calls, rng: random.Random) -> Outcome:
        sheet = saved_sheet(rng)
        needed = reference.file_length(sheet.reading, min(sheet.n, 33))
        kind = rng.random()
        room = (rng.choice([0, 9, needed - 1, rng.randrange(needed)]) if kind < 0.06
                else needed + (0 if kind < 0.5 else rng.choice([1, 2, 7, 40, 9000])))
        told = calls.save(name, sheet.reading, sheet.n, sheet.e, sheet.words, room)
        return outcome(told, sheet.reading, sheet.n)
    return call


def call_move(calls: Calls, rng: random.Random) -> Outcome:
    """A sheet moved to another time unit."""
    sheet = sheet_to_move(rng)
    k, room = some_power(rng, sheet.n, sheet.words), room_for_sheet(rng, sheet.reading, sheet.n)
    told = calls.move(sheet.reading, sheet.n, unit_to_move(rng, k), sheet.words, k, room)
    return outcome(told, sheet.reading, sheet.n)


def call_report(calls: Calls, rng: random.Random) -> Outcome:
    """A report; the refusal that its text tells."""
    room = TEXT_BYTES + rng.choice([0, 0, 1, 100]) if rng.random() < 0.98 else rng.choice([0, 1, TEXT_BYTES - 1])
    data = some_file(rng)
    text = calls.report(data, room).split()
    if not text:
        return Outcome(0)
    if text[0] == b"seconds":
        sheet = reference.load(data, PLACES)
        return outcome_of_times((0, 0, 0), sheet.reading, sheet.n, sheet.words)
    number, row, column = (int(word) for word in text[1:])
    return outcome((number, row, column), reference.WEIGHTS, data[8] if len(data) > 8 else 0)


# Each export with the refusals that it can answer; those that can answer 9 make seconds of a sheet.
EXPORTS: dict[str, tuple[Call, set[int]]] = {
    "yulanbowls_table": (call_table, {1, 2, 3, 4, 6, 7, 8, 9, 10, 12}),
    "yulanbowls_entry": (call_entry, {1, 2, 3, 5, 6, 7, 8, 9, 10, 12}),
    "yulanbowls_column": (call_column, {1, 2, 3, 4, 5, 6, 7, 8, 9, 10, 12}),
    "yulanbowls_prices": (call_prices, {1, 2, 3, 4, 6, 7, 8, 9, 10, 12, 18, 19}),
    "yulanbowls_read_numbers": (reader("yulanbowls_read_numbers"), {4, 11, 12, 13, 14}),
    "yulanbowls_read_words": (reader("yulanbowls_read_words"), {4, 11, 12, 13, 14}),
    "yulanbowls_save_numbers": (writer("yulanbowls_save_numbers"), {1, 2, 3, 4, 12}),
    "yulanbowls_save_words": (writer("yulanbowls_save_words"), {1, 2, 3, 4, 12}),
    "yulanbowls_move": (call_move, {1, 2, 3, 4, 6, 7, 8, 12, 15, 16, 17}),
    "yulanbowls_report": (call_report, {6, 7, 8, 9, 10, 11, 12, 13, 14}),
}


def fuzz(library: Library, name: str, count: int, seed: int) -> bool:
    """So many calls of one export; whether all agreed, and every refusal, idle stages and weights came up."""
    call, refusals = EXPORTS[name]
    seen: Counter[int] = Counter()
    kinds = {"idle": "accepted with idle stages"} if 9 in refusals else {}
    if name != "yulanbowls_column":
        kinds["weights"] = "accepted with weights"
        kinds |= {"at_weights": "refused for weights"} if refusals & {6, 13} else {}
    of_kind = dict.fromkeys(kinds, 0)
    began = time.monotonic()
    for at in range(count):
        rng = random.Random(f"{seed} {name} {at}")
        try:
            came = call(Calls(library, rng), rng)
        except Difference as difference:
            print(f"{name}: call {at} of seed {seed}: {difference}", flush=True)
            return False
        seen[came.number] += 1
        for kind in kinds:
            of_kind[kind] += getattr(came, kind)
    answers = ", ".join(f"{number} {seen[number]}" for number in sorted(seen) if number)
    among = "".join(f", {words} {of_kind[kind]}" for kind, words in kinds.items())
    rate = count / (time.monotonic() - began)
    print(f"{name}: {count} calls agree ({rate:.0f} a second); accepted {seen[0]}; refused: {answers}{among}",
          flush=True)
    missing = [f"refused with {number}" for number in sorted(refusals - set(seen))]
    missing += [words for kind, words in kinds.items() if not of_kind[kind]]
    if missing and count >= 10000:
        print(f"{name}: never {', '.join(missing)}", flush=True)
    return not (missing and count >= 10000)


# ==== Laws of several calls ====

def agree(got: object, due: object, what: str) -> None:
    """What a call left, and what a law makes of another call's answer."""
    if got != due:
        raise Difference(f"{what}: {got} where {due} is due")


def unit_from(rng: random.Random, *moves: int) -> int:
    """An e from which each of these moves, one after another, stays in the range of e, if there is one."""
    far = [sum(moves[:count]) for count in range(len(moves) + 1)]
    least, most = -FURTHEST_POWER - min(far), FURTHEST_POWER - max(far)
    return rng.randint(least, most) if least <= most else 0


def same_times_back(service: str, reading: int, k: int, numbers: int, seen: Counter[str],
                    first: tuple[Told, Sequence[int]], second: tuple[Told, Sequence[int]]) -> None:
    """Two calls of a service, by what they told and left: on a sheet, and on the sheet moved by 2^k.  If both are
    accepted, the second's first numbers are the first's divided by 2^k, and what else is handed over is the same."""
    accepted = [told[0] == 0 for told, _ in (first, second)]
    both = "both accepted" if all(accepted) else "one alone" if any(accepted) else "none"
    seen[f"{service}, reading {reading}: {both}"] += 1
    if all(accepted):
        (_, before), (_, after) = first, second
        agree(list(after[:numbers]), reference.divided(before[:numbers], k), f"{service} of the moved sheet")
        agree(after[numbers:], before[numbers:], f"allowance of the {service}")


def try_commuting(calls: Calls, rng: random.Random, seen: Counter[str]) -> None:
    """Moving units commutes with the services."""
    reading, n = rng.choice(READINGS), some_n(rng, 6)
    numbers, k = reference.sheet_to_commute(rng, reading, n)
    sheet, e = [bits_of(x) for x in numbers], unit_from(rng, k)
    if calls.move(reading, n, e, sheet, k, len(sheet))[0]:
        seen["not moved"] += 1
        return
    moved, moved_e = calls.left[:len(sheet)], e + k
    if rng.random() < 0.5:      # the other way round
        sheet, e, k, moved, moved_e = list(moved), moved_e, -k, sheet, e
    i, j, prices = rng.randint(1, n), rng.randint(1, n), [bits_of(x) for x in reference.random_prices(rng, n)]
    services: dict[str, tuple[int, Callable[[int, Sequence[int]], Told]]] = {
        "table": (n * n, lambda e, words: calls.table(reading, n, e, words, n * n)),
        "entry": (1, lambda e, words: calls.entry(reading, n, e, words, i, j)),
        "column": (n, lambda e, words: calls.column(reading, n, e, words, j, n)),
        "prices": (n, lambda e, words: calls.prices(reading, n, e, words, prices, n))}
    for service, (count, call) in services.items():
        first = call(e, sheet), calls.left
        second = call(moved_e, moved), calls.left
        same_times_back(service, reading, k, count, seen, first, second)


def try_two_moves(calls: Calls, rng: random.Random, seen: Counter[str]) -> None:
    """Two moves are one: the second move and the single one, lent areas with the same contents, leave them equal, and
    the same e."""
    reading, n = rng.choice(READINGS), some_n(rng, 6)
    numbers = reference.sheet_to_move(rng, reading, n)
    a = reference.random_power(rng, n, numbers)
    b = rng.choice([-a, reference.random_power(rng, n, numbers) - a, rng.randint(-FURTHEST_POWER, FURTHEST_POWER)])
    sheet, e = [bits_of(x) for x in numbers], unit_from(rng, a, b)
    if calls.move(reading, n, e, sheet, a, len(sheet))[0]:
        seen["the first refused"] += 1
        return
    moved, room, state = calls.left[:len(sheet)], len(sheet) + rng.choice([0, 3, 40]), rng.getstate()
    told, left = calls.move(reading, n, e + a, moved, b, room), calls.left
    if told[0]:
        seen["the second refused"] += 1
        return
    rng.setstate(state)         # so the second area holds the same
    alone = calls.move(reading, n, e, sheet, a + b, room)
    if abs(a + b) > FURTHEST_POWER:
        seen["a + b out of range"] += 1
        agree(alone, (15, 0, 0), "the single move")
        return
    seen[f"one move, reading {reading}"] += 1
    agree((alone, calls.left), ((0, 0, 0), left), "the single move and what it left")


ACCEPTANCE = ["both accepted", "one alone", "none"]

# Each law with the cases that have to come up; one column is for reading 1 alone.
LAWS: dict[str, tuple[Callable[[Calls, random.Random, Counter[str]], None], set[str]]] = {
    "moving_commutes": (try_commuting, {"not moved", *(f"column, reading 1: {case}" for case in ACCEPTANCE), *(
        f"{service}, reading {reading}: {case}" for service in ("table", "entry", "prices") for reading in READINGS
        for case in ACCEPTANCE)}),
    "two_moves": (try_two_moves, {"the first refused", "the second refused", "a + b out of range", *(
        f"one move, reading {reading}" for reading in READINGS)}),
}


def fuzz_law(library: Library, name: str, count: int, seed: int) -> bool:
    """So many tries of a law; whether it held in all, and every case came up."""
    law, cases = LAWS[name]
    seen: Counter[str] = Counter()
    for at in range(count):
        rng = random.Random(f"{seed} {name} {at}")
        try:
            law(Calls(library, rng), rng, seen)
        except Difference as difference:
            print(f"{name}: try {at} of seed {seed}: {difference}", flush=True)
            return False
    print(f"{name}: holds in {count} tries; {', '.join(f'{case} {seen[case]}' for case in sorted(seen))}", flush=True)
    missing = sorted(cases - set(seen))
    if missing and count >= 10000:
        print(f"{name}: never {', '.join(missing)}", flush=True)
    return not (missing and count >= 10000)


def parsed(arguments: Sequence[str]) -> argparse.Namespace:
    """The options."""
    parser = argparse.ArgumentParser(prog="fuzz.py", description=__doc__.split("\n")[0])
    parser.add_argument("--calls", type=int, default=10000, metavar="N", help="calls of each export, tries of each law")
    parser.add_argument("--seed", type=int, default=1, metavar="S", help="another seed makes other calls")
    parser.add_argument("--only", default=None, metavar="NAME", choices=[*sorted(EXPORTS), *LAWS],
                        help="one export or one law")
    parser.add_argument("--archive", type=Path, default=None, metavar="FILE", help="this archive, and build none")
    return parser.parse_args(arguments)


def main(arguments: Sequence[str]) -> int:
    """Fuzzes every export that the header declares; the exit status."""
    options = parsed(arguments)
    if set(EXPORTS) != set(declared()):
        print(f"not in the header, or not fuzzed: {sorted(set(EXPORTS) ^ set(declared()))}")
        return 1
    with tempfile.TemporaryDirectory() as folder:
        library = Library(folder, options.archive)
        names = [options.only] if options.only else [*EXPORTS, *LAWS]
        done = [(fuzz if name in EXPORTS else fuzz_law)(library, name, options.calls, options.seed) for name in names]
    return 0 if all(done) else 1


if __name__ == "__main__":
    sys.exit(main(sys.argv[1:]))
