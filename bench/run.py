#!/usr/bin/env python3
"""Times and errors of the proved services beside plain C and LAPACK, in one run on one machine.

    python3 bench/run.py [--quick] [--no-errors] [--goals] [--sizes 2,4,8-12] [--against libhosts.a]

builds the proved library (`rt lib` in crates/hosts_c), bench/steps.c and bench/time.c into target/bench, checks
that all give the same bits and decisions, and prints seven parts: the time of a whole table, of each reading, of
sheets at the edge of the range, errors, the time of one column, of sheets with idle stages, of moving a sheet to
another time unit, and of prices.  With --against the library of another commit, whose calls take the same arguments,
runs beside it, and a last table says for each n whether sheets without idle stages take at most 1.03 of its time; its
steps may be others, so its tables, columns and prices are held to be near and no more, and a library from before
weights has no row for them.
Standard library only; nothing is installed.  Exit status 1 if bits or decisions differ, or an error is above
its allowance; with --goals also if one column takes more of the whole table's time than it should, or a sheet
more of the other library's, which other work on the machine can bring about.
"""
from __future__ import annotations

import argparse
import math
import os
import random
import shutil
import struct
import subprocess
import sys
from dataclasses import dataclass
from fractions import Fraction
from pathlib import Path
from typing import Callable, Iterable, Optional, Sequence, Union

sys.path.insert(0, str(Path(__file__).resolve().parent))
import sheets  # noqa: E402  the path comes first
from sheets import Sheet, reference  # noqa: E402

ROOT = Path(__file__).resolve().parent.parent
BUILD = ROOT / "target" / "bench"
CRATE = ROOT / "crates" / "hosts_c"
ARCHIVE = ROOT / "target" / "staticlib" / "libhosts.a"
SIZES = [2, 3, 4, 8, 12, 16, 24, 32]
COMMON = ["-std=c11", "-Wall", "-Wextra", "-ffp-contract=off"]
VARIANTS = {"plain_O3": ["-O3"], "plain_O2": ["-O2"], "checked_O3": ["-O3", "-DCHECKED"],
            "checked_O2": ["-O2", "-DCHECKED"], "plain_native": ["-O3", "-march=native"]}
OURS, OTHER, UNCHECKED, CHECKED, LAPACK = "yulanbowls", "other library", "C -O3", "checked C -O3", "LAPACK"
WHOLE, COLUMN, OTHER_COLUMN, UNCHECKED_COLUMN, CHECKED_COLUMN = (
    "yulanbowls, whole table", "yulanbowls, one column", "other library, one column", "C -O3, one column",
    "checked C -O3, one column")
ONE_COLUMN = [COLUMN, OTHER_COLUMN, UNCHECKED_COLUMN, CHECKED_COLUMN]
MOVING, OTHER_MOVING, UNCHECKED_MOVING = "yulanbowls, moving", "other library, moving", "C -O3, moving"
ALONE, PRICES, OTHER_PRICES, UNCHECKED_PRICES, CHECKED_PRICES = (
    "yulanbowls, table alone", "yulanbowls, prices", "other library, prices", "C -O3, prices", "checked C -O3, prices")
OTHER_STEPS = [OTHER, OTHER_COLUMN, OTHER_PRICES]
OTHERS = [*OTHER_STEPS, OTHER_MOVING]
DECIDES = [OURS, "checked C -O3", "checked C -O2", WHOLE, COLUMN, CHECKED_COLUMN, MOVING, OTHER_MOVING, ALONE, PRICES,
           CHECKED_PRICES]
GOALS = {8: 0.7, 32: 0.55}      # the most of the whole table's time that one column takes, for these n
OTHER_GOAL = 1.03               # the most of the other library's time that a sheet without idle stages takes
OTHER_NAMES = {"yulanbowls_table": "other_table", "yulanbowls_column": "other_column",
               "yulanbowls_move": "other_move", "yulanbowls_prices": "other_prices"}
POWERS = [10, 512, -512]        # the k for which moving by 2^k is timed
UNIT = 2.0 ** -53

failures: list[str] = []


def check(holds: bool, what: str) -> None:
    """Notes what does not hold; the run goes on and ends with status 1."""
    if not holds:
        failures.append(what)
        print(f"FAILED: {what}", flush=True)


# ==== Building ====

def run(command: Sequence[object], **options: object) -> subprocess.CompletedProcess:
    """Runs a command; one that fails ends the program with what it wrote."""
    done = subprocess.run([str(word) for word in command], stdout=subprocess.PIPE, stderr=subprocess.STDOUT,
                          **options)
    if done.returncode != 0:
        sys.stdout.buffer.write(done.stdout)
        sys.exit(f"bench: this command failed: {' '.join(str(word) for word in command)}")
    return done


def has_openblas() -> bool:
    """Whether a program links against OpenBLAS here."""
    test = "void dgetrf_(void); int main(void) { dgetrf_(); return 0; }"
    return subprocess.run(["cc", "-x", "c", "-", "-lopenblas", "-o", str(BUILD / "linked")], input=test.encode(),
                          stdout=subprocess.DEVNULL, stderr=subprocess.DEVNULL).returncode == 0


def build_library() -> None:
    """The proved library; without the toolchain one that was built before serves."""
    if shutil.which("rt"):
        run(["rt", "lib"], cwd=CRATE)
        ARCHIVE.parent.mkdir(parents=True, exist_ok=True)
        shutil.copyfile(CRATE / "out" / "libhosts_c.a", ARCHIVE)
    elif not ARCHIVE.exists():
        sys.exit(f"bench: no rt on the path and no {ARCHIVE}")


def renamed(archive: Path) -> Path:
    """Another library as one object that shows the calls in OTHER_NAMES alone, under other names."""
    one = BUILD / "other.o"
    run(["ld", "-r", "--whole-archive", archive, "-o", one])
    run(["objcopy", *(f"--keep-global-symbol={name}" for name in OTHER_NAMES), one])
    run(["objcopy", *(f"--redefine-sym={name}={new}" for name, new in OTHER_NAMES.items()), one])
    return one


def build(other: Optional[Path]) -> Path:
    """The program of time.c with every candidate in it."""
    BUILD.mkdir(parents=True, exist_ok=True)
    build_library()
    objects = [renamed(other)] if other else []
    for suffix, flags in VARIANTS.items():
        for name, weighted in ((f"steps_{suffix}.o", []), (f"weighted_{suffix}.o", ["-DWEIGHTED"])):
            objects.append(BUILD / name)
            run(["cc", *COMMON, *flags, *weighted, f"-DSUFFIX={suffix}", "-c", ROOT / "bench" / "steps.c", "-o",
                 objects[-1]])
    lapack = has_openblas()
    if not lapack:
        print("No OpenBLAS here, so LAPACK's rows are left out. On Debian this installs it:\n"
              "    apt-get install libopenblas-dev\n")
    program = BUILD / "time"
    run(["cc", *COMMON, "-O2", *(["-DLAPACK"] if lapack else []), *(["-DOTHER"] if other else []),
         "-I", ROOT / "include", ROOT / "bench" / "time.c", *objects, ARCHIVE, *(["-lopenblas"] if lapack else []),
         "-lm", "-o", program])
    return program


# ==== Running the candidates ====

@dataclass
class Group:
    """Sheets of one reading and size that are run together; without batches they are not timed."""
    reading: int
    n: int
    sheets: list[Sheet]
    batches: int = 0
    matrices: Optional[list[list[float]]] = None    # A column by column, for LAPACK
    stages: Optional[list[int]] = None              # for each sheet the one whose column is asked for
    powers: Optional[list[int]] = None              # for each sheet the k of the 2^k that it is moved by
    prices: Optional[list[list[float]]] = None      # for each sheet the prices of its stages

    def words(self) -> bytes:
        """What time.c reads."""
        matrices = self.matrices or [nearest_matrix(self.reading, self.n, sheet) for sheet in self.sheets]
        prices = self.prices or [[0.0] * self.n for _ in self.sheets]
        numbers = [x for part in [*prices, *self.sheets, *matrices] for x in part]
        about = 1 if self.stages else 2 if self.powers else 3 if self.prices else 0
        asked = self.stages or self.powers or [0] * len(self.sheets)
        return struct.pack(f"<5Q{len(asked)}q", self.reading, self.n, len(self.sheets), self.batches, about, *asked) + \
            struct.pack(f"<{len(numbers)}d", *numbers)


@dataclass
class Result:
    """What one candidate did with a group: nanoseconds for a call, and for each sheet 0 or the refusal's
    number with the answer row by row."""
    nanoseconds: float
    answers: list[tuple[int, list[float]]]


def nearest_matrix(reading: int, n: int, sheet: Sheet) -> list[float]:
    """A column by column, each entry the binary64 number nearest to the exact one."""
    a = short_matrix(reading, n, sheet)
    return [float(a[i][j]) for j in range(n) for i in range(n)]


def short_matrix(reading: int, n: int, sheet: Sheet) -> list[list[Fraction]]:
    """The exact A; for margins with a_ii to 400 binary digits, since the exact ones grow beyond reach."""
    if reading != reference.MARGINS:
        return reference.exact_matrix(reading, n, sheet)
    return reference.exact_matrix(reading, n, sheet, lambda k: reference.rounded(k, 400, False))


def transposed(n: int, numbers: Sequence[float]) -> list[float]:
    return [numbers[j * n + i] for i in range(n) for j in range(n)]


def run_groups(program: Path, groups: Sequence[Group]) -> tuple[str, list[dict[str, Result]]]:
    """What LAPACK says of itself, and the results of each group by the candidate's name."""
    environment = dict(os.environ, OPENBLAS_NUM_THREADS="1")
    done = run([program], input=b"".join(group.words() for group in groups), env=environment)
    lines = iter(done.stdout.decode().splitlines())
    lapack = next(lines)
    results: list[dict[str, Result]] = []
    for group in groups:
        found: dict[str, Result] = {}
        for _ in range(int(next(lines))):
            name, nanoseconds = next(lines).split("\t")
            answers = [parsed_answer(name, group.n, next(lines)) for _ in group.sheets]
            found[name] = Result(float(nanoseconds), answers)
        results.append({name: result for name, result in found.items() if not before_weights(group, name, result)})
    return lapack, results


def before_weights(group: Group, name: str, result: Result) -> bool:
    """Whether another library does not know sheets with weights: it refuses their reading."""
    return group.reading == reference.WEIGHTS and name in OTHERS and all(number == 1 for number, _ in result.answers)


def parsed_answer(name: str, n: int, line: str) -> tuple[int, list[float]]:
    """0 or the refusal's number, and the numbers row by row."""
    number, *words = line.split()
    numbers = [reference.number_of(int(word, 16)) for word in words]
    return int(number), transposed(n, numbers) if name == LAPACK else numbers


# ==== Bits and decisions ====

def bits(numbers: Iterable[float]) -> list[int]:
    return [reference.bits_of(x) for x in numbers]


def expected_answer(group: Group, at: int, name: str) -> Union[Sequence[float], reference.Refused]:
    """The numbers that the reference gives to a candidate for a sheet of a group, or its refusal."""
    asked = group.reading, group.n, reference.IN_SECONDS, group.sheets[at]
    if group.powers:
        moved = reference.move(*asked, group.powers[at], len(group.sheets[at]))
        return moved.numbers if isinstance(moved, reference.Moved) else moved
    if name in ONE_COLUMN:
        made = reference.column(*asked, group.stages[at], group.n)
    elif group.prices and name != ALONE:
        made = reference.request_prices(*asked, group.prices[at], group.n)
    else:
        made = reference.table(*asked, group.n ** 2)
    return made if isinstance(made, reference.Refused) else made.entries


def check_answers(what: str, group: Group, found: dict[str, Result]) -> None:
    """The candidates beside the independent reference: the same decision where they make one, no number
    written where it is no, and the same bits where it is yes.  LAPACK has other bits.  Another commit's steps may
    have others too: then a sheet at the edge may be out of range there, and numbers are near."""
    for at in range(len(group.sheets)):
        kinds = {name: ONE_COLUMN[0] if name in ONE_COLUMN else name if name == ALONE else "" for name in found}
        answers = {kind: expected_answer(group, at, kind) for kind in set(kinds.values())}
        for name in found.keys() - {LAPACK}:
            number, numbers = found[name].answers[at]
            where = f"{name}, {what}, reading {group.reading}, n = {group.n}, sheet {at + 1}"
            expected = answers[kinds[name]]
            if name in OTHER_STEPS:
                check(number in (0, 10), f"{where}: answered {number}")
                if number == 0 and not isinstance(expected, reference.Refused):
                    near = all(abs(x - y) <= 1e-12 * y for x, y in zip(numbers, expected))
                    check(near, f"{where}: other numbers")
            elif not isinstance(expected, reference.Refused):
                check(number == 0, f"{where}: refused with {number}")
                check(bits(numbers) == bits(expected), f"{where}: other bits than the reference")
            elif name in DECIDES:
                check(number == expected.number, f"{where}: answered {number}, not {expected.number}")
                check(not any(bits(numbers)), f"{where}: refused, and wrote")


def check_layout(group: Group, found: dict[str, Result]) -> None:
    """LAPACK's numbers are near ours on the timing sheets, so its A has the right layout."""
    if LAPACK in found:
        for (_, ours), (_, theirs) in zip(found[OURS].answers, found[LAPACK].answers):
            check(all(abs(x - y) <= 1e-6 * max(ours) for x, y in zip(ours, theirs)),
                  f"LAPACK, reading {group.reading}, n = {group.n}: not the same matrix")


def without_matrices(group: Group) -> Group:
    """The group with ones for A, whose entries may be beyond binary64; LAPACK's answer is not looked at."""
    group.matrices = [[1.0] * group.n ** 2 for _ in group.sheets]
    return group


def edge_groups(rng: random.Random, pairs: int) -> list[Group]:
    """Sheets of readings 1 and 3 on either side of the edge of acceptance: one last place of one number apart, and
    quotients and products of exactly 2^-1022 beside twice that."""
    groups = [Group(1, 1, [[2.0 ** e] for e in (1021, 1022)]),
              Group(1, 2, [[1.0, -(2.0 ** e), -(2.0 ** -511), 1.0] for e in (-510, -511)]),
              Group(3, 1, [[2.0 ** -511, 2.0 ** e] for e in (510, 511)]),
              Group(3, 2, [[1.0, -(2.0 ** e), 0.0, 2.0 ** -10, 1.0, 2.0 ** -511] for e in (-510, -511)])]
    while len(groups) < pairs:
        reading, n = rng.choice([1, 3]), rng.randint(1, 5)
        sheet = reference.random_sheet(rng, reading, n, reference.random_style(rng))
        pair = reference.edge_pair(rng, reading, n, sheet)
        if pair is not None:
            groups.append(Group(reading, n, list(pair)))
    return [without_matrices(group) for group in groups]


# ==== Tables ====

def print_table(head: Sequence[str], rows: Iterable[Sequence[str]]) -> None:
    """Aligned columns, the first to the left."""
    lines = [list(head), *(list(row) for row in rows)]
    widths = [max(len(line[c]) for line in lines) for c in range(len(head))]
    for line in lines:
        cells = [cell.rjust(width) for cell, width in zip(line[1:], widths[1:])]
        print("  ".join([line[0].ljust(widths[0]), *cells]))
    print(flush=True)


def three_digits(x: float) -> str:
    """A ratio or a count of units with about three digits."""
    if not math.isfinite(x):
        return "-"
    return f"{x:.1e}" if x >= 1e5 else f"{x:.0f}" if x >= 100 else f"{x:.1f}" if x >= 10 else f"{x:.2f}"


# ==== 1. The time of a whole table ====

def timing_groups(reading: int, sizes: Sequence[int], batches: int,
                  make: Callable[[random.Random, int], Sheet]) -> list[Group]:
    """Four sheets for each size."""
    groups = []
    for n in sizes:
        rng = random.Random(1000 * reading + n)
        groups.append(Group(reading, n, [make(rng, n) for _ in range(4)], batches))
    return groups


def print_times(sizes: Sequence[object], results: Sequence[dict[str, Result]], against: Sequence[str],
                by: str = "n") -> None:
    """Nanoseconds, then every row's time over that of the rows named in `against`."""
    columns, names = [str(n) for n in sizes], list(results[0])
    print_table([f"nanoseconds, {by} =", *columns],
                [[name, *(f"{found[name].nanoseconds:.0f}" for found in results)] for name in names])
    for base in against:
        if base in names:
            rows = [[name, *(three_digits(found[name].nanoseconds / found[base].nanoseconds) for found in results)]
                    for name in names if name != base]
            print_table([f"time / {base}'s, {by} =", *columns], rows)


def machine_line(lapack: str) -> str:
    """Processor, compiler and LAPACK, which run_groups tells as time.c prints it."""
    described = Path("/proc/cpuinfo").read_text(encoding="utf-8")
    models = [line.split(":", 1)[1].strip() for line in described.splitlines() if line.startswith("model name")]
    compiler = run(["cc", "--version"]).stdout.decode().splitlines()[0]
    build, _, kernels = lapack.partition("\t")
    blas = f"{' '.join(build.split()[:2])}, kernels for {kernels}, one thread" if kernels else "none"
    return f"Machine: {models[0] if models else 'unknown'}, {os.cpu_count()} processors. C: {compiler}. LAPACK: {blas}."


Beside = dict[str, list[float]]     # what was timed, and for each size our time over the other library's


def part_times(program: Path, sizes: Sequence[int], batches: int) -> Beside:
    """Each reading."""
    dense = timing_groups(1, sizes, batches, lambda rng, n: sheets.dense(rng, n, 0.01))
    margins = timing_groups(2, sizes, batches, lambda rng, n: sheets.dense(rng, n, 0.01))
    half = timing_groups(2, sizes, batches, lambda rng, n: sheets.with_stages_not_kept(rng, n, 1.0, 1.0))
    weights = timing_groups(3, sizes, batches, lambda rng, n: sheets.with_weights(rng, n, 0.01))
    timed = [*dense, *margins, *half, *weights]
    untimed = [Group(g.reading, g.n, g.sheets) for g in timed]
    edges = edge_groups(random.Random(7), 60)
    lapack, answers = run_groups(program, [*untimed, *edges])
    for group, found in zip(untimed, answers):
        check_answers("timing sheet", group, found)
        check_layout(group, found)
    for group, found in zip(edges, answers[len(untimed):]):
        check_answers("edge of acceptance", group, found)
    if not failures:
        print(f"Same bits and decisions as tools/reference.py: yulanbowls on {4 * len(untimed)} timing sheets, every\n"
              f"C variant on the {4 * len(dense + weights)} of readings 1 and 3, and both on {2 * len(edges)} sheets "
              "at the\nedge of acceptance.\n")
    print(machine_line(lapack) + "\n")
    _, times = run_groups(program, timed)
    print(f"1. Time of the whole table, best of {batches} batches of at least 20 microseconds; the rows take turns.\n"
          "A column is a number of stages n. yulanbowls: the proved service with all questions, steps, range tests\n"
          "and the writing of the answer. C: bench/steps.c, the same steps and no questions; checked C: with every\n"
          f"range test at its step. C is compiled by cc {' '.join(COMMON)} and the flags in the\n"
          "row's name, for plain x86-64 as the proved library is; one row is for this machine's own instructions,\n"
          "for information. LAPACK: OpenBLAS dgetrf + dgetri with the copy of A into place; A is formed before.\n\n"
          "Reading 1, leaving rates: four dense sheets for each n.\n")
    count = len(sizes)
    print_times(sizes, times[:count], [LAPACK, UNCHECKED, OTHER])
    print("Reading 2, margins: four dense sheets for each n; in the last row every second stage is not kept.\n")
    kept, half_kept = times[count:2 * count], times[2 * count:3 * count]
    print_times(sizes, [{**found, OURS + ", half kept": other[OURS]} for found, other in zip(kept, half_kept)],
                [LAPACK, OTHER])
    if OTHER in times[0]:
        print("The same with every second stage not kept.\n")
        print_times(sizes, [{name: found[name] for name in (OURS, OTHER)} for found in half_kept], [OTHER])
    print("Reading 3, weights: four dense sheets for each n. A pivot takes a product for each of its sizes, and a\n"
          "quotient; the other steps are those of reading 1.\n")
    weighted = times[3 * count:]
    print_times(sizes, weighted, [LAPACK, UNCHECKED, OTHER])
    print_table(["time / its own for reading 1, n =", *(str(n) for n in sizes)],
                [[name, *(three_digits(found[name].nanoseconds / of_rates[name].nanoseconds)
                          for found, of_rates in zip(weighted, times))] for name in weighted[0]])
    return ratios_beside({"whole table, reading 1": times[:count], "whole table, reading 2": kept,
                          "reading 2, every second stage not kept": half_kept, "whole table, reading 3": weighted})


def ratios_beside(found: dict[str, list[dict[str, Result]]]) -> Beside:
    """For each kind of sheets that the other library knows, our time over its time."""
    return {what: [of_size[OURS].nanoseconds / of_size[OTHER].nanoseconds for of_size in results]
            for what, results in found.items() if OTHER in results[0]}


# ==== 2. The slow path ====

def slow_sheets(n: int) -> list[tuple[str, Sheet]]:
    """Sheets with what they show."""
    rng = random.Random(n)
    ordinary = sheets.dense(rng, n, 0.01)
    edge = sheets.lowest_accepted(n, ordinary)
    return [("ordinary", ordinary),
            (f"ordinary times 2^{edge}, the last power accepted", sheets.scaled(ordinary, edge)),
            (f"ordinary times 2^{edge - 1}", sheets.scaled(ordinary, edge - 1)),
            ("a row of sizes at every second stage fails the quick test", sheets.pairs(rng, n)),
            ("a line with one exit at its end: question 9 takes n turns", sheets.line(rng, n)),
            ("moves near 2^-600: a product of two rounds to zero", sheets.small_moves(rng, n, -600)),
            ("moves near 2^-520: a product of two is subnormal", sheets.small_moves(rng, n, -520))]


def part_slow_path(program: Path, sizes: Sequence[int], batches: int) -> None:
    """Sheets at the range's edge and beyond it beside an ordinary one."""
    cases = [(n, what, sheet) for n in sizes for what, sheet in slow_sheets(n)]
    groups = [Group(1, n, [sheet], batches, [[1.0] * n ** 2]) for n, _, sheet in cases]
    _, results = run_groups(program, groups)
    rows = []
    for (n, what, sheet), group, found in zip(cases, groups, results):
        check_answers(what, group, found)
        number = found[OURS].answers[0][0]
        rows.append([what, str(n), f"refused {number}" if number else "accepted",
                     f"{sheets.full_tests(n, sheet)} of {sheets.rows_to_test(n)}",
                     *(f"{found[name].nanoseconds:.0f}" for name in (OURS, CHECKED, UNCHECKED))])
    print(f"2. Sheets at the edge of the range, reading 1, in nanoseconds, best of {batches} batches. A row of sizes\n"
          "passes the quick range test where its multiplier times a bound of the row that is added (the least of 1 and\n"
          "its nonzero numbers) is above 2^-1022, a row of b where each of its multipliers times a bound of the rows\n"
          "done is. Full tests: of the row updates of the sizes and the rows of b, downward and upward, those that\n"
          "fail it, so that their products are tested one by one. Where products are subnormal the processor itself\n"
          "is slower, as plain C shows.\n")
    print_table(["sheet", "n", "answer", "full tests", OURS, CHECKED, UNCHECKED], rows)


# ==== 3. Errors ====

@dataclass
class ErrorCase:
    """Sheets of one kind and size."""
    reading: int
    n: int
    what: str
    sheets: list[Sheet]


def many(n: int) -> int:
    """How many sheets of one kind: the exact inverse takes a second or two at n = 32."""
    return 3 if n <= 16 else 1


def error_cases(sizes: Sequence[int]) -> list[ErrorCase]:
    """From well conditioned to badly conditioned, each reading."""
    kinds: list[tuple[int, str, Callable[[random.Random, int], Sheet]]] = []
    for f in (1.0, 1e-3, 1e-6, 1e-9, 1e-12, 1e-15):
        kinds.append((1, f"leaving rates {f:.0e} of the moves", lambda rng, n, f=f: sheets.dense(rng, n, f)))
    for spread in (3, 10, 30):
        kinds.append((1, f"rates from 1e-{spread} to 1e{spread}, leaving 1e-6 of that",
                      lambda rng, n, spread=spread: sheets.dense(rng, n, 1e-6, spread)))
    for f in (1.0, 1e-6, 1e-12):
        kinds.append((2, f"margins {f:.0e} of the moves", lambda rng, n, f=f: sheets.dense(rng, n, f)))
    for f in (1.0, 1e-8):
        kinds.append((2, f"half not kept, margins {f:.0e}, moves to them 1e+04",
                      lambda rng, n, f=f: sheets.with_stages_not_kept(rng, n, f, 1e4)))
    for f in (1.0, 1e-6, 1e-12):
        kinds.append((3, f"weighted row sums {f:.0e} of the moves",
                      lambda rng, n, f=f: sheets.with_weights(rng, n, f)))
    for spread in (3, 30):
        kinds.append((3, f"weights from 1e-{spread} to 1e{spread}, sums 1e-6 of the moves",
                      lambda rng, n, spread=spread: sheets.with_weights(rng, n, 1e-6, spread)))
    return [ErrorCase(reading, n, what, [make(random.Random(100 * n + seed), n) for seed in range(many(n))])
            for reading, what, make in kinds for n in sizes]


def relative_error(x: float, y: reference.Quotient) -> float:
    """|x − y| / y of an exact y above zero; infinite where that is no float."""
    if not math.isfinite(x):
        return math.inf
    numerator, denominator = x.as_integer_ratio()
    left, right = numerator * y[1], denominator * y[0]
    try:
        return abs(left - right) / right
    except OverflowError:
        return math.inf


def largest_error(numbers: Sequence[float], n: int, bounds: tuple[reference.Inverse, reference.Inverse]) -> float:
    """Over the entries that are not zero, against both bounds of the exact inverse, which are one where it
    is short."""
    different = bounds if bounds[0] is not bounds[1] else bounds[:1]
    return max(relative_error(x, bound[p // n][p % n])
               for bound in different for p, x in enumerate(numbers) if bound[p // n][p % n][0] != 0)


def zeros_lost(numbers: Sequence[float], n: int, inverse: reference.Inverse) -> int:
    """How many entries are not zero where the exact one is."""
    return sum(x != 0.0 and inverse[p // n][p % n][0] == 0 for p, x in enumerate(numbers))


def condition(a: list[list[Fraction]], inverse: reference.Inverse) -> float:
    """The largest row sum of sizes of A times that of its exact inverse."""
    return max(float(sum(map(abs, row))) for row in a) * max(sum(p / q for p, q in row) for row in inverse)


@dataclass
class Errors:
    """The largest over the sheets of a case."""
    condition: float = 0.0
    ours: float = 0.0
    lapack: Optional[float] = None
    zeros_lost: int = 0     # by LAPACK, over all sheets; ours are checked to be none


def case_errors(case: ErrorCase, found: dict[str, Result]) -> Errors:
    """Compares with the exact inverse, and checks ours against its allowance in whole numbers."""
    n, most = case.n, reference.allowance(case.reading, case.n)
    worst = Errors()
    for at, sheet in enumerate(case.sheets):
        bounds = reference.exact_bounds(case.reading, n, sheet)
        number, ours = found[OURS].answers[at]
        check(number == 0, f"reading {case.reading}, n = {n}, {case.what}: refused with {number}")
        check(all(math.isfinite(x) and reference.near(x.as_integer_ratio(), bound[p // n][p % n], most)
                  for bound in bounds for p, x in enumerate(ours)),
              f"reading {case.reading}, n = {n}, {case.what}: an error above the allowance")
        worst.condition = max(worst.condition, condition(short_matrix(case.reading, n, sheet), bounds[0]))
        worst.ours = max(worst.ours, largest_error(ours, n, bounds))
        if LAPACK in found:
            info, theirs = found[LAPACK].answers[at]
            worst.lapack = max(worst.lapack or 0.0, math.inf if info else largest_error(theirs, n, bounds))
            worst.zeros_lost += zeros_lost(theirs, n, bounds[0])
    return worst


def part_errors(program: Path, sizes: Sequence[int]) -> None:
    """The table of errors."""
    cases = error_cases(sizes)
    _, results = run_groups(program, [Group(case.reading, case.n, case.sheets) for case in cases])
    rows = []
    for case, found in zip(cases, results):
        errors = case_errors(case, found)
        row = [case.what, str(case.reading), str(case.n), f"{errors.condition:.1e}",
               three_digits(errors.ours / UNIT), f"{errors.ours:.1e}",
               str(reference.allowance(case.reading, case.n))]
        if errors.lapack is not None:
            lost = math.isinf(errors.lapack)
            row += ["-" if lost else three_digits(errors.lapack / UNIT),
                    "no inverse" if lost else f"{errors.lapack:.1e}", str(errors.zeros_lost)]
        rows.append(row)
    print("3. Largest relative error over the entries of the inverse, against the exact inverse in whole numbers.\n"
          "A line is for three sheets, at n = 32 for one. u is 2^-53, about 1.1e-16. Condition: the largest row sum\n"
          "of sizes of A times that of its inverse. Allowed: E of (1 + u)^E; every entry of yulanbowls is checked\n"
          "against it in whole numbers, zeros included. LAPACK is given A's entries rounded to nearest from the exact\n"
          "ones; zeros lost are its entries that are not zero where the exact one is, left out of its error.\n")
    head = ["sheets", "reading", "n", "condition", "yulanbowls / u", "yulanbowls", "allowed"]
    print_table(head + (["LAPACK / u", "LAPACK", "zeros lost"] if len(rows[0]) > len(head) else []), rows)


# ==== 4. The time of one column ====

def column_groups(sizes: Sequence[int], batches: int) -> list[Group]:
    """Three dense sheets for each size, of which the first, the middle and the last stage are asked for."""
    groups = timing_groups(1, sizes, batches, lambda rng, n: sheets.dense(rng, n, 0.01))
    return [without_matrices(Group(1, group.n, group.sheets[:3], batches, stages=[1, (group.n + 1) // 2, group.n]))
            for group in groups]


def column_edge_groups(rng: random.Random, pairs: int) -> list[Group]:
    """Sheets on either side of the edge of one column's range, one last place of one number apart; often the
    whole table is out of range for both."""
    groups = [Group(1, 2, [[1.0, 0.0, 0.0, 2.0 ** 1022]] * 2, stages=[1, 2])]
    while len(groups) < pairs:
        n = rng.randint(1, 5)
        stage = rng.randint(1, n)
        pair = reference.edge_pair(rng, 1, n, reference.uneven_sheet(rng, n), stage)
        if pair is not None:
            groups.append(Group(1, n, list(pair), stages=[stage] * 2))
    return [without_matrices(group) for group in groups]


def print_goals(sizes: Sequence[int], times: Sequence[dict[str, Result]], must: bool) -> None:
    """The goals for one column beside what was measured; they are checks where they must be met."""
    for n, found in zip(sizes, times):
        if n in GOALS:
            ratio = found[COLUMN].nanoseconds / found[WHOLE].nanoseconds
            met = ratio <= GOALS[n]
            print(f"Goal at n = {n}: one column takes at most {GOALS[n]:.2f} of the whole table's time; it takes "
                  f"{ratio:.3f}, {'met' if met else 'not met'}.")
            check(met or not must, f"the goal for one column at n = {n}")
    print(flush=True)


def part_columns(program: Path, sizes: Sequence[int], batches: int, must: bool) -> Beside:
    """One column beside the whole table."""
    untimed, edges = column_groups(sizes, 0), column_edge_groups(random.Random(8), 40)
    before = len(failures)
    _, answers = run_groups(program, [*untimed, *edges])
    for group, found in zip([*untimed, *edges], answers):
        check_answers("one column", group, found)
    _, times = run_groups(program, column_groups(sizes, batches))
    print(f"4. Time of one column, reading 1, best of {batches} batches of at least 20 microseconds; the rows take\n"
          "turns. Three dense sheets for each n, of which the first, the middle and the last stage are asked for in\n"
          "turn; the first takes the most steps. C: bench/steps.c, the same steps, one column of b, no questions.\n")
    if len(failures) == before:
        print(f"Same bits and decisions as tools/reference.py on the {3 * len(untimed)} timing sheets and on "
              f"{2 * len(edges)} sheets at\nthe edge of one column's range.\n")
    print_times(sizes, times, [WHOLE, UNCHECKED_COLUMN, OTHER_COLUMN])
    print_goals(sizes, times, must)
    if OTHER_COLUMN not in times[0]:
        return {}
    return {"one column": [found[COLUMN].nanoseconds / found[OTHER_COLUMN].nanoseconds for found in times]}


# ==== 5. Idle stages ====

NONE_IDLE, HALF_IDLE, OTHERS_ALONE, OF_AN_IDLE = ("none idle", "half idle", "the others alone",
                                                  "half idle, of an idle stage")


def idle_groups(n: int, batches: int) -> dict[str, Group]:
    """Three sheets each, asked for the first, the middle and the last of some stages: dense ones; such with every
    second stage idle, asked for the others and for idle ones; and the others of these alone."""
    def group(of: Sequence[Sheet], stages: Sequence[int]) -> Group:
        asked = [stages[0], stages[len(stages) // 2], stages[-1]]
        return without_matrices(Group(1, math.isqrt(len(of[0])), list(of), batches, stages=asked))

    rng = random.Random(n)
    dense = [sheets.dense(rng, n, 0.01) for _ in range(3)]
    half = [sheets.with_idle_stages(rng, n) for _ in range(3)]
    alone = [sheets.others_alone(n, sheet) for sheet in half]
    return {NONE_IDLE: group(dense, range(1, n + 1)), HALF_IDLE: group(half, range(1, n + 1, 2)),
            OF_AN_IDLE: group(half, range(2, n + 1, 2)), OTHERS_ALONE: group(alone, range(1, (n + 1) // 2 + 1))}


def part_idle(program: Path, sizes: Sequence[int], batches: int) -> None:
    """Sheets with idle stages, which the other candidates know nothing of."""
    cases = [idle_groups(n, batches) for n in sizes]
    _, results = run_groups(program, [group for groups in cases for group in groups.values()])
    in_order = iter(results)
    found = [{kind: next(in_order) for kind in groups} for groups in cases]
    for groups, of_size in zip(cases, found):
        for kind, group in groups.items():
            check_answers(f"sheets with {kind}", group, {name: of_size[kind][name] for name in (WHOLE, COLUMN)})
    kinds = {WHOLE: [NONE_IDLE, HALF_IDLE, OTHERS_ALONE], COLUMN: [NONE_IDLE, HALF_IDLE, OF_AN_IDLE, OTHERS_ALONE]}
    print(f"5. Sheets with idle stages, reading 1, best of {batches} batches, for information. Half idle: every\n"
          "second stage from the second is idle, the others are dense. None idle: a dense sheet of n stages. The\n"
          "others alone: a sheet of the stages that are not idle.\n")
    print_table(["nanoseconds, n =", *(str(n) for n in sizes)],
                [[f"{name}, {kind}", *(f"{of_size[kind][name].nanoseconds:.0f}" for of_size in found)]
                 for name, of_name in kinds.items() for kind in of_name])


# ==== 6. Moving ====

def move_groups(sizes: Sequence[int], batches: int) -> list[Group]:
    """Four dense sheets of reading 1 for each size and each k."""
    return [without_matrices(Group(1, group.n, group.sheets, batches, powers=[k] * len(group.sheets)))
            for group in timing_groups(1, sizes, batches, lambda rng, n: sheets.dense(rng, n, 0.01)) for k in POWERS]


def move_edge_groups(rng: random.Random, count: int) -> list[Group]:
    """Sheets of each reading, each moved by two k, mostly such that a number comes to an end of the range of results
    or beside it; first the ends themselves, and weights, which are not moved.  A product of (2 − 2^-52)·2^-511 rounds
    to 2^-1022 from below."""
    nearly_two = 2 - 2.0 ** -52
    groups = [Group(1, 1, [[2.0 ** -510], [2.0 ** -511], [nearly_two * 2.0 ** -511]], powers=[-512] * 3),
              Group(1, 1, [[nearly_two * 2.0 ** 511], [2.0 ** 512]], powers=[512] * 2),
              Group(3, 1, [[1.0, reference.LARGEST], [1.0, reference.SMALLEST_NORMAL]], powers=[512, -512])]
    while len(groups) < count:
        reading, n = rng.choice(reference.READINGS), rng.randint(1, 5)
        sheet = reference.sheet_to_move(rng, reading, n)
        powers = [reference.random_power(rng, n, sheet) for _ in range(2)]
        groups.append(Group(reading, n, [sheet] * 2, powers=powers))
    return [without_matrices(group) for group in groups]


def part_moving(program: Path, sizes: Sequence[int], batches: int) -> None:
    """Moving beside a loop of plain C."""
    timed, edges = move_groups(sizes, batches), move_edge_groups(random.Random(9), 40)
    before = len(failures)
    _, results = run_groups(program, [*timed, *edges])
    for at, (group, found) in enumerate(zip([*timed, *edges], results)):
        check_answers("timing sheet" if at < len(timed) else "end of the range", group, found)
    print(f"6. Time of moving a sheet to another time unit, every number times 2^k, reading 1, best of {batches}\n"
          "batches of at least 20 microseconds; the rows take turns. Four dense sheets for each n. yulanbowls: all\n"
          "questions and the writing of the second area. C: bench/steps.c, no questions, a loop that multiplies by\n"
          "ldexp(1, k), and one that calls ldexp for each number.\n")
    if len(failures) == before:
        moves = sum(len(group.sheets) for group in edges)
        print(f"Same bits and decisions as tools/reference.py on the timing sheets and on {moves} moves near an end of\n"
              "the range of results.\n")
    print_times([f"{group.n}, {group.powers[0]}" for group in timed], results[:len(timed)],
                [UNCHECKED_MOVING, OTHER_MOVING], "n and k")


# ==== 7. Prices ====

def price_groups(sizes: Sequence[int], batches: int) -> list[Group]:
    """Four dense sheets of reading 1 for each size, with prices from 1 to 2."""
    groups = timing_groups(1, sizes, batches, lambda rng, n: sheets.dense(rng, n, 0.01))
    rng = random.Random(10)
    return [without_matrices(Group(1, group.n, group.sheets, batches,
                                   prices=[[rng.uniform(1.0, 2.0) for _ in range(group.n)] for _ in group.sheets]))
            for group in groups]


def price_edge_groups(rng: random.Random, pairs: int) -> list[Group]:
    """Prices on either side of the edge of their range, one last place of one price apart, for sheets of reading 1
    whose table is accepted; first a product of exactly 2^-1022 beside twice that, and a sum that overflows."""
    ones, most = [1.0, -1.0, -1.0, 0.0], reference.LARGEST
    groups = [Group(1, 1, [[1.0]] * 2, prices=[[2.0 ** -1021], [2.0 ** -1022]]),
              Group(1, 2, [ones] * 2, prices=[[most, 0.0], [most, most]])]
    while len(groups) < pairs:
        n = rng.randint(1, 5)
        sheet = reference.random_sheet(rng, 1, n, reference.random_style(rng, 30))
        pair = reference.price_edge_pair(rng, 1, n, sheet, reference.random_prices(rng, n))
        if pair is not None:
            groups.append(Group(1, n, [sheet] * 2, prices=list(pair)))
    return [without_matrices(group) for group in groups]


def part_prices(program: Path, sizes: Sequence[int], batches: int) -> Beside:
    """Prices beside the whole table, and beside plain C."""
    timed, edges = price_groups(sizes, batches), price_edge_groups(random.Random(11), 40)
    before = len(failures)
    _, results = run_groups(program, [*timed, *edges])
    for at, (group, found) in enumerate(zip([*timed, *edges], results)):
        check_answers("timing sheet" if at < len(timed) else "edge of the prices' range", group, found)
    print(f"7. Time of the prices of a request by its entry stage, reading 1, best of {batches} batches of at least 20\n"
          "microseconds; the rows take turns. Four dense sheets for each n. Prices take the steps of the whole table,\n"
          "and add n × n products. C: bench/steps.c, the same steps and no questions.\n")
    if len(failures) == before:
        print(f"Same bits and decisions as tools/reference.py on the timing sheets and on {2 * len(edges)} price lists at\n"
              "the edge of the range.\n")
    times = results[:len(timed)]
    print_times(sizes, times, [ALONE, UNCHECKED_PRICES])
    if OTHER_PRICES not in times[0]:
        return {}
    return {"prices": [found[PRICES].nanoseconds / found[OTHER_PRICES].nanoseconds for found in times]}


# ==== 8. Beside the other library ====

def part_beside(sizes: Sequence[int], beside: Beside, must: bool) -> None:
    """The goal beside the other library for each size; it is a check where it must be met."""
    rows = []
    for what, ratios in beside.items():
        rows.append([what, *(f"{ratio:.3f}" for ratio in ratios)])
        rows.append(["", *("met" if ratio <= OTHER_GOAL else "missed" for ratio in ratios)])
    print("8. Time of sheets without idle stages over the other library's. The goal is at most "
          f"{OTHER_GOAL} for every n.\n")
    print_table(["time / other library's, n =", *(str(n) for n in sizes)], rows)
    for what, ratios in beside.items():
        missed = [str(n) for n, ratio in zip(sizes, ratios) if ratio > OTHER_GOAL]
        check(not missed or not must, f"the goal beside the other library: {what}, n = {', '.join(missed)}")


# ==== Command line ====

def parsed_sizes(text: str) -> list[int]:
    """The sizes that a text lists, such as 2,4,8-12."""
    ends = [(part.split("-", 1) * 2)[:2] for part in text.split(",")]
    return [n for first, last in ends for n in range(int(first), int(last) + 1)]


def parsed(arguments: Sequence[str]) -> argparse.Namespace:
    parser = argparse.ArgumentParser(description="Times and errors of the proved services, plain C and LAPACK.")
    parser.add_argument("--quick", action="store_true", help="few batches and small sheets, for a test")
    parser.add_argument("--no-errors", action="store_true", help="leave out the table of errors")
    parser.add_argument("--goals", action="store_true", help="fail if one column takes too much of the table's time, "
                                                             "or a sheet without idle stages of the other library's")
    parser.add_argument("--sizes", default=None, metavar="N,N-N,..", help="the sizes where times are compared")
    parser.add_argument("--against", type=Path, default=None, metavar="ARCHIVE", help="another commit's libhosts.a")
    options = parser.parse_args(arguments)
    try:
        options.sizes = parsed_sizes(options.sizes) if options.sizes else SIZES
    except ValueError:
        parser.error("--sizes takes whole numbers, or first and last with a dash, with commas between them")
    if not options.sizes or not all(1 <= n <= reference.LIMIT for n in options.sizes):
        parser.error("--sizes takes numbers from 1 to 32")
    return options


def main(arguments: Sequence[str]) -> int:
    """Builds, checks, prints; the exit status."""
    options = parsed(arguments)
    program = build(options.against)
    batches = 50 if options.quick else 2000
    beside = part_times(program, options.sizes, batches)
    part_slow_path(program, [8, 32], batches // 5)
    if not options.no_errors:
        part_errors(program, [4, 8] if options.quick else [4, 8, 16, 32])
    beside |= part_columns(program, options.sizes, batches, options.goals)
    part_idle(program, [n for n in options.sizes if n > 1], batches // 5)
    part_moving(program, [8, 32], batches // 5)
    beside |= part_prices(program, options.sizes, batches // 5)
    if beside:
        part_beside(options.sizes, beside, options.goals)
    print(f"{len(failures)} checks failed" if failures else "All checks passed")
    return 1 if failures else 0


if __name__ == "__main__":
    sys.exit(main(sys.argv[1:]))
