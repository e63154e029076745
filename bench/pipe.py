#!/usr/bin/env python3
"""Times programs over a pipe, with writes of 4 kB and of 1 MB, and prints that beside their counted instructions.

    pipe.py BIN TABLES COUNTED LINES_OF_KEYS LINES_OF_BILL
    pipe.py --feed SIZE   writes its input in parts of this size to its output, a pipe that then holds one

COUNTED has lines of a program, its instructions a line with small writes and with large ones, parted by tabs. Rounds
alternate between the sizes; a time is the median of its rounds. Exits with 1 where a row with a goal has more than GOAL
times as much with small writes.
"""

import fcntl
import os
import signal
import subprocess
import sys
import time
from pathlib import Path
from statistics import median
from typing import NamedTuple

SMALL = 4096
LARGE = 1 << 20
ROUNDS = 9
GOAL = 1.1
HEADING = ("measure", "reader", "4 kB writes", "1 MB writes", "small less large", "small : large", "goal")


class Case(NamedTuple):
    """A reader, the lines that it reads, and whether the pipe holds one write alone or is as a shell makes it."""

    reader: str
    command: list
    lines: memoryview
    one_write: bool


class Row(NamedTuple):
    """A measure of a reader with small writes and with large ones, and whether it has a goal."""

    measure: str
    reader: str
    small: float
    large: float
    has_goal: bool

    def ratio(self):
        return self.small / self.large

    def missed(self):
        return self.has_goal and not self.ratio() <= GOAL

    def cells(self):
        goal = f"at most {GOAL}: {'missed' if self.missed() else 'met'}" if self.has_goal else "none, for information"
        figures = (f"{self.small:,.1f}", f"{self.large:,.1f}", f"{self.small - self.large:,.1f}", f"{self.ratio():.3f}")
        return (self.measure, self.reader, *figures, goal)


# ---- measuring ----


def hold_one(pipe, size):
    """Makes a pipe hold one write of this size, so that no read gets more."""
    try:
        holds = fcntl.fcntl(pipe, fcntl.F_SETPIPE_SZ, size)
    except OSError as error:
        sys.exit(f"no pipe of {size} bytes: {error.strerror}")
    if holds != size:
        sys.exit(f"no pipe of {size} bytes: the system makes it {holds}")


def feed(pipe, lines, size):
    """Writes lines to a pipe in parts of this size."""
    for k in range(0, len(lines), size):
        part = lines[k : k + size]
        while part:
            part = part[os.write(pipe, part) :]


def milliseconds(case, tables, size):
    """The wall clock's and the processor's time of a reader, its lines written in parts of this size."""
    ours, theirs = os.pipe()
    if case.one_write:
        hold_one(theirs, size)
    start = time.perf_counter()
    process = subprocess.Popen(case.command, cwd=tables, stdin=ours, stdout=subprocess.DEVNULL)
    os.close(ours)
    try:
        feed(theirs, case.lines, size)
    except BrokenPipeError:
        sys.exit(f"{case.reader} did not read its lines to the end")
    os.close(theirs)
    _, status, usage = os.wait4(process.pid, 0)
    end = time.perf_counter()
    if status != 0:
        sys.exit(f"{case.reader} failed")
    return (end - start) * 1000, (usage.ru_utime + usage.ru_stime) * 1000


def medians(cases, tables):
    """The medians of each case, by its place and the size: the wall clock's and the processor's."""
    found = {}
    for number in range(ROUNDS):
        print(f"round {number + 1} of {ROUNDS}", file=sys.stderr)
        for k, case in enumerate(cases):
            for size in (SMALL, LARGE) if number % 2 == 0 else (LARGE, SMALL):
                found.setdefault((k, size), []).append(milliseconds(case, tables, size))
    return {key: [median(times) for times in zip(*rounds)] for key, rounds in found.items()}


# ---- the table ----


def counted_rows(path):
    for line in Path(path).read_text("utf-8").splitlines():
        program, small, large = line.split("\t")
        yield Row("instructions a line, pipe of one write", program, float(small), float(large), True)


def bare_readers(program, tables):
    """Two that do nothing with the program's lines: cat, and one that spends as much of the processor's time on them."""
    _, spent = milliseconds(program, tables, LARGE)
    paced = [sys.executable, "-S", Path(__file__).resolve().with_name("reader.py"), str(spent * 1e6 / len(program.lines))]
    for name, command in (("cat", ["cat"]), ("reader.py", paced)):
        yield Case(f"{name}, as {program.reader}", command, program.lines, True)


def timed_rows(programs, tables, lines):
    """Programs over the usual pipe, and for information over a pipe of one write, beside bare readers there."""
    named = list(zip(("keys", "bill"), lines))
    usual, tight = ([Case(name, [programs / name], of, one_write) for name, of in named] for one_write in (False, True))
    bare = [reader for program in tight for reader in bare_readers(program, tables)]
    cases = [*usual, *tight, *bare]
    times = medians(cases, tables)

    def row(k, which, measure, has_goal):
        return Row(measure, cases[k].reader, times[k, SMALL][which], times[k, LARGE][which], has_goal)

    for k in range(len(usual)):
        yield row(k, 0, "ms of the wall clock, usual pipe", True)
    for k, case in enumerate(cases):
        yield row(k, 1, f"ms of the processor, {'pipe of one write' if case.one_write else 'usual pipe'}", False)


def show(rows):
    """Prints the rows below their heading; text to the left, figures to the right."""
    table = [HEADING, *(row.cells() for row in rows)]
    sides = (str.ljust, str.ljust, str.rjust, str.rjust, str.rjust, str.rjust, str.ljust)
    widths = [max(map(len, column)) for column in zip(*table)]
    for cells in table:
        print("  ".join(map(lambda side, cell, width: side(cell, width), sides, cells, widths)).rstrip())


def main():
    if sys.argv[1] == "--feed":
        signal.signal(signal.SIGPIPE, signal.SIG_DFL)
        size = int(sys.argv[2])
        hold_one(1, size)
        feed(1, memoryview(sys.stdin.buffer.read()), size)
        return 0
    programs, tables, counted, *files = sys.argv[1:]
    lines = [memoryview(Path(file).read_bytes()) for file in files]
    rows = [*counted_rows(counted), *timed_rows(Path(programs).resolve(), tables, lines)]
    show(rows)
    return 1 if any(row.missed() for row in rows) else 0


if __name__ == "__main__":
    sys.exit(main())
