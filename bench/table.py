#!/usr/bin/env python3
"""Prints the measures as one table.

    table.py MEASURED COUNTED   all of them, as bench/run does
    table.py --counts COUNTED   instructions beside the stored ones, as bench/count does
    table.py --rows COUNTED     instructions as instructions.tsv has them
    table.py --self-test

MEASURED has lines of a column, a row, where the row has kinds its kind, and nanoseconds, parted by tabs; COUNTED the
same without the column, and with instructions. A figure is the median of the rounds, of a row with kinds that of the
greatest kind. What is not positive is refused: an error and no figure. goals.tsv has a row, its goal, and what is said
beside it for information. It exits non-zero where a figure was refused or a goal is missed.
"""

import re
import sys
from collections import Counter
from pathlib import Path
from statistics import median

PEERS = ["ICU", "unic-langid"]
EVERY = "every row"
GOAL = re.compile(r"(.+) : (.+) at (most|least) ([0-9.]+)")


def fields(path):
    return [line.split("\t") for line in Path(path).read_text("utf-8").splitlines()]


def beside(name):
    return fields(Path(__file__).with_name(name))


# ---- figures ----


class Figures:
    """The measures of each row and column: their median, the greatest, and what was refused."""

    def __init__(self):
        self.kinds = {}
        self.refused = []

    def add(self, column, row, *kind_and_figure):
        *kind, figure = kind_and_figure
        if not float(figure) > 0:
            self.refused.append(f"{row}, {column}: {figure} is not positive: no figure")
            figure = None
        self.kinds.setdefault(row, {}).setdefault(column, {}).setdefault("".join(kind), []).append(figure and float(figure))

    def of(self, row, column, choose=median):
        """The greatest kind's median, with the kind; nothing where one of the measures was refused."""
        kinds = self.kinds.get(row, {}).get(column, {})
        if not kinds or None in sum(kinds.values(), []):
            return None, None
        return max((choose(measures), kind) for kind, measures in kinds.items())

    def values(self, row, above, stored):
        """What a goal can name: each figure of the row, and the instructions of the row above."""
        columns = {column: self.of(row, column)[0] for column in ["ours", *PEERS, "instructions"]}
        return {**columns, "stored": stored.get(row), "row above": self.of(above, "instructions")[0]}


def read(measured, counted):
    figures = Figures()
    for line in measured:
        figures.add(*line)
    for line in counted:
        figures.add("instructions", *line)
    return figures


def ratio(values, left, right):
    return values[left] / values[right] if values[left] and values[right] else None


# ---- goals ----


def outcome(goal, values):
    """Whether a goal is reached, missed or, where a figure is not there, not measured."""
    left, right, bound, limit = GOAL.fullmatch(goal).groups()
    found = ratio(values, left, right)
    if found is None:
        return "not measured"
    beyond = found > float(limit) if bound == "most" else found < float(limit)
    return "missed" if beyond else "reached"


def outcomes_of(row, values, goals, about=""):
    """The row's goals that begin so, and every row's, each with its outcome."""
    named = [goals[name][0] for name in (EVERY, row) if name in goals]
    return [(goal, outcome(goal, values)) for goal in named if goal and goal.startswith(about)]


def marks(outcomes):
    return "; ".join(f"MISSED: {goal}" for goal, found in outcomes if found == "missed")


def said(tally):
    return "goals: " + ", ".join(f"{tally[name]} {name}" for name in ("reached", "missed", "not measured"))


# ---- tables ----


def shown(figure):
    if figure is None:
        return "-"
    return f"{figure:,.0f}" if figure >= 100 else f"{figure:.1f}"


def shown_ratio(found, digits=2):
    return "-" if found is None else f"{found:.{digits}f}"


def aligned(table, words):
    """The lines of a table: the first column and the last so many are words, the others numbers."""
    widths = [max(map(len, column)) for column in zip(*table)]
    for cells in table:
        last = len(cells) - words
        padded = [c.rjust(w) if 0 < k < last else c.ljust(w) for k, (c, w) in enumerate(zip(cells, widths))]
        yield "  ".join(padded).rstrip()


def rows_with_values(figures, stored):
    above = None
    for row in figures.kinds:
        yield row, figures.values(row, above, stored)
        above = row


def whole_table(figures, stored, goals):
    """The lines of the whole table, and how many goals are reached, missed and not measured."""
    heads = ["instructions", ": stored", "nanoseconds", "slowest round", *PEERS, "ICU : ours", "unic : ours"]
    table, tally = [["", *heads, "goal", "for information"]], Counter()
    for row, values in rows_with_values(figures, stored):
        outcomes = outcomes_of(row, values, goals)
        goal, information = goals.get(row, ("", ""))
        numbers = [shown(values["instructions"]), shown_ratio(ratio(values, "instructions", "stored"), 3)]
        numbers += [shown(values["ours"]), shown(figures.of(row, "ours", max)[0]), *(shown(values[peer]) for peer in PEERS)]
        numbers += [shown_ratio(ratio(values, peer, "ours")) for peer in PEERS]
        table.append([row, *numbers, marks(outcomes) or goal, information])
        tally.update(found for _, found in outcomes)
    return [*aligned(table, 2), *notes(figures), said(tally)], tally


def notes(figures):
    """Which kind is the greatest, and lines a second."""
    for row, columns in figures.kinds.items():
        for column in columns:
            figure, kind = figures.of(row, column)
            if kind:
                what = "instructions" if column == "instructions" else "time"
                yield f"{row}, {what}:\tthe greatest of {len(columns[column])} kinds: {kind}"
            if figure and row.startswith("keys") and column != "instructions":
                yield f"{row}, {column}:\t{1e9 / figure:,.0f} lines a second"


def count_table(figures, stored, goals):
    """The lines of the instructions beside the stored ones, and the outcomes; a stored row not counted is a goal missed."""
    table, tally = [["", "instructions", "stored", "ratio", ""]], Counter()
    for row, values in rows_with_values(figures, stored):
        outcomes = outcomes_of(row, values, goals, "instructions")
        numbers = [f"{values[name]:,.1f}" if values[name] else "-" for name in ("instructions", "stored")]
        found = shown_ratio(ratio(values, "instructions", "stored"), 4)
        table.append([row, *numbers, found, marks(outcomes) if values["stored"] else "not stored"])
        tally.update(found for _, found in outcomes)
    gone = [row for row in stored if row not in figures.kinds]
    table += [[row, "-", f"{stored[row]:,.1f}", "-", "NOT COUNTED"] for row in gone]
    tally["missed"] += len(gone)
    return [*aligned(table, 1), said(tally)], tally


# ---- the self-test ----


def self_test():
    goals = {EVERY: ("instructions : stored at most 1.02", ""), "b": ("ICU : ours at least 4", "at most 9 ns")}
    measured = [("ours", "a", "10"), ("ours", "a", "900"), ("ours", "a", "12"), ("ours", "b", "-71.0"), ("ICU", "b", "50")]
    measured += [("ours", "c", "short", "1"), ("ours", "c", "long", "7"), ("ours", "c", "short", "99"), ("ours", "c", "short", "2")]
    figures = read(measured, [("a", "102"), ("b", "103"), ("c", "short", "5"), ("c", "long", "0")])
    stored = {"a": 100.0, "b": 100.0, "gone": 1.0}
    values = dict(rows_with_values(figures, stored))

    # the median and neither the least nor the mean; of kinds the greatest median
    assert figures.of("a", "ours") == (12, "") and figures.of("a", "ours", max) == (900, "")
    assert figures.of("c", "ours") == (7, "long")
    # what is not positive is refused, with all of its row, and makes no ratio
    assert len(figures.refused) == 2 and "b, ours: -71.0" in figures.refused[0] and "c, instructions: 0" in figures.refused[1]
    assert figures.of("b", "ours") == (None, None) and figures.of("c", "instructions") == (None, None)
    assert ratio(values["b"], "ICU", "ours") is None and outcome("ICU : ours at least 4", values["b"]) == "not measured"
    # goals at their limit, beyond it, and of the row above
    assert outcome(goals[EVERY][0], values["a"]) == "reached" and outcome(goals[EVERY][0], values["b"]) == "missed"
    assert outcome("instructions : row above at most 1", values["b"]) == "missed"
    assert outcome("instructions : row above at most 2", values["b"]) == "reached"
    assert outcome("ICU : ours at least 4", {"ours": 10.0, "ICU": 39.9}) == "missed"
    assert outcome("ICU : ours at least 4", {"ours": 10.0, "ICU": 40.0}) == "reached"
    # the tables: of a reached, of b missed and not measured, of c not measured; and one row not counted
    lines, tally = whole_table(figures, stored, goals)
    assert tally == {"reached": 1, "missed": 1, "not measured": 2} and "-71" not in "".join(lines)
    assert "MISSED: instructions : stored at most 1.02" in lines[2] and "c, time:\tthe greatest of 2 kinds: long" in lines
    lines, tally = count_table(figures, stored, goals)
    assert tally == {"reached": 1, "missed": 2, "not measured": 1}
    assert "1.0300" in lines[2] and "not stored" in lines[3] and "NOT COUNTED" in lines[4]
    # every goal of the file can be read
    assert all(GOAL.fullmatch(goal) for _, goal, _ in beside("goals.tsv") if goal)
    print("table.py: the self-test passed")


def main():
    if sys.argv[1:] == ["--self-test"]:
        return self_test()
    goals = {row: (goal, information) for row, goal, information in beside("goals.tsv")}
    alone = sys.argv[1] in ("--counts", "--rows")
    figures = read([] if alone else fields(sys.argv[1]), fields(sys.argv[2]))
    if sys.argv[1] == "--rows":
        lines, tally = [f"{row}\t{figures.of(row, 'instructions')[0]:.1f}" for row in figures.kinds], Counter()
    else:
        stored = {row: float(figure) for row, figure in beside("instructions.tsv")}
        lines, tally = (count_table if alone else whole_table)(figures, stored, goals)
    print(*lines, sep="\n")
    for refusal in figures.refused:
        print(refusal, file=sys.stderr)
    return 1 if tally["missed"] or figures.refused else 0


if __name__ == "__main__":
    sys.exit(main())
