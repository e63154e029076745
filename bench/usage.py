#!/usr/bin/env python3
"""Writes a month of a million usage lines over 500 keys, the same each time.

    usage.py ROWS ASKED MONTH

ROWS is what `keys` prints of the identifiers. ASKED gets the month's identifiers, one a line, MONTH the same with a
member (1 to 64) and a tab before each.
"""

import itertools
import random
import re
import sys
from pathlib import Path

LINES = 1_000_000
KEYS = 500
CORE = re.compile("[A-Z][a-z]{3}|[A-Z]{2}|[0-9]{3}")


def key(kept):
    """Language, script and region of a minimised form."""
    language, *rest = kept.split("-")
    return "-".join([language, *itertools.takewhile(CORE.fullmatch, rest)])


def main():
    rows, asked, month = map(Path, sys.argv[1:])
    draw = random.Random(20_261_116)
    spellings = {}
    for row in rows.read_text("ascii").splitlines()[1:]:
        line, _, kept = row.split("\t")
        spellings.setdefault(key(kept), []).append(line)
    used = [line for k in draw.sample(sorted(spellings), KEYS) for line in spellings[k]]
    with asked.open("w") as a, month.open("w") as m:
        for _ in range(LINES):
            line = draw.choice(used)
            a.write(line + "\n")
            m.write(f"{draw.randint(1, 64)}\t{line}\n")


if __name__ == "__main__":
    main()
