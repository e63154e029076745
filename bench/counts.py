#!/usr/bin/env python3
"""Prints the instructions of an operation, from what `ours --count` or `c_api --count` left under callgrind.

    counts.py OUTPUT

Callgrind wrote a file OUTPUT.1, OUTPUT.2, .. for each count, whose label has the number of times, of operations in each,
the row and, where it has kinds, the kind, parted by tabs. The operation's own is the difference of once and twice.
"""

import re
import sys
from pathlib import Path

LABEL = re.compile(r"^desc: Trigger: Client Request: (\d+)\t(\d+)\t(.+)$", re.MULTILINE)
TOTAL = re.compile(r"^summary: (\d+)$", re.MULTILINE)


def main():
    output = Path(sys.argv[1])
    files = sorted(output.parent.glob(output.name + ".*"), key=lambda path: int(path.suffix[1:]))
    once = {}
    for path in files:
        text = path.read_text("utf-8")
        times, operations, label = LABEL.search(text).groups()
        total = int(TOTAL.search(text)[1])
        if times == "1":
            once[label] = total
        else:
            print(f"{label}\t{(total - once[label]) / int(operations):.1f}")
    if not files:
        sys.exit(f"{output}: nothing was counted; was it built without valgrind's header?")


if __name__ == "__main__":
    main()
