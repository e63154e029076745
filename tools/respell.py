#!/usr/bin/env python3
"""Turns the names of this repository's own definitions, laws, constructors and fields to snake case.

usage: tools/respell.py      at the top of the repository, once, right after port.py

It reads crates/*/specs, proofs, src and must-fail, and the pages README.md and docs/ (but docs/CHANGES.md). A part of a name
that begins with a small letter and has a capital in it is turned: canonicalOf to canonical_of, ofKind-eq to of_kind-eq.
Types, modules and variants keep their capitals, text in quotes stays, and functions of src/ have no such names.
A law whose name a definition would then have gets other words (FIRST).
"""
import os
import re
import sys

# what would fall together: (crates, or all; the name now; the new name)
FIRST = [
    (None, "all_lines", "all_lines_lem"),
    (None, "first_byte", "first_byte_lem"),
    (None, "in_use", "in_use_lem"),
    (None, "is_found", "is_found_lem"),
    (["bill_lines"], "member_is", "member_is_lem"),
    (None, "no_bytes", "no_bytes_lem"),
    (["bill_lines"], "no_member", "no_member_lem"),
    (None, "one_more", "one_more_lem"),
    (None, "one_size", "one_size_lem"),
    (None, "other_from", "other_from_lem"),
    (None, "out_of_range", "out_of_range_lem"),
    (["standard"], "read_as", "reads_as"),
    (None, "told_text", "told_text_lem"),
    (None, "too_long", "too_long_lem"),
    (None, "two_size", "two_size_lem"),
    (None, "whole_length", "whole_length_lem"),
    (["bill_lines"], "wrong_size", "wrong_size_lem"),
]
WORD = re.compile(r"[^\s(){}\[\].,;:λ→×∷≡+*=|↦⌜⌝\"«»`·/&<>!?]+")
QUOTED = re.compile(r'"(?:\\.|[^"\\\n])*"')


def part(s):
    if re.match(r"[a-z]", s) and re.search(r"[a-z0-9][A-Z]", s):
        s = re.sub(r"([a-z0-9])([A-Z])", lambda m: m.group(1) + "_" + m.group(2), s)
        return s.lower()
    return s


def name(w):
    if w.startswith("getD"):
        w = "get_or" + w[4:]
    return "-".join(part(s) if "_" not in s else "_".join(part(q) for q in s.split("_")) for s in w.split("-"))


def outside_quotes(text, f):
    out, at = [], 0
    for m in QUOTED.finditer(text):
        out += [f(text[at : m.start()]), m.group(0)]
        at = m.end()
    return "".join(out + [f(text[at:])])


def files(top):
    for folder, dirs, names in os.walk(os.path.join(top, "crates")):
        dirs[:] = sorted(d for d in dirs if d not in ("out", "data"))
        for f in sorted(names):
            if f.endswith((".antt", ".rt", ".edit")):
                yield os.path.join(folder, f)


def crate(top, path):
    return os.path.relpath(path, os.path.join(top, "crates")).split(os.sep)[0]


def main(top):
    # the names to turn: those that an .antt file writes outside its comments
    known = set()
    for p in files(top):
        if p.endswith(".antt"):
            text = re.sub(r"--[^\n]*", "", QUOTED.sub("", open(p, encoding="utf-8").read()))
            known |= {w for w in WORD.findall(text) if name(w) != w}
    print(f"respell: {len(known)} names")
    pages = [os.path.join(top, "README.md")] + [os.path.join(top, "docs", d) for d in sorted(os.listdir(os.path.join(top, "docs"))) if d.endswith(".md") and d not in ("CHANGES.md", "PORT.md")]
    for p in list(files(top)) + [d for d in pages if os.path.exists(d)]:
        with open(p, encoding="utf-8") as f:
            old = f.read()
        text = old
        if p.endswith(".antt"):
            for crates, w, new in FIRST:
                if crates is None or crate(top, p) in crates:
                    text = re.sub(r"(?<![\w'/:-])" + w + r"(?![\w'-])", new, text)
        text = outside_quotes(text, lambda t: WORD.sub(lambda m: name(m.group(0)) if m.group(0) in known else m.group(0), t))
        if text != old:
            with open(p, "w", encoding="utf-8") as f:
                f.write(text)


if __name__ == "__main__":
    main(sys.argv[1] if len(sys.argv) > 1 else ".")
