#!/usr/bin/env python3
"""Draws the benchmark's identifiers from the tables: the same 2,000 each time.

    identifiers.py > identifiers.txt
    identifiers.py --long > long.txt

The long ones fill 255 bytes with one kind of subtag, each with its kind and a tab
in front: the slowest of them stands for the worst.

Languages, scripts and regions go together as in CLDR's likely subtags and in the
locales that have a row among the parents; languages of two letters come four
times as often as the others. A quarter of the identifiers has underscores, one in
twenty is all in lower case.
"""

import sys
from pathlib import Path

TABLES = Path(__file__).resolve().parent.parent / "tables"

# How many there are of each shape.
MIX = {
    "language": 150,
    "language-region": 330,
    "language-script": 160,
    "language-script-region": 1060,
    "old code": 100,
    "variant": 100,
    "u extension": 100,
}

# Where variants are used, and keywords that anyone may use.
WITH_VARIANT = """
be-tarask ca-ES-valencia ca-valencia de-1996 de-AT-1996 de-CH-1901 de-DE-1901 el-polyton
el-GR-polytoni en-GB-oxendict en-GB-scotland en-US-boont fr-1990 ja-Latn-heploc
ja-Latn-JP-hepburn ko-KR-fonipa oc-gascon pt-BR-abl1943 pt-ao1990 ru-luna1918 sa-itihasa
sl-IT-nedis sl-rozaj-biske sr-ekavsk sr-Latn-ijekavsk sv-1606nict zh-Latn-pinyin zh-Latn-TW-wadegile
""".split()
KEYWORDS = """
ca-buddhist ca-gregory ca-japanese ca-persian co-phonebk co-pinyin cu-eur fw-mon hc-h12 hc-h23
kf-upper kn-true ms-metric nu-arab nu-latn nu-latn-ca-gregory hc-h23-fw-mon
""".split()


class Draws:
    """Numbers that look random: splitmix64, from a fixed start."""

    def __init__(self):
        self.state = 41

    def below(self, bound):
        mask = 2**64 - 1
        self.state = (self.state + 0x9E3779B97F4A7C15) & mask
        mixed = self.state
        mixed = (mixed ^ mixed >> 30) * 0xBF58476D1CE4E5B9 & mask
        mixed = (mixed ^ mixed >> 27) * 0x94D049BB133111EB & mask
        return (mixed ^ mixed >> 31) % bound

    def one(self, things):
        return things[self.below(len(things))]

    def shuffle(self, things):
        for at in range(len(things) - 1, 0, -1):
            other = self.below(at + 1)
            things[at], things[other] = things[other], things[at]


def rows(name):
    return [line.split("\t") for line in (TABLES / f"{name}.tsv").read_text("ascii").splitlines()]


def locales(likely):
    """Language, script and region that go together, in two lists by the language's length."""
    found = {tuple(value.split("-")) for value in likely.values()}
    for key, _ in rows("parents"):
        language, *rest = key.split("-")
        if language in likely and rest and len(rest[-1]) < 4:
            found.add((language, likely[language].split("-")[1], rest[-1]))
    short = {three for three in found if len(three[0]) == 2}
    return sorted(short), sorted(found - short)


def old_codes(likely):
    """Languages of two letters and regions that aliases replace."""
    found = []
    for kind, key, value in rows("aliases"):
        if kind == "language" and len(key) == 2:
            found.append(key)
            region = likely.get(value.split("-")[0], "").split("-")[-1]
            found.extend([f"{key}-{region}"] * bool(region))
        if kind == "region" and key.isalpha():
            found.append(f"{likely.get('und-' + value, 'en').split('-')[0]}-{key}")
    return found


def identifiers():
    draws, likely = Draws(), dict(rows("likely"))
    short, long = locales(likely)
    old = old_codes(likely)

    def drawn(shape):
        language, script, region = draws.one(long if draws.below(5) == 0 else short)
        if shape == "u extension":
            return f"{language}-{region}-u-{draws.one(KEYWORDS)}"
        if shape == "old code":
            return draws.one(old)
        if shape == "variant":
            return draws.one(WITH_VARIANT)
        parts = {"language": language, "script": script, "region": region}
        return "-".join(parts[part] for part in shape.split("-"))

    def spelled(identifier):
        if draws.below(4) == 0:
            identifier = identifier.replace("-", "_")
        return identifier.lower() if draws.below(20) == 0 else identifier

    found = [spelled(drawn(shape)) for shape, count in MIX.items() for _ in range(count)]
    draws.shuffle(found)
    return found


def filled(front, parts):
    """As many of the parts as fit into 255 bytes."""
    text = front
    for part in parts:
        if len(text) + 1 + len(part) > 255:
            break
        text += "-" + part
    return text


def long_identifiers():
    """Kind and identifier; heads in falling order, which is the farthest from the canonical one."""
    letters = "abcdefghijklmnopqrstuvwxyz"
    falling = letters[::-1]
    two = [a + b for a in falling for b in falling]
    singletons = [s for s in falling + "9876543210" if s not in "tux"]
    variants = [digit + a + "zz" for digit in "987654321" for a in falling]
    fields = [a + digit + "-aaa" for digit in "9876543210" for a in falling]
    return {
        "variants": filled("en", variants),
        "variants of 8": filled("en", [f"variab{a}" for a in two]),
        "u attributes": filled("en-u", [a + "z" for a in two]),
        "u attributes, rising": filled("en-u", sorted(a + "z" for a in two)),
        "u keywords": filled("en-u", two),
        "u keywords, one key": filled("en-u", ["ca"] * 90),
        "u keywords, true": filled("en-u", [a + "-true" for a in two]),
        "u attributes and keywords": filled(filled("en-u", [a + "z" for a in two[:31]]), two),
        "t variants": filled("en-t-en", variants),
        "t fields": filled("en-t", fields),
        "t variants and fields": filled(filled("en-t-en", variants[:25]), fields),
        "extensions": filled("en", [f"{s}-ab-cd" for s in singletons]) + "-x-a",
        "extensions, variants, attributes": filled(
            filled("en", variants[:10]) + "-" + "-".join(f"{s}-ab" for s in singletons[:10]) + "-u", [a + "z" for a in two]
        ),
        "private use": filled("en-x", ["a"] * 130),
        "private use of 8": filled("en-x", ["abcdefgh"] * 30),
        "script and region first": filled("Latn-US", variants),
        "old codes and variants": filled("sh-Qaai-BU", variants),
        "root": filled("root-u", [a + "z" for a in two]),
    }


if __name__ == "__main__":
    if "--long" in sys.argv[1:]:
        print(*(f"{kind}\t{text}" for kind, text in long_identifiers().items()), sep="\n")
    else:
        print(*identifiers(), sep="\n")
