#!/usr/bin/env python3
"""Makes the three tables of document 01 from CLDR's facts.

    make.py                    from the committed extract beside this script
    make.py FOLDER             from CLDR's XML in FOLDER
    make.py FOLDER --extract   writes the extract instead of the tables

`--out DIR` names the folder written to, in place of this script's own (of its
`extract`, with `--extract`). Both ways to the tables give the same bytes. What
is left out is said on standard error, with its reason and a count.
"""

import argparse
import re
import sys
import xml.etree.ElementTree as ElementTree
from collections import Counter
from pathlib import Path

HERE = Path(__file__).resolve().parent
NOTICE = "Unicode data, under the notice in tables/UNICODE-LICENSE.txt; made by tables/make.py."

# The most bytes a table may have (01, number 11).
LARGEST = 32_768

# CLDR's alias elements, and the kind that document 01 gives them. Subdivisions
# and zones live in extensions, which aliases don't touch.
KINDS = {
    "languageAlias": "language",
    "scriptAlias": "script",
    "territoryAlias": "region",
    "variantAlias": "variant",
}

# Subtags in canonical case.
SUBTAG = {
    "language": "(?:[a-z]{2,3}|[a-z]{5,8})",
    "script": "[A-Z][a-z]{3}",
    "region": "(?:[A-Z]{2}|[0-9]{3})",
    "variant": "(?:[a-z0-9]{5,8}|[0-9][a-z0-9]{3})",
}
# Language, perhaps script, perhaps region.
THREE = re.compile("({language})(?:-({script}))?(?:-({region}))?".format(**SUBTAG))


# The facts: for each file of the extract, what a line holds and the lines.


def read_xml(folder):
    """The facts from CLDR's XML, in its order."""

    def elements(name, path):
        return ElementTree.parse(folder / name).getroot().findall(path)

    aliases = elements("supplementalMetadata.xml", "metadata/alias/*")
    others = Counter(e.tag for e in aliases if e.tag not in KINDS)
    for tag, count in sorted(others.items()):
        print(f"no kind of document 01: {count} {tag}", file=sys.stderr)
    aliases = [e for e in aliases if e.tag in KINDS]
    likely = elements("likelySubtags.xml", "likelySubtags/likelySubtag")
    parents = elements("supplementalData.xml", "parentLocales/parentLocale")
    return {
        "aliases": [(e.tag, e.get("type"), e.get("replacement")) for e in aliases],
        "likely": [(e.get("from"), e.get("to")) for e in likely],
        "parents": [(e.get("parent"), e.get("locales")) for e in parents],
    }


EXTRACT = {
    "aliases": "supplementalMetadata.xml, alias: element, type, replacement",
    "likely": "likelySubtags.xml, likelySubtag: from, to",
    "parents": "supplementalData.xml, parentLocale: parent, locales",
}


def read_extract(folder=HERE / "extract"):
    """The facts from the extract; lines that begin with # are comments."""
    facts = {}
    for name in EXTRACT:
        lines = (folder / f"{name}.txt").read_text("ascii").splitlines()
        facts[name] = [tuple(line.split("\t")) for line in lines if not line.startswith("#")]
    return facts


def write_extract(facts, folder):
    for name, rows in facts.items():
        lines = [f"# {EXTRACT[name]}", f"# {NOTICE}"] + ["\t".join(row) for row in rows]
        write(folder / f"{name}.txt", lines)


def write(path, lines):
    path.parent.mkdir(parents=True, exist_ok=True)
    path.write_bytes("".join(line + "\n" for line in lines).encode("ascii"))


# The rows. Each function gives the reason to leave a row out, or nothing.


def hyphens(name):
    return name.replace("_", "-")


def wrong_alias(kind, key, value, rows):
    if kind == "language" and "-" in key:
        return "a language key of more than one subtag"
    if kind == "region" and re.fullmatch("[A-Z]{3}", key):
        return "a region key of three letters"
    if kind == "region" and " " in value:
        return "a list of regions"
    good_value = THREE.fullmatch(value) if kind == "language" else re.fullmatch(SUBTAG[kind], value)
    own = value.split("-")[0]
    if not re.fullmatch(SUBTAG[kind], key) or not good_value or "und" in (key, own):
        return "wrong shape"
    if (kind, own) in rows:
        return "a value that is itself a key"
    return None


def wrong_likely(key, value, aliases):
    three = THREE.fullmatch(value)
    if not THREE.fullmatch(key) or not three or None in three.groups():
        return "wrong shape"
    if any(unknown == subtag for unknown, subtag in zip(("und", "Zzzz", "ZZ"), three.groups())):
        return "a value with und, Zzzz or ZZ"
    return "a value that an alias replaces" if replaced(three, aliases) else None


def wrong_parent(key, value, aliases):
    three = THREE.fullmatch(value)
    if not THREE.fullmatch(key) or key == "und" or not three:
        return "wrong shape"
    return "a value that an alias replaces" if replaced(three, aliases) else None


def replaced(three, aliases):
    return any(subtag in aliases for subtag in zip(SUBTAG, three.groups()))


def alias_rows(facts):
    """The value of each kind and key."""
    found = {(KINDS[e], hyphens(key)): hyphens(value) for e, key, value in facts["aliases"]}
    return kept("aliases", found, lambda key, value: wrong_alias(*key, value, found))


def likely_rows(facts, aliases):
    found = {hyphens(key): hyphens(value) for key, value in facts["likely"]}
    return kept("likely", found, lambda key, value: wrong_likely(key, value, aliases))


def parent_rows(facts, aliases):
    found = {}
    for parent, locales in facts["parents"]:
        value = "und" if parent == "root" else hyphens(parent)
        found.update((hyphens(locale), value) for locale in locales.split())
    return kept("parents", found, lambda key, value: wrong_parent(key, value, aliases))


def kept(name, rows, wrong):
    """The rows without a reason to leave them out; says how many had one."""
    reasons = {key: wrong(key, value) for key, value in rows.items()}
    print(f"{name}: {list(reasons.values()).count(None)} of {len(rows)} rows", file=sys.stderr)
    for reason, count in sorted(Counter(filter(None, reasons.values())).items()):
        print(f"  left out {count}: {reason}", file=sys.stderr)
    return {key: value for key, value in rows.items() if reasons[key] is None}


def write_tables(facts, folder):
    """Each table in byte order of its keys."""
    aliases = alias_rows(facts)
    tables = {
        "aliases": {"\t".join(key): value for key, value in aliases.items()},
        "likely": likely_rows(facts, aliases),
        "parents": parent_rows(facts, aliases),
    }
    for name, rows in tables.items():
        lines = [f"{key}\t{rows[key]}" for key in sorted(rows)]
        size = sum(len(line) + 1 for line in lines)
        if size > LARGEST:
            sys.exit(f"{name}.tsv would have {size} bytes, over {LARGEST}")
        write(folder / f"{name}.tsv", lines)


def main():
    parser = argparse.ArgumentParser(description="Makes the three tables from CLDR.")
    parser.add_argument("folder", nargs="?", type=Path, help="a folder with CLDR's XML")
    parser.add_argument("--extract", action="store_true", help="write the extract, not the tables")
    parser.add_argument("--out", type=Path, help="the folder written to")
    arguments = parser.parse_args()
    if arguments.extract and not arguments.folder:
        parser.error("--extract needs a folder with CLDR's XML")
    facts = read_xml(arguments.folder) if arguments.folder else read_extract()
    if arguments.extract:
        write_extract(facts, arguments.out or HERE / "extract")
    else:
        write_tables(facts, arguments.out or HERE)


if __name__ == "__main__":
    main()
