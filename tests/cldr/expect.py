#!/usr/bin/env python3
"""Where CLDR's published canonicalisation cases differ from document 01, and why.

    expect.py            writes differences.tsv
    expect.py --check    fails where differences.tsv isn't what would be written

Each case is canonicalised by document 01 over tables/aliases.tsv, and by UTS #35,
Annex C, over all alias rules of CLDR (tables/extract), which must give the
published result. The reason for a difference is the rules that Annex C used and
that no row of document 01's table can hold. A difference without a reason is an
error, and so is one that stays when Annex C goes without those rules.
"""

import sys
from pathlib import Path

HERE = Path(__file__).resolve().parent
TABLES = HERE.parent.parent / "tables"
HEADER = "asked\tCLDR\tdocument 01\treason\n"

# An identifier of the published cases is four sorted tuples of subtags: language
# (none for und), script, region, variants. There are no extensions among them.
FIELDS = ("language", "script", "region", "variant")


def read(text):
    """The subtags of each field, or nothing where they don't stand in order."""
    found = {field: [] for field in FIELDS}
    last = -1
    for at, subtag in enumerate(text.replace("_", "-").split("-")):
        field = field_of(subtag, at)
        if field is None or field < last or (field == last and field < 3):
            return None
        found[FIELDS[field]].append(subtag)
        last = field
    if found["language"] == ["und"]:
        found["language"] = []
    return tuple(tuple(sorted(found[field])) for field in FIELDS)


def field_of(subtag, at):
    length, digit = len(subtag), subtag[:1].isdigit()
    if at == 0 and subtag.isalpha() and length in (2, 3, 5, 6, 7, 8):
        return 0
    if length == 4 and subtag.isalpha():
        return 1
    if at > 0 and (length == 2 and subtag.isalpha() or length == 3 and subtag.isdigit()):
        return 2
    if at > 0 and (5 <= length <= 8 or length == 4 and digit):
        return 3
    return None


def text_of(identifier):
    language, *rest = identifier
    return "-".join((language or ("und",)) + sum(rest, ()))


# Document 01, "Canonical form", 3 and 4.


def table_rows():
    lines = (TABLES / "aliases.tsv").read_text("ascii").splitlines()
    return {tuple(line.split("\t")[:2]): line.split("\t")[2] for line in lines}


def by_document_01(identifier, rows):
    """Each kind of alias once, in the order of the fields."""
    language, script, region, variants = identifier
    value = read(rows.get(("language", "".join(language)), "und"))
    language = value[0] or language
    script = script or value[1]
    region = region or value[2]
    script = tuple(rows.get(("script", subtag), subtag) for subtag in script)
    region = tuple(rows.get(("region", subtag), subtag) for subtag in region)
    variants = {rows.get(("variant", subtag), subtag) for subtag in variants}
    return language, script, region, tuple(sorted(variants))


# UTS #35, Annex C. A rule is its element, what it matches and its replacements.


def annex_rules():
    """The rules whose key can be read; the others match nothing."""
    rules = []
    for element, key, value in extract("aliases"):
        und = "" if element == "languageAlias" else "und-"
        matched = read(und + key)
        if matched is not None:
            rules.append((element, matched, [read(und + one) for one in value.split()]))
    return rules


def by_first_subtag(rules):
    index = {}
    for rule in rules:
        index.setdefault(sum(rule[1], ())[0], []).append(rule)
    return index


def rule_order(rule):
    """Annex C, Preprocessing, 5: more subtags first; earlier fields first; by bytes."""
    matched = rule[1]
    return -sum(map(len, matched)), [not field for field in matched], matched


def extract(name):
    lines = (TABLES / "extract" / f"{name}.txt").read_text("ascii").splitlines()
    return [line.split("\t") for line in lines if not line.startswith("#")]


def by_annex(identifier, rules, likely):
    """The result and the rules used on the way, the first that matches each time."""
    used = []
    while True:
        candidates = sum((rules.get(subtag, []) for subtag in sum(identifier, ())), [])
        matching = [rule for rule in candidates if matches(rule, identifier)]
        if not matching:
            return identifier, used
        used.append(min(matching, key=rule_order))
        identifier = transformed(identifier, used[-1], likely)


def matches(rule, identifier):
    return all(set(field) <= set(own) for field, own in zip(rule[1], identifier))


def transformed(identifier, rule, likely):
    _, matched, replacements = rule
    replacement = replacements[0]
    if len(replacements) > 1:
        region = likely_region(identifier, likely)
        replacement = next((one for one in replacements if one[2] == (region,)), replacement)
    result = []
    for own, gone, new in zip(identifier, matched, replacement):
        result.append(tuple(sorted(set(own) - set(gone) | set(new))) if gone else own or new)
    return tuple(result)


def likely_region(identifier, likely):
    """The likely region of the language, and of the script if there is one."""
    language, script = identifier[:2]
    language = language or ("und",)
    value = likely.get("_".join(language + script)) or likely.get("_".join(language))
    return value and value.split("_")[2]


# Reasons.


def reason_of(rule):
    """Why no row of a table of document 01 can hold a rule; nothing if one can."""
    element, matched, replacements = rule
    if len(replacements) > 1:
        return f"region list {matched[2][0]}"
    names = [field for field, subtags in zip(FIELDS, matched) if subtags]
    if element != "languageAlias" or names == ["language"]:
        return None
    if not matched[0]:
        names.insert(0, "und")
    return f"{'+'.join(names)} key {text_of(matched)}"


def cases():
    lines = (HERE / "localeCanonicalization.txt").read_text("utf-8").splitlines()
    lines = [line for line in lines if line and not line.startswith("#")]
    return [tuple(part.strip() for part in line.split(";")) for line in lines]


def differences():
    """The rows of differences.tsv, and what went wrong."""
    rows, rules, likely = table_rows(), annex_rules(), dict(extract("likely"))
    all_rules = by_first_subtag(rules)
    table_rules = by_first_subtag(rule for rule in rules if not reason_of(rule))
    found, wrong = [], []
    for asked, published in cases():
        identifier = read(asked)
        if identifier is None:
            wrong.append(f"{asked}: not read")
            continue
        ours = by_document_01(identifier, rows)
        annex, used = by_annex(identifier, all_rules, likely)
        reasons = list(filter(None, map(reason_of, used)))
        if annex != read(published):
            wrong.append(f"{asked}: Annex C gives {text_of(annex)}, published is {published}")
        if ours != by_annex(identifier, table_rules, likely)[0]:
            wrong.append(f"{asked}: a difference that the left out rules don't make")
        if ours != read(published):
            if not reasons:
                wrong.append(f"{asked}: a difference without a reason")
            found.append("\t".join((asked, published, text_of(ours), ", ".join(reasons))) + "\n")
    return found, wrong


def main():
    found, wrong = differences()
    path = HERE / "differences.tsv"
    content = HEADER + "".join(found)
    if sys.argv[1:] == ["--check"]:
        if not path.exists() or path.read_text("ascii") != content:
            wrong.append("differences.tsv isn't what expect.py writes")
    elif sys.argv[1:]:
        wrong.append("usage: expect.py [--check]")
    elif not wrong:
        path.write_text(content, "ascii")
    print(*wrong, sep="\n", end="\n" if wrong else "", file=sys.stderr)
    print(f"{len(found)} differences of {len(cases())} cases")
    return 1 if wrong else 0


if __name__ == "__main__":
    sys.exit(main())
