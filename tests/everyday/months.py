"""Months of odd shape and size, and bills that are refused: they stop reading."""

import itertools

import drive
from drive import HEADERS, ROOT

MARK = b"\xef\xbb\xbf"
NO_TAB = b"no tab between member and identifier"
NO_NUMBER = b"the member is no number"
BYTE = b"a byte that is no letter, digit, - or _"
MANY_KEYS = b"bill: the bill is refused: over 512 keys\n"
MANY_LINES = b"bill: the bill is refused: over 1,000,000 lines\n"


def bill_of(rows, refused):
    """The text of a bill."""
    return HEADERS["bill"] + rows + b"-\t0\t%d\n" % refused


def month(name, lines, bill, rows, hint=None, status=0):
    """A month by bill and refused; `hint` is the line on standard error where the input isn't plain lines."""
    for program, want in (("bill", bill), ("refused", HEADERS["refused"] + rows)):
        ran = drive.run(program, data=lines)
        err = drive.in_tables(program) + (f"{program}: {hint}\n".encode() if hint else b"")
        drive.ends(f"{program}: {name}", ran, status if program == "bill" else 0, want, err)


def one_line():
    """50 MB in one line: with and without a tab, and a good line behind it."""
    size = 50_000_000
    long = b"a" * size
    ran = drive.run("keys", data=long + b"\nen-US\n")
    drive.ends("keys: 50 MB in one line", ran, 0, HEADERS["keys"] + b"-\t2\t-\nen-US\t0\ten\n", drive.in_tables("keys"))
    ran = drive.run("inspect", data=long)
    row = b"-\t2\t0\t-\t-\t-\t0\t0\tover 255 bytes\n"
    drive.ends("inspect: 50 MB in one line", ran, 0, HEADERS["inspect"] + row, b"")
    row = b"1\t" + b"a" * 255 + b"...\t-\t0\t-\t" + NO_TAB + b"\n"
    month("50 MB in one line", long + b"\n1\ten\n", bill_of(b"en\t1\t1\n", 1), row)
    row = b"1\t1\t2\t2\t" + b"a" * 255 + b"...\tover 255 bytes\n"
    month("50 MB behind a tab", b"1\t" + long, bill_of(b"", 1), row)


def many_lines():
    """2,000,000 lines: keys and refused answer all of them, a bill is refused with 18."""
    many = 2_000_000
    ran = drive.run("keys", data=b"en\n" * many)
    drive.ends("keys: 2,000,000 lines", ran, 0, HEADERS["keys"] + b"en\t0\ten\n" * many, drive.in_tables("keys"))
    lines = b"1\ten\n" * (many - 1) + b"65\ten\n"
    row = b"%d\t65\t-\t0\ten\tthe member is not 1 to 64\n" % many
    ran = drive.run("refused", data=lines)
    drive.ends("refused: 2,000,000 lines", ran, 0, HEADERS["refused"] + row, drive.in_tables("refused"))
    ran = drive.run("bill", data=lines[: 5 * 1_000_001])
    drive.ends("bill: 1,000,001 lines", ran, 3, b"18\n", drive.in_tables("bill") + MANY_LINES)
    ran = drive.run("bill", data=lines[: 5 * 1_000_000])
    drive.ends("bill: 1,000,000 lines", ran, 0, bill_of(b"en\t1\t1000000\n", 0), drive.in_tables("bill"))


def odd_bytes():
    ran = drive.run("keys", data=b"en\0\n\0\n\r\n\x1b[2J\n")
    want = HEADERS["keys"] + b"-\t3\t-\n" * 4
    drive.ends("keys: NUL bytes, CR and escapes", ran, 0, want, drive.in_tables("keys"))
    rows = (
        b"2\t1\t3\t4\ten\\x00\t" + BYTE + b"\n"
        b"3\t\\x00\t-\t0\t-\t" + NO_TAB + b"\n"
        b"4\t1\\x00\t-\t0\ten\t" + NO_NUMBER + b"\n"
        b"5\t1\t3\t2\t\\x1B[2Jen\t" + BYTE + b"\n"
        b"6\t1\t3\t2\t\\x5C\\xFF\\x7F\t" + BYTE + b"\n"
    )
    lines = b"1\ten\n1\ten\0\n\0\n1\0\ten\n1\t\x1b[2Jen\n1\t\\\xff\x7f\n"
    month("NUL bytes and escapes", lines, bill_of(b"en\t1\t1\n", 5), rows)


def members():
    """A month with each fault of a member."""
    lines = b"1\ten\n\n1\n\ten\nx\ten\n01\ten\n0\ten\n65\ten\n1\t\n1\ten\t\n"
    rows = (
        b"2\t-\t-\t0\t-\t" + NO_TAB + b"\n"
        b"3\t1\t-\t0\t-\t" + NO_TAB + b"\n"
        b"4\t-\t-\t0\ten\tno member number\n"
        b"5\tx\t-\t0\ten\t" + NO_NUMBER + b"\n"
        b"6\t01\t-\t0\ten\tthe member begins with 0\n"
        b"7\t0\t-\t0\ten\tthe member is not 1 to 64\n"
        b"8\t65\t-\t0\ten\tthe member is not 1 to 64\n"
        b"9\t1\t1\t2\t-\tno bytes\n"
        b"10\t1\t3\t4\ten\\x09\t" + BYTE + b"\n"
    )
    month("faults of members", lines, bill_of(b"en\t1\t1\n", 9), rows)


def spreadsheets():
    """What a spreadsheet writes: a byte order mark, CR LF, CR, UTF-16. Each is said, and each is refused as the rules have it."""
    mark = "the input begins with a byte order mark"
    rows = b"1\t\\xEF\\xBB\\xBF1\t-\t0\ten\t" + NO_NUMBER + b"\n"
    month("a byte order mark", MARK + b"1\ten\n2\ten\n", bill_of(b"en\t1\t1\n", 1), rows, mark)
    rows = b"1\t1\t3\t4\ten\\x0D\t" + BYTE + b"\n2\t2\t3\t4\ten\\x0D\t" + BYTE + b"\n"
    month("CR LF", b"1\ten\r\n2\ten\r\n", bill_of(b"", 2), rows, "the lines end in CR LF")
    marked = b"1\t\\xEF\\xBB\\xBF1\t-\t0\ten\\x0D\t" + NO_NUMBER + b"\n2\t2\t3\t4\ten\\x0D\t" + BYTE + b"\n"
    month("a byte order mark and CR LF", MARK + b"1\ten\r\n2\ten\r\n", bill_of(b"", 2), marked, mark + ", and its lines end in CR LF")
    rows = b"1\t1\t3\t4\ten\\x0D2\\x09de\\x0D\t" + BYTE + b"\n"
    month("CR", b"1\ten\r2\tde\r", bill_of(b"", 1), rows, "the first line has CR in it, as where lines end in CR alone")
    rows = b"1\t\\xEF\\xBB\\xBF1\t-\t0\ten\\x0D2\\x09de\t" + NO_NUMBER + b"\n"
    month("a byte order mark and CR", MARK + b"1\ten\r2\tde", bill_of(b"", 1), rows, mark + ", and its first line has CR in it")
    rows = b"2\t2\t3\t4\ten\\x0D\t" + BYTE + b"\n"
    month("CR LF in the second line alone", b"1\ten\n2\ten\r\n", bill_of(b"en\t1\t1\n", 1), rows)
    for coding in ("utf-16-le", "utf-16-be", "utf-16"):
        lines = "1\ten\n".encode(coding)
        for program, want in (("bill", bill_of(b"", lines.count(b"\n") + (not lines.endswith(b"\n")))), ("refused", drive.has(HEADERS["refused"]))):
            ran = drive.run(program, data=lines)
            err = drive.in_tables(program) + f"{program}: the input is UTF-16\n".encode()
            drive.ends(f"{program}: {coding}", ran, 0, want, err)
    ran = drive.run("keys", data=MARK + b"en\r\nen\r\n")
    drive.ends("keys: a byte order mark and CR LF", ran, 0, HEADERS["keys"] + b"-\t3\t-\n" * 2, drive.in_tables("keys"))


def own_keys(many):
    """Usage lines of so many different keys."""
    letters = "abcdefghijklmnopqrstuvwxyz"
    names = itertools.islice(itertools.product(letters, letters), many)
    return "".join(f"1\tq{a}{b}-Latn-US\n" for a, b in names).encode()


def stops(name, program, first, out, err, arguments=()):
    """A refused run ends though 50 MB more wait: who feeds it finds the pipe closed, soon after what was refused."""
    process = drive.start([ROOT / program, *arguments], stdin=-1)
    drive.feed(process, itertools.chain([first], itertools.repeat(b"1\ten\n" * 1000, 10_000)))
    ran = drive.finish(process)
    process.feeder.join(drive.BOUND)
    more = process.fed - len(first)
    drive.ends(f"{program}: {name}", ran, 3, out, err)
    wrong = ["its feeder still writes"] if process.feeder.is_alive() else []
    if more > 4_000_000:
        wrong.append(f"{more} bytes were read behind what was refused")
    drive.check(f"{program}: {name}: stops reading", wrong)


def stopped():
    stops("513 keys", "bill", own_keys(513), b"17\n", drive.in_tables("bill") + MANY_KEYS)
    stops("1,000,001 lines", "bill", b"1\ten\n" * 1_000_001, b"18\n", drive.in_tables("bill") + MANY_LINES)
    bad = drive.folder("bad", {"aliases.tsv": b"x\n", "likely.tsv": b""})
    for program in ("bill", "keys", "refused"):
        header = b"" if program == "bill" else HEADERS[program]
        err = drive.in_tables(program, bad) + drive.refused_tables(program, "a row of wrong shape")
        stops("bad tables", program, b"1\ten\n", header + b"table\t12\t1\t0\n", err, ("--tables", bad))


def checks():
    for each in (odd_bytes, members, spreadsheets, stopped, many_lines, one_line):
        each()
