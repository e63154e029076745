"""Tables that can't be opened or read, that are missing, misnamed or refused, and where they are looked for."""

import errno
import os
import shutil
import socket
import subprocess

import drive
from drive import HEADERS, LINES, PROGRAMS, ROOT, TABLES

NAMES = {
    "keys": ("aliases", "likely"),
    "inspect": ("aliases", "likely"),
    "bill": ("aliases", "likely"),
    "refused": ("aliases", "likely"),
    "tables_check": ("aliases", "likely", "parents"),
}
ALIASES = b"language\tiw\the\n"
LIKELY = b"en\ten-Latn-US\nhe\the-Hebr-IL\n"
PARENTS = b"en-AU\ten-001\n"
GOOD = {"aliases.tsv": ALIASES, "likely.tsv": LIKELY, "parents.tsv": PARENTS}

# What the programs print of their two lines without aliases, and without likely rows.
WITHOUT = {
    ("keys", "aliases"): b"iw_IL\t8\t-\nen-US-Latn\t15\t-\n",
    ("keys", "likely"): b"iw_IL\t8\t-\nen-US-Latn\t15\t-\n",
    ("bill", "aliases"): b"-\t0\t2\n",
    ("bill", "likely"): b"-\t0\t2\n",
}
EIGHT = b"no row of the likely table fits it"
for without in ("aliases", "likely"):
    WITHOUT["refused", without] = b"1\t1\t8\t2\tiw_IL\t" + EIGHT + b"\n" + drive.ROWS["refused"]
    WITHOUT["inspect", without] = b"iw_IL\t0\t0\tiw\t-\tIL\t0\t0\tas a key 8: " + EIGHT + drive.ROWS["inspect"][drive.ROWS["inspect"].index(b"\n") :]
for without in ("aliases", "likely", "parents"):
    WITHOUT["tables_check", without] = drive.ROWS["tables_check"]


def good_folder(name):
    """A folder with three small tables that pass."""
    return drive.folder(name, GOOD)


def can_be_used(program):
    folder = good_folder("good")
    for how, options, arguments in (("the current folder", {"cwd": folder}, ()), ("--tables", {}, ("--tables", folder))):
        ran = drive.run(program, *arguments, data=LINES[program], **options)
        drive.ends(f"{program}: tables of {how}", ran, 0, drive.printed(program), drive.in_tables(program, folder))


def counts_as_empty(program, table, name, error, make):
    """A table that can't be opened counts as zero bytes, and is named."""
    folder = good_folder("tables")
    path = folder / f"{table}.tsv"
    path.unlink()
    make(path)
    ran = drive.run(program, "--tables", folder, data=LINES[program])
    line = drive.said(program, f"{table}.tsv counts as zero bytes", error)
    want = HEADERS[program] + WITHOUT[program, table]
    drive.ends(f"{program}: {table}.tsv {name}", ran, 0, want, drive.in_tables(program, folder) + line)


def socket_at(path):
    """A socket in the place of a file: it can't be opened."""
    before = os.getcwd()
    os.chdir(path.parent)
    socket.socket(socket.AF_UNIX).bind(path.name)
    os.chdir(before)


def not_opened(program):
    for table in NAMES[program]:
        counts_as_empty(program, table, "is missing", errno.ENOENT, lambda path: None)
        counts_as_empty(program, table, "is misnamed", errno.ENOENT, lambda path: path.with_name(path.stem[:-2] + ".tsv").touch())
        counts_as_empty(program, table, "is a link to nothing", errno.ENOENT, lambda path: path.symlink_to("nothing"))
        counts_as_empty(program, table, "is a link to itself", errno.ELOOP, lambda path: path.symlink_to(path.name))
        counts_as_empty(program, table, "is a socket", errno.ENXIO, socket_at)


def no_rows(program):
    """What may stand on standard output where a table can't be read."""
    return b"" if program in ("bill", "tables_check") else (b"", HEADERS[program])


def not_read(program):
    """A table that opens and can't be read ends the program before any row."""
    for table in NAMES[program]:
        for name, error, make in (
            ("is a directory", errno.EISDIR, lambda path: path.mkdir()),
            ("fails at its first byte", errno.EIO, lambda path: path.symlink_to("/proc/self/mem")),
        ):
            folder = good_folder("tables")
            path = folder / f"{table}.tsv"
            path.unlink()
            make(path)
            ran = drive.run(program, "--tables", folder, data=LINES[program])
            line = drive.said(program, f"{table}.tsv", error)
            drive.ends(f"{program}: {table}.tsv {name}", ran, 1, no_rows(program), drive.in_tables(program, folder) + line)


def cut_off(program):
    """A table that fails after some bytes: in a row, between rows, and behind the last."""
    library = drive.faults()
    if library is None:
        return
    folder = good_folder("tables")
    for table in NAMES[program]:
        for after in {3, len(GOOD[f"{table}.tsv"].splitlines(keepends=True)[0]), len(GOOD[f"{table}.tsv"])}:
            env = {"LD_PRELOAD": str(library), "FAULT_NAME": f"{table}.tsv", "FAULT_AFTER": str(after)}
            process = drive.bare(program, env, subprocess.PIPE, cwd=folder)
            drive.feed(process, [LINES[program]])
            ran = drive.finish(process)
            drive.ends(f"{program}: {table}.tsv fails after {after} bytes", ran, 1, no_rows(program), drive.said(program, f"{table}.tsv", errno.EIO))


def forbidden(program):
    """A table that may not be read; root may read all, so the program is another user then."""
    folder = good_folder("forbidden")
    for path in (drive.work, folder):
        path.chmod(0o755)
    binary = folder / "program"
    shutil.copy(ROOT / "target" / "bin" / program, binary)
    prepare = (lambda: os.setuid(65534)) if os.getuid() == 0 else None
    for table in NAMES[program]:
        path = folder / f"{table}.tsv"
        path.chmod(0)
        process = drive.bare(program, {}, subprocess.PIPE, prepare, folder, binary)
        drive.feed(process, [LINES[program]])
        ran = drive.finish(process)
        path.chmod(0o644)
        want = HEADERS[program] + WITHOUT[program, table]
        line = drive.said(program, f"{table}.tsv counts as zero bytes", errno.EACCES)
        drive.ends(f"{program}: {table}.tsv may not be read", ran, 0, want, line)


def refused(program):
    """Bad tables are refused with 3, and what is printed is the table's line."""
    rows = {
        "aliases": (b"language\tiw\n", b"table\t12\t1\t0", b"\t1\tlanguage\\x09iw\t", "a row of wrong shape", b": a tab too few"),
        "likely": (b"en\ten-Latn-US\nde\tde-Latn-DE\n", b"table\t13\t2\t14", b"\t2\tde\\x09de-Latn-DE\t", "a row not above the one before", b": not in byte order"),
        "parents": (b"a" * 32769, b"table\t11\t3\t0", b"\t0\t-\t", "a table over 32,768 bytes", b""),
    }
    for table in NAMES[program]:
        data, verdict, row, meaning, more = rows[table]
        folder = good_folder("refused")
        (folder / f"{table}.tsv").write_bytes(data)
        for name, lines in (("", LINES[program]), (", no input", b"")):
            ran = drive.run(program, "--tables", folder, data=lines)
            header = b"" if program in ("bill", "tables_check") else HEADERS[program]
            line = verdict + (row + meaning.encode() + more if program == "tables_check" else b"") + b"\n"
            err = drive.in_tables(program, folder) + drive.refused_tables(program, meaning)
            drive.ends(f"{program}: bad {table}.tsv{name}", ran, 3, header + line, err)


def places():
    """Where tables are looked for: DIR, the current folder if it has one, the project's."""
    for table in ("aliases", "likely", "parents"):
        folder = drive.folder("alone", {f"{table}.tsv": GOOD[f"{table}.tsv"]})
        ran = drive.run("tables_check", cwd=folder)
        others = b"".join(
            drive.said("tables_check", f"{other}.tsv counts as zero bytes", errno.ENOENT) for other in ("aliases", "likely", "parents") if other != table
        )
        drive.ends(f"a folder with {table}.tsv alone", ran, 0, drive.printed("tables_check"), drive.in_tables("tables_check", folder) + others)
    folder = good_folder("three")
    ran = drive.run("tables_check", folder)
    drive.ends("tables_check FOLDER", ran, 0, drive.printed("tables_check"), drive.in_tables("tables_check", folder))
    ran = drive.run("tables_check", cwd=folder)
    drive.ends("tables_check in a folder", ran, 0, drive.printed("tables_check"), drive.in_tables("tables_check", folder))
    ran = drive.run("tables_check")
    drive.ends("tables_check without tables", ran, 0, drive.printed("tables_check"), drive.in_tables("tables_check"))
    ran = drive.run("keys", "--tables", TABLES, data=b"fr\n", cwd=folder)
    drive.ends("--tables before the current folder", ran, 0, HEADERS["keys"] + b"fr\t0\tfr\n", drive.in_tables("keys"))
    parents = drive.folder("parents", {"parents.tsv": PARENTS})
    ran = drive.run("inspect", data=LINES["inspect"], cwd=parents)
    drive.ends("inspect beside parents.tsv alone uses no tables", ran, 0, drive.printed("inspect"), b"")


def alone():
    """What inspect does beside one table that can't be opened: one that is there is named, a link that leads nowhere is none."""
    for table, other in (("aliases", "likely"), ("likely", "aliases")):
        folder = drive.folder("socket", {})
        socket_at(folder / f"{table}.tsv")
        errors = {table: errno.ENXIO, other: errno.ENOENT}
        lines = b"".join(drive.said("inspect", f"{each}.tsv counts as zero bytes", errors[each]) for each in ("aliases", "likely"))
        for options, arguments in (({"cwd": folder}, ()), ({}, ("--tables", folder))):
            ran = drive.run("inspect", *arguments, data=LINES["inspect"], **options)
            want = HEADERS["inspect"] + WITHOUT["inspect", table]
            drive.ends(f"inspect: {table}.tsv alone, a socket", ran, 0, want, drive.in_tables("inspect", folder) + lines)
        for where in ("nothing", f"{table}.tsv"):
            folder = drive.folder("link", {})
            (folder / f"{table}.tsv").symlink_to(where)
            ran = drive.run("inspect", data=LINES["inspect"], cwd=folder)
            drive.ends(f"inspect: {table}.tsv alone, a link to {where}", ran, 0, drive.printed("inspect"), f"inspect: no tables in {folder}\n".encode())


def checks():
    for program in PROGRAMS:
        for each in (can_be_used, not_opened, not_read, cut_off, forbidden, refused):
            each(program)
    places()
    alone()
