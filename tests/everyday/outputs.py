"""Output that fails: /dev/full, a full disk, a limit in the middle, closed and broken pipes."""

import errno
import itertools
import os
import resource
import signal
import subprocess

import drive
from drive import HEADERS, LINES, PROGRAMS, ROOT

MANY = 300_000
# The program's rows of many lines, and what it prints of them.
ROWS_OF_MANY = {
    "keys": (b"en-US\n" * MANY, HEADERS["keys"] + b"en-US\t0\ten\n" * MANY),
    "inspect": (b"en-US\n" * MANY, HEADERS["inspect"] + b"en-US\t0\t0\ten\t-\tUS\t0\t0\tdone\n" * MANY),
    "refused": (
        b"1\ten-u\n" * MANY,
        HEADERS["refused"] + b"".join(b"%d\t1\t7\t5\ten-u\ta singleton or t key with nothing behind it\n" % (k + 1) for k in range(MANY)),
    ),
}


def failure(program, error):
    """Standard error of a failed write."""
    first = drive.in_tables(program) if program == "tables_check" else drive.first_lines(program)
    return first + drive.said(program, "standard output", error)


def full(program):
    with open("/dev/full", "wb") as device:
        ran = drive.run(program, data=LINES[program], stdout=device)
    drive.ends(f"{program}: output to /dev/full", ran, 1, b"", failure(program, errno.ENOSPC))


def closed(program):
    ran = drive.run(program, data=LINES[program], stdout=None, closed=[1])
    drive.ends(f"{program}: output is closed", ran, 1, b"", failure(program, errno.EBADF))


def texts(program):
    """--help and --version to an output that fails, and to a pipe that nobody reads."""
    for option in ("--help", "--version"):
        ran = drive.run(program, option, stdout=None, closed=[1])
        drive.ends(f"{program} {option}, output is closed", ran, 1, b"", drive.said(program, "standard output", errno.EBADF))
        with open("/dev/full", "wb") as device:
            ran = drive.run(program, option, stdout=device)
        drive.ends(f"{program} {option} to /dev/full", ran, 1, b"", drive.said(program, "standard output", errno.ENOSPC))
        ours, theirs = os.pipe()
        os.close(ours)
        ran = drive.run(program, option, stdout=theirs)
        os.close(theirs)
        drive.ends(f"{program} {option} to a broken pipe", ran._replace(status=abs(ran.status) % 128), int(signal.SIGPIPE), b"", b"")


def both_closed(program):
    """Neither a table nor anything else gets the numbers of closed descriptors."""
    first = failure(program, errno.EBADF)
    other = drive.first_lines(program) + drive.said(program, "standard input", errno.EBADF)
    ran = drive.run_from(None, program, stdout=None, closed=[0, 1])
    drive.ends(f"{program}: input and output are closed", ran, 1, b"", (first, other))


def no_error(program):
    """Standard error that is closed or full changes nothing else."""
    ran = drive.run(program, data=LINES[program], stderr=None, closed=[2])
    drive.ends(f"{program}: standard error is closed", ran, 0, drive.printed(program))
    with open("/dev/full", "wb") as device:
        ran = drive.run(program, data=LINES[program], stderr=device)
    drive.ends(f"{program}: standard error is full", ran, 0, drive.printed(program))


def broken(program):
    """A pipe that nobody reads: the program ends by SIGPIPE without a word, or says so where that signal is ignored."""
    for ignored in (False, True):
        ours, theirs = os.pipe()
        os.close(ours)
        prepare = (lambda: signal.signal(signal.SIGPIPE, signal.SIG_IGN)) if ignored else None
        ran = drive.run(program, data=LINES[program], stdout=theirs, prepare=prepare)
        os.close(theirs)
        first = drive.in_tables(program) if program == "tables_check" else drive.first_lines(program)
        if ignored:
            drive.ends(f"{program}: a broken pipe, SIGPIPE ignored", ran, 1, b"", failure(program, errno.EPIPE))
        else:
            drive.ends(f"{program}: a broken pipe", ran, 128 + signal.SIGPIPE, b"", first)


def unread_refusal():
    """That tables are refused is not said either where nobody reads the line of it."""
    folder = drive.folder("unread", {"aliases.tsv": b"language\tiw\n", "likely.tsv": b""})
    ours, theirs = os.pipe()
    os.close(ours)
    ran = drive.run("bill", "--tables", folder, data=LINES["bill"], stdout=theirs)
    os.close(theirs)
    drive.ends("bill: bad tables, a broken pipe", ran, 128 + signal.SIGPIPE, b"", drive.in_tables("bill", folder))


def head():
    """As in `keys | head -n 1`: the reader goes, and the program soon after, without a word."""
    process = drive.start([ROOT / "keys"], stdin=subprocess.PIPE)
    drive.feed(process, itertools.repeat(b"en-US\n" * 10_000, 1000))
    line = process.stdout.readline()
    process.stdout.close()
    process.stdout = None
    ran = drive.finish(process)
    drive.ends("keys | head -n 1", ran._replace(out=line), 128 + signal.SIGPIPE, HEADERS["keys"], drive.in_tables("keys"))


def limit(program):
    """A file may get no more than 100,000 bytes: the write in the middle fails, and what stands before it is right."""
    lines, want = ROWS_OF_MANY[program]
    at = 100_000

    def prepare():
        signal.signal(signal.SIGXFSZ, signal.SIG_IGN)
        resource.setrlimit(resource.RLIMIT_FSIZE, (at, at))

    path = drive.work / "limited"
    with open(path, "wb") as file:
        ran = drive.run(program, data=lines, stdout=file, prepare=prepare)
    ran = ran._replace(out=path.read_bytes())
    drive.ends(f"{program}: a write that fails in the middle", ran, 1, want[:at], failure(program, errno.EFBIG))


def cut_bill():
    """The bill's only write fails in mid-row."""

    def prepare():
        signal.signal(signal.SIGXFSZ, signal.SIG_IGN)
        resource.setrlimit(resource.RLIMIT_FSIZE, (30, 30))

    path = drive.work / "limited"
    with open(path, "wb") as file:
        ran = drive.run("bill", data=LINES["bill"], stdout=file, prepare=prepare)
    ran = ran._replace(out=path.read_bytes())
    drive.ends("bill: a write that fails in mid-row", ran, 1, drive.printed("bill")[:30], failure("bill", errno.EFBIG))


def small_disk(*command):
    """Runs a command whose last word is to be a disk of 64 kB, mounted for it alone."""
    place = drive.folder("disk")
    script = 'mount -t tmpfs -o size=64k tmpfs "$0" && "$@"'
    return drive.finish(drive.start(["unshare", "-rm", "bash", "-c", script, place, *command, place]))


def disk(program):
    """A disk of 64 kB that is full in the middle."""
    tried = small_disk("ls")
    if tried.status != 0:
        drive.left_out(f"{program}: a full disk", f"none can be mounted: {tried.err.decode().strip()}")
        return
    lines, want = ROWS_OF_MANY[program]
    source = drive.work / "lines"
    source.write_bytes(lines)
    script = '"$0" <"$1" >"$2/rows"; ended=$?; cat "$2/rows"; exit $ended'
    ran = small_disk("bash", "-c", script, ROOT / program, source)
    drive.ends(f"{program}: a full disk", ran, 1, want[: 1 << 16], failure(program, errno.ENOSPC))


def unready(program):
    """A pipe that doesn't block and is full: said, as it is for input."""
    lines, want = ROWS_OF_MANY[program]
    ours, theirs = os.pipe()
    os.set_blocking(theirs, False)
    process = drive.start([ROOT / program], stdin=subprocess.PIPE, stdout=theirs)
    drive.feed(process, [lines])
    ran = drive.finish(process)
    os.close(theirs)
    with open(ours, "rb") as pipe:
        got = pipe.read()
    ran = ran._replace(out=got)
    drive.ends(f"{program}: a full pipe that doesn't block", ran, 1, want[: len(got)], failure(program, errno.EAGAIN))


def checks():
    for program in PROGRAMS:
        for each in (full, closed, texts, both_closed, no_error, broken):
            each(program)
    head()
    unread_refusal()
    cut_bill()
    for program in ROWS_OF_MANY:
        for each in (limit, disk, unready):
            each(program)
