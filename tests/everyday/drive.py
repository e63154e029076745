"""What the groups share: programs started with their descriptors as a check wants them, and checks that count."""

import contextlib
import fcntl
import os
import re
import selectors
import shutil
import signal
import struct
import subprocess
import sys
import tempfile
import termios
import threading
import time
from pathlib import Path
from typing import NamedTuple

ROOT = Path(__file__).resolve().parents[2]
TABLES = ROOT / "tables"
READERS = ("keys", "inspect", "bill", "refused")
PROGRAMS = READERS + ("tables_check",)

HEADERS = {
    "keys": b"asked\tnumber\tkept\n",
    "inspect": b"asked\tnumber\tplace\tlanguage\tscript\tregion\tvariants\textensions\tmeaning\n",
    "bill": b"key\tmembers\tdeliveries\n",
    "refused": b"line\tmember\tnumber\tplace\tidentifier\tmeaning\n",
    "tables_check": b"",
}
MISPLACED = b"a subtag that can't stand there, before any extension"

# Two lines for each program, and what it prints of them over the project's tables.
USAGE = b"1\tiw_IL\n2\ten-US-Latn\n"
LINES = {"keys": b"iw_IL\nen-US-Latn\n", "inspect": b"iw_IL\nen-US-Latn\n", "bill": USAGE, "refused": USAGE, "tables_check": b""}
ROWS = {
    "keys": b"iw_IL\t0\the\nen-US-Latn\t15\t-\n",
    "inspect": b"iw_IL\t0\t0\tiw\t-\tIL\t0\t0\tdone\nen-US-Latn\t15\t6\t-\t-\t-\t0\t0\t" + MISPLACED + b"\n",
    "bill": b"he\t1\t1\n-\t0\t1\n",
    "refused": b"2\t2\t15\t8\ten-US-Latn\t" + MISPLACED + b"\n",
    "tables_check": b"table\t0\t0\t0\t0\t-\tdone\n",
}

# Seconds that a run may take.
BOUND = 120

passed = 0
failed = 0
work = None


class Ran(NamedTuple):
    """How a program ended: exit status (-N: by signal N), standard output and standard error."""

    status: int
    out: bytes
    err: bytes


def printed(program):
    """All that a program prints of its two lines."""
    return HEADERS[program] + ROWS[program]


def line(program, text):
    """A line of the wrapper on standard error: control bytes, as names may have, are shown as \\xNN."""
    safe = re.sub(rb"[\x00-\x1f\x7f]", lambda byte: b"\\x%02X" % byte[0][0], text.encode())
    return f"{program}: ".encode() + safe + b"\n"


def in_tables(program, folder=TABLES):
    """The line that says which tables are used."""
    return line(program, f"tables in {folder}")


def said(program, what, error):
    """The line of a failure, in the system's words."""
    return f"{program}: {what}: {os.strerror(error)}\n".encode()


def refused_tables(program, meaning):
    """The line of refused tables, in words; tables_check prints them."""
    return b"" if program == "tables_check" else f"{program}: the tables are refused: {meaning}; tables_check shows where\n".encode()


def first_lines(program):
    """What stands on standard error of a run in a folder without tables: inspect uses none of the project's."""
    return b"" if program == "inspect" else in_tables(program)


def shown(value):
    """A value of a failed check, cut where it is long."""
    return repr(value) if not isinstance(value, bytes) or len(value) < 600 else f"{value[:300]!r} .. {value[-200:]!r} ({len(value)} bytes)"


def check(name, wrong):
    """Counts one check; `wrong` has what was wrong with it, a text each."""
    global passed, failed
    if not wrong:
        passed += 1
        return
    failed += 1
    print(f"FAILED\t{name}")
    for each in wrong:
        print(f"\t{each}")
    sys.stdout.flush()


def left_out(name, why):
    """Says of a check that it can't be made here."""
    print(f"left out\t{name}: {why}")


def ends(name, ran, status=0, out=None, err=None):
    """Checks how a program ended; `out` and `err` are bytes, several of which one must be, or a function to a fault."""
    wrong = []
    if ran.status != status:
        wrong.append(f"exit status {ran.status}, not {status}")
    for what, got, want in (("output", ran.out, out), ("error", ran.err, err)):
        if callable(want):
            wrong += [f"standard {what}: {fault}: {shown(got)}" for fault in [want(got)] if fault]
        elif want is not None and got not in (want if isinstance(want, tuple) else (want,)):
            wrong.append(f"standard {what} is {shown(got)}, not {shown(want)}")
    check(name, wrong)


def usage(program):
    """The line behind a refusal of wrong usage."""
    what = "[DIR | --tables DIR]" if program == "tables_check" else "[--tables DIR] [FILE ..]"
    return f"usage: {program} {what} | --help | --version\n".encode()


def has(*texts):
    """A test of output: each of the texts stands in it."""
    return lambda got: "".join(f"no {text!r} " for text in texts if text not in got)


def named(program):
    """A test of standard error: each line has the program's name in front."""
    return lambda got: "".join(f"a line {line!r} " for line in got.splitlines() if not line.startswith(f"{program}: ".encode()))


def count():
    """Prints the count; the exit status."""
    print(f"{passed} passed, {failed} failed")
    return 1 if failed else 0


@contextlib.contextmanager
def work_folder():
    """A folder for the run, whose `tmp` is the programs' place for temporary files."""
    global work
    with tempfile.TemporaryDirectory(prefix="everyday.") as path:
        work = Path(path).resolve()
        (work / "tmp").mkdir()
        (work / "empty").mkdir()
        yield


def ready():
    """Has each program built, so that nothing is said of that later; one that can't be is a failed check."""
    for program in PROGRAMS:
        ran = run(program, bound=3600)
        if b"not proved" in ran.err or ran.status == 2:
            check(f"{program} is built", [ran.err.decode()])


def nothing_left():
    """Checks that no program left a temporary file."""
    check("nothing is left behind", [str(path) for path in (work / "tmp").iterdir()])


def folder(name, files=()):
    """A new folder of the work folder with these files: name to bytes."""
    path = work / name
    shutil.rmtree(path, ignore_errors=True)
    path.mkdir(parents=True)
    for file, data in dict(files).items():
        (path / file).write_bytes(data)
    return path


def start(command, closed=(), prepare=None, cwd=None, env=None, **streams):
    """Starts a command in a session of its own, with some descriptors closed; signals act as by default."""

    def child():
        for number in (signal.SIGPIPE, signal.SIGINT, signal.SIGQUIT):
            signal.signal(number, signal.SIG_DFL)
        if prepare:
            prepare()
        for fd in closed:
            os.close(fd)

    streams = {"stdin": subprocess.DEVNULL, "stdout": subprocess.PIPE, "stderr": subprocess.PIPE} | streams
    env = os.environ | {"TMPDIR": str(work / "tmp")} | (env or {})
    return subprocess.Popen(
        [str(word) for word in command], cwd=cwd or work / "empty", env=env, preexec_fn=child, start_new_session=True, **streams
    )


def finish(process, data=None, bound=BOUND):
    """Waits for the end of a command; one that doesn't end is killed with its session."""
    try:
        out, err = process.communicate(data, timeout=bound)
        return Ran(process.returncode, out or b"", err or b"")
    except subprocess.TimeoutExpired:
        os.killpg(process.pid, signal.SIGKILL)
        out, err = process.communicate()
        return Ran(-signal.SIGKILL, out or b"", (err or b"") + f"no end within {bound} s\n".encode())


def run(program, *arguments, data=b"", bound=BOUND, **options):
    """Runs a program by its wrapper with these bytes as standard input, from a folder without tables."""
    process = start([ROOT / program, *arguments], stdin=subprocess.PIPE, **options)
    return finish(process, data, bound)


def run_from(stdin, program, *arguments, **options):
    """Runs a program with an open file as standard input."""
    return finish(start([ROOT / program, *arguments], stdin=stdin, **options))


def bare(program, env, stdin, prepare=None, cwd=TABLES, binary=None):
    """Starts a compiled program as the wrapper does."""
    command = [binary or ROOT / "target" / "bin" / program, "status"]
    return start(command, prepare=prepare, cwd=cwd, env=env, stdin=stdin)


def feed(process, parts, pause=0.0):
    """Writes parts to a program's standard input, with pauses, beside what else is done; `fed` gets what could be written."""
    stdin, process.stdin, process.fed = process.stdin, None, 0

    def write():
        with contextlib.suppress(BrokenPipeError), stdin:
            for part in parts:
                stdin.write(part)
                stdin.flush()
                process.fed += len(part)
                time.sleep(pause)

    process.feeder = threading.Thread(target=write, daemon=True)
    process.feeder.start()


def session(process, command=""):
    """The ids of the processes of a started command's session that run a command of this name's end."""
    found = []
    for path in Path("/proc").glob("[0-9]*"):
        with contextlib.suppress(OSError):
            state, _, _, of = (path / "stat").read_text().rsplit(")", 1)[1].split()[:4]
            first = (path / "cmdline").read_bytes().split(b"\0")[0].decode()
            if int(of) == process.pid and state != "Z" and first.endswith(command):
                found.append(int(path.name))
    return found


def mounted(mount, place, *command, **options):
    """Runs a command in a place over which something is mounted for it alone; nothing where that can't be done."""
    script = mount + ' || exit 99; shift; exec "$@"'
    ran = finish(start(["unshare", "-rm", "bash", "-c", script, "bash", place, *command], **options))
    return None if ran.status == 99 or ran.err.startswith(b"unshare: ") else ran


def shown_by(terminal, done, seconds):
    """What a terminal shows until it is done, ends, or shows nothing for some seconds."""
    seen = b""
    with contextlib.suppress(OSError), selectors.DefaultSelector() as selector:
        selector.register(terminal, selectors.EVENT_READ)
        while not done(seen) and selector.select(seconds):
            seen += os.read(terminal, 4096)
    return seen


def unread(fd):
    """How many bytes wait in a pipe or connection."""
    return struct.unpack("i", fcntl.ioctl(fd, termios.FIONREAD, b"\0\0\0\0"))[0]


def until(done, seconds=BOUND):
    """Waits until something is so; whether it came to be."""
    end = time.monotonic() + seconds
    while not done():
        if time.monotonic() > end:
            return False
        time.sleep(0.01)
    return True


def faults():
    """The library faults.c, built; nothing where it can't be."""
    library = work / "faults.so"
    if not library.exists():
        command = ["cc", "-shared", "-fPIC", "-Wall", "-Wextra", "-Werror", "-O1", "-o", library, Path(__file__).with_name("faults.c"), "-ldl"]
        built = subprocess.run(command, capture_output=True, text=True)
        if built.returncode != 0:
            check("faults.c is built", [built.stderr])
            return None
    return library
