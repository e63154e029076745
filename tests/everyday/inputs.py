"""Input that fails: a directory, a closed descriptor, a connection that is reset, a pipe without data, interrupted calls."""

import errno
import os
import socket
import struct
import subprocess
import time

import drive
from drive import HEADERS, LINES, READERS, ROWS, ROOT


def rows_before(program):
    """What may stand on standard output where input fails behind the two lines: a bill is not printed."""
    return b"" if program == "bill" else drive.printed(program)


def without_rows(program):
    """The same where input fails at its first byte."""
    return b"" if program == "bill" else HEADERS[program]


def failure(program, error):
    """Standard error of a failed read."""
    return drive.first_lines(program) + drive.said(program, "standard input", error)


def whole(program):
    """Input that can be read: nothing is said, and the output is as ever."""
    ran = drive.run(program, data=LINES[program])
    drive.ends(f"{program}: input that can be read", ran, 0, drive.printed(program), drive.first_lines(program))
    ran = drive.run(program, data=b"")
    none = HEADERS[program] + (b"-\t0\t0\n" if program == "bill" else b"")
    drive.ends(f"{program}: empty input", ran, 0, none, drive.first_lines(program))


def directory(program):
    fd = os.open(drive.work, os.O_RDONLY)
    ran = drive.run_from(fd, program)
    os.close(fd)
    drive.ends(f"{program}: input is a directory", ran, 1, without_rows(program), failure(program, errno.EISDIR))
    ran = drive.run(program, drive.work)
    drive.ends(f"{program}: a directory as FILE", ran, 2, b"", drive.said(program, drive.work, errno.EISDIR) + drive.usage(program))


def closed(program):
    ran = drive.run_from(None, program, closed=[0])
    drive.ends(f"{program}: input is closed", ran, 1, without_rows(program), failure(program, errno.EBADF))
    place = drive.folder("closed", {"lines": LINES[program]})
    (place / "link").symlink_to("/dev/stdin")
    for names in (["/dev/stdin"], ["/dev/fd/0"], ["link"], ["/dev/stdin", "lines"], ["lines", "/dev/stdin"]):
        ran = drive.run_from(None, program, *names, cwd=place, closed=[0])
        name = next(name for name in names if name != "lines")
        drive.ends(f"{program} {' '.join(names)}, input is closed", ran, 1, b"", drive.said(program, name, errno.EBADF))


def write_only(program):
    """A descriptor that can't be read: EBADF too, though it is open."""
    with open(drive.work / "write_only", "wb") as file:
        ran = drive.run_from(file, program)
    drive.ends(f"{program}: input is open for writing alone", ran, 1, without_rows(program), failure(program, errno.EBADF))


def reset(program):
    """A connection that is reset once the two lines were read."""
    with socket.socket() as server:
        server.bind(("127.0.0.1", 0))
        server.listen(1)
        ours = socket.create_connection(server.getsockname())
        theirs, _ = server.accept()
    process = drive.start([ROOT / program], stdin=ours)
    theirs.sendall(LINES[program])
    read = drive.until(lambda: drive.unread(ours.fileno()) == 0)
    time.sleep(0.05)
    theirs.setsockopt(socket.SOL_SOCKET, socket.SO_LINGER, struct.pack("ii", 1, 0))
    theirs.close()
    ran = drive.finish(process)
    ours.close()
    if not read:
        drive.check(f"{program}: a connection that is reset", ["the lines were not read"])
        return
    drive.ends(f"{program}: a connection that is reset", ran, 1, rows_before(program), failure(program, errno.ECONNRESET))


def pause(program):
    """A pipe that doesn't block, with a pause between two halves: the pause is a failure that is said."""
    ours, theirs = os.pipe()
    os.set_blocking(ours, False)
    os.write(theirs, LINES[program])
    process = drive.start([ROOT / program], stdin=ours)
    ran = drive.finish(process)
    os.close(ours)
    os.close(theirs)
    drive.ends(f"{program}: a pipe that doesn't block, with a pause", ran, 1, rows_before(program), failure(program, errno.EAGAIN))


def slow(program):
    """A pipe that blocks, with pauses anywhere: as one block."""
    process = drive.start([ROOT / program], stdin=subprocess.PIPE)
    drive.feed(process, (LINES[program][k : k + 5] for k in range(0, len(LINES[program]), 5)), 0.02)
    ran = drive.finish(process)
    drive.ends(f"{program}: pauses in a pipe", ran, 0, drive.printed(program), drive.first_lines(program))


def interrupted(program):
    """Calls that end with EINTR are tried again: a signal every 2 ms, input with pauses, output that is read late."""
    library = drive.faults()
    if library is None:
        return
    noted = drive.work / f"interrupted.{program}"
    env = {"LD_PRELOAD": str(library), "FAULT_ALARM": "1", "FAULT_INTERRUPTED": str(noted)}
    process = drive.bare(program, env, subprocess.PIPE)
    many = 10000
    line = LINES[program].splitlines(keepends=True)[1]
    drive.feed(process, (LINES[program][:7], LINES[program][7:], line * many), 0.05)
    time.sleep(0.4)
    ran = drive.finish(process)
    if program == "bill":
        want = HEADERS["bill"] + b"he\t1\t1\n-\t0\t%d\n" % (many + 1)
    elif program == "refused":
        row = ROWS["refused"][1:]
        want = HEADERS["refused"] + b"".join(b"%d" % (k + 2) + row for k in range(many + 1))
    else:
        want = drive.printed(program) + ROWS[program].splitlines(keepends=True)[1] * many
    drive.ends(f"{program}: interrupted calls", ran, 0, want, b"")
    seen = noted.stat().st_size if noted.exists() else 0
    drive.check(f"{program}: calls were interrupted", [] if seen > 10 else [f"{seen} calls ended with EINTR, so that nothing was tried"])


def checks():
    for program in READERS:
        for each in (whole, directory, closed, write_only, reset, pause, slow, interrupted):
            each(program)
