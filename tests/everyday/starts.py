"""How programs are started: links, folders, arguments, names, files, descriptors, signals."""

import contextlib
import errno
import os
import pty
import re
import resource
import selectors
import signal
import subprocess
import time

import builds
import drive
from drive import HEADERS, LINES, PROGRAMS, READERS, ROOT


def works(name, ran, program="keys"):
    """The program did its work over the project's tables."""
    drive.ends(name, ran, 0, drive.printed(program), drive.in_tables(program))


def call(command, **options):
    """Runs a command with the two lines of keys."""
    return drive.finish(drive.start(command, stdin=subprocess.PIPE, **options), LINES["keys"])


def links():
    place = drive.folder("links and\nodd \\names\n")
    (place / "keys").symlink_to(ROOT / "keys")
    works("a link to a program", call([place / "keys"]))
    (place / "other").symlink_to("keys")
    works("a link to a link, of another name", call([place / "other"]))
    far = drive.folder("far/bin")
    (far / "again").symlink_to(os.path.relpath(place / "other", far))
    works("a link to a link to a link, by a relative path", call([far / "again"]))
    (drive.work / "project").symlink_to(ROOT)
    works("a link to the project's folder", call([drive.work / "project" / "keys"]))
    (far / "across").symlink_to("../../project/keys")
    works("a link through a link to a folder", call([far / "across"]))
    works("a link in PATH", call(["again"], env={"PATH": f"{far}:{os.environ['PATH']}"}))
    works("a relative path", call(["./again"], cwd=far))
    works("a relative path from below", call(["../bin/again"], cwd=far))
    works("bash NAME in its folder", call(["bash", "keys"], cwd=place))
    copy = drive.folder("copy")
    (copy / "keys").write_bytes((ROOT / "programs.sh").read_bytes())
    for name in ("keys", "./keys", copy / "keys"):
        ran = call(["bash", name], cwd=copy)
        said = drive.line("keys", f"{copy} is not the project's folder: link to the program, do not copy it")
        drive.ends(f"a copy, bash {name}", ran, 1, b"", said)
    ran = call([ROOT / "programs.sh"])
    drive.ends("no program's name", ran, 2, b"", drive.has(b"keys inspect tables_check bill refused"))


def folders():
    odd = drive.folder("odd folder\nof two lines")
    works("from a folder with an odd name", call([ROOT / "keys"], cwd=odd))
    for value in (str(ROOT), str(drive.work), "/", "."):
        works(f"CDPATH={value}", call([ROOT / "keys"], env={"CDPATH": value}))
    trap = drive.folder("trap")
    drive.folder("trap/tables")
    drive.folder("mine/tables", {"likely.tsv": b"en\ten-Latn-US\n", "aliases.tsv": b""})
    ran = drive.run("keys", "--tables", "tables", data=b"en\n", cwd=drive.work / "mine", env={"CDPATH": str(trap)})
    drive.ends("CDPATH and --tables", ran, 0, HEADERS["keys"] + b"en\t0\ten\n", drive.in_tables("keys", drive.work / "mine/tables"))
    dash = drive.folder("dash/-")
    (dash / "likely.tsv").write_bytes(b"en\ten-Latn-US\n")
    (dash / "aliases.tsv").write_bytes(b"")
    ran = drive.run("keys", "--tables", "-", data=b"en\n", cwd=dash.parent)
    drive.ends("--tables with a folder named -", ran, 0, HEADERS["keys"] + b"en\t0\ten\n", drive.in_tables("keys", dash))


def arguments():
    for program in PROGRAMS:
        ran = drive.run(program, "--help")
        drive.ends(f"{program} --help", ran, 0, drive.has(b"usage: " + program.encode(), b"Exit status: 0"), b"")
        drive.run(program)
        ran = drive.run(program, "--version")
        kit = re.compile(program + r" \d+\.\d+\.\d+, proved with .*kit.*\n")
        drive.ends(f"{program} --version", ran, 0, lambda got: "" if kit.fullmatch(got.decode()) else "not its version and kit", b"")
        for wrong in (["-"], ["-x"], ["--tables"], ["--tables", "nowhere"], ["--Help"], ["--tables=."], ["--", "-nothing"], ["nothing"], [""], ["--tables", ""]):
            ran = drive.run(program, *wrong)
            usage = f"usage: {program} ".encode()
            drive.ends(f"{program} {' '.join(wrong)!r}", ran, 2, b"", drive.has(usage))
        for wrong in (["--version", "--bad"], ["x", "--help"], ["--help", "--help"], ["--tables", ".", "--version"]):
            ran = drive.run(program, *wrong)
            alone = wrong[0] if wrong[0] in ("--help", "--version") else wrong[-1]
            drive.ends(f"{program} {' '.join(wrong)}", ran, 2, b"", drive.line(program, f"{alone} stands alone") + drive.usage(program))
        ran = drive.run(program, "--tables")
        drive.ends(f"{program} --tables alone", ran, 2, b"", drive.line(program, "--tables needs a folder") + drive.usage(program))
    ran = drive.run("tables_check", ".", ".")
    drive.ends("tables_check with two folders", ran, 2, b"", drive.has(b"usage: "))


def names():
    """What can't be had is named, with the system's words: 2 where it is not there or of another kind, else 1."""
    long = "a" * 300
    place = drive.folder("names", {"file": b"1\ten\n"})
    (place / "folder").mkdir()
    (place / "loop").symlink_to("loop")
    odd = "no\nsuch\x1b[31m\x7f"
    as_file = {"nothing": errno.ENOENT, "file/": errno.ENOTDIR, "folder": errno.EISDIR, "loop": errno.ELOOP, long: errno.ENAMETOOLONG, odd: errno.ENOENT}
    as_tables = {"nothing": errno.ENOENT, "file": errno.ENOTDIR, "loop": errno.ELOOP, long: errno.ENAMETOOLONG, odd: errno.ENOENT}
    for arguments, kinds in (([], as_file), (["file"], as_file), (["--tables"], as_tables)):
        for name, error in kinds.items():
            refused = error in (errno.ENOENT, errno.ENOTDIR, errno.EISDIR)
            said = drive.line("bill", f"{name}: {os.strerror(error)}")
            ran = drive.run("bill", *arguments, name, cwd=place)
            drive.ends(f"bill {' '.join(arguments)} {name!r}", ran, 2 if refused else 1, b"", said + (drive.usage("bill") if refused else b""))


def shut():
    """A file, or one in a folder, that may not be entered; root may enter all, so the program is another user then."""
    place = drive.folder("not mine", {"file": b"1\ten\n"})
    drive.folder("not mine/folder", {"file": b"1\ten\n"})
    place.chmod(0o755)
    (place / "file").chmod(0)
    (place / "folder").chmod(0o700 if os.getuid() == 0 else 0)
    prepare = (lambda: os.setuid(65534)) if os.getuid() == 0 else None
    if drive.run("bill", "--help", cwd=place, prepare=prepare).status != 0:
        drive.left_out("a folder that may not be entered", "another user can't run the programs")
        return
    for arguments in (["file"], ["folder/file"], ["/dev/null", "folder/file"], ["--tables", "folder"]):
        ran = drive.run("bill", *arguments, cwd=place, prepare=prepare)
        drive.ends(f"bill {' '.join(arguments)} that may not be had", ran, 1, b"", drive.said("bill", arguments[-1], errno.EACCES))
    (place / "folder").chmod(0o700)


def files():
    place = drive.folder("files of lines", {"one": b"en\n", "two": b"iw_IL", "none": b"", "-x": b"fr\n", "nul": b"e\0"})
    rows = {"one": b"en\t0\ten\n", "two": b"iw_IL\t0\the\n", "none": b"", "-x": b"fr\t0\tfr\n", "nul": b"-\t3\t-\n"}
    tables = drive.in_tables("keys")
    for names in (["one"], ["two"], ["none"], ["--", "-x"], ["one", "two"], ["two", "one"], ["two", "none", "two", "nul", "one"], ["none", "none"], ["one", "--", "-x"]):
        want = HEADERS["keys"] + b"".join(rows[name] for name in names if name != "--")
        drive.ends(f"keys {' '.join(names)}", drive.run("keys", *names, data=b"not read\n", cwd=place), 0, want, tables)
    names = ["one", "two"]
    want = HEADERS["keys"] + b"en\t0\ten\niw_IL\t0\the\n"
    project = ["--tables", ROOT / "tables"]
    drive.ends("files before --tables", drive.run("keys", *names, *project, cwd=place), 0, want, tables)
    ran = drive.run("bill", "usage", "usage", cwd=drive.folder("usage", {"usage": b"1\ten"}))
    drive.ends("bill of two files", ran, 0, HEADERS["bill"] + b"en\t1\t2\n-\t0\t0\n", drive.in_tables("bill"))
    of_sheets(drive.folder("sheets", {"plain": b"1\ten\n", "marked": b"\xef\xbb\xbf1\ten", "returns": b"1\ten\r\n"}))
    for program in READERS:
        ran = drive.run(program, "one", "missing", cwd=place)
        drive.ends(f"{program} with a missing file", ran, 2, b"", drive.has(b"missing", b"usage: "))
        ran = drive.run(program, "one", ".", cwd=place)
        drive.ends(f"{program} with a directory among files", ran, 2, b"", drive.said(program, ".", errno.EISDIR) + drive.usage(program))
    for chosen in (["one"], names):
        ran = drive.run_from(None, "keys", *chosen, cwd=place, closed=[0])
        want = HEADERS["keys"] + b"".join(rows[name] for name in chosen)
        drive.ends(f"keys {' '.join(chosen)}, input is closed", ran, 0, want, tables)
    process = drive.start(["bash", "-c", '"$1" <(printf iw_IL) <(printf "en-US-Latn")', "bash", ROOT / "keys"])
    works("files that are pipes", drive.finish(process))
    ran = drive.run("keys", *names, cwd=place, env={"TMPDIR": str(drive.work / "nowhere")})
    drive.ends("no room for several files", ran, 1, b"", lambda got: "" if re.fullmatch(rb"keys: .*nowhere.*No such file or directory\n", got) else "not so")


def gathered():
    """Several files of which some are standard input or another descriptor of the caller."""
    months = {"m1": b"1\ten\n2\tde\n", "m2": b"3\tfr\n"}
    place = drive.folder("months", months)
    rows = {"m1": b"de\t1\t1\nen\t1\t1\n", "all": b"de\t1\t1\nen\t1\t1\nja\t1\t1\nzh-TW\t1\t1\n", "fr": b"de\t1\t1\nen\t1\t1\nfr\t1\t1\n"}
    for names in (["/dev/stdin", "m1"], ["m1", "/dev/stdin"], ["/dev/stdin", "m1", "/dev/stdin"], ["/dev/fd/0", "m1"], ["m1", "/dev/fd/0"]):
        ran = drive.run("bill", *names, data=b"5\tzh_TW\n5\tja", cwd=place)
        drive.ends(f"bill {' '.join(names)}", ran, 0, HEADERS["bill"] + rows["all"] + b"-\t0\t0\n", drive.in_tables("bill"))
    for fd in (3, 4, 5, 9, 10, 11, 63):
        ran = drive.finish(drive.start(["bash", "-c", f'"$1" /dev/fd/{fd} m1 {fd}<m2', "bash", ROOT / "bill"], cwd=place))
        drive.ends(f"bill /dev/fd/{fd} m1", ran, 0, HEADERS["bill"] + rows["fr"] + b"-\t0\t0\n", drive.in_tables("bill"))
    for name, value in (("POSIXLY_CORRECT", "1"), ("SHELLOPTS", "noclobber"), ("SHELLOPTS", "errexit")):
        ran = drive.run("bill", "m1", "m2", cwd=place, env={name: value})
        drive.ends(f"bill m1 m2 with {name}={value}", ran, 0, HEADERS["bill"] + rows["fr"] + b"-\t0\t0\n", drive.in_tables("bill"))
    many = drive.folder("many", {str(k): (b"", b"en", b"en\n", b"e\0")[k % 4] for k in range(2000)})
    began = time.monotonic()
    ran = drive.run("keys", *(str(k) for k in range(2000)), cwd=many)
    took = time.monotonic() - began
    drive.ends("2,000 files", ran, 0, HEADERS["keys"] + (b"en\t0\ten\n" * 2 + b"-\t3\t-\n") * 500, drive.in_tables("keys"))
    drive.check("2,000 files: in time", [] if took < 4 else [f"{took:.1f} s"])


def no_writer():
    """A signal while files are gathered, one of which is a pipe that nobody writes to: nothing runs on."""
    place = drive.folder("no writer", {"one": b"en\n"})
    os.mkfifo(place / "pipe")
    keep = os.open(place / "pipe", os.O_RDWR)
    process = drive.start([ROOT / "keys", "one", "pipe"], cwd=place)
    drive.until(lambda: drive.session(process, "sed") or drive.session(process, "cat"))
    process.send_signal(signal.SIGTERM)
    ran = drive.finish(process)
    drive.ends("SIGTERM while files are gathered", ran, -signal.SIGTERM, b"", b"")
    drive.check("SIGTERM while files are gathered: nothing runs on", drive.session(process))
    os.close(keep)


def few_descriptors():
    """A limit of open files, or no /dev/fd: the program does its work, or it is said before it starts that it can't."""
    for limit in (63, 20):
        ran = drive.run("keys", data=LINES["keys"], prepare=lambda: resource.setrlimit(resource.RLIMIT_NOFILE, (limit, limit)))
        works(f"{limit} open files", ran)
    ran = drive.run("keys", data=LINES["keys"], prepare=lambda: resource.setrlimit(resource.RLIMIT_NOFILE, (11, 11)))
    drive.ends("11 open files", ran, 1, b"", drive.has(b"keys: a pipe: "))
    ran = drive.mounted('mount -t tmpfs tmpfs "$1"', "/proc", ROOT / "keys")
    if ran is None:
        drive.left_out("no /proc", "nothing can be mounted")
        return
    drive.ends("no /proc", ran, 1, b"", drive.said("keys", "a pipe", errno.ENOENT))


def of_sheets(place):
    """Of several files the first alone is looked at for how it is written, and lines are counted through all of them."""
    fault = b"a byte that is no letter, digit, - or _"
    for names, hint, line in (
        (("plain", "returns"), b"", 2),
        (("plain", "plain", "returns"), b"", 3),
        (("plain", "marked"), b"", 2),
        (("returns", "plain"), b"the lines end in CR LF", 1),
        (("marked", "plain"), b"the input begins with a byte order mark", 1),
    ):
        row = b"1\t3\t4\ten\\x0D\t" + fault if "returns" in names else b"\\xEF\\xBB\\xBF1\t-\t0\ten\tthe member is no number"
        bill = HEADERS["bill"] + b"en\t1\t%d\n-\t0\t1\n" % (len(names) - 1)
        for program, want in (("bill", bill), ("refused", HEADERS["refused"] + b"%d\t" % line + row + b"\n")):
            said = drive.in_tables(program) + (program.encode() + b": " + hint + b"\n" if hint else b"")
            drive.ends(f"{program} {' '.join(names)}", drive.run(program, *names, cwd=place), 0, want, said)


def descriptors():
    """The program has 0, 1 and 2 as the wrapper got them; none else, though the wrapper's caller had one open as 3."""
    shown = '#!/bin/bash\nfor fd in {0..20} 62 63; do [ ! -e /proc/$$/fd/$fd ] || echo "$fd $(readlink /proc/$$/fd/$fd)"; done\n'
    project = builds.Project("descriptors", pause=0, does=shown)
    project.run("keys")
    path = drive.work / "opened"
    path.write_bytes(b"")
    fd = os.open(path, os.O_RDWR)

    def prepare():
        os.dup2(fd, 3)

    ran = drive.finish(project.start("keys", stdin=fd, prepare=prepare, pass_fds=(3,)))
    os.close(fd)
    numbers = [line.split()[0] for line in ran.out.decode().splitlines()]
    wrong = []
    if numbers != ["0", "1", "2"]:
        wrong.append(f"descriptors {' '.join(numbers)}")
    if f"0 {path}\n" not in ran.out.decode():
        wrong.append(f"not as they should be: {ran.out.decode()!r} {ran.err.decode()!r}")
    drive.check("descriptors of the program", wrong)


def signals():
    """A signal to the wrapper ends the program too, and the wrapper ends by it."""
    for name in "TERM INT HUP QUIT USR1 USR2 ALRM PIPE ABRT XCPU VTALRM PROF".split():
        number = signal.Signals["SIG" + name]
        ours, theirs = os.pipe()
        process = drive.start([ROOT / "bill"], stdin=ours)
        os.close(ours)
        os.write(theirs, b"1\ten\n")
        process.stderr.readline()
        drive.until(lambda: len(drive.session(process)) > 1)
        time.sleep(0.2)
        process.send_signal(number)
        ran = drive.finish(process, bound=20)
        ran = ran._replace(status=abs(ran.status) % 128)
        drive.ends(f"{number.name} to the wrapper", ran, int(number), b"", b"")
        drive.check(f"{number.name} to the wrapper: the program ends", drive.session(process))
        os.close(theirs)


def killed():
    """A program that is killed: 128 and the signal's number."""
    ours, theirs = os.pipe()
    process = drive.start([ROOT / "bill"], stdin=ours)
    os.close(ours)
    process.stderr.readline()

    def program():
        return drive.session(process, "/target/bin/bill")

    drive.until(lambda: len(program()) == 1)
    time.sleep(0.1)
    for pid in program():
        os.kill(pid, signal.SIGKILL)
    ran = drive.finish(process)
    os.close(theirs)
    drive.ends("a program that is killed", ran, 128 + signal.SIGKILL, b"", b"bill: ended by SIGKILL\n")
    small = 512 << 10
    ran = drive.run("keys", prepare=lambda: resource.setrlimit(resource.RLIMIT_STACK, (small, small)))
    drive.ends("a stack that is too small", ran, 128 + signal.SIGSEGV, b"", drive.in_tables("keys") + b"keys: ended by SIGSEGV\n")


def stopped_and_continued():
    """A program that is stopped and goes on: as ever."""
    process = drive.start([ROOT / "keys"], stdin=subprocess.PIPE)
    process.stdin.write(LINES["keys"][:9])
    process.stdin.flush()
    time.sleep(0.3)
    os.killpg(process.pid, signal.SIGSTOP)
    time.sleep(0.2)
    os.killpg(process.pid, signal.SIGCONT)
    works("stopped and continued", drive.finish(process, LINES["keys"][9:]))


def typed(keys, number):
    """Types to a program in a terminal; gives what it shows and how the program ends."""
    pid, terminal = pty.fork()
    if pid == 0:
        signal.signal(signal.SIGINT, signal.SIG_DFL)
        os.chdir(drive.work / "empty")
        os.execv(ROOT / "keys", ["keys"])
    seen = b""
    with contextlib.suppress(OSError), selectors.DefaultSelector() as selector:
        selector.register(terminal, selectors.EVENT_READ)
        while selector.select(20):
            seen += os.read(terminal, 4096)
            while keys and keys[0][0] in seen:
                os.write(terminal, keys.pop(0)[1])
    _, status = os.waitpid(pid, 0)
    os.close(terminal)
    wrong = [] if os.waitstatus_to_exitcode(status) == number else [f"ended with {os.waitstatus_to_exitcode(status)}, not {number}"]
    return seen, wrong


def terminal():
    """Lines that are typed are answered one by one; Ctrl-D ends the input, Ctrl-C the program."""
    seen, wrong = typed([(b"kept", b"iw_IL\n"), (b"\the\r", b"en\n"), (b"en\t0\ten\r", b"\x04")], 0)
    if b"iw_IL\t0\the\r\n" not in seen:
        wrong.append(f"shown: {seen!r}")
    drive.check("lines that are typed", wrong)
    seen, wrong = typed([(b"kept", b"iw_IL\n"), (b"\the\r", b"\x03")], -signal.SIGINT)
    drive.check("Ctrl-C in a terminal ends a program that reads", wrong)


def checks():
    for each in (links, folders, arguments, names, shut, files, gathered, no_writer, few_descriptors, descriptors, signals, killed, stopped_and_continued, terminal):
        each()
