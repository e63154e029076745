"""Builds by the wrapper, with a stand-in for rt: at once, interrupted, refused, copied, and again after changes."""

import errno
import os
import pty
import re
import shutil
import signal
import termios
from pathlib import Path

import drive
from drive import ROOT

HERE = Path(__file__).parent
PROGRAM = '#!/bin/sh\necho "$(basename "$0") runs"\n'
# What the wrapper calls, without rt and flock.
TOOLS = "awk basename bash cat chmod cksum cp env find mkdir mktemp mv printf readlink rm sed sh sleep sort tail wc xargs".split()


class Project:
    """A copy of the project that was never built: its crates hold a file each."""

    def __init__(self, name, flock=True, pause=0.5, does=PROGRAM):
        self.root = drive.folder(name)
        for file in ("programs.sh", "crates.txt"):
            shutil.copy(ROOT / file, self.root / file)
        for program in drive.PROGRAMS:
            (self.root / program).symlink_to("programs.sh")
        shutil.copytree(ROOT / "include", self.root / "include")
        (self.root / "tables").mkdir()
        for crate in (ROOT / "crates").iterdir():
            source = self.root / "crates" / crate.name / "src"
            source.mkdir(parents=True)
            (source / "lib.rt").write_text("// a crate\n")
        self.notes = drive.folder(name + ".notes", {"version": b"kit 1\n", "pause": b"%f\n" % pause, "program": does.encode()})
        (self.notes / "program").chmod(0o755)
        bin = drive.folder(name + ".bin")
        for tool in TOOLS + (["flock"] if flock else []):
            (bin / tool).symlink_to(shutil.which(tool))
        (bin / "rt").symlink_to(HERE / "stand_in_rt")
        self.env = {"PATH": str(bin), "NOTES": str(self.notes), "RATTLE_HOME": ""}

    def start(self, program, **options):
        return drive.start([self.root / program], env=self.env, **options)

    def run(self, program):
        return drive.finish(self.start(program))

    def without_rt(self):
        """From now on there is no rt."""
        (Path(self.env["PATH"]) / "rt").unlink()

    def mounted_read_only(self, program):
        """Runs a program of this project, which can't be written to; nothing where that can't be had."""
        mount = 'mount --bind "$1" "$1" && mount -o remount,bind,ro "$1"'
        tools = {"PATH": os.environ["PATH"]}
        command = ["env", f"PATH={self.env['PATH']}", self.root / program]
        return drive.mounted(mount, self.root, *command, env=self.env | tools)

    def log(self, *kinds):
        """The lines of the stand-in's log of these kinds."""
        path = self.notes / "log"
        lines = path.read_text().splitlines() if path.exists() else []
        return [line for line in lines if not kinds or line.split()[0] in kinds]

    def forget(self):
        """Begins a new log."""
        (self.notes / "log").unlink(missing_ok=True)

    def alive(self):
        """The noted processes that still run."""
        found = []
        for line in self.log("process"):
            try:
                state = Path(f"/proc/{line.split()[1]}/stat").read_text().rsplit(")", 1)[1].split()[0]
            except (FileNotFoundError, ProcessLookupError):
                continue
            if state != "Z":
                found.append(line)
        return found


ASKED = "taken again from rt, which has it"


def runs(name, project, ran, built, program="keys"):
    """The program ran, and was built before or not, or rt, when asked, had it."""
    drive.ends(name, ran, 0, f"{program} runs\n".encode(), drive.in_tables(program, project.root / "tables") if not built else None)
    log = project.log("began", "ended", "unchanged")
    want = [f"unchanged {program}"] if built == ASKED else [f"began {program}", f"ended {program}"] if built else []
    drive.check(f"{name}: {built if built == ASKED else 'built' if built else 'not built'}", [] if log == want else [f"the log has {log}"])
    project.forget()


def first_use():
    project = Project("a project\nin an odd folder", pause=0.02)
    ran = project.run("keys")
    lines = ran.err.decode().replace(str(project.root), "ROOT").splitlines()
    wrong = []
    # each with its place among the crates that keys rests on: standard is the first, keys the last
    seen = re.findall(r"(?m)^keys: proving, (\d+) of (\d+): (\w+) \(0 s\)$", "\n".join(lines))
    places = [int(place) for place, _, _ in seen]
    if [crate for _, _, crate in seen] != ["standard", "subtag", "keys"] or not 1 == places[0] < places[1] < places[2] == int(seen[2][1]):
        wrong.append(f"no progress: {lines}")
    if not any("takes" in line and "crates" in line for line in lines[:1]):
        wrong.append(f"nothing said of how long it takes: {lines}")
    drive.check("first use says how far it is", wrong)
    runs("first use", project, ran, True)
    runs("second use", project, project.run("keys"), False)
    ran = drive.finish(drive.start([project.root / "keys", "--version"], env=project.env))
    drive.ends("the kit that proved it", ran, 0, lambda got: "" if got.endswith(b", proved with kit 1\n") else "no kit", b"")
    return project


def changes(project):
    """Builds again exactly where something changed on which the program rests."""
    crates = project.root / "crates"

    def after(name, built):
        runs(name, project, project.run("keys"), built)

    (crates / "subtag/src/lib.rt").write_text("// changed\n")
    after("a changed file", True)
    (crates / "subtag/src/more.rt").write_text("")
    after("a new file", True)
    (crates / "subtag/src/more.rt").unlink()
    after("a file that is no more", True)
    old = crates / "subtag/src/lib.rt"
    old.write_text("// put back\n")
    os.utime(old, (10**9, 10**9))
    after("a file with an old date", True)
    with open(project.root / "crates.txt", "a") as file:
        file.write("# a comment\n")
    after("crates.txt changed", True)
    (crates / "bill_ledger/src/lib.rt").write_text("// changed\n")
    after("a crate changed on which it doesn't rest", False)
    (crates / "subtag/must-fail").mkdir()
    (crates / "subtag/must-fail/x.edit").write_text("")
    project.run("keys")
    project.forget()
    (crates / "subtag/must-fail/y.edit").write_text("")
    after("a must-fail edit changed", False)
    (project.notes / "version").write_text("kit 2\n")
    after("another kit", True)
    (project.root / "target/bin/keys").unlink(missing_ok=True)
    after("the program is gone", ASKED)
    (project.root / "target/bin/keys").write_text(PROGRAM.replace("runs", "is another"))
    after("the program is another", ASKED)
    for place in ("target/bin/keys", "crates/keys/out/keys"):
        (project.root / place).write_text(PROGRAM.replace("runs", "is another"))
    after("the program is another, in rt's folder too", True)
    shutil.rmtree(crates / "keys/out")
    after("rt's folder is gone", False)
    (project.root / "target/bin/keys").unlink()
    after("the program is gone, and rt's folder", True)
    for date in (10**9, 2 * 10**9):
        os.utime(project.root / "target/bin/keys", (date, date))
        after(f"the program of the date {date}", False)
    for path in crates.rglob("*"):
        os.utime(path)
    after("files of new dates", False)
    after("files of new dates, again", False)


def renewed(path):
    """Puts a copy in the place of a folder: its files are new."""
    copy = path.with_name(path.name + ".copy")
    shutil.copytree(path, copy, symlinks=True, copy_function=shutil.copy)
    shutil.rmtree(path)
    copy.rename(path)


def copied_target():
    """target/ is copied or comes from elsewhere, and so is newer than the sources: what counts is the sources' bytes."""
    project = Project("copied target", pause=0.02)
    source = project.root / "crates/subtag/src/lib.rt"
    target = project.root / "target"
    runs("before target/ is copied", project, project.run("keys"), True)
    renewed(target)
    runs("target/ is copied", project, project.run("keys"), False)
    source.write_text("// changed\n")
    renewed(target)
    runs("a change, then target/ is copied", project, project.run("keys"), True)
    kept = project.root / "kept"
    shutil.copytree(target, kept)
    source.write_text("// changed again\n")
    runs("a further change", project, project.run("keys"), True)
    shutil.rmtree(target)
    shutil.copytree(kept, target, copy_function=shutil.copy)
    runs("an older target/ is put back", project, project.run("keys"), ASKED)
    (project.root / "crates/subtag/src/more.rt").write_text("")
    renewed(target)
    runs("a new file, then target/ is copied", project, project.run("keys"), True)
    (project.root / "crates/subtag/src/more.rt").unlink()
    renewed(target)
    runs("a file that is no more, then target/ is copied", project, project.run("keys"), True)


def copied_checkout():
    """A copy of a built checkout runs without rt, writable or not; a changed one does not."""
    project = Project("copied checkout", pause=0.02)
    runs("before it is copied", project, project.run("keys"), True)
    renewed(project.root)
    project.without_rt()
    ran = project.mounted_read_only("keys")
    if ran is None:
        drive.left_out("a copied checkout that can't be written", "nothing can be mounted")
    else:
        runs("a copied checkout that can't be written", project, ran, False)
    stamp = project.root / "target/programs/keys"
    before = stamp.read_text()
    runs("a copied checkout", project, project.run("keys"), False)
    after = stamp.read_text()
    runs("a copied checkout, again", project, project.run("keys"), False)
    drive.check("a copied checkout: its dates are noted once", [] if before != after == stamp.read_text() else ["the stamp is not so"])
    (project.root / "crates/subtag/src/lib.rt").write_text("// changed\n")
    renewed(project.root)
    ran = project.run("keys")
    drive.ends("a copied checkout that changed", ran, 1, b"", drive.has(b"keys: it must be proved first, and rt is missing"))


def read_only():
    """What changed in a checkout that can't be written does not run, and the cause is said."""
    project = Project("read only", pause=0.02)
    runs("before it is read only", project, project.run("keys"), True)
    (project.root / "crates/subtag/src/lib.rt").write_text("// changed\n")
    ran = project.mounted_read_only("keys")
    if ran is None:
        drive.left_out("a change in a checkout that can't be written", "nothing can be mounted")
        return
    cause = drive.said("keys", project.root / "target/programs/lock", errno.EROFS)
    drive.ends("a change in a checkout that can't be written", ran, 1, b"", cause + drive.line("keys", "it is not proved, so it does not run"))


def while_building():
    """A file that changes while it is being proved is newer than the build: the next start builds again."""
    project = Project("while building")
    process = project.start("keys")
    drive.until(lambda: project.log("process"))
    (project.root / "crates/subtag/src/lib.rt").write_text("// changed meanwhile\n")
    runs("a change while it is proved", project, drive.finish(process), True)
    runs("the start after that", project, project.run("keys"), True)
    runs("and one more", project, project.run("keys"), False)


def put_back():
    """A file that changes while it is proved, and is as before at the end: what was built may be of the change."""
    project = Project("put back")
    source = project.root / "crates/subtag/src/lib.rt"
    before = source.read_text()
    process = project.start("keys")
    drive.until(lambda: project.log("process"))
    source.write_text("// changed meanwhile\n")
    source.write_text(before)
    runs("a change that is put back while it is proved", project, drive.finish(process), True)
    project.run("keys")
    drive.check("the start after it was put back asks rt", [] if project.log("began", "unchanged") else ["it does not"])


def refusals():
    """What is not proved does not run, though an old program is there, and the cause is shown."""
    project = Project("refusals", pause=0.02)
    runs("before a refusal", project, project.run("keys"), True)
    (project.root / "crates/subtag/src/lib.rt").write_text("// wrong\n")
    (project.notes / "refuse").write_text("subtag")
    for _ in range(2):
        ran = project.run("keys")
        drive.ends("not proved", ran, 1, b"", drive.has(b"this does not follow", b"subtag NOT PROVED", b"does not run"))
    (project.notes / "refuse").unlink()
    project.forget()
    runs("after a refusal", project, project.run("keys"), True)
    project.without_rt()
    runs("built, and rt is gone", project, project.run("keys"), False)
    ran = project.run("bill")
    drive.ends("rt is missing", ran, 1, b"", drive.has(b"rt is missing", b"install the Rattle kit"))


def at_once(flock):
    """Two programs, and one of them twice, on a fresh clone: one after the other is built, and all run."""
    how = "flock" if flock else "no flock"
    project = Project(f"at once, {how}", flock)
    first = project.start("keys")
    drive.until(lambda: project.log("began"))
    others = [project.start(name) for name in ("bill", "keys")]
    ran = drive.finish(first)
    drive.ends(f"at once, {how}: the first", ran, 0, b"keys runs\n")
    for name, process in zip(("bill", "keys"), others):
        ran = drive.finish(process)
        drive.ends(f"at once, {how}: {name} beside it", ran, 0, f"{name} runs\n".encode(), drive.has(f"{name}: waiting for another program".encode()))
    log = project.log("began", "ended")
    want = ["began keys", "ended keys", "began bill", "ended bill"]
    drive.check(f"at once, {how}: one after the other", [] if log == want else [f"the log has {log}"])
    left = sorted(path.name for path in (project.root / "target/programs").iterdir() if "folder" in path.name or "new" in path.name)
    drive.check(f"at once, {how}: no lock is left", left)


def interrupted(number, flock=True):
    """A signal to the wrapper in mid-build ends the prover too; the next start works."""
    name = f"{number.name}{'' if flock else ' without flock'} while it is proved"
    project = Project(f"interrupted {name}", flock)
    process = project.start("keys")
    drive.until(lambda: len(project.log("process")) > 2)
    process.send_signal(number)
    ran = drive.finish(process)
    drive.ends(name, ran._replace(status=abs(ran.status) % 128), int(number), b"", drive.named("keys"))
    drive.check(f"{name}: the prover ends", [] if drive.until(lambda: not project.alive(), 5) else project.alive())
    project.forget()
    runs(f"after {name}", project, project.run("keys"), True)


def waiting_interrupted():
    """A signal to the one that waits ends it alone."""
    project = Project("waiting")
    first = project.start("keys")
    drive.until(lambda: project.log("began"))
    second = project.start("bill")
    second.stderr.readline()
    second.send_signal(signal.SIGTERM)
    ran = drive.finish(second)
    drive.ends("SIGTERM to the one that waits", ran, -signal.SIGTERM, b"", drive.named("bill"))
    runs("the one that it waited for", project, drive.finish(first), True)


def wrapper_killed():
    """The wrapper is killed, and the prover goes on: the next start waits for it, and needs no build."""
    project = Project("killed")
    process = project.start("keys")
    drive.until(lambda: project.log("process"))
    process.kill()
    process.wait()
    ran = project.run("keys")
    drive.finish(process)
    drive.ends("a start after a killed one", ran, 0, b"keys runs\n", drive.has(b"keys: waiting"))


def stopped_output():
    """A terminal that stops what writes to it from the background (stty tostop) does not stop the prover."""
    project = Project("tostop", pause=0.02)
    pid, terminal = pty.fork()
    if pid == 0:
        mode = termios.tcgetattr(0)
        mode[3] |= termios.TOSTOP
        termios.tcsetattr(0, termios.TCSANOW, mode)
        os.chdir(drive.work / "empty")
        os.execve(project.root / "keys", ["keys"], os.environ | project.env | {"TMPDIR": str(drive.work / "tmp")})
    seen = drive.shown_by(terminal, lambda seen: b"keys runs" in seen, 20)
    drive.check("stty tostop: it is proved, and runs", [] if b"keys: proving" in seen and b"keys runs" in seen else [f"shown: {seen!r}"])
    os.killpg(pid, signal.SIGKILL)
    os.waitpid(pid, 0)
    os.close(terminal)
    for line in project.alive():
        os.kill(int(line.split()[1]), signal.SIGKILL)


def control_c():
    """Ctrl-C in a terminal, while it is proved: nothing runs on."""
    project = Project("terminal")
    pid, terminal = pty.fork()
    if pid == 0:
        signal.signal(signal.SIGINT, signal.SIG_DFL)
        os.chdir(drive.work / "empty")
        os.execve(project.root / "keys", ["keys"], os.environ | project.env | {"TMPDIR": str(drive.work / "tmp")})
    drive.until(lambda: len(project.log("process")) > 2)
    os.write(terminal, b"\x03")
    ended = []

    def gone():
        if not ended:
            found, status = os.waitpid(pid, os.WNOHANG)
            if found:
                ended.append(status)
        return bool(ended)

    drive.until(gone, 10)
    wrong = [] if ended and os.WIFSIGNALED(ended[0]) and os.WTERMSIG(ended[0]) == signal.SIGINT else [f"the wrapper ended with {ended}"]
    drive.check("Ctrl-C in a terminal", wrong)
    drive.check("Ctrl-C in a terminal: the prover ends", [] if drive.until(lambda: not project.alive(), 5) else project.alive())
    if not ended:
        os.kill(pid, signal.SIGKILL)
    os.close(terminal)
    project.forget()
    runs("after Ctrl-C", project, project.run("keys"), True)


def checks():
    changes(first_use())
    while_building()
    put_back()
    copied_target()
    copied_checkout()
    read_only()
    refusals()
    for flock in (True, False):
        at_once(flock)
    for number in (signal.SIGINT, signal.SIGTERM, signal.SIGHUP, signal.SIGUSR1):
        interrupted(number)
    interrupted(signal.SIGTERM, False)
    waiting_interrupted()
    wrapper_killed()
    stopped_output()
    control_c()
