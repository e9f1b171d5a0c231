#!/usr/bin/env python3
"""Proves the crates that the program stands on, builds the program and puts it in its place: `./cqa build`.

Each crate is proved from nothing by `rt ci`, in a copy, side by side; then the program is built, and run on the README's tour. What is
proved is kept beside the kit, where that folder may be written: the next build takes it from there, and so does the gate.
"""

import contextlib
import fcntl
import os
import re
import shutil
import signal
import subprocess
import sys
import tempfile
import threading
import time

sys.path.insert(0, os.path.dirname(os.path.abspath(__file__)))

from progress import Progress, crates_below, measured, task_times  # noqa: E402

TOP = os.path.dirname(os.path.dirname(os.path.abspath(__file__)))
PROGRAM = os.path.join(TOP, "crates", "cqa_cli", "out", "cqa_cli")
LOG = PROGRAM + ".log"
TIMES = os.path.join(TOP, "tools", "build_times.txt")
SAID = re.compile(r"rt: (\w+) (proved$|is kept|NOT PROVED.*)")
WANTED_BYTES = 3 << 30


class NotBuilt(Exception):
    """Why nothing is built, with the status."""

    def __init__(self, text, status=126):
        self.status = status
        super().__init__(text)


class Teller:
    """Lines on standard error, and on a terminal one below them that is written anew."""

    def __init__(self):
        self._is_terminal = sys.stderr.isatty()
        self._lock = threading.Lock()

    def say(self, text):
        """A line that stays."""
        with self._lock:
            print("%scqa: %s" % ("\r\033[K" if self._is_terminal else "", text), file=sys.stderr, flush=True)

    def show(self, text):
        """The line that is written anew."""
        if self._is_terminal:
            with self._lock:
                print("\r\033[K" + text[:shutil.get_terminal_size().columns - 1], end="", file=sys.stderr, flush=True)


@contextlib.contextmanager
def alone(teller):
    """Within it no other build of this folder runs. Gives whether one ran before."""
    folder = os.open(TOP, os.O_RDONLY)
    try:
        waited = False
        try:
            fcntl.flock(folder, fcntl.LOCK_EX | fcntl.LOCK_NB)
        except BlockingIOError:
            teller.say("another build of this folder is running; this one waits for its end (Ctrl-C ends the waiting)")
            fcntl.flock(folder, fcntl.LOCK_EX)
            waited = True
        yield waited
    finally:
        os.close(folder)


@contextlib.contextmanager
def room():
    """A folder for the copy, which is gone behind it."""
    try:
        folder = tempfile.mkdtemp(prefix="cqa-build-")
    except OSError as fault:
        raise NotBuilt("not built: no temporary folder can be made: %s; TMPDIR names another place for it" % fault.strerror.lower()) from None
    try:
        os.chmod(folder, 0o711)  # the kit runs the program as nobody, below it
        os.mkdir(os.path.join(folder, "tmp"), 0o1777)
        os.chmod(os.path.join(folder, "tmp"), 0o1777)
        yield folder
    finally:
        shutil.rmtree(folder, ignore_errors=True)


def copy_crates(crates, folder):
    """Copies crates without what earlier builds made and without must-fail edits."""
    with open(os.path.join(TOP, "crates.txt"), encoding="utf-8") as file:
        lines = [line for line in file if line.split(":")[0] in crates]
    with open(os.path.join(folder, "crates.txt"), "w", encoding="utf-8") as file:
        file.writelines(lines)
    shutil.copy(os.path.join(TOP, "HANDLES"), folder)
    for name in crates:
        source = os.path.join(TOP, "crates", name)
        leave = lambda at, names: [one for one in names if one in ("out", "must-fail")] if at == source else []
        shutil.copytree(source, os.path.join(folder, "crates", name), ignore=leave)


def commit():
    """The commit whose crates are proved."""
    def told(*words):
        return subprocess.run(["git", "-C", TOP, *words], stdout=subprocess.PIPE, stderr=subprocess.DEVNULL, check=False).stdout.decode().strip()
    try:
        name = told("rev-parse", "--short", "HEAD")
        changes = told("status", "--porcelain", "--", "crates", "crates.txt", "HANDLES")
    except OSError:
        name = ""
    return "no commit" if not name else "commit %s%s" % (name, " and changes since" if changes else "")


def is_fresh():
    """Whether the program is there, and no source is newer."""
    if not os.access(PROGRAM, os.X_OK):
        return False
    built = os.stat(PROGRAM).st_mtime
    sources = [os.path.join(TOP, "crates.txt")]
    for folder, _, names in os.walk(os.path.join(TOP, "crates")):
        if "/src" in folder[len(TOP):]:
            sources += [os.path.join(folder, name) for name in names if name.endswith(".rt")]
    return all(os.stat(path).st_mtime <= built for path in sources)


@contextlib.contextmanager
def kit_gate(folder):
    """The kit's gate, begun in a folder; it is ended, and with it what it started, where it isn't waited for."""
    environment = dict(os.environ, TMPDIR=os.path.join(folder, "tmp"))
    endings = {signal.SIGINT, signal.SIGTERM, signal.SIGHUP}
    before = signal.pthread_sigmask(signal.SIG_BLOCK, endings)  # so that none comes between the start and what ends it
    process = None
    try:
        process = subprocess.Popen(["rt", "ci"], cwd=folder, env=environment, stdin=subprocess.DEVNULL, stdout=subprocess.PIPE, stderr=subprocess.STDOUT,
                                   start_new_session=True, preexec_fn=lambda: signal.pthread_sigmask(signal.SIG_SETMASK, before))
        signal.pthread_sigmask(signal.SIG_SETMASK, before)
        yield process
    finally:
        signal.pthread_sigmask(signal.SIG_SETMASK, before)
        if process is not None and process.poll() is None:
            process.kill()
            process.wait()


def proved(folder, crates, teller, log):
    """Runs the kit's gate in the folder of the copy. Raises NotBuilt where something isn't proved."""
    progress = Progress(crates, measured(TIMES), len(os.sched_getaffinity(0)))
    is_over, one_at_a_time = threading.Event(), threading.Lock()

    def watch():
        while not is_over.wait(2):
            times = task_times(process.pid)
            with one_at_a_time:
                progress.sample(time.monotonic(), times)
                text = "%s; %s" % (progress.text(), ", ".join(progress.running))
            teller.show(text)

    refused, done = [], 0
    with kit_gate(folder) as process:
        threading.Thread(target=watch, daemon=True).start()
        for line in process.stdout:
            log.write(line)
            found = SAID.match(line.decode("utf-8", "replace").rstrip("\n"))
            if not found:
                continue
            name, how = found[1], found[2]
            if how.startswith("NOT"):
                refused.append(name)
                teller.say("%s %s" % (name, how))
                continue
            done += 1
            with one_at_a_time:
                seconds, text = progress.end(name, is_kept=how == "is kept"), progress.text()
            if seconds:
                log.write(b"cqa: %s took %.1f s of processor time\n" % (name.encode(), seconds))
            log.flush()
            teller.say("%d of %d: %s %s; %s" % (done, len(crates), name, how, text))
        status = process.wait()
        is_over.set()
    if status < 0:
        raise NotBuilt("the build was ended by signal %d, most likely for memory; what was proved so far is kept for the next one" % -status)
    log.flush()
    if status and is_full(log.name):
        raise NotBuilt("the disk has no room for the build, which wants 3 GB in the temporary folder; TMPDIR names another place; %s says more" % LOG)
    if status:
        raise NotBuilt("the build failed%s; %s says why" % (" at " + refused[0] if refused else "", LOG))
    return progress.spent


def is_full(log):
    """Whether a log tells that a disk is full."""
    with open(log, "rb") as file:
        return re.search(rb"No space left on device|os error 28|the disk is full", file.read()) is not None


def build(teller, began):
    """Builds, and gives the line that says what."""
    crates = crates_below(os.path.join(TOP, "crates.txt"), "cqa_cli")
    if shutil.which("rt") is None:
        raise NotBuilt("not built: building needs the Rattle kit, whose rt isn't on the path", 127)
    try:
        os.makedirs(os.path.dirname(PROGRAM), exist_ok=True)
        log = open(LOG, "wb")
    except OSError as fault:
        raise NotBuilt("not built: %s can't be written: %s" % (os.path.dirname(PROGRAM), fault.strerror.lower())) from None
    with log, room() as folder:
        free = shutil.disk_usage(folder).free
        if free < WANTED_BYTES:
            teller.say("%s has %d MB left, and a first build wants 3,000: TMPDIR names another place" % (folder, free >> 20))
        stamp = os.path.join(folder, "began")
        open(stamp, "w").close()
        what = commit()
        copy_crates(crates, folder)
        whole = sum(measured(TIMES).get(name, 0) for name in crates)
        teller.say("building: %d crates are proved first, %d minutes of processor time where none is yet: %s here"
                   % (len(crates), round(whole / 60), Progress(crates, measured(TIMES), len(os.sched_getaffinity(0))).first_text()))
        spent = proved(folder, crates, teller, log)
        shutil.copy(os.path.join(folder, "crates", "cqa_cli", "out", "cqa_cli"), PROGRAM + ".new")
        shutil.copystat(stamp, PROGRAM + ".new")
        os.chmod(PROGRAM + ".new", 0o755)
        os.replace(PROGRAM + ".new", PROGRAM)
    seconds = time.monotonic() - began
    return "built: %s, %.1f MB, in %d min %02d s (%d min of processor time), as %s proves it" % (
        PROGRAM, os.stat(PROGRAM).st_size / 1e6, seconds // 60, seconds % 60, round(spent / 60), what)


def leave(number, _):
    raise SystemExit(128 + number)


def main():
    for number in (signal.SIGTERM, signal.SIGHUP):
        signal.signal(number, leave)
    teller, began = Teller(), time.monotonic()
    try:
        with alone(teller) as waited:
            if waited and is_fresh():
                teller.say("the other build has built %s" % PROGRAM)
            else:
                teller.say(build(teller, began))
        return 0
    except NotBuilt as fault:
        teller.say(str(fault))
        return fault.status
    except OSError as fault:
        teller.say("not built: %s%s" % (fault.filename + ": " if isinstance(fault.filename, str) else "", (fault.strerror or str(fault)).lower()))
        return 126
    except KeyboardInterrupt:
        teller.say("the build is ended; what was proved so far is kept for the next one")
        return 130
    finally:
        with contextlib.suppress(OSError):
            os.unlink(PROGRAM + ".new")


if __name__ == "__main__":
    sys.exit(main())
