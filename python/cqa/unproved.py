"""Runs of the program that is compiled without its proofs, by `rt try` of the Rattle kit: many inputs by one compile."""

from __future__ import annotations

import contextlib
import os
import re
import secrets
import shutil
import signal
import subprocess
import sys
import tempfile
import threading
import time
from typing import Dict, Iterator, List, NamedTuple, Sequence, Tuple

from .errors import CqaError

#: The most bytes of one input, and of what one run writes: `rt try` takes no more.
MOST_INPUT = 64 << 20
MOST_OUTPUT = 1 << 20

_CRATE = os.path.join("crates", "cqa_cli")
_SECONDS = 900
_ENDINGS = (signal.SIGINT, signal.SIGTERM, signal.SIGHUP)
_CASE = re.compile(r"case=(\S+) run=(\w+)(?: status=(\d+))?")
_WALL_SECONDS = {1: "two to four minutes on one processor", 2: "one to three minutes on two processors", 3: "one to two minutes on three processors"}


class Run(NamedTuple):
    """An input with the words of the program."""

    words: Tuple[str, ...]
    script: bytes


class Outcome(NamedTuple):
    """What a run wrote, and its status; or why there is neither."""

    written: bytes
    status: int
    fault: str = ""


class NotCompiled(CqaError):
    """The program can't be compiled here. status: 127 where the kit isn't there, and else 126."""

    def __init__(self, text: str, status: int = 126) -> None:
        self.status = status
        super().__init__(text)


def kit() -> str:
    """The command of the Rattle kit. Raises NotCompiled where it isn't on the path."""
    found = shutil.which("rt")
    if found is None:
        raise NotCompiled("trying needs the Rattle kit, whose rt isn't on the path", 127)
    return found


def compile_time() -> str:
    """About how long a compile takes here."""
    count = len(os.sched_getaffinity(0))
    return _WALL_SECONDS.get(count, "one to two minutes on %d processors" % count)


def outcomes(top: str, runs: Sequence[Run]) -> List[Outcome]:
    """Compiles the program of the repository at `top` without proofs, and gives what it does with each input. Nothing of it is left
    behind. Raises NotCompiled."""
    command = kit()
    with _room() as room:
        names = _cases(os.path.join(room, "cases"), runs)
        with open(os.path.join(room, "written"), "w+b") as written, open(os.path.join(room, "told"), "w+b") as told:
            words = [command, "try", "--steps", "1", "--seconds", str(_SECONDS), "--cases", os.path.join(room, "cases")]
            status = _ended(words, os.path.join(top, _CRATE), room, written.fileno(), told.fileno())
            written.seek(0)
            told.seek(0)
            return _read(names, written.read(), told.read().decode("utf-8", "replace"), status)


@contextlib.contextmanager
def _room() -> Iterator[str]:
    """A folder for a compile, which is gone behind it, also where the process is told to end."""
    room = ""
    before = {number: signal.signal(number, _leave) for number in (signal.SIGTERM, signal.SIGHUP)}
    try:
        try:
            room = tempfile.mkdtemp(prefix="cqa-try-")
        except OSError as fault:
            raise NotCompiled("no temporary folder can be made: %s; TMPDIR names another place for it" % _cause_of(fault)) from None
        yield room
    except OSError as fault:
        raise NotCompiled("%s: %s; a compile wants 500 MB there, and TMPDIR names another place" % (room, _cause_of(fault))) from None
    finally:
        if room:
            shutil.rmtree(room, ignore_errors=True)
        for number, handler in before.items():
            signal.signal(number, handler)


def _cause_of(fault: OSError) -> str:
    return (fault.strerror or str(fault)).lower()


def _leave(number: int, frame: object) -> None:
    raise SystemExit(128 + number)


def _cases(folder: str, runs: Sequence[Run]) -> List[str]:
    """Writes the inputs, and gives their names: no line of an output is one of them."""
    token = secrets.token_hex(16)
    names = ["%s-%d" % (token, number) for number in range(len(runs))]
    os.mkdir(folder)
    for name, run in zip(names, runs):
        with open(os.path.join(folder, name), "wb") as file:
            file.write(run.script)
        with open(os.path.join(folder, name + ".args"), "w", encoding="utf-8") as args:
            args.write("".join(word + "\n" for word in run.words))
    return names


def _ended(words: Sequence[str], folder: str, room: str, written: int, told: int) -> int:
    """Runs the kit's command to its end and gives its status. Where this is interrupted it is ended first."""
    with _begun(words, folder, room, written, told) as process, _elapsed():
        return process.wait()


@contextlib.contextmanager
def _begun(words: Sequence[str], folder: str, room: str, written: int, told: int) -> Iterator["subprocess.Popen[bytes]"]:
    """The kit's command, which is ended where it isn't waited for. No signal comes between its start and what ends it."""
    before = signal.pthread_sigmask(signal.SIG_BLOCK, _ENDINGS)
    process = None
    try:
        process = subprocess.Popen(words, cwd=folder, env={**os.environ, "TMPDIR": room}, stdin=subprocess.DEVNULL, stdout=written, stderr=told,
                                   start_new_session=True, preexec_fn=lambda: signal.pthread_sigmask(signal.SIG_SETMASK, before))
        signal.pthread_sigmask(signal.SIG_SETMASK, before)
        yield process
    finally:
        signal.pthread_sigmask(signal.SIG_SETMASK, before)
        if process is not None and process.poll() is None:
            process.terminate()
            try:
                process.wait(10)
            except subprocess.TimeoutExpired:
                process.kill()
                process.wait()


@contextlib.contextmanager
def _elapsed() -> Iterator[None]:
    """Shows how long it takes, where standard error is a terminal."""
    if not sys.stderr.isatty():
        yield
        return
    is_over = threading.Event()
    began = time.monotonic()

    def show() -> None:
        while not is_over.wait(1):
            sys.stderr.write("\r\033[Kcompiling and running, unproved: %d s" % (time.monotonic() - began))
            sys.stderr.flush()

    shown = threading.Thread(target=show, daemon=True)
    shown.start()
    try:
        yield
    finally:
        is_over.set()
        shown.join()
        sys.stderr.write("\r\033[K")
        sys.stderr.flush()


def _read(names: Sequence[str], written: bytes, told: str, status: int) -> List[Outcome]:
    """The outcome of each case. Raises NotCompiled where there is none."""
    ends = {found[1]: found for found in _CASE.finditer(told)}
    if any(name not in ends for name in names):
        raise NotCompiled(_why_not(told, status))
    outputs = _outputs(names, written)
    causes = _causes(told)
    return [Outcome(outputs[name], int(ends[name][3])) if ends[name][2] == "ended" else Outcome(b"", 126, causes[name]) for name in names]


def _outputs(names: Sequence[str], written: bytes) -> Dict[str, bytes]:
    """What each case wrote."""
    places = sorted((written.find(b"== %s\n" % name.encode()), name) for name in names)
    found = {name: b"" for name in names}
    for (at, name), end in zip(places, [at for at, _ in places[1:]] + [len(written)]):
        if at >= 0:
            found[name] = written[at + len(name) + 4:end]
    return found


def _causes(told: str) -> Dict[str, str]:
    """Why cases have no outcome, in a line each."""
    causes: Dict[str, str] = {}
    last = ""
    for line in told.split("\n"):
        found = _CASE.match(line)
        if found:
            causes[found[1]] = _cause(last, found[2])
            last = ""
        elif line.startswith("checked: "):
            last = line[len("checked: "):]
    return causes


def _cause(said: str, kind: str) -> str:
    if kind == "fault":
        return "a check while it ran ended the program (%s): this is a fault in the program, so please report it with its input" % said[:300]
    if "did not end within" in said:
        return "the unproved program did not end within %d seconds, and it is some fifty times slower than the built one: ./cqa build" % _SECONDS
    if "wrote more than" in said:
        return "it writes more than %s bytes, which is the most of an unproved run: ask for less, or ./cqa build" % format(MOST_OUTPUT, ",")
    return "the unproved program did not end: %s" % (said[:300] or kind)


def _why_not(told: str, status: int) -> str:
    lines = [line for line in told.split("\n") if line.strip() and not line.startswith(("case=", "cases=", "run="))]
    said = next((line for line in lines if "error" in line), lines[-1] if lines else "")
    if "No space left" in told or "os error 28" in told:
        return "the disk has no room for the compile, which wants 500 MB in the temporary folder; TMPDIR names another place"
    if status < 0:
        return "the compile was ended by signal %d, most likely for memory: it wants 3 GB" % -status
    return "the program can't be compiled: %s" % (said[:300] or "rt try ended with status %d" % status)
