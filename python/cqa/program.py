"""The program as a child: where it is, how it is started, and what its end means."""

from __future__ import annotations

import contextlib
import os
import shutil
import subprocess
import threading
from typing import IO, BinaryIO, Callable, Iterator, List, Optional, Protocol, Tuple, TypeVar, Union

from .errors import Closed, Ended, NotBuilt, ended
from .replies import END_LINE, END_STATEMENT, reply_lines

_BUILT = os.path.join("crates", "cqa_cli", "out", "cqa_cli")
_PIECE = 1 << 20
Result = TypeVar("Result")


def found_program(given: Optional[str] = None) -> str:
    """The path of the built program: the one given, that of the variable CQA_PROGRAM, that of the repository in which this
    file stands or from which it was installed, `cqa_cli` on the path, or that of the repository to which a `cqa` on the path belongs.

    Raises NotBuilt where there is none.
    """
    named = given or os.environ.get("CQA_PROGRAM")
    if named:
        return _runnable(named)
    here = os.path.dirname(os.path.dirname(os.path.dirname(os.path.abspath(__file__))))
    candidates = [os.path.join(top, _BUILT) for top in (here, _installed_from()) if top] + [shutil.which("cqa_cli") or ""]
    wrapper = shutil.which("cqa")
    if wrapper:
        candidates.append(os.path.join(os.path.dirname(os.path.realpath(wrapper)), _BUILT))
    for path in candidates:
        if path and os.access(path, os.X_OK) and os.path.isfile(path):
            return path
    raise NotBuilt("the program isn't built: in the repository `./cqa build` proves and builds it, and `./cqa try WORDS ..` answers in a "
                   "minute or two, unproved; CQA_PROGRAM names one that is elsewhere")


def _installed_from() -> str:
    """The repository from which `pip install ./python` took this package, or nothing."""
    try:
        with open(os.path.join(os.path.dirname(os.path.abspath(__file__)), "repository.txt"), encoding="utf-8", errors="surrogateescape") as file:
            return file.read()
    except OSError:
        return ""


def _runnable(path: str) -> str:
    if not os.path.isfile(path):
        raise NotBuilt("no program at %s: in the repository `./cqa build` proves and builds it, and `./cqa try WORDS ..` answers in a minute "
                       "or two, unproved" % path)
    if not os.access(path, os.X_OK):
        raise NotBuilt("%s can't be run" % path)
    return path


class Process(Protocol):
    """What a child needs of a process."""

    @property
    def stdin(self) -> Optional[IO[bytes]]:
        """What is sent."""

    @property
    def stdout(self) -> Optional[IO[bytes]]:
        """What comes back."""

    def wait(self) -> int:
        """Waits for the end, and gives its status."""

    def kill(self) -> None:
        """Ends it."""


#: Starts a program, the one at a path or the one that is found; whether Ctrl-C doesn't reach it. Gives its path and the process.
Start = Callable[[Optional[str], bool], Tuple[str, Process]]


def _started(given: Optional[str], is_apart: bool) -> Tuple[str, Process]:
    path = found_program(given)
    environment = dict(os.environ)
    environment.setdefault("GLIBC_TUNABLES", "glibc.malloc.hugetlb=1")
    try:
        return path, subprocess.Popen([path, "run"], stdin=subprocess.PIPE, stdout=subprocess.PIPE, bufsize=_PIECE,
                                      env=environment, start_new_session=is_apart)
    except OSError as fault:
        raise NotBuilt("%s can't be started: %s" % (path, fault.strerror or fault)) from None


_start: Start = _started


@contextlib.contextmanager
def started_by(start: Start) -> Iterator[None]:
    """Within it, children are started otherwise."""
    global _start
    before, _start = _start, start
    try:
        yield
    finally:
        _start = before


class Child:
    """A running program that reads a script and is asked statement by statement.

    Where one thread sends and another reads the replies, the one that reads owns the program: it alone finds its end, tells it and
    closes. The one that sends stops where nobody reads any more.
    """

    def __init__(self, program: Optional[str] = None, is_apart: bool = False) -> None:
        """Starts the program. is_apart: Ctrl-C at the terminal doesn't reach it. Raises NotBuilt where there is none."""
        self.program, self._process = _start(program, is_apart)
        self.is_apart = is_apart
        self.closed_by = ""  # why no statement can be sent any more
        self._lock = threading.Lock()
        self._input = _piped(self._process.stdin)
        self.replies = _piped(self._process.stdout)

    def write(self, part: Union[bytes, memoryview]) -> None:
        """Sends bytes, which may be kept back until `flush`. Raises BrokenPipeError where nobody reads them."""
        try:
            self._input.write(part)
        except ValueError:
            raise BrokenPipeError from None

    def flush(self) -> None:
        """Sends what is kept back. Raises BrokenPipeError where nobody reads it."""
        try:
            self._input.flush()
        except ValueError:
            raise BrokenPipeError from None

    def tell(self, statement: bytes, verb: str) -> List[bytes]:
        """Sends one complete statement and gives the lines of its reply. Where this is interrupted the program is ended, so that
        no later statement gets this one's reply; threads wait for each other. Raises Closed where it was ended before, and Ended
        where it ends."""
        return self.read(statement, lambda _: self.reply(verb))

    def read(self, statement: bytes, reader: Callable[[BinaryIO], Result]) -> Result:
        """As `tell`, and gives what a function makes of the reply as it comes, which it reads up to that of the empty statement; it raises
        EOFError where the replies end before."""
        with self._lock:
            if self.closed_by:
                raise Closed(self.closed_by)
            try:
                with contextlib.suppress(BrokenPipeError):  # the end of the replies tells why
                    self.write(statement)
                    self.write(END_STATEMENT)
                    self.flush()
                try:
                    return reader(self.replies)
                except EOFError:
                    raise self._ending() from None
            except BaseException as fault:
                self.kill(str(fault) if isinstance(fault, Ended) else "the session was interrupted in a statement, and is ended")
                raise

    def reply(self, verb: str) -> List[bytes]:
        """The lines of the reply to a statement behind which the empty one was sent."""
        lines = reply_lines(self.replies, verb)
        if lines[-1] != END_LINE:
            raise self._ending()
        return lines[:-1]

    def end_input(self) -> None:
        """Says that nothing more comes."""
        try:
            self._input.close()
        except BrokenPipeError:
            pass

    def close(self) -> int:
        """Ends the program and gives its status. Closing twice does nothing more."""
        self.closed_by = self.closed_by or "the session is closed"
        self.end_input()
        while not self.replies.closed and self.replies.read(_PIECE):
            pass
        self.replies.close()
        return self._process.wait()

    def kill(self, cause: str = "the session is closed") -> None:
        """Ends the program at once. cause: why no statement can be sent any more."""
        self.closed_by = self.closed_by or cause
        self._process.kill()
        self.end_input()
        self.replies.close()
        self._process.wait()

    def _ending(self) -> Ended:
        """What to raise where the program has ended by itself."""
        self.end_input()
        self.replies.close()
        return ended(self._process.wait(), self.program)


def _piped(stream: Optional[object]) -> BinaryIO:
    assert stream is not None
    return stream  # type: ignore[return-value]
