"""A line on a terminal that says what goes on: once a command has taken two seconds it is written anew twice a second, and it is wiped
before anything else is written. Where standard error is no terminal there is none."""

from __future__ import annotations

import contextlib
import shutil
import sys
import threading
import time
from typing import Any, Callable, Iterator, List, Optional, TextIO

_PAUSE = 0.5
_SILENT = 2.0
_WIPE = "\r\033[K"


class _Line:
    """The line of a command. A thread writes it."""

    def __init__(self, name: str, stream: TextIO) -> None:
        self.said: List[Callable[[], str]] = []
        self._name = name
        self._stream = stream
        self._began = time.monotonic()
        self._lock = threading.Lock()
        self._is_over = threading.Event()
        self._is_shown = False
        self._is_held = False
        self._thread = threading.Thread(target=self._show, daemon=True)
        self._thread.start()

    def _show(self) -> None:
        while not self._is_over.wait(_PAUSE):
            spent = time.monotonic() - self._began
            if spent >= _SILENT:
                self._write(": ".join(["cqa %s: %d s" % (self._name, spent), *[said() for said in self.said[-1:]]]))

    def _write(self, text: str) -> None:
        with self._lock:
            if not self._is_held and not self._is_over.is_set():
                self._stream.write(_WIPE + text[:shutil.get_terminal_size().columns - 1])
                self._stream.flush()
                self._is_shown = True

    def wipe(self, is_held: Optional[bool] = None) -> None:
        """Takes the line away. is_held: whether it stays away from now on; else as before."""
        with self._lock:
            self._is_held = self._is_held if is_held is None else is_held
            if self._is_shown:
                self._stream.write(_WIPE)
                self._stream.flush()
                self._is_shown = False

    def end(self) -> None:
        """Takes the line away for good."""
        self._is_over.set()
        self.wipe(True)
        self._thread.join()


class _Above:
    """Standard error, before which the line is wiped."""

    def __init__(self, line: _Line, stream: TextIO) -> None:
        self._line = line
        self._stream = stream

    def write(self, text: str) -> int:
        """Writes behind the wiped line."""
        self._line.wipe()
        return self._stream.write(text)

    def __getattr__(self, name: str) -> Any:
        return getattr(self._stream, name)


_line: Optional[_Line] = None


@contextlib.contextmanager
def shown(name: str) -> Iterator[None]:
    """Within it the line of a command is shown, where standard error is a terminal."""
    global _line
    stream = sys.stderr
    if not stream.isatty():
        yield
        return
    _line = line = _Line(name, stream)
    sys.stderr = _Above(line, stream)  # type: ignore[assignment]
    try:
        yield
    finally:
        sys.stderr = stream
        _line = None
        line.end()


@contextlib.contextmanager
def saying(said: Callable[[], str]) -> Iterator[None]:
    """Within it the line says this, too."""
    line = _line
    if line is None:
        yield
        return
    line.said.append(said)
    try:
        yield
    finally:
        line.said.remove(said)


def hold() -> None:
    """Takes the line away, and keeps it away until `go_on`: before standard output is written."""
    if _line is not None:
        _line.wipe(True)


def go_on() -> None:
    """Lets the line be written again."""
    if _line is not None:
        _line.wipe(False)
