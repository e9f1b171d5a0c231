"""Groups of lists decided by `cqa judge`: the program as a child that reads groups and writes one line for each.

A group has blocks, each with a number of rows, and lists of rows. It is certain where each choice of a row of each block holds all rows
of some list. Both pipes are bounded, so a thread reads replies while groups are written.
"""

from __future__ import annotations

import contextlib
import queue
import subprocess
import threading
from collections import deque
from typing import BinaryIO, Deque, Dict, Generic, Iterable, Iterator, List, NamedTuple, Optional, Sequence, Tuple, TypeVar

from .errors import NotBuilt, ReplyFault, ended
from .program import found_program

Tag = TypeVar("Tag")
Name = Tuple[int, int]

_MOST_WAITING = 4096
_PIECE = 1 << 16


class Verdict(NamedTuple):
    """is_certain: whether each choice holds a list whole. choice: where not, the row of each block that a choice has which holds none."""

    is_certain: bool
    choice: Dict[int, int]


class Group(NamedTuple):
    """sizes: the number of rows of each block, by any number of the block. lists: each the rows that it names, as (block, row), rows
    from 1."""

    sizes: Dict[int, int]
    lists: Sequence[Sequence[Name]]

    def text(self) -> bytes:
        """The group's lines, with its blocks numbered from 1 in the order of `sizes`."""
        numbers = {block: at for at, block in enumerate(self.sizes, 1)}
        lines = ["g " + " ".join(map(str, self.sizes.values()))]
        lines += ["l " + " ".join(["%d:%d" % (numbers[block], row) for block, row in names]) for names in self.lists]
        return ("\n".join(lines) + "\ne\n").encode()


class Judge(Generic[Tag]):
    """A running `cqa judge`. What is told with a group comes back with its verdict, in order."""

    def __init__(self, program: Optional[str] = None, conflicts: Optional[int] = None) -> None:
        """conflicts: the limit of a search. Raises NotBuilt where there is no program."""
        self.program = found_program(program)
        words = [self.program, "judge"] + ([] if conflicts is None else [str(conflicts)])
        try:
            self._process = subprocess.Popen(words, stdin=subprocess.PIPE, stdout=subprocess.PIPE, bufsize=0, start_new_session=True)
        except OSError as fault:
            raise NotBuilt("%s can't be started: %s" % (self.program, fault.strerror or fault)) from None
        assert self._process.stdin is not None and self._process.stdout is not None
        self._replies: "queue.SimpleQueue[bytes]" = queue.SimpleQueue()
        self._waiting: Deque[Tuple[Tag, Group]] = deque()
        self._kept: List[bytes] = []
        self._kept_size = 0
        self._reader = threading.Thread(target=_read_lines, args=(self._process.stdout, self._replies), daemon=True)
        self._reader.start()

    def verdicts(self, groups: Iterable[Tuple[Tag, Group]]) -> Iterator[Tuple[Tag, Verdict]]:
        """Judges groups, and gives the verdicts in their order. Raises ReplyFault or Ended where the program doesn't answer."""
        for tag, group in groups:
            self._send(tag, group)
            while not self._replies.empty() or len(self._waiting) >= _MOST_WAITING:
                yield self._next()
        self._flush()
        while self._waiting:
            yield self._next()

    def _send(self, tag: Tag, group: Group) -> None:
        self._waiting.append((tag, group))
        text = group.text()
        self._kept.append(text)
        self._kept_size += len(text)
        if self._kept_size >= _PIECE:
            self._flush()

    def _flush(self) -> None:
        assert self._process.stdin is not None
        text, self._kept, self._kept_size = b"".join(self._kept), [], 0
        with contextlib.suppress(BrokenPipeError):  # the end of the replies tells why
            view = memoryview(text)
            while view:
                view = view[self._process.stdin.write(view):]

    def _next(self) -> Tuple[Tag, Verdict]:
        if self._replies.empty():
            self._flush()
        line = self._replies.get()
        if not line.endswith(b"\n"):
            raise ended(self._process.wait(), self.program)
        tag, group = self._waiting.popleft()
        return tag, _verdict(line.decode("ascii", "replace").split(), group)

    def close(self) -> None:
        """Ends the program."""
        assert self._process.stdin is not None and self._process.stdout is not None
        with contextlib.suppress(BrokenPipeError):
            self._process.stdin.close()
        if self._waiting:
            self._process.kill()
        self._process.wait()
        self._reader.join()
        self._process.stdout.close()


def judged(groups: Iterable[Tuple[Tag, Group]], program: Optional[str] = None) -> Iterator[Tuple[Tag, Verdict]]:
    """Judges groups by a program of its own, which is started with the first of them."""
    source = iter(groups)
    first = next(source, None)
    if first is None:
        return
    judge: Judge[Tag] = Judge(program)
    try:
        yield from judge.verdicts(_chained(first, source))
    finally:
        judge.close()


def _chained(first: Tuple[Tag, Group], rest: Iterator[Tuple[Tag, Group]]) -> Iterator[Tuple[Tag, Group]]:
    yield first
    yield from rest


def _read_lines(stream: BinaryIO, replies: "queue.SimpleQueue[bytes]") -> None:
    """Puts each line into a queue, and at the end one without a line feed."""
    rest = b""
    with contextlib.suppress(ValueError, OSError):
        while True:
            piece = stream.read(_PIECE)
            if not piece:
                break
            *lines, rest = (rest + piece).split(b"\n")
            for line in lines:
                replies.put(line + b"\n")
    replies.put(rest)


def _verdict(words: List[str], group: Group) -> Verdict:
    """What a reply says of a group. Raises ReplyFault where it is none."""
    if words == ["certain"]:
        return Verdict(True, {})
    if words[:1] == ["open"] and len(words) == 1 + len(group.sizes) and all(word.isdigit() for word in words[1:]):
        choice = dict(zip(group.sizes, map(int, words[1:])))
        if all(any(choice[block] != row for block, row in names) for names in group.lists):
            return Verdict(False, choice)
    if words[:1] == ["refused"]:
        raise ReplyFault("a group of lists was refused: %s" % " ".join(words[1:]))
    raise ReplyFault("no verdict: %r" % " ".join(words)[:200])
