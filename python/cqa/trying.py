"""The command `try`: what other commands do, by the program without its proofs, with one compile for all of them."""

from __future__ import annotations

import contextlib
import io
import os
import sys
import warnings
from functools import partial
from typing import Callable, Dict, List, NamedTuple, Optional, Sequence, Tuple

from . import load_command, looking, report, running
from .ending import ended_with
from .files import said, standard_output, unwritten
from .program import Process, started_by
from .rehearsal import Known, StandIn, Told, learnt, script_of
from .unproved import MOST_INPUT, NotCompiled, Outcome, Run, compile_time, kit, outcomes

_NAME = "the unproved program"
_MOST_ROUNDS = 5
_USAGE = """cqa try <SCRIPT                   runs a script from standard input, unproved; so does `try run <SCRIPT`
cqa try COMMAND [then COMMAND ..] runs commands by one compile: run FILE .., csv, conflicts, report, check <PROOF, demo SIZE, load
"""
_COMMANDS: Dict[str, Callable[[Sequence[str]], int]] = {
    "run": running.main, "csv": looking.csv_main, "conflicts": looking.conflicts_main, "report": report.main}


class Ending(NamedTuple):
    """How a rehearsal ended: its status, what has to be run before it can be played, and what of the system no run mends."""

    status: int
    runs: Sequence[Run]
    fault: Optional[OSError] = None


class Piece:
    """A command of a visit."""

    def __init__(self, words: Sequence[str]) -> None:
        self.words = words

    def rehearsed(self) -> Ending:
        """What the command does as far as it is known, without a trace."""
        raise NotImplementedError

    def learn(self, results: Sequence[Outcome]) -> None:
        """Takes what the runs of the last rehearsal gave. Raises NotCompiled where one gave nothing."""
        raise NotImplementedError

    def played(self) -> int:
        """Does what the command does, once all is known, and gives its status."""
        raise NotImplementedError


class Whole(Piece):
    """A run of the program itself: a script or a proof from standard input, or a `demo`."""

    def __init__(self, words: Sequence[str], script: bytes) -> None:
        super().__init__(words)
        self._script = script
        self._outcome: Optional[Outcome] = None

    def rehearsed(self) -> Ending:
        return Ending(0, [] if self._outcome else [Run(tuple(self.words), self._script)])

    def learn(self, results: Sequence[Outcome]) -> None:
        self._outcome = _whole(results[0])

    def played(self) -> int:
        assert self._outcome is not None
        with standard_output() as out:
            out.write(self._outcome.written)
        return self._outcome.status


class Spoken(Piece):
    """A command of Python, which asks the program."""

    def __init__(self, words: Sequence[str], known: Known) -> None:
        super().__init__(words)
        self._known = known
        self._children: List[StandIn] = []
        self._sent: List[Sequence[Told]] = []

    def rehearsed(self) -> Ending:
        with unwritten(), warnings.catch_warnings(), contextlib.redirect_stdout(io.StringIO()), contextlib.redirect_stderr(io.StringIO()):
            fault = None
            try:
                status = self.played()
            except OSError as raised:
                status, fault = 1, raised
            except Exception:  # a guess leads astray; or it is raised again where the command is played
                status = 1
        self._sent = [told for told in (child.told() for child in self._children) if told]
        return Ending(status, [Run(("run",), script_of(told)) for told in self._sent], fault)

    def learn(self, results: Sequence[Outcome]) -> None:
        for told, result in zip(self._sent, results):
            self._known.update(learnt(told, _whole(result).written, result.status))

    def played(self) -> int:
        self._children = []
        with started_by(self._start):
            try:
                return _COMMANDS[self.words[0]](self.words[1:])
            except SystemExit as end:
                return end.code if isinstance(end.code, int) else 2

    def _start(self, program: Optional[str], is_apart: bool) -> Tuple[str, Process]:
        child = StandIn(self._known)
        self._children.append(child)
        return _NAME, child


def _whole(outcome: Outcome) -> Outcome:
    if outcome.fault:
        raise NotCompiled(outcome.fault)
    return outcome


def main(arguments: Sequence[str]) -> int:
    """The command `try`."""
    if arguments[:1] and arguments[0] in ("--help", "-h"):
        print(_USAGE, end="")
        return 0
    try:
        return _main(arguments)
    except NotCompiled as fault:
        print("cqa try: %s" % fault, file=sys.stderr)
        return fault.status


def _main(arguments: Sequence[str]) -> int:
    commands = _commands(arguments)
    fault = _word_fault(commands)
    if fault:
        print("cqa try: %s" % fault, file=sys.stderr)
        return 2
    kit()
    known: Known = {}
    pieces: List[Piece] = []
    for words in commands:
        if words[0] == "load":
            status = ended_with("load", partial(load_command.main, words[1:]))
            if status:
                return status
            continue
        piece = _piece(words, known)
        if isinstance(piece, int):
            return piece
        first = piece.rehearsed()
        if first.fault is not None:
            return ended_with(words[0], partial(_raised, first.fault))
        if first.status and not first.runs:
            return ended_with(words[0], piece.played)  # its words are at fault, and a compile mends none
        pieces.append(piece)
    _run_all(pieces)
    statuses = [ended_with(piece.words[0], piece.played) for piece in pieces]
    return next((status for status in statuses if status), 0)


def _commands(arguments: Sequence[str]) -> List[List[str]]:
    """The commands between the words `then`."""
    commands: List[List[str]] = [[]]
    for word in arguments or ("run",):
        if word == "then":
            commands.append([])
        else:
            commands[-1].append(word)
    return commands


def _word_fault(commands: Sequence[Sequence[str]]) -> str:
    """What is wrong with the commands, before anything is run."""
    for words in commands:
        if not words:
            return "a command is wanted on both sides of `then`"
        if words[0] == "shell":
            return ("a shell can't be tried: an unproved run has all of its input before it begins. Put the statements into a file, "
                    "`./cqa try run FILE`, or ./cqa build")
        if words[0] not in (*_COMMANDS, "load", "check", "demo"):
            return "no command %s; what can be tried: run, csv, conflicts, report, check, demo and load, with `then` between two" % words[0]
        if words[0] == "check" and len(words) > 1:
            return "check reads standard input: cqa try check <PROOF"
        if words[0] == "demo" and not (len(words) == 2 and words[1].isascii() and words[1].isdigit() and len(words[1]) <= 6 and 1 <= int(words[1]) <= 100_000):
            return "demo wants a size from 1 to 100000"
    if sum(_reads_input(words) for words in commands) > 1:
        return "one command alone can read standard input"
    return ""


def _reads_input(words: Sequence[str]) -> bool:
    return list(words) in (["run"], ["check"])


def _piece(words: Sequence[str], known: Known) -> "Piece | int":
    """A command, or the status where its input can't be read."""
    if words[0] == "demo":
        return Whole(words, b"")
    if not _reads_input(words):
        return Spoken(words, known)
    if sys.stdin.isatty():
        print("cqa: reading standard input; Ctrl-D ends it", file=sys.stderr)
    try:
        return Whole(words, sys.stdin.buffer.read(MOST_INPUT + 1))
    except OSError as fault:
        is_folder = isinstance(fault, IsADirectoryError)
        print("cqa: %s" % ("standard input is a folder" if is_folder else "standard input: " + said(fault)), file=sys.stderr)
        return 3


def _run_all(pieces: Sequence[Piece]) -> None:
    """Compiles and runs until every reply is known that the commands ask for: once, or twice where a question depends on a reply."""
    for count in range(_MOST_ROUNDS):
        waiting = [(piece, ending.runs) for piece, ending in ((piece, piece.rehearsed()) for piece in pieces) if ending.runs]
        if not waiting:
            return
        runs = [run for _, some in waiting for run in some]
        if any(len(run.script) > MOST_INPUT for run in runs):
            raise NotCompiled("an input is longer than %s bytes, which is the most of an unproved run: ./cqa build takes 268,435,456"
                              % format(MOST_INPUT, ","), 6)
        _tell(count)
        results = iter(outcomes(_top(), runs))
        for piece, some in waiting:
            piece.learn([next(results) for _ in some])
    raise NotCompiled("the replies lead to ever more questions: ./cqa build")


def _raised(fault: OSError) -> int:
    raise fault


def _tell(count: int) -> None:
    """Says what is about to happen, and what its replies are worth."""
    if count:
        print("cqa: once more, for questions that the first replies raise", file=sys.stderr)
        return
    print("cqa: unproved: the program is compiled without its proofs, in about %s.\n"
          "cqa: Nothing is proved of its replies, and it is slow; ./cqa build proves and builds it." % compile_time(), file=sys.stderr)
    if os.access(os.path.join(_top(), "crates", "cqa_cli", "out", "cqa_cli"), os.X_OK):
        print("cqa: It is built already: without `try` the same words answer at once.", file=sys.stderr)
    sys.stderr.flush()


def _top() -> str:
    """The repository in which this file stands. Raises NotCompiled where it stands elsewhere."""
    top = os.path.dirname(os.path.dirname(os.path.dirname(os.path.abspath(__file__))))
    if not os.path.isfile(os.path.join(top, "crates.txt")):
        raise NotCompiled("%s is no repository of cqa, whose sources are compiled: run ./cqa try there" % top, 127)
    return top
