"""The commands: python3 -m cqa load .."""

from __future__ import annotations

import contextlib
import io
import sys
from functools import partial
from typing import Callable, Dict, Sequence

from . import asking, deciding, helping, load_command, looking, report, running, shell, trying, underway
from .ending import ended_with

COMMANDS: Dict[str, Callable[[Sequence[str]], int]] = {
    "load": load_command.main,
    "run": running.main,
    "csv": looking.csv_main,
    "conflicts": looking.conflicts_main,
    "ask": asking.main,
    "report": report.main,
    "decide": deciding.main,
    "shell": shell.main,
    "help": helping.main,
    "try": trying.main,
}

#: Those that may take long without a word; the others are talked with, or say themselves how far they are.
LONG = ("load", "run", "csv", "conflicts", "report", "decide")


def main(words: Sequence[str]) -> int:
    """Runs a command and gives its status; a fault is one line on standard error, and the status isn't 0."""
    for stream, errors in ((sys.stdin, "surrogateescape"), (sys.stdout, "surrogateescape"), (sys.stderr, "backslashreplace")):
        if isinstance(stream, io.TextIOWrapper):
            stream.reconfigure(encoding="utf-8", errors=errors)
    said_commands = "cqa: the commands are %s; each tells its words by --help" % ", ".join(COMMANDS)
    if words and words[0] in ("--help", "-h"):
        print(said_commands)
        return 0
    command = COMMANDS.get(words[0]) if words else None
    if command is None:
        print(said_commands, file=sys.stderr)
        return 2
    with underway.shown(words[0]) if words[0] in LONG else contextlib.nullcontext():
        return ended_with(words[0], partial(command, words[1:]))


if __name__ == "__main__":
    sys.exit(main(sys.argv[1:]))
