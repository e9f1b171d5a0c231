"""The exceptions of the package. All of them are `CqaError`."""

from __future__ import annotations

import re
from typing import List, Optional

#: What the statuses of the program mean, apart from 0 and 1.
STATUS_CAUSES = {
    2: "its words weren't accepted",
    3: "reading the input failed",
    4: "writing the output failed",
    5: "memory ran out",
    6: "the input is longer than 268,435,456 bytes",
    7: "the command line isn't UTF-8",
    126: "it can't be started",
    127: "it isn't there",
}


class CqaError(Exception):
    """The root of what this package raises."""


class Refused(CqaError):
    """A statement was refused; it changed nothing.

    number: the number of the refusal, 1 to 23 of today's program.
    name: its name, as "UnknownTable".
    fields: what stands behind the name, as "customer" or "at 12"; may be empty.
    statement: the statement's text.
    offset: the offset in bytes of the place in the statement, where the refusal names one.
    hint: what to write in its place, or what is wrong, where that can be told; else nothing.
    """

    def __init__(self, line: str, statement: str, note: str = "", hint: str = "") -> None:
        found = re.match(r"error (\d+) (\w+) ?(.*)", line, flags=re.S)
        if found is None:
            raise ValueError("no refusal: %r" % line)
        self.line = line
        self.number = int(found[1])
        self.name = found[2]
        self.fields = found[3]
        self.statement = statement
        self.note = note
        self.hint = hint
        super().__init__("%s%s, in: %s%s" % (line, ": " + note if note else "", _shortened(statement), "; " + hint if hint else ""))

    @property
    def offset(self) -> Optional[int]:
        """The offset that the refusal names, in bytes of the statement's text."""
        found = re.search(r"(?:^| )at (\d+)$", self.fields)
        return int(found[1]) if found else None


class UnknownStatement(Refused):
    """The installed program doesn't know this statement: it is older than this package."""

    def __init__(self, line: str, statement: str, program: str, word: str) -> None:
        super().__init__(line, statement, "the program %s doesn't know `%s`; it is older than this package" % (program, word))


class NotBuilt(CqaError):
    """No program was found, or the one found can't be started."""


class Ended(CqaError):
    """The program ended before it answered. `status` is its exit status, negative where a signal ended it."""

    def __init__(self, status: int, program: str) -> None:
        self.status = status
        cause = STATUS_CAUSES.get(status) or ("signal %d ended it" % -status if status < 0 else "it ended before its answer")
        super().__init__("%s: status %d: %s" % (program, status, cause))


class Closed(CqaError):
    """The session was closed or interrupted, or its program ended before."""


class ReadingFailed(Ended):
    """Status 3: reading the input failed."""


class WritingFailed(Ended):
    """Status 4: writing the output failed."""


class MemoryRanOut(Ended):
    """Status 5: memory ran out."""


class InputTooLong(Ended):
    """Status 6: more than 268,435,456 bytes came in one session."""


class WordsUnreadable(Ended):
    """Status 7: the words of the command line can't be had."""


_BY_STATUS = {3: ReadingFailed, 4: WritingFailed, 5: MemoryRanOut, 6: InputTooLong, 7: WordsUnreadable}


def ended(status: int, program: str) -> Ended:
    """The exception for a program that ended with a status."""
    return _BY_STATUS.get(status, Ended)(status, program)


class LoadFault(CqaError):
    """A list can't be loaded, and nothing of it was. `faults` has a line for each fault, as "crm.csv:17: the key id is empty"."""

    def __init__(self, faults: List[str]) -> None:
        self.faults = faults
        super().__init__("\n".join(faults))


class LoadWarning(UserWarning):
    """What is no fault of a list and good to know, as that numbers became texts."""


class ScaleWarning(UserWarning):
    """A statement or a query tests or inserts numbers of a column with places as they are stored."""


class ScaleFault(CqaError, ValueError):
    """A query puts together numbers with different places, or times of different forms; it compares a time to what is none, or a
    number to one with more places. Or two scripts say different things of one column. Nothing was asked."""


class OutputFault(CqaError):
    """The file to write is one that is read in the same call."""


class NoSuchName(CqaError, KeyError):
    """A method names a table or a column that isn't there."""

    __str__ = Exception.__str__


class QueryRefused(CqaError):
    """SQL, a key or an option that isn't accepted over a database of the user's own; nothing was answered."""


class DatabaseFault(CqaError):
    """A database answered with a fault, or the connection to it was lost."""


class StateFault(CqaError):
    """A kept state isn't whole, or decisions were saved for other rows than those that are there."""


class ReplyFault(CqaError):
    """The program said what it never says: it isn't `cqa`, or another version."""


def _shortened(statement: str) -> str:
    line = " ".join(statement.split())
    return line if len(line) <= 200 else line[:197] + "..."
