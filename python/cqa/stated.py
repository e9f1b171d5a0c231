"""What a script of decisions says of the tables that it was saved for: it runs over these rows and no others."""

from __future__ import annotations

import hashlib
import re
from typing import Iterable, List, NamedTuple, Sequence

from .scripts import gaps

_STATED = re.compile(rb"^-- cqa: table (\w+) \((\w+(?:, \w+)*)\) has (\d+) rows with the sha256 ([0-9a-f]{64})$", re.M)


class Stated(NamedTuple):
    """A table, its columns in the order in which its rows are told, how many rows it has, and their digest."""

    table: str
    columns: Sequence[str]
    rows: int
    digest: str

    def text(self) -> str:
        """The comment that says so."""
        return "-- cqa: table %s (%s) has %d rows with the sha256 %s\n" % (self.table, ", ".join(self.columns), self.rows, self.digest)

    def question(self) -> str:
        """The statement whose reply shows the rows."""
        return "possible select %s from %s;" % (", ".join(self.columns), self.table)

    def fault(self, lines: Sequence[bytes]) -> str:
        """Why the lines of the reply aren't those of the rows, or nothing. They have no line feeds."""
        found = stated(self.table, self.columns, lines)
        if found == self:
            return ""
        there = "%d rows in place of %d" % (found.rows, self.rows) if found.rows != self.rows else "other rows"
        return "it was saved for other lists: %s has %s now; decide anew, or take its line `-- cqa: table %s ..` out" % (self.table, there, self.table)


def stated(table: str, columns: Sequence[str], lines: Sequence[bytes]) -> Stated:
    """What is to be said of a table whose rows are told by these lines, the last of which tells their number."""
    return Stated(table, tuple(columns), max(0, len(lines) - 1), _digest(lines[:-1]))


def _digest(lines: Iterable[bytes]) -> str:
    digest = hashlib.sha256()
    for line in lines:
        digest.update(line + b"\n")
    return digest.hexdigest()


def stated_of(script: bytes) -> List[Stated]:
    """What the comments before the first statement of a script say of tables."""
    comments = next((comments for _, comments in gaps(script, 0)), b"")
    return [Stated(table.decode(), tuple(columns.decode().split(", ")), int(rows), digest.decode())
            for table, columns, rows, digest in _STATED.findall(comments)]
