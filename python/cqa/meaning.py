"""What a statement means over columns with places, whose numbers are stored as ints, and over columns of times: how it is sent, what is
to know of it, and what has no right meaning."""

from __future__ import annotations

import re
from decimal import Decimal
from typing import Callable, List, Mapping, NamedTuple, Sequence, Tuple

from .blocks import ENDS_BLOCK
from .columns import is_time
from .marks import Marks, is_state
from .queries import Part, Said, Test, Token, said
from .scaling import factor, shown_number
from .scripts import Schema, Statement, list_line

_SHOWS = ("ask", "possible", "disputed", "explain", "against", "prove", "range", "")
_COPIED = re.compile(rb"copy\s+(\w+)\s*\Z")
_AT = re.compile(r" at (\d+)$")

#: The tables that are there, asked for where it matters.
Schemas = Callable[[], Mapping[str, Schema]]


class Fault(NamedTuple):
    """What has no right meaning, and where in the statement it stands, in letters."""

    at: int
    text: str


class Edit(NamedTuple):
    """What of a statement is sent otherwise than it is written: its place as written, in letters, and what is sent."""

    begin: int
    end: int
    sent: str


class Meaning(NamedTuple):
    """A statement as it is sent, where numbers with a point stand as their columns store them: credit >= 12.50 is credit >= 1250.

    notes: what to know of numbers that it names. shown: of columns that its reply shows as they are stored. faults: what puts together
    columns that don't fit, or tests a time by what is none. wrong: what can't be sent at all.
    """

    text: str
    edits: Sequence[Edit] = ()
    notes: Sequence[str] = ()
    shown: Sequence[str] = ()
    faults: Sequence[Fault] = ()
    wrong: Sequence[Fault] = ()

    def sent(self) -> str:
        """The statement as it is sent."""
        parts, at = [], 0
        for edit in self.edits:
            parts += [self.text[at:edit.begin], edit.sent]
            at = edit.end
        return "".join(parts) + self.text[at:]

    def refusal(self, line: str) -> str:
        """The line of a refusal of the statement that was sent, with its offset as one of the statement that was written."""
        found = _AT.search(line)
        if found is None or not self.edits:
            return line
        return "%s at %d" % (line[:found.start()], self._written(int(found[1])))

    def _written(self, offset: int) -> int:
        """The offset in the written statement, in bytes, of one in the statement that was sent."""
        moved = 0
        for edit in self.edits:
            begin = _size(self.text[:edit.begin])
            size = _size(self.text[edit.begin:edit.end])
            if offset + moved < begin + len(edit.sent):
                return min(offset + moved, begin)
            moved += size - len(edit.sent)
        return offset + moved


def meaning_of(text: str, marks: Marks, schemas: Schemas) -> Meaning:
    """What a statement, or a query alone, means over columns of which the comments of scripts say something."""
    return _Meant(text, marks, schemas).meaning() if marks else Meaning(text)


class _Column(NamedTuple):
    """A column of a statement: its name with its table where that is known, its places if it has some, and the form of its times."""

    name: str
    places: int
    time: str
    kind: str


class _Meant:
    """Looks at the parts of one statement."""

    def __init__(self, text: str, marks: Marks, schemas: Schemas) -> None:
        self._text = text
        self._marks = marks
        self._schemas = schemas
        self._edits: List[Edit] = []
        self._notes: List[str] = []
        self._faults: List[Fault] = []
        self._wrong: List[Fault] = []

    def meaning(self) -> Meaning:
        """What was found."""
        statement = said(self._text)
        for part in statement.parts:
            for test in part.tests:
                self._test(test, part.tables)
        if statement.verb == "insert":
            self._insert(statement)
        else:
            self._rows(statement)
            self._union(statement.parts)
        if statement.verb == "sql":
            self._notes += ["the text speaks of %s as it is stored here, times %s: the column there has to be so, too" % (name, factor(places))
                            for name, places in self._with_places(statement.parts, True)]
        shown = ["%s is shown as it is stored, times %s" % (name, factor(places))
                 for name, places in self._with_places(statement.parts[:1], False)] if statement.verb in _SHOWS else []
        return Meaning(self._text, sorted(self._edits), list(dict.fromkeys(self._notes)), shown, self._faults, self._wrong)

    def _with_places(self, parts: Sequence[Part], has_tests: bool) -> List[Tuple[str, int]]:
        """The columns that queries select, and those that they test, as far as they have places."""
        named = [(column, part.tables) for part in parts for column in part.columns + ([test.column for test in part.tests] if has_tests else [])]
        found = {column.word: self._places(column.word, tables) for column, tables in named}
        return [(name, places) for name, places in found.items() if places]

    def _owner(self, column: str, tables: Sequence[str]) -> Tuple[str, str]:
        """The table and the name of a column as a query names it; no table where none is known to have it."""
        owner, _, name = column.rpartition(".")
        if owner:
            return owner, name
        marked = (table for table in tables if (table, name) in self._marks.places or (table, name) in self._marks.times)
        return next(marked, ""), name

    def _places(self, column: str, tables: Sequence[str]) -> int:
        return self._marks.places.get(self._owner(column, tables), 0)

    def _time(self, column: str, tables: Sequence[str]) -> str:
        return self._marks.times.get(self._owner(column, tables), "")

    def _column(self, column: str, tables: Sequence[str]) -> _Column:
        """A column with all that is known of it."""
        owner, name = self._owner(column, tables)
        there = self._schemas()
        owner = owner or next((table for table in tables if table in there and name in there[table].columns), "")
        kind = there[owner].columns.get(name, "") if owner in there else ""
        return _Column(owner + "." + name if owner else name, self._marks.places.get((owner, name), 0), self._marks.times.get((owner, name), ""), kind)

    # -- tests --------------------------------------------------------------------------------------------------------------

    def _test(self, test: Test, tables: Sequence[str]) -> None:
        name, right = test.column.word, test.right
        if right.is_column:
            self._both(test.column, tables, right, tables, test.column.begin, "are compared")
        elif right.is_number:
            self._number(right, name, self._places(name, tables))
        elif right.is_text:
            self._moment(right, name, self._time(name, tables), test.operator)

    def _number(self, token: Token, name: str, places: int) -> None:
        """A number that stands for one of a column: with a point it is scaled, and without one it is told."""
        if not places:
            return
        whole, point, rest = token.word.partition(".")
        if not point:
            value = Decimal(whole)
            if value:
                self._notes.append("%s is stored times %s: %s stands for %s here; write %s for %s" % (
                    name, factor(places), token.word, shown_number(value.scaleb(-places), places), shown_number(value, places), token.word))
        elif len(rest.rstrip("0")) > places:
            self._wrong.append(Fault(token.begin, "%s has %s, and %s has more" % (name, _said_places(places), token.word)))
        else:
            self._edits.append(Edit(token.begin, token.end, str(int(whole + rest.rstrip("0").ljust(places, "0")))))

    def _moment(self, token: Token, name: str, form: str, operator: str) -> None:
        """A text that stands for a time of a column."""
        if form and not is_of_form(token.value, form, operator):
            self._faults.append(Fault(token.begin, "%s has times as %s, and %s is none" % (name, form, token.word)))

    # -- columns that meet --------------------------------------------------------------------------------------------------

    def _both(self, one: Token, tables: Sequence[str], other: Token, its_tables: Sequence[str], at: int, how: str) -> None:
        """Two columns that are compared, or that are one column of an answer."""
        if (self._places(one.word, tables) == self._places(other.word, its_tables)
                and self._time(one.word, tables) == self._time(other.word, its_tables)):
            return
        left, right = self._column(one.word, tables), self._column(other.word, its_tables)
        if left.kind and right.kind and left.kind != right.kind:
            return  # the program refuses it
        if left.places != right.places:
            self._faults.append(Fault(at, _places_differ(left, right, how)))
        elif left.time and right.time:
            self._faults.append(Fault(at, "%s has times as %s and %s as %s, and they %s as texts" % (left.name, left.time, right.name, right.time, how)))
        elif left.time != right.time:
            known, other_one = (left, right) if left.time else (right, left)
            self._notes.append("%s has times as %s, and %s is any text, and they %s as texts: --time %s loads it as times" % (
                known.name, known.time, other_one.name, how, other_one.name.rpartition(".")[2]))

    def _union(self, parts: Sequence[Part]) -> None:
        first = parts[0]
        for part in parts[1:]:
            for one, other in zip(first.columns, part.columns):
                self._both(one, first.tables, other, part.tables, other.begin, "are one column of the answer")

    # -- rows ---------------------------------------------------------------------------------------------------------------

    def _rows(self, statement: Said) -> None:
        """The row of which a statement asks why."""
        first = statement.parts[0]
        for row in statement.rows:
            for token, column in zip(row, first.columns):
                self._literal(token, column.word, self._places(column.word, first.tables), self._time(column.word, first.tables))

    def _insert(self, statement: Said) -> None:
        """The rows of an insert. One with a line that would end a block may be written by `load` or by a dump, as it is stored, so nothing
        is said of its numbers without a point."""
        table = "".join(statement.parts[0].tables)
        schema = self._schemas().get(table)
        if schema is None:
            return
        marked = [(self._marks.places.get((table, name), 0), self._marks.times.get((table, name), ""), "%s.%s" % (table, name)) for name in schema.columns]
        if not any(places or time for places, time, _ in marked):
            return
        told = len(self._notes)
        for row in statement.rows:
            for token, (places, time, name) in zip(row, marked):
                self._literal(token, name, places, time)
        of_column = {note.partition(" ")[0]: note for note in reversed(self._notes[told:])}
        self._notes[told:] = [] if ENDS_BLOCK.search(self._text) else list(of_column.values())

    def _literal(self, token: Token, name: str, places: int, time: str) -> None:
        if token.is_number:
            self._number(token, name, places)
        elif token.is_text:
            self._moment(token, name, time, "=")


def is_of_form(value: str, form: str, operator: str = "=") -> bool:
    """Whether a text is a time of a form, so that it compares to others by the order in time. Behind `>=` and `<` the beginning of one is,
    as 2026 or 2026-03: it stands for the first time that begins so."""
    if len(value) == len(form):
        return is_time(value)
    if operator not in (">=", "<") or len(value) > len(form):
        return False
    return len(value) in (4, 7, 10) and is_time(value + "0001-01-01"[len(value):])


def _places_differ(left: _Column, right: _Column, how: str) -> str:
    less, more = (left, right) if left.places < right.places else (right, left)
    table, _, column = less.name.rpartition(".")
    stored = "" if less.places else "; where it is stored so already, the line `-- cqa: column %s has %d places` says it" % (less.name, more.places)
    return "%s has %s and %s has %s, and they %s: load %s by --decimal %s:%d%s" % (
        left.name, _said_places(left.places), right.name, _said_places(right.places), how, table or column, column, more.places, stored)


def _said_places(places: int) -> str:
    return "none" if not places else "1 place" if places == 1 else "%d places" % places


def _size(text: str) -> int:
    return len(text.encode("utf-8", "surrogateescape"))


def copy_notes(script: bytes, statement: Statement, marks: Marks, own: Marks) -> List[str]:
    """What to know of a block that is copied into a table: nothing where `load` has made it, or a kept state. own: what the comments of
    the same script say, whose writer knows it."""
    found = _COPIED.match(statement.text(script))
    if found is None or is_state(script) or list_line(script, statement):
        return []
    table = found[1].decode()
    return ["%s.%s is stored times %s: records write %s as %d" % (table, name, factor(places), shown_number(Decimal(1000), places), 1000 * 10 ** places)
            for (owner, name), places in marks.places.items() if owner == table and places and (owner, name) not in own.places]
