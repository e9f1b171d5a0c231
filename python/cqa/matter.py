"""Which conflicts matter: how many disputed rows of some questions hang on each key in conflict, and how wide it makes a range.

A disputed row hangs on a key if a row of the key stands against it, as `against row` says: each of those rows is needed there, so
deciding the key otherwise gives the row in some choice of the others.
"""

from __future__ import annotations

import contextlib
import re
from collections import Counter
from dataclasses import dataclass, field
from decimal import Decimal
from typing import Dict, Iterator, List, Mapping, NamedTuple, Optional, Sequence, Tuple

from . import underway
from .answers import Kept, against
from .errors import Refused
from .replies import row_of
from .rows import Cell, Rows
from .scripts import Schema, aggregate_of, parts_of, quoted
from .session import Session

#: A key in conflict: its table, and the values of its key as they are stored.
Key = Tuple[str, Tuple[Cell, ...]]

#: How many disputed rows of a question are looked at, and how many keys of a range.
MOST_ROWS = 10_000
MOST_KEYS = 2_000


class Question(NamedTuple):
    """A query, or what stands behind `range`."""

    query: str
    is_range: bool


def question_of(text: str) -> Question:
    """A question as it is written: a query, or `range` and what stands behind it."""
    found = re.match(r"\s*range\s", text)
    return Question((text[found.end():] if found else text).strip().rstrip(";"), found is not None)


@dataclass
class Hanging:
    """What hangs on the keys in conflict for one question.

    rows: how many disputed rows hang on each key. answers: these rows, as they are stored. widths: by how much deciding the key can narrow
    the range at most. disputed: how many rows of the question are disputed. looked_at: of how many of them, or of how many keys, it was
    told. untold: of how many rows it can't be told, since they have too many witnesses, or since their search is spent, or since no rows
    of two parts stand against them together.
    """

    question: Question
    rows: "Counter[Key]" = field(default_factory=Counter)
    answers: Dict[Key, List[Tuple[Cell, ...]]] = field(default_factory=dict)
    widths: Dict[Key, Decimal] = field(default_factory=dict)
    disputed: int = 0
    looked_at: int = 0
    untold: int = 0


class Blocks:
    """The keys in conflict of a session's tables, with their rows as they are stored."""

    def __init__(self, session: Session) -> None:
        self.session = session
        self.schemas: Dict[str, Schema] = {schema.table: schema for schema in session.tables()}

    def key_of(self, kept: Kept) -> Key:
        """The key of a row of a table."""
        table, row = kept
        schema = self.schemas[table]
        names = list(schema.columns)
        return table, tuple(row[names.index(name)] for name in schema.key)

    def rows(self, key: Key) -> List[Tuple[Cell, ...]]:
        """The rows of a key."""
        table, values = key
        schema = self.schemas[table]
        lines = self.session.tell("possible select %s from %s where %s;" % (", ".join(schema.columns), table, tests(schema.key, values)))
        return [row_of(line) for line in lines[:-1]]

    @contextlib.contextmanager
    def decided(self, kept: Sequence[Kept]) -> Iterator[None]:
        """While it lasts these rows are the only ones of their keys."""
        taken: List[Kept] = []
        try:
            for table, row in kept:
                for other in self.rows(self.key_of((table, row))):
                    if other != row:
                        self.session.tell("delete from %s where %s;" % (table, tests(list(self.schemas[table].columns), other)))
                        taken.append((table, other))
            yield
        finally:
            for table, row in taken:
                self.session.tell("insert into %s values (%s);" % (table, ", ".join(map(_literal, row))))


def tests(names: Sequence[str], values: Sequence[Cell]) -> str:
    """The tests that a row with these values passes."""
    return " and ".join("%s = %s" % (name, _literal(value)) for name, value in zip(names, values))


def _literal(value: Cell) -> str:
    """A stored value as it is written."""
    assert not isinstance(value, Decimal)
    return quoted(value)


def hanging(session: Session, question: Question, keys: Sequence[Key]) -> Hanging:
    """What hangs on keys in conflict for a question. Raises Refused where the question is refused."""
    found = Hanging(question)
    with underway.saying(lambda: "%s, %s looked at" % (question.query, format(found.looked_at, ","))):
        (_of_range if question.is_range else _of_rows)(Blocks(session), found, keys)
    return found


# Disputed rows.

def _of_rows(blocks: Blocks, found: Hanging, _: Sequence[Key]) -> None:
    question = found.question
    rows = _disputed(blocks.session, question.query)
    found.disputed = len(rows)
    for row in _sample(rows, MOST_ROWS):
        found.looked_at += 1
        kept = _against(blocks, row, parts_of(question.query))
        if kept is None:
            found.untold += 1
        else:
            for key in {blocks.key_of(one) for one in kept}:
                found.rows[key] += 1
                found.answers.setdefault(key, []).append(row)


def _disputed(session: Session, query: str) -> List[Tuple[Cell, ...]]:
    """The disputed rows as they are stored."""
    if len(parts_of(query)) == 1:
        return _rows(session, "disputed", query)
    certain = set(_rows(session, "ask", query))
    return [row for row in _rows(session, "possible", query) if row not in certain]


def _rows(session: Session, verb: str, query: str) -> List[Tuple[Cell, ...]]:
    return [row_of(line) for line in session.tell("%s %s;" % (verb, query))[:-1]]


def _sample(rows: List[Tuple[Cell, ...]], most: int) -> Sequence[Tuple[Cell, ...]]:
    """At most so many rows, evenly from all."""
    return rows if len(rows) <= most else [rows[at * len(rows) // most] for at in range(most)]


def _against(blocks: Blocks, row: Tuple[Cell, ...], parts: Sequence[str]) -> Optional[List[Kept]]:
    """The rows that stand against a row, each of which is needed; None where they can't be told."""
    try:
        kept = _against_parts(blocks, row, parts, [])
    except Refused:
        return None
    if kept is None or len(parts) == 1:
        return kept
    return [one for one in kept if _is_needed(blocks, row, parts, [other for other in kept if other != one])]


def _against_parts(blocks: Blocks, row: Tuple[Cell, ...], parts: Sequence[str], kept: List[Kept]) -> Optional[List[Kept]]:
    """The rows against each part of a union in turn, those of the parts before being decided."""
    if not parts:
        return kept
    with blocks.decided(kept):
        lines = blocks.session.tell("against row (%s) for %s;" % (", ".join(map(_literal, row)), parts[0]))
    if lines == ["certain"]:
        return None
    return _against_parts(blocks, row, parts[1:], kept + _kept(lines))


def _kept(lines: List[str]) -> List[Kept]:
    return list(against(lines).kept)


def _is_needed(blocks: Blocks, row: Tuple[Cell, ...], parts: Sequence[str], others: Sequence[Kept]) -> bool:
    """Whether the row is possible while these rows are decided."""
    with blocks.decided(others):
        return any(row in _rows(blocks.session, "possible", part) for part in parts)


# Ranges.

def _of_range(blocks: Blocks, found: Hanging, keys: Sequence[Key]) -> None:
    question = found.question
    tables = aggregate_of(question.query).tables
    whole = _width(blocks.session, question.query)
    concerned = [key for key in keys if key[0] in tables]
    found.disputed = 1 if whole else 0
    for key in concerned[:MOST_KEYS] if whole else []:
        found.looked_at += 1
        narrowed = whole - min(_width_with(blocks, question.query, key[0], row) for row in blocks.rows(key))
        if narrowed > 0:
            found.widths[key] = narrowed
    found.untold = len(concerned) - found.looked_at if whole else 0


def _width_with(blocks: Blocks, aggregate: str, table: str, row: Tuple[Cell, ...]) -> Decimal:
    """How far the ends of a range are apart while a row is the only one of its key."""
    with blocks.decided([(table, row)]):
        return _width(blocks.session, aggregate)


def _width(session: Session, aggregate: str) -> Decimal:
    """How far the ends of a range are apart, in all groups together. Ends that aren't numbers are 1 apart if they differ."""
    if aggregate_of(aggregate).group:
        return sum((_apart(one.least, one.greatest) for one in session.ranges(aggregate)), Decimal(0))
    whole = session.range(aggregate)
    return _apart(whole.least, whole.greatest)


def _apart(least: Optional[Cell], greatest: Optional[Cell]) -> Decimal:
    if isinstance(least, (int, Decimal)) and isinstance(greatest, (int, Decimal)):
        return Decimal(greatest) - Decimal(least)
    return Decimal(0 if least == greatest else 1)


# The rank.

def with_places(value: Cell, places: int) -> Decimal:
    """A stored number with its places."""
    return Decimal(value).scaleb(-places)


def counted(count: int, name: str) -> str:
    """A count with its name, which takes an `s` for several."""
    return "%s %s%s" % (format(count, ","), name, "" if count == 1 else "s")


def ranked(keys: Sequence[Key], found: Sequence[Hanging]) -> List[Key]:
    """The keys in the order in which it helps to decide them: by how many disputed rows hang on them, then by how much they widen
    ranges, each by its share; those on which nothing hangs come last. Else the order stays."""
    whole = [max(one.widths.values(), default=Decimal(0)) for one in found]

    def weight(key: Key) -> Tuple[int, Decimal]:
        shares = (one.widths.get(key, Decimal(0)) / most for one, most in zip(found, whole) if most)
        return -sum(one.rows[key] for one in found), -sum(shares, Decimal(0))

    return sorted(keys, key=weight)


def matters(key: Key, found: Sequence[Hanging]) -> bool:
    """Whether something hangs on a key."""
    return any(one.rows[key] or key in one.widths for one in found)


def listed(keys: Mapping[Key, str], found: Sequence[Hanging]) -> Rows:
    """A row for each key, told with its text: its table, this text, how many disputed rows hang on it, and by how much
    deciding it narrows each range at most."""
    ranges = [one for one in found if one.question.is_range]
    names = ("table", "key", "disputed rows", *("range " + one.question.query for one in ranges))
    return Rows(names, [(key[0], text, sum(one.rows[key] for one in found), *(one.widths.get(key, 0) for one in ranges))
                        for key, text in keys.items()])
