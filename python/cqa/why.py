"""The rows by which an answer stands or falls, as tables of the page: with the names of their columns, and marks where rows of one key
differ."""

from __future__ import annotations

import re
from typing import Dict, Iterable, List, Optional, Sequence, Set, Tuple

from . import page
from .answers import Kept, Range
from .errors import Refused
from .queries import tokens_of
from .rows import Cell, cell_text
from .scripts import Schema, parts_of, query_parts, without_comments
from .session import Session

_MOST_KEPT = 20
_HEAD = re.compile(r"^\s*(?:select\b.*?|exists)\s+from\b", re.S)

#: A block: its table, and the values of its key.
Block = Tuple[str, Tuple[Cell, ...]]


class Rows:
    """Rows of the tables of a session, as they are shown."""

    def __init__(self, session: Session) -> None:
        self._session = session
        self._schemas: Dict[str, Schema] = {schema.table: schema for schema in session.tables()}

    def block(self, table: str, row: Sequence[Cell]) -> Block:
        """The block in which a row stands."""
        columns = list(self._schemas[table].columns)
        return table, tuple(row[columns.index(name)] for name in self._schemas[table].key)

    def relevant(self, query: str, literals: Sequence[str]) -> Optional[Set[Block]]:
        """The blocks with a row that may lead to a row of a query's answer, or of a union's: whichever rows of others are right, it is the
        same. None where they can't be asked for."""
        found: Set[Block] = set()
        for part in parts_of(query):
            columns, tables, conditions = query_parts(part)
            if not set(tables) <= set(self._schemas):
                return None
            names = ["%s.%s" % (table, name) for table in tables for name in self._schemas[table].columns]
            tests = " and ".join("%s = %s" % test for test in zip(columns, literals))
            joint = "" if not tests else " and " if conditions else " where "
            text = _HEAD.sub(lambda _: "select %s from" % ", ".join(names), without_comments(part).strip().rstrip(";"), count=1) + joint + tests
            try:
                rows = self._session.possible(text)
            except Refused:
                return None
            for row in rows:
                at = 0
                for table in tables:
                    width = len(self._schemas[table].columns)
                    found.add(self.block(table, row[at:at + width]))
                    at += width
        return found

    def kept_part(self, kept: Sequence[Kept]) -> str:
        """Rows that are the right ones of their keys, by tables, with marks where others of their key differ."""
        parts = [self._table(table, [("", row, self._differing(table, row)) for row in rows]) for table, rows in _by_table(kept[:_MOST_KEPT]).items()]
        return "".join(parts) + _more(kept[_MOST_KEPT:])

    def ends_part(self, found: Range) -> str:
        """The rows that a least and a greatest value take of the same keys, where these differ, with marks."""
        pairs = [(low, high) for low, high in zip(found.low, found.high) if low != high]
        by_table: Dict[str, List[Tuple[str, Sequence[Cell], Set[int]]]] = {}
        for (table, low), (_, high) in pairs[:_MOST_KEPT]:
            source = self._session.source_of(table)
            marked = {at for at, name in enumerate(self._schemas[table].columns) if low[at] != high[at] and name != source}
            by_table.setdefault(table, []).extend([("the least", low, marked), ("the greatest", high, marked)])
        return "".join(self._table(table, rows, "for") for table, rows in by_table.items()) + _more([low for low, _ in pairs[_MOST_KEPT:]])

    def _table(self, table: str, rows: Sequence[Tuple[str, Sequence[Cell], Set[int]]], first: str = "") -> str:
        head = ([first] if first else []) + list(self._schemas[table].columns)
        cells = [([page.cell(label)] if first else []) + [page.cell(value, at in marked) for at, value in enumerate(row)] for label, row, marked in rows]
        return '<p class="quiet">In the table %s:</p>%s' % (page.text(table), page.raw_table(head, cells))

    def _differing(self, table: str, row: Sequence[Cell]) -> Set[int]:
        """Where other rows of a row's key differ from it, sources apart."""
        schema = self._schemas[table]
        names = list(schema.columns)
        told = self._session.possible("select %s from %s where %s" % (", ".join(names), table, " and ".join("%s = ?" % name for name in schema.key)),
                                      self.block(table, row)[1])
        source = self._session.source_of(table)
        return {at for at, name in enumerate(names) if name != source and any(other[at] != row[at] for other in told)}


def literals_of(row: str) -> List[str]:
    """The values of a row as it is written in a statement, `(1, 'a')`, each as it is written there."""
    return [token.word for token in tokens_of(row) if token.is_number or token.is_text]


def _by_table(kept: Iterable[Kept]) -> Dict[str, List[Tuple[Cell, ...]]]:
    found: Dict[str, List[Tuple[Cell, ...]]] = {}
    for table, row in kept:
        found.setdefault(table, []).append(row)
    return found


def _more(kept: Sequence[Kept]) -> str:
    """What is left of rows, behind a line that opens it."""
    if not kept:
        return ""
    rows = [(table, ", ".join(map(cell_text, row))) for table, row in kept]
    return page.more(("table", "row"), rows)
