"""SQLite: a file, or a connection of the standard library."""

from __future__ import annotations

import math
import os
import re
import sqlite3
import time
from contextlib import contextmanager, suppress
from functools import partial
from typing import Any, Dict, Iterator, List, Mapping, Optional, Sequence, Set, Tuple
from urllib.parse import quote

from ..errors import DatabaseFault, QueryRefused
from .engine import Engine, Row
from .query import Branch, Column, ColumnOf, Leaf, Piece, Relation
from .tokens import Lexicon, Token, folded, scanned, text_of

_OLDEST = (3, 35, 0)
_DETERMINISTIC = 0x800
_VIEW = re.compile(r"\s*create\s+(?:temp(?:orary)?\s+)?view\s+(?:if\s+not\s+exists\s+)?", re.I)
#: Functions of time are the same within one statement.
_OF_TIME = frozenset("date time datetime julianday strftime unixepoch timediff".split())
_TELLING = frozenset(["sqlite_offset"])


class SQLite(Engine):
    """One connection to SQLite."""

    name = "SQLite"
    lexicon = Lexicon(frozenset('"`['), "x", has_typed_texts=False, refused=(("@", "parameters are written :name"), ("#", "no sign of SQLite")))
    bare = "+%s"  # a union would give each value the type of the first part's column
    takes_in_names = True
    reads_aliases = True
    has_quoted_texts = True
    using_converts = False
    checks_types = False
    is_untyped = True
    few = 3

    def __init__(self, connection: sqlite3.Connection, is_own: bool) -> None:
        if sqlite3.sqlite_version_info < _OLDEST:
            raise QueryRefused("SQLite %s: 3.35 or later is wanted" % sqlite3.sqlite_version)
        self.connection = connection
        self.is_own = is_own
        self._depth = 0
        self._is_own_transaction = False
        self._own_changes = 0
        self._is_late = False
        self._is_interrupted = False
        self._relations: Dict[Tuple[str, str], List[Tuple[str, str, str, str]]] = {}
        self._columns: Dict[str, Set[str]] = {}
        self._functions: Dict[str, List[Tuple[str, int, bool]]] = {}
        self.saw_collation = False

    @classmethod
    def opened(cls, path: str) -> "SQLite":
        """A file, to be read alone. Raises DatabaseFault where it can't be opened."""
        if not os.path.exists(path):
            raise DatabaseFault("%s: no such file" % path)
        try:
            connection = sqlite3.connect("file:%s?mode=ro" % quote(os.path.abspath(path)), uri=True, isolation_level=None)
        except sqlite3.Error as fault:
            raise DatabaseFault("%s: %s" % (path, fault)) from None
        try:
            connection.execute("SELECT count(*) FROM sqlite_master").fetchone()
        except sqlite3.Error as fault:
            connection.close()
            raise DatabaseFault("%s: %s" % (path, fault)) from None
        return cls(connection, True)

    # The catalogue.

    def begin_question(self, tokens: Sequence[Token]) -> None:
        self._relations.clear()
        self._columns.clear()
        self._functions.clear()
        self.saw_collation = _has_collation(text_of(tokens))
        for name, kind, flags, is_built_in in self.rows("SELECT name, type, flags, builtin FROM pragma_function_list", {}):
            self._functions.setdefault(folded(name), []).append((kind, flags, bool(is_built_in)))
        for _, schema, _ in list(self.rows("PRAGMA database_list", {})):
            master = "sqlite_temp_master" if schema == "temp" else "%s.sqlite_master" % self.quoted(schema)
            for kind, name, text in list(self.rows("SELECT type, name, coalesce(sql, '') FROM %s WHERE type IN ('table', 'view')" % master, {})):
                for key in ((folded(schema), folded(name)), ("", folded(name))):
                    self._relations.setdefault(key, []).append((schema, name, kind, text))

    def relation(self, parts: Sequence[Token]) -> Relation:
        text = ".".join(part.text for part in parts)
        if len(parts) > 2:
            raise QueryRefused("%s: a name of at most two parts is wanted" % text)
        found = self._relations.get((parts[0].value if len(parts) == 2 else "", parts[-1].value), [])
        if not found:
            raise QueryRefused("no table %s%s" % (text, "" if parts[-1].value[:7] != "sqlite_" else " that can be asked"))
        if len(found) > 1:
            raise QueryRefused("%s is in several databases: write one of %s" % (text, ", ".join("%s.%s" % one[:2] for one in found)))
        schema, name, kind, sql = found[0]
        whole = "%s.%s" % (self.quoted(schema), self.quoted(name))
        if re.match(r"\s*create\s+virtual\b", sql, re.I):
            raise QueryRefused("%s is a virtual table: what it reads isn't known" % text)
        if kind == "view":
            return Relation(whole, tuple(self.described("SELECT * FROM " + whole, {})), False, self._definition(name, sql))
        is_collated = _has_collation(sql)
        self.saw_collation = self.saw_collation or is_collated
        rows = list(self.rows("PRAGMA %s.table_xinfo(%s)" % (self.quoted(schema), self.quoted(name)), {}))
        keys = sum(1 for row in rows if row[5])
        return Relation(whole, tuple(self._column(row, is_collated, keys == 1) for row in rows if row[6] != 1))

    def _column(self, row: Row, is_collated: bool, is_alone: bool) -> Column:
        _, name, kind, is_not_null, _, key, _ = row
        affinity = _affinity(kind)
        is_row_id = bool(key) and is_alone and kind.upper() == "INTEGER"
        return Column(folded(name), self.quoted(name), affinity, affinity in ("INTEGER", "TEXT") and not is_collated,
                      not (is_not_null or is_row_id), is_collated)

    def _definition(self, name: str, sql: str) -> str:
        """The query of a view. Raises QueryRefused where the text has a list of columns."""
        begin = _VIEW.match(sql)
        tokens = scanned(sql[begin.end():] if begin else "", self.lexicon)
        self.saw_collation = self.saw_collation or _has_collation(sql)
        at = 3 if len(tokens) > 2 and tokens[1].value == "." else 1
        if len(tokens) <= at + 1 or not tokens[at].is_word("as"):
            raise QueryRefused("the view %s has a list of columns: give its items names by AS" % name)
        return "".join(token.space + token.text for token in tokens[at + 1:])

    def readers(self, tables: Set[str]) -> Tuple[Set[str], Set[str]]:
        names = {folded(name) for entries in self._relations.values() for schema, name, kind, _ in entries
                 if "%s.%s" % (self.quoted(schema), self.quoted(name)) in tables}
        views = {folded(name): text for entries in self._relations.values() for _, name, kind, text in entries if kind == "view"}
        words = {name: _names_in(text) - {name} for name, text in views.items()}
        grows = True
        while grows:
            more = {name for name, used in words.items() if used & names} - names
            grows = bool(more)
            names |= more
        return names, set()

    def columns_named(self, name: str) -> Set[str]:
        if name not in self._columns:
            self._columns[name] = set()
            for schema, real, _, sql in self._relations.get(("", name), []):
                self.saw_collation = self.saw_collation or _has_collation(sql)
                rows = self.rows("PRAGMA %s.table_xinfo(%s)" % (self.quoted(schema), self.quoted(real)), {})
                self._columns[name] |= {folded(row[1]) for row in rows}
        return self._columns[name]

    def definitions_named(self, name: str) -> List[str]:
        return [sql for _, _, kind, sql in self._relations.get(("", name), []) if kind == "view"]

    def function_fault(self, name: str, count: int, is_within: bool) -> Optional[str]:
        found = self._functions.get(name)
        if found is None:
            return "an unknown function"
        if name in ("min", "max") and count > 1:
            return None
        is_aggregate = any(kind in "aw" for kind, _, _ in found)
        if is_aggregate and not is_within:
            return "an aggregate or a window function over a table with a key"
        if name in _TELLING or name not in _OF_TIME and not all(flags & _DETERMINISTIC or is_aggregate and is_built_in for _, flags, is_built_in in found):
            return "it isn't the same each time, or isn't known to be"
        return None

    def operator_fault(self, sign: str) -> Optional[str]:
        return None

    def quoted(self, name: str) -> str:
        return '"%s"' % name.replace('"', '""')

    def described(self, sql: str, arguments: Mapping[str, Any]) -> List[Column]:
        try:
            cursor = self.connection.cursor()
            cursor.execute("SELECT * FROM (%s) LIMIT 0" % sql, dict(arguments))
        except sqlite3.Error as fault:
            raise QueryRefused(str(fault)) from None
        names = [column[0] for column in cursor.description]
        return [Column(folded(name), self.quoted(name), "?") for name in names]

    def union_fault(self, branches: Sequence[Branch], parts: Sequence[Sequence[Column]], is_inner: bool) -> Optional[str]:
        if self.saw_collation:
            return "a text is compared by a collation, and SQLite takes that of any part: ask the parts apart"
        for items in zip(*(branch.items for branch in branches)) if is_inner else ():
            kinds = {_affinity_of(item) for item in items}
            if len(kinds) > 1 or "?" in kinds:
                return "the parts' columns are of different types, and SQLite takes that of any part: write cast(.. as ..) around each"
        return None

    def collation_fault(self, branches: Sequence[Branch]) -> bool:
        return self.saw_collation

    # The dialect.

    def identity(self, expressions: Sequence[str], columns: Sequence[Column]) -> str:
        return " || ',' || ".join("CASE typeof(%s) WHEN 'text' THEN 'T' || hex(%s) WHEN 'real' THEN printf('%%!.20e', %s) ELSE quote(%s) END" % (
            text, text, text, text) for text in expressions)

    def is_same_identity(self, kept: str, made: str) -> str:
        return "+%s = %s" % (kept, made)  # the sign keeps it out of an index, so that it isn't made for each row

    # Running.

    @contextmanager
    def transaction(self, timeout: Optional[float]) -> Iterator[None]:
        with self._told():  # the connection may be closed
            begins = self._depth == 0 and not self.connection.in_transaction
            heeds = timeout is not None or self.is_own and begins
            if heeds:
                end = time.monotonic() + (math.inf if timeout is None else timeout)
                self.connection.set_progress_handler(partial(self._goes_on, end), 10_000)
        self._depth += 1
        self._is_own_transaction = self._is_own_transaction or begins
        try:
            if begins:
                self.run("BEGIN", {})
            yield
        finally:
            self._depth -= 1
            self._is_own_transaction = self._is_own_transaction and not begins
            with suppress(sqlite3.ProgrammingError):  # a connection that is closed has no transaction
                if heeds:
                    self.connection.set_progress_handler(None, 0)
                if begins and self.connection.in_transaction:
                    self.connection.execute("ROLLBACK")

    def _goes_on(self, end: float) -> int:
        """What SQLite asks now and then: 0 where the statement goes on. It is ended by the timeout, and by Ctrl-C."""
        try:
            self._is_late = time.monotonic() > end
        except KeyboardInterrupt:  # which comes where Python runs, so here
            self._is_interrupted = True
        return int(self._is_late or self._is_interrupted)

    @contextmanager
    def _told(self) -> Iterator[None]:
        """Tells a fault of the database as one of ours. Raises KeyboardInterrupt where Ctrl-C ended a statement."""
        try:
            yield
        except sqlite3.Error as fault:
            if self._is_interrupted:
                self._is_interrupted = False
                raise KeyboardInterrupt from None
            text = "it took longer than the timeout" if str(fault) == "interrupted" and self._is_late else str(fault)
            raise DatabaseFault("SQLite: %s" % text) from fault

    def can_make_tables(self) -> bool:
        # a temporary table would lose the collations of its columns
        return self._is_own_transaction and not self.saw_collation and not self.number("PRAGMA query_only")

    def keeping_fault(self, relation: Relation) -> Optional[str]:
        is_collated = any(column.is_collated for column in relation.columns)
        return "SQLite would lose the collations of its columns: leave it out" if is_collated else None

    def writes(self, relation: Relation) -> object:
        schema = relation.name.split('"."')[0].strip('"')
        return self.connection.total_changes - self._own_changes, self.number("PRAGMA %s.schema_version" % self.quoted(schema))

    def run(self, sql: str, arguments: Mapping[str, Any]) -> None:
        before = self.connection.total_changes
        with self._told():
            self.connection.execute(sql, dict(arguments)).close()
        self._own_changes += self.connection.total_changes - before

    def rows(self, sql: str, arguments: Mapping[str, Any]) -> Iterator[Row]:
        cursor = self.connection.cursor()
        cursor.row_factory = None
        try:
            with self._told():
                cursor.execute(sql, dict(arguments))
                yield from cursor
        finally:
            cursor.close()

    def cancel(self) -> None:
        self.connection.interrupt()

    def close(self) -> None:
        if self.is_own:
            self.connection.close()


_COLLATE = re.compile(r"\bcollate\b(?!\s+[\"'`\[]?binary\b)", re.I)
_NAMES = re.compile(r'"((?:[^"]|"")*)"|`([^`]*)`|\[([^\]]*)\]|([A-Za-z_\x80-\U0010ffff][A-Za-z0-9_$\x80-\U0010ffff]*)')


def _has_collation(text: str) -> bool:
    """Whether a text names a collation but the plain one; rather yes than no."""
    return _COLLATE.search(text) is not None


def _names_in(text: str) -> Set[str]:
    """The names in a text of SQL, and more; a text within quotes has names too."""
    found = {folded(next(filter(None, names), "").replace('""', '"')) for names in _NAMES.findall(text)}
    return found | {folded(name) for name in re.findall(r"[A-Za-z_\x80-\U0010ffff][A-Za-z0-9_$\x80-\U0010ffff]*", text)}


def _affinity(kind: str) -> str:
    """What SQLite takes a declared type for."""
    kind = kind.upper()
    for part, affinity in (("INT", "INTEGER"), ("CHAR", "TEXT"), ("CLOB", "TEXT"), ("TEXT", "TEXT"), ("BLOB", "BLOB"), ("REAL", "REAL"),
                           ("FLOA", "REAL"), ("DOUB", "REAL")):
        if part in kind:
            return affinity
    return "NUMERIC" if kind else "BLOB"


def _affinity_of(item: Sequence[Piece]) -> str:
    """The type that comparisons of an item take; "?" where it isn't known."""
    pieces = item
    for at, piece in enumerate(item):
        if isinstance(piece, Token) and piece.is_word("as") and at == len(item) - 2:
            pieces = item[:at]
    if len(pieces) == 1 and isinstance(pieces[0], ColumnOf):
        element, column = pieces[0].element, pieces[0].column
        if isinstance(element.source, Branch):
            return _affinity_of(element.source.items[list(element.columns).index(column.name)])
        return column.type if isinstance(element.source, Leaf) or not element.source.startswith("(") else "?"
    tokens = [piece for piece in pieces if isinstance(piece, Token)]
    if len(tokens) == len(pieces) == 1 and tokens[0].kind in ("text", "number"):
        return "BLOB"
    if len(pieces) > 2 and pieces[0] is tokens[0] and tokens[0].is_name and tokens[1] is pieces[1] and tokens[1].is_mark("("):
        depth = 0
        for at, piece in enumerate(pieces):
            depth += isinstance(piece, Token) and piece.is_mark("(")
            depth -= isinstance(piece, Token) and piece.is_mark(")")
            if depth == 0 and 0 < at < len(pieces) - 1:
                return "?"
        return (_affinity(tokens[-2].text) if tokens[-3].is_word("as") else "?") if tokens[0].is_word("cast") else "BLOB"
    return "?"
