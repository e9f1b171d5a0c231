"""A query as people write it in SQL, read as far as cqa can ask it, and written as cqa takes it."""

from __future__ import annotations

import re
from dataclasses import dataclass, field
from typing import Dict, List, Mapping, NamedTuple, Optional, Sequence, Tuple

from .scripts import Schema

_WORD = re.compile(r"--[^\n]*|([A-Za-z_][A-Za-z0-9_]*|-?(?:[0-9]+(?:\.[0-9]+)?|\.[0-9]+)|'[^']*(?:''[^']*)*'|\"[^\"]*\"|<>|<=|>=|!=|==|\|\||\S)")
_NAME = re.compile(r"[A-Za-z_][A-Za-z0-9_]*\Z")
_FLIPPED = {"=": "=", "<>": "<>", "<": ">", "<=": ">=", ">": "<", ">=": "<="}
_DENIED = {"=": "<>", "<>": "=", "<": ">=", "<=": ">", ">": "<=", ">=": "<"}
_AGGREGATES = ("count", "sum", "min", "max")
_ENDS = ("where", "group", "order", "limit", "union", "join", "inner", "left", "right", "full", "cross", "on", "having", "offset", "fetch", "except", "intersect")
_JOINS = [(*side, *outer, "join") for side in ((), ("inner",), ("left",), ("right",), ("full",)) for outer in ((), ("outer",))]
_MOST_PARTS = 8


class CantAsk(Exception):
    """What stands there can't be asked, for a cause that others tell."""


class Condition(NamedTuple):
    """A test: a column, an operator, and a literal or another column as it is written."""

    column: str
    operator: str
    right: str


@dataclass
class Select:
    """A part of a query. items: what it selects. aggregate: its word and column, if it asks for one. tables: those behind `from`, in
    whose names it speaks. cases: the tests; a row has to pass all of some case. group: the column of its groups. order: the column
    by which its rows are to descend or ascend."""

    items: List[str] = field(default_factory=list)
    aggregate: Optional[Tuple[str, str]] = None
    tables: List[str] = field(default_factory=list)
    cases: List[List[Condition]] = field(default_factory=lambda: [[]])
    group: List[str] = field(default_factory=list)
    order: str = ""
    is_exists: bool = False


def rewritten(text: str, schemas: Mapping[str, Schema]) -> str:
    """A statement as cqa takes it, with the reader's tables, columns and values, or nothing where it can't be told so."""
    words = [found[1] for found in _WORD.finditer(text.rstrip().rstrip(";")) if found[1]]
    try:
        return _Sql(words, schemas).statement()
    except (CantAsk, IndexError):
        return ""


class _Sql:
    """Reads the words of a query from left to right."""

    def __init__(self, words: Sequence[str], schemas: Mapping[str, Schema]) -> None:
        self._words = list(words)
        self._schemas = schemas
        self._at = 0
        self._aliases: Dict[str, str] = {}
        self._tables: List[str] = []

    # -- words --------------------------------------------------------------------------------------------------------------

    def _is(self, *words: str) -> bool:
        there = [word.lower() for word in self._words[self._at:self._at + len(words)]]
        return there == list(words)

    def _takes(self, *words: str) -> bool:
        is_there = self._is(*words)
        self._at += len(words) if is_there else 0
        return is_there

    def _wants(self, *words: str) -> None:
        if not self._takes(*words):
            raise CantAsk

    def _next(self) -> str:
        self._at += 1
        return self._words[self._at - 1]

    def _name(self) -> str:
        word = self._next()
        if word.startswith('"'):
            word = word.strip('"')
        if not _NAME.match(word):
            raise CantAsk
        return word

    # -- the statement ------------------------------------------------------------------------------------------------------

    def statement(self) -> str:
        """The statement as cqa takes it."""
        verb = next((verb for verb in ("ask", "possible", "disputed", "classify", "plan", "sql") if self._takes(verb)), "ask")
        parts = [self._select()]
        while self._takes("union"):
            self._takes("all")
            self._takes(verb)
            parts.append(self._select())
        if self._at < len(self._words):
            raise CantAsk
        if parts[0].aggregate is not None:
            return self._range(parts)
        queries = [self._query(part, case) for part in parts for case in part.cases]
        if len(queries) > _MOST_PARTS or len(queries) > 1 and verb in ("disputed", "plan") or any(part.group and set(part.group) != set(part.items) for part in parts):
            raise CantAsk
        return "%s %s;" % (verb, " union ".join(dict.fromkeys(queries)))

    def _range(self, parts: List[Select]) -> str:
        part = parts[0]
        if len(parts) > 1 or len(part.cases) > 1 or len(part.group) > 1 or part.aggregate is None or part.items not in ([], part.group):
            raise CantAsk
        word, column = part.aggregate
        group = " group by %s" % part.group[0] if part.group else ""
        return "range %s%s from %s%s%s;" % (word, " " + column if column else "", ", ".join(part.tables), _where(part.cases[0]), group)

    def _query(self, part: Select, case: List[Condition]) -> str:
        items = sorted(part.items, key=lambda item: item != part.order)
        return "%s from %s%s" % ("exists" if part.is_exists else "select " + ", ".join(items), ", ".join(part.tables), _where(case))

    def _select(self) -> Select:
        part = Select()
        if self._takes("exists"):
            part.is_exists = True
        else:
            self._wants("select")
            self._takes("distinct")
        begin = self._at
        self._skip_items()
        joined = self._from(part)
        end, self._at = self._at, begin
        if not part.is_exists:
            self._items(part)
        self._at = end
        where = self._or() if self._takes("where") else [[]]
        part.cases = _both(joined, where)
        self._tail(part)
        return part

    def _skip_items(self) -> None:
        depth = 0
        while depth or not self._is("from"):
            word = self._next()
            depth += (word == "(") - (word == ")")

    def _from(self, part: Select) -> List[List[Condition]]:
        """The tables with their other names, and what joins them."""
        self._wants("from")
        self._table(part)
        begins = []
        while True:
            if self._takes(",") or self._takes("cross", "join"):
                self._table(part)
            elif any(self._takes(*words) for words in _JOINS):
                self._table(part)
                self._wants("on")
                begins.append(self._at)
                self._or()
            else:
                break
        end = self._at
        found: List[List[Condition]] = [[]]
        for begin in begins:
            self._at = begin
            found = _both(found, self._or())
        self._at = end
        return found

    def _table(self, part: Select) -> None:
        name = _like(self._name(), self._schemas)
        other = ""
        if self._takes("as"):
            other = self._name()
        elif self._at < len(self._words) and _NAME.match(self._words[self._at]) and self._words[self._at].lower() not in _ENDS:
            other = self._name()
        if name in part.tables:
            raise CantAsk
        part.tables.append(name)
        self._tables = part.tables
        self._aliases[(other or name).lower()] = name
        self._aliases[name.lower()] = name

    def _items(self, part: Select) -> None:
        while True:
            if self._takes("*"):
                part.items += [self._written(table, column) for table in part.tables for column in self._columns(table)]
            elif self._at + 1 < len(self._words) and self._words[self._at].lower() in _AGGREGATES and self._words[self._at + 1] == "(":
                self._aggregate(part)
            elif self._words[self._at + 1:self._at + 3] == [".", "*"]:
                table = self._aliases.get(self._name().lower(), "")
                self._at += 2
                part.items += [self._written(table, column) for column in self._columns(table)]
            else:
                part.items.append(self._column())
            if self._takes("as") or not self._is(",") and not self._is("from"):
                self._name()
            if not self._takes(","):
                break
        self._wants("from")

    def _aggregate(self, part: Select) -> None:
        word = self._next().lower()
        self._wants("(")
        if part.aggregate is not None or self._is("distinct"):
            raise CantAsk
        column = "" if self._takes("*") else self._column()
        self._wants(")")
        part.aggregate = word, "" if word == "count" else column

    def _columns(self, table: str) -> List[str]:
        if table not in self._schemas:
            raise CantAsk
        return list(self._schemas[table].columns)

    def _written(self, table: str, column: str) -> str:
        shared = sum(column in self._schemas[other].columns for other in self._tables if other in self._schemas) > 1
        return "%s.%s" % (table, column) if shared else column

    def _column(self) -> str:
        """A column, by the table's own name and the case in which it is there."""
        first = self._name()
        if not self._takes("."):
            owner = next((table for table in self._tables if table in self._schemas and _like(first, self._schemas[table].columns) in self._schemas[table].columns), "")
            return _like(first, self._schemas[owner].columns) if owner else first
        table = self._aliases.get(first.lower(), first)
        column = self._name()
        return self._written(table, _like(column, self._schemas[table].columns)) if table in self._schemas else "%s.%s" % (table, column)

    def _tail(self, part: Select) -> None:
        """What stands behind the tests: groups, an order, a limit."""
        if self._takes("group", "by"):
            part.group.append(self._column())
            while self._takes(","):
                part.group.append(self._column())
        is_cut = False
        if self._takes("order", "by"):
            part.order, is_cut = self._ordered(part)
            while self._takes(","):
                self._ordered(part)
        for word in ("limit", "offset"):
            if self._takes(word):
                self._next()
                is_cut = True
        if is_cut and part.order and part.order not in part.items:
            raise CantAsk  # with one column more other rows are certain

    def _ordered(self, part: Select) -> Tuple[str, bool]:
        """A column behind `order by`, by its name or its number, and whether its values descend."""
        if self._words[self._at].isdigit() and 0 < int(self._words[self._at]) <= len(part.items):
            column = part.items[int(self._next()) - 1]
        else:
            column = self._column()
        descends = self._takes("desc")
        if not descends:
            self._takes("asc")
        return column, descends

    # -- tests --------------------------------------------------------------------------------------------------------------

    def _or(self, is_denied: bool = False) -> List[List[Condition]]:
        found = self._and(is_denied)
        while self._takes("or"):
            more = self._and(is_denied)
            found = _both(found, more) if is_denied else found + more
        return found

    def _and(self, is_denied: bool) -> List[List[Condition]]:
        found = self._not(is_denied)
        while self._takes("and"):
            more = self._not(is_denied)
            found = found + more if is_denied else _both(found, more)
        return found

    def _not(self, is_denied: bool) -> List[List[Condition]]:
        if self._takes("not"):
            return self._not(not is_denied)
        if self._takes("("):
            found = self._or(is_denied)
            self._wants(")")
            return found
        return self._test(is_denied)

    def _test(self, is_denied: bool) -> List[List[Condition]]:
        if not _NAME.match(self._words[self._at]) or self._is_date():
            literal, operator = self._literal(""), self._operator()
            return self._compared(self._column(), _FLIPPED[operator], literal, is_denied)
        column = self._column()
        is_denied ^= self._takes("not")
        if self._takes("in"):
            return self._in(column, is_denied)
        if self._takes("between"):
            low = self._literal(column)
            self._wants("and")
            high = self._literal(column)
            cases = [[Condition(column, ">=", low), Condition(column, "<=", high)]]
            return [[Condition(column, "<", low)], [Condition(column, ">", high)]] if is_denied else cases
        if self._takes("like"):
            return self._like(column, is_denied)
        if self._takes("is"):
            is_denied ^= self._takes("not")
            return self._compared(column, "=", self._literal(column), is_denied)
        operator = self._operator()
        word = self._words[self._at]
        if _NAME.match(word) and word.lower() != "null" and not self._is_date():
            other = self._column()
            if operator != "=" or is_denied:
                raise CantAsk
            return [[Condition(column, "=", other)]]
        return self._compared(column, operator, self._literal(column), is_denied)

    @staticmethod
    def _compared(column: str, operator: str, literal: str, is_denied: bool) -> List[List[Condition]]:
        return [[Condition(column, _DENIED[operator] if is_denied else operator, literal)]]

    def _operator(self) -> str:
        word = {"!=": "<>", "==": "="}.get(self._words[self._at], self._words[self._at])
        if word not in _FLIPPED:
            raise CantAsk
        self._at += 1
        return word

    def _in(self, column: str, is_denied: bool) -> List[List[Condition]]:
        self._wants("(")
        values = [self._literal(column)]
        while self._takes(","):
            values.append(self._literal(column))
        self._wants(")")
        return [[Condition(column, "<>", value) for value in values]] if is_denied else [[Condition(column, "=", value)] for value in values]

    def _like(self, column: str, is_denied: bool) -> List[List[Condition]]:
        pattern = self._literal(column)[1:-1]
        begin = pattern[:-1] if pattern.endswith("%") else pattern
        if not begin or "%" in begin or "_" in begin:
            raise CantAsk
        if not pattern.endswith("%"):
            return self._compared(column, "=", "'%s'" % pattern, is_denied)
        low, high = "'%s'" % begin, "'%s'" % _behind(begin.replace("''", "'")).replace("'", "''")
        if is_denied:
            return [[Condition(column, "<", low)], [Condition(column, ">=", high)]]
        return [[Condition(column, ">=", low), Condition(column, "<", high)]]

    def _literal(self, column: str) -> str:
        """A literal, of the kind of its column where that is known."""
        self._at += self._is_date()
        word = self._next()
        kind = self._kind(column)
        if word.lower() == "null" and kind != "int":
            return "''"
        if word[:1] == '"':
            word = "'%s'" % word.strip('"').replace("'", "''")
        if re.match(r"-?[0-9.]", word) and word != "." or word[:1] == "'":
            is_number = word[:1] != "'"
            if kind == "text" and is_number:
                return "'%s'" % word
            return word[1:-1] if kind == "int" and not is_number and re.fullmatch(r"'-?[0-9]+'", word) else word
        raise CantAsk

    def _is_date(self) -> bool:
        """Whether `date '2026-03-01'` comes next."""
        return (self._is("date") or self._is("timestamp")) and "".join(self._words[self._at + 1:self._at + 2]).startswith("'")

    def _kind(self, column: str) -> str:
        owner, _, name = column.rpartition(".")
        tables = [owner] if owner else self._tables
        return next((self._schemas[table].columns[name] for table in tables if table in self._schemas and name in self._schemas[table].columns), "")


def _like(name: str, there: Mapping[str, object]) -> str:
    """The name that is there in whatever case, or the name itself."""
    return name if name in there else next((other for other in there if other.lower() == name.lower()), name)


def _both(one: List[List[Condition]], other: List[List[Condition]]) -> List[List[Condition]]:
    return [[*left, *right] for left in one for right in other]


def _where(tests: Sequence[Condition]) -> str:
    return " where " + " and ".join(map(" ".join, dict.fromkeys(tests))) if tests else ""


def _behind(begin: str) -> str:
    """The first text behind all that begin so, by their bytes. Raises CantAsk where there is none."""
    code = ord(begin[-1]) + 1
    if code > 0x10FFFF:
        raise CantAsk
    return begin[:-1] + chr(0xE000 if code == 0xD800 else code)

