"""Statements read as far as they speak of columns: what they select, test, insert and ask of, each with its place."""

from __future__ import annotations

import re
from typing import List, NamedTuple, Sequence, Tuple

_TOKEN = re.compile(r"--[^\n]*|([A-Za-z_][A-Za-z0-9_]*|-?(?:[0-9]+(?:\.[0-9]*)?|\.[0-9]+)|'[^']*(?:''[^']*)*'?|<>|<=|>=|[(),.=<>])")
_NAME = re.compile(r"[A-Za-z_][A-Za-z0-9_]*\Z")
_OPERATORS = ("=", "<>", "<", "<=", ">", ">=")


class Token(NamedTuple):
    """A word, a number (which may have a point), a text or a sign of a statement, and where it stands there, in letters."""

    word: str
    begin: int
    end: int

    @property
    def is_name(self) -> bool:
        """Whether it is a word."""
        return _NAME.match(self.word) is not None

    @property
    def is_column(self) -> bool:
        """Whether it is a word, or one with its table: `customer.credit`."""
        return self.word[:1].isalpha() or self.word[:1] == "_"

    @property
    def is_text(self) -> bool:
        """Whether it is a text."""
        return self.word.startswith("'")

    @property
    def is_number(self) -> bool:
        """Whether it is a number, with or without a point."""
        return self.word[-1:].isdigit() or self.word[-1:] == "." and self.word[:1].isdigit()

    @property
    def value(self) -> str:
        """What a text holds."""
        return self.word[1:-1].replace("''", "'")


class Test(NamedTuple):
    """A test of a column: what it is compared to is a literal, or another column."""

    column: Token
    operator: str
    right: Token


class Part(NamedTuple):
    """A query: what it selects, its tables and its tests. Of a range: its columns. A column's word is `credit` or `customer.credit`."""

    columns: List[Token]
    tables: List[str]
    tests: List[Test]


class Said(NamedTuple):
    """A statement as far as it speaks of columns. verb: its first word; nothing of a query alone. rows: the literals of its rows.
    parts: its query, or the parts of its union; of other statements the table with the tests."""

    verb: str
    rows: List[List[Token]]
    parts: List[Part]


def tokens_of(text: str) -> List[Token]:
    """The tokens of a statement, without its comments."""
    return [Token(found[1], *found.span(1)) for found in _TOKEN.finditer(text) if found[1]]


def said(text: str) -> Said:
    """Reads a statement. What isn't as the language has it is left out."""
    tokens = tokens_of(text)
    verb = tokens[0].word if tokens and tokens[0].word not in ("select", "exists") else ""
    reader = _Reader(tokens, 1 if verb else 0)
    if verb == "insert" and reader.takes("into"):
        tables = reader.names()
        reader.takes("values")
        return Said(verb, reader.rows(), [Part([], [table.word for table in tables], [])])
    if verb == "delete" and reader.takes("from") or verb == "prefer":
        return Said(verb, [], [Part([], [table.word for table in reader.names()], reader.tests())])
    if verb == "range":
        return Said(verb, [], [reader.aggregate()])
    rows: List[List[Token]] = []
    if verb in ("explain", "against", "prove") and reader.takes("row"):
        rows = reader.rows()[:1]
        reader.takes("for")
    parts = [reader.query()]
    while reader.takes("union"):
        parts.append(reader.query())
    return Said(verb, rows, parts)


class _Reader:
    """Reads tokens from left to right: each step takes what it expects, and else nothing."""

    def __init__(self, tokens: Sequence[Token], at: int) -> None:
        self._tokens = tokens
        self._at = at

    def _word(self, ahead: int = 0) -> str:
        return self._tokens[self._at + ahead].word if self._at + ahead < len(self._tokens) else ""

    def _next(self) -> Token:
        self._at += 1
        return self._tokens[self._at - 1]

    def takes(self, word: str) -> bool:
        """Whether a word comes next; then it is taken."""
        is_next = self._word() == word
        self._at += is_next
        return is_next

    def names(self) -> List[Token]:
        """Columns or tables, with a comma between two."""
        found: List[Token] = []
        while self._at < len(self._tokens) and self._tokens[self._at].is_name:
            found.append(self._column())
            if not self.takes(","):
                break
        return found

    def _column(self) -> Token:
        first = self._next()
        if self._word() == "." and _NAME.match(self._word(1)):
            self._next()
            last = self._next()
            return Token("%s.%s" % (first.word, last.word), first.begin, last.end)
        return first

    def rows(self) -> List[List[Token]]:
        """Rows of literals, with a comma between two."""
        found: List[List[Token]] = []
        while self.takes("("):
            row: List[Token] = []
            while self._at < len(self._tokens) and self._word() != ")":
                token = self._next()
                row += [token] if token.word != "," else []
            found.append(row)
            if not self.takes(")") or not self.takes(","):
                break
        return found

    def tests(self) -> List[Test]:
        """The tests behind `where`, if it comes next."""
        found: List[Test] = []
        is_more = self.takes("where")
        while is_more and self._at < len(self._tokens) and self._tokens[self._at].is_name:
            column = self._column()
            if self._word() not in _OPERATORS or self._at + 1 >= len(self._tokens):
                break
            operator = self._next().word
            right = self._column() if self._tokens[self._at].is_name else self._next()
            found.append(Test(column, operator, right))
            is_more = self.takes("and")
        return found

    def query(self) -> Part:
        """A query: `select .. from .. where ..` or `exists from ..`."""
        columns = self.names() if self.takes("select") else []
        if not columns:
            self.takes("exists")
        tables = self.names() if self.takes("from") else []
        return Part(columns, [table.word for table in tables], self.tests())

    def aggregate(self) -> Part:
        """What stands behind `range`: its column and that of its groups, as far as it has them."""
        columns = [] if self._next_is_count() else self._one_column()
        tables = self.names() if self.takes("from") else []
        tests = self.tests()
        if self.takes("group") and self.takes("by"):
            columns = columns + self._one_column()
        return Part(columns, [table.word for table in tables], tests)

    def _next_is_count(self) -> bool:
        is_count = self._word() == "count"
        self._at += 1
        return is_count

    def _one_column(self) -> List[Token]:
        return [self._column()] if self._at < len(self._tokens) and self._tokens[self._at].is_name else []
