"""How hard a question is: its class, where it is one that has one, by `classify` of the proved program.

The classes are of conjunctive queries without self-joins: tables, each once, whose columns are equal to each other or to constants.
A condition on one place alone is left out: a column that says whether a row meets it would be equal to a constant in its place, and such
a constant, outside of the key, changes no attack. So the class bounds what deciding the question takes.
"""

from __future__ import annotations

from typing import Dict, Iterator, List, Optional, Sequence, Tuple

from ..errors import CqaError
from ..session import Session
from .query import Branch, ColumnOf, Element, Keyed, Leaf, Piece
from .tokens import Token

_NONE = "class: none is known for "


def hardness(branches: Sequence[Branch], program: Optional[str]) -> str:
    """A line that says a question's class and which table attacks which, or why it has none."""
    if len(branches) != 1:
        return _NONE + "a union, or an OR over subqueries"
    try:
        script, query, labels = _Translation(branches[0]).texts()
    except _NoClass as fault:
        return _NONE + str(fault)
    try:
        with Session(program) as session:
            session.run(script)
            found = session.classify(query)
    except CqaError as fault:
        return "class: the program doesn't tell one: %s" % fault
    attacks = "".join("; %s attacks %s, %s" % (labels[one.attacker], labels[one.attacked], "strong" if one.is_strong else "weak") for one in found.attacks)
    return "class: %s%s" % (found.name, attacks)


class _NoClass(Exception):
    """Why a question has no class."""


class _Translation:
    """A branch as tables and a query of the language, whose names are t0, t1, .. and c0, c1, .."""

    def __init__(self, branch: Branch) -> None:
        """Raises _NoClass where it isn't conjunctive."""
        self.branch = branch
        self.names: Dict[int, str] = {}
        self.columns: Dict[Tuple[str, str], str] = {}
        self.constants: Dict[str, str] = {}
        for element in branch.elements:
            self._check_element(element)
            self.names[id(element)] = "t%d" % len(self.names)
        leaves = [element.source.table for element in branch.elements if isinstance(element.source, Leaf)]
        twice = next((table.label for table in leaves if leaves.count(table) > 1), "")
        if twice:
            raise _NoClass("a table that stands twice: %s" % twice)

    def _check_element(self, element: Element) -> None:
        if element.is_left:
            raise _NoClass("LEFT JOIN")
        if isinstance(element.source, Branch) or isinstance(element.source, str) and element.source.lstrip()[:1] == "(":
            raise _NoClass("a query in FROM")

    def texts(self) -> Tuple[bytes, str, Dict[str, str]]:
        """The script that makes the tables, the query, and what tables are called by their names there."""
        heads = [self._column(self._of_item(item)) for item in self.branch.items if not _is_constant(item)]
        conditions = [text for pieces in self._conditions() for text in self._equality(pieces)]
        labels: Dict[str, str] = {}
        script: List[str] = []
        for element in self.branch.elements:
            name = self.names[id(element)]
            labels[name] = element.source.table.label if isinstance(element.source, Leaf) else element.name
            script.append(self._table(element, name))
        tables = ", ".join(labels)
        query = "%s from %s%s" % ("select " + ", ".join(dict.fromkeys(heads)) if heads else "exists", tables,
                                  " where " + " and ".join(conditions) if conditions else "")
        return "".join(script).encode(), query, labels

    def _table(self, element: Element, name: str) -> str:
        """A table with the columns that the query speaks of, and its key; of one without a key all are, and it is strict."""
        keyed: Optional[Keyed] = element.source.table if isinstance(element.source, Leaf) else None
        key = [self._named(name, column.name) for column in keyed.key] if keyed else []
        columns = [text for (owner, _), text in self.columns.items() if owner == name] or [self._named(name, "")]
        return "create %stable %s (%s, primary key (%s));\n" % ("" if keyed else "strict ", name, ", ".join(text + " text" for text in columns),
                                                               ", ".join(key or columns))

    def _named(self, table: str, column: str) -> str:
        return self.columns.setdefault((table, column), "c%d" % len(self.columns))

    def _column(self, piece: ColumnOf) -> str:
        table = self.names.get(id(piece.element))
        if table is None:
            raise _NoClass("a column of another query")
        return "%s.%s" % (table, self._named(table, piece.column.name))

    def _of_item(self, item: Sequence[Piece]) -> ColumnOf:
        """The column that an item is."""
        first, rest = item[0], item[1:]
        is_named = len(rest) == 1 or len(rest) == 2 and isinstance(rest[0], Token) and rest[0].is_word("as")
        if not isinstance(first, ColumnOf) or rest and not (is_named and isinstance(rest[-1], Token) and rest[-1].is_name and not rest[-1].is_word("isnull", "notnull")):
            raise _NoClass("an expression in the select list")
        return first

    def _conditions(self) -> Iterator[Sequence[Piece]]:
        """The conditions that all hold, without AND between them."""
        for pieces in (*self.branch.conditions, *(element.on for element in self.branch.elements)):
            yield from _split(pieces)

    def _equality(self, pieces: Sequence[Piece]) -> List[str]:
        """A condition in the language, or nothing where it speaks of one place alone."""
        if any(isinstance(piece, Token) and piece.is_word("select") for piece in pieces):
            raise _NoClass("a condition with a subquery")
        if any(isinstance(piece, Token) and piece.is_name and piece.value in self.branch.names for piece in pieces):
            raise _NoClass("a condition over a name of the select list")
        sides = [piece for piece in pieces if not (isinstance(piece, Token) and piece.is_mark("="))]
        if len(pieces) == 3 and len(sides) == 2 and sides[0] is pieces[0]:
            texts = [self._side(side) for side in sides]
            if all(texts) and any(isinstance(side, ColumnOf) for side in sides):
                return ["%s = %s" % (texts[0], texts[1]) if isinstance(sides[0], ColumnOf) else "%s = %s" % (texts[1], texts[0])]
        owners = {id(piece.element) for piece in pieces if not isinstance(piece, Token)}
        if len(owners) > 1:
            raise _NoClass("columns of two tables that are compared otherwise than by =")
        return []

    def _side(self, piece: Piece) -> str:
        """A column or a constant in the language, or nothing."""
        if isinstance(piece, ColumnOf):
            return self._column(piece)
        if isinstance(piece, Token) and piece.kind in ("text", "number", "parameter"):
            return "'%s'" % self.constants.setdefault(piece.text, "v%d" % len(self.constants))
        return ""


def _is_constant(item: Sequence[Piece]) -> bool:
    return not any(not isinstance(piece, Token) for piece in item)


def _split(pieces: Sequence[Piece]) -> List[List[Piece]]:
    """A condition at its ANDs, without the brackets around all of it."""
    whole = list(pieces)
    while len(whole) > 1 and _is(whole[0], "(") and _end(whole) == len(whole) - 1:
        whole = whole[1:-1]
    found: List[List[Piece]] = [[]]
    depth, is_between = 0, False
    for piece in whole:
        token = piece if isinstance(piece, Token) else None
        depth += bool(token and token.is_mark("(") or token and token.is_word("case")) - bool(token and (token.is_mark(")") or token.is_word("end")))
        is_between = is_between or bool(token and depth == 0 and token.is_word("between"))
        if token and depth == 0 and token.is_word("or"):
            return [whole] if whole else []
        if token and depth == 0 and token.is_word("and"):
            if not is_between:
                found.append([])
                continue
            is_between = False
        found[-1].append(piece)
    return [part for one in found if one for part in (_split(one) if len(found) > 1 else [one])]


def _is(piece: Piece, sign: str) -> bool:
    return isinstance(piece, Token) and piece.is_mark(sign)


def _end(pieces: Sequence[Piece]) -> int:
    """Where the bracket that opens first is closed."""
    depth = 0
    for at, piece in enumerate(pieces):
        depth += _is(piece, "(") - _is(piece, ")")
        if depth == 0:
            return at
    return -1
