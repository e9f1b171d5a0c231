"""A query read: branches whose union it is, each a list of elements of FROM with conditions that all hold."""

from __future__ import annotations

from dataclasses import dataclass, field
from typing import Dict, Iterator, List, NamedTuple, Optional, Sequence, Set, Tuple, Union

from .tokens import Token


@dataclass(frozen=True)
class Column:
    """A column of a table or of a query.

    name: as the database takes it. quoted: as it is written in SQL. type: what the database calls its type. is_exact: whether equal
    values are the same to the last bit. is_nullable: whether it may be NULL. is_collated: whether texts that differ may be equal.
    """

    name: str
    quoted: str
    type: str = ""
    is_exact: bool = False
    is_nullable: bool = True
    is_collated: bool = False


@dataclass(frozen=True)
class Relation:
    """A table or a view, as the catalogue has it. name: whole, as it is written in SQL. definition: the query of a view that is read in
    its place."""

    name: str
    columns: Tuple[Column, ...]
    is_table: bool = True
    definition: Optional[str] = None

    def column(self, name: str) -> Optional[Column]:
        """The column of a name."""
        return next((column for column in self.columns if column.name == name), None)


@dataclass(frozen=True)
class Keyed:
    """A table with its key. label: what the user calls it."""

    relation: Relation
    key: Tuple[Column, ...]
    label: str


@dataclass(eq=False)
class Leaf:
    """A place of a query where rows of a table come in that may break its key."""

    table: Keyed
    number: int


@dataclass(eq=False)
class Element:
    """An element of FROM. source: a text that is handed on, a leaf, or a derived table. alias: as it is printed. name: what the query
    calls it. is_renamed: whether both differ. is_left: whether it stands behind LEFT JOIN. on: its condition."""

    source: Union[str, Leaf, "Branch"]
    alias: str
    name: str
    columns: Dict[str, Column]
    is_renamed: bool = False
    is_left: bool = False
    on: List["Piece"] = field(default_factory=list)


class ColumnOf(NamedTuple):
    """A column of an element, wherever it is printed."""

    element: Element
    column: Column
    space: str


class NameOf(NamedTuple):
    """The name of an element, wherever it is printed."""

    element: Element
    space: str


Piece = Union[Token, ColumnOf, NameOf]
Scope = Sequence[Sequence[Element]]


def printed(pieces: Sequence[Piece]) -> str:
    """The text of pieces."""
    return "".join(_piece_text(piece) for piece in pieces).strip()


def _piece_text(piece: Piece) -> str:
    if isinstance(piece, ColumnOf):
        return "%s%s.%s" % (piece.space, piece.element.alias, piece.column.quoted)
    if isinstance(piece, NameOf):
        return piece.space + piece.element.alias
    return piece.space + piece.text


@dataclass(eq=False)
class Branch:
    """One SELECT. head: WITH and the certain queries that its texts name. names: what its items are called by AS."""

    items: List[List[Piece]]
    elements: List[Element]
    conditions: List[List[Piece]]
    head: str = ""
    names: Set[str] = field(default_factory=set)

    def leaves(self) -> Iterator[Leaf]:
        """Its leaves, those of derived tables too, in their order."""
        for element in self.elements:
            if isinstance(element.source, Leaf):
                yield element.source
            elif isinstance(element.source, Branch):
                yield from element.source.leaves()
