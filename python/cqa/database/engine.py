"""What the front asks of a database: its catalogue, its dialect, and that it runs statements."""

from __future__ import annotations

from abc import ABC, abstractmethod
from contextlib import AbstractContextManager, contextmanager
from typing import Any, Iterator, List, Mapping, Optional, Sequence, Set, Tuple

from .query import Branch, Column, Relation
from .tokens import Lexicon, Token

Row = Tuple[Any, ...]


class Engine(ABC):
    """One connection to a database.

    name: what it is called in messages. materialized: what stands before a step that is to be made once. bare: how a value is written
    so that it has no type of a column any more. null_number: a NULL that is a number. own_schema: where temporary tables
    are. takes_in_names: whether IN may stand before the name
    of a table. reads_aliases: whether a condition may name what SELECT gives a name. has_quoted_texts: whether a name in quotes is a text
    where no column has it. using_converts: whether USING may change the type of its column. checks_types: whether
    the columns of the parts of a union have to be known. reads_capitals: whether names of tables that differ in capitals may be two. few: repeated keys are
    looked for among those that the joins met, where these are at most one in so many of a table's rows. most_elements: of one FROM. is_untyped: whether a text
    beside a number stays one.
    """

    name: str
    lexicon: Lexicon
    materialized = "MATERIALIZED"
    bare = "%s"
    null_number = "NULL"
    own_schema = "temp"
    takes_in_names = False
    reads_aliases = False
    has_quoted_texts = False
    using_converts = True
    checks_types = True
    reads_capitals = False
    few = 10
    most_elements = 64
    is_untyped = False
    _has_tables = False
    #: What lends the connection, and takes it back at the end by its `close`.
    lent: Any = None

    # The catalogue. It is looked at anew for each question.

    @abstractmethod
    def begin_question(self, tokens: Sequence[Token]) -> None:
        """Forgets what is known of the catalogue, before a question is read."""

    @abstractmethod
    def relation(self, parts: Sequence[Token]) -> Relation:
        """The table or view of a name, part by part. Raises QueryRefused where there is none, or where what it reads isn't known."""

    @abstractmethod
    def readers(self, tables: Set[str]) -> Tuple[Set[str], Set[str]]:
        """The bare names of what reads rows of these tables: what can be read in its place, with the tables themselves; and what can't, as
        a materialised view."""

    @abstractmethod
    def columns_named(self, name: str) -> Set[str]:
        """The names of the columns of whatever has this bare name; empty where nothing has."""

    @abstractmethod
    def definitions_named(self, name: str) -> List[str]:
        """The queries of views of this bare name."""

    @abstractmethod
    def function_fault(self, name: str, count: int, is_within: bool) -> Optional[str]:
        """Why a function of so many arguments isn't taken, if it isn't. is_within: in a subquery of its own, where aggregates may stand."""

    @abstractmethod
    def operator_fault(self, sign: str) -> Optional[str]:
        """Why an operator isn't taken, if it isn't."""

    @abstractmethod
    def quoted(self, name: str) -> str:
        """A name as it is written in SQL."""

    @abstractmethod
    def described(self, sql: str, arguments: Mapping[str, Any]) -> List[Column]:
        """The columns of a query, which isn't run. Raises QueryRefused with the database's words where it can't be."""

    def described_answers(self, sql: str, arguments: Mapping[str, Any]) -> List[Column]:
        """As `described`, of a whole question."""
        return self.described(sql, arguments)

    def key_fault(self, column: Column) -> Optional[str]:
        """Why a column can't be of a key, if it can't."""
        return None

    def union_fault(self, branches: Sequence[Branch], parts: Sequence[Sequence[Column]], is_inner: bool) -> Optional[str]:
        """Why a union isn't taken, if it isn't. parts: the columns of its parts, where it stands within a query (is_inner)."""
        return None

    def collation_fault(self, branches: Sequence[Branch]) -> bool:
        """Whether IN over these items may compare texts otherwise than = does."""
        return False

    # The dialect.

    @abstractmethod
    def identity(self, expressions: Sequence[str], columns: Sequence[Column]) -> str:
        """A text of values that tells two rows apart wherever any expression can."""

    @abstractmethod
    def is_same_identity(self, kept: str, made: str) -> str:
        """Whether a kept identity is one that is made, made only where all else fits."""

    # Running.

    @abstractmethod
    def transaction(self, timeout: Optional[float]) -> "AbstractContextManager[None]":
        """One state of the database for all statements within, and nothing of it stays. One within another is the outer one."""

    @abstractmethod
    def can_make_tables(self) -> bool:
        """Whether temporary tables can be made in the transaction: it is our own, and they are gone with it."""

    def keeping_fault(self, relation: Relation) -> Optional[str]:
        """Why rows of a table can't be kept as they are in a temporary table, if they can't."""
        return None

    def writes(self, relation: Relation) -> object:
        """What is another where rows of a table were written meanwhile in this transaction through this connection, other than by us. It is
        asked only where tables can be made."""
        return None

    def has_one_state(self) -> bool:
        """Whether several statements of the transaction see one state of the database."""
        return True

    @contextmanager
    def room_for_tables(self, is_wanted: bool) -> Iterator[bool]:
        """Whether a question may make temporary tables: one at a time may."""
        has_room = is_wanted and not self._has_tables and self.can_make_tables()
        self._has_tables = self._has_tables or has_room
        try:
            yield has_room
        finally:
            self._has_tables = self._has_tables and not has_room

    @abstractmethod
    def run(self, sql: str, arguments: Mapping[str, Any]) -> None:
        """Runs a statement without rows."""

    @abstractmethod
    def rows(self, sql: str, arguments: Mapping[str, Any]) -> Iterator[Row]:
        """The rows of a query, as they come."""

    def number(self, sql: str) -> int:
        """The number that a query gives."""
        return int(list(self.rows(sql, {}))[0][0])

    @abstractmethod
    def cancel(self) -> None:
        """Ends what runs in the database for us, if anything does."""

    @abstractmethod
    def close(self) -> None:
        """Closes the connection, where it is our own."""

    def make_table(self, name: str, columns: Sequence[str], select: str, key: Sequence[str], arguments: Mapping[str, Any]) -> int:
        """Makes a table of our own, which is gone with the transaction, with an index on a key; its number of rows, if it is known, or -1."""
        self.run("CREATE TEMP TABLE %s AS %s" % (name, named(columns, select, name)), arguments)
        if key:
            self.run("CREATE INDEX %s_k ON %s (%s)" % (name, name, ", ".join(key)), {})
        return self.number("SELECT count(*) FROM %s" % name)

    def drop_table(self, name: str) -> None:
        """Ends a temporary table of our own."""
        self.run("DROP TABLE IF EXISTS %s.%s" % (self.own_schema, name), {})

    def size(self, relation: Relation) -> int:
        """About how many rows a table has."""
        return self.number("SELECT count(*) FROM %s" % relation.name)

    @contextmanager
    def find_by_index(self, is_wanted: bool) -> Iterator[None]:
        """Within it, repeated keys are looked for by an index rather than in memory, where that is wanted and helps."""
        yield


def named(columns: Sequence[str], select: str, name: str) -> str:
    """A query whose columns have these names."""
    return "WITH %s_q(%s) AS (%s) SELECT * FROM %s_q" % (name, ", ".join(columns), select, name)


def with_steps(steps: Mapping[str, Tuple[Sequence[str], str]], materialized: str) -> str:
    """Steps as WITH."""
    texts = ["%s(%s) AS %s (%s)" % (name, ", ".join(columns), materialized, select) for name, (columns, select) in steps.items()]
    return "WITH " + ",\n".join(texts) + "\n"
