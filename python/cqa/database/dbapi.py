"""What connections by DB-API (PEP 249) have in common."""

from __future__ import annotations

import importlib
from abc import abstractmethod
from contextlib import contextmanager
from typing import Any, Dict, Iterator, List, Mapping, Optional, Sequence, Set, Tuple, Type

from ..errors import DatabaseFault, QueryRefused
from .engine import Engine, Row
from .query import Column
from .tokens import with_parameters


class DbApi(Engine):
    """A connection whose parameters are written %(name)s."""

    def __init__(self, connection: Any, is_own: bool) -> None:
        self.connection = connection
        self.is_own = is_own
        self.module = importlib.import_module(type(connection).__module__.split(".")[0].lstrip("_"))
        self.error: Type[Exception] = self.module.Error
        self._depth = 0
        self._known_columns: Dict[str, Set[str]] = {}
        self._known_functions: Dict[Tuple[str, bool, bool], Optional[str]] = {}

    @contextmanager
    def told(self) -> Iterator[None]:
        """Tells a fault of the database as one of ours."""
        try:
            yield
        except self.error as fault:
            raise DatabaseFault("%s: %s" % (self.name, self.said(fault))) from fault
        except (ValueError, OverflowError) as fault:  # of a driver that makes a value of Python, as a date before the year 1
            raise DatabaseFault("%s: a value that Python can't hold: %s: write cast(.. as text) around it" % (self.name, self.said(fault))) from fault

    def said(self, fault: BaseException) -> str:
        """What a fault says, in a line."""
        return (str(fault).strip() or type(fault).__name__).split("\n")[0]

    def cursor(self) -> Any:
        """A cursor that puts parameters into the text."""
        return self.connection.cursor()

    def execute(self, cursor: Any, sql: str, arguments: Mapping[str, Any]) -> None:
        """Runs a text. Where there are parameters, each % of the text has to be doubled."""
        if arguments:
            sql = with_parameters(sql, lambda name: "%%(%s)s" % name, lambda piece: piece.replace("%", "%%"))
            cursor.execute(sql, dict(arguments))
        else:
            cursor.execute(sql)

    def run(self, sql: str, arguments: Mapping[str, Any]) -> None:
        cursor = self.cursor()
        try:
            with self.told():
                self.execute(cursor, sql, arguments)
        finally:
            cursor.close()

    def all(self, sql: str, *values: Any) -> List[Row]:
        """All rows of a small query of the catalogue, whose values stand as %s."""
        cursor = self.cursor()
        try:
            with self.told():
                cursor.execute(sql, values or None)
                return [tuple(row) for row in cursor.fetchall()]
        finally:
            cursor.close()

    @abstractmethod
    def description_text(self, sql: str) -> str:
        """A query without rows that has the columns of another."""

    @abstractmethod
    @contextmanager
    def kept_apart(self) -> Iterator[None]:
        """Within it a fault leaves the transaction as it was."""
        yield

    def described(self, sql: str, arguments: Mapping[str, Any]) -> List[Column]:
        cursor = self.cursor()
        try:
            with self.kept_apart():
                self.execute(cursor, self.description_text(sql), arguments)
            return [Column(column[0], self.quoted(column[0]), str(column[1])) for column in cursor.description]
        except self.error as fault:
            raise (QueryRefused if self.is_of_text(fault) else DatabaseFault)(self.said(fault)) from None
        finally:
            cursor.close()

    def is_of_text(self, fault: BaseException) -> bool:
        """Whether a fault lies in the text, and not in how the database is."""
        return True

    def begin_question(self, tokens: Sequence[Any]) -> None:
        self._known_columns.clear()
        self._known_functions.clear()

    def columns_named(self, name: str) -> Set[str]:
        if name not in self._known_columns:
            self._known_columns[name] = self.find_columns(name)
        return self._known_columns[name]

    def function_fault(self, name: str, count: int, is_within: bool) -> Optional[str]:
        key = name, count > 1, is_within
        if key not in self._known_functions:
            self._known_functions[key] = self.find_function_fault(name, count, is_within)
        return self._known_functions[key]

    @abstractmethod
    def find_columns(self, name: str) -> Set[str]:
        """The names of the columns of whatever has this bare name."""

    @abstractmethod
    def find_function_fault(self, name: str, count: int, is_within: bool) -> Optional[str]:
        """Why a function isn't taken, if it isn't."""

    def close(self) -> None:
        if self.is_own:
            self.connection.close()
