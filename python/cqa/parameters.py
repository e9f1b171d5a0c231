"""Values in the place of the marks of a query: `where name = ?`, or `where name = :name`, quoted as the language wants it."""

from __future__ import annotations

import re
from decimal import Decimal
from typing import Callable, Dict, List, Mapping, Sequence, Tuple, Union

from .queries import said
from .rows import Cell
from .scaling import shown_number
from .scripts import quoted

#: Values by their order, for `?`, or by their names, for `:name`.
Parameters = Union[Sequence[Cell], Mapping[str, Cell]]

_MARK = re.compile(r"--[^\n]*|'[^']*(?:'|\Z)|(?P<mark>\?|:(?P<name>[A-Za-z_]\w*))")


def filled(statement: str, parameters: Parameters, places: Callable[[str, Sequence[str]], int]) -> str:
    """A statement with values in the place of its marks. places: of a column as a query names it, and of its tables, how many places
    its numbers have: such a number is written with them.

    Raises ValueError where values are missing or left over, or a number has more places than its column, and TypeError for a value that is
    no int, Decimal or text.
    """
    numbers: Dict[int, Tuple[int, Union[int, Decimal]]] = {}  # by their beginning, where numbers end, and what they are
    parts: List[str] = []
    at = size = 0
    values = _Values(parameters)
    for found in _MARK.finditer(statement):
        if found["mark"] is None:
            continue
        value = values.of(found["name"])
        text = quoted(value) if isinstance(value, str) else str(value) if isinstance(value, int) else format(value, "f")
        parts += [statement[at:found.start()], text]
        size += found.start() - at + len(text)
        at = found.end()
        if not isinstance(value, str):
            numbers[size - len(text)] = size, value
    values.end()
    return _with_places("".join(parts) + statement[at:], numbers, places)


class _Values:
    """The values of parameters, taken as marks name them."""

    def __init__(self, parameters: Parameters) -> None:
        if isinstance(parameters, str):
            raise TypeError("the values of a query stand in a list or in a dict, as [%r]" % parameters)
        self._by_name = dict(parameters) if isinstance(parameters, Mapping) else {}
        self._in_order = [] if isinstance(parameters, Mapping) else list(parameters)
        self._has_names = isinstance(parameters, Mapping)
        self._marks = 0
        self._named: List[str] = []

    def of(self, name: str) -> Cell:
        """The value of the next mark; name: that of `:name`, or None for `?`."""
        if name is not None:
            if name not in self._by_name:
                raise ValueError("no value for :%s" % name)
            self._named.append(name)
            return _checked(":" + name, self._by_name[name])
        self._marks += 1
        if self._has_names:
            raise ValueError("values by their names fill :name, and this query has ?")
        if self._marks > len(self._in_order):
            raise ValueError("no value for the ? number %d" % self._marks)
        return _checked("the value %d" % self._marks, self._in_order[self._marks - 1])

    def end(self) -> None:
        """Sees that each value stood somewhere."""
        if self._marks < len(self._in_order):
            raise ValueError("%d values, and the query has %d ?" % (len(self._in_order), self._marks))
        left = [name for name in self._by_name if name not in self._named]
        if left:
            raise ValueError("the query has no :%s" % left[0])


def _checked(what: str, value: object) -> Cell:
    if isinstance(value, bool) or not isinstance(value, (int, str, Decimal)):
        raise TypeError("%s: int, Decimal or str is wanted, and not %s: %r" % (what, type(value).__name__, value))
    if isinstance(value, Decimal) and not value.is_finite():
        raise ValueError("%s: %s is no number" % (what, value))
    return value


def _with_places(text: str, numbers: Mapping[int, Tuple[int, Union[int, Decimal]]], places: Callable[[str, Sequence[str]], int]) -> str:
    """A statement in which the numbers that were filled in are written as their columns have them."""
    for part in reversed(said(text).parts) if numbers else ():
        for test in reversed(part.tests):
            if test.right.begin not in numbers:
                continue
            end, value = numbers[test.right.begin]
            count = places(test.column.word, part.tables)
            if Decimal(value) != round(Decimal(value), count):
                raise ValueError("%s: %s has more than %s" % (test.column.word, value, "1 place" if count == 1 else "%d places" % count))
            written = shown_number(Decimal(value), count) if count else str(int(value))
            text = text[:test.right.begin] + written + text[end:]
    return text
