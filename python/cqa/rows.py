"""The rows of an answer."""

from __future__ import annotations

import html
import importlib
import re
from decimal import Decimal
from typing import Any, Iterable, List, Sequence, SupportsIndex, Tuple, Union, overload

from .files import written

Cell = Union[int, str, Decimal]


_SPECIAL = re.compile(r'[",\r\n]')


def csv_line(fields: Sequence[str]) -> str:
    """A record of CSV with its line feed; fields that need quotes have them, and so has an empty field that stands alone."""
    if len(fields) == 1 and not fields[0]:
        return '""\n'
    return ",".join('"' + field.replace('"', '""') + '"' if _SPECIAL.search(field) else field for field in fields) + "\n"


def cell_text(cell: Cell) -> str:
    """A value as a text: a number with all of its places, and never with an exponent."""
    return format(cell, "f") if isinstance(cell, Decimal) else str(cell)


class Rows(List[Tuple[Cell, ...]]):
    """The rows of an answer, ascending, each once: a list of tuples, with the names of their columns.

    columns: the names as they are written behind `select`; none for `exists`, whose yes is the one row ().
    """

    def __init__(self, columns: Sequence[str], rows: Iterable[Tuple[Cell, ...]] = ()) -> None:
        super().__init__(rows)
        self.columns: Tuple[str, ...] = tuple(columns)

    @overload
    def __getitem__(self, at: SupportsIndex) -> Tuple[Cell, ...]: ...

    @overload
    def __getitem__(self, at: slice) -> "Rows": ...

    def __getitem__(self, at: Union[SupportsIndex, slice]) -> "Union[Tuple[Cell, ...], Rows]":
        """A row, or some rows with their columns."""
        return Rows(self.columns, super().__getitem__(at)) if isinstance(at, slice) else super().__getitem__(at)

    def to_csv(self, path: str) -> None:
        """Writes a CSV file in UTF-8 with a header. The file is written beside its place and then moved."""
        with written(path) as file:
            file.write(self.csv_text().encode("utf-8"))

    def csv_text(self) -> str:
        """The rows as CSV with a header line; lines end with a line feed. An `exists` is the column `exists`, with 1 for yes."""
        if not self.columns:
            return csv_line(["exists"]) + "".join(csv_line(["1"]) for _ in self)
        return csv_line(self.columns) + "".join(csv_line([cell_text(cell) for cell in row]) for row in self)

    def to_pandas(self) -> Any:
        """A pandas.DataFrame of the rows. Raises ImportError where pandas isn't installed."""
        pandas = importlib.import_module("pandas")
        return pandas.DataFrame(list(self), columns=list(self.columns))

    def _repr_html_(self) -> str:
        """A table for a notebook, with each text escaped."""
        head = "".join("<th>%s</th>" % html.escape(name) for name in self.columns)
        body = "".join("<tr>%s</tr>" % "".join("<td>%s</td>" % html.escape(cell_text(cell)) for cell in row) for row in self)
        return "<table><thead><tr>%s</tr></thead><tbody>%s</tbody></table>" % (head, body)

    def __repr__(self) -> str:
        return "Rows(columns=%r, %s)" % (self.columns, super().__repr__())
