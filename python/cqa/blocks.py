"""Rows as `copy` blocks, and the statements that make a table."""

from __future__ import annotations

import csv
import io
import re
from itertools import repeat
from typing import Iterable, List, Optional, Sequence, TextIO, Tuple, Union

from .scripts import Schema, row_text

ENDS_BLOCK = re.compile(r"\n\\\.\r?\n")


class BlockWriter:
    """Writes the rows of a list as `copy` blocks. Line K of a block is line K of the list from the one on that the comment names,
    so blank lines stand where the list has what is no row. Rows that would end a block go apart."""

    def __init__(self, out: TextIO, table: str, path: str, apart: List[Tuple[str, ...]], source_place: int) -> None:
        self._out = out
        self._table = table
        self._path = re.sub(r"[\r\n]", "?", path).encode("utf-8", "replace").decode()
        self._csv = csv.writer(out, lineterminator="\n", quoting=csv.QUOTE_ALL)
        self._apart = apart
        self._source_place = source_place
        self._next = 0

    def write(self, lines: Sequence[int], columns: Sequence[Sequence[str]], source: Optional[str], end: int) -> None:
        """Writes the rows of a piece that ends on a line."""
        place = self._source_place
        rows = zip(*columns) if source is None else zip(*columns[:place], repeat(source), *columns[place:])
        if self._next == lines[0] and end - lines[0] + 1 == len(lines):
            self._csv.writerows(rows)
            self._next = end + 1
            return
        for line, row in zip(lines, rows):
            if any(ENDS_BLOCK.search(value) for value in row if "\\." in value):
                self._apart.append(row)
            else:
                self._write_row(line, row)

    def _write_row(self, line: int, row: Tuple[str, ...]) -> None:
        if not self._next:
            self._out.write("-- %s:%d\ncopy %s;\n" % (self._path, line, self._table))
            self._next = line
        self._out.write("\n" * (line - self._next))
        self._csv.writerow(row)
        self._next = line + 1 + sum(value.count("\n") for value in row)

    def end(self) -> None:
        """Ends the block, if one is open."""
        if self._next:
            self._out.write("\\.\n")
            self._next = 0


def rows_script(table: str, rows: Iterable[Tuple[Union[int, str], ...]]) -> str:
    """The statements that put rows into a table."""
    block, apart = io.StringIO(newline=""), []
    writer = csv.writer(block, lineterminator="\n", quoting=csv.QUOTE_ALL)
    for row in rows:
        if any(isinstance(value, str) and ENDS_BLOCK.search(value) for value in row):
            apart.append("insert into %s values %s;\n" % (table, row_text(row)))
        else:
            writer.writerow(row)
    return "copy %s;\n%s\\.\n%s" % (table, block.getvalue(), "".join(apart))


def create_text(schema: Schema) -> str:
    """The statement that makes a table."""
    columns = ", ".join("%s %s" % item for item in schema.columns.items())
    first = "create strict table" if schema.strict else "create table"
    return "%s %s (%s, primary key (%s));\n" % (first, schema.table, columns, ", ".join(schema.key))
