"""The conflicts of a table: keys whose rows differ, in which columns, with the sources of each value."""

from __future__ import annotations

import contextlib
import gc
from collections import Counter, defaultdict
from decimal import Decimal
from itertools import chain, groupby
from operator import itemgetter
from typing import Callable, Dict, Iterable, Iterator, List, NamedTuple, Optional, Sequence, Tuple

from .rows import Cell, Rows, cell_text
from .unseen import is_seen, seen

#: A row as a dump writes it: a text for each column.
Row = Sequence[str]

#: So many blocks are looked at together: whether their values stand for themselves in a line.
_TOGETHER = 256


class Disputed(NamedTuple):
    """A key whose rows differ.

    key: its values. values: for each column that differs, its values with the sources of each (none where the table has no
    column of sources). rows: the rows of the block.
    """

    key: Tuple[Cell, ...]
    values: Dict[str, Dict[Cell, List[Cell]]]
    rows: List[Tuple[Cell, ...]]


class Columns:
    """The columns of a table as they are written in a dump, and how their values are read.

    names: the columns. key: where those of the key stand, in its order; order: where these stand, and then the others. source: where
    the column of sources stands, which is none of the key, if any. compared: where those stand in which rows may differ.
    """

    def __init__(self, kinds: Dict[str, str], key: Sequence[str], source: Optional[str], places: Dict[str, int]) -> None:
        """kinds: "int" or "text" by column. places: by column, how many places its numbers have."""
        self.names = list(kinds)
        self.key = [self.names.index(name) for name in key]
        self.source = self.names.index(source) if source in kinds and source not in key else None
        self.compared = [at for at in range(len(self.names)) if at not in self.key and at != self.source]
        self.order = self.key + [at for at in range(len(self.names)) if at not in self.key]
        self.points = [places.get(name, 0) for name in kinds]
        self.readers = [_reader(kind, places.get(name, -1)) for name, kind in kinds.items()]

    def read(self, row: Row, places: Iterable[int]) -> Tuple[Cell, ...]:
        """The values of a row in some columns."""
        return tuple(self.readers[at](row[at]) for at in places)

    def in_order(self, row: Sequence[object]) -> Row:
        """The texts of a row whose values come in the order `order`."""
        texts = [""] * len(row)
        for at, value in zip(self.order, row):
            texts[at] = str(value)
        return texts

    def differing(self, rows: Sequence[Row]) -> List[int]:
        """The compared columns in which rows differ."""
        if len(rows) == 2:
            one, other = rows
            return [at for at in self.compared if one[at] != other[at]]
        return [at for at in self.compared if len({row[at] for row in rows}) > 1]


def _reader(kind: str, places: int) -> Callable[[str], Cell]:
    """How a value of a dump is read."""
    if places >= 0:
        return lambda text: Decimal(text).scaleb(-places)
    return int if kind == "int" else str


class Conflicts:
    """What of a table is in conflict. Rows that differ in their source alone are in no conflict.

    table: its name. key: the columns of its key. columns: those of the rows, the key first. source: the column of sources, if any.
    keys, rows: how many there are. by_column: for each column outside the key, the number of keys in which it differs.
    by_source: for each source its number of rows, and of keys that have no row of another source.
    """

    def __init__(self, table: str, columns: Columns) -> None:
        self.table = table
        self.key = tuple(columns.names[at] for at in columns.key)
        self.columns = tuple(columns.names[at] for at in columns.order)
        self.source = None if columns.source is None else columns.names[columns.source]
        self.keys = 0
        self.rows = 0
        self.by_column: Dict[str, int] = {columns.names[at]: 0 for at in columns.compared}
        self.by_source: Dict[Cell, Tuple[int, int]] = {}
        self._columns = columns
        self._blocks: List[Tuple[List[int], List[Row]]] = []
        self._disputed: Optional[List[Disputed]] = None

    @property
    def disputed(self) -> List[Disputed]:
        """The keys in conflict, ascending."""
        if self._disputed is None:
            self._disputed = [self._read(differing, rows) for differing, rows in self._blocks]
        return self._disputed

    def worst(self, most: int) -> List[Disputed]:
        """The keys in conflict that differ in most columns, then those with most rows."""
        found = sorted(self._blocks, key=lambda block: (-len(block[0]), -len(block[1])))[:most]
        return [self._read(differing, rows) for differing, rows in found]

    def _read(self, differing: Sequence[int], rows: Sequence[Row]) -> Disputed:
        columns = self._columns
        values: Dict[str, Dict[Cell, List[Cell]]] = {}
        for at in differing:
            of_column = values.setdefault(columns.names[at], {})
            for value, sources in _values(rows, at, columns.source).items():
                of_column[columns.readers[at](value)] = list(sources)
        return Disputed(columns.read(rows[0], columns.key), values, [columns.read(row, columns.order) for row in rows])

    def add(self, rows: Iterable[Row]) -> None:
        """Counts rows, which come in the order of their keys."""
        columns, source = self._columns, self._columns.source
        alone: Dict[str, int] = defaultdict(int)
        all_rows: Dict[str, int] = defaultdict(int)
        before = len(self._blocks)
        for _, of_key in groupby(rows, key=itemgetter(*columns.key)):
            block = list(of_key)
            self.keys += 1
            self.rows += len(block)
            if source is not None:
                first = block[0][source]
                is_alone = True
                for row in block:
                    all_rows[row[source]] += 1
                    is_alone = is_alone and row[source] == first
                if is_alone:
                    alone[first] += 1
            if len(block) > 1:
                differing = columns.differing(block)
                if differing:
                    self._blocks.append((differing, block))
        for at, count in Counter(chain.from_iterable(differing for differing, _ in self._blocks[before:])).items():
            self.by_column[columns.names[at]] += count
        self.by_source.update((name, (all_rows[name], alone[name])) for name in sorted(all_rows))

    def __len__(self) -> int:
        """The number of keys in conflict."""
        return len(self._blocks)

    def __str__(self) -> str:
        return "".join(self.lines())

    def lines(self) -> Iterator[str]:
        """What is in conflict as lines of text with their line feeds: the counts, and a line for each key."""
        found = ["%s %d" % (name, count) for name, count in self.by_column.items() if count]
        shown = ": " + ", ".join(found) if found else ""
        yield "%s: %d key%s, %d in conflict%s\n" % (self.table, self.keys, "" if self.keys == 1 else "s", len(self), shown)
        for begin in range(0, len(self._blocks), _TOGETHER):
            yield from self._lines(self._blocks[begin:begin + _TOGETHER])

    def _lines(self, blocks: Sequence[Tuple[List[int], List[Row]]]) -> Iterator[str]:
        """The lines of some blocks."""
        columns, source = self._columns, self._columns.source
        show = _plain if _are_plain(blocks) else _shown
        shows = [_pointed(places) if places else show for places in columns.points]
        heads = [name + ": " for name in columns.names]
        for differing, rows in blocks:
            key = ", ".join([shows[at](rows[0][at]) for at in columns.key])
            if len(rows) == 2:  # then each value has one source
                one, other = rows
                ends = ["", ""] if source is None else [" (%s)" % show(one[source]), " (%s)" % show(other[source])]
                parts = [heads[at] + shows[at](one[at]) + ends[0] + " | " + shows[at](other[at]) + ends[1] for at in differing]
            else:
                parts = [heads[at] + " | ".join([
                    shows[at](value) + (" (%s)" % ", ".join(map(show, sources)) if sources else "")
                    for value, sources in _values(rows, at, source).items()]) for at in differing]
            yield "%s  %s\n" % (key, "   ".join(parts))

    def listed(self) -> Rows:
        """A row for each value in conflict: the key, the column, the value, and its sources with a comma between two."""
        rows = [(*block.key, name, value, ", ".join(map(cell_text, sources)))
                for block in self.disputed for name, values in block.values.items() for value, sources in values.items()]
        return Rows((*self.key, "column", "value", "sources"), rows)

    def to_csv(self, path: str) -> None:
        """Writes `listed` as a CSV file in UTF-8 with a header."""
        self.listed().to_csv(path)

    def _repr_html_(self) -> str:
        """A table for a notebook, with each text escaped."""
        rows = [(", ".join(map(cell_text, block.key)), name, values_text(values))
                for block in self.disputed for name, values in block.values.items()]
        return Rows((", ".join(self.key), "column", "values"), rows)._repr_html_()


@contextlib.contextmanager
def many_rows() -> Iterator[None]:
    """Within it no garbage is looked for: where many rows are kept, each look goes over all of them, and finds nothing."""
    was_looking = gc.isenabled()
    gc.disable()
    try:
        yield
    finally:
        if was_looking:
            gc.enable()


def _values(rows: Sequence[Row], at: int, source: Optional[int]) -> Dict[str, Dict[str, None]]:
    """The values of a block in a column, with the sources of each."""
    values: Dict[str, Dict[str, None]] = {}
    for row in rows:
        sources = values.setdefault(row[at], {})
        if source is not None:
            sources[row[source]] = None
    return values


def values_text(values: Dict[Cell, List[Cell]]) -> str:
    """Values with their sources, in a line."""
    return " | ".join("%s%s" % (_shown(cell_text(value)), " (%s)" % ", ".join(_shown(cell_text(source)) for source in sources) if sources else "")
                      for value, sources in values.items())


def _are_plain(blocks: Sequence[Tuple[List[int], List[Row]]]) -> bool:
    """Whether all values of some blocks stand for themselves in a line, the empty one left out."""
    values = list(chain.from_iterable(chain.from_iterable(rows for _, rows in blocks)))
    joined = "\n".join(["", *values, ""])
    return (joined.count("\n") == len(values) + 1 and "\\" not in joined and " \n" not in joined and "\n " not in joined
            and is_seen(joined.replace("\n", "")))


def _plain(value: str) -> str:
    """A value that stands for itself in a line, or is empty."""
    return value or "''"


def _pointed(places: int) -> Callable[[str], str]:
    """How an integer of a dump is shown with so many places."""
    def text(value: str) -> str:
        sign, digits = ("-", value[1:]) if value[0] == "-" else ("", value)
        digits = digits.rjust(places + 1, "0")
        return "%s%s.%s" % (sign, digits[:-places], digits[-places:])
    return text


def _shown(value: str) -> str:
    """A value in a line of its own: line feeds are written as \\n, and what nobody sees is marked."""
    return "''" if value == "" else seen(value.replace("\\", "\\\\").replace("\n", "\\n").replace("\r", "\\r"))
