"""CSV lists with header lines, made one script: every fault is told by its list and line, and a list with a fault isn't loaded."""

from __future__ import annotations

import codecs
import csv
import io
import os
import re
import stat
from array import array
from functools import partial
from itertools import chain, repeat
from typing import IO, Callable, Dict, Iterator, List, Optional, Protocol, Sequence, Tuple, TypeVar, Union

from . import underway
from .blocks import BlockWriter
from .columns import Column, DateColumn, DecimalColumn, TextColumn, TimeColumn, csv_fault
from .common import KeysOfLists
from .options import MOST_NAME, Form, ListOptions, word_of
from .origins import Origin
from .scripts import Schema, row_text

MOST_COLUMNS = 16
MOST_ROWS = 1_000_000
_PIECE = 5_000
#: Letters of a line that are read at once: a longer line is no record of a table, and is told as several that are wrong.
_LONGEST_LINE = 1_000_000
_MOST_APART = 10_000
_MOST_ALIKE = 10
_SEPARATOR = re.compile(r"sep=([^\r\n])\r?\n")
_VALUES = re.compile(r"'(?:[^'\\]|\\.)*'|\"(?:[^\"\\]|\\.)*\"|[0-9][0-9,]*")
_Item = TypeVar("_Item")


class _Reader(Protocol):
    """What `csv.reader` gives."""

    line_num: int

    def __iter__(self) -> Iterator[List[str]]: ...

    def __next__(self) -> List[str]: ...


class _ReadFault(Exception):
    """A list can't be read, and why."""


def _as_latin(fault: UnicodeError) -> Tuple[str, int]:
    """What a list of mixed encodings has where it isn't UTF-8: letters of Latin-1, as Windows has them."""
    if not isinstance(fault, UnicodeDecodeError):
        raise fault
    rest = fault.object[fault.start:fault.end]
    try:
        return rest.decode("cp1252"), fault.end
    except UnicodeError:
        return rest.decode("latin-1"), fault.end


codecs.register_error("cqa-latin", _as_latin)


class Lists:
    """The lists of one table. `add` reads one after the other, and then `end` tells what only all together show; where there are no
    faults, `schema` is the table and `finish_blocks` completes the file of its blocks."""

    def __init__(self, options: ListOptions, blocks: IO[bytes], fault: Callable[[str], None], there: Optional[Schema] = None,
                 are_several: bool = False) -> None:
        """blocks: a file for the blocks, which stand behind the schema. fault: told of each fault. there: the table, if it is there.
        are_several: whether there are several lists, whose keys are compared."""
        self.options = options
        self._form = Form()
        self.records = 0
        self.origins: List[Origin] = []
        self.dropped = 0
        self.faults = 0
        self._notes: List[str] = []
        self._alike: Dict[Tuple[str, str], int] = {}  # by list and cause, how many faults there are
        self._last_alike: Dict[Tuple[str, str], str] = {}  # and the last one that was told, with its line
        self._header_line = 1
        self._unrenamed = set(map(word_of, options.renamed))
        self._fault = fault
        self._told: List[Tuple[int, str]] = []
        self._is_in_piece = False
        self._there = there
        self._blocks = io.TextIOWrapper(blocks, encoding="utf-8", newline="", write_through=False)
        self._columns: List[Column] = []
        self._has_source = False
        self._key = [word_of(name) for name in options.key]
        self._headers: Optional[Tuple[str, List[str]]] = None
        self._apart: List[Tuple[str, ...]] = []
        self._keys = KeysOfLists() if are_several else None
        self._marks = array("q")  # by each row a number that tells it from others
        self._strict_rows: Dict[Tuple[str, ...], Tuple[Tuple[str, ...], str]] = {}  # by key, the row of a strict table and its place

    def tell(self, path: str, line: Optional[int], text: str) -> None:
        """Tells a fault, if not too many are like it. Those of a piece are told in the order of their lines, behind it."""
        self.faults += 1
        is_of_encoding = "isn't UTF-8" in text
        kind = path, "UTF-8" if is_of_encoding else _VALUES.sub("", text)
        self._alike[kind] = self._alike.get(kind, 0) + 1
        if self._alike[kind] <= (1 if is_of_encoding else _MOST_ALIKE):
            self._told.append((line or 0, "%s: %s" % (path if line is None else "%s:%d" % (path, line), text)))
            self._last_alike[kind] = "line %d: %s" % (line or 0, text)
        if not self._is_in_piece:
            self._tell_all()

    def _tell_counts(self) -> None:
        """Tells how many faults weren't told, for being like others."""
        for kind, count in self._alike.items():
            more = count - (1 if kind[1] == "UTF-8" else _MOST_ALIKE)
            if more > 0:
                self._fault("%s: and %d more like %s" % (kind[0], more, self._last_alike[kind]))
        self._alike.clear()

    def _tell_all(self) -> None:
        for _, fault in sorted(self._told, key=lambda told: told[0]):
            self._fault(fault)
        self._told.clear()

    def add(self, path: str, source: Optional[str]) -> None:
        """Reads a list. source: what the rows have in the column of sources; None where there is no such column. Raises OSError where
        the file of blocks can't be written."""
        self._form = self.options.form_of(path, source)
        try:
            raw = open(path, "rb")
        except OSError as fault:
            self.tell(path, None, (fault.strerror or str(fault)).lower())
            return
        with raw:
            try:
                with underway.saying(lambda: "%s, %s records" % (path, format(self.records, ","))):
                    self._add(path, source, raw)
            except _ReadFault as fault:
                self.tell(path, None, str(fault))
        self._tell_counts()

    def _add(self, path: str, source: Optional[str], raw: io.BufferedReader) -> None:
        try:
            codecs.lookup("utf-8" if self._form.encoding == "mixed" else self._form.encoding)
        except LookupError:
            raise _ReadFault("no encoding is called %s" % self._form.encoding) from None
        before, records = os.fstat(raw.fileno()), self.records
        text = self._decoded(path, raw)
        self._read(path, source, text)
        self.origins.append(Origin(path, self.records - records, source))
        after = os.fstat(raw.fileno())
        if stat.S_ISREG(before.st_mode) and (before.st_size, before.st_mtime_ns) != (after.st_size, after.st_mtime_ns):
            self.tell(path, None, "it changed while it was read")
        text.detach()

    def _decoded(self, path: str, raw: io.BufferedReader) -> io.TextIOWrapper:
        """A list as text. One that is UTF-8 with a letter beyond ASCII is read so, whatever encoding was told."""
        encoding = self._form.encoding
        if encoding == "mixed":
            return io.TextIOWrapper(raw, encoding="utf-8-sig", errors="cqa-latin", newline="")
        is_told = codecs.lookup(encoding).name == "utf-8" or raw.peek(3)[:3] == codecs.BOM_UTF8
        if not is_told and _is_utf_8(raw):
            self._notes.append("%s is UTF-8, and is read so, not as %s" % (path, encoding))
            is_told = True
        if is_told:
            return io.TextIOWrapper(raw, encoding="utf-8-sig", errors="surrogateescape", newline="")
        return io.TextIOWrapper(raw, encoding=encoding, newline="")

    def _read(self, path: str, source: Optional[str], text: io.TextIOWrapper) -> None:
        rest = self._lines(text)
        first, delimiter, above = self._first(rest)
        reader = csv.reader(chain(repeat("\n", above), [first], rest), delimiter=delimiter, strict=True)
        faults = self.faults
        header = self._header(path, reader)
        places = self._places(path, header, source is not None) if header else []
        if header is None or self.faults > faults:
            return
        for column in self._columns:
            column.begin(self._form, source or path)
        if self._keys is not None:
            self._keys.begin(source or path)
        writer = BlockWriter(self._blocks, self.options.table, path, self._apart, self._source_place())
        for lines, rows, end in self._pieces(path, reader):
            self._is_in_piece = True
            try:
                self._piece(path, source, places, len(header), lines, rows, writer, end)
            finally:
                self._is_in_piece = False
                self._tell_all()
        writer.end()

    def _lines(self, text: io.TextIOWrapper) -> Iterator[str]:
        """The lines of a list. Raises _ReadFault where it can't be read."""
        try:
            yield from iter(partial(text.readline, _LONGEST_LINE), "")
        except OSError as fault:
            raise _ReadFault((fault.strerror or str(fault)).lower()) from None
        except UnicodeError as fault:
            raise _ReadFault("it isn't written in %s: %s" % (self._form.encoding, fault)) from None

    def _first(self, lines: Iterator[str]) -> Tuple[str, str, int]:
        """The header line, what stands between the fields of a list, and how many lines stand above: those that are told, and a line
        `sep=;` as spreadsheets write it."""
        above = self._form.skip
        for _ in range(above):
            next(lines, "")
        first = next(lines, "")
        separator = _SEPARATOR.fullmatch(first)
        if separator:
            first, above = next(lines, ""), above + 1
        return first, self._form.delimiter or (separator[1] if separator else self._delimiter_of(first)), above

    def _delimiter_of(self, header: str) -> str:
        """What stands between the fields of a header line: of four marks one by which the key is found, and else the commonest."""
        def fit(mark: str) -> Tuple[bool, int]:
            try:
                names = self._words(next(csv.reader([header], delimiter=mark), []))
            except csv.Error:
                return False, 0
            return bool(self._key) and set(self._key) <= {*names, self.options.source_column}, len(names)

        return max(",;\t|", key=fit)

    def _words(self, names: Sequence[str]) -> List[str]:
        """The headers as names of the language."""
        renamed = {word_of(old): new for old, new in self.options.renamed.items()}
        self._unrenamed -= set(map(word_of, names))
        return [renamed.get(word_of(name), word_of(name)) for name in names]

    def _header(self, path: str, reader: "_Reader") -> Optional[List[str]]:
        """The names of a list's columns, or None where they can't be had."""
        try:
            names = next((row for row in reader if row), None)
        except csv.Error as fault:
            self.tell(path, 1, csv_fault(fault))
            return None
        if names is None:
            self.tell(path, None, "it is empty, and a header line is wanted")
            return None
        self._header_line = reader.line_num
        if any("\udc80" <= letter <= "\udcff" for name in names for letter in name):
            self.tell(path, reader.line_num, "the header isn't UTF-8; --encoding says how the list is written, as latin-1")
            return None
        words = self._words(names)
        taken = None if self.options.columns is None else {*map(word_of, self.options.columns), *self._key}
        for at, (word, name) in enumerate(zip(words, names), 1):
            if taken is not None and word not in taken:
                continue
            if not word or len(word) > MOST_NAME:
                self.tell(path, reader.line_num, "the header of column %d, %r, makes no name: "
                          "--rename %s=NAME gives it one, --columns leaves it out%s"
                          % (at, name, name, self._skip_hint(path)))
            elif word in words[:at - 1]:
                self.tell(path, reader.line_num, "columns %d and %d are both called %s" % (words.index(word) + 1, at, word))
        return words

    def _skip_hint(self, path: str) -> str:
        return "" if self._form.skip else "; is line %d no header? --skip 1" % self._header_line

    def _places(self, path: str, header: List[str], has_source: bool) -> List[int]:
        """Where in a record the taken columns stand; the columns themselves are made with the first list."""
        if self._headers is None:
            self._headers = (path, header)
            self._has_source = has_source
            names = self._taken(path, header)
            self._columns = [self._column(name) for name in names]
        if has_source and self.options.source_column in header:
            self.tell(path, self._header_line, "it has a column %s itself: --source-column says what the column of sources is called"
                      % self.options.source_column)
        wanted = [column.name for column in self._columns]
        for name in wanted:
            if name not in header:
                self.tell(path, self._header_line, "no column %s; it has %s (--rename OLD=NEW names a column anew)" % (name, ", ".join(header)))
        if self.options.columns is None:
            for name in header:
                if name not in wanted and name != self.options.source_column:
                    self.tell(path, self._header_line, "a column %s, which %s hasn't; --columns says which are taken" % (name, self._headers[0]))
        return [header.index(name) for name in wanted if name in header]

    def _taken(self, path: str, header: List[str]) -> List[str]:
        """The names of the table's columns but that of sources: the key's first faults are told here."""
        if self._there is not None:
            names = [name for name in self._there.columns if not (self._has_source and name == self.options.source_column)]
        else:
            names = [word_of(name) for name in self.options.columns] if self.options.columns is not None else list(header)
        for name in self._key:
            if name not in names and not (self._has_source and name == self.options.source_column):
                self.tell(path, self._header_line, "no column %s for the key; it has %s; --delimiter says what stands between two fields, "
                          "--skip how many lines stand above the header" % (name, ", ".join(header)))
        named = [word_of(name) for name in (*self.options.decimals, *self.options.times, *self.options.texts, *sorted(self.options.dated()))]
        for name in named:
            if name not in names:
                self.tell(path, self._header_line, "no column %s; it has %s" % (name, ", ".join(header)))
        if len(names) + self._has_source > MOST_COLUMNS:
            self.tell(path, self._header_line, "%d columns, and a table has at most %d: --columns says which are taken"
                      % (len(names) + self._has_source, MOST_COLUMNS))
        return names

    def _column(self, name: str) -> Column:
        decimals = {word_of(key): places for key, places in self.options.decimals.items()}
        if name in decimals:
            return DecimalColumn(name, decimals[name])
        if name in self.options.dated():
            return DateColumn(name)
        if name in map(word_of, self.options.times):
            return TimeColumn(name)
        if name in map(word_of, self.options.texts):
            return TextColumn(name)
        if self._there is not None and self._there.columns.get(name) == "text":
            return TextColumn(name)
        return Column(name, self._there is not None)

    def _pieces(self, path: str, reader: "_Reader") -> Iterator[Tuple[List[int], List[List[str]], int]]:
        """The records by pieces, with the line on which each begins and the line on which the piece ends. Faulty ones are told."""
        lines: List[int] = []
        rows: List[List[str]] = []
        at = reader.line_num
        while True:
            try:
                for row in reader:
                    rows.append(row)
                    lines.append(at + 1)
                    at = reader.line_num
                    if len(rows) == _PIECE:
                        yield lines, rows, at
                        lines, rows = [], []
                break
            except csv.Error as fault:
                if rows:
                    yield lines, rows, at
                    lines, rows = [], []
                self.tell(path, at + 1, csv_fault(fault))
                at = reader.line_num
                if "field limit" in str(fault):
                    break
        if rows:
            yield lines, rows, at

    def _piece(self, path: str, source: Optional[str], places: List[int], width: int, lines: List[int], rows: List[List[str]],
               writer: "BlockWriter", end: int) -> None:
        """Looks at a piece of a list and writes its rows."""
        if any(len(row) != width for row in rows):
            kept = [self._is_whole(path, line, row, width) for line, row in zip(lines, rows)]
            lines, rows = _those(lines, kept), _those(rows, kept)
        fields = list(zip(*rows))
        columns: List[Sequence[str]] = [fields[place] for place in places] if rows else []
        if self.options.strip:
            columns = [[value.strip().replace("\r\n", "\n") for value in values] for values in columns]
        for word in self.options.nulls:
            columns = [["" if value == word else value for value in values] if word in values else values for values in columns]
        if any("" in values for values in columns):
            kept = self._without_missing(path, lines, columns)
            lines, columns = _those(lines, kept), [_those(values, kept) for values in columns]
        if not lines or len(columns) != len(self._columns):
            return
        self.records += len(lines)
        taken = [column.take(values, lines, path, lambda at, text: self.tell(path, lines[at], text))
                 for column, values in zip(self._columns, columns)]
        self._look_at_keys(path, source, lines, taken)
        if not self.faults:
            writer.write(lines, taken, source, end)
            if len(self._apart) > _MOST_APART:
                self.tell(path, None, "more than %d texts with a line \\., which ends a block" % _MOST_APART)

    def _look_at_keys(self, path: str, source: Optional[str], lines: Sequence[int], taken: Sequence[Sequence[str]]) -> None:
        """Looks at the keys and at the rows of a piece: which lists have a key, how many rows there are, and whether a strict table
        takes them."""
        of_key: List[Sequence[str]] = [values for column, values in zip(self._columns, taken) if column.name in self._key]
        if self._keys is not None and of_key:
            self._keys.take(of_key[0]) if len(of_key) == 1 else self._keys.take(zip(*of_key))
        self._marks.extend(map(hash, zip(repeat(source), *taken)))
        if self.options.strict and self._there is None:
            keys = of_key + ([[source or ""] * len(lines)] if self.options.source_column in self._key else [])
            for line, key, row in zip(lines, zip(*keys), zip(repeat(source or ""), *taken)):
                known, place = self._strict_rows.setdefault(key, (row, "%s:%d" % (path, line)))
                if known != row:
                    self.tell(path, line, "the key %s stands in %s with another row, and a strict table takes one row of a key"
                              % (", ".join(key), place))

    def _is_whole(self, path: str, line: int, row: List[str], width: int) -> bool:
        """Whether a record has as many fields as the header; a blank line is no record."""
        if row and len(row) != width:
            self.tell(path, line, "%d field%s, and the header has %d" % (len(row), "s" if len(row) > 1 else "", width))
        return len(row) == width

    def _without_missing(self, path: str, lines: Sequence[int], columns: Sequence[Sequence[str]]) -> List[bool]:
        """Which records of a piece are looked at further: those without an empty field, and, where the options keep them, those
        with one outside the key. What the options refuse is told."""
        kept = [True] * len(lines)
        for column, values in zip(self._columns, columns):
            fate = "key" if column.name in self._key else self.options.missing
            if "" not in values or fate == "keep":
                continue
            for at, value in enumerate(values):
                if not value:
                    kept[at] = False
                    if fate != "drop":
                        self.tell(path, lines[at], "the key %s is empty" % column.name if fate == "key" else
                                  "%s is empty: --missing keep takes it as the text '', --missing drop leaves the record out" % column.name)
        self.dropped += kept.count(False)
        return kept

    def end(self) -> None:
        """Tells the faults that only all lists together show."""
        self._tell_all()
        for column in self._columns:
            for fault in column.faults():
                self.tell(*fault)
        rows = len(set(self._marks)) if self.records > MOST_ROWS and not self.faults else 0
        if rows > MOST_ROWS:
            self.tell(self.options.table, None, "%s different rows, and a session has at most %s: docs/SQL.md says how to ask of them where they are"
                      % (format(rows, ","), format(MOST_ROWS, ",")))
        self._tell_counts()

    def notes(self) -> List[str]:
        """What is no fault and good to know."""
        notes = self._notes + ["%s has no records" % (one.source or one.path) for one in self.origins if not one.records]
        notes += ["no list has a column %s, which is named anew" % name for name in sorted(self._unrenamed)]
        notes += [note for column in self._columns for note in column.notes()]
        if self.dropped:
            notes.append("%d record%s with an empty field left out" % (self.dropped, "" if self.dropped == 1 else "s"))
        return notes + (self._keys.notes(self.options.table, self._has_text_key()) if self._keys is not None else [])

    def shared(self) -> List[str]:
        """How many keys lists have in common."""
        return self._keys.counts() if self._keys is not None else []

    def _has_text_key(self) -> bool:
        return any(column.kind == "text" for column in self._columns if column.name in self._key)

    def schema(self) -> Schema:
        """The table that the lists make."""
        kinds = [(column.name, column.kind) for column in self._columns]
        if self._has_source:
            kinds.insert(self._source_place(), (self.options.source_column, "text"))
        return Schema(self.options.table, dict(kinds), self._key, self._there.strict if self._there else self.options.strict)

    def times(self) -> Dict[str, str]:
        """The columns of times, each with a time of its form."""
        return {column.name: column.form for column in self._columns if isinstance(column, (TimeColumn, DateColumn)) and column.form}

    def _source_place(self) -> int:
        """Where among the columns that of sources stands: behind all of a new table."""
        columns = list(self._there.columns) if self._there else []
        return columns.index(self.options.source_column) if self.options.source_column in columns else len(self._columns)

    def finish_blocks(self) -> None:
        """Sees to it that all blocks are in their file, and behind them the rows that no block can hold."""
        kinds = list(self.schema().columns.values())
        for row in self._apart:
            values: Tuple[Union[int, str], ...] = tuple(int(value) if kind == "int" else value for value, kind in zip(row, kinds))
            self._blocks.write("insert into %s values %s;\n" % (self.options.table, row_text(values)))
        self._blocks.flush()
        self._blocks.detach()


def _is_utf_8(raw: io.BufferedReader) -> bool:
    """Whether a file is UTF-8 with a letter beyond ASCII; of one that can't be read twice, whether its beginning is."""
    decoder = codecs.getincrementaldecoder("utf-8")()
    is_ascii = True
    try:
        if not raw.seekable():
            return not decoder.decode(raw.peek(1)).isascii()
        for piece in iter(partial(raw.read, 1 << 20), b""):
            is_ascii = decoder.decode(piece).isascii() and is_ascii
        decoder.decode(b"", True)
        return not is_ascii
    except UnicodeDecodeError:
        return False
    finally:
        if raw.seekable():
            raw.seek(0)


def _those(values: Sequence[_Item], kept: Sequence[bool]) -> List[_Item]:
    return [value for value, is_kept in zip(values, kept) if is_kept]
