"""A dump, read as it comes: the rows of each table, block by block, without keeping them."""

from __future__ import annotations

import csv
import re
from itertools import chain, islice, takewhile
from typing import BinaryIO, Callable, Iterable, Iterator, Optional, Sequence, Set

from .replies import END_LINE, quoted_line

_INTO = re.compile(rb"insert into (\w+) values ")
_COPY = re.compile(rb"copy (\w+);\n\Z")
_END = b"\\.\n"
_PIECE = 4096


def _records(lines: Iterator[bytes]) -> Iterator[Sequence[str]]:
    """The records of a block's lines. Raises csv.Error where one can't be read."""
    while True:
        piece = list(islice(lines, _PIECE))
        if not piece:
            return
        records = _plain(piece)
        if records is not None:
            yield from records
            continue
        reader = csv.reader(map(bytes.decode, chain(piece, lines)))
        for record in reader:
            yield record
            if reader.line_num >= len(piece):
                break


def _plain(piece: Sequence[bytes]) -> Optional[Sequence[Sequence[str]]]:
    """The records of lines that are one each, with a quote nowhere but around fields; else None.

    As many quotes are left between the fields that are cut out as stand in the lines, so no field has one.
    """
    text = b"".join(piece).decode()
    records = [line.split('","') for line in text[1:-2].split('"\n"')]
    width = len(records[0])
    is_plain = (text[:1] == '"' and text[-2:] == '"\n' and len(records) == len(piece) and set(map(len, records)) == {width}
                and text.count('"') == 2 * width * len(records))
    return records if is_plain else None


def read_dump(stream: BinaryIO, take: Callable[[str, Iterable[Sequence[str]]], None]) -> Set[str]:
    """Reads the reply to `dump;` up to that of the empty statement behind it. take: called with each table that has rows, and with its
    rows, a text for each column, in the order of the table's keys.

    Gives the tables that weren't read whole: those with rows that no block can hold, which stand behind it, or with a zero byte, which
    some versions of Python don't read. Raises EOFError where the stream ends.
    """
    left: Set[str] = set()
    while True:
        line = quoted_line(stream)
        if line == END_LINE:
            return left
        if not line:
            raise EOFError
        copied, inserted = _COPY.match(line), _INTO.match(line)
        if inserted:
            left.add(inserted[1].decode())
        if copied:
            table = copied[1].decode()
            lines = takewhile(_END.__ne__, stream)
            try:
                take(table, _records(lines))
            except csv.Error:
                left.add(table)
            for _ in lines:
                pass
