"""CSV lists as the tables of an SQLite database in memory."""

from __future__ import annotations

import csv
import os
import re
import sqlite3
from typing import Dict, Iterator, List, Mapping, Optional, Sequence, Tuple

from ..errors import LoadFault
from ..options import word_of

_INT = re.compile(r"-?(?:0|[1-9][0-9]{0,17})")
_NUMBER = re.compile(r"-?(?:0|[1-9][0-9]{0,14})(?:\.[0-9]{1,9})?")
SOURCE = "source"


def database_of_lists(lists: Mapping[str, Sequence[str]]) -> sqlite3.Connection:
    """A database with a table for each name, of CSV lists with header lines in UTF-8. An empty field is NULL. A column is of numbers where
    all its fields are written as numbers; where a table has several lists it has a column `source` with the name of each row's list.

    Raises LoadFault with a line for each fault.
    """
    connection = sqlite3.connect(":memory:", isolation_level=None)
    connection.execute("BEGIN")
    for table, paths in lists.items():
        _load(connection, table, paths)
    connection.execute("COMMIT")
    return connection


def _load(connection: sqlite3.Connection, table: str, paths: Sequence[str]) -> None:
    """Makes one table of its lists."""
    names: List[str] = []
    kinds: Dict[str, str] = {}
    for path in paths:
        header, _ = _opened(path)
        if names and sorted(header) != sorted(names):
            raise LoadFault(["%s: its columns are %s, and those of %s are %s" % (path, ", ".join(header), paths[0], ", ".join(names))])
        names = names or header
        _note_kinds(path, names, kinds)
    columns = names + ([SOURCE] if len(paths) > 1 else [])
    if len(set(columns)) < len(columns):
        raise LoadFault(["%s: a column is there twice: %s" % (paths[0], ", ".join(columns))])
    connection.execute("CREATE TABLE %s (%s)" % (_quoted(table), ", ".join("%s %s" % (_quoted(name), kinds.get(name, "TEXT")) for name in columns)))
    for path in paths:
        header, rows = _opened(path)
        places = [header.index(name) for name in names]
        source: List[Optional[str]] = [_stem(path)] if len(paths) > 1 else []
        insert = "INSERT INTO %s VALUES (%s)" % (_quoted(table), ", ".join("?" * len(columns)))
        connection.executemany(insert, ([row[place] or None for place in places] + source for row in rows))


def _opened(path: str) -> Tuple[List[str], Iterator[List[str]]]:
    """The columns of a list, and its records. Raises LoadFault."""
    rows = _records(path)
    header = next(rows, None)
    if header is None:
        raise LoadFault(["%s: it is empty, and a header line is wanted" % path])
    names = [word_of(name) for name in header]
    for at, name in enumerate(names, 1):
        if not name:
            raise LoadFault(["%s:1: the header of column %d makes no name" % (path, at)])
    return names, _whole(path, len(names), rows)


def _records(path: str) -> Iterator[List[str]]:
    try:
        with open(path, encoding="utf-8-sig", newline="") as file:
            first = file.readline()
            file.seek(0)
            mark = max(",;\t|", key=first.count)
            yield from csv.reader(file, delimiter=mark, strict=True)
    except OSError as fault:
        raise LoadFault(["%s: %s" % (path, (fault.strerror or str(fault)).lower())]) from None
    except (UnicodeDecodeError, csv.Error) as fault:
        raise LoadFault(["%s: %s" % (path, fault)]) from None


def _whole(path: str, width: int, rows: Iterator[List[str]]) -> Iterator[List[str]]:
    for number, row in enumerate(rows, 2):
        if row and len(row) != width:
            raise LoadFault(["%s: record %d has %d fields, and the header %d" % (path, number, len(row), width)])
        if row:
            yield row


def _note_kinds(path: str, names: Sequence[str], kinds: Dict[str, str]) -> None:
    """Notes of each column whether its fields are numbers, together with those of lists before."""
    header, rows = _opened(path)
    for row in rows:
        for name, value in zip(header, row):
            if value and kinds.get(name) != "TEXT":
                kind = "INTEGER" if _INT.fullmatch(value) else "REAL" if _NUMBER.fullmatch(value) else "TEXT"
                kinds[name] = kind if kind == "TEXT" or kinds.get(name) != "REAL" else "REAL"


def _stem(path: str) -> str:
    return os.path.splitext(os.path.basename(path))[0]


def _quoted(name: str) -> str:
    return '"%s"' % name.replace('"', '""')


def told_lists(words: Sequence[str]) -> Dict[str, List[str]]:
    """The lists of each table that words tell: TABLE=LIST. Raises LoadFault."""
    found: Dict[str, List[str]] = {}
    for word in words:
        table, sign, path = word.partition("=")
        if not sign or not table or not path:
            raise LoadFault(["--csv wants TABLE=LIST, and not %s" % word])
        found.setdefault(table, []).append(path)
    return found

