"""The replies of the program: split by their quotes, since a text may hold any line, and read as values."""

from __future__ import annotations

import re
from typing import BinaryIO, List, Tuple, Union

from .errors import ReplyFault

Value = Union[int, str]
Row = Tuple[Value, ...]

#: An empty statement, which is sent behind each statement, and its reply, which ends that of the statement before.
END_STATEMENT = b"\n;\n"
END_LINE = b"error 2 Syntax at 0\n"

#: How the line of a refusal begins; a table `error` begins a line of `show tables` otherwise.
IS_REFUSAL = re.compile(rb"error \d+ ")

_FIELD = re.compile(r"(-?\d+)|'([^']*(?:''[^']*)*)'")
_KEPT = re.compile(r"keep (\w+) (\(.*\))\Z", re.S)


def quoted_line(stream: BinaryIO) -> bytes:
    """The next line of a reply with its line feed, where line feeds in texts end no line; nothing at the end."""
    line = stream.readline()
    if line.count(b"'") % 2 == 0:
        return line
    parts, is_open = [line], True
    while is_open:
        part = stream.readline()
        if not part:
            break
        parts.append(part)
        is_open ^= part.count(b"'") % 2 == 1
    return b"".join(parts)


def reply_lines(stream: BinaryIO, verb: str) -> List[bytes]:
    """The lines of the next reply, each with its line feed, read up to the reply of the empty statement behind it.

    verb: the statement's first word. A dump's fields stand between double quotes, so it is read as the script that it is.
    Where the stream ends, the lines up to there are given, and the last one isn't that of the empty statement. Each reply
    but the dump of no tables has a line.
    """
    first = quoted_line(stream)
    if first == END_LINE and verb == "dump":
        return [first]
    if IS_REFUSAL.match(first):
        return [first, quoted_line(stream)]
    return _dump_lines(stream, first) if verb == "dump" else _lines(stream, first)


def _lines(stream: BinaryIO, line: bytes) -> List[bytes]:
    lines = [line]
    while line and line != END_LINE:
        line = quoted_line(stream)
        lines.append(line)
    return lines


def _dump_lines(stream: BinaryIO, line: bytes) -> List[bytes]:
    """A dump: `create` takes a line, `insert` as its quotes say, and a block ends with its line `\\.`, whatever its quotes are."""
    lines = [line]
    while line and line != END_LINE:
        if line.startswith(b"copy "):
            while line and line != b"\\.\n":
                line = stream.readline()
                lines.append(line)
        line = quoted_line(stream)
        lines.append(line)
    return lines


def row_of(text: str) -> Row:
    """The values of a row as the program writes it: (1, 'O''Neill')."""
    if not text.startswith("(") or not text.endswith(")"):
        raise ReplyFault("no row: %r" % text[:200])
    return tuple(int(number) if number else quoted.replace("''", "'") for number, quoted in _FIELD.findall(text))


def kept_of(line: str) -> Tuple[str, Row]:
    """The table and the row of a line `keep customer (1, 'Ada')`."""
    found = _KEPT.match(line)
    if found is None:
        raise ReplyFault("no kept row: %r" % line[:200])
    return found[1], row_of(found[2])
