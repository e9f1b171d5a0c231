"""Scripts as the program reads them: where each statement begins and ends, and its block where it is a `copy`."""

from __future__ import annotations

import csv
import io
import re
from typing import Dict, Iterator, List, NamedTuple, Optional, Tuple, Union

_GAP = re.compile(rb"(?:[ \t\r\n]+|--[^\n]*)*")
_MARK = re.compile(rb"[;'\-]")
_COPY = re.compile(rb"copy(?![A-Za-z0-9_])")
_BLOCK_BEGIN = re.compile(rb"[ \t\r]*\n")
_BLOCK_END = re.compile(rb"\\\.\r?(?:\n|\Z)")
_COMMENT_OR_TEXT = re.compile(r"--[^\n]*|('[^']*(?:'|\Z))")
_COMMENT_OR_TEXT_BYTES = re.compile(rb"--[^\n]*|('[^']*(?:'|\Z))")
_TOKEN = re.compile(r"[A-Za-z_][A-Za-z0-9_]*|-?[0-9]+|'[^']*(?:''[^']*)*'|<>|<=|>=|[(),.=<>]")
_OF_LIST = re.compile(rb"-- (.+):([0-9]+)[ \t\r]*\n\Z")
_CREATE = re.compile(r"create\s+(strict\s+)?table\s+(\w+)\s*\((.*),\s*primary\s+key\s*\(([^)]*)\)\s*\)\s*\Z", re.S)


class Statement(NamedTuple):
    """A statement's places in a script, in bytes from the script's first.

    start: the first byte. text_end: that of its `;`. block: where its `copy` block begins and ends, before the line `\\.`.
    end: behind all of it. complete: False for what is left at the end of a script.
    """

    start: int
    text_end: int
    block: Optional[Tuple[int, int]]
    end: int
    complete: bool

    def text(self, script: bytes) -> bytes:
        """The statement's text, without its `;`."""
        return script[self.start:self.text_end]


class Schema(NamedTuple):
    """A table's columns in their order with their kinds ("int" or "text"), its key in the order in which it is written."""

    table: str
    columns: Dict[str, str]
    key: List[str]
    strict: bool = False


def statements(script: bytes, at: int = 0) -> Iterator[Statement]:
    """The statements of a script; the last one may be incomplete."""
    size = len(script)
    at = _past_gap(script, at)
    while at < size:
        statement = _statement(script, at, size)
        yield statement
        at = _past_gap(script, statement.end)


def gaps(script: bytes, last: int) -> Iterator[Tuple[int, bytes]]:
    """What stands before the first statement and between statements, each with its place, up to the one at the place `last`."""
    at = _past_gap(script, 0)
    yield 0, script[:at]
    while at <= last:
        end = _statement(script, at, len(script)).end
        at = _past_gap(script, end)
        yield end, script[end:at]


def list_line(script: bytes, statement: Statement) -> Optional[Tuple[str, int]]:
    """The list and its line from which the first record of a block is, by the comment before it, or nothing."""
    told = _OF_LIST.search(script[max(0, statement.start - 5000):statement.start])
    return (told[1].decode("utf-8", "replace"), int(told[2])) if told else None


def _past_gap(script: bytes, at: int) -> int:
    found = _GAP.match(script, at)
    return found.end() if found else at


def _statement(script: bytes, start: int, size: int) -> Statement:
    text_end = _text_end(script, start)
    if text_end < 0:
        return Statement(start, size, None, size, False)
    if not _COPY.match(script, start, text_end):
        return Statement(start, text_end, None, text_end + 1, True)
    skipped = _BLOCK_BEGIN.match(script, text_end + 1)
    begin = skipped.end() if skipped else text_end + 1
    last = _block_end(script, begin)
    if last is None:
        return Statement(start, text_end, (begin, size), size, False)
    return Statement(start, text_end, (begin, last[0]), last[1], True)


def _text_end(script: bytes, at: int) -> int:
    """The place of the `;` that ends the statement at a place, or -1."""
    while True:
        mark = _MARK.search(script, at)
        if mark is None:
            return -1
        byte, at = mark.group(), mark.end()
        if byte == b";":
            return mark.start()
        if byte == b"'":
            at = script.find(b"'", at) + 1
        elif script[at:at + 1] == b"-":
            at = script.find(b"\n", at) + 1
        else:
            continue
        if at == 0:
            return -1


def _block_end(script: bytes, begin: int) -> Optional[Tuple[int, int]]:
    """Where the line `\\.` of a block begins, and where the next line does."""
    at = begin
    while True:
        found = _BLOCK_END.match(script, at)
        if found is not None:
            return at, found.end()
        at = script.find(b"\n\\.", at) + 1
        if at == 0:
            return None


def open_part(script: bytes, statement: Statement) -> Tuple[str, int]:
    """What is open at the end of an incomplete statement, "block", "text" or "statement", and where it begins."""
    if statement.block is not None:
        return "block", statement.start
    text = script[statement.start:statement.end]
    found = None
    for found in _COMMENT_OR_TEXT_BYTES.finditer(text):
        pass
    if found is not None and found[1] and (len(found[1]) == 1 or not found[1].endswith(b"'")):
        return "text", statement.start + found.start()
    return "statement", statement.start


def fault_of(script: bytes, statement: Statement) -> str:
    """Why a statement isn't sent: it isn't complete, or its block has a quote that is never closed, or that something stands
    behind. The program takes such a block, and records between two such quotes are then part of a text."""
    if not statement.complete:
        return "error 15 Unfinished"
    if statement.block is None or script.find(b'"', *statement.block) < 0:
        return ""
    number = 0
    try:
        with io.BytesIO(script[statement.block[0]:statement.block[1]]) as block:
            for record in csv.reader(io.TextIOWrapper(block, encoding="latin-1", newline="\n"), strict=True):
                number += bool(record)
    except csv.Error:
        return "error 19 BadCsv record %d" % (number + 1)
    return ""


def without_comments(text: str) -> str:
    """A statement with a space in the place of each comment."""
    return _COMMENT_OR_TEXT.sub(lambda found: found[1] or " ", text)


def tokens(text: str) -> List[str]:
    """The tokens of a statement, those of comments apart; bytes that belong to none are left out."""
    return _TOKEN.findall(without_comments(text))


def verb_of(text: str) -> str:
    """The first word of a statement, or nothing."""
    found = re.match(r"\s*([A-Za-z_]\w*)", without_comments(text))
    return found[1] if found else ""


def schema_of(text: str) -> Optional[Schema]:
    """The schema that a `create` makes, or none where the text isn't one."""
    found = _CREATE.match(without_comments(text).strip())
    if found is None:
        return None
    columns = dict(re.findall(r"(\w+)\s+(int|text)\b", found[3]))
    return Schema(found[2], columns, re.findall(r"\w+", found[4]), bool(found[1]))


def shown_schema(line: str) -> Optional[Schema]:
    """The schema in a line of `show tables`."""
    found = re.match(r"(strict )?(\w+) \((.*), primary key \((.*?)\)\) rows ", line)
    if found is None:
        return None
    columns = dict(re.findall(r"(\w+) (int|text)", found[3]))
    return Schema(found[2], columns, found[4].split(", "), bool(found[1]))


#: A comment, a text, or the word between two parts of a union.
_UNION = re.compile(r"--[^\n]*|'[^']*(?:'|\Z)|\b(union)(?=(?:\s|--[^\n]*\n)+(?:select|exists)\b)")


class QueryParts(NamedTuple):
    """What a query selects, as it is written; the tables behind its first `from`; and its conditions, without `where`."""

    columns: List[str]
    tables: List[str]
    conditions: str


def query_parts(text: str) -> QueryParts:
    """The parts of a query, or of a statement that ends with one: any word may be a name in it."""
    words = tokens(text)
    columns: List[str] = []
    if "select" in words:
        columns, at = _names(words, words.index("select") + 1)
    else:
        at = words.index("exists") + 1 if "exists" in words else len(words)
    if words[at:at + 1] != ["from"]:
        return QueryParts(columns, [], "")
    tables, at = _names(words, at + 1)
    return QueryParts(columns, tables, " ".join(words[at + 1:]))


class Aggregate(NamedTuple):
    """What a `range` asks for: its word ("count", "sum", "min" or "max"), its column, its tables, and the column of its groups. What
    isn't there is empty."""

    word: str
    column: str
    tables: List[str]
    group: str


def aggregate_of(text: str) -> Aggregate:
    """The parts of a `range`, or of what stands behind this word: any word may be a name in it."""
    words = tokens(text)
    words = words[1:] if words[:1] == ["range"] else words
    columns, at = _names(words, 1) if words[:1] != ["count"] else ([], 1)
    tables, at = _names(words, at + 1) if words[at:at + 1] == ["from"] else ([], at)
    group = next((place for place in range(at, len(words)) if words[place:place + 2] == ["group", "by"]), len(words))
    return Aggregate("".join(words[:1]), "".join(columns[:1]), tables, "".join(_names(words, group + 2)[0][:1]))


def names_from(words: List[str]) -> List[str]:
    """The names behind the first `from` of a statement's tokens."""
    return _names(words, words.index("from") + 1)[0] if "from" in words else []


def parts_of(text: str) -> List[str]:
    """The parts of a union, or the one query, as they are written: with `union` between two they are the text again."""
    marks = [found.span(1) for found in _UNION.finditer(text) if found[1]]
    return [text[begin:end] for begin, end in zip([0, *(end for _, end in marks)], [*(begin for begin, _ in marks), len(text)])]


def selected(text: str) -> Tuple[List[str], List[str]]:
    """What a query selects, as it is written, and its tables; of a union, its first part."""
    parts = query_parts(text)
    return parts.columns, parts.tables


def _names(words: List[str], at: int) -> Tuple[List[str], int]:
    """The names from a place on, with a comma between two, and the place behind them."""
    names: List[str] = []
    while at < len(words):
        name, at = words[at], at + 1
        if words[at:at + 1] == ["."] and at + 1 < len(words):
            name, at = name + "." + words[at + 1], at + 2
        names.append(name)
        if words[at:at + 1] != [","]:
            break
        at += 1
    return names, at


def quoted(value: Union[int, str]) -> str:
    """A value as a literal of the language."""
    return str(value) if isinstance(value, int) else "'" + value.replace("'", "''") + "'"


def row_text(row: Tuple[Union[int, str], ...]) -> str:
    """A row as a literal of the language: (1, 'Ada')."""
    return "(" + ", ".join(quoted(value) for value in row) + ")"
