"""Where in a script a refusal stands: its line, its column, its word, and what was meant to stand there."""

from __future__ import annotations

import csv
import difflib
import io
import re
from typing import Dict, List, NamedTuple, Optional, Tuple

from .columns import csv_fault
from .habits import Takes, advice_for
from .scripts import Schema, Statement, list_line, open_part

_COMMENT_OR_TEXT = re.compile(rb"--[^\n]*|'[^']*(?:'|\Z)")
_TOKEN = re.compile(rb"[A-Za-z_][A-Za-z0-9_]*|-?[0-9]+|'[^']*(?:''[^']*)*'|<>|<=|>=|[(),.=<>]")
_INT = re.compile(r"-?[0-9]+")
_NAMED = ("UnknownTable", "UnknownColumn", "AmbiguousColumn", "SelfJoin", "DuplicateColumn", "BadKey", "TableExists")

_MARKS = {b"\xef\xbb\xbf": "a mark of byte order: save the script without it", b"\xff\xfe": "the script is UTF-16: save it as UTF-8",
          b"\xfe\xff": "the script is UTF-16: save it as UTF-8", b"\x1f\x8b": "the script is compressed"}

Token = Tuple[bytes, int]


class Place(NamedTuple):
    """A refusal's place: the line and the column (in bytes, from 1) in its file, that line, how long the word there is, what a
    reader should know of it, and the place in the list from which a record comes."""

    line: int
    column: int
    shown: str
    width: int
    note: str
    of_list: str

    def message(self, path: str, refusal: str) -> str:
        """One line: the file, the line, the refusal, the list's line and the note."""
        parts = [refusal + (", " + self.of_list if self.of_list else "")] + ([self.note] if self.note else [])
        return "%s:%d: %s" % (path, self.line, ": ".join(parts).replace("\n", "\\n"))

    def caret(self) -> str:
        """The line with a caret under the word."""
        blanks = "".join("\t" if letter == "\t" else " " for letter in self.shown[:self._letters()])
        return "%s\n%s%s" % (self.shown, blanks, "^" * max(1, self.width))

    def _letters(self) -> int:
        return len(self.shown.encode()[:self.column - 1].decode(errors="replace"))


def place_of(script: bytes, statement: Statement, refusal: str, schemas: Dict[str, Schema], takes: Optional[Takes] = None) -> Place:
    """The place of a refusal: the line "error 6 UnknownColumn nmae" to a statement of a script, over the tables that are there. takes:
    whether the program takes a statement over them, which is asked before a hint shows one."""
    text = statement.text(script)
    name = refusal.split(" ")[2] if refusal.count(" ") > 1 else ""
    note, of_list = "", ""
    if name == "BadCsv" and statement.block is not None:
        at, note, of_list = _bad_record(script, statement, refusal, schemas)
    elif name == "Unfinished":
        at, note = _unfinished(script, statement)
    else:
        masked = _COMMENT_OR_TEXT.sub(lambda found: found[0] if found[0][:1] == b"'" else b" " * len(found[0]), text)
        tokens = [(found[0], found.start()) for found in _TOKEN.finditer(masked)]
        inner = _offset(tokens, refusal, name, len(text))
        note = (advice_for(masked.decode("utf-8", "replace"), _letters(masked, inner), refusal, schemas, takes) or _meant(refusal, schemas)
                or _of_row(tokens, refusal, schemas, inner))
        at = statement.start + inner
        if name == "BadByte":
            note = next((text for mark, text in _MARKS.items() if script[at:at + len(mark)] == mark), note)
    return _shown(script, at, note, of_list)


def _meant(refusal: str, schemas: Dict[str, Schema]) -> str:
    """The name that is like one that isn't there, or why there is no sum."""
    if refusal.endswith(" TypeMismatch condition 0"):
        return "a sum is of an int column; min and max are of texts too"
    found = re.match(r"error \d+ Unknown(Table|Column) (?:\w+\.)?(\w+)$", refusal)
    if found is None:
        return ""
    names = set(schemas) if found[1] == "Table" else {name for schema in schemas.values() for name in schema.columns}
    near = difflib.get_close_matches(found[2], names, 1, 0.7)
    return "is it `%s`?" % near[0] if near else ""


def _of_row(tokens: List[Token], refusal: str, schemas: Dict[str, Schema], inner: int) -> str:
    """What the table of a refused row wants."""
    words = [word.decode("utf-8", "replace") for word, _ in tokens]
    schema = schemas.get(words[2]) if words[:2] == ["insert", "into"] and len(words) > 2 else None
    if schema is None:
        return ""
    if " WrongArity " in refusal:
        return "%d columns: %s" % (len(schema.columns), ", ".join(schema.columns))
    column = re.search(r" TypeMismatch row \d+ column (\d+)$", refusal)
    if column is None or not 0 < int(column[1]) <= len(schema.columns):
        return ""
    name, kind = list(schema.columns.items())[int(column[1]) - 1]
    value = next((word for word, (_, at) in zip(words, tokens) if at == inner), "")
    wanted = "'%s'" % value if kind == "text" else value.strip("'") if re.fullmatch(r"'-?\d+'", value) else ""
    return "%s is %s%s" % (name, kind, ": write " + wanted if wanted else "")


def _letters(text: bytes, offset: int) -> int:
    return len(text[:offset].decode("utf-8", "replace"))


def place_at(script: bytes, statement: Statement, letters: int) -> Place:
    """The place of so many letters of a statement's text."""
    text = statement.text(script).decode("utf-8", "surrogateescape")
    return _shown(script, statement.start + len(text[:letters].encode("utf-8", "surrogateescape")), "", "")


def _shown(script: bytes, at: int, note: str, of_list: str) -> Place:
    begin = script.rfind(b"\n", 0, at) + 1
    end = script.find(b"\n", at)
    line = script[begin:end if end >= 0 else len(script)][:400]
    word = _TOKEN.match(line, at - begin)
    width = len(word[0].decode("utf-8", "replace")) if word else 1
    return Place(script[:at].count(b"\n") + 1, at - begin + 1, line.decode("utf-8", "replace").rstrip("\r"), width, note, of_list)


def _offset(tokens: List[Token], refusal: str, name: str, length: int) -> int:
    """The offset in the statement's text of what a refusal speaks of; 0 where it speaks of the whole statement."""
    told = re.search(r" at (\d+)$", refusal)
    if told:
        return min(int(told[1]), length)
    fields = refusal.split(" ")[3:]
    if name in _NAMED and fields:
        return _named(tokens, fields[0], name)
    row = re.search(r" row (\d+)(?: column (\d+))?", refusal)
    if row and int(row[1]) > 1 and tokens and tokens[0][0] in (b"ask", b"possible", b"explain"):
        return _in_part(tokens, int(row[1]), int(row[2] or 0))
    if row and tokens and tokens[0][0] in (b"insert", b"explain", b"against", b"prove"):
        return _in_row(tokens, int(row[1]), int(row[2] or 0))
    condition = re.search(r" condition (\d+)$", refusal)
    return _condition(tokens, int(condition[1])) if condition else 0


def _named(tokens: List[Token], name: str, cause: str) -> int:
    """The offset of a name, or of a column with its table; the second one where a name stands twice."""
    parts = [part.encode() for part in name.replace(".", " . ").split(" ")]
    words = [word for word, _ in tokens]
    found = [at for at in range(1, len(words)) if words[at:at + len(parts)] == parts]
    if cause in ("SelfJoin", "DuplicateColumn") and len(found) > 1:
        return tokens[found[-1 if cause == "SelfJoin" else 1]][1]
    if cause == "BadKey":
        return tokens[found[-1]][1] if found else 0
    return tokens[found[0]][1] if found else 0


def _in_row(tokens: List[Token], row: int, column: int) -> int:
    """The offset of a row's bracket, or of a value in it, counted from 1."""
    begins = [at for at, (word, _) in enumerate(tokens) if word == b"("]
    if row > len(begins):
        return 0
    at = begins[row - 1] + (2 * column - 1 if column else 0)
    return tokens[at][1] if at < len(tokens) else 0


def _in_part(tokens: List[Token], part: int, column: int) -> int:
    """The offset of a part of a union, or of a column that it selects, counted from 1."""
    words = [word for word, _ in tokens]
    begins = [at for at in range(1, len(words)) if words[at - 1] == b"union" and words[at] in (b"select", b"exists")]
    if part - 1 > len(begins):
        return 0
    at = begins[part - 2] + (1 if column else 0)
    for _ in range(column - 1):
        at = words.index(b",", at) + 1
    return tokens[at][1]


def _condition(tokens: List[Token], number: int) -> int:
    """The offset of a condition, counted from 1; 0 is the column of a `range`."""
    words = [word for word, _ in tokens]
    if number == 0 and len(tokens) > 2:
        return tokens[2][1]
    if b"where" not in words:
        return 0
    begins = [words.index(b"where") + 1]
    begins += [at + 1 for at in range(begins[0], len(words)) if words[at] == b"and"]
    at = begins[number - 1] if 0 < number <= len(begins) else begins[0]
    return tokens[at][1] if at < len(tokens) else 0


def _unfinished(script: bytes, statement: Statement) -> Tuple[int, str]:
    """Where what is left at the end begins, and what is missing."""
    if statement.block is not None:
        text = statement.text(script)
        name = re.match(rb"copy\s+\w+\s*", text)
        at = name.end() if name else 0
        note = advice_for(text.decode("utf-8", "replace"), at, "error 15 Unfinished")
        return (statement.start + at, note) if note else (statement.start, "the block of this copy has no line \\.")
    part, at = open_part(script, statement)
    return at, "the text that begins here has no end" if part == "text" else "the statement that begins here has no ;"


def _bad_record(script: bytes, statement: Statement, refusal: str, schemas: Dict[str, Schema]) -> Tuple[int, str, str]:
    """Where the refused record of a block begins, what is wrong with it and how many more are, and its place in its list."""
    assert statement.block is not None
    begin, end = statement.block
    table = re.search(rb"copy\s+(\w+)", statement.text(script))
    schema = schemas.get(table[1].decode()) if table else None
    number = int(refusal.rsplit(" ", 1)[1])
    block = script[begin:end]
    line, causes = _record_causes(block, schema, number)
    at = begin
    for _ in range(line):
        at = script.find(b"\n", at, end) + 1
    note = causes[0] if causes else "it is no row of the table"
    if len(causes) > 1:
        note += "; and %d more" % (len(causes) - 1)
    told = list_line(script, statement)
    of_list = "%s:%d" % (told[0], told[1] + line) if told else ""
    return at, note, of_list


def _record_causes(block: bytes, schema: Optional[Schema], number: int) -> Tuple[int, List[str]]:
    """The line of a block, from 0, on which a record begins, and the causes of this one and of those behind it."""
    reader = csv.reader(io.StringIO(block.decode("utf-8", "surrogateescape"), newline=""), strict=True)
    causes: List[str] = []
    line, count, at = 0, 0, 0
    try:
        for record in reader:
            count += bool(record)
            if record and count == number:
                line = at
            if record and count >= number and schema is not None:
                causes += _causes(record, schema)[:1]
            at = reader.line_num
    except csv.Error as fault:
        line = at if count < number else line
        causes.append(csv_fault(fault))
    return line, causes


def _causes(record: List[str], schema: Schema) -> List[str]:
    if len(record) != len(schema.columns):
        return ["%d field%s, and the table has %d columns" % (len(record), "" if len(record) == 1 else "s", len(schema.columns))]
    return [cause for (name, kind), field in zip(schema.columns.items(), record) for cause in _field_cause(name, kind, field)]


def _field_cause(name: str, kind: str, field: str) -> List[str]:
    if kind == "int":
        if not field:
            return ["%s is empty, an int is wanted" % name]
        if not _INT.fullmatch(field):
            return ["%s: %r is no int" % (name, field[:40])]
        return [] if -2 ** 63 <= int(field[:30]) < 2 ** 63 else ["%s: %s is out of range" % (name, field[:40])]
    try:
        length = len(field.encode())
    except UnicodeEncodeError:
        return ["%s isn't UTF-8" % name]
    return [] if length <= 1024 else ["%s: a text of %d bytes, and the most are 1,024" % (name, length)]
