"""A program that isn't there yet: what a command sends is kept, and its replies are those of earlier runs, or guesses."""

from __future__ import annotations

import hashlib
import io
import re
import threading
from typing import IO, Dict, Iterator, List, NamedTuple, Optional, Sequence, Set, Union, cast

from .replies import END_LINE, END_STATEMENT, reply_lines, row_of
from .running import QUERY_VERBS
from .scripts import Schema, aggregate_of, query_parts, row_text, schema_of, statements, verb_of, without_comments

_SET_KEY = re.compile(r"\s*alter\s+table\s+(\w+)\s+set\s+primary\s+key\s*\(([^)]*)\)")
_AGAINST = re.compile(r"\s*against\s+row\s*(\((?:[^')]|'[^']*')*\))\s*for\b(.*)", re.S)

#: Statements that change no table and no setting.
_QUIET = (*QUERY_VERBS, "show", "dump", "")
_GUESSES = {"ask": "0 rows\n", "possible": "0 rows\n", "disputed": "0 rows\n", "classify": "class first-order\n", "explain": "no plan\n",
            "prove": "no plan\n", "range": "least none\ngreatest none\n"}


class Reply(NamedTuple):
    """The bytes of a reply up to the line that ends it; or what came before the program's end, with its status."""

    text: bytes
    status: Optional[int] = None


#: Replies by the digest of what they depend on: the statement, and those before it that may change something.
Known = Dict[bytes, Reply]


class Told(NamedTuple):
    """A statement as it is sent, with its first word, the digest of what its reply depends on, and whether that is all before it."""

    statement: bytes
    verb: str
    key: bytes
    is_log: bool


class Course:
    """Where a program stands after statements: a reply depends on the statement and on those before it that may change something;
    that of `show log` on all."""

    def __init__(self) -> None:
        self._changed = hashlib.sha256()
        self._whole = hashlib.sha256()

    def told(self, statement: bytes) -> Told:
        """The statement at this place; the course goes on behind it."""
        parsed = next(statements(statement), None)
        text = parsed.text(statement).decode("utf-8", "replace") if parsed else ""
        verb, is_log = verb_of(text), text.split()[:2] == ["show", "log"]
        before = self._whole if is_log else self._changed
        key = hashlib.sha256(before.digest() + statement).digest()
        self._whole.update(key)
        if verb not in _QUIET:
            self._changed.update(key)
        return Told(statement, verb, key, is_log)


class StandIn:
    """Takes the place of a running program. It answers from what is known, and else by guesses that lead a command on."""

    def __init__(self, known: Known) -> None:
        self.stdin = cast(IO[bytes], _Input(self))
        self.stdout = cast(IO[bytes], _Output(self))
        self._known = known
        self._is_guessing = False
        self._course = Course()
        self._told: List[Told] = []
        self._schemas: Dict[str, Schema] = {}
        self._status: Optional[int] = None
        self._waiting: List[bytes] = []
        self._is_closed = False
        self._change = threading.Condition()

    def told(self) -> Sequence[Told]:
        """What has to be sent to a program so that all replies are known: nothing where they are, and else the statements without those
        whose reply is known and on which nothing depends."""
        if not self._is_guessing:
            return ()
        is_needed = any(one.is_log and one.key not in self._known for one in self._told)
        asked: Set[bytes] = set(self._known)
        told: List[Told] = []
        for one in self._told:
            if is_needed or one.verb not in _QUIET or one.key not in asked:
                told.append(one)
            asked.add(one.key)
        return told

    def wait(self) -> int:
        """The status of the program's end."""
        return self._status or 0

    def kill(self) -> None:
        """Ends it."""
        self.end_input()

    def receive(self, statement: bytes) -> None:
        """Takes a statement."""
        with self._change:
            if self._is_closed:
                raise BrokenPipeError
            self._waiting.append(statement)
            self._change.notify_all()

    def end_input(self) -> None:
        """Nothing more comes."""
        with self._change:
            self._is_closed = True
            self._change.notify_all()

    def next_reply(self) -> bytes:
        """The reply to the next statement, once it is there, with the line that ends it; nothing at the program's end."""
        with self._change:
            while not self._waiting and not self._is_closed and self._status is None:
                self._change.wait()
            if not self._waiting or self._status is not None:
                return b""
            statement = self._waiting.pop(0)
        told = self._course.told(statement)
        self._told.append(told)
        self._heed(told)
        known = self._known.get(told.key)
        if known is None:
            self._is_guessing = True
            return self._guess(told) + END_LINE
        self._status = known.status
        return known.text

    def _heed(self, told: Told) -> None:
        """Keeps the columns and the key of a table that is made or changed."""
        if told.verb not in ("create", "alter"):
            return
        text = _plain(told)
        made = schema_of(text) if told.verb == "create" else None
        if made is not None:
            self._schemas[made.table] = made
        changed = _SET_KEY.match(text)
        if changed and changed[1] in self._schemas:
            self._schemas[changed[1]] = self._schemas[changed[1]]._replace(key=re.findall(r"\w+", changed[2]))

    def _guess(self, told: Told) -> bytes:
        """A reply that leads on: whatever is asked of a reply's form, with no rows."""
        text = _plain(told) if told.verb in ("show", "range", "against") else ""
        if text.split() == ["show", "tables"]:
            return "".join(map(_shown, self._schemas.values())).encode() + b"%d tables\n" % len(self._schemas)
        if told.verb == "range" and aggregate_of(text).group:
            return b"0 groups\n"
        if told.verb == "against":
            kept = self._kept(text)
            return (kept + "%d rows\n" % kept.count("\n")).encode() if kept else b"certain\n"
        return _GUESSES.get(told.verb, "inserted 0\n").encode()

    def _kept(self, text: str) -> str:
        """The lines of rows that may stand against a row: of each table whose key a query selects, one with the key that the row has,
        since it is the key's other rows that are looked at next."""
        found = _AGAINST.match(text)
        parts = query_parts(found[2]) if found else None
        if found is None or parts is None:
            return ""
        values = dict(zip((column.rpartition(".")[2] for column in parts.columns), row_of(found[1])))
        schemas = [self._schemas[table] for table in parts.tables if table in self._schemas]
        rows = [(schema.table, tuple(values.get(name, 0 if kind == "int" else "") for name, kind in schema.columns.items()))
                for schema in schemas if all(name in values for name in schema.key)]
        return "".join("keep %s %s\n" % (table, row_text(row)) for table, row in rows)


def learnt(told: Sequence[Told], written: bytes, status: int) -> Known:
    """What the output of a run over statements says of them: the reply to each; behind the last one the program's end."""
    stream = io.BytesIO(written)
    known: Known = {}
    for one in told:
        lines = reply_lines(stream, one.verb)
        if lines[-1] != END_LINE:
            known[one.key] = Reply(b"".join(lines), status)
            break
        known[one.key] = Reply(b"".join(lines))
    return known


def script_of(told: Sequence[Told]) -> bytes:
    """The input of a run over statements, whose output `learnt` reads."""
    return b"".join(one.statement + END_STATEMENT for one in told)


def _plain(told: Told) -> str:
    """A statement's text, without comments and without the `;` at its end."""
    return without_comments(told.statement.decode("utf-8", "replace")).rstrip().rstrip(";")


def _shown(schema: Schema) -> str:
    columns = ", ".join("%s %s" % column for column in schema.columns.items())
    return "%s%s (%s, primary key (%s)) rows 0 blocks 0\n" % ("strict " if schema.strict else "", schema.table, columns, ", ".join(schema.key))


class _Input:
    """What is sent to a stand-in: statements, each with the end of a statement behind it."""

    def __init__(self, owner: StandIn) -> None:
        self._owner = owner
        self._parts: List[bytes] = []

    def write(self, part: Union[bytes, memoryview]) -> int:
        """Takes a part of a statement, or its end."""
        if part == END_STATEMENT:
            statement = b"".join(self._parts)
            self._parts = []
            self._owner.receive(statement)
        else:
            self._parts.append(bytes(part))
        return len(part)

    def flush(self) -> None:
        """Nothing is kept back."""

    def close(self) -> None:
        """Says that nothing more comes."""
        self._owner.end_input()


class _Output:
    """The replies of a stand-in."""

    def __init__(self, owner: StandIn) -> None:
        self.closed = False
        self._owner = owner
        self._reply = io.BytesIO()

    def readline(self) -> bytes:
        """The next line; nothing behind the last one."""
        line = self._reply.readline()
        if not line:
            self._reply = io.BytesIO(self._owner.next_reply())
            line = self._reply.readline()
        return line

    def __iter__(self) -> Iterator[bytes]:
        """The lines up to the last one."""
        return iter(self.readline, b"")

    def read(self, size: int) -> bytes:
        """A line, which is shorter than what may be read."""
        return self.readline()

    def close(self) -> None:
        """Nobody reads any more."""
        self.closed = True
