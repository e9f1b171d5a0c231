"""`Database`: a database of the user's own, asked for certain answers."""

from __future__ import annotations

import html
import importlib
import json
from contextlib import ExitStack, contextmanager
from dataclasses import dataclass
from decimal import Decimal
from types import TracebackType
from typing import Any, Callable, Dict, Iterator, List, Mapping, NamedTuple, Optional, Sequence, Tuple, Type, Union

from ..errors import QueryRefused
from ..files import written
from ..judging import judged
from ..rows import csv_line
from .answering import ByStatement, ByTables, Candidate, Evaluation, Kept
from .connecting import connected
from .engine import Engine, Row, named
from .hardness import hardness
from .keeping import Prepared, check_unwritten, prepared
from .keys import Keys, keyed_tables, named_relation, read_keys
from .plan import Plan
from .query import Branch, Column, Keyed
from .reader import Reader
from .tokens import scanned, text_of

NULL_KEYS = ("refuse", "own", "drop")


class Blocking(NamedTuple):
    """A key in conflict, and how many disputed answers hang on it."""

    table: str
    key: Row
    answers: int


@dataclass(frozen=True)
class Explained:
    """How a question is answered.

    certain_tables: the tables that it reads and that have no key, taken as they are. used: for each table with a key its columns that the
    question uses. conflicts: for each of these tables the keys in conflict that were met; none is looked for where the used columns are
    the key. statements: the SQL that is sent. hardness: a line with the class of a conjunctive query without self-joins and its attacks, or
    why none is known.
    """

    certain_tables: Tuple[str, ...]
    used: Dict[str, Tuple[str, ...]]
    conflicts: Dict[str, int]
    statements: Tuple[str, ...]
    hardness: str

    def __str__(self) -> str:
        lines = ["taken as certain: %s" % (", ".join(self.certain_tables) or "nothing")]
        for table, columns in self.used.items():
            count = self.conflicts.get(table)
            lines.append("%s: uses %s; %s" % (table, ", ".join(columns), "its key alone, so no conflict matters" if count is None else
                                              "%d key%s in conflict" % (count, "" if count == 1 else "s")))
        return "\n".join([*lines, self.hardness, *self.statements])


class Answers:
    """Answers as they come: those that no conflict touches first. It is an iterator of tuples; `columns` has their names.

    The transaction is open until all have come, or `close`; it is rolled back then, and with it what is written meanwhile through a connection
    that was handed in.
    """

    def __init__(self, columns: Sequence[str], rows: Iterator[Row], certain_tables: Sequence[str]) -> None:
        self.columns = tuple(columns)
        self.certain_tables = tuple(certain_tables)
        self._rows = rows

    def __iter__(self) -> "Answers":
        return self

    def __next__(self) -> Row:
        return next(self._rows)

    def close(self) -> None:
        """Ends the question where not all answers are wanted."""
        self._rows.close()  # type: ignore[attr-defined]

    def __enter__(self) -> "Answers":
        return self

    def __exit__(self, kind: Optional[Type[BaseException]], fault: Optional[BaseException], trace: Optional[TracebackType]) -> None:
        self.close()

    def csv_lines(self) -> Iterator[str]:
        """The answers as CSV, line by line, with a header. NULL is an empty field."""
        yield csv_line(self.columns)
        for row in self:
            yield csv_line([shown(value) for value in row])

    def json_lines(self) -> Iterator[str]:
        """The answers as objects of JSON, one a line."""
        for row in self:
            yield json.dumps(dict(zip(self.columns, map(_plain, row))), ensure_ascii=False) + "\n"

    def to_csv(self, path: str) -> None:
        """Writes a CSV file in UTF-8 with a header. The file is written beside its place and then moved."""
        with written(path) as file:
            for line in self.csv_lines():
                file.write(line.encode("utf-8", "surrogateescape"))

    def to_pandas(self) -> Any:
        """A pandas.DataFrame of the answers. Raises ImportError where pandas isn't installed."""
        pandas = importlib.import_module("pandas")
        return pandas.DataFrame(list(self), columns=list(self.columns))

    def _repr_html_(self) -> str:
        """A table for a notebook, with each text escaped."""
        head = "".join("<th>%s</th>" % html.escape(name) for name in self.columns)
        body = "".join("<tr>%s</tr>" % "".join("<td>%s</td>" % html.escape(shown(value)) for value in row) for row in self)
        return "<table><thead><tr>%s</tr></thead><tbody>%s</tbody></table>" % (head, body)


def shown(value: Any) -> str:
    """A value as a text: NULL is empty, bytes are in hexadecimal digits."""
    if value is None:
        return ""
    if isinstance(value, (bytes, bytearray, memoryview)):
        return bytes(value).hex()
    if isinstance(value, bool):
        return "true" if value else "false"
    return str(value)


def _plain(value: Any) -> Any:
    """A value as JSON has it: numbers of decimals as they are written, other kinds as texts."""
    if isinstance(value, Decimal):
        return int(value) if value == value.to_integral_value() and abs(value) < 10 ** 15 and value.as_tuple().exponent == 0 else str(value)
    return value if value is None or isinstance(value, (bool, int, float, str)) else shown(value)


class _Question:
    """A question, read against the catalogue as it is."""

    def __init__(self, engine: Engine, keys: Keys, sql: str, arguments: Mapping[str, Any], null_key: str, is_strict: bool,
                 kept: Mapping[str, Prepared]) -> None:
        tokens = scanned(sql, engine.lexicon)
        for token in tokens:
            if token.kind == "parameter" and token.text[1:] not in arguments:
                raise QueryRefused("the parameter %s isn't given" % token.text)
        self.arguments = {name: value for name, value in arguments.items() if any(token.text == ":" + name for token in tokens)}
        unused = sorted(set(arguments) - set(self.arguments))
        if unused:
            raise QueryRefused("the query has no parameter :%s" % unused[0])
        engine.begin_question(tokens)
        keyed = keyed_tables(engine, keys)
        reader = Reader(engine, keyed, self.arguments)
        self.branches: List[Branch] = reader.read(tokens)
        self.columns: List[Column] = engine.described_answers(text_of(tokens), self.arguments)
        self.certain_tables = sorted(reader.certain)
        if is_strict and self.certain_tables:
            raise QueryRefused("no key is told of %s" % ", ".join(self.certain_tables))
        if not self.columns or any(len(branch.items) != len(self.columns) for branch in self.branches):
            raise QueryRefused("%d columns, and a part with another number" % len(self.columns))
        self.plan = Plan(engine, self.branches, reader.names.used, len(self.columns), null_key, kept)
        self.tables: List[Keyed] = self.plan.tables
        check_unwritten(engine, self.tables, kept)
        for step in self.plan.join_steps().values():
            self._check(engine, named(step.columns, step.select, "cqa_w"))

    def _check(self, engine: Engine, select: str) -> None:
        """Refuses a question whose parts the database doesn't take put together, as where a name without its table's may mean two columns."""
        try:
            engine.described(select, self.arguments)
        except QueryRefused as fault:
            raise QueryRefused("%s: with the tables of its subqueries in one FROM this isn't taken; write the tables' names before columns" % fault) from None


class Database:
    """A database of the user's own. Nothing in it is changed.

    A row of a table with a key is certain as long as no other of its key differs from it in a column that the question uses. An answer is
    certain where it is one whichever row of each key is kept, possible where it is one for some choice, and disputed where it is possible
    and not certain. Answers are a set: each comes once.
    """

    def __init__(self, where: Any, keys: Union[Keys, str], *, null_key: str = "refuse", strict_keys: bool = False,
                 timeout: Optional[float] = None, program: Optional[str] = None, tables: bool = True) -> None:
        """where: the path of an SQLite file, a URL (sqlite:PATH, postgresql://.., mysql://..), or a connection of sqlite3, psycopg2, psycopg,
        PyMySQL or MySQLdb, or an engine or a connection of SQLAlchemy. keys: the columns of each table's key by the table's name, or the
        path of a TOML file; tables without one are taken as they are. null_key: what becomes of rows with a NULL in their key: "refuse",
        "own" (each is a key of its own) or "drop". strict_keys: a question that reads a table without a key is refused. timeout: seconds
        that a statement may take. program: the built program. tables: whether temporary tables may be made within the transaction, which
        is faster; where the connection doesn't allow it, none are.

        Raises QueryRefused where the keys can't be, DatabaseFault where the database can't be had.
        """
        if null_key not in NULL_KEYS:
            raise ValueError("null_key is one of %s, and not %r" % (", ".join(NULL_KEYS), null_key))
        self.null_key = null_key
        self.strict_keys = strict_keys
        self.timeout = timeout
        self._program = program
        self._tables = tables
        self._kept: Dict[str, Prepared] = {}
        self._engine: Engine = connected(where)
        try:
            self._keys: Keys = read_keys(keys) if isinstance(keys, str) else dict(keys)
            with self._engine.transaction(timeout):
                self._engine.begin_question([])
                keyed_tables(self._engine, self._keys)
        except BaseException:
            self._engine.close()
            raise

    @property
    def is_untyped(self) -> bool:
        """Whether the database takes a text for a text even beside numbers, so that a parameter that is a number has to be one."""
        return self._engine.is_untyped

    def close(self) -> None:
        """Closes the connection, where it isn't one that was handed in."""
        self._engine.close()
        if self._engine.lent is not None:
            self._engine.lent.close()
            self._engine.lent = None

    def __enter__(self) -> "Database":
        return self

    def __exit__(self, kind: Optional[Type[BaseException]], fault: Optional[BaseException], trace: Optional[TracebackType]) -> None:
        self.close()

    # Questions.

    def certain(self, sql: str, **params: Any) -> Answers:
        """The certain answers. `params` are those that the text names as :name. Raises QueryRefused where the text isn't taken."""
        return self._answers(sql, params, self._certain)

    def possible(self, sql: str, **params: Any) -> Answers:
        """The possible answers."""
        return self._answers(sql, params, self._possible)

    def disputed(self, sql: str, **params: Any) -> Answers:
        """The disputed answers."""
        return self._answers(sql, params, self._disputed)

    def against(self, row: Sequence[Any], sql: str, **params: Any) -> Optional[List[Kept]]:
        """Rows to keep so that a row is no answer, for the keys that matter; of others any row. None where the row is certain; no rows
        where it is no answer whatever is kept."""
        wanted = tuple(row)
        with self._asked(sql, params) as (question, evaluation):
            if len(wanted) != len(question.columns):
                raise QueryRefused("a row of %d values, and answers have %d" % (len(wanted), len(question.columns)))
            is_sure = False
            for values in evaluation.sure():
                is_sure = is_sure or _is_row(values, wanted)
            if is_sure:
                return None
            for _, choice in self._decided(candidate for candidate in evaluation.candidates() if _is_row(candidate.values, wanted)):
                return None if choice is None else evaluation.kept_rows(choice)
            return []

    def clean_first(self, sql: str, limit: int = 20, **params: Any) -> List[Blocking]:
        """The keys in conflict on which most disputed answers hang, those with the most first."""
        with self._asked(sql, params) as (_, evaluation):
            counts: Dict[int, int] = {}
            for _ in evaluation.sure():
                pass
            for candidate, choice in self._decided(evaluation.candidates()):
                for block in candidate.group.sizes if choice is not None else ():
                    counts[block] = counts.get(block, 0) + 1
            first = sorted(counts, key=lambda block: (-counts[block], block))[:limit]
            keys = evaluation.keys_of(first)
            return [Blocking(*keys[block], counts[block]) for block in first]

    def conflicts(self, table: str) -> Answers:
        """The rows of the keys in conflict of a table, key by key. Rows that are the same in all columns are in no conflict."""
        return self._stream(lambda stack: self._conflicts(stack, table))

    def explain(self, sql: str, **params: Any) -> Explained:
        """How a question is answered: the question is asked for it."""
        with self._asked(sql, params) as (question, evaluation):
            for _ in evaluation.sure():
                pass
            counts = evaluation.counts()
            used = {table.label: tuple(column.name for column in question.plan.used[table.relation.name]) for table in question.tables}
            return Explained(tuple(question.certain_tables), used, counts, tuple(evaluation.statements), hardness(question.branches, self._program))

    @contextmanager
    def snapshot(self, prepare: Sequence[str] = ()) -> Iterator["Database"]:
        """Within it, all questions see one state of the database. prepare: tables with keys whose rows in conflict are looked for at once,
        and kept in temporary tables till its end, so that each question over them is quicker. These tables mustn't be written within it
        through a connection that was handed in: a question is refused then.

        Raises QueryRefused where no temporary tables can be made, or where a table to prepare has no key.
        """
        engine, before = self._engine, self._kept
        with engine.transaction(self.timeout), ExitStack() as stack:
            if prepare:
                engine.begin_question([])
                if not self._tables or not engine.can_make_tables():
                    raise QueryRefused("prepare: no temporary tables can be made here: ask without it")
                self._kept = stack.enter_context(prepared(engine, keyed_tables(engine, self._keys), prepare, before))
            try:
                yield self
            finally:
                self._kept = before

    # How they are answered.

    def _answers(self, sql: str, params: Mapping[str, Any], way: "Callable[[Evaluation], Iterator[Row]]") -> Answers:
        def begun(stack: ExitStack) -> Tuple[Sequence[str], Iterator[Row], Sequence[str]]:
            question, evaluation = stack.enter_context(self._asked(sql, params))
            return [column.name for column in question.columns], way(evaluation), question.certain_tables
        return self._stream(begun)

    def _stream(self, begun: "Callable[[ExitStack], Tuple[Sequence[str], Iterator[Row], Sequence[str]]]") -> Answers:
        """Answers whose transaction ends with them."""
        stack = ExitStack()
        try:
            columns, rows, tables = begun(stack)
            first = next(rows, None)
        except BaseException as fault:
            stack.__exit__(type(fault), fault, fault.__traceback__)
            raise

        def all_rows() -> Iterator[Row]:
            with stack:
                if first is not None:
                    yield first
                yield from rows
        answers = all_rows()
        if first is None:
            answers.close()  # type: ignore[attr-defined]
            stack.close()
            answers = iter(())
        return Answers(columns, answers, tables)

    @contextmanager
    def _asked(self, sql: str, params: Mapping[str, Any]) -> Iterator[Tuple[_Question, Evaluation]]:
        """A question that is read, in a transaction, and how it is answered."""
        engine = self._engine
        with engine.transaction(self.timeout):
            try:
                question = _Question(engine, self._keys, sql, params, self.null_key, self.strict_keys, self._kept)
                with engine.room_for_tables(self._tables) as has_room:
                    evaluation: Evaluation = (ByTables if has_room else ByStatement)(engine, question.plan, question.arguments)
                    yield question, evaluation
                    evaluation.end()
            except KeyboardInterrupt:
                engine.cancel()
                raise

    def _decided(self, candidates: Iterator[Candidate]) -> Iterator[Tuple[Candidate, Optional[Dict[int, int]]]]:
        """Each candidate with the choice against it; None where it is certain."""
        for candidate, verdict in judged(((candidate, candidate.group) for candidate in candidates), self._program):
            yield candidate, None if verdict.is_certain else verdict.choice

    def _certain(self, evaluation: Evaluation) -> Iterator[Row]:
        yield from evaluation.sure()
        for candidate, choice in self._decided(evaluation.candidates()):
            if choice is None:
                yield candidate.values

    def _possible(self, evaluation: Evaluation) -> Iterator[Row]:
        yield from evaluation.sure()
        for candidate in evaluation.candidates():
            yield candidate.values

    def _disputed(self, evaluation: Evaluation) -> Iterator[Row]:
        for _ in evaluation.sure():
            pass
        for candidate, choice in self._decided(evaluation.candidates()):
            if choice is not None:
                yield candidate.values

    def _conflicts(self, stack: ExitStack, table: str) -> Tuple[Sequence[str], Iterator[Row], Sequence[str]]:
        engine = self._engine
        stack.enter_context(engine.transaction(self.timeout))
        engine.begin_question([])
        keyed = keyed_tables(engine, self._keys)
        name = named_relation(engine, table).name
        if name not in keyed:
            raise QueryRefused("no key is told of %s" % table)
        return [column.name for column in keyed[name].relation.columns], engine.rows(_conflict_rows(engine, keyed[name]), {}), ()


def _conflict_rows(engine: Engine, table: Keyed) -> str:
    """The query for the rows of the keys in conflict of a table."""
    relation = table.relation
    keys = ", ".join("t." + column.quoted for column in table.key)
    made = engine.identity(["t." + column.quoted for column in relation.columns], relation.columns)
    on = " AND ".join("d.cqa_k%d = t.%s" % (at, column.quoted) for at, column in enumerate(table.key))
    names = ", ".join("cqa_k%d" % at for at in range(len(table.key)))
    repeated = "SELECT %s FROM %s t GROUP BY %s HAVING count(*) > 1" % (keys, relation.name, keys)
    rows = "SELECT %s, %s FROM %s t JOIN cqa_k d ON %s" % (keys, made, relation.name, on)
    differing = "SELECT %s FROM cqa_i GROUP BY %s HAVING count(DISTINCT cqa_is) > 1" % (names, names)
    whole = "SELECT %s FROM %s t JOIN cqa_d d ON %s ORDER BY %s" % (", ".join("t." + column.quoted for column in relation.columns), relation.name, on, keys)
    return "WITH cqa_k(%s) AS (%s), cqa_i(%s, cqa_is) AS (%s), cqa_d(%s) AS (%s) %s" % (names, repeated, names, rows, names, differing, whole)


def _is_row(values: Row, wanted: Row) -> bool:
    """Whether an answer is the row that is asked for."""
    return all(map(_is_value, values, wanted))


def _is_value(value: Any, wanted: Any) -> bool:
    """Whether a value is the one that is asked for; what is no number is one alone."""
    return bool(value == wanted) and isinstance(value, str) == isinstance(wanted, str) or value != value and wanted != wanted
