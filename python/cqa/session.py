"""A session: tables that are loaded, looked at, asked and kept, by a running program."""

from __future__ import annotations

import os
import re
import sys
import tempfile
import warnings
from dataclasses import replace
from decimal import Decimal
from enum import Enum
from functools import partial
from types import TracebackType
from typing import Dict, Iterable, Iterator, List, Mapping, NamedTuple, Optional, Sequence, Tuple, Type, Union, overload

from . import answers, underway
from .answers import Classification, Explanation, Group, Kept, Range, UnionClassification
from .blocks import create_text, rows_script
from .columns import is_in_range, scaled
from .conflicts import Columns, Conflicts, many_rows
from .dumps import read_dump
from .errors import LoadFault, LoadWarning, NoSuchName, Refused, ReplyFault, ScaleFault, ScaleWarning, StateFault, UnknownStatement
from .files import written
from .loading import Source, load_script
from .marks import Marks, is_state, marks_of, state_fault, state_text
from .meaning import Meaning, copy_notes, is_of_form, meaning_of
from .options import ByList, ListOptions, forms_by_list, word_of
from .origins import Origin, origin_text, origins_of
from .parameters import Parameters, filled
from .places import place_of
from .program import Child
from .replies import IS_REFUSAL, row_of
from .rows import Cell, Rows
from .scaling import places_of, shown_number, stored
from .scripts import Schema, Statement, aggregate_of, fault_of, quoted, selected, shown_schema, statements, tokens, verb_of
from .stated import stated_of
from .trial import Trial

#: Statements that not every program knows: how each begins, and the reply of a program that doesn't know it.
NEWER = (("disputed", "error 2 Syntax at 0"), ("against", "error 2 Syntax at 0"), ("prove", "error 2 Syntax at 0"),
         ("range", "error 2 Syntax at 0"), ("prefer", "error 2 Syntax at 0"), ("show conflicts", "error 2 Syntax at 5"))


class Settled(NamedTuple):
    """What of a table is in no conflict: its rows, one for each such key. keys: how many keys there are; open_keys: how many are in conflict."""

    rows: Rows
    keys: int
    open_keys: int


class Session:
    """Tables in a running program. Used by `with`, it ends with the block; else by `close`.

    Each statement is answered before its method returns. A refused one raises `Refused` and changes nothing. Values are `int`
    and `str`, and `Decimal` where a column was loaded with a number of places. Such a column is stored as int, times a power of ten:
    a query compares it to a number with a point, as in "credit >= 1000.00", which is scaled; a number without one is compared as it
    is stored, and ScaleWarning says so. Statements of `tell` and `run` are sent as they are written.
    """

    def __init__(self, program: Optional[str] = None, child: Optional[Child] = None) -> None:
        """Starts the program: the one named, or else that of the variable CQA_PROGRAM, of the repository in which this package
        stands, or of the path. Or goes on with a child that runs. Raises NotBuilt where there is none."""
        self._child = child or Child(program)
        self._settings = b""
        self._marks = Marks()
        self._trial = Trial(self._child.program)
        self._origins: Dict[str, List[Origin]] = {}

    def __enter__(self) -> "Session":
        return self

    def __exit__(self, kind: Optional[Type[BaseException]], fault: Optional[BaseException], trace: Optional[TracebackType]) -> None:
        self.close()

    def close(self) -> None:
        """Ends the program. Closing twice does nothing more."""
        self._child.close()

    @property
    def program(self) -> str:
        """The path of the program that runs."""
        return self._child.program

    # -- statements ---------------------------------------------------------------------------------------------------------

    def tell(self, statement: str) -> List[str]:
        """Sends one statement, with or without its `;` (a `copy` with its block), and gives the lines of its reply, where line
        feeds in texts end no line.

        Raises Refused, UnknownStatement where the installed program is too old for it, ScaleFault for a number with more places than its
        column, ValueError where the text is no complete statement or more than one, and Ended where the program ends.

        The reply's rows are as they are stored. A number with a point is sent as its column stores it; ScaleWarning says where a number
        without one stands for another, and where columns with different places are put together.
        """
        return self._lines(statement, _TOLD)

    def _lines(self, statement: str, care: Optional["_Care"] = None) -> List[str]:
        """As `tell`. care: how columns with places are seen to, and strictly where it isn't told."""
        text = statement.encode("utf-8")
        parts = list(statements(text))
        if len(parts) == 1 and not parts[0].complete and parts[0].block is None:
            text = text.rstrip() + b"\n;"
            parts = list(statements(text))
        if len(parts) != 1 or not parts[0].complete:
            raise ValueError("one complete statement is wanted, and this is %s: %r"
                             % ("none" if len(parts) < 2 else "%d" % len(parts), statement[:200]))
        return [line.decode("utf-8") for line in self._told(text, parts[0], care or _STRICT)]

    def run(self, script: Union[str, bytes]) -> List[List[str]]:
        """Sends the statements of a script one after the other and gives the lines of each reply. The first refusal ends it and
        is raised. Raised before anything is sent are a script that ends within a statement (ValueError), a kept state in it that isn't
        whole, and decisions that were saved for other rows (StateFault). Statements are sent as by `tell`."""
        return list(self._replies(script.encode("utf-8") if isinstance(script, str) else script, _TOLD))

    def _replies(self, script: bytes, care: "_Care") -> Iterator[List[str]]:
        """Sends the statements of a script."""
        fault = state_fault(script)
        if fault:
            raise StateFault(fault)
        self.heed(script)
        parts = list(statements(script))
        if parts and not parts[-1].complete:
            raise ValueError("the script ends within a statement: %r" % script[parts[-1].start:][:200])
        for told in stated_of(script):
            fault = told.fault([line.encode("utf-8") for line in self._lines(told.question(), _MADE)])
            if fault:
                raise StateFault(fault)
        own = marks_of(script)
        for part in parts:
            yield [line.decode("utf-8") for line in self._told(script, part, care, own)]

    def meaning(self, text: str) -> Meaning:
        """What a statement means over the columns of which the comments of scripts and the options of `load` say something."""
        return meaning_of(text, self._marks, lambda: {schema.table: schema for schema in self.tables()})

    def takes(self, statement: str, schemas: Mapping[str, Schema]) -> bool:
        """Whether the program answers a statement over tables of such schemas; the session's own aren't touched."""
        return self._trial.takes(statement, schemas, self._marks)

    def heed(self, script: bytes) -> None:
        """Heeds what the comments between the statements of a script say of columns, numbers with places, times, and columns of sources,
        and from which lists rows come. Raises ScaleFault where they say something else of a column than is known."""
        marks = marks_of(script)
        fault = self._marks.disagreement(marks)
        if fault:
            raise ScaleFault(fault)
        self._marks.add(marks)
        self._heed_origins(script)

    def _heed_origins(self, script: bytes) -> None:
        for table, origins in origins_of(script).items():
            known = self._origins.setdefault(table, [])
            known += [origin for origin in origins if origin not in known]

    def _told(self, script: bytes, part: Statement, care: "_Care", own: Optional[Marks] = None) -> List[bytes]:
        """Sends a statement of a script and gives its reply's lines without line feeds. own: what the script's comments say."""
        text = part.text(script).decode("utf-8", "surrogateescape")
        verb = verb_of(text)
        fault = "" if care is _MADE else fault_of(script, part)
        if fault:
            raise Refused(fault, text, "its block has a quote that is never closed, or that something stands behind")
        meaning = self.meaning(text) if self._marks and part.block is None and care is not _MADE else Meaning(text)
        self._see_to(meaning, care)
        if self._marks and part.block is not None and care is not _MADE:
            for note in copy_notes(script, part, self._marks, own or Marks()):
                _warn(note, ScaleWarning)
        sent = meaning.sent().encode("utf-8", "surrogateescape") + b";" if meaning.edits else script[part.start:part.end]
        lines = self._child.tell(sent, verb)
        if lines and IS_REFUSAL.match(lines[0]):
            self._refuse(script, part, meaning.refusal(lines[0][:-1].decode("utf-8")))
        if verb == "set":
            self._settings = script[part.start:part.end] + b"\n"
        return [line[:-1] for line in lines]

    @staticmethod
    def _see_to(meaning: Meaning, care: "_Care") -> None:
        """Raises what has no right meaning, and warns of what is to know."""
        faults = [*meaning.wrong, *(meaning.faults if care is _STRICT else ())]
        if faults:
            raise ScaleFault(faults[0].text)
        for note in (*meaning.notes, *(fault.text for fault in meaning.faults)):
            _warn(note, ScaleWarning)

    def _refuse(self, script: bytes, part: Statement, line: str) -> None:
        """Raises what the refusal of a statement is."""
        text = part.text(script).decode("utf-8", "replace")
        plain = " ".join(text.split())
        for word, reply in NEWER:
            if re.match(word + r"\b", plain) and line == reply:
                raise UnknownStatement(line, text, self.program, word)
        schemas = {schema.table: schema for schema in self.tables()}
        raise Refused(line, text, hint=place_of(script, part, line, schemas, lambda whole: self.takes(whole, schemas)).note)

    # -- load and look ------------------------------------------------------------------------------------------------------

    def load(self, table: str, path: Union[str, "os.PathLike[str]", Mapping[str, Union[str, "os.PathLike[str]"]]], *,
             key: Union[str, Sequence[str]] = (), source: Optional[str] = None, columns: Union[str, Sequence[str], None] = None,
             decimal: Optional[Mapping[str, int]] = None, time: Union[str, Sequence[str]] = (),
             text: Union[str, Sequence[str]] = (), delimiter: ByList[str] = "",
             encoding: ByList[str] = "utf-8", renamed: Optional[Mapping[str, str]] = None, decimal_mark: ByList[str] = ".",
             missing: str = "refuse", strict: bool = False, source_column: str = "source", strip: bool = False, skip: ByList[int] = 0,
             date: Optional[Mapping[str, ByList[str]]] = None, null: Union[str, Sequence[str]] = ()) -> int:
        """Loads a CSV list with a header line into a table, which is made where it isn't there, and gives the number of new rows.

        path: the list, or several as {"crm": "crm.csv", "shop": "shop.csv"} by their sources; the kinds of a new table's columns
        are found over all lists of the call. key: the columns of the key of a new table. source: what the rows have in the column
        `source_column`. decimal: the number of places by column; such a column is stored as int and given as Decimal.
        delimiter: where it isn't told, a comma, or what the header has in its place. renamed: names of columns by those that the
        list has. time: columns of dates or of times in UTC. text: columns that are text though they hold numbers. missing: what an empty
        field outside the key is: "refuse", "keep" or "drop". strict: whether a new table takes no two rows of one key. strip: whether
        blanks at the ends of fields are left out. skip: how many lines stand above the header. date: columns of dates and the order in
        which lists write them, "DMY", "MDY" or "YMD"; 2026-03-01 is stored. null: a word that stands for an empty field, or several.
        Names of columns are a list, or one text with commas. delimiter, encoding, decimal_mark, skip and the order of a date may be told
        by list, as encoding={"crm": "latin-1"}, by the lists' sources.

        A table that is there gets the kinds and places that a further list needs: an int column becomes text where the list has
        other fields, and numbers get more places. Then the program begins anew with all tables, and the log of `show log` is gone.

        Warns (LoadWarning) of what is no fault and good to know, as that numbers became texts.

        Raises LoadFault with every fault of the lists, and then nothing of them is loaded; ValueError for options that tell nothing;
        Refused where the program refuses a list (a strict table's key is taken, more rows than fit), and then those before it stay.
        """
        sources = _sources(path, source)
        form, forms = forms_by_list([name or one for one, name in sources], delimiter, encoding, decimal_mark, skip, date or {})
        options = ListOptions(table, _names(key), None if columns is None else _names(columns), decimal or {}, _names(time), _names(text),
                              form.delimiter, form.encoding, renamed or {}, form.decimal_mark, missing, strict, source_column, strip,
                              form.skip, forms, form.dates, [null] if isinstance(null, str) else null)
        return self.load_lists(options, sources)

    def load_lists(self, options: ListOptions, sources: Sequence[Source]) -> int:
        """Loads lists as options say, each with what its rows have in the column of sources, and gives the number of new rows.
        Raises as `load`."""
        there = self.schema(options.table)
        if there is not None and options.key and [word_of(name) for name in options.key] != there.key:
            raise ValueError("the key of %s is %s" % (options.table, ", ".join(there.key)))
        if there is None and not options.key:
            raise ValueError("the key of the new table %s is wanted" % options.table)
        if there is not None and sources[0][1] is not None and options.source_column not in there.columns:
            raise ValueError("%s has no column %s" % (options.table, options.source_column))
        key = options.key or (there.key if there else [])
        times = [column for table, column in self._marks.times if table == options.table]
        return self._loaded(replace(options, key=key, decimals=self._decimals(options), times=[*options.times, *times]), sources, there)

    def _decimals(self, options: ListOptions) -> Dict[str, int]:
        """The number of places by column: of those that are told and those of the table, the greater."""
        places = {column: count for (table, column), count in self._marks.places.items() if table == options.table}
        for name, count in options.decimals.items():
            places[word_of(name)] = max(count, places.get(word_of(name), 0))
        return places

    def _loaded(self, options: ListOptions, sources: Sequence[Source], there: Optional[Schema]) -> int:
        """Loads lists, by a program that begins anew where a table's kinds or places change: it takes the place of the one before
        where all went well."""
        faults: List[str] = []
        with tempfile.TemporaryFile() as file:
            lists = load_script(options, sources, file, faults.append, there)
            if lists is None:
                raise LoadFault(faults)
            if there is not None:
                self._check_times(there, lists.times())
            changed = self._converted_table(there, lists.schema(), options.decimals) if there is not None else ""
            file.seek(0)
            script = file.read()
        before = self._child
        if changed:
            self._child = self._begun_anew(options.table, changed)
        try:
            replies = self._load_replies(script)
        except BaseException:
            if self._child is not before:
                self._child.kill()
                self._child = before
            raise
        if self._child is not before:
            before.close()
        self._marks.add(marks_of(script))
        self._heed_origins(script)
        for note in lists.notes():
            _warn(note, LoadWarning)
        return sum(int(lines[0].split(b" ")[1]) for lines in replies if lines[0].startswith((b"copied ", b"inserted ")))

    def _check_times(self, there: Schema, times: Mapping[str, str]) -> None:
        """Sees whether what a table has in columns of times is of the form of further lists. Raises LoadFault where it isn't."""
        for name, form in times.items():
            if name not in there.columns or self._marks.times.get((there.table, name)) == form:
                continue
            values = [row_of(line)[0] for line in self._lines("possible select %s from %s;" % (name, there.table))[:-1]]
            wrong = next((value for value in values if not is_of_form(str(value), form)), None)
            if wrong is not None:
                raise LoadFault(["%s: %s: %r, which was loaded before, is of another form than %s" % (there.table, name, wrong, form)])

    def _load_replies(self, script: bytes) -> List[List[bytes]]:
        """The replies to a script of lists. A refusal names its list."""
        replies: List[List[bytes]] = []
        part: Optional[Statement] = None
        try:
            for part in statements(script):
                replies.append(self._told(script, part, _MADE))
        except Refused as refused:
            found = re.search(rb"-- ([^\n]*):[0-9]+\n\Z", script[:part.start][-5000:]) if part is not None else None
            if found is None:
                raise
            raise Refused(refused.line, refused.statement, "of the list " + found[1].decode("utf-8", "replace")) from None
        return replies

    def _converted_table(self, old: Schema, new: Schema, decimals: Mapping[str, int]) -> str:
        """The script of a table with the kinds and places that further lists need, or nothing where it has them: ints become texts,
        numbers get more places. Raises LoadFault where a stored text is no such number."""
        scales = {name: places - self._marks.places.get((old.table, name), 0) for name, places in decimals.items() if name in old.columns}
        if old.columns == new.columns and not any(scales.values()):
            return ""
        names = list(old.columns)
        told = self._lines("possible select %s from %s;" % (", ".join(names), old.table))
        faults: List[str] = []
        rows = [tuple(_converted(name, value, new.columns[name], scales.get(name), faults) for name, value in zip(names, row_of(line)))
                for line in told[:-1]]
        if faults:
            raise LoadFault(["%s: %s" % (old.table, fault) for fault in faults])
        return create_text(new) + rows_script(old.table, rows)

    def _begun_anew(self, table: str, changed: str) -> Child:
        """A program with the same tables, of which one is made by another script. The log of `show log` isn't kept."""
        dump = "".join(line + "\n" for line in self._lines("dump;")).encode("utf-8")
        parts: List[bytes] = [self._settings]
        for part in statements(dump):
            words = tokens(part.text(dump).decode("utf-8"))
            name = words[words.index("table") + 1] if words[0] == "create" else words[-1] if words[0] == "copy" else words[2]
            if name != table:
                parts.append(dump[part.start:part.end] + b"\n")
            elif words[0] == "create":
                parts.append(changed.encode("utf-8"))
        child = Child(self.program, self._child.is_apart)
        try:
            list(Session(child=child)._replies(b"".join(parts), _MADE))
        except BaseException:
            child.kill()
            raise
        return child

    def tables(self) -> List[Schema]:
        """The tables in order of creation."""
        shown = [shown_schema(line) for line in self._lines("show tables;")[:-1]]
        return [schema for schema in shown if schema is not None]

    def schema(self, table: str) -> Optional[Schema]:
        """The schema of a table, or None where there is no such table."""
        return next((schema for schema in self.tables() if schema.table == table), None)

    def rows(self, table: str) -> Rows:
        """All rows of a table, in the order of its columns. Raises NoSuchName, a KeyError, where it isn't there."""
        schema = self._there(table)
        return self.possible("select %s from %s" % (", ".join(schema.columns), table))

    @overload
    def conflicts(self, table: str, source: Optional[str] = None) -> Conflicts: ...

    @overload
    def conflicts(self, table: Optional[str] = None, source: Optional[str] = None, *, matter: Union[str, Sequence[str]]) -> Rows: ...

    def conflicts(self, table: Optional[str] = None, source: Optional[str] = None, *,
                  matter: Union[str, Sequence[str], None] = None) -> Union[Conflicts, Rows]:
        """The keys of a table whose rows differ: how many by column, and for each key its values with their sources.

        source: the column of sources; where it isn't told, that with which the table was loaded. Another one, whatever it is called, counts.
        Rows that differ in their source alone are in no conflict.

        matter: questions, as "select .. from .." or "range sum .. from ..". With them the keys in conflict come as rows, of all tables where
        none is named, in the order in which it helps to decide them: those first on which most disputed rows of the questions hang, and by
        which ranges are widest. A row has the table, the key's values, how many disputed rows hang on it, and by how much deciding it narrows
        each range at most.

        Raises NoSuchName, a KeyError, where the table or its column isn't there; with questions Refused, and without them ValueError where
        no table is named.
        """
        if matter is not None:
            return self._by_matter([table] if table else [], source, [matter] if isinstance(matter, str) else matter)
        if table is None:
            raise ValueError("a table is wanted, or the questions by which all are ranked, as conflicts(matter=[..])")
        return self.conflicts_of([table], source)[0]

    def _by_matter(self, tables: Sequence[str], source: Optional[str], asked: Sequence[str]) -> Rows:
        """The keys in conflict as rows, ranked by what hangs on them."""
        from .deciding import ranked_keys, ranked_rows  # which stand on this module
        from .matter import question_of

        for table in tables:
            self._columns(self._there(table), source)  # which sees whether both are there
        with warnings.catch_warnings():
            warnings.simplefilter("ignore", ScaleWarning)  # values are handled as they are stored
            ranked = ranked_keys(self, [question_of(one) for one in asked], source or "", tables)
        return ranked_rows(ranked)

    def settled(self, table: str) -> Settled:
        """The rows of the keys of a table that are in no conflict, with all columns but that of sources, by which no rows differ here.
        Raises NoSuchName, a KeyError, where the table isn't there."""
        columns = self._columns(self._there(table), None)
        keys = len(self._lines("possible select %s from %s;" % (", ".join(columns.names[at] for at in columns.key), table))) - 1
        names = [name for at, name in enumerate(columns.names) if at != columns.source]
        rows = self.certain("select %s from %s" % (", ".join(names), table))
        return Settled(rows, keys, keys - len(rows))

    def conflicts_of(self, tables: Sequence[str], source: Optional[str] = None) -> List[Conflicts]:
        """As `conflicts`, of several tables by one pass over what is stored. source: where it is told, each has such a column."""
        found = {table: Conflicts(table, self._columns(self._there(table), source)) for table in tables}

        def take(table: str, rows: Iterable[Sequence[str]]) -> None:
            if table in found:
                found[table].add(rows)

        with many_rows(), underway.saying(lambda: "%s rows" % format(sum(one.rows for one in found.values()), ",")):
            left = self._child.read(b"dump;", partial(read_dump, take=take)) & found.keys()
        for table in left:
            columns = self._columns(self._there(table), source)
            rows = self._lines("possible select %s from %s;" % (", ".join(columns.names[at] for at in columns.order), table))[:-1]
            found[table] = Conflicts(table, columns)
            found[table].add(columns.in_order(row_of(line)) for line in rows)
        return [found[table] for table in tables]

    def source_of(self, table: str) -> Optional[str]:
        """The column with which a table was loaded that says from which list a row is, if there is one."""
        return self._marks.sources.get(table)

    def origins_of(self, table: str) -> List[Origin]:
        """The lists from which a table was loaded, as far as scripts say so."""
        return list(self._origins.get(table, []))

    def _columns(self, schema: Schema, source: Optional[str]) -> Columns:
        """How the rows of a table are read. Raises NoSuchName where it has no such column of sources."""
        if source is not None and source not in schema.columns:
            raise NoSuchName("%s has no column %s" % (schema.table, source))
        told = source or self._marks.sources.get(schema.table)
        places = {name: count for (table, name), count in self._marks.places.items() if table == schema.table}
        return Columns(schema.columns, schema.key, told, places)

    @property
    def places(self) -> Mapping[Tuple[str, str], int]:
        """The places of columns that hold numbers with places, by table and column."""
        return self._marks.places

    def _there(self, table: str) -> Schema:
        schema = self.schema(table)
        if schema is None:
            raise NoSuchName("no table %s" % table)
        return schema

    # -- ask ----------------------------------------------------------------------------------------------------------------

    def certain(self, query: str, parameters: Parameters = ()) -> Rows:
        """The certain rows of a query, `select .. from .. where ..` or `exists ..`, or of a union of such: those that every repair
        gives. Raises Refused.

        parameters, here and of the other methods that take a query: the values that stand for each `?` in it, as
        certain("select id from customer where name = ?", ["O'Neill"]), or for each `:name`, as {"name": "O'Neill"}. They are quoted, and
        numbers of a column with places, int or Decimal, are scaled as by `insert`. Raises ValueError where one is missing or left over, or
        has more places than its column.
        """
        return self._answer("ask", query, parameters)

    def possible(self, query: str, parameters: Parameters = ()) -> Rows:
        """The possible rows of a query: those that some repair gives. Raises Refused."""
        return self._answer("possible", query, parameters)

    def disputed(self, query: str, parameters: Parameters = ()) -> Rows:
        """The rows that are possible and not certain. Raises Refused; UnknownStatement where the program is too old."""
        return self._answer("disputed", query, parameters)

    def explain(self, row: Sequence[Cell], query: str, parameters: Parameters = ()) -> Explanation:
        """Why a row is certain, or a repair in which it is no answer. Raises Refused."""
        return self._shown_explanation(answers.explanation(self._of_row("explain", row, query, parameters)))

    def against(self, row: Sequence[Cell], query: str, parameters: Parameters = ()) -> Explanation:
        """The rows by which a row is no answer: no repair that keeps them has a witness of it, and none of them can be left out. Or that
        it is certain. Raises Refused; UnknownStatement where the program is too old."""
        return self._shown_explanation(answers.against(self._of_row("against", row, query, parameters)))

    def prove(self, row: Sequence[Cell], query: str, parameters: Parameters = ()) -> Explanation:
        """A certificate that a row is certain, which `cqa check` verifies. Raises Refused; UnknownStatement where the program is too
        old."""
        return self._shown_explanation(answers.explanation(self._of_row("prove", row, query, parameters)))

    def _of_row(self, verb: str, row: Sequence[Cell], query: str, parameters: Parameters) -> List[str]:
        """The reply to a statement about a row of a query's answer."""
        columns, tables = selected(query)
        places = [places_of(name, tables, self._marks.places) for name in columns] + [0] * len(row)
        values = [shown_number(Decimal(value).scaleb(-count), count) if count and isinstance(value, int) else quoted(value)
                  for value, count in zip(self._stored(row, query), places)]
        return self._lines("%s row (%s) for %s;" % (verb, ", ".join(values), self._filled(query, parameters)))

    def range(self, aggregate: str, parameters: Parameters = ()) -> Range:
        """The ends of `sum credit from customer where ..`, of `count from ..`, `min ..` or `max ..` over all repairs.
        Raises Refused; ValueError for one with `group by`, which has many ends; UnknownStatement where the program is too old."""
        if aggregate_of(aggregate).group:
            raise ValueError("a range by groups has ends for each of them: `ranges` gives them, and `range` those of a range without `group by`")
        told = answers.ranges(self._range_lines(aggregate, parameters))
        places = self._aggregated(aggregate)[0]
        ends = _shown_end(told.least, places), _shown_end(told.greatest, places)
        return Range(*ends, self._shown_kept(told.low), self._shown_kept(told.high))

    def ranges(self, aggregate: str, parameters: Parameters = ()) -> List[Group]:
        """As `range`, for `sum credit from customer group by city`: one for each value. Raises as `range`; ValueError for one without
        `group by`."""
        if not aggregate_of(aggregate).group:
            raise ValueError("a range without `group by` has one least and one greatest value: `range` gives them")
        return self._groups(aggregate, self._range_lines(aggregate, parameters))

    def _range_lines(self, aggregate: str, parameters: Parameters) -> List[str]:
        return self._lines(self._filled("range " + _plain(aggregate), parameters) + ";")

    def _groups(self, aggregate: str, lines: List[str]) -> List[Group]:
        of_what, of_groups = self._aggregated(aggregate)
        return [Group(_shown_value(value, of_groups), _shown_end(least, of_what), _shown_end(greatest, of_what))
                for value, least, greatest in answers.groups(lines)]

    def ends_of(self, aggregate: str, lines: List[str]) -> Rows:
        """The ends of a `range` by its reply, as rows: one, or one for each group. An end `none` is an empty text."""
        group, places = aggregate_of(aggregate).group, self._aggregated(aggregate)[0]
        if group:
            return Rows((group, "least", "greatest"), [(one.value, _or_empty(one.least), _or_empty(one.greatest))
                                                        for one in self._groups(aggregate, lines)])
        told = answers.ranges(lines)
        return Rows(("least", "greatest"), [(_or_empty(_shown_end(told.least, places)), _or_empty(_shown_end(told.greatest, places)))])

    def classify(self, query: str, parameters: Parameters = ()) -> Classification:
        """How hard the query is, by its attacks. Raises Refused."""
        return answers.classification(self._lines("classify %s;" % self._filled(query, parameters)))

    def classify_union(self, union: str, parameters: Parameters = ()) -> UnionClassification:
        """How hard each part of a union is, and whether two parts share a table that isn't strict. Raises Refused."""
        return answers.union_classification(self._lines("classify %s;" % self._filled(union, parameters)))

    def plan(self, query: str, parameters: Parameters = ()) -> Optional[List[str]]:
        """The tables in the order in which they can be gone through without a search, or None where there is none. Raises Refused."""
        lines = self._lines("plan %s;" % self._filled(query, parameters))
        return None if lines == ["no plan"] else [line.split(" ")[2] for line in lines]

    def sql(self, query: str, parameters: Parameters = ()) -> Optional[str]:
        """One query in SQL for the certain rows of a query or of a union, or None where there is none: a query has no plan, or
        parts share a table that isn't strict. Raises Refused."""
        lines = self._lines("sql %s;" % self._filled(query, parameters))
        return None if lines[0].startswith("no ") else "".join(line + "\n" for line in lines)

    def _answer(self, verb: str, query: str, parameters: Parameters) -> Rows:
        return self.rows_of(query, self._lines("%s %s;" % (verb, self._filled(query, parameters))))

    def _filled(self, statement: str, parameters: Parameters) -> str:
        """A query, or a statement, with its parameters, and without the `;` that may stand at its end."""
        plain = _plain(statement)
        return filled(plain, parameters, lambda column, tables: places_of(column, tables, self._marks.places)) if parameters else plain

    def rows_of(self, query: str, lines: Sequence[str]) -> Rows:
        """The rows of a query's reply, with the query's columns."""
        if not lines or not lines[-1].endswith(" rows"):
            raise ReplyFault("no rows: %r" % lines[-1:])
        columns, tables = selected(query)
        rows = [row_of(line) for line in lines[:-1]]
        return Rows(columns, self._scaled(rows, self._column_places(columns, tables)))

    def _column_places(self, columns: Sequence[str], tables: Sequence[str]) -> List[int]:
        """The places of each selected column; -1 where it has none."""
        if not self._marks.places:
            return []
        found = []
        for column in columns:
            owner, _, name = column.rpartition(".")
            owners = [owner] if owner else tables
            found.append(next((self._marks.places[table, name] for table in owners if (table, name) in self._marks.places), -1))
        return found if max(found, default=-1) >= 0 else []

    @staticmethod
    def _scaled(rows: Iterable[Tuple[Cell, ...]], places: Sequence[int]) -> Iterator[Tuple[Cell, ...]]:
        if not places:
            return iter(rows)
        return (tuple(_shown_value(value, count) for value, count in zip(row, places)) for row in rows)

    def _stored(self, row: Sequence[Cell], query: str) -> Tuple[Union[int, str], ...]:
        """The values of an answer's row as they are stored: those of columns with places are scaled. Raises as `insert`."""
        columns, tables = selected(query)
        names = [*columns, *("value %d" % at for at in range(len(columns) + 1, len(row) + 1))]
        return tuple(stored(value, places_of(name, tables, self._marks.places), name) for value, name in zip(row, names))

    def _shown_kept(self, kept: Sequence[Kept]) -> Tuple[Kept, ...]:
        """Rows of tables with the numbers of columns with places as Decimal."""
        if not self._marks.places or not kept:
            return tuple(kept)
        schemas = {schema.table: schema for schema in self.tables()}
        return tuple((table, next(self._scaled([row], self._column_places(list(schemas[table].columns), [table])))) for table, row in kept)

    def _shown_explanation(self, told: Explanation) -> Explanation:
        """An explanation with the numbers of columns with places as Decimal."""
        if told.table is not None and told.key is not None and self._marks.places:
            names = self._there(told.table).key
            return told._replace(key=next(self._scaled([told.key], self._column_places(names, [told.table]))))
        return told._replace(kept=self._shown_kept(told.kept))

    def _aggregated(self, aggregate: str) -> Tuple[int, int]:
        """The places of the column of an aggregate, and of that of its groups; -1 where there are none."""
        parts = aggregate_of(aggregate)
        of_what, of_groups = (places_of(name, parts.tables, self._marks.places) if name else 0 for name in (parts.column, parts.group))
        return of_what or -1, of_groups or -1

    # -- change and keep ----------------------------------------------------------------------------------------------------

    def delete(self, table: str, where: str = "", parameters: Parameters = ()) -> int:
        """Takes away the rows of a table for which the tests hold, as "id = 1 and source = 'shop'"; all rows without tests.
        Gives their number. Raises Refused."""
        tests = " where " + _plain(where) if where else ""
        return int(self._lines(self._filled("delete from " + table + tests, parameters) + ";")[0].split(" ")[1])

    def prefer(self, table: str, where: str, parameters: Parameters = ()) -> int:
        """Of each block in which a row passes the tests, takes away the rows that don't. Gives the number of rows taken away.
        Raises Refused; UnknownStatement where the program is too old."""
        return int(self._lines(self._filled("prefer " + table + " where " + _plain(where), parameters) + ";")[0].split(" ")[1])

    def insert(self, table: str, rows: Sequence[Sequence[Cell]]) -> int:
        """Puts rows into a table and gives the number of those that weren't there. Numbers of a column with places, int or
        Decimal, are scaled: 12 and Decimal("12.00") are the same. Raises Refused; TypeError for a value that is no int, Decimal or
        str (a float isn't exact), ValueError for a number with more places than its column, and ScaleFault for a text that is no time of
        the form in which its column has them."""
        schema = self.schema(table) if self._marks else None
        names = list(schema.columns) if schema else []
        values = ", ".join("(" + ", ".join(quoted(value) for value in self._stored_row(table, names, row)) + ")" for row in rows)
        return int(self._lines("insert into %s values %s;" % (table, values), _MADE)[0].split(" ")[1])

    def _stored_row(self, table: str, names: Sequence[str], row: Sequence[Cell]) -> Iterator[Union[int, str]]:
        for at, value in enumerate(row):
            name = names[at] if at < len(names) else ""
            form = self._marks.times.get((table, name), "")
            if form and isinstance(value, str) and not is_of_form(value, form):
                raise ScaleFault("%s.%s has times as %s, and %r is none" % (table, name, form, value))
            yield stored(value, self._marks.places.get((table, name), 0), name or "value %d" % (at + 1))

    def save(self, path: str) -> None:
        """Keeps the tables in a file: a script that makes them again, beside which only comments stand. It is written beside its
        place and then moved, so that no half of it is ever there."""
        state = self.state()
        with written(path) as file:
            file.write(state)

    def state(self) -> bytes:
        """The text of a kept state: a script that makes the tables again, between two lines by which it is seen whether it is whole."""
        dump = "".join(line + "\n" for line in self._lines("dump;"))
        origins = "".join(origin_text(table, origins) for table, origins in self._origins.items())
        return state_text((self._marks.text() + origins + dump).encode("utf-8", "replace"))

    @classmethod
    def restored(cls, path: str, program: Optional[str] = None) -> "Session":
        """A session with the tables of a kept state. Raises StateFault where the file isn't whole or no kept state, OSError
        where it can't be read, Refused where the program refuses it."""
        with open(path, "rb") as file:
            script = file.read()
        fault = state_fault(script) if is_state(script) else "it is no kept state: its first line isn't that of one"
        if fault:
            raise StateFault("%s: %s" % (path, fault))
        session = cls(program)
        try:
            list(session._replies(script, _MADE))
        except BaseException:
            session.close()
            raise
        return session


class _Care(Enum):
    """How a statement is looked at: what this package made is sent as it is; what a user tells word by word is sent with warnings; over
    what a user asks of this package nothing is let through that has no right meaning."""

    MADE = 0
    TOLD = 1
    STRICT = 2


_MADE, _TOLD, _STRICT = _Care.MADE, _Care.TOLD, _Care.STRICT


def _plain(query: str) -> str:
    """A query without the `;` that may stand at its end."""
    return query.strip().rstrip(";")


def _warn(text: str, category: Type[Warning]) -> None:
    """Warns at the place of the caller outside of this package."""
    here = os.path.dirname(os.path.abspath(__file__)) + os.sep
    level, frame = 1, sys._getframe()
    while frame.f_back is not None and os.path.abspath(frame.f_code.co_filename).startswith(here):
        level, frame = level + 1, frame.f_back
    warnings.warn(text, category, stacklevel=level)


def _shown_value(value: Cell, places: int) -> Cell:
    """A stored value as its column with so many places shows it; -1 where it has none."""
    return Decimal(value).scaleb(-places) if places >= 0 and isinstance(value, int) else value


def _shown_end(value: Optional[Cell], places: int) -> Optional[Cell]:
    return None if value is None else _shown_value(value, places)


def _or_empty(end: Optional[Cell]) -> Cell:
    return "" if end is None else end


def _converted(name: str, value: Union[int, str], kind: str, places: Optional[int], faults: List[str]) -> Union[int, str]:
    """A stored value as a column of another kind, or with more places, stores it; what can't be is told."""
    if kind == "text":
        return str(value)
    number = scaled(str(value), places or 0)
    if number is None or not is_in_range(number):
        faults.append("%s: %r, which was loaded before, is no number with such places" % (name, value))
    return value if number is None else number


def _names(names: Union[str, Sequence[str]]) -> List[str]:
    return [name for name in names.split(",") if name] if isinstance(names, str) else list(names)


def _sources(path: Union[str, "os.PathLike[str]", Mapping[str, Union[str, "os.PathLike[str]"]]], source: Optional[str]) -> List[Source]:
    if isinstance(path, Mapping):
        if source is not None or not path:
            raise ValueError("the lists have their sources already" if path else "no list is named")
        return [(os.fspath(one), name) for name, one in path.items()]
    return [(os.fspath(path), source)]
