"""The command `ask`: SQL over a database of the user's own, or over CSV lists."""

from __future__ import annotations

import argparse
import csv
import json
import re
import sys
import unicodedata
from typing import Any, BinaryIO, Dict, Iterable, Iterator, List, Optional, Sequence

from .database.connecting import heed_interrupts
from .database.csv_lists import database_of_lists, told_lists
from .database.front import Answers, Database, shown
from .database.keys import read_keys, told_keys
from .errors import QueryRefused
from .files import standard_output, written
from .rows import csv_line
from .unseen import seen
from .words import told as words_told

_NUMBER = re.compile(r"-?(?:0|[1-9][0-9]{0,17})")


def parser() -> argparse.ArgumentParser:
    """The words of `ask`."""
    words = argparse.ArgumentParser(
        prog="cqa ask", description="Certain answers of SQL over a database that breaks its keys: those that hold whichever row of each key is right.",
        epilog="Example: cqa ask --db sqlite:shop.db --key customer=id --key orders=oid \"select name from customer where city like 'O%%'\"")
    words.add_argument("query", nargs="?", metavar="QUERY", help="the SQL, a file that has it, or - for standard input")
    add_place(words)
    add_wishes(words)
    return words


def add_place(words: argparse.ArgumentParser) -> None:
    """The words that say which database is asked, and by which keys."""
    words.add_argument("--db", metavar="WHERE", help="the database: sqlite:FILE, postgresql://.., mysql://..")
    words.add_argument("--csv", action="append", default=[], metavar="TABLE=LIST", help="a CSV list with a header line as a table; several lists of one table have a column source")
    words.add_argument("--key", action="append", default=[], metavar="TABLE=COLUMNS", help="a table's key: customer=id, orders=oid,line")
    words.add_argument("--keys", metavar="FILE", help="keys in a TOML file: behind [keys] lines as customer = \"id\"")
    words.add_argument("--null-key", choices=["refuse", "own", "drop"], default="refuse", help="rows with a NULL in their key (refuse)")
    words.add_argument("--strict-keys", action="store_true", help="refuse a query that reads a table without a key")
    words.add_argument("--timeout", type=float, metavar="SECONDS", help="what a statement may take")


def add_wishes(words: argparse.ArgumentParser) -> None:
    """The words that say what is wanted of a query, and how it is written."""
    kinds = words.add_mutually_exclusive_group()
    kinds.add_argument("--possible", action="store_true", help="all answers that hold for some choice of rows")
    kinds.add_argument("--disputed", action="store_true", help="the possible answers that aren't certain")
    kinds.add_argument("--against", metavar="ROW", help="rows to keep so that this row, written as in CSV, is no answer")
    kinds.add_argument("--clean-first", action="store_true", help="the keys in conflict on which most disputed answers hang")
    kinds.add_argument("--explain", action="store_true", help="what is taken as certain, used columns, conflicts, the class, and the SQL that is sent")
    kinds.add_argument("--conflicts", metavar="TABLE", help="the rows of a table's keys in conflict, without a query")
    words.add_argument("--format", choices=["csv", "table", "json"], help="how answers are written: table on a terminal, else csv")
    words.add_argument("-o", "--output", metavar="FILE", help="the answers' file, in place of standard output")
    words.add_argument("--param", action="append", default=[], metavar="NAME=VALUE", help="the value of a parameter :NAME of the query")
    words.add_argument("--show-sql", action="store_true", help="write the SQL that is sent to standard error")


def opened(told: argparse.Namespace) -> Database:
    """The database that the words of `add_place` say. Raises QueryRefused, DatabaseFault or LoadFault."""
    if bool(told.db) == bool(told.csv):
        raise QueryRefused("one of --db and --csv is wanted")
    keys = {**(read_keys(told.keys) if told.keys else {}), **told_keys(told.key)}
    if not keys:
        raise QueryRefused("no key is told: --key TABLE=COLUMN; with no key all is certain")
    where: Any = told.db if told.db else database_of_lists(told_lists(told.csv))
    return Database(where, keys, null_key=told.null_key, strict_keys=told.strict_keys, timeout=told.timeout)


def main(arguments: Sequence[str]) -> int:
    """The command `ask`."""
    words = parser()
    told = words_told(words, arguments)
    if bool(told.db) == bool(told.csv):
        words.error("one of --db and --csv is wanted")
    _check_query(words, told)
    heed_interrupts()
    with opened(told) as database:
        answer(database, told)
    return 0


def answer(database: Database, told: argparse.Namespace) -> None:
    """Answers what the words of `add_wishes` say of a query, and writes it."""
    query = "" if told.query is None else query_text(told.query)
    with written(told.output) if told.output else standard_output() as out:
        _write(database, query, _parameters(told.param, database.is_untyped), told, out)


def _check_query(words: argparse.ArgumentParser, told: argparse.Namespace) -> None:
    if (told.query is None) == (told.conflicts is None):
        words.error("a query is wanted, or --conflicts TABLE")


def query_text(word: str) -> str:
    """The SQL that a word says: itself, what a file has, or standard input."""
    if word == "-":
        return sys.stdin.read()
    if not re.search(r"\s", word.strip()):
        try:
            with open(word, encoding="utf-8") as file:
                return file.read()
        except OSError as fault:
            raise QueryRefused("%s: %s" % (word, (fault.strerror or str(fault)).lower())) from None
    return word


def _parameters(words: Sequence[str], is_untyped: bool) -> Dict[str, Any]:
    """The values of parameters. is_untyped: whether the database takes a text for a text even beside numbers."""
    found: Dict[str, Any] = {}
    for word in words:
        name, sign, value = word.partition("=")
        if not sign or not name.isidentifier():
            raise QueryRefused("--param wants NAME=VALUE, and not %s" % word)
        found[name] = int(value) if is_untyped and _NUMBER.fullmatch(value) else value
    return found


def _write(database: Database, query: str, params: Dict[str, Any], told: argparse.Namespace, out: BinaryIO) -> None:
    """Answers, and writes what is asked for."""
    if told.show_sql and query:
        print("\n".join(database.explain(query, **params).statements), file=sys.stderr)
    if told.explain:
        out.write((str(database.explain(query, **params)) + "\n").encode())
    elif told.against is not None:
        _write_against(database, query, params, told.against, out)
    elif told.clean_first:
        rows = [(one.table, ", ".join(map(shown, one.key)), one.answers) for one in database.clean_first(query, **params)]
        _write_rows(Answers(("table", "key", "answers"), iter(rows), ()), told.format, out)
    else:
        _write_rows(_asked(database, query, params, told), told.format, out)


def _asked(database: Database, query: str, params: Dict[str, Any], told: argparse.Namespace) -> Answers:
    if told.conflicts is not None:
        return database.conflicts(told.conflicts)
    ask = database.possible if told.possible else database.disputed if told.disputed else database.certain
    answers = ask(query, **params)
    if answers.certain_tables:
        print("cqa ask: taken as certain: %s" % ", ".join(answers.certain_tables), file=sys.stderr)
    return answers


def _write_against(database: Database, query: str, params: Dict[str, Any], text: str, out: BinaryIO) -> None:
    """Writes the rows to keep, a line each as TABLE and JSON."""
    kept = database.against(_row_of(database, query, params, next(csv.reader([text]), [])), query, **params)
    if kept is None:
        out.write(b"certain\n")
    for one in kept or ():
        values = {name: value if value is None or isinstance(value, (int, float, str)) else shown(value) for name, value in one.row.items()}
        out.write(("keep %s %s\n" % (one.table, json.dumps(values, ensure_ascii=False))).encode())
    if kept is not None and not kept:
        out.write(b"no answer, whatever is kept\n")


def _row_of(database: Database, query: str, params: Dict[str, Any], texts: List[str]) -> Sequence[Any]:
    """The answer that is shown by these texts; the texts themselves where none is."""
    with database.possible(query, **params) as answers:
        found = [row for row in answers if [shown(value) for value in row] == texts]
    if len(found) > 1:
        raise QueryRefused("%d answers look like %s" % (len(found), ",".join(texts)))
    return found[0] if found else texts


def _write_rows(answers: Answers, form: Optional[str], out: BinaryIO) -> None:
    """Writes answers in a form; on a terminal as a table, else as CSV, where none is told."""
    if form is None:
        form = "table" if out.isatty() else "csv"
    lines: Iterable[str] = answers.csv_lines() if form == "csv" else answers.json_lines() if form == "json" else _table_lines(answers)
    for line in lines:
        out.write(line.encode("utf-8", "surrogateescape"))


def _table_lines(answers: Answers) -> Iterator[str]:
    """The answers as a table of texts; the widths are those of the first thousand."""
    rows: List[List[str]] = []
    source = iter(answers)
    for row in source:
        rows.append([seen(shown(value)) for value in row])
        if len(rows) == 1000:
            break
    widths = [max([_width(name), *(_width(row[at]) for row in rows)]) for at, name in enumerate(answers.columns)]
    yield _table_line(answers.columns, widths)
    yield "  ".join("-" * width for width in widths) + "\n"
    count = len(rows)
    for texts in rows:
        yield _table_line(texts, widths)
    for row in source:
        count += 1
        yield _table_line([seen(shown(value)) for value in row], widths)
    yield "%d row%s\n" % (count, "" if count == 1 else "s")


def _table_line(texts: Sequence[str], widths: Sequence[int]) -> str:
    return "  ".join(text + " " * (width - _width(text)) for text, width in zip(texts, widths)).rstrip() + "\n"


def _width(text: str) -> int:
    return sum(2 if unicodedata.east_asian_width(letter) in "WF" else 1 for letter in text)
