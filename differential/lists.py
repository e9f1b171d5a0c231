#!/usr/bin/env python3
"""Random lists of one's own, loaded by the command and by the package, and asked by `csv`, `report` and the package: each cell beside a
brute force over the lists themselves, by Python's decimal and datetime.

    differential/lists.py [PROGRAM] [--seed S] [--count N] [--keep FOLDER]

A round makes a table of two or three lists and one of one or two, with decimals of other places and marks, dates, sources, missing
values, quotes, line feeds, leading zeros, keys that both lists have or only one, and columns of their own called `source`. What the
loaded tables hold, their conflicts, and questions are compared: ask, possible, disputed, unions, joins, ranges, each with tests. Where
columns with different places meet, or a date and what is none, all three have to refuse. A difference prints the round's seed, its
lists and its scripts, and ends with status 1. Python 3.9 and its library alone are needed.
"""

from __future__ import annotations

import argparse
import contextlib
import csv
import datetime
import io
import itertools
import os
import random
import re
import shutil
import sys
import tempfile
import warnings
from decimal import Decimal
from html.parser import HTMLParser

TOP = os.path.dirname(os.path.dirname(os.path.abspath(__file__)))
sys.path.insert(0, os.path.join(TOP, "python"))
sys.dont_write_bytecode = True

import cqa  # noqa: E402
from cqa import __main__ as commands  # noqa: E402

TEXTS = ["", "a", "B", "it's", 'say "hi"', "two\nlines", "a,b", "a;b", "\u00e6r\u00f8", " a", "a ", "0150", "7", "-3", "x\n\\.\ny", "(1, 2)", "--", "2024-03-01",
         "copy t;", "\u20ac", "NULL", "1.50", "'", "\t", "cqa: column t.amt has 3 places", "error 2 Syntax at 0"]
DATES = [datetime.date(2023, 11, 30), datetime.date(2024, 2, 29), datetime.date(2024, 3, 1), datetime.date(2025, 1, 15)]
OPERATORS = {"=": lambda a, b: a == b, "<>": lambda a, b: a != b, "<": lambda a, b: a < b, "<=": lambda a, b: a <= b,
             ">": lambda a, b: a > b, ">=": lambda a, b: a >= b}
MOST_REPAIRS = 600


class Difference(Exception):
    """What is told isn't what the lists say."""


class Column:
    """A column of lists. kind: "number" (an int, or a text where a list has another field), "decimal" with places, "date", "text"."""

    def __init__(self, name, kind, places=0):
        self.name, self.kind, self.places = name, kind, places

    def fields(self, rng):
        """A value as a list has it, without its form."""
        if self.kind == "decimal":
            return Decimal(rng.choice([0, 1, -1, 5, 9, 90, 900, 12, rng.randrange(-99999, 99999)])).scaleb(-rng.randrange(self.places + 1))
        if self.kind == "date":
            return rng.choice(DATES)
        if self.kind == "number":
            return rng.choice([0, 1, 5, 9, 900, -2, rng.randrange(1000)])
        return rng.choice(TEXTS)


class Table:
    """A table of lists. lists: by path, with their sources. rows: what they hold, each a dict."""

    def __init__(self, name, columns, key):
        self.name, self.columns, self.key = name, columns, key
        self.lists, self.rows, self.words, self.options = [], [], [], {}
        self.source = None

    def column(self, name):
        """A column by its name."""
        return next(column for column in self.columns if column.name == name)

    def names(self):
        """The names of the columns."""
        return [column.name for column in self.columns]

    def blocks(self):
        """The rows by keys."""
        found = {}
        for row in self.rows:
            block = found.setdefault(tuple(row[name] for name in self.key), [])
            if row not in block:
                block.append(row)
        return found


def written(rng, value, column, mark, zeros):
    """A value as a list writes it."""
    if isinstance(value, Decimal):
        text = format(value, "f")
        if rng.random() < 0.3 and len(text.partition(".")[2]) < column.places:
            text += "0" if "." in text else ".0"
        if rng.random() < 0.1 and not text.startswith("-"):
            text = "+" + text
        return text.replace(".", mark)
    if isinstance(value, int) and zeros and value >= 0:
        return "%06d" % value
    return str(value)


def random_table(rng, folder, name, most_lists):
    """A table with its lists, written into a folder."""
    key = [Column("id", rng.choice(["number", "number", "text"]))]
    if rng.random() < 0.25:
        key.append(Column("day", "date"))
    letter = name[0]
    own = [Column("amt_" + letter if rng.random() < 0.5 else "amt", "decimal", rng.randrange(0, 4)), Column("since", "date"),
           Column("note", "text"), Column("n", "number"), Column("pay_" + letter, "decimal", rng.choice([0, 2, 2, 3]))]
    if rng.random() < 0.3:
        own.append(Column("source", "text"))
    columns = key + rng.sample(own, rng.randrange(1, len(own) + 1))
    table = Table(name, columns, [column.name for column in key])
    count = rng.randrange(1, most_lists + 1)
    has_source = rng.random() < 0.6
    source_column = "source"
    if has_source and "source" in table.names() or rng.random() < 0.1:
        source_column = "kilde"
    missing = rng.choice(["refuse", "keep", "drop"])
    ids = rng.sample(range(0, 40), 4)
    for number in range(count):
        write_list(rng, folder, table, "%s%d" % (name, number), "s%d" % number if has_source else None, source_column, missing, ids)
    finish(table, has_source, source_column, missing)
    return table


def write_list(rng, folder, table, stem, source, source_column, missing, ids):
    """Writes a list, and adds its rows to the table."""
    path = os.path.join(folder, stem + ".csv")
    mark, delimiter, zeros = rng.choice([".", ",", "."]), rng.choice([",", ";", "\t"]), rng.random() < 0.15
    columns = rng.sample(table.columns, len(table.columns))
    mine = ids if rng.random() < 0.8 else rng.sample(range(40, 80), 4)
    lines = []
    for _ in range(rng.randrange(1, 6)):
        row = {column.name: column.fields(rng) for column in table.columns}
        first = table.columns[0]
        row["id"] = rng.choice(mine) if first.kind == "number" else "%03d" % rng.choice(mine)
        fields = {column.name: written(rng, row[column.name], column, mark, zeros and column.name == "id") for column in table.columns}
        for column in table.columns:
            if column.name not in table.key and column.kind in ("text", "number") and missing != "refuse" and rng.random() < 0.15:
                fields[column.name] = ""
        if missing == "refuse" and any(field == "" for field in fields.values()):
            continue
        lines.append([fields[column.name] for column in columns])
        if missing == "drop" and "" in fields.values():
            continue
        table.rows.append({**{name: (row[name], field) for name, field in fields.items()}, **({source_column: (source, source)} if source else {})})
    with open(path, "w", encoding="utf-8", newline="") as file:
        writer = csv.writer(file, delimiter=delimiter, lineterminator=rng.choice(["\n", "\r\n"]))
        writer.writerow([column.name.upper() if rng.random() < 0.3 else column.name for column in columns])
        writer.writerows(lines)
    table.lists.append((path, source, mark, delimiter))


def finish(table, has_source, source_column, missing):
    """Finds the kinds of columns as the lists have their fields, the values of the rows, and how the lists are loaded."""
    for column in table.columns:
        fields = [row[column.name][1] for row in table.rows]
        if column.kind == "number" and not all(re.fullmatch(r"0|-?[1-9][0-9]*", field) for field in fields):
            column.kind = "text"
        elif column.kind == "text" and fields and all(re.fullmatch(r"0|-?[1-9][0-9]*", field) for field in fields):
            column.kind = "number"
        elif column.kind == "text" and not fields:
            column.kind = "number"
    if has_source:
        table.columns = table.columns + [Column(source_column, "text")]
        table.source = source_column
    table.rows = [{column.name: value_of(row[column.name], column) for column in table.columns} for row in table.rows]
    decimals = [column for column in table.columns if column.kind == "decimal"]
    dates = [column.name for column in table.columns if column.kind == "date"]
    table.words = ["load", "--table", table.name, "--key", ",".join(table.key), "--missing", missing]
    for column in decimals:
        table.words += ["--decimal", "%s:%d" % (column.name, column.places)]
    for name in dates:
        table.words += ["--time", name]
    if source_column != "source":
        table.words += ["--source-column", source_column]
    for path, source, mark, delimiter in table.lists:
        name = source or path
        table.words += ["--source", "%s=%s" % (source, path)] if source else [path]
        table.words += ["--decimal-mark", "%s=%s" % (name, mark), "--delimiter", "%s=%s" % (name, delimiter)]
    table.options = dict(key=table.key, decimal={column.name: column.places for column in decimals}, time=dates, missing=missing,
                         source_column=source_column)


def value_of(pair, column):
    """The value of a field, by its column's kind."""
    value, field = pair
    if column.kind == "decimal":
        return value.quantize(Decimal(1).scaleb(-column.places))
    if column.kind == "date":
        return value
    return int(field) if column.kind == "number" else field


# -- questions ---------------------------------------------------------------------------------------------------------------


class Query:
    """A query over tables. columns: pairs of a table and a column. tests: on columns, with literals. joins: pairs of columns."""

    def __init__(self, tables, columns, tests, joins):
        self.tables, self.columns, self.tests, self.joins = tables, columns, tests, joins

    def text(self):
        """The query as it is asked."""
        named = [self.name(*column) for column in self.columns]
        conditions = ["%s %s %s" % (self.name(table, column), operator, shown) for table, column, operator, _, shown in self.tests]
        conditions += ["%s = %s" % (self.name(*one), self.name(*other)) for one, other in self.joins]
        head = "select %s" % ", ".join(named) if named else "exists"
        where = " where " + " and ".join(conditions) if conditions else ""
        return "%s from %s%s" % (head, ", ".join(table.name for table in self.tables), where)

    def name(self, table, column):
        """A column's name, with its table where both have it."""
        is_shared = sum(column.name in other.names() for other in self.tables) > 1
        return "%s.%s" % (table.name, column.name) if is_shared else column.name

    def answers(self, repair):
        """The answers over one row of each block."""
        found = set()
        for rows in itertools.product(*(repair[table.name] for table in self.tables)):
            of = dict(zip((table.name for table in self.tables), rows))
            if all(OPERATORS[operator](key_of(of[table.name][column.name]), key_of(value)) for table, column, operator, value, _ in self.tests) and \
                    all(of[one[0].name][one[1].name] == of[other[0].name][other[1].name] for one, other in self.joins):
                found.add(tuple(of[table.name][column.name] for table, column in self.columns))
        return found

    def faults(self):
        """Whether columns meet that have no common meaning."""
        return any(places(one[1]) != places(other[1]) for one, other in self.joins) or any(value is None for *_, value, _ in self.tests)


def key_of(value):
    """A value by which it is compared: texts by their bytes."""
    return value.encode("utf-8") if isinstance(value, str) else value


def places(column):
    """The places of a column of numbers."""
    return column.places if column.kind == "decimal" else 0


def is_number(column):
    """Whether the values of a column are stored as ints."""
    return column.kind in ("decimal", "number")


def is_text(column):
    """Whether the values of a column are any texts."""
    return column.kind == "text"


def random_test(rng, table):
    """A test of a column with a literal: its value, or None where it is no date, and how it is written."""
    column = rng.choice(table.columns)
    operator = rng.choice(list(OPERATORS))
    value = rng.choice(table.rows)[column.name] if table.rows and rng.random() < 0.8 else Column("", column.kind, column.places).fields(rng)
    if column.kind == "decimal":
        value = value.quantize(Decimal(1).scaleb(-column.places))
        shown = format(value, "f")
        return table, column, operator, value, shown if "." in shown else shown + ".0" if column.places else shown
    if column.kind == "date":
        if table.rows and rng.random() < 0.04:  # a table without rows has no form of times
            return table, column, operator, None, rng.choice(["'1.3.2024'", "'2024-02-30'", "'today'", "'2024-03-01T00:00Z'", "'2024'" if operator in ("=", ">") else "''"])
        if operator in (">=", "<") and rng.random() < 0.2:
            return table, column, operator, datetime.date(2024, 1, 1), "'2024'"
        return table, column, operator, value, "'%s'" % value.isoformat()
    if column.kind == "number":
        return table, column, operator, value, str(value)
    return table, column, operator, value, "'%s'" % value.replace("'", "''")


def random_query(rng, tables):
    """A query over one table or two."""
    chosen = rng.sample(tables, rng.choice([1, 1, len(tables)]))
    pairs = [(table, column) for table in chosen for column in table.columns]
    columns = [] if rng.random() < 0.1 else rng.sample(pairs, min(len(pairs), rng.randrange(1, 4)))
    tests = [random_test(rng, rng.choice(chosen)) for _ in range(rng.choice([0, 1, 1, 2]))]
    joins = []
    if len(chosen) == 2:
        for one in rng.sample([(chosen[0], column) for column in chosen[0].columns], len(chosen[0].columns)):
            fitting = [(chosen[1], column) for column in chosen[1].columns
                       if is_number(column) == is_number(one[1]) and (column.kind == "date") == (one[1].kind == "date")]
            same = [pair for pair in fitting if places(pair[1]) == places(one[1])]
            fitting = same if same and rng.random() < 0.9 else fitting
            if fitting:
                joins.append((one, rng.choice(fitting)))
                break
    return Query(chosen, columns, tests, joins)


def random_union(rng, tables):
    """Two queries whose answers have the same kinds."""
    first = random_query(rng, tables)
    for _ in range(30):
        second = random_query(rng, tables)
        if len(second.columns) == len(first.columns) and all(is_number(one[1]) == is_number(other[1]) and (one[1].kind == "date") == (other[1].kind == "date")
                                                              for one, other in zip(first.columns, second.columns)):
            return [first, second]
    return [first]


def meets_badly(parts):
    """Whether the parts of a union have columns that have no common meaning."""
    return any(part.faults() for part in parts) or any(places(one[1]) != places(other[1]) for part in parts[1:] for one, other in zip(parts[0].columns, part.columns))


def repairs(tables):
    """All choices of one row of each key, or None where there are too many."""
    blocks = [(table.name, block) for table in tables for block in table.blocks().values()]
    number = 1
    for _, block in blocks:
        number *= len(block)
        if number > MOST_REPAIRS:
            return None
    found = []
    for rows in itertools.product(*(block for _, block in blocks)):
        repair = {table.name: [] for table in tables}
        for (name, _), row in zip(blocks, rows):
            repair[name].append(row)
        found.append(repair)
    return found


def ascending(rows):
    """Rows in their order."""
    return sorted(rows, key=lambda row: tuple(map(key_of, row)))


def cell(value):
    """A value as CSV and the page show it."""
    return format(value, "f") if isinstance(value, Decimal) else value.isoformat() if isinstance(value, datetime.date) else str(value)


def cells(rows):
    """Rows as CSV and the page show them."""
    return [[cell(value) for value in row] for row in rows]


def typed(value):
    """A value as the package gives it, with its type."""
    if isinstance(value, datetime.date):
        return "str", value.isoformat()
    return type(value).__name__, str(value)


# -- what is told ------------------------------------------------------------------------------------------------------------


class Folder:
    """The files of a round, and what its commands tell."""

    def __init__(self, path):
        self.path = path
        self.told = ""

    def file(self, name, text):
        """Makes a file."""
        with open(os.path.join(self.path, name), "w", encoding="utf-8", newline="") as file:
            file.write(text)
        return os.path.join(self.path, name)

    def command(self, *words):
        """Runs a command that writes a file by -o: its status, and what it wrote."""
        out = os.path.join(self.path, "out")
        if os.path.exists(out):
            os.unlink(out)
        errors = io.StringIO()
        with contextlib.redirect_stderr(errors), contextlib.redirect_stdout(io.StringIO()):
            status = commands.main([*words, "-o", out])
        self.told = errors.getvalue()
        if not os.path.exists(out):
            return status, None
        with open(out, encoding="utf-8", newline="") as file:
            return status, file.read()


class Page(HTMLParser):
    """The tables of a page, each with the heading before it and its cells; marks for what nobody sees are taken as they are."""

    def __init__(self, text):
        super().__init__(convert_charrefs=True)
        self.tables, self._heading, self._cell, self._is_empty, self._is_heading = [], "", None, False, False
        self.feed(text)

    def handle_starttag(self, tag, attributes):
        if tag in ("h2", "h3"):
            self._heading, self._cell = "", None
        elif tag == "table":
            self.tables.append((self._heading, []))
        elif tag == "tr":
            self.tables[-1][1].append([])
        elif tag == "td":
            self._cell = ""
        elif tag == "bdi" and ("class", "quiet") in attributes:
            self._is_empty = True
        self._is_heading = self._is_heading or tag in ("h2", "h3")

    def handle_endtag(self, tag):
        if tag == "td":
            self.tables[-1][1][-1].append(self._cell)
            self._cell = None
        elif tag == "bdi":
            self._is_empty = False
        elif tag in ("h2", "h3"):
            self._is_heading = False

    def handle_data(self, data):
        if self._cell is not None:
            self._cell += "" if self._is_empty else data
        elif self._is_heading:
            self._heading += data

    def rows(self, heading):
        """The rows behind a heading that begins so: those that are seen at first, and more."""
        return [row for name, rows in self.tables if name.strip().startswith(heading) for row in rows if row]


def compare(what, expected, told):
    """Raises Difference where two aren't the same."""
    if expected != told:
        raise Difference("%s:\n-- the lists say:\n%r\n-- told:\n%r" % (what, expected, told))


def csv_rows(text):
    """The records of CSV."""
    return list(csv.reader(io.StringIO(text, newline="")))


def check_conflicts(folder, table, script, db):
    """The conflicts of a table, by the command and by the package."""
    expected = []
    disputed = 0
    for key, block in sorted(table.blocks().items(), key=lambda item: tuple(map(key_of, item[0]))):
        differing = [name for name in table.names() if name not in table.key and name != table.source and len({row[name] for row in block}) > 1]
        disputed += bool(differing)
        for name in differing:
            values = {}
            for row in block:
                values.setdefault(row[name], set()).add(row[table.source] if table.source else "")
            expected += [[*map(cell, key), name, cell(value), ", ".join(sorted(filter(None, sources), key=key_of))] for value, sources in values.items()]
    status, text = folder.command("conflicts", "--csv", script, table.name)
    compare("status of conflicts", 0, status)
    told = [[*row[:-1], ", ".join(sorted(row[-1].split(", "), key=key_of))] for row in csv_rows(text)[1:]]
    compare("conflicts of %s" % table.name, sorted(expected), sorted(told))
    status, text = folder.command("conflicts", script, table.name)
    head = "%s: %d key%s, %d in conflict" % (table.name, len(table.blocks()), "" if len(table.blocks()) == 1 else "s", disputed)
    compare("the line of conflicts", head, text[:len(head)])
    compare("conflicts of the package", disputed, len(db.conflicts(table.name)))


def check_question(folder, scripts, db, parts, choices):
    """A question: by csv, by the page and by the package."""
    text = " union ".join(part.text() for part in parts)
    if meets_badly(parts):
        must_refuse(folder, scripts, db, text)
        return
    of_each = [set().union(*({as_first(row, parts[0]) for row in part.answers(repair)} for part in parts)) for repair in choices]
    possible = set().union(*of_each)
    certain = set.intersection(*of_each)
    rows = {"ask": ascending(certain), "possible": ascending(possible)}
    if len(parts) == 1:
        rows["disputed"] = ascending(possible - certain)
    names = [part.name(*column) for part in parts[:1] for column in part.columns]
    for verb, expected in rows.items():
        status, told = folder.command("csv", *scripts, folder.file("q.cqa", "%s %s;\n" % (verb, text)))
        compare("status of %s %s: %s" % (verb, text, folder.told), 0, status)
        compare("csv of %s %s" % (verb, text), [names, *cells(expected)] if names else [["exists"], *[["1"]] * len(expected)], csv_rows(told))
        answer = {"ask": db.certain, "possible": db.possible, "disputed": db.disputed}[verb](text)
        compare("the package's %s %s" % (verb, text), [tuple(map(typed, row)) for row in expected], [tuple(map(typed, row)) for row in answer])
    status, told = folder.command("report", *scripts, folder.file("q.cqa", "ask %s;\n" % text))
    compare("status of report", 0, status)
    page = Page(told)
    if names:
        for heading, expected in (("Certain rows", rows["ask"]), ("Disputed rows", ascending(possible - certain))):
            compare("%s of the page of %s" % (heading, text), [[shown(value) for value in row] for row in cells(expected)], page.rows(heading))


def shown(text):
    """A text as the page shows it."""
    return cqa.conflicts.seen(text)


def as_first(row, part):
    """A row of a union as its first part shows it: numbers without places are those of a column with none."""
    return tuple(Decimal(value) if column.kind == "decimal" else int(value) if column.kind == "number" else value
                 for value, (_, column) in zip(row, part.columns))


def must_refuse(folder, scripts, db, text):
    """What has no right meaning is refused by csv, by the page and by the package, and nothing is written."""
    path = folder.file("q.cqa", "ask %s;\n" % text)
    for command in ("csv", "report"):
        compare("%s of what has no meaning: %s" % (command, text), (1, None), folder.command(command, *scripts, path))
    try:
        told = db.certain(text)
    except cqa.ScaleFault:
        return
    raise Difference("the package answers what has no meaning: %s: %r" % (text, told))


def check_range(folder, rng, scripts, db, table, choices):
    """A range over one table: by csv and by the package."""
    tests = [test for test in [random_test(rng, table) for _ in range(rng.choice([0, 1]))] if test[3] is not None]
    query = Query([table], [], tests, [])
    numbers = [column for column in table.columns if is_number(column)]
    word = rng.choice(["count", "sum", "min", "max"])
    of = numbers if word == "sum" else [column for column in table.columns if column.kind != "text"]
    if word != "count" and not of:
        return
    column = rng.choice(of) if word != "count" else None
    group = rng.choice(table.columns) if rng.random() < 0.4 else None
    text = "%s%s %s%s" % (word, " " + column.name if column else "", query.text().partition("exists ")[2], " group by " + group.name if group else "")
    ends = {}
    whole = set()
    for repair in choices:
        rows = [row for row in repair[table.name] if Query([table], [], tests, []).answers({table.name: [row]})]
        whole.update(row[group.name] if group else None for row in rows)
    for value in whole or ({None} if not group else ()):
        found = [aggregate(word, column, [row for row in repair[table.name]
                                          if query.answers({table.name: [row]}) and (not group or row[group.name] == value)]) for repair in choices]
        ends[value] = least(found), greatest(found)
    if not group:
        found = [aggregate(word, column, [row for row in repair[table.name] if query.answers({table.name: [row]})]) for repair in choices]
        ends = {None: (least(found), greatest(found))}
    shown_ends = {value: ["" if end is None else cell(end) for end in pair] for value, pair in ends.items()}
    status, told = folder.command("csv", *scripts, folder.file("q.cqa", "range %s;\n" % text))
    compare("status of range %s: %s" % (text, folder.told), 0, status)
    if group:
        expected = [[cell(value), *shown_ends[value]] for value in sorted(ends, key=key_of)]
        compare("csv of range %s" % text, [[group.name, "least", "greatest"], *expected], csv_rows(told))
        compare("ranges %s" % text, expected, [[cell(one.value), *("" if end is None else cell(end) for end in (one.least, one.greatest))] for one in db.ranges(text)])
    else:
        compare("csv of range %s" % text, [["least", "greatest"], shown_ends[None]], csv_rows(told))
        one = db.range(text)
        compare("range %s" % text, shown_ends[None], ["" if end is None else cell(end) for end in (one.least, one.greatest)])


def aggregate(word, column, rows):
    """The value of an aggregate over rows."""
    if word == "count":
        return len(rows)
    values = [row[column.name] for row in rows]
    if word == "sum":
        return sum(values, Decimal(0).quantize(Decimal(1).scaleb(-column.places)) if column.kind == "decimal" else 0)
    return None if not values else min(values) if word == "min" else max(values)


def least(values):
    """The least of ends, where None is below all."""
    return None if None in values else min(values)


def greatest(values):
    """The greatest of ends."""
    known = [value for value in values if value is not None]
    return max(known) if known else None


def check_rows(table, db):
    """What the package's table holds."""
    expected = {tuple(typed(row[name]) for name in table.names()) for row in table.rows}
    told = db.rows(table.name)
    order = [told.columns.index(name) for name in table.names()]
    compare("the rows of %s" % table.name, sorted(expected), sorted(tuple(typed(row[at]) for at in order) for row in told))


def round_of(seed, folder):
    """One round: lists, loaded twice, and what is asked of them."""
    rng = random.Random(seed)
    tables = [random_table(rng, folder.path, "t", 3), random_table(rng, folder.path, "u", 2)]
    scripts = []
    with cqa.Session() as db:
        for table in tables:
            status, text = folder.command(*table.words)
            compare("status of %s: %s" % (table.words, folder.told), 0, status)
            scripts.append(folder.file(table.name + ".cqa", text))
            db.run(text)
        if rng.random() < 0.5:
            path = os.path.join(folder.path, "state.cqa")
            db.save(path)
            scripts = [path]
        check_rows(tables[0], db)
        check_rows(tables[1], db)
        for table in tables:
            check_conflicts(folder, table, scripts[0] if len(scripts) == 1 else scripts[tables.index(table)], db)
        choices = repairs(tables)
        if choices is None:
            return
        for _ in range(3):
            parts = random_union(rng, tables) if rng.random() < 0.4 else [random_query(rng, tables)]
            check_question(folder, scripts, db, parts, choices)
        check_range(folder, rng, scripts, db, rng.choice(tables), choices)
    by_package(tables)


def by_package(tables):
    """The tables, loaded by the package: list by list where they have one form."""
    with cqa.Session() as db:
        for table in tables:
            forms = {(mark, delimiter) for _, _, mark, delimiter in table.lists}
            if len(forms) == 1:
                mark, delimiter = next(iter(forms))
                paths = {source: path for path, source, *_ in table.lists}
                if table.source:
                    db.load(table.name, paths, decimal_mark=mark, delimiter=delimiter, **table.options)
                elif len(table.lists) == 1:
                    db.load(table.name, table.lists[0][0], decimal_mark=mark, delimiter=delimiter, **table.options)
                else:
                    continue
            elif table.source:
                for path, source, mark, delimiter in table.lists:
                    db.load(table.name, path, source=source, decimal_mark=mark, delimiter=delimiter, **table.options)
            else:
                continue
            check_rows(table, db)
            compare("sources of %s" % table.name, len([1 for block in table.blocks().values()
                                                       if any(len({row[name] for row in block}) > 1 for name in table.names() if name not in table.key and name != table.source)]),
                    len(db.conflicts(table.name)))


def main():
    words = argparse.ArgumentParser(description=__doc__.split("\n")[0])
    words.add_argument("program", nargs="?", default=os.environ.get("CQA_PROGRAM") or os.path.join(TOP, "crates", "cqa_cli", "out", "cqa_cli"))
    words.add_argument("--seed", type=int, default=1)
    words.add_argument("--count", type=int, default=100)
    words.add_argument("--keep", help="the folder of a round that differs, else a new one")
    told = words.parse_args()
    os.environ["CQA_PROGRAM"] = told.program
    warnings.simplefilter("ignore")
    for seed in range(told.seed, told.seed + told.count):
        path = tempfile.mkdtemp()
        try:
            round_of(seed, Folder(path))
        except (Difference, cqa.CqaError, ValueError) as fault:
            kept = told.keep or path
            if told.keep:
                shutil.copytree(path, told.keep, dirs_exist_ok=True)
            print("seed %d, in %s: %s: %s" % (seed, kept, type(fault).__name__, fault))
            return 1
        shutil.rmtree(path)
    print("%d rounds agree" % told.count)
    return 0


if __name__ == "__main__":
    sys.exit(main())
