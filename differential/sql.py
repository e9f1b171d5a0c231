#!/usr/bin/env python3
"""Random queries, answered by the program and, by the SQL that `sql` prints for them, on other engines, and compared row by row.

    differential/sql.py [PROGRAM] [--seed S] [--count N] [--psql COMMAND] [--mariadb]

Each script has some tables, whose rows stand once or twice on the other engine, and queries and unions of queries: the rows of
the printed SQL have to be those of `ask`, `sql` has to print `no plan` where `plan` does, and the same without any row in the
tables. SQLite has to be there. A union has SQL exactly where all of its parts have plans and no table that isn't strict stands in two. With
`--psql 'psql -d DATABASE'`, or another command that reads as psql does, PostgreSQL answers them too; nothing is left there.
With `--mariadb` a MariaDB server answers them as well, which the script starts in a temporary folder, over a socket alone,
and ends; where MariaDB isn't installed, it says so and compares nothing. At the end stands how often each kind of query
came. A difference prints the script and ends with status 1. Python 3.9 and its library alone are needed.
"""

import argparse
import collections
import os
import random
import re
import shlex
import shutil
import signal
import subprocess
import sys
import tempfile
import time
from itertools import compress

try:
    import sqlite3
except ImportError:
    sqlite3 = None

from model import OPS, Query, Table, Union, literal, order, row_text

TOP = os.path.dirname(os.path.dirname(os.path.abspath(__file__)))
PROGRAM = os.path.join(TOP, "crates", "cqa_cli", "out", "cqa_cli")
LEAST, GREATEST = -2 ** 63, 2 ** 63 - 1
TEXTS = ["", "a", "b", "o'b", 'say "b"', "\\", "\\n", "two\nlines", "é", "€", "\U0001f600", "zz", "--", ";"]
WORDS = ["select", "order", "user", "table", "group", "from", "where", "key", "as", "with", "not", "values", "except", "one",
         "certain", "h1", "y", "s", "v0", "rows", "limit", "check", "end", "union"]


class Differs(Exception):
    pass


def counted(features, name, holds=True):
    if holds:
        features[name] += 1


# Scripts.

class Maker:
    """Makes the tables and the queries of a script."""

    def __init__(self, seed):
        self.random, self.names = random.Random(seed), set()

    def name(self):
        """A name that differs from the others in its letters, large or small, and in its first 63 bytes."""
        pick = self.random
        while True:
            word = pick.choice([pick.choice(WORDS), "%s_%d" % (pick.choice("abc"), pick.randint(0, 99)), "X%d" % pick.randint(0, 99)])
            if pick.random() < 0.05:
                word = (word + "_" * 63)[:61] + "%03d" % pick.randint(0, 99)
            if word[:63].lower() not in self.names:
                self.names.add(word[:63].lower())
                return word

    def value(self, kind):
        pick = self.random
        if kind == "int":
            return pick.choice([LEAST, GREATEST, -1]) if pick.random() < 0.1 else pick.randint(0, 3)
        return pick.choice(TEXTS) if pick.random() < 0.3 else pick.choice(["a", "b"])

    def table(self, most_columns):
        pick, outside = self.random, self.names
        name = self.name()
        self.names = set()
        columns = [(self.name(), pick.choice(["int", "int", "int", "text"])) for _ in range(pick.choice([1] + 4 * list(range(2, most_columns + 1))))]
        self.names = outside
        key = pick.sample(range(len(columns)), len(columns) if pick.random() < 0.15 else pick.randint(1, min(2, len(columns))))
        table = Table(name, columns, key, pick.random() < 0.15)
        rows = [tuple(self.value(kind) for _, kind in columns) for _ in range(pick.choice([0, 2, 4, 8, 12]))]
        for row in rows:
            if not (table.strict and table.clash([row])):
                table.rows.add(row)
        return table

    def tables(self, number, most_columns):
        return [self.table(most_columns) for _ in range(number)]

    def joins(self, tables, columns, number):
        """Equalities of columns of one kind, mostly from a table to an earlier one's, so that most queries hang together."""
        pick, joins = self.random, []

        def kind(column):
            return tables[column[0]].columns[column[1]][1]

        for step in range(number):
            at = step + 1 if step + 1 < len(tables) else None
            left = pick.choice([column for column in columns if at is None or column[0] == at])
            same = [column for column in columns if kind(column) == kind(left) and column != left]
            before = [column for column in same if column[0] < left[0]]
            keys = [column for column in before if column[1] in tables[column[0]].key or left[1] in tables[left[0]].key]
            if same and pick.random() < 0.9:
                joins.append((left, pick.choice((keys if pick.random() < 0.6 else before) or before or same)))
        return joins

    def far_joins(self, tables):
        """Equalities of the key columns of each table with columns of earlier ones, the first mostly of the one before: what
        a table asks for then often stands in several tables above it."""
        pick, joins = self.random, []
        for atom, table in enumerate(tables):
            for number, place in enumerate(table.key):
                same = [(left, at) for left in range(atom) for at, column in enumerate(tables[left].columns) if column[1] == table.columns[place][1]]
                near = [column for column in same if column[0] == atom - 1]
                if same and pick.random() < 0.9:
                    joins.append(((atom, place), pick.choice((near if number == 0 else same) or same)))
        return joins

    def query(self, tables, most_atoms):
        pick = self.random
        tables = pick.sample(tables, min(most_atoms, max(pick.randint(1, len(tables)), pick.randint(1, len(tables)))))
        columns = [(atom, place) for atom, table in enumerate(tables) for place in range(len(table.columns))]
        if pick.random() < 0.3:
            joins = self.far_joins(tables)
        else:
            joins = self.joins(tables, columns, max(0, len(tables) - 1 + pick.choice([-1, 0, 0, 0, 0, 1])))
        tests = []
        for _ in range(pick.choice([0, 0, 1, 1, 2, 3])):
            atom, place = pick.choice(columns)
            tests.append(((atom, place), pick.choice(["=", "=", "<>", "<", "<=", ">", ">="]), self.value(tables[atom].columns[place][1])))
        answer = [pick.choice(columns) for _ in range(pick.choice([0, 0, 1, 1, 2, 3, 5]))]
        return Query(tables, answer, joins, tests)


    def union(self, tables):
        """Two parts or more with answers of the same kinds, mostly over tables of their own, or over some strict ones besides."""
        pick, left, parts = self.random, tables[:], []
        for _ in range(pick.choice([2, 2, 2, 3, 4])):
            part = self.query(left or tables, 3)
            left = [table for table in left if table not in part.tables or table.strict]
            parts.append(part)
            if pick.random() < 0.1:
                left = tables[:]
        wanted = [kind_of(parts[0], column) for column in parts[0].answer]
        for number, part in enumerate(parts[1:], 1):
            columns = [(atom, place) for atom, table in enumerate(part.tables) for place in range(len(table.columns))]
            fits = [[column for column in columns if kind_of(part, column) == kind] for kind in wanted]
            if not all(fits):
                return None
            parts[number] = Query(part.tables, [pick.choice(of) for of in fits], part.joins, part.tests)
        return Union(tables, parts)


def kind_of(query, column):
    return query.tables[column[0]].columns[column[1]][1]


def kinds(query, printed, rows, features):
    """Counts what kinds of query this is."""
    variables, tables, plan = query.variables_of_columns(), query.tables, query.plan()
    own = [{variables[atom, place] for place in range(len(table.columns))} for atom, table in enumerate(tables)]
    counted(features, "%d tables" % len(tables))
    counted(features, "no answer columns", not query.answer)
    counted(features, "an answer column twice", len(set(query.answer)) < len(query.answer))
    counted(features, "several answer columns of one variable", len({variables[column] for column in query.answer}) < len(set(query.answer)))
    counted(features, "an answer column of a later table", any(variables[column] not in own[plan[0]] for column in query.answer))
    counted(features, "an answer column of a key", any(place in tables[atom].key for atom, place in query.answer))
    counted(features, "an answer column off the keys", any(place not in tables[atom].key for atom, place in query.answer))
    counted(features, "a join within a table", any(left[0] == right[0] for left, right in query.joins))
    counted(features, "a join off both keys", any(left[0] != right[0] and left[1] not in tables[left[0]].key
                                                  and right[1] not in tables[right[0]].key for left, right in query.joins))
    counted(features, "a product", len(query.joins) < len(tables) - 1)
    for op in OPS:
        for kind in (int, str):
            counted(features, "%s with a %s" % (op, "text" if kind is str else "number"),
                    any(test[1] == op and isinstance(test[2], kind) for test in query.tests))
    for value, name in ((LEAST, "the least number"), (GREATEST, "the greatest number"), ("o'b", "a text with a quote"),
                        ('say "b"', "a text with a double quote"), ("\\n", "a text with a backslash"),
                        ("two\nlines", "a text with a line feed"), ("€", "a text beyond ASCII")):
        counted(features, name + " in a condition", any(test[2] == value for test in query.tests))
        counted(features, name + " in an answer", any(value in row for row in rows))
    counted(features, "a reserved word as a name", any(name in WORDS for table in tables for name in [table.name] + [column[0] for column in table.columns]))
    counted(features, "a name of 64 bytes", any(len(name) == 64 for table in tables for name in [table.name] + [column[0] for column in table.columns]))
    counted(features, "a table of all keys", any(len(table.key) == len(table.columns) for table in tables))
    counted(features, "a strict table", any(table.strict for table in tables))
    counted(features, "an empty table", any(not table.rows for table in tables))
    counted(features, "a table with a conflict", any(len(block) > 1 for table in tables for block in table.blocks()))
    counted(features, "a certain row", bool(rows))
    counted(features, "no certain row", not rows)
    steps = printed.split(' AS (\n')[1:]
    counted(features, "keys that an atom with few rows asks for", '"asked ' in printed)
    blocks, holds = (dict(re.findall(r'"%s (\d+)" AS \(\n  SELECT .*? FROM ("[^"]*" AS y(?: CROSS JOIN)?)' % kind, printed)) for kind in ("blocks", "holds"))
    counted(features, "keys of few blocks", any(blocks[number].split('" AS y')[0] == holds[number].split('" AS y')[0] for number in blocks))
    counted(features, "rows of few blocks that groups share", re.search(r'COUNT\(\*\) AS n FROM [^\n]* IN \(SELECT s\.v\d+ FROM "blocks ', printed))
    counted(features, "contexts of a table before", any(blocks[number].split('" AS y')[0] != holds[number].split('" AS y')[0] for number in blocks))
    counted(features, "contexts of two tables before", '"rows ' in printed)
    counted(features, "rows that groups share", "COUNT(*)" in printed)
    counted(features, "several parts at the top", " CROSS JOIN " in steps[-1].rpartition("\nSELECT ")[2])
    counted(features, "a step with several parts", any(step.count(" LEFT JOIN ") > 1 for step in steps))
    counted(features, "a strict table without a group", any(' CROSS JOIN "holds ' in step and "COUNT(*)" not in step for step in steps[:-1]))
    counted(features, "a column off the key that a group shows", " = MAX(" in printed)
    counted(features, "a step without columns", "SELECT 1 AS one" in printed or "SELECT DISTINCT 1 AS one" in printed)
    counted(features, "groups that could have one row", any(step.startswith("  SELECT DISTINCT") and " GROUP BY " in step for step in steps))
    counted(features, "a step that groups without conditions", any(" GROUP BY " in step and " HAVING " not in step for step in steps))


# Engines. Each answers the queries that the program printed, over the same tables.

def identifier(name):
    return '"%s"' % name


def twice(rows, pick):
    """The rows in any order, some of them twice."""
    rows = sorted(rows, key=order)
    rows += [row for row in rows if pick.random() < 0.3]
    pick.shuffle(rows)
    return rows


class Engine:
    def takes(self, query):
        """Whether the engine can be asked this."""
        return True

    def stop(self):
        """Ends what was started for it."""


class Sqlite(Engine):
    def __init__(self):
        self.name = "SQLite " + sqlite3.sqlite_version

    def answers(self, tables, printed, answer_kinds, pick):
        base = sqlite3.connect(":memory:")
        for table in tables:
            base.execute("create table %s (%s)" % (identifier(table.name), ", ".join(
                "%s %s not null" % (identifier(name), "bigint" if kind == "int" else "text") for name, kind in table.columns)))
            base.executemany("insert into %s values (%s)" % (identifier(table.name), ", ".join("?" * len(table.columns))), twice(table.rows, pick))
        found = [base.execute(text).fetchall() for text in printed]
        base.close()
        return found


class Postgres(Engine):
    """PostgreSQL by its shell. All is undone at the end."""
    END = "-- the end of an answer"

    def __init__(self, command):
        self.command = shlex.split(command) + ["-X", "-q", "-v", "ON_ERROR_STOP=1"]
        self.name = self.run("select version();\n\\t\n").split("\n")[2].split(" (")[0].strip()

    def run(self, script):
        ran = subprocess.run(self.command, input=script.encode(), stdout=subprocess.PIPE, stderr=subprocess.PIPE, check=False)
        if ran.returncode:
            raise Differs(ran.stderr.decode())
        return ran.stdout.decode()

    def answers(self, tables, printed, answer_kinds, pick):
        script = ["set client_min_messages = warning;", "set jit = off;", "begin;", "create schema cqa_differential;",
                  "set local search_path = cqa_differential;"]
        for table in tables:
            script.append("create table %s (%s);" % (identifier(table.name), ", ".join(
                "%s %s not null" % (identifier(name), "bigint" if kind == "int" else 'text collate "C"') for name, kind in table.columns)))
            script.append("copy %s from stdin;" % identifier(table.name))
            script += ["\t".join(map(self.escaped, row)) for row in twice(table.rows, pick)] + ["\\."]
        for text in printed:
            script += ["copy (%s) to stdout;" % text.rstrip()[:-1], "\\echo '%s'" % self.END]
        answers = self.run("\n".join(script) + "\nrollback;\n").split(self.END + "\n")
        return [[tuple(int(field) if kind == "int" else self.plain(field) for field, kind in zip(line.split("\t"), kinds))
                 for line in answer.split("\n")[:-1]] for answer, kinds in zip(answers, answer_kinds)]

    @staticmethod
    def escaped(value):
        return str(value).replace("\\", "\\\\").replace("\n", "\\n").replace("\t", "\\t")

    @staticmethod
    def plain(field):
        parts = field.split("\\\\")
        return "\\".join(part.replace("\\n", "\n").replace("\\t", "\t") for part in parts)


class Mariadb(Engine):
    """A server of MariaDB over a socket in a temporary folder. It can't give a union whose part has two columns of one name."""
    END = "-- the end of an answer"
    TOOLS = ["mariadb", "mariadbd", "mariadb-install-db"]
    SET = ("set names utf8mb4; set sql_mode = 'ANSI_QUOTES,NO_BACKSLASH_ESCAPES,STRICT_ALL_TABLES'; "
           "set optimizer_switch = 'split_materialized=off'; set optimizer_search_depth = 0;")

    @classmethod
    def is_there(cls):
        return all(map(cls.tool, cls.TOOLS))

    @staticmethod
    def tool(name):
        return shutil.which(name) or shutil.which(name, path="/usr/sbin:/sbin")

    def __init__(self):
        self.server, self.folder = None, tempfile.mkdtemp(prefix="cqa-")
        try:
            self.start()
            self.name = "MariaDB " + self.run("select version();").split("-")[0]
        except BaseException:
            self.stop()
            raise

    def start(self):
        data, user = os.path.join(self.folder, "data"), ["--user=mysql"] if os.geteuid() == 0 else []
        if user:
            shutil.chown(self.folder, "mysql")
        made = subprocess.run([self.tool("mariadb-install-db"), "--no-defaults", "--datadir=" + data, "--auth-root-authentication-method=normal",
                               "--skip-test-db"] + user, stdout=subprocess.PIPE, stderr=subprocess.STDOUT, check=False)
        if made.returncode:
            raise Differs(made.stdout.decode())
        self.server = subprocess.Popen([self.tool("mariadbd"), "--no-defaults", "--datadir=" + data, "--socket=" + self.path("socket"), "--skip-networking",
                                        "--pid-file=" + self.path("pid"), "--innodb-flush-log-at-trx-commit=0"] + user,
                                       stdout=subprocess.DEVNULL, stderr=subprocess.DEVNULL)
        end = time.monotonic() + 60
        while not os.path.exists(self.path("socket")):
            if self.server.poll() is not None or time.monotonic() > end:
                raise Differs("MariaDB couldn't be started")
            time.sleep(0.1)

    def path(self, name):
        return os.path.join(self.folder, name)

    def stop(self):
        if self.server:
            self.server.terminate()
            self.server.wait()
        shutil.rmtree(self.folder, ignore_errors=True)

    def run(self, script):
        ran = subprocess.run([self.tool("mariadb"), "--no-defaults", "--socket=" + self.path("socket"), "--user=root", "--batch", "--skip-column-names",
                              "--default-character-set=utf8mb4"], input=(self.SET + "\n" + script).encode(), stdout=subprocess.PIPE, stderr=subprocess.PIPE, check=False)
        if ran.returncode:
            raise Differs(ran.stderr.decode())
        return ran.stdout.decode()

    def takes(self, query):
        return not isinstance(query, Union) or all(len(names) == len(set(names)) for names in map(answer_names, query.parts))

    def answers(self, tables, printed, answer_kinds, pick):
        script = ["drop database if exists cqa; create database cqa character set utf8mb4 collate utf8mb4_nopad_bin; use cqa;"]
        for table in tables:
            script.append("create table %s (%s);" % (identifier(table.name), ", ".join(
                "%s %s not null" % (identifier(name), "bigint" if kind == "int" else "text") for name, kind in table.columns)))
            if table.rows:
                script.append("insert into %s values %s;" % (identifier(table.name), ", ".join(map(row_text, twice(table.rows, pick)))))
        for text in printed:
            script += [text.rstrip(), "select '%s';" % self.END]
        answers = self.run("\n".join(script) + "\n").split(self.END + "\n")
        return [[tuple(int(field) if kind == "int" else Postgres.plain(field) for field, kind in zip(line.split("\t"), kinds))
                 for line in answer.split("\n")[:-1]] for answer, kinds in zip(answers, answer_kinds)]


def answer_names(query):
    """The names of the columns of an answer, in small letters."""
    return [query.tables[atom].columns[place][0].lower() for atom, place in query.answer]


# The comparison.

def run(program, script):
    ran = subprocess.run([program, "run"], input=script.encode(), stdout=subprocess.PIPE, check=False)
    if ran.returncode:
        raise Differs("status %d:\n%s" % (ran.returncode, ran.stdout.decode()))
    return ran.stdout.decode()


class Script:
    """Tables and queries, with the statements that make the tables."""

    def __init__(self, tables, queries, unions=()):
        self.tables, self.queries, self.unions = tables, queries, [union for union in unions if union]

    def creates(self):
        return ["create %stable %s;" % ("strict " if table.strict else "", table.schema()) for table in self.tables]

    def inserts(self):
        return ["insert into %s values %s;" % (table.name, ", ".join(map(row_text, sorted(table.rows, key=order)))) for table in self.tables if table.rows]



def replies(program, before, queries, verbs):
    """For each query its reply to each verb, behind some statements. Another statement stands between two."""
    asked = ["%s %s;" % (verb, query.text()) for query in queries for verb in verbs]
    marked = ["set conflicts %d;\n%s" % (10 ** 6 + number, text) for number, text in enumerate(asked + [""])]
    rest, found = run(program, "\n".join(before + marked) + "\n"), []
    for number in range(len(marked)):
        reply, _, rest = rest.partition("conflicts %d\n" % (10 ** 6 + number))
        found.append(reply)
    return [found[at:at + len(verbs)] for at in range(1, len(marked), len(verbs))]


def first_of(query):
    """A query, or the first part of a union."""
    return query.parts[0] if isinstance(query, Union) else query


def without_text(union):
    """Why a union has no text, or nothing."""
    unplanned = [number for number, part in enumerate(union.parts, 1) if part.plan() is None]
    if unplanned:
        return "no plan part %d\n" % unplanned[0]
    return "no sql parts %d and %d share %s\n" % (union.shared()[1], union.shared()[2], union.shared()[0].name) if union.shared() else ""


def reply_of(query, rows):
    """What `ask` replies where these are the rows of an answer by another engine."""
    if not first_of(query).answer:
        rows = [() for _ in rows]
    return "".join(row_text(row) + "\n" for row in sorted(rows, key=order)) + "%d rows\n" % len(rows)


def compare(program, engines, script, pick, features):
    """Compares one script; says how many queries were answered alike."""
    planned = []
    for query, (printed, plan) in zip(script.queries, replies(program, script.creates(), script.queries, ["sql", "plan"])):
        if (printed == "no plan\n") != (plan == "no plan\n"):
            raise Differs("%s\n-- sql:\n%s-- plan:\n%s" % (query.text(), printed, plan))
        counted(features, "no plan", plan == "no plan\n")
        planned += [(query, printed)] if plan != "no plan\n" else []
    for union, (printed,) in zip(script.unions, replies(program, script.creates(), script.unions, ["sql"])):
        why = without_text(union)
        if why and printed != why:
            raise Differs("%s\n-- sql:\n%s-- wanted:\n%s" % (union.text(), printed, why))
        counted(features, "a union that " + ("has no text: " + why.split(" ")[1] if why else "has a text"))
        planned += [(union, printed)] if not why else []
    answered = replies(program, script.creates() + script.inserts(), [query for query, _ in planned], ["sql", "ask"])
    answer_kinds = [[kind_of(first_of(query), column) for column in first_of(query).answer] or ["int"] for query, _ in planned]
    for engine in engines:
        taken = [engine.takes(query) for query, _ in planned]
        found = engine.answers(script.tables, list(compress([printed for _, printed in planned], taken)), list(compress(answer_kinds, taken)), pick)
        for (query, printed), (again, asked), rows in zip(compress(planned, taken), compress(answered, taken), found):
            if again != printed:
                raise Differs("%s\n-- without rows:\n%s-- with rows:\n%s" % (query.text(), printed, again))
            if reply_of(query, rows) != asked:
                raise Differs("%s\n%s\n-- ask:\n%s-- %s:\n%s" % (query.text(), printed, asked, engine.name, reply_of(query, rows)))
            if engine is engines[0] and isinstance(query, Query):
                kinds(query, printed, rows, features)
            counted(features, "a certain row of a union", bool(rows) and isinstance(query, Union))
    return len(planned)


def widest(number):
    """Twelve tables of sixteen columns, all names of 64 bytes, and a query that answers so many columns."""
    def name(word):
        return (word + "_" * 64)[:64]

    tables = [Table(name("t%02d" % at), [(name("t%02dc%02d" % (at, place)), "int") for place in range(16)], [0]) for at in range(12)]
    for table in tables:
        table.rows = {(key,) + (key,) * 15 for key in range(3)} | {(2,) + (1,) * 15}
    joins = [((at, 1), (at + 1, 0)) for at in range(11)]
    return Script(tables, [Query(tables, [(at, place) for at in range(12) for place in range(16)][:number], joins, [])])


def random_script(seed):
    maker = Maker(seed)
    if seed % 8:
        tables = maker.tables(maker.random.choice([1, 2, 3, 3, 4, 4]), 4)
        return maker.random, Script(tables, [maker.query(tables, 4) for _ in range(8)], [maker.union(tables) for _ in range(4)])
    tables = maker.tables(maker.random.randint(5, 12), 3)
    return maker.random, Script(tables, [maker.query(tables, 12) for _ in range(2)])


def scripts(first, count, engines):
    """The scripts of a run, each with the engines that it is for."""
    yield "widest", random.Random(first), widest(192), engines
    for seed in range(first, first + count):
        yield (seed, *random_script(seed), engines)


def main():
    parser = argparse.ArgumentParser(description=__doc__.split("\n")[0])
    parser.add_argument("program", nargs="?", default=PROGRAM)
    parser.add_argument("--seed", type=int, default=1)
    parser.add_argument("--count", type=int, default=200)
    parser.add_argument("--psql")
    parser.add_argument("--mariadb", action="store_true")
    asked = parser.parse_args()
    if sqlite3 is None:
        print("this Python has no sqlite3: nothing was compared")
        return 0
    if asked.mariadb and not Mariadb.is_there():
        print("MariaDB isn't installed: nothing was compared", file=sys.stderr)
        return 0
    for number in (signal.SIGTERM, signal.SIGHUP):
        signal.signal(number, ended)
    engines = [Sqlite()] + ([Postgres(asked.psql)] if asked.psql else [])
    try:
        engines += [Mariadb()] if asked.mariadb else []
        return compare_all(asked, engines)
    finally:
        for engine in engines:
            engine.stop()


def ended(number, frame):
    raise SystemExit(128 + number)


def compare_all(asked, engines):
    """Compares all scripts; the status."""
    features, answered = collections.Counter(), 0
    for seed, pick, script, chosen in scripts(asked.seed, asked.count, engines):
        try:
            answered += compare(asked.program, chosen, script, pick, features)
        except (Differs, sqlite3.Error) as differs:
            print("seed %s\n%s\n-- %s" % (seed, "\n".join(script.creates() + script.inserts()), differs))
            return 1
    for name, number in sorted(features.items()):
        print("%6d  %s" % (number, name))
    print("%d scripts, %d queries on %s: no difference" % (asked.count, answered, " and ".join(engine.name for engine in engines)))
    return 0


if __name__ == "__main__":
    sys.exit(main())
