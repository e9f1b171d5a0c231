#!/usr/bin/env python3
"""The SQL that `sql` prints over three PostgreSQL servers, each of which has some blocks of each table, compared with `ask`.

    differential/shards.py [PROGRAM] [--seed S] [--count N] [--rows N]

Starts three servers of its own in a temporary folder, over sockets alone, and ends them. The tables of a script are spread
by their keys. The text runs on one server, over foreign tables (`postgres_fdw`, the first server asks), and step by step:
each step on each server over its own rows, whose rows together, each once, are then a table on each server, and the last
query where the last step's rows are, if it reads that step alone. All have to give the rows of `ask`. Scripts are those of
`differential/sql.py`, and seven queries over tables of about N blocks (none where N is 0), for which seconds of one server,
of three over foreign tables and by steps are printed, with the rows that the first server fetched and the statements that
it sent with a `GROUP BY`. Where PostgreSQL or its `postgres_fdw` isn't installed, it says so and compares nothing. Python
3.9 and its library alone are needed.
"""

import argparse
import glob
import os
import random
import re
import shutil
import signal
import subprocess
import sys
import tempfile
import time

from model import Query, Table, order
from sql import PROGRAM, Differs, Postgres, Script, identifier, random_script, replies, reply_of, twice

SERVERS = 3
OPTIONS = ["fsync=off", "jit=off", "max_parallel_workers_per_gather=0", "work_mem=64MB", "max_connections=20",
           "enable_partitionwise_aggregate=on", "enable_partitionwise_join=on"]


# Servers.

def tool(name):
    """The path of one of PostgreSQL's programs, of its newest version that is there."""
    found = sorted(glob.glob("/usr/lib/postgresql/*/bin/" + name), key=lambda path: [int(part) for part in re.findall(r"\d+", path)])
    return found[-1] if found else shutil.which(name)


def as_other():
    """The words before a command that mustn't run as root."""
    return ["runuser", "-u", "postgres", "--"] if os.geteuid() == 0 else []


class Server:
    """A server over a socket in its folder, and a session of it."""
    MARK = "-- the end of a reply"

    def __init__(self, folder):
        self.folder, self.data, self.session = folder, os.path.join(folder, "data"), None
        quiet = {"stdout": subprocess.DEVNULL, "stderr": subprocess.DEVNULL, "check": True}
        os.makedirs(folder)
        os.chmod(folder, 0o777)
        subprocess.run(as_other() + [tool("initdb"), "-D", self.data, "-A", "trust", "--locale=C", "-E", "UTF8"], **quiet)
        options = " ".join(["-k", folder, "-h ''"] + ["-c " + option for option in OPTIONS])
        subprocess.run(as_other() + [tool("pg_ctl"), "-D", self.data, "-w", "-o", options, "-l", os.path.join(folder, "log"), "start"], **quiet)
        self.session = subprocess.Popen(as_other() + [tool("psql"), "-h", folder, "-d", "postgres", "-XqAt", "-v", "ON_ERROR_STOP=1"],
                                        stdin=subprocess.PIPE, stdout=subprocess.PIPE, stderr=subprocess.STDOUT)
        self.run("set client_min_messages = warning;")

    def send(self, script):
        self.session.stdin.write(("%s\n\\echo '%s'\n" % (script, self.MARK)).encode())
        self.session.stdin.flush()

    def reply(self):
        """What a script that was sent writes, line by line."""
        lines = []
        for line in iter(self.session.stdout.readline, b""):
            if line.decode() == self.MARK + "\n":
                return lines
            lines.append(line.decode()[:-1])
        raise Differs("\n".join(lines))

    def run(self, script):
        self.send(script)
        return self.reply()

    def stop(self):
        if self.session:
            self.session.stdin.close()
            self.session.wait()
            self.session.stdout.close()
        subprocess.run(as_other() + [tool("pg_ctl"), "-D", self.data, "-m", "immediate", "stop"],
                       stdout=subprocess.DEVNULL, stderr=subprocess.DEVNULL, check=False)


def columns_of(table):
    return ", ".join("%s %s not null" % (identifier(name), "bigint" if kind == "int" else 'text collate "C"') for name, kind in table.columns)


def indexed_columns(table):
    """The columns of a table, those of its key first."""
    places = table.key + [place for place in range(len(table.columns)) if place not in table.key]
    return ", ".join(identifier(table.columns[place][0]) for place in places)


def copy(name, lines):
    return "\n".join(["copy %s from stdin;" % name, *lines, "\\."])


class Cluster:
    """The servers. On each the schema `part` has its rows, and `shard` the tables by their names over them; on the first
    one `whole` has the tables over all servers, and `one` all rows."""

    def __init__(self, folder):
        self.servers, self.places = [], []
        try:
            for number in range(SERVERS):
                self.servers.append(Server(os.path.join(folder, str(number))))
            self.first = self.servers[0]
            self.first.run("create extension postgres_fdw;")
            for number, server in list(enumerate(self.servers))[1:]:
                self.first.run("create server s%d foreign data wrapper postgres_fdw options (host '%s', dbname 'postgres', use_remote_estimate 'true', "
                               "async_capable 'true', fetch_size '10000', fdw_tuple_cost '0.2');\n"
                               "create user mapping for current_user server s%d;" % (number, server.folder, number))
        except BaseException:
            self.stop()
            raise

    def stop(self):
        for server in self.servers:
            server.stop()

    def each(self, scripts):
        """Runs a script on each server at once; their replies."""
        for server, script in zip(self.servers, scripts):
            server.send(script)
        return [server.reply() for server in self.servers]

    def make(self, table, number, indexed):
        """The statements that make a table, for each server."""
        key = ", ".join(identifier(table.columns[place][0]) for place in table.key)
        index = "create index on part.p%d (%s);" % (number, indexed_columns(table)) if indexed else ""
        name, columns = identifier(table.name), columns_of(table)
        own = ["create table part.p%d (%s); %s" % (number, columns, index), "create view shard.%s as select * from part.p%d;" % (name, number)]
        whole = ["create table whole.%s (%s) partition by hash (%s);" % (name, columns, key),
                 "alter table whole.%s attach partition part.p%d for values with (modulus %d, remainder 0);" % (name, number, SERVERS)]
        for other in range(1, SERVERS):
            whole.append("create foreign table part.f%d_%d partition of whole.%s for values with (modulus %d, remainder %d) server s%d "
                         "options (schema_name 'part', table_name 'p%d');" % (number, other, name, SERVERS, other, other, number))
        return own, whole

    def load(self, tables, pick, indexed=False):
        schemas = ["drop schema if exists part, shard, whole, one cascade;", "create schema part; create schema shard; create schema whole; create schema one;"]
        scripts = [list(schemas) for _ in self.servers]
        for number, table in enumerate(tables):
            own, whole = self.make(table, number, indexed)
            for script in scripts:
                script += own
            scripts[0] += whole
        self.each(["\n".join(script) for script in scripts])
        for table in tables:
            lines = ["\t".join(map(Postgres.escaped, row)) for row in twice(table.rows, pick)]
            name = identifier(table.name)
            self.first.run("create table one.%s (%s);\n%s\n%s" % (name, columns_of(table), copy("one." + name, lines), copy("whole." + name, lines)))
            if indexed:
                self.first.run("create index on one.%s (%s);" % (name, indexed_columns(table)))
        if indexed:
            self.each(["vacuum analyze;"] * SERVERS)

    def over(self, schema, text):
        """The lines of an answer over the tables of a schema of the first server."""
        return self.first.run("set search_path = %s;\ncopy (%s) to stdout;" % (schema, text.rstrip()[:-1]))

    def by_steps(self, text):
        """The lines of an answer, and how many bytes went to each server: each step runs on all of them, and its rows go to all.
        Where the last query reads the last step alone, it runs where that step's rows are."""
        steps, last = steps_of(text)
        self.each(["set search_path = shard;"] * SERVERS)
        sent, together = 0, steps[:-1] if [name for name, _ in steps if name in last] == [steps[-1][0]] else steps
        for name, body in together:
            rows = self.from_each(body)
            sent += sum(len(row.encode()) + 1 for row in rows)
            make = "create table %s as select * from (%s) q limit 0;\n%s\nanalyze %s;" % (name, body, copy(name, rows), name)
            self.each([make] * SERVERS)
        found = self.first.run("copy (%s) to stdout;" % last) if together == steps else self.from_each("with %s as (%s) %s" % (*steps[-1], last))
        self.each(["drop table if exists %s;" % ", ".join(name for name, _ in steps)] * SERVERS)
        return found, sent

    def from_each(self, query):
        """The lines of a query on all servers together, each once."""
        return set(line for lines in self.each(["copy (%s) to stdout;" % query] * SERVERS) for line in lines)


def steps_of(text):
    """The steps of a text, each a name and a query, and its last query."""
    steps, rest = [], text.rstrip()[:-1]
    word = "WITH "
    while rest.startswith(word):
        name, body = re.match(r'("[^"]*") AS \(', rest[len(word):]).group(1), ""
        rest = rest[len(word) + len(name) + len(" AS ("):]
        at = end_of(rest)
        body, rest, word = rest[:at].strip(), rest[at + 1:], ",\n"
        steps.append((name, body))
    return steps, rest.strip()


def end_of(text):
    """Where the bracket closes that was opened before a text."""
    depth = 1
    for found in re.finditer(r"'[^']*'|\"[^\"]*\"|[()]", text):
        depth += {"(": 1, ")": -1}.get(found.group(), 0)
        if not depth:
            return found.start()
    raise Differs("no end: " + text)


# The comparison.

def rows_of(query, lines):
    kinds = [query.tables[atom].columns[place][1] for atom, place in query.answer] or ["int"]
    return [tuple(int(field) if kind == "int" else Postgres.plain(field) for field, kind in zip(line.split("\t"), kinds)) for line in lines]


def same(query, printed, asked, found, how):
    if reply_of(query, rows_of(query, found)) != asked:
        raise Differs("%s\n%s\n-- ask:\n%s-- %s:\n%s" % (query.text(), printed, asked, how, reply_of(query, rows_of(query, found))))


def compare(program, cluster, script, pick):
    """Compares one script; says how many queries were answered alike."""
    cluster.load(script.tables, pick)
    number = 0
    for query, (printed, asked) in zip(script.queries, replies(program, script.creates() + inserts(script.tables), script.queries, ["sql", "ask"])):
        if printed == "no plan\n":
            continue
        number += 1
        same(query, printed, asked, cluster.over("one", printed), "on one server")
        same(query, printed, asked, cluster.over("whole", printed), "over foreign tables")
        same(query, printed, asked, cluster.by_steps(printed)[0], "step by step")
    return number


def inserts(tables):
    """Statements of at most 1,000 rows each."""
    found = []
    for table in tables:
        rows = sorted(table.rows, key=order)
        for at in range(0, len(rows), 1000):
            found += Script([table.with_rows(rows[at:at + 1000])], []).inserts()
    return found


def seconds(answer):
    """The least seconds of three runs, and what the last one gave."""
    best = None
    for _ in range(3):
        start = time.monotonic()
        found = answer()
        best = min(time.monotonic() - start, best or 10 ** 9)
    return best, found


def blocks(number, pick, make):
    """Rows of so many blocks, of which every fifth or so has two."""
    return {(key,) + make() for key in range(number) for _ in range(1 + (pick.random() < 0.2))}


def large(number, pick):
    """Tables of about so many blocks, and queries over them."""
    def ints(words):
        return [(word, "int") for word in words.split()]

    tables = {"a": Table("a", ints("id x"), [0]), "b": Table("b", ints("x y k"), [0]), "c": Table("c", ints("y z"), [0]),
              "p": Table("p", ints("id city"), [0]), "s": Table("s", ints("city name"), [0, 1])}
    few = max(1, number // 16)
    tables["a"].rows = blocks(number, pick, lambda: (pick.randrange(number // 4),))
    tables["b"].rows = blocks(number // 4, pick, lambda: (pick.randrange(few), pick.randrange(10)))
    tables["c"].rows = blocks(few, pick, lambda: (pick.randrange(10),))
    tables["p"].rows = blocks(number, pick, lambda: (pick.randrange(number // 8),))
    tables["s"].rows = {(city, pick.randrange(100)) for city in range(number // 8) for _ in range(4)}

    def query(names, answer, joins, tests=()):
        return Query([tables[name] for name in names], answer, joins, list(tests))

    two, three = [((0, 1), (1, 0))], [((0, 1), (1, 0)), ((1, 1), (2, 0))]
    return list(tables.values()), [
        ("two tables", query("ab", [(0, 0)], two, [((1, 2), ">", 0)])), ("three", query("abc", [(0, 0)], three, [((2, 1), ">", 2)])),
        ("three, the last column", query("abc", [(0, 0), (2, 1)], three)), ("a constant key", query("abc", [(2, 1)], three, [((0, 0), "=", 17)])),
        ("no answer columns", query("abc", [], three, [((2, 1), ">", 2)])), ("one table, a range", query("a", [(0, 0)], [], [((0, 1), ">", 5)])),
        ("a division", query("ps", [(0, 0), (1, 1)], [((0, 1), (1, 0))]))]


def measure(program, cluster, number, pick):
    """Compares the queries over large tables, and prints what each took."""
    tables, queries = large(number, pick)
    cluster.load(tables, pick, indexed=True)
    before = Script(tables, []).creates() + inserts(tables)
    print("%-24s %6s %8s %8s %9s %9s  %s" % ("", "one", "foreign", "by steps", "fetched", "bytes", "statements sent with GROUP BY"))
    for (name, query), (printed, asked) in zip(queries, replies(program, before, [query for _, query in queries], ["sql", "ask"])):
        one, found = seconds(lambda text=printed: cluster.over("one", text))
        same(query, printed, asked, found, "on one server")
        foreign, found = seconds(lambda text=printed: cluster.over("whole", text))
        same(query, printed, asked, found, "over foreign tables")
        steps, (found, sent) = seconds(lambda text=printed: cluster.by_steps(text))
        same(query, printed, asked, found, "step by step")
        cluster.first.run("set search_path = whole;")
        plan = "\n".join(cluster.first.run("explain (analyze, verbose, timing off, costs off, summary off) %s" % printed))
        fetched = sum(int(rows) * int(loops) for rows, loops in re.findall(r"Foreign Scan[^\n]*rows=(\d+) loops=(\d+)", plan))
        grouped = sum(" GROUP BY " in line for line in plan.split("\n") if "Remote SQL: " in line)
        print("%-24s %6.2f %8.2f %8.2f %9d %9d  %d" % (name, one, foreign, steps, fetched, sent, grouped))
    return len(queries)


def ended(number, frame):
    raise SystemExit(128 + number)


def main():
    parser = argparse.ArgumentParser(description=__doc__.split("\n")[0])
    parser.add_argument("program", nargs="?", default=PROGRAM)
    parser.add_argument("--seed", type=int, default=1)
    parser.add_argument("--count", type=int, default=20)
    parser.add_argument("--rows", type=int, default=0)
    asked = parser.parse_args()
    if not (tool("initdb") and tool("pg_ctl") and tool("psql")):
        print("PostgreSQL isn't installed: nothing was compared")
        return 0
    for number in (signal.SIGTERM, signal.SIGHUP):
        signal.signal(number, ended)
    folder = tempfile.mkdtemp(prefix="cqa-")
    os.chmod(folder, 0o777)
    cluster, answered, seed = None, 0, "of the large tables"
    try:
        try:
            cluster = Cluster(folder)
        except (Differs, subprocess.CalledProcessError) as missing:
            print("three PostgreSQL servers with postgres_fdw couldn't be started: nothing was compared\n%s" % missing)
            return 0
        if asked.rows:
            answered += measure(asked.program, cluster, asked.rows, random.Random(asked.seed))
        for seed in range(asked.seed, asked.seed + asked.count):
            pick, script = random_script(seed)
            answered += compare(asked.program, cluster, script, pick)
    except Differs as differs:
        print("seed %s\n-- %s" % (seed, differs))
        return 1
    finally:
        if cluster:
            cluster.stop()
        shutil.rmtree(folder, ignore_errors=True)
    print("%d queries on PostgreSQL, over foreign tables of %d servers and step by step on them: no difference" % (answered, SERVERS))
    return 0


if __name__ == "__main__":
    sys.exit(main())
