#!/usr/bin/env python3
"""The text that `sql` prints, beside the plain query, on SQLite and PostgreSQL.

    bench/sql.py [--program FILE] [--before FILE] [--blocks N,N] [--only WORD] [--psql COMMAND] [--repeat N]

Chains of tables, each half as large as the one before; a fact with five dimensions; keys of two columns; strict tables;
large blocks; divisions. Every fifth block has two rows. Each shape is asked with an index on the key and the other columns
of each table, and without: the plain query with `distinct`, the text of `--before` (another program, as of an earlier
version) and the text of the program. The rows of the two texts must be the same. Times are processor seconds of the
statement, the least of N runs: of SQLite in memory, and of PostgreSQL's server where `--psql 'psql -d DATABASE'` is given,
by a user who may read `log_statement_stats`; its tables are made in a schema `cqa_bench` that goes at the end. Python 3.9
and its library alone are needed.
"""

import argparse
import random
import re
import shlex
import sqlite3
import subprocess
import sys
import time

from growth import PROGRAM

LIMIT = 20


def keyed(number, pick, make):
    """The rows of so many blocks with the key (i,), of which every fifth or so has two."""
    rows = set()
    for key in range(number):
        rows.add((key,) + make(pick))
        if pick.random() < 0.2:
            rows.add((key,) + make(pick))
    return sorted(rows)


class Tables:
    """Tables by their names: columns, key, whether they are strict, and rows."""

    def __init__(self):
        self.tables = {}

    def add(self, name, columns, key, rows, strict=False):
        self.tables[name] = (columns.split(), key.split(), strict, rows)
        return self

    def creates(self):
        return ["create %stable %s (%s, primary key (%s));" % ("strict " if strict else "", name, ", ".join(c + " int" for c in columns), ", ".join(key))
                for name, (columns, key, strict, _) in self.tables.items()]


def firsts(rows):
    """The first row of each block."""
    return [row for at, row in enumerate(rows) if at == 0 or row[0] != rows[at - 1][0]]


def chains(n, pick, strict=()):
    tables = Tables()
    for i in range(1, 7):
        m = n >> (i - 1)
        rows = keyed(m, pick, lambda pick: (pick.randrange(max(1, m // 2)), pick.randrange(10)))
        tables.add("t%d" % i, "k%d f%d v%d" % (i, i, i), "k%d" % i, firsts(rows) if i in strict else rows, i in strict)
    return tables


def chain(length):
    return "from %s where %s" % (", ".join("t%d" % i for i in range(1, length + 1)), " and ".join("f%d = k%d" % (i, i + 1) for i in range(1, length)))


def star(n, pick):
    widths = [n // 4, n // 8, n // 16, n // 32, n // 64]
    tables = Tables().add("f", "id a b c d e", "id", keyed(n, pick, lambda pick: tuple(pick.randrange(m) for m in widths)))
    for name, m in zip("abcde", widths):
        tables.add("d" + name, "k%s v%s" % (name, name), "k" + name, keyed(m, pick, lambda pick: (pick.randrange(10),)))
    return tables


def arms(names):
    return "from f, %s where %s" % (", ".join("d" + x for x in names), " and ".join("%s = k%s" % (x, x) for x in names))


def shapes(n):
    """The name of each shape, its tables and its query. Shapes over the same tables follow one another."""
    pick = random.Random(5)
    of_chains, of_stars = chains(n, pick), star(n, pick)
    for length, last in ((2, "v2"), (4, "v4"), (6, "v6")):
        yield "chain %d, test in the last" % length, of_chains, "select k1 %s and %s > 1" % (chain(length), last)
        yield "chain %d, last column answered" % length, of_chains, "select k1, %s %s" % (last, chain(length))
    yield "chain 3, columns of all", of_chains, "select k1, f1, v2, v3 " + chain(3)
    yield "chain 3, a range on each", of_chains, "select k1 %s and v1 > 2 and v2 > 2 and v3 > 2" % chain(3)
    yield "chain 3, last column alone", of_chains, "select v3 " + chain(3)
    yield "chain 3, exists", of_chains, "exists %s and v3 > 1" % chain(3)
    yield "one table, a range", of_chains, "select k1 from t1 where v1 > 2"
    yield "chain 3, constant key", of_chains, "select v3 %s and k1 = 17" % chain(3)
    yield "constant off the key: first", of_chains, "select k1, v3 %s and v1 = 3" % chain(3)
    yield ".. of the middle", of_chains, "select k1, v3 %s and v2 = 3" % chain(3)
    yield ".. of the last", of_chains, "select k1 %s and v3 = 3" % chain(3)
    yield "rare range in the first", of_chains, "select k1, v3 %s and f1 < 5" % chain(3)
    yield "range that most rows of the first meet", of_chains, "select k1, v3 %s and v1 > 2" % chain(3)
    yield ".. exists", of_chains, "exists %s and v1 > 2" % chain(3)
    yield "star 3", of_stars, "select id %s and va > 0 and vb > 0" % arms("ab")
    yield "star 6", of_stars, "select id %s and va > 0 and ve > 0" % arms("abcde")
    yield "star 6, three columns", of_stars, "select id, va, vc, ve " + arms("abcde")
    yield "star 3, only dimension columns", of_stars, "select va, vb " + arms("ab")
    m = int(n ** 0.5)
    of_pairs = Tables().add("a", "i j x y", "i j", sorted({(i % m, i // m, pick.randrange(m), pick.randrange(m // 4)) for more in range(2) for i in range(n) if not more or pick.random() < 0.2}))
    of_pairs.add("b", "x y w", "x y", sorted({(x, y, pick.randrange(n // 4)) for x in range(m) for y in range(m // 4) for _ in range(1 + (pick.random() < 0.2))}))
    of_pairs.add("c", "w u z", "w u", sorted({(w, pick.randrange(20), pick.randrange(4)) for w in range(n // 4) for _ in range(2)}))
    yield "composite key", of_pairs, "select i, j, w from a, b where a.x = b.x and a.y = b.y"
    yield "composite, half of a key unknown", of_pairs, "select i, j from a, b, c where a.x = b.x and a.y = b.y and b.w = c.w and z > 0"
    yield "strict first and last", chains(n, pick, (1, 3)), "select k1, v3 %s and v2 > 2" % chain(3)
    of_any = Tables().add("a", "id x", "id", keyed(n, pick, lambda pick: (pick.randrange(n // 8),)))
    of_any.add("b", "k x v", "k", keyed(n // 2, pick, lambda pick: (pick.randrange(n // 8), pick.randrange(4))))
    yield "joined off both keys, answered", of_any, "select x from a, b where a.x = b.x and v > 0".replace("select x", "select a.x")
    of_far = Tables().add("f", "id x y", "id", keyed(n, pick, lambda pick: (pick.randrange(n // 4), pick.randrange(100))))
    of_far.add("g", "x u", "x", keyed(n // 4, pick, lambda pick: (pick.randrange(n // 100),)))
    of_far.add("h", "u y w", "u y", sorted({(u, y, pick.randrange(4)) for u in range(n // 100) for y in range(100) if pick.random() < 0.9}))
    yield "context from two tables above", of_far, "select id from f, g, h where f.x = g.x and g.u = h.u and f.y = h.y and w > 0"
    of_shops = Tables().add("p", "id city", "id", keyed(n, pick, lambda pick: (pick.randrange(n // 8),)))
    of_shops.add("s", "city name", "city name", sorted({(c, pick.randrange(100)) for c in range(n // 8) for _ in range(4)}))
    yield "division", of_shops, "select id, name from p, s where p.city = s.city"
    of_blocks = Tables().add("a", "id x", "id", sorted({(i, 0 if pick.random() < 0.5 else pick.randrange(n // 4)) for i in range(n)} | {(7, j) for j in range(n // 2)}))
    of_blocks.add("b", "x y k", "x", sorted({(x, pick.randrange(50), pick.randrange(10)) for x in range(n // 4)} | {(0, y, 5) for y in range(n // 2)}))
    yield "large blocks in two tables", of_blocks, "select id from a, b where a.x = b.x and k > 0"
    yield ".. last column answered", of_blocks, "select id, k from a, b where a.x = b.x"
    of_farther = Tables().add("e", "id m y", "id", keyed(n, pick, lambda pick: (pick.randrange(n // 2), pick.randrange(100))))
    of_farther.add("f", "m x", "m", keyed(n // 2, pick, lambda pick: (pick.randrange(n // 4),)))
    of_farther.add("g", "x u", "x", of_far.tables["g"][3]).add("h", "u y w", "u y", of_far.tables["h"][3])
    yield "context from two tables together", of_farther, "select id from e, f, g, h where e.m = f.m and f.x = g.x and g.u = h.u and e.y = h.y and w > 0"


def plain(query):
    """The query in SQL, over tables without conflicts."""
    return query.replace("select ", "select distinct ", 1) if query.startswith("select") else query.replace("exists ", "select distinct 1 as certain ", 1)


def printed(program, tables, query):
    """What the program prints for it, without its `;`."""
    script = tables.creates() + ["sql %s;" % query]
    ran = subprocess.run([program, "run"], input="\n".join(script).encode(), stdout=subprocess.PIPE, check=True)
    return ran.stdout.decode().split("\n", len(tables.tables))[-1].rstrip()[:-1]


class Sqlite:
    name = "SQLite " + sqlite3.sqlite_version

    def load(self, tables, indexed):
        self.base = sqlite3.connect(":memory:")
        for name, (columns, key, _, rows) in tables.tables.items():
            self.base.execute("create table %s (%s)" % (name, ", ".join(c + " bigint not null" for c in columns)))
            self.base.executemany("insert into %s values (%s)" % (name, ", ".join("?" * len(columns))), rows)
            if indexed:
                self.base.execute("create index on_%s on %s (%s)" % (name, name, ", ".join(key + [c for c in columns if c not in key])))
        self.base.execute("analyze")

    def timed(self, text, repeat):
        """The least seconds, and the rows; none where it took too long."""
        best, rows = None, None
        for _ in range(repeat):
            end = time.monotonic() + LIMIT
            self.base.set_progress_handler(lambda: time.monotonic() > end, 100000)
            start = time.process_time()
            try:
                rows = self.base.execute(text).fetchall()
            except sqlite3.OperationalError as late:
                if "interrupt" not in str(late):
                    raise
                return None, None
            finally:
                self.base.set_progress_handler(None, 0)
            taken = time.process_time() - start
            best = taken if best is None else min(best, taken)
        return best, sorted(rows)

    def end(self):
        pass


class Postgres:
    def __init__(self, command):
        self.command = shlex.split(command) + ["-X", "-q", "-At", "-v", "ON_ERROR_STOP=1"]
        self.name = self.run("select version()")[0].split(" (")[0].strip()

    def run(self, script, late=False):
        ran = subprocess.run(self.command, input=("set client_min_messages = warning; set jit = off; set search_path = cqa_bench;\n%s;\n" % script).encode(),
                             stdout=subprocess.PIPE, stderr=subprocess.PIPE, check=False)
        if ran.returncode and late and b"statement timeout" in ran.stderr:
            return None
        if ran.returncode:
            sys.exit(ran.stderr.decode())
        return ran.stdout.decode(), ran.stderr.decode()

    def load(self, tables, indexed):
        script = ["drop schema if exists cqa_bench cascade; create schema cqa_bench;"]
        for name, (columns, key, _, rows) in tables.tables.items():
            script.append("create table %s (%s);" % (name, ", ".join(c + " bigint not null" for c in columns)))
            script.append("copy %s from stdin with (format csv);" % name)
            script += [",".join(map(str, row)) for row in rows] + ["\\."]
            if indexed:
                script.append("create index on %s (%s);" % (name, ", ".join(key + [c for c in columns if c not in key])))
        self.run("\n".join(script + ["analyze"]))

    def timed(self, text, repeat):
        best = None
        for _ in range(repeat):
            ran = self.run("set statement_timeout = '%ds'; set max_parallel_workers_per_gather = 0; set work_mem = '64MB'; set client_min_messages = log;\n"
                           "set log_statement_stats = on;\nselect count(*) from (%s) as answer" % (LIMIT, text), late=True)
            if ran is None:
                return None, None
            user, system = re.findall(r"!\t([\d.]+) s user, ([\d.]+) s system", ran[1])[-1]
            taken = float(user) + float(system)
            best = taken if best is None else min(best, taken)
        rows = self.run("copy (%s) to stdout with (format csv)" % text)[0].split()
        return best, sorted(tuple(map(int, row.split(","))) for row in rows)

    def end(self):
        self.run("drop schema if exists cqa_bench cascade")


def shown(seconds):
    return "over %d" % LIMIT if seconds is None else "%.3f" % seconds


def measure(engine, n, words):
    """Prints a line for each shape: plain, before and now, with indexes and without."""
    programs = ([("before", words.before)] if words.before else []) + [("now", words.program)]
    names = ["plain"] + [name for name, _ in programs]
    print("\n%s, %s blocks\n\n| | %s |" % (engine.name, format(n, ","), " | ".join(name + kind for kind in (", indexed", ", not") for name in names)))
    print("|---" * (1 + 2 * len(names)) + "|")
    found, loaded = {}, {True: None, False: None}
    for indexed in (True, False):
        for name, tables, query in shapes(n):
            if words.only in name:
                if loaded[indexed] is not tables:
                    engine.load(tables, indexed)
                    loaded[indexed] = tables
                texts = [plain(query)] + [printed(program, tables, query) for _, program in programs]
                times = [engine.timed(text, words.repeat) for text in texts]
                answers = [rows for _, rows in times[1:] if rows is not None]
                if any(rows != answers[0] for rows in answers):
                    sys.exit("%s: the texts have different rows" % name)
                found.setdefault(name, []).extend(seconds for seconds, _ in times)
    for name, times in found.items():
        print("| %s | %s |" % (name, " | ".join(map(shown, times))), flush=True)


def main():
    parser = argparse.ArgumentParser(description=__doc__.split("\n\n", 1)[0])
    parser.add_argument("--program", default=PROGRAM)
    parser.add_argument("--before")
    parser.add_argument("--blocks", default="50000,200000")
    parser.add_argument("--only", default="")
    parser.add_argument("--psql")
    parser.add_argument("--repeat", type=int, default=3)
    words = parser.parse_args()
    engines = [Sqlite()] + ([Postgres(words.psql)] if words.psql else [])
    for engine in engines:
        try:
            for n in map(int, words.blocks.split(",")):
                measure(engine, n, words)
        finally:
            engine.end()


if __name__ == "__main__":
    main()
