#!/usr/bin/env python3
"""How long certain answers of SQL take over a database of the user's own, beside the plain query in the same run.

    bench/database.py [PROGRAM] [--engine sqlite|postgres] [--rows N] [--percent P] [--tpch SCALE] [--query NAME ..]

Makes N orders (1,000,000), a fifth as many customers and a thousand cities, of whose keys P percent (1) have two rows, with an index on
each key, and asks seven queries: a join with filters (join), a join that gives most of a table back (wide), three tables with few answers
(three), a table joined with itself (self), one customer (point), one table (one), a union with EXISTS (union). The plain query is asked
with DISTINCT, as answers are a set. With --tpch, tables of TPC-H at a scale are made instead (0.1 is 600,000 lines of orders), and ten of its
queries are asked, without their aggregates. Printed are processor seconds of the server and of the client (of SQLite both together), seconds of
the clock, and the numbers of answers; the time of `judge` is the client's. PostgreSQL is started in a temporary folder, over a socket
alone, and ended.
"""

import argparse
import os
import random
import resource
import sqlite3
import sys
import tempfile
import time

TOP = os.path.dirname(os.path.dirname(os.path.abspath(__file__)))
sys.path[:0] = [os.path.join(TOP, "python"), os.path.join(TOP, "differential")]

import tpch  # noqa: E402
from cqa.database import Database  # noqa: E402

KEYS = {"customer": "id", "orders": "oid", "city": "city"}
QUERIES = {
    "join": "select distinct c.id, c.name from customer c join orders o on o.cid = c.id where o.amount > 450 and o.day between '2024-01-01' and '2024-03-31' "
            "and c.segment in ('retail', 'trade')",
    "wide": "select o.oid, o.amount, c.name, c.city from orders o join customer c on o.cid = c.id where o.status <> 'void'",
    "three": "select distinct t.region, c.segment from orders o, customer c, city t where o.cid = c.id and c.city = t.city and o.amount > 490",
    "self": "select a.id, b.id from customer a join customer b on a.city = b.city and a.id < b.id and a.since = b.since where a.segment = 'trade' or b.credit > 5000",
    "point": "select o.oid, o.amount from orders o, customer c where o.cid = c.id and c.id = 4711",
    "one": "select id, segment from customer where credit > 100",
    "union": "select id from customer where city < 500 and exists (select 1 from orders o where o.cid = customer.id and o.amount > 300) "
             "union select cid from orders where status = 'open' and day > '2024-06-01'",
}
TABLES = {
    "customer": "id bigint not null, name text not null, city int not null, segment text not null, credit numeric, since text",
    "orders": "oid bigint not null, cid bigint not null, day text not null, amount numeric, status text not null",
    "city": "city int not null, region text not null, country text not null",
}


def rows_of(table, count, percent):
    """The rows of a table; the first keys of each hundred have two."""
    random.seed(table)
    day = lambda first, days: time.strftime("%Y-%m-%d", time.gmtime(first + 86400 * random.randrange(days)))
    customers = count // 5
    for at in range(1, {"orders": count, "customer": customers, "city": 1000}[table] + 1):
        for copy in range(2 if at % 100 < percent else 1):
            if table == "customer":
                yield at, "name %d" % at, random.randrange(1000), random.choice(["retail", "trade", "public", "other"]), round(random.uniform(0, 10000), 2), day(1420070400, 3000)
            elif table == "orders":
                yield at, random.randrange(1, customers + 1), day(1672531200, 700), round(random.uniform(0, 500) + copy, 2), random.choice(["open", "paid", "sent", "void"])
            else:
                yield at - 1, "region %d" % ((at + copy) % 20), "c%d" % (at % 3)


class InSQLite:
    def __init__(self, folder):
        self.connection = sqlite3.connect(os.path.join(folder, "bench.db"), isolation_level=None)

    def make(self, table, columns, rows, indexes):
        self.connection.execute("create table %s (%s)" % (table, columns))
        self.connection.execute("begin")
        self.connection.executemany("insert into %s values (%s)" % (table, ",".join("?" * (columns.count(",") + 1))), rows)
        self.connection.execute("commit")
        for number, index in enumerate(indexes):
            self.connection.execute("create index %s_%d on %s (%s)" % (table, number, table, index))

    def ready(self):
        self.connection.execute("analyze")

    def plain(self, sql):
        return sum(1 for _ in self.connection.execute("select distinct * from (%s)" % sql))

    def server_seconds(self):
        return 0.0

    def close(self):
        self.connection.close()


class InPostgres:
    def __init__(self, folder):
        import psycopg2
        from shards import Server
        os.chmod(folder, 0o755)
        self.server = Server(os.path.join(folder, "server"))
        self.connection = psycopg2.connect(host=self.server.folder, dbname="postgres", user="postgres" if os.geteuid() == 0 else None)
        self.connection.autocommit = True

    def make(self, table, columns, rows, indexes):
        import io
        cursor = self.connection.cursor()
        cursor.execute("create table %s (%s)" % (table, columns))
        cursor.copy_from(io.StringIO("".join("\t".join(map(str, row)) + "\n" for row in rows)), table)
        for index in indexes:
            cursor.execute("create index on %s (%s)" % (table, index))

    def ready(self):
        self.connection.cursor().execute("vacuum analyze")

    def plain(self, sql):
        cursor, count = self.connection.cursor(), 0
        cursor.execute("begin")
        cursor.execute("set local cursor_tuple_fraction = 1")
        cursor.execute("declare plain cursor for select distinct * from (%s) x" % sql)
        while True:
            cursor.execute("fetch 5000 from plain")
            rows = cursor.fetchall()
            count += len(rows)
            if len(rows) < 5000:
                cursor.execute("rollback")
                return count

    def server_seconds(self):
        with open("/proc/%d/stat" % self.connection.info.backend_pid, encoding="ascii") as file:
            fields = file.read().rsplit(")", 1)[1].split()
        return (int(fields[11]) + int(fields[12])) / os.sysconf("SC_CLK_TCK")

    def close(self):
        self.connection.close()
        self.server.stop()


def client_seconds():
    own, children = resource.getrusage(resource.RUSAGE_SELF), resource.getrusage(resource.RUSAGE_CHILDREN)
    return own.ru_utime + own.ru_stime + children.ru_utime + children.ru_stime


def timed(db, ask):
    """What a call gives, with seconds of the server, of the client and of the clock."""
    server, client, clock = db.server_seconds(), client_seconds(), time.monotonic()
    found = ask()
    return found, db.server_seconds() - server, client_seconds() - client, time.monotonic() - clock


def main():
    parser = argparse.ArgumentParser(description=__doc__.split("\n")[0])
    parser.add_argument("program", nargs="?")
    parser.add_argument("--engine", choices=["sqlite", "postgres"], default="sqlite")
    parser.add_argument("--rows", type=int, default=1_000_000)
    parser.add_argument("--percent", type=int, default=1)
    parser.add_argument("--tpch", type=float, metavar="SCALE")
    parser.add_argument("--query", action="append", choices=[*QUERIES, *tpch.QUERIES])
    told = parser.parse_args()
    keys, queries = (tpch.KEYS, tpch.QUERIES) if told.tpch else (KEYS, QUERIES)
    if told.program:
        os.environ["CQA_PROGRAM"] = os.path.abspath(told.program)
    with tempfile.TemporaryDirectory() as folder:
        db = InSQLite(folder) if told.engine == "sqlite" else InPostgres(folder)
        try:
            for table, columns in (tpch.TABLES if told.tpch else TABLES).items():
                rows = tpch.rows_of(table, told.tpch, told.percent) if told.tpch else rows_of(table, told.rows, told.percent)
                more = tpch.INDEXES.get(table, []) if told.tpch else ["cid"] if table == "orders" else []
                db.make(table, columns, rows, [keys[table] if isinstance(keys[table], str) else ", ".join(keys[table]), *more])
            db.ready()
            asked = Database(db.connection, keys)
            print("%-6s %21s   %28s   %s" % ("", "plain: server, client", "certain: server, client, clock", "answers, certain"))
            for name in told.query or queries:
                plain = timed(db, lambda: db.plain(queries[name]))
                certain = timed(db, lambda: sum(1 for _ in asked.certain(queries[name])))
                ratio = (certain[1] + certain[2]) / max(0.001, plain[1] + plain[2])
                print("%-6s %10.2f %10.2f   %8.2f %8.2f %8.2f  %4.1f times  %d, %d" % (name, *plain[1:3], *certain[1:], ratio, plain[0], certain[0]), flush=True)
        finally:
            db.close()


if __name__ == "__main__":
    main()
