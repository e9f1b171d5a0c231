#!/usr/bin/env python3
"""A load by `copy` beside PostgreSQL in the same run: one table of two integers, its index, and one question.

    bench/copy_postgres.py [--program FILE] [--rows N] [--repeat N]

The program gets a script with the rows as a block; PostgreSQL gets the same rows by `copy`, makes an index on the key and the
other column, and answers the text that `sql` prints for the question. PostgreSQL's rows come once as the program's do, in the
script, by `psql`, and once from a file that the server itself reads. Rows stand in the order of their keys, or at random. Both
are run in turn, so that other work on the machine falls on both, and both have to find the same rows. Seconds are of the clock,
the medians of N runs, the start of the program's process among them; that of the server isn't. It starts a server of its own in
a temporary folder, over a socket alone, and ends it. Where PostgreSQL isn't installed, it says so and measures nothing. Python
3.9 and its library alone are needed.
"""

import argparse
import os
import random
import shutil
import statistics
import subprocess
import sys
import tempfile
import time

from growth import PROGRAM, TOP

sys.path.insert(0, os.path.join(TOP, "differential"))

from shards import Server, tool

MAKE = "create table t (a int, b int, primary key (a));\n"
SERVER_MAKE = "create table t (a bigint not null, b bigint not null);"


def question(number):
    return "select b from t where a = %d" % (number // 2)


def clock(work):
    start = time.monotonic()
    found = work()
    return time.monotonic() - start, found


def run(program, script):
    """What the program writes on a script."""
    environment = dict(os.environ, GLIBC_TUNABLES=os.environ.get("GLIBC_TUNABLES", "glibc.malloc.hugetlb=1"))
    with open(script, "rb") as source:
        return subprocess.run([program, "run"], stdin=source, stdout=subprocess.PIPE, env=environment, check=True).stdout.decode()


def printed_sql(program, folder, number):
    script = os.path.join(folder, "question")
    with open(script, "w") as file:
        file.write("%ssql %s;\n" % (MAKE, question(number)))
    return run(program, script).split("\n", 1)[1].rstrip().rstrip(";")


def write(folder, rows):
    """The rows as a file for the server, and as a script for the program; and their lines."""
    lines = "".join("%d,%d\n" % row for row in rows)
    files = [os.path.join(folder, name) for name in ("rows", "script")]
    for name, text in zip(files, (lines, "%scopy t;\n%s\\.\nask %s;\n" % (MAKE, lines, question(len(rows))))):
        with open(name, "w") as file:
            file.write(text)
        os.chmod(name, 0o644)
    return files[0], files[1], lines


def measure(program, server, folder, rows, repeat):
    """The seconds of the program, and of PostgreSQL by a script and by a file, for some rows."""
    plain, script, lines = write(folder, rows)
    rest = "create index on t (a, b);\ncopy (%s) to stdout;" % printed_sql(program, folder, len(rows))
    loads = ["copy t from stdin with (format csv);\n%s\\.\n%s" % (lines, rest), "copy t from '%s' with (format csv);\n%s" % (plain, rest)]
    taken = [[], [], []]
    for _ in range(repeat):
        seconds, answer = clock(lambda: run(program, script))
        taken[0].append(seconds)
        for load, times in zip(loads, taken[1:]):
            server.run("drop table if exists t;\n" + SERVER_MAKE)
            seconds, found = clock(lambda: server.run(load))
            times.append(seconds)
            if not all("(%s)" % row in answer for row in found):
                raise SystemExit("the answers differ: %s and %s" % (answer, found))
    return [statistics.median(times) for times in taken]


def main():
    parser = argparse.ArgumentParser(description=__doc__.split("\n")[0])
    parser.add_argument("--program", default=PROGRAM)
    parser.add_argument("--rows", type=int, default=1_000_000)
    parser.add_argument("--repeat", type=int, default=5)
    words = parser.parse_args()
    if not (tool("initdb") and tool("pg_ctl") and tool("psql")):
        print("PostgreSQL isn't installed: nothing was measured")
        return 0
    rows = [(key, key * 7919 % words.rows) for key in range(words.rows)]
    folder = tempfile.mkdtemp(prefix="cqa-")
    os.chmod(folder, 0o777)
    server = None
    try:
        server = Server(os.path.join(folder, "server"))
        print("%-12s %8s %12s %6s %12s %6s" % ("rows", "cqa", "by a script", "ratio", "by a file", "ratio"))
        for name in ("ascending", "shuffled"):
            ours, by_script, by_file = measure(words.program, server, folder, rows, words.repeat)
            print("%-12s %7.3fs %11.3fs %6.2f %11.3fs %6.2f" % (name, ours, by_script, ours / by_script, by_file, ours / by_file))
            random.Random(1).shuffle(rows)
    finally:
        if server:
            server.stop()
        shutil.rmtree(folder, ignore_errors=True)
    return 0


if __name__ == "__main__":
    sys.exit(main())
