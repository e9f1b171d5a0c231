#!/usr/bin/env python3
"""Random databases, dumped, and made again from their dumps; and CSV that other programs wrote or read.

    differential/dumps.py [PROGRAM] [--seed S] [--count N] [--records R] [--blocks B]

A dump has to be refused nowhere when it is run, and to give the same dump again. Its blocks have to be read by Python's
`csv` as the rows that were stored. R records that Python's `csv` wrote, and, where sqlite3 is there, that its CSV mode
wrote, have to be copied as they are. B blocks whose quotes and lines' ends stand anywhere have to be read as Python's
`csv` reads them, or refused with the first record of another number of fields. A difference prints the script and ends
with status 1. Python 3.9 and its library alone are needed.
"""

import argparse
import csv
import io
import os
import random
import shutil
import subprocess
import sys

TOP = os.path.dirname(os.path.dirname(os.path.abspath(__file__)))
PROGRAM = os.path.join(TOP, "crates", "cqa_cli", "out", "cqa_cli")
PIECES = ["", "a", "b", "'", '"', ",", "\n", "\\.", "\n\\.\n", "\n\\.\r\n", "\r", "\r\n", ";", "--", " ", "\t", "ä", "\u20ac",
          "\U0001f600", "\ufeff", "\x00", "copy t;", "\\"]
MOST_TABLES = 64
BLOCK_PIECES = ['"', '"', ",", "\n", "\r\n", "\r", "a", "b ", "ä"]
NUMBERS = [0, 1, -1, 2, 9223372036854775807, -9223372036854775808]


def run(program, script):
    done = subprocess.run([program, "run"], input=script, stdout=subprocess.PIPE, check=False)
    return done.stdout


def literal(value):
    if isinstance(value, int):
        return str(value)
    return "'" + value.replace("'", "''") + "'"


def random_value(rng, kind):
    if kind == "int":
        return rng.choice(NUMBERS) if rng.random() < 0.5 else rng.randrange(-10**6, 10**6)
    if rng.random() < 0.02:
        return "x" * 1024
    return "".join(rng.choice(PIECES) for _ in range(rng.randrange(6)))


def random_table(rng, name):
    """The statements that make a table, and its rows: a strict one takes the first row of each key."""
    columns = [("c%d" % at, rng.choice(["int", "text"])) for at in range(rng.randrange(1, 5))]
    key = rng.sample(range(len(columns)), rng.randrange(1, len(columns) + 1))
    strict = rng.random() < 0.3
    rows, taken = set(), set()
    for _ in range(rng.randrange(0, 12)):
        row = tuple(random_value(rng, kind) for _, kind in columns)
        if rows and not strict and rng.random() < 0.3:
            of_key = rng.choice(sorted(rows, key=repr))
            row = tuple(of_key[at] if at in key else row[at] for at in range(len(columns)))
        place = tuple(row[at] for at in key)
        if strict and place in taken:
            continue
        taken.add(place)
        rows.add(row)
    made = "create %stable %s (%s, primary key (%s));\n" % (
        "strict " if strict else "", name, ", ".join("%s %s" % column for column in columns),
        ", ".join(columns[at][0] for at in key))
    inserts = ["insert into %s values (%s);\n" % (name, ", ".join(map(literal, row))) for row in rows]
    rng.shuffle(inserts)
    return made + "".join(inserts), rows


def end_of_statement(text, at):
    """Where the statement that begins at a place ends: behind the `;` outside its texts, and the line feed."""
    quoted = False
    while quoted or text[at] != ";":
        quoted ^= text[at] == "'"
        at += 1
    return at + 2


def blocks_of(dump):
    """The rows of each block of a dump, by table, as Python's `csv` reads them."""
    text, rows, at = dump.decode("utf-8"), {}, 0
    while at < len(text):
        start, at = at, end_of_statement(text, at)
        if not text.startswith("copy ", start):
            continue
        name = text[start + 5:at - 2]
        block = []
        while True:
            end = text.index("\n", at) + 1
            line, at = text[at:end], end
            if line in ("\\.\n", "\\.\r\n"):
                break
            block.append(line)
        rows[name] = [tuple(record) for record in csv.reader(io.StringIO("".join(block), newline=""))]
    return rows


def fault_of_dump(program, script, tables):
    """What is wrong with the dump of a database, if anything is."""
    replies = run(program, script)
    if b"error " in replies:
        return "the database is refused: %r" % replies
    dump = run(program, script + b"dump;\n")[len(replies):]
    again = run(program, dump)
    if b"error " in again:
        return "the dump is refused: %r" % again
    if run(program, dump + b"dump;\n")[len(again):] != dump:
        return "the dump gives another one"
    read = blocks_of(dump)
    for name, rows in tables.items():
        ends = [row for row in rows if any(isinstance(value, str) and ("\n\\.\n" in value or "\n\\.\r\n" in value) for value in row)]
        plain = sorted(tuple(map(str, row)) for row in rows if row not in ends)
        if sorted(read.get(name, [])) != plain:
            return "python reads other rows of %s" % name
        if dump.count(b"insert into %s values" % name.encode()) < len(ends):
            return "rows of %s are missing" % name
    return None


def try_dumps(program, rng, count):
    for number in range(count):
        script, tables = "", {}
        for at in range(rng.randrange(1, 4)):
            made, rows = random_table(rng, "t%d" % at)
            script += made
            tables["t%d" % at] = rows
        script = script.encode("utf-8")
        fault = fault_of_dump(program, script, tables)
        if fault is not None:
            sys.stdout.buffer.write(script)
            sys.exit("database %d: %s" % (number, fault))


def fault_of_file(program, text, rows):
    """What is wrong with a file of rows of an integer and a text, if anything is."""
    script = b"create table f (k int, w text, primary key (k));\ncopy f;\n" + text
    copied = run(program, script + b"\\.\n")
    if copied != b"created f\ncopied %d\n" % len(rows):
        return "copied otherwise: %r" % copied[:200]
    asked = run(program, script + b"\\.\nask select k, w from f;\n")[len(copied):]
    wanted = "".join("(%d, %s)\n" % (number, literal(word)) for number, word in sorted(rows)) + "%d rows\n" % len(rows)
    return None if asked == wanted.encode("utf-8") else "other rows were stored"


def by_python(rows):
    out = io.StringIO(newline="")
    csv.writer(out).writerows(rows)
    return out.getvalue().encode("utf-8")


def by_sqlite(rows):
    values = ",\n".join("(%d, %s)" % (number, literal(word)) for number, word in rows)
    script = "create table f (k integer, w text);\ninsert into f values %s;\n.mode csv\nselect * from f;\n" % values
    done = subprocess.run(["sqlite3"], input=script.encode("utf-8"), stdout=subprocess.PIPE, check=True)
    return done.stdout


def try_files(program, rng, count):
    words = ["".join(rng.choice(["a", "b", " ", ",", '"', "ä", "\n", "'"]) for _ in range(rng.randrange(8))) for _ in range(count)]
    rows = list(enumerate(words))
    rng.shuffle(rows)
    writers = [("Python", by_python)]
    if shutil.which("sqlite3"):
        writers.append(("sqlite3", by_sqlite))
    for name, writer in writers:
        fault = fault_of_file(program, writer(rows), rows)
        if fault is not None:
            sys.exit("a file that %s wrote: %s" % (name, fault))
    return [name for name, _ in writers]


def replies_to_block(width, block):
    """The replies to a `copy` of a block into a table of texts and to an `ask` of its rows, by what Python's `csv` reads."""
    records = [record for record in csv.reader(io.StringIO(block, newline="")) if record]
    bad = next((number for number, record in enumerate(records, 1) if len(record) != width), None)
    rows = set() if bad else set(map(tuple, records))
    shown = sorted(rows, key=lambda row: [word.encode("utf-8") for word in row])
    return "%s\n%s%d rows\n" % (
        "error 19 BadCsv record %d" % bad if bad else "copied %d" % len(rows),
        "".join("(%s)\n" % ", ".join(map(literal, row)) for row in shown), len(rows))


def block_with_replies(rng, name):
    """A `copy` of a random block into a table of texts of its own, and an `ask` of its rows; with the replies to them."""
    width = rng.randrange(1, 3)
    block = "".join(rng.choice(BLOCK_PIECES) for _ in range(rng.randrange(30))) + "\n"
    columns = ["c%d" % at for at in range(width)]
    script = "create table %s (%s, primary key (%s));\ncopy %s;\n%s\\.\nask select %s from %s;\n" % (
        name, ", ".join("%s text" % column for column in columns), ", ".join(columns), name, block, ", ".join(columns), name)
    return script, "created %s\n%s" % (name, replies_to_block(width, block))


def try_blocks(program, rng, count):
    """Tries blocks, as many in one script as there may be tables."""
    for first in range(0, count, MOST_TABLES):
        made = [block_with_replies(rng, "f%d" % number) for number in range(first, min(first + MOST_TABLES, count))]
        script, replies = ("".join(parts).encode("utf-8") for parts in zip(*made))
        if run(program, script) != replies:
            sys.stdout.buffer.write(script)
            sys.exit("a block is read otherwise than Python reads it")


def main():
    parser = argparse.ArgumentParser()
    parser.add_argument("program", nargs="?", default=PROGRAM)
    parser.add_argument("--seed", type=int, default=1)
    parser.add_argument("--count", type=int, default=300)
    parser.add_argument("--records", type=int, default=100000)
    parser.add_argument("--blocks", type=int, default=3000)
    options = parser.parse_args()
    rng = random.Random(options.seed)
    try_dumps(options.program, rng, options.count)
    names = try_files(options.program, rng, options.records)
    try_blocks(options.program, rng, options.blocks)
    print("%d dumps give themselves again; files of %d records by %s are copied; %d blocks are read as Python reads them"
          % (options.count, options.records, " and ".join(names), options.blocks))


if __name__ == "__main__":
    main()
