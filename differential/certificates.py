#!/usr/bin/env python3
"""Certificates of rewriting, printed by the program and by the plain machine, changed, checked by both, and held against all repairs.

    differential/certificates.py [PROGRAM] [--seed S] [--count N]

Each seed makes tables and a query. Of each possible row the reply to `prove` has to be `no plan` where the machine has none,
else what `explain` replies where a repair rejects the row, else the certificate that the machine makes. Each certificate, also
along an order that is no plan, and twenty changes of it go to `check`: its line has to be the one found here, by a reader and a
judge of their own. Where a certificate is verified, the row has to be certain in databases that have its blocks among others.
The last line says how much was tried; the status is 0 where nothing differed. Python 3.9 and its library alone are needed.
"""

import argparse
import collections
import os
import random
import re
import subprocess
import sys

from model import OPS, Query, Table, literal, order, row_text

TOP = os.path.dirname(os.path.dirname(os.path.abspath(__file__)))
PROGRAM = os.path.join(TOP, "crates", "cqa_cli", "out", "cqa_cli")
TEXTS = ["", "a", "o'b", "x;y", "--", "l\nm", "\r"]
CHANGES = 20
MOST_WORK = 20_000


class Differs(Exception):
    pass


class Bad(Exception):
    """A statement isn't of its form."""


# The cut.

def skip(data, at):
    """Behind blanks and comments."""
    while at < len(data):
        if data[at] in b" \t\n\r":
            at += 1
        elif data[at:at + 2] == b"--":
            end = data.find(b"\n", at)
            at = len(data) if end < 0 else end
        else:
            break
    return at


def text_end(data, at):
    """The place of the `;` that ends a text, or None."""
    while at < len(data):
        if data[at:at + 1] == b";":
            return at
        if data[at:at + 1] == b"'":
            at = data.find(b"'", at + 1) + 1
            if at == 0:
                return None
        elif data[at:at + 2] == b"--":
            at = data.find(b"\n", at)
            if at < 0:
                return None
        else:
            at += 1
    return None


def behind_block(data, at):
    """Behind the block of a `copy`, or None."""
    line = re.compile(rb"[ \t\r]*\n").match(data, at)
    at = line.end() if line else at
    while at < len(data):
        end = data.find(b"\n", at)
        line = data[at:] if end < 0 else data[at:end]
        if line in (b"\\.", b"\\.\r"):
            return len(data) if end < 0 else end + 1
        if end < 0:
            return None
        at = end + 1
    return None


def cut(data):
    """The texts of the statements, and whether what is left is blank."""
    texts, at = [], 0
    while True:
        start = skip(data, at)
        if start == len(data):
            return texts, True
        end = text_end(data, start)
        if end is None:
            return texts, False
        text, at = data[start:end], end + 1
        if re.match(rb"copy(?![A-Za-z0-9_])", text):
            at = behind_block(data, at)
            if at is None:
                return texts, False
        texts.append(text)


# Tokens, as pairs of a kind and a value.

WORD = re.compile(rb"[A-Za-z_][A-Za-z0-9_]*")
NUMBER = re.compile(rb"-?[0-9]+")
QUOTED = re.compile(rb"'((?:[^']|'')*)'", re.DOTALL)
SYMBOL = re.compile(rb"<>|<=|>=|[(),.=<>]")


def token(text, at):
    """The token at a place, and the place behind it."""
    found = WORD.match(text, at)
    if found and len(found.group()) <= 64:
        return ("word", found.group().decode()), found.end()
    found = NUMBER.match(text, at)
    if found and -(1 << 63) <= int(found.group()) < 1 << 63:
        return ("int", int(found.group())), found.end()
    found = QUOTED.match(text, at)
    if found:
        try:
            value = found.group(1).decode("utf-8").replace("''", "'")
        except UnicodeDecodeError:
            raise Bad from None
        if len(value.encode()) <= 1024:
            return ("text", value), found.end()
    found = SYMBOL.match(text, at)
    if not found:
        raise Bad
    return (found.group().decode(), None), found.end()


class Reader:
    """The tokens of a text, taken one after another."""

    def __init__(self, text):
        if len(text) > 1 << 20:
            raise Bad
        self.left, at = [], skip(text, 0)
        while at < len(text):
            found, at = token(text, at)
            self.left.append(found)
            at = skip(text, at)
        self.left.reverse()

    def sees(self, kind, value=None):
        return bool(self.left) and self.left[-1] == (kind, value)

    def takes(self, kind, value=None):
        """Whether this token comes; it is taken then."""
        seen = self.sees(kind, value)
        if seen:
            self.left.pop()
        return seen

    def take(self, kind, value=None):
        if not self.takes(kind, value):
            raise Bad

    def words(self, *words):
        for word in words:
            self.take("word", word)

    def name(self):
        if not self.left or self.left[-1][0] != "word" or self.left[-1][1] == "primary":
            raise Bad
        return self.left.pop()[1]

    def literal(self):
        if not self.left or self.left[-1][0] not in ("int", "text"):
            raise Bad
        return self.left.pop()[1]

    def listed(self, item, between=",", value=None):
        items = [item()]
        while self.takes(between, value):
            items.append(item())
        return items

    def row(self, may_be_empty=False):
        self.take("(")
        if may_be_empty and self.takes(")"):
            return ()
        values = self.listed(self.literal)
        self.take(")")
        return tuple(values)

    def column(self):
        first = self.name()
        return (first, self.name()) if self.takes(".") else (None, first)

    def cond(self):
        left = self.column()
        op = self.left.pop()[0] if self.left else ""
        if op not in OPS:
            raise Bad
        if op == "=" and self.left and self.left[-1][0] == "word":
            return left, "join", self.column()
        return left, op, self.literal()

    def end(self):
        if self.left:
            raise Bad


# The statements of a certificate.

def kind_of(value):
    return "int" if isinstance(value, int) else "text"


def same_kinds(values, kinds):
    if [kind_of(value) for value in values] != kinds:
        raise Bad


def read_create(reader, tables):
    reader.words("create")
    strict = reader.takes("word", "strict")
    reader.words("table")
    name, columns = reader.name(), []
    reader.take("(")
    while not reader.sees("word", "primary"):
        columns.append((reader.name(), reader.name()))
        reader.take(",")
    reader.words("primary", "key")
    reader.take("(")
    key = reader.listed(reader.name)
    reader.take(")")
    reader.take(")")
    reader.end()
    names = [column for column, _ in columns]
    if (not 1 <= len(columns) <= 16 or any(kind not in ("int", "text") for _, kind in columns) or len(tables) == 12 or name in tables
            or len(set(names)) < len(names) or len(set(key)) < len(key) or not set(key) <= set(names)):
        raise Bad
    tables[name] = Table(name, columns, [names.index(column) for column in key], strict)


def read_prove(reader, tables):
    reader.words("prove", "row")
    row = reader.row(may_be_empty=True)
    reader.words("for")
    columns = [] if reader.takes("word", "exists") else reader.words("select") or reader.listed(reader.column)
    reader.words("from")
    names = reader.listed(reader.name)
    conds = reader.listed(reader.cond, "word", "and") if reader.takes("word", "where") else []
    reader.end()
    if len(names) > 12 or len(columns) > 192 or len(set(names)) < len(names) or not set(names) <= set(tables):
        raise Bad
    chosen = [tables[name] for name in names]

    def resolved(column):
        places = [(atom, place) for atom, table in enumerate(chosen) for place, (name, _) in enumerate(table.columns)
                  if column[0] in (None, table.name) and name == column[1]]
        if len(places) != 1:
            raise Bad
        return places[0]

    def kind(column):
        return chosen[column[0]].columns[column[1]][1]

    answer, joins, tests = [resolved(column) for column in columns], [], []
    for left, op, right in conds:
        left = resolved(left)
        if op == "join":
            joins.append((left, resolved(right)))
            if kind(left) != kind(joins[-1][1]):
                raise Bad
        else:
            tests.append((left, op, right))
            same_kinds([right], [kind(left)])
    same_kinds(row, [kind(column) for column in answer])
    return Query(chosen, answer, joins, tests), row


def read_order(reader, query):
    reader.words("order")
    names = reader.listed(reader.name)
    reader.end()
    known = [table.name for table in query.tables]
    if sorted(names) != sorted(known):
        raise Bad
    return [known.index(name) for name in names]


def read_block(reader, tables):
    reader.words("block")
    name = reader.name()
    reader.words("values")
    rows = reader.listed(reader.row)
    reader.end()
    if name not in tables:
        raise Bad
    for row in rows:
        same_kinds(row, [kind for _, kind in tables[name].columns])
    return name, rows


class Certificate:
    """What a text says, statement by statement."""

    def __init__(self):
        self.tables, self.query, self.row, self.order, self.blocks = {}, None, None, None, []

    def take(self, text):
        reader = Reader(text)
        if self.query is None and reader.sees("word", "create"):
            read_create(reader, self.tables)
        elif self.query is None:
            self.query, self.row = read_prove(reader, self.tables)
        elif self.order is None:
            self.order = read_order(reader, self.query)
        else:
            self.blocks.append(read_block(reader, self.tables))


def read(data):
    """The certificate of a text; or the number of the statement that isn't of its form."""
    texts, blank = cut(data)
    found = Certificate()
    for number, text in enumerate(texts, 1):
        try:
            found.take(text)
        except Bad:
            return number
    return found if found.order is not None and blank else len(texts) + 1


# The blocks.

def fault_of(found, listed, atom, chosen, name, rows):
    """Why a block can't stand where one of an atom is due, or None."""
    table = found.query.tables[atom]
    if name != table.name:
        return "WrongTable"
    keys = {table.key_of(row) for row in rows}
    if len(keys) > 1 or len(set(rows)) < len(rows):
        return "NotABlock"
    if listed.setdefault((atom, keys.pop()), rows) != rows:
        return "OtherRows"
    if not all(found.query.fits({**chosen, atom: row}, found.row) for row in rows):
        return "NotFitting"
    return None


def judge(found):
    """What is said of the blocks."""
    listed, due = {}, [(0, {})]
    for number, (name, rows) in enumerate(found.blocks, 1):
        if not due:
            return "refused block %d Surplus" % number
        depth, chosen = due.pop()
        atom = found.order[depth]
        cause = fault_of(found, listed, atom, chosen, name, rows)
        if cause:
            return "refused block %d %s" % (number, cause)
        if depth + 1 < len(found.order):
            due.extend((depth + 1, {**chosen, atom: row}) for row in reversed(rows))
    return "refused block %d Missing" % (len(found.blocks) + 1) if due else "verified"


def line_of(data):
    """The line of `check` on an input that isn't a formula."""
    first, feed, rest = data.partition(b"\n")
    if not feed or first not in (b"rewriting", b"rewriting\r"):
        return "refused line 1 BadFormula"
    found = read(rest)
    return "refused statement %d BadText" % found if isinstance(found, int) else judge(found)


# Queries, and the certificates that the machine makes.

def random_table(pick, at):
    columns = [("c%d" % place, pick.choice(["int", "int", "int", "text"])) for place in range(pick.randint(1, 3))]
    key = pick.sample(range(len(columns)), pick.randint(1, min(2, len(columns))))
    table = Table(pick.choice(["t%d", "block%d", "order%d"]) % at, columns, key, pick.random() < 0.2)
    for _ in range(pick.randint(1, 6)):
        row = tuple(pick.randint(0, 1) if kind == "int" else pick.choice(TEXTS[:3]) for _, kind in columns)
        if not (table.strict and table.clash([row])):
            table.rows.add(row)
    return table


def random_query(pick):
    tables = [random_table(pick, at) for at in range(pick.randint(1, 4))]
    columns = [(atom, place) for atom, table in enumerate(tables) for place in range(len(table.columns))]

    def kind(column):
        return tables[column[0]].columns[column[1]][1]

    keys = [(atom, place) for atom, table in enumerate(tables) for place in table.key]
    pairs = [(pick.choice(columns), pick.choice(pick.choice([columns, keys]))) for _ in range(pick.randint(0, 3))]
    joins = [(left, right) for left, right in pairs if kind(left) == kind(right)]
    tests = []
    for column in pick.choices(columns, k=pick.randint(0, 2)):
        tests.append((column, pick.choice(list(OPS)), pick.randint(0, 1) if kind(column) == "int" else pick.choice(TEXTS)))
    return Query(tables, pick.choices(columns, k=pick.choice([0, 0, 1, 2])), joins, tests)


def wide_query(pick):
    """A query whose trees list blocks of several rows more than once."""
    first, second = Table("r", [("x", "int"), ("y", "int"), ("n", "int")], [0]), Table("s", [("y", "int"), ("z", "text")], [0])
    first.rows = {(0, pick.randint(0, 1), number) for number in range(pick.randint(2, 4))}
    second.rows = {(y, text) for y in (0, 1) for text in TEXTS[:pick.randint(1, 4)]}
    return Query([first, second], [], [((0, 1), (1, 0))], [])


class Tree:
    """The tree of blocks that the machine makes along an order for a row."""

    def __init__(self, query, answer):
        self.query, self.answer = query, answer

    def holds(self, chosen, order):
        return not order or any(self.holds_by(chosen, order, block) for block in self.query.tables[order[0]].blocks())

    def holds_by(self, chosen, order, block):
        return all(self.query.fits({**chosen, order[0]: row}, self.answer) and self.holds({**chosen, order[0]: row}, order[1:]) for row in block)

    def blocks(self, chosen, order):
        """The statements of the tree behind the rows chosen, each node before those under its rows."""
        if not order:
            return
        table = self.query.tables[order[0]]
        block = next(block for block in table.blocks() if self.holds_by(chosen, order, block))
        yield "block %s values %s;" % (table.name, ", ".join(map(row_text, block)))
        for row in block:
            yield from self.blocks({**chosen, order[0]: row}, order[1:])


def creates(query):
    return ["create %stable %s;" % ("strict " if table.strict else "", table.schema()) for table in query.tables]


def certificate(query, order, answer):
    return (["rewriting"] + creates(query) + ["prove row %s for %s;" % (row_text(answer), query.text()),
                                              "order %s;" % ", ".join(query.tables[atom].name for atom in order)]
            + list(Tree(query, answer).blocks({}, order)))


# Changes.

def rows_of(line):
    """The front of a block's statement, and its rows as texts."""
    front, rows = line[:-1].split(" values ", 1)
    return front + " values ", ["(" + row + ")" for row in rows[1:-1].split("), (")]


def other_rows(pick, lines, at):
    """A block with its rows in another order, without one, or with one twice."""
    front, rows = rows_of(lines[at])
    way = pick.randrange(3)
    if way == 0:
        pick.shuffle(rows)
    elif way == 1 and len(rows) > 1:
        rows.pop(pick.randrange(len(rows)))
    else:
        rows.append(pick.choice(rows))
    lines[at] = front + ", ".join(rows) + ";"


def other_digit(pick, lines, at):
    places = [place for place, byte in enumerate(lines[at]) if byte in "0123456789" and place > 6]
    if places:
        place = pick.choice(places)
        lines[at] = lines[at][:place] + pick.choice("0123") + lines[at][place + 1:]


def other_spelling(pick, lines, at):
    at = pick.randrange(1, len(lines))
    if "'" not in lines[at]:
        lines[at] = "-- a comment;\r\n\t" + lines[at].replace(", ", " ,\n")


def other_condition(pick, lines, at):
    at = next(at for at, line in enumerate(lines) if line.startswith("prove "))
    lines[at] = lines[at].replace(pick.choice(["=", "<", "0", "1"]), pick.choice(["=", "<", ">", "0", "1"]), 1)


def other_order(pick, lines, at):
    at = next(at for at, line in enumerate(lines) if line.startswith("order "))
    names = lines[at][6:-1].split(", ")
    pick.shuffle(names)
    lines[at] = "order " + ", ".join(names) + ";"


def another_statement(pick, lines, at):
    lines.insert(pick.randrange(1, len(lines)), pick.choice([";", "dump;", "create table zz (a int, primary key (a));", "copy zz;\n\\."]))


def again_otherwise(pick, lines, at):
    """A block that is listed again, changed there."""
    again = [at for at, line in enumerate(lines) if line.startswith("block ") and line in lines[:at] and "), (" in line]
    if again:
        other_rows(pick, lines, pick.choice(again))


def zeros_before(pick, lines, at):
    lines[at] = lines[at].replace("(0", "(00", 1)


def without(pick, lines, at):
    del lines[at]


def twice(pick, lines, at):
    lines.insert(at, lines[at])


def exchanged(pick, lines, at):
    other = pick.randrange(1, len(lines))
    lines[at], lines[other] = lines[other], lines[at]


WAYS = [other_rows, other_digit, other_spelling, other_condition, other_order, another_statement, again_otherwise, again_otherwise,
        zeros_before, without, twice, exchanged]


def changed(pick, lines):
    """The text of a certificate with one thing changed."""
    lines = list(lines)
    blocks = [at for at, line in enumerate(lines) if line.startswith("block ")]
    way = pick.randrange(len(WAYS) + 1)
    if way < len(WAYS):
        WAYS[way](pick, lines, pick.choice(blocks))
        return "\n".join(lines) + "\n"
    text = "\n".join(lines)
    return text[:pick.randrange(len(text))]


# What a verified certificate means.

def around(pick, found):
    """The certificate's query over databases that have its blocks, among rows of other keys."""
    for _ in range(4):
        tables = []
        for table in found.query.tables:
            rows = {row for name, block in found.blocks if name == table.name for row in block}
            keys = {table.key_of(row) for row in rows}
            for _ in range(pick.randint(0, 3)):
                row = tuple(pick.randint(-1, 2) if kind == "int" else pick.choice(TEXTS) for _, kind in table.columns)
                rows |= {row} if table.key_of(row) not in keys else set()
            tables.append(table.with_rows(rows))
        if all(not table.strict or not table.conflicts() for table in tables):
            query = found.query.over(tables)
            if query.work() <= MOST_WORK:
                yield query


# The comparison.

def run(program, word, data):
    return subprocess.run([program, word], input=data, stdout=subprocess.PIPE, check=False).stdout


def proofs(program, query, answers):
    """The replies to `prove` and to `explain` of each row. Another statement stands between two."""
    script = creates(query) + ["insert into %s values %s;" % (table.name, ", ".join(map(row_text, sorted(table.rows, key=order)))) for table in query.tables]
    asked = ["%s row %s for %s;" % (verb, row_text(answer), query.text()) for answer in answers for verb in ("prove", "explain")]
    marked = ["set conflicts %d;\n%s" % (10 ** 6 + number, text) for number, text in enumerate(asked + [""])]
    rest, found = run(program, "run", ("\n".join(script + marked) + "\n").encode()), []
    for number in range(len(marked)):
        reply, _, rest = rest.partition(b"conflicts %d\n" % (10 ** 6 + number))
        found.append(reply)
    return list(zip(found[1::2], found[2::2]))


class Tries:
    """What is tried with one program, and how often each came."""

    def __init__(self, program):
        self.program, self.said = program, collections.Counter()

    def check(self, pick, text):
        """Compares the line on a text; where it is verified, the row has to be certain wherever its blocks stand."""
        data = text.encode()
        line, written = line_of(data), run(self.program, "check", data)
        if written != line.encode() + b"\n":
            raise Differs("%s\n-- check: %s\n-- here: %s" % (text, written.decode(), line))
        self.said[re.sub("[0-9]+ ", "", line)] += 1
        if line == "verified":
            found = read(data.partition(b"\n")[2])
            for query in around(pick, found):
                self.said["a database that has the blocks"] += 1
                if found.row not in query.certain():
                    raise Differs("%s\n-- not certain" % text)

    def prove(self, query, plan, answer, proved, explained):
        """Compares the reply to `prove`."""
        if plan is None:
            wanted = b"no plan\n"
        elif answer in query.certain():
            wanted = ("\n".join(certificate(query, plan, answer)) + "\n").encode()
        else:
            wanted = explained
        if proved != wanted:
            raise Differs("prove row %s for %s;\n-- prove:\n%s-- here:\n%s" % (row_text(answer), query.text(), proved.decode(), wanted.decode()))
        self.said["no plan" if plan is None else "a printed certificate" if proved != explained else "a rejected row"] += 1

    def seed(self, seed):
        pick = random.Random(seed)
        query = random_query(pick) if seed % 4 else wide_query(pick)
        if query.work() > MOST_WORK:
            return
        plan, answers = query.plan(), query.possible()
        shuffled = pick.sample(range(len(query.tables)), len(query.tables))
        for answer, (proved, explained) in zip(answers, proofs(self.program, query, answers)):
            self.prove(query, plan, answer, proved, explained)
            for along in (plan, shuffled):
                if along is None or not Tree(query, answer).holds({}, along):
                    continue
                self.said["along an order that is no plan"] += along != plan
                lines = certificate(query, along, answer)
                if line_of(("\n".join(lines) + "\n").encode()) != "verified":
                    raise Differs("\n".join(lines))
                for text in ["\n".join(lines) + "\n"] + [changed(pick, lines) for _ in range(CHANGES)]:
                    self.check(pick, text)


def main():
    parser = argparse.ArgumentParser(description=__doc__.split("\n")[0])
    parser.add_argument("program", nargs="?", default=PROGRAM)
    parser.add_argument("--seed", type=int, default=1)
    parser.add_argument("--count", type=int, default=200)
    asked = parser.parse_args()
    tries = Tries(asked.program)
    for seed in range(asked.seed, asked.seed + asked.count):
        try:
            tries.seed(seed)
        except Differs as differs:
            print("seed %s\n%s" % (seed, differs))
            return 1
    for name, number in sorted(tries.said.items()):
        print("%7d  %s" % (number, name))
    print("%d seeds: no difference" % asked.count)
    return 0


if __name__ == "__main__":
    sys.exit(main())
