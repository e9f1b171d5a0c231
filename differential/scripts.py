#!/usr/bin/env python3
"""Random scripts, run by the program and by a machine that looks at all repairs (model.py), and compared reply by reply.

    differential/scripts.py [PROGRAM] [--seed S] [--count N] [--pieces]

Half of the scripts ask joins of four to six tables that have a plan; the others have queries of all kinds, and unions of them.

Where a reply is free, it is judged by what it has to be: the repair of an explanation must hold no witness of its row, a
refutation must be one of the row's formula and `check` must verify it, and a search may be refused as spent only where its
budget can be too small for the row's formula. Of the rows that stand `against` a row no repair that keeps them may hold a witness
of it, and without any of them one must. The rows that a `range` keeps must be those of a repair that has the end before them. Each
step of a log must follow by its hints, in an order in which each of them is of use. A spent log must add as many clauses as its
budget has, each new over all before it, and leave a variable open. `--pieces` feeds each script in random pieces with pauses. A difference prints the script, the reply and what was
expected, and ends with status 1. Python 3.9 and its library alone are needed.
"""

import argparse
import itertools
import os
import random
import re
import subprocess
import sys
import time

from model import OPS, Query, Table, Union, literal, row_text

TOP = os.path.dirname(os.path.dirname(os.path.abspath(__file__)))
PROGRAM = os.path.join(TOP, "crates", "cqa_cli", "out", "cqa_cli")
TEXTS = ["", "a", "b", "o'b", "\u00e9", "zz"]
NUMBERS = [0, 1, 2, 3]
LEAST = -9223372036854775808
AMOUNTS = [LEAST, -7, -1, 0, 2, 2, 5, 9223372036854775807]
MOST_RANGED = 300
"""The most repairs that are gone over for a range."""


class Differs(Exception):
    pass


class Lines:
    """The output, read reply by reply."""

    def __init__(self, text, program):
        self.lines, self.at, self.program = text.split("\n")[:-1], 0, program
        self.log, self.owed, self.spent = ["no log"], None, []

    def peek(self):
        return self.lines[self.at] if self.at < len(self.lines) else ""

    def next(self):
        if self.at == len(self.lines):
            raise Differs("the output ends here")
        self.at += 1
        return self.lines[self.at - 1]

    def expect(self, *lines):
        for line in lines:
            found = self.next()
            if found != line:
                raise Differs("written: %s\nexpected: %s" % (found, line))

    def while_like(self, pattern):
        start = self.at
        while self.at < len(self.lines) and re.fullmatch(pattern, self.lines[self.at]):
            self.at += 1
        return self.lines[start:self.at]


class Script:
    """A script that is made statement by statement, with what judges the reply to each."""

    def __init__(self, seed):
        self.random, self.tables, self.statements = random.Random(seed), [], []
        self.budget, self.cycle = 200_000, []

    def say(self, text, judge):
        self.statements.append((text, judge))

    def replied(self, text, *lines):
        self.say(text, lambda out: out.expect(*lines))

    def kind_of_value(self, kind):
        return self.random.choice(NUMBERS if kind == "int" else TEXTS)

    def row(self, table):
        return tuple(self.kind_of_value(kind) for _, kind in table.columns)

    # Tables.

    def create(self):
        pick = self.random
        name = "t%d" % len(self.tables)
        columns = [("c%d" % place, pick.choice(["int", "int", "int", "text"])) for place in range(pick.randint(1, 4))]
        key = pick.sample(range(len(columns)), pick.randint(1, min(2, len(columns))))
        table = Table(name, columns, key, pick.random() < 0.2)
        self.tables.append(table)
        self.replied("create %stable %s;" % ("strict " if table.strict else "", table.schema()), "created " + name)

    def insert(self, copy=False):
        table = self.random.choice(self.tables)
        rows = [self.row(table) for _ in range(self.random.randint(1, 3))]
        if copy:
            def field(value):
                return str(value) if isinstance(value, int) else '"%s"' % value
            text = "copy %s;\n%s\\." % (table.name, "".join(",".join(map(field, row)) + "\n" for row in rows))
        else:
            text = "insert into %s values %s;" % (table.name, ", ".join(map(row_text, rows)))
        clash = table.clash(rows) if table.strict else None
        if clash:
            number, kept, fresh = clash
            self.replied(text, "error 20 KeyTaken row %d %s %s" % (number, row_text(kept), row_text(fresh)))
        else:
            fresh = set(rows) - table.rows
            table.rows |= fresh
            self.replied(text, "%s %d" % ("copied" if copy else "inserted", len(fresh)))

    def tests_of(self, table):
        """Tests of one or more columns of a table."""
        return [(place, self.random.choice(sorted(OPS)), self.kind_of_value(table.columns[place][1]))
                for place in self.random.sample(range(len(table.columns)), self.random.randint(1, len(table.columns)))]

    def delete(self):
        table = self.random.choice(self.tables)
        tests = self.tests_of(table)
        gone = {row for row in table.rows if table.meets(row, tests)}
        table.rows -= gone
        self.replied("delete from %s where %s;" % (table.name, tests_text(table, tests)), "deleted %d" % len(gone))

    def prefer(self):
        table = self.random.choice(self.tables)
        tests = self.tests_of(table)
        left = table.preferred(tests)
        deleted, table.rows = len(table.rows) - len(left), left
        self.replied("prefer %s where %s;" % (table.name, tests_text(table, tests)), "deleted %d" % deleted)

    def alter(self):
        table, pick = self.random.choice(self.tables), self.random
        change = pick.randint(0, 2)
        if change == 1:
            table.strict = False
            return self.replied("alter table %s drop strict;" % table.name, "altered " + table.name)
        key = pick.sample(range(len(table.columns)), pick.randint(1, len(table.columns))) if change else table.key
        what = "set primary key (%s)" % ", ".join(table.columns[place][0] for place in key) if change else "set strict"
        text = "alter table %s %s;" % (table.name, what)
        broken = table.broken(key) if table.strict or change == 0 else None
        if broken:
            return self.replied(text, "error 21 KeyBroken %s %s" % tuple(map(row_text, broken)))
        table.key, table.strict = key, table.strict or change == 0
        return self.replied(text, "altered " + table.name)

    def show(self):
        lines = ["%s%s rows %d blocks %d" % ("strict " if table.strict else "", table.schema(), len(table.rows), len(table.blocks()))
                 for table in self.tables]
        self.replied("show tables;", *lines, "%d tables" % len(lines))

    def show_conflicts(self):
        lines = ["%s rows %d blocks %d conflicts %d" % (table.name, len(table.rows), len(table.blocks()), len(table.conflicts()))
                 for table in self.tables]
        self.replied("show conflicts;", *lines, "%d tables" % len(lines))

    def set_conflicts(self):
        self.budget = self.random.choice([0, 1, 2, 3, 200_000, 200_000])
        self.replied("set conflicts %d;" % self.budget, "conflicts %d" % self.budget)

    def show_log(self):
        self.say("show log;", shows_log)

    # Ranges.

    def ranged(self):
        """A range over any table."""
        self.range_of(self.random.choice(self.tables), NUMBERS)

    def amounts(self):
        """A range over a table with small and great numbers, which is made if it isn't there, and filled anew."""
        pick = self.random
        table = next((table for table in self.tables if table.name == "amount"), None)
        if table is None:
            names = pick.sample(["from", "sum", "count", "range", "where", "group", "by"], 4)
            columns = list(zip(names, ["int", pick.choice(["int", "text"]), "int", "text"]))
            table = Table("amount", columns, pick.sample(range(4), pick.randint(1, 2)), pick.random() < 0.2)
            self.tables.append(table)
            self.replied("create %stable %s;" % ("strict " if table.strict else "", table.schema()), "created amount")
        rows = {tuple(pick.choice(AMOUNTS if kind == "int" else TEXTS) for _, kind in table.columns) for _ in range(pick.randint(0, 12))}
        self.fill(table, {block[0] for block in table.with_rows(rows).blocks()} if table.strict else rows)
        for _ in range(3):
            self.range_of(table, AMOUNTS)

    def range_of(self, table, numbers):
        pick, table = self.random, table.copy()
        if table.number_of_repairs() > MOST_RANGED:
            return
        word = pick.choice(["count", "sum", "min", "max"])
        place = pick.randrange(len(table.columns)) if word != "count" else None
        tests = []
        for _ in range(pick.choice([0, 1, 1, 2, 3])):
            column = pick.randrange(len(table.columns))
            value = pick.choice(numbers if table.columns[column][1] == "int" else TEXTS)
            tests.append((column, pick.choice(sorted(OPS)), value))
        group = pick.randrange(len(table.columns)) if pick.random() < 0.5 else None
        if pick.random() < 0.1:
            return self.refused_range(table, word, place, tests)
        text = "range %s%s;" % (aggregate_text(table, word, place, tests), "" if group is None else " group by " + table.columns[group][0])
        if word == "sum" and table.columns[place][1] == "text":
            return self.replied(text, "error 9 TypeMismatch condition 0")
        if group is not None:
            return self.replied(text, *groups_lines(table.groups((word, place), tests, group)))
        return self.say(text, lambda out: is_range(out, table, (word, place), tests))

    def refused_range(self, table, word, place, tests):
        """A range with a fault or two, of which the first one in the order of checks is told: the table, the aggregate, the tests, the
        groups."""
        pick = self.random
        of_text = word == "sum" and table.columns[place][1] == "text"
        wrong = pick.sample(["table", "column", "test", "kind", "group"], pick.randint(1, 3))
        text = aggregate_text(table, word, place, tests)
        if tests and "kind" in wrong:
            column, op, value = tests[-1]
            tests = tests[:-1] + [(column, op, "a" if table.columns[column][1] == "int" else 1)]
            text = aggregate_text(table, word, place, tests)
        if tests and "test" in wrong:
            text += " and other = 1"
        if word != "count" and "column" in wrong:
            text = text.replace(" %s from " % table.columns[place][0], " nothing from ", 1)
        if "group" in wrong:
            text += " group by missing"
        if "table" in wrong:
            text = re.sub(r" from %s\b(?! from)" % table.name, " from nowhere", text, count=1)
        first = [("table", "error 4 UnknownTable nowhere", True),
                 ("column", "error 6 UnknownColumn nothing", word != "count"),
                 ("sum", "error 9 TypeMismatch condition 0", of_text),
                 ("kind", "error 9 TypeMismatch condition %d" % len(tests), bool(tests)),
                 ("test", "error 6 UnknownColumn other", bool(tests)),
                 ("group", "error 6 UnknownColumn missing", True)]
        told = next((line for what, line, can in first if can and (what == "sum" or what in wrong)), None)
        if told:
            self.replied("range %s;" % text, told)

    def joined(self):
        """A range over a join. Mostly all tables but one are made strict before, where they break no key."""
        pick, query = self.random, self.query()
        if len(query.tables) < 2:
            return
        for table in pick.sample(query.tables, len(query.tables) - 1) if pick.random() < 0.8 else []:
            stored = next(one for one in self.tables if one.name == table.name)
            if not table.strict and not table.conflicts():
                table.strict = stored.strict = True
                self.replied("alter table %s set strict;" % table.name, "altered " + table.name)
        if query.number_of_repairs() <= MOST_RANGED:
            self.range_over(query)

    def sales(self):
        """Ranges over a table with conflicts and a strict one that it joins, which are made if they aren't there, and filled anew."""
        pick, tables = self.random, [table for table in self.tables if table.name in ("sale", "shop")]
        if not tables:
            tables = [Table("sale", [("id", "int"), ("shop", "int"), ("amount", "int"), ("note", "text")], [0]),
                      Table("shop", [("id", "int"), ("town", "text"), ("level", "int")], [0], True)]
            for table in tables:
                self.tables.append(table)
                self.replied("create %stable %s;" % ("strict " if table.strict else "", table.schema()), "created " + table.name)
        for table in tables:
            rows = {self.row(table) for _ in range(pick.randint(2, 9))}
            self.fill(table, {block[0] for block in table.with_rows(rows).blocks()} if table.strict else rows)
        for _ in range(3):
            sale, shop = (0, 1) if pick.random() < 0.5 else (1, 0)
            column = pick.choice([(sale, 0), (sale, 2), (shop, 2)])
            tests = [(column, pick.choice(sorted(OPS)), pick.choice(NUMBERS))] if pick.random() < 0.3 else []
            joins = pick.choice([[]] + [[((sale, 1), (shop, 0))]] * 4 + [[((sale, 1), (shop, 2))]])
            query = Query([table.copy() for table in (tables if sale == 0 else tables[::-1])], [], joins, tests)
            if query.number_of_repairs() <= MOST_RANGED:
                self.range_over(query)

    def range_over(self, query):
        """A range over a join, half of them by groups."""
        pick = self.random
        columns = [(atom, place) for atom, table in enumerate(query.tables) for place in range(len(table.columns))]
        word = pick.choice(["count", "sum", "sum", "min", "max"])
        column = pick.choice(columns) if word != "count" else None
        group = pick.choice(columns) if pick.random() < 0.5 else None
        of_text = word == "sum" and query.tables[column[0]].columns[column[1]][1] == "text"
        lax = [table for table in query.tables if not table.strict]
        written = "" if group is None else self.written(query, group)
        fault = self.fault_of_group(query) if group is not None and pick.random() < 0.1 else None
        text = "range %s%s;" % (joined_text(query, word, column), " group by " + (fault or (written,))[0] if group is not None else "")
        if of_text:
            return self.replied(text, "error 9 TypeMismatch condition 0")
        if fault:
            return self.replied(text, "error " + fault[1])
        if len(lax) > 1:
            return self.replied(text, "error 23 NotStrict " + lax[1].name)
        if group is not None:
            return self.replied(text, *groups_lines(query.groups((word, column), group)))
        return self.say(text, lambda out: is_joined_range(out, query, (word, column), lax))

    def owners(self, query, name):
        """The tables of a query that have a column of a name."""
        return [table for table in query.tables if name in dict(table.columns)]

    def written(self, query, column):
        """A column as it may be written: with its table, or alone where no other table has one of its name."""
        name = query.tables[column[0]].columns[column[1]][0]
        return name if len(self.owners(query, name)) == 1 and self.random.random() < 0.5 else query.name(column)

    def fault_of_group(self, query):
        """A column that makes no groups, and the refusal."""
        table = self.random.choice(query.tables)
        faults = [("missing", "6 UnknownColumn missing"), (table.name + ".missing", "6 UnknownColumn %s.missing" % table.name),
                  ("nowhere.missing", "4 UnknownTable nowhere")]
        faults += [(name, "7 AmbiguousColumn " + name) for name, _ in table.columns if len(self.owners(query, name)) > 1]
        return self.random.choice(faults)

    # Queries.

    def join(self, columns, kind, joins):
        """Two columns of one kind: mostly of two tables, as those of the last join, or of one, or a column twice."""
        left, how = self.random.choice(columns), self.random.choice(["other"] * 6 + ["again"] * 3 + ["within", "itself"])
        fits = {"other": lambda one, other: one[0] != other[0], "within": lambda one, other: one[0] == other[0] and one != other,
                "itself": lambda one, other: one == other,
                "again": lambda one, other: joins and {one[0], other[0]} == {column[0] for column in joins[-1]}}[how]
        lefts = columns if how == "again" else [left]
        pairs = [(one, other) for one in lefts for other in columns if kind(one) == kind(other)]
        return self.random.choice([pair for pair in pairs if fits(*pair) and pair not in joins] or pairs)

    def query(self, stored=None):
        """A query of some tables, which are copied unless they are given."""
        pick = self.random
        tables = pick.sample(stored or [table.copy() for table in self.tables], pick.randint(1, min(4 if stored is None else 2, len(self.tables))))
        columns = [(atom, place) for atom, table in enumerate(tables) for place in range(len(table.columns))]

        def kind(column):
            return tables[column[0]].columns[column[1]][1]

        joins = []
        for _ in range(pick.randint(len(tables) - 1, len(tables) + 1)):
            joins.append(self.join(columns, kind, joins))
        tests = []
        for _ in range(pick.choice([0, 0, 1, 2])):
            column = pick.choice(pick.choice(joins) if joins and pick.random() < 0.5 else columns)
            tests.append((column, pick.choice(["=", "=", "<>", "<", "<=", ">", ">="]), self.kind_of_value(kind(column))))
        answer = [pick.choice(columns) for _ in range(pick.randint(0, 3))]
        return Query(tables, answer, joins, tests)

    # Unions.

    def part_like(self, part):
        """The same query with a test more, mostly of a value that stands in a block of several rows."""
        pick = self.random
        told = [((atom, place), block[0][place]) for atom, table in enumerate(part.tables) for block in table.conflicts()
                for place in range(len(table.columns)) if len({row[place] for row in block}) > 1]
        if told and pick.random() < 0.8:
            column, value = pick.choice(told)
        else:
            column = pick.choice([(atom, place) for atom, table in enumerate(part.tables) for place in range(len(table.columns))])
            value = self.kind_of_value(part.tables[column[0]].columns[column[1]][1])
        return Query(part.tables, part.answer, part.joins, part.tests + [(column, pick.choice(sorted(OPS)), value)])

    def opposites(self, part):
        """Two parts of which each row of a query's witness meets one."""
        one = self.part_like(part)
        column, op, value = one.tests[-1]
        other = {"=": "<>", "<>": "=", "<": ">=", ">=": "<", ">": "<=", "<=": ">"}[op]
        return [one, Query(part.tables, part.answer, part.joins, part.tests + [(column, other, value)])]

    def part_beside(self, stored, kinds):
        """Any query whose answers have these kinds, if the tables of one have such columns."""
        part = self.query(stored)
        columns = [(atom, place) for atom, table in enumerate(part.tables) for place in range(len(table.columns))]
        fits = [[one for one in columns if part.tables[one[0]].columns[one[1]][1] == kind] for kind in kinds]
        return [Query(part.tables, [self.random.choice(of) for of in fits], part.joins, part.tests)] if all(fits) else []

    def any_union(self):
        pick, stored = self.random, [table.copy() for table in self.tables]
        first = self.query(stored)
        parts = self.opposites(first) if pick.random() < 0.8 else [first, pick.choice([first, self.part_like(first)])]
        for _ in range(pick.choice([0, 0, 1, 1, 2])):
            parts += self.part_beside(stored, first.kinds())
        return Union(stored, pick.sample(parts, len(parts)))

    def union(self):
        """A union, half of them with a row that is certain for it and for none of its parts, if one is found soon."""
        tried = [self.any_union() for _ in range(self.random.choice([1, 30]))]
        return next((one for one in tried if one.is_small() and one.surplus()), tried[0])

    def united(self):
        """A question of a union, or one with a fault."""
        union = self.union()
        if self.random.random() < 0.15:
            return self.refused_union(union)
        verb = self.random.choice(["ask", "ask", "possible", "explain", "explain", "classify", "sql"])
        if verb == "classify":
            shared = union.shared()
            return self.replied("classify %s;" % union.text(), *(line for number, part in enumerate(union.parts, 1)
                                                                 for line in ["part %d" % number] + class_lines(part)),
                                "together " + shared[0].name if shared else "apart")
        if verb == "sql":
            return self.sql_of_union(union)
        if not union.is_small():
            return None
        if verb == "possible":
            return self.replied("possible %s;" % union.text(), *rows_lines(union.possible()))
        if verb == "explain":
            self.explain_one(union, self.explain)
        else:
            self.ask(union)
        return self.show_log()

    def sql_of_union(self, union):
        """The text of a union, which is those of its parts put together, or why it has none."""
        unplanned = [number for number, part in enumerate(union.parts, 1) if part.plan() is None]
        if unplanned:
            return self.replied("sql %s;" % union.text(), "no plan part %d" % unplanned[0])
        if union.shared():
            table, first, second = union.shared()
            return self.replied("sql %s;" % union.text(), "no sql parts %d and %d share %s" % (first, second, table.name))
        return self.say("sql %s;" % union.text(), lambda out: is_union_text(out, len(union.parts)))

    def refused_union(self, union):
        """A union with a fault or two, of which the first one in the order of checks is told: the number of parts, each part's query, the
        kinds of the parts' answers, the row of an `explain`."""
        pick, texts, faults = self.random, [part.text() for part in union.parts], []
        kinds = union.kinds()
        for number, part in enumerate(union.parts[1:], 2):
            how = pick.choice(["", "table", "longer", "kind"])
            if how == "table":
                texts[number - 1] += ", nowhere" if " where " not in texts[number - 1] else " and nowhere.c0 = 1"
                faults.append((0, number, "error 4 UnknownTable nowhere"))
            elif how == "longer":
                texts[number - 1] = Query(part.tables, part.answer + [(0, 0)], part.joins, part.tests).text()
                faults.append((1, number, "error 10 WrongArity row %d" % number))
            elif how == "kind":
                columns = [(atom, place) for atom, table in enumerate(part.tables) for place in range(len(table.columns))]
                answer = [pick.choice(columns) for _ in kinds]
                changed = Query(part.tables, answer, part.joins, part.tests)
                texts[number - 1] = changed.text()
                differ = [place for place, (one, other) in enumerate(zip(kinds, changed.kinds()), 1) if one != other]
                faults += [(1, number, "error 9 TypeMismatch row %d column %d" % (number, place)) for place in differ[:1]]
        if pick.random() < 0.2:
            texts += texts[:1] * (9 - len(texts))
            faults.append((-1, 0, "error 16 Limit selects 8"))
        verb = pick.choice(["ask", "possible", "classify", "sql", "explain row %s for" % row_text(tuple(map(self.kind_of_value, kinds)) + (1,))])
        if verb.startswith("explain"):
            faults.append((2, 0, "error 10 WrongArity row 1"))
        if faults:
            self.replied("%s %s;" % (verb, " union ".join(texts)), min(faults)[2])

    def turned(self):
        """A query with a literal on the left of a condition."""
        query = self.query()
        head = "ask %s%s " % (query.text(), " and" if query.joins or query.tests else " where")
        column = "%s.%s" % (query.tables[0].name, query.tables[0].columns[0][0])
        value = literal(self.kind_of_value(query.tables[0].columns[0][1]))
        self.replied("%s%s = %s;" % (head, value, column), "error 2 Syntax at %d" % len(head.encode()))

    def has_cycle(self):
        """Whether there are two tables whose queries need a search; they are made if there were none."""
        if not self.cycle:
            self.cycle = [Table(name, [("g", "int"), ("k", "int"), ("z", "int")], [0, 1], False) for name in ("lhs", "rhs")]
            for table in self.cycle:
                self.tables.append(table)
                self.replied("create table %s;" % table.schema(), "created " + table.name)
        return not any(table.strict or table.key != [0, 1] for table in self.cycle)

    def fill(self, table, rows):
        """Rows of a table in place of those that it has."""
        column, kind = table.columns[0]
        least = literal(LEAST if kind == "int" else "")
        self.replied("delete from %s where %s >= %s;" % (table.name, column, least), "deleted %d" % len(table.rows))
        table.rows = rows
        if rows:
            self.replied("insert into %s values %s;" % (table.name, ", ".join(map(row_text, sorted(rows)))), "inserted %d" % len(rows))

    def crossed(self):
        """A query whose tables attack each other strongly: a row is nearly certain, and propagation leaves its formula open."""
        if not self.has_cycle():
            return
        pick, group = self.random, self.random.choice(NUMBERS)
        self.set_conflicts()
        blocks = [[(0, 1), (2, 3)], [(one, other) for one in (0, 1) for other in (2, 3)]]
        blocks[1][pick.randrange(4)] = tuple(pick.sample(NUMBERS, 2))
        for table, pairs in zip(self.cycle, blocks):
            self.fill(table, {(group, key, value) for key, pair in enumerate(pairs) for value in pair})
        answer = pick.choice([[], [(0, 0)]])
        joins = [((0, place), (1, place)) for place in (0, 2)]
        self.ask_of(Query([table.copy() for table in self.cycle], answer, joins, []))

    def wide(self):
        """The same over so many rows that they are searched in groups. Nobody lists the repairs: the explanation is judged."""
        if not self.has_cycle():
            return
        values = self.random.randint(12, 18)
        for table in self.cycle:
            self.fill(table, {(1, key, value) for key in range(int(values * self.random.uniform(3.0, 4.2)))
                              for value in self.random.sample(range(values), 3)})
        query = Query([table.copy() for table in self.cycle], [], [((0, 2), (1, 2))], [])
        self.replied("set conflicts 200000;", "conflicts 200000")
        self.budget = 200_000
        told = []
        self.say("explain row () for %s;" % query.text(), lambda out: told.append(out.peek()) or is_explained(out, query, ()))
        self.say("against row () for %s;" % query.text(), lambda out: is_certain(out) if told == ["certain by refutation"] else is_against(out, query, ()))
        for table in self.cycle:
            self.fill(table, set())

    # Joins of several tables.

    def create_linked(self, kind):
        """Six tables of one kind of values, whose first columns are their keys."""
        pick, strict = self.random, self.random.random() < 0.1
        for number in range(6):
            key = [0, 1] if pick.random() < 0.4 else [0]
            table = Table("t%d" % number, [("c%d" % place, kind) for place in range(4)], key, strict and number == 1)
            self.tables.append(table)
            self.replied("create %stable %s;" % ("strict " if table.strict else "", table.schema()), "created " + table.name)

    def fill_linked(self, table, values):
        """Rows of these values in place of those of a table: most keys have one, and a few of them a second one."""
        pick, rows = self.random, set()
        for key in itertools.product(values, repeat=len(table.key)):
            for _ in range(pick.choice([0, 1, 1, 1, 1, 1, 2, 2]) if len(table.key) == 1 else pick.choice([0, 0, 1, 1, 1, 2])):
                row = [pick.choice(values) for _ in table.columns]
                for place, value in zip(table.key, key):
                    row[place] = value
                rows.add(tuple(row))
        self.fill(table, rows if not table.strict else {block[0] for block in table.with_rows(rows).blocks()})

    def columns_of_edge(self, tables, edge):
        """Joins of two tables: on the key of one of them or off it, and on two columns of each in three of ten."""
        def others(table):
            return [place for place in range(len(table.columns)) if place not in table.key]

        pick, left, right = self.random, *(tables[atom] for atom in edge)
        count = 2 if pick.random() < 0.3 else 1
        is_foreign = pick.random() < 0.75
        theirs = right.key + (others(right)[:max(count - len(right.key), 0)] if is_foreign else others(right))
        pairs = zip(pick.sample(others(left), count), pick.sample(theirs, count))
        return [((edge[0], one), (edge[1], other)) for one, other in pairs]

    def linked(self, values):
        """A query of four to six tables: a tree, a star or a chain, some with a cycle of conditions or a table apart."""
        pick = self.random
        tables = [table.copy() for table in pick.sample(self.tables, pick.randint(4, 6))]
        before = pick.choice([pick.randrange, pick.randrange, lambda place: 0, lambda place: place - 1])
        linked = len(tables) - 1 if pick.random() < 0.1 else len(tables)
        edges = [(before(place), place) for place in range(1, linked)]
        if pick.random() < 0.2:
            edges.append(tuple(pick.sample(range(linked), 2)))
        joins = [join for edge in edges for join in self.columns_of_edge(tables, edge if pick.random() < 0.5 else edge[::-1])]
        columns = [(atom, place) for atom, table in enumerate(tables) for place in range(len(table.columns))]
        tests = [(pick.choice(columns), pick.choice(["=", "=", "<>", "<", "<=", ">", ">="]), pick.choice(values))
                 for _ in range(pick.choice([0, 0, 1]))]
        query = Query(tables, [pick.choice(columns) for _ in range(pick.randint(0, 3))], joins, tests)
        order = pick.sample(range(len(tables)), len(tables))
        return query.reordered(order)

    def linked_asked(self, values):
        """A query of these with a plan, over rows of which some are new."""
        for table in self.random.sample(self.tables, self.random.choice([0, 0, 1, 2])):
            self.fill_linked(table, values)
        query = next((query for query in (self.linked(values) for _ in range(30)) if query.plan() is not None), None)
        if query:
            self.ask_of(query)

    def make_linked(self, length):
        kind = self.random.choice(["int", "int", "int", "text"])
        values = (NUMBERS if kind == "int" else TEXTS[1:])[:self.random.choice([2, 3, 3])]
        self.create_linked(kind)
        for table in self.tables:
            self.fill_linked(table, values)
        rare = [self.delete, self.prefer, self.show, self.show_conflicts, self.ranged]
        rare.append(lambda: self.fill_linked(self.random.choice(self.tables), values))
        length += len(self.statements)
        while len(self.statements) < length:
            if self.random.random() < 0.1:
                self.random.choice(rare)()
            self.linked_asked(values)
        return self

    def asked(self):
        self.ask_of(self.query())

    def ask_of(self, query):
        if not query.is_small():
            return
        self.ask_or_explain(query)
        if query.needs_search():
            self.show_log()

    def ask_or_explain(self, query):
        text = query.text()
        verb = self.random.choice(["ask", "ask", "ask", "possible", "disputed", "classify", "plan", "explain", "against"])
        if verb in ("explain", "against"):
            return self.explain_one(query, self.explain if verb == "explain" else self.against)
        if verb == "disputed":
            return self.disputed(query)
        if verb in ("ask", "possible"):
            if verb == "ask":
                self.ask(query)
            else:
                self.replied("possible %s;" % text, *rows_lines(query.possible()))
            for row in query.possible() if self.random.random() < 0.2 else []:
                self.random.choice([self.explain, self.explain, self.against])(query, row)
            return None
        if verb == "classify":
            return self.replied("classify %s;" % text, *class_lines(query))
        plan = query.plan()
        steps = ["no plan"] if plan is None else ["step %d %s" % (number, query.tables[atom].name) for number, atom in enumerate(plan, 1)]
        return self.replied("plan %s;" % text, *steps)

    def ask(self, query):
        """The certain rows."""
        return self.searched("ask", query, query.certain())

    def disputed(self, query):
        """The rows that are possible and not certain. Where a search may be spent, an `ask` before it is refused at the same row."""
        first = self.ask(query) if query.needs_search() and self.random.random() < 0.5 else []
        self.searched("disputed", query, query.disputed(), first)

    def searched(self, verb, query, rows, refused=()):
        """A question that takes a search where the query has no plan. refused: the first line of another's reply, which is the same where
        either is refused. Gives a list with the first line of its own, once it is judged."""
        text, lines, budget, first = "%s %s;" % (verb, query.text()), rows_lines(rows), self.budget, []

        def judge(out):
            first.append(out.peek())
            if refused and refused[0] != first[0] and any(line.startswith("error ") for line in (*refused, *first)):
                raise Differs("ask says %s" % refused[0])
            is_searched(out, query, budget, query.possible(), lines)

        self.say(text, judge if query.needs_search() else lambda out: out.expect(*lines))
        return first

    def explain_one(self, query, explain):
        """Why some row is certain or isn't: mostly a possible one, and rarely one that doesn't fit the query."""
        candidates = query.possible()
        row = tuple(map(self.kind_of_value, query.kinds()))
        if self.random.random() < 0.05:
            return self.misfit(query, row, explain.__name__)
        if candidates and self.random.random() < 0.8:
            row = self.random.choice(candidates)
        return explain(query, row)

    def misfit(self, query, row, verb):
        """A row with a value more, or with a value of the other kind."""
        if row and self.random.random() < 0.5:
            place = self.random.randrange(len(row))
            row = row[:place] + ("a" if isinstance(row[place], int) else 1,) + row[place + 1:]
            fault = "error 9 TypeMismatch row 1 column %d" % (place + 1)
        else:
            row, fault = row + (1,), "error 10 WrongArity row 1"
        self.replied("%s row %s for %s;" % (verb, row_text(row), query.text()), fault)

    def against(self, query, row):
        """The rows that stand against a row, where it isn't certain."""
        text = "against row %s for %s;" % (row_text(row), query.text())
        budget, judge = self.budget, is_certain if row in query.certain() else lambda out: is_against(out, query, row)
        if query.needs_search() and is_spent_for(query, row, budget):
            self.say(text, lambda out: is_spent(out, query, budget, [row]) or judge(out))
        else:
            self.say(text, judge)

    def explain(self, query, row):
        text = "explain row %s for %s;" % (row_text(row), query.text())
        plan, holds, budget = query.plan(), row in query.certain(), self.budget
        if query.needs_search() and is_spent_for(query, row, budget):
            judge = is_refutation if holds else is_rejection
            self.say(text, lambda out: is_spent(out, query, budget, [row]) or judge(out, query, row))
        elif not holds:
            self.say(text, lambda out: is_rejection(out, query, row))
        elif plan is not None:
            table, block = query.tables[plan[0]], query.block_of(plan, row)
            self.replied(text, "certain by block %s %s" % (table.name, row_text(table.key_of(block[0]))))
        else:
            self.say(text, lambda out: is_refutation(out, query, row))

    def make(self, length):
        steps = [self.insert] * 8 + [lambda: self.insert(copy=True)] * 2 + [self.asked] * 6
        steps += [self.delete, self.prefer, self.alter, self.show, self.show_conflicts, self.set_conflicts, self.show_log]
        steps += [self.crossed, self.turned, self.united, self.united]
        steps += [self.ranged, self.ranged, self.amounts, self.joined, self.sales]
        for _ in range(self.random.randint(1, 4)):
            self.create()
        while len(self.statements) < length:
            if len(self.tables) < 5 and self.random.random() < 0.05:
                self.create()
            self.random.choice(steps)()
        if self.random.random() < 0.2:
            self.wide()
        return self


def kept_rows(out, tables):
    """The rows of a repair of some tables, as lists. Its rows of blocks of several rows are written, in the order of blocks; lines that
    are alike may follow, of another reply."""
    kept = []
    for table in tables:
        rows = []
        for block in table.blocks():
            if len(block) == 1:
                rows.append(block[0])
                continue
            line = out.next()
            found = [one for one in block if line == "keep %s %s" % (table.name, row_text(one))]
            if not found:
                raise Differs("%s is no row of the next block of %s" % (line, table.name))
            rows += found
        kept.append(rows)
    return kept


def rows_lines(rows):
    """The reply to a question of rows."""
    return [*map(row_text, rows), "%d rows" % len(rows)]


def tests_text(table, tests):
    """Tests as they are written, with `and` between two."""
    return " and ".join("%s %s %s" % (table.columns[column][0], op, literal(value)) for column, op, value in tests)


def aggregate_text(table, word, place, tests):
    """What stands behind `range`."""
    what = word if place is None else "%s %s" % (word, table.columns[place][0])
    return "%s from %s%s" % (what, table.name, " where " + tests_text(table, tests) if tests else "")


def joined_text(query, word, column):
    """What stands behind `range`, over the witnesses of a query."""
    what = word if column is None else "%s %s" % (word, query.name(column))
    return what + query.source()


def end_text(end):
    return "none" if end is None else literal(end)


def groups_lines(groups):
    """The reply to a `range` by groups."""
    lines = ["group %s least %s greatest %s" % (literal(value), end_text(least), end_text(greatest)) for value, least, greatest in groups]
    return lines + ["%d groups" % len(groups)]


def is_range(out, table, goal, tests):
    """Both ends, each with the kept rows of a repair that has it."""
    for word, end in zip(("least", "greatest"), table.range(goal, tests)):
        out.expect("%s %s" % (word, end_text(end)))
        value = table.aggregate(goal, tests, kept_rows(out, [table])[0])
        if value != end:
            raise Differs("the repair behind %s has %s" % (word, value))


def is_joined_range(out, query, goal, lax):
    """Both ends, each with the kept rows of a repair that has it. lax: the table that may break its key, if there is one."""
    for word, end in zip(("least", "greatest"), query.range(goal)):
        out.expect("%s %s" % (word, end_text(end)))
        kept = dict(zip([table.name for table in lax], kept_rows(out, lax)))
        value = query.aggregate(goal, query.joins_of([kept.get(table.name, table.sorted()) for table in query.tables]))
        if value != end:
            raise Differs("the repair behind %s has %s" % (word, value))


def class_lines(query):
    """What `classify` says of a query."""
    kind, attacks = query.classify()
    return ["class " + kind] + ["%s attacks %s, %s" % (query.tables[one].name, query.tables[other].name, "weak" if weak else "strong")
                                for (one, other), weak in attacks]


def is_union_text(out, number):
    """As many texts of queries, put together; what they mean is tried by sql.py."""
    for part in range(1, number + 1):
        out.expect(("UNION " if part > 1 else "") + "SELECT * FROM (")
        if not out.while_like(r'(?!\) AS "part ).*') or out.lines[out.at - 1].endswith(";"):
            raise Differs("no text of part %d" % part)
        out.expect(') AS "part %d"%s' % (part, ";" if part == number else ""))


def is_rejection(out, query, row):
    """`rejected`, with the kept rows of a repair that holds no witness of a row."""
    out.expect("rejected")
    kept = kept_rows(out, query.tables)
    if any(answer == row for answer, _ in query.witnesses(kept)):
        raise Differs("the repair holds a witness")


def is_certain(out):
    out.expect("certain")


def is_against(out, query, row):
    """Stored rows of blocks of several rows, no two of a block, in the order of the tables and then of blocks, such that no repair that
    keeps them holds a witness of a row, and that none of them can be left out."""
    places = {"keep %s %s" % (table.name, row_text(one)): (atom, number, one) for atom, table in enumerate(query.tables)
              for number, block in enumerate(table.conflicts()) for one in block}
    found = []
    for line in out.while_like(r"keep .*"):
        if line not in places:
            raise Differs("%s is no row of a block of several rows" % line)
        found.append(places[line])
    if any(before[:2] >= after[:2] for before, after in zip(found, found[1:])):
        raise Differs("two rows of a block, or rows in another order")
    out.expect("%d rows" % len(found))
    if not query.stands_against([(atom, one) for atom, _, one in found], row):
        raise Differs("a repair that keeps these rows holds a witness, or they are too many")


def is_refutation(out, query, row):
    """`certain by refutation`, with the row's formula and a refutation of it."""
    out.expect("certain by refutation")
    if not is_log(out, query, row):
        raise Differs("the log doesn't add the empty clause")
    text = "\n".join(out.log + [""]).encode()
    said = subprocess.run([out.program, "check"], input=text, stdout=subprocess.PIPE, check=False).stdout
    if said != b"verified\n":
        raise Differs("check says %s" % said.decode())


def is_explained(out, query, row):
    """Either of these; what is shown is its own evidence."""
    return (is_refutation if out.peek() == "certain by refutation" else is_rejection)(out, query, row)


class Followed:
    """The clauses of a formula, and of the steps of a log that were taken."""

    def __init__(self, clauses):
        self.clauses = [frozenset(clause) for clause in clauses]
        self.live, self.top = dict(enumerate(self.clauses, 1)), len(clauses)

    def take(self, step):
        """Takes a step, whose id has to rise and whose clause has to follow by its hints; gives the clause that it adds."""
        if step[1] == "d":
            for number in map(int, step[2:-1]):
                del self.live[number]
            return None
        number, numbers = int(step[0]), list(map(int, step[1:]))
        split = numbers.index(0)
        clause, hints = frozenset(numbers[:split]), numbers[split + 1:-1]
        if number <= self.top:
            raise Differs("the ids don't rise: %s" % " ".join(step))
        if len(clause) < split or any(-one in clause for one in clause):
            raise Differs("a variable stands twice: %s" % " ".join(step))
        self.follow(clause, hints, " ".join(step))
        self.live[number], self.top = clause, number
        self.clauses.append(clause)
        return clause

    def follow(self, clause, hints, shown):
        """Each hint but the last makes one more literal true, and the last has none left; so no hint stands twice."""
        true = {-one for one in clause}
        for place, hint in enumerate(hints):
            left = [one for one in self.live[hint] if -one not in true]
            if not left:
                if place + 1 < len(hints):
                    raise Differs("hints behind the conflict: %s" % shown)
                return
            if len(left) > 1 or left[0] in true:
                raise Differs("a hint makes no literal true: %s" % shown)
            true.add(left[0])
        raise Differs("no conflict: %s" % shown)


def read_log(out, query, row):
    """A row's formula and the steps of a log, which is kept as the last log: its variables, its clauses and the steps."""
    start = out.at
    variables, clauses, _ = query.formula(row)
    out.expect("p cnf %d %d" % (variables, len(clauses)), *(" ".join(map(str, clause + [0])) for clause in clauses), "lrat")
    steps = [step.split() for step in out.while_like(r"[0-9]+( d)?( -?[0-9]+)*")]
    out.log, out.owed = out.lines[start:out.at], None
    return variables, clauses, steps


def is_log(out, query, row):
    """A row's formula and a log whose steps follow. Says whether they refute the formula."""
    _, clauses, steps = read_log(out, query, row)
    followed = Followed(clauses)
    return any([followed.take(step) == frozenset() for step in steps])


def is_spent_log(out, query, row, budget):
    """A row's formula and a log that adds as many clauses as the budget has, each new, and leaves a variable open."""
    variables, clauses, steps = read_log(out, query, row)
    if len(steps) != budget:
        raise Differs("%d steps where %d conflicts are spent" % (len(steps), budget))
    followed = Followed(clauses)
    for step in steps:
        before = list(followed.clauses)
        clause = followed.take(step)
        if not clause or not {abs(one) for one in clause} <= set(range(1, variables + 1)):
            raise Differs("no clause of the formula's variables: %s" % " ".join(step))
        if any(other <= clause for other in before):
            raise Differs("a clause that isn't new: %s" % " ".join(step))
    true = propagated(followed.clauses)
    if true is None or len(true) == variables:
        raise Differs("propagation ends the spent search")
    out.spent.append(len(steps))


def shows_log(out):
    """The last log: that of a spent search is seen here first."""
    if out.owed is None:
        out.expect(*out.log)
    else:
        is_spent_log(out, *out.owed)


def propagated(clauses):
    """The literals that propagation makes true; `None` where it makes all of a clause false."""
    true, found = set(), True
    while found:
        found = False
        for clause in clauses:
            left = [one for one in clause if -one not in true]
            if not left:
                return None
            if len(left) == 1 and left[0] not in true:
                true.add(left[0])
                found = True
    return true


def is_spent_for(query, row, budget):
    """Whether so many conflicts can be too few for a row's formula: fewer than 3 to its variables, and propagation alone
    leaves a variable open and no clause false."""
    variables, clauses, _ = query.formula(row)
    true = propagated(clauses)
    return true is not None and len(true) < variables and budget < 3 ** variables


def is_spent(out, query, budget, rows):
    """`Spent` with one of some rows, for which its search may have ended so. Its formula with the log stands last then."""
    if not out.peek().startswith("error 18 "):
        return False
    told = {"error 18 Spent %s conflicts %d" % (row_text(row), budget): row for row in rows}
    line = out.next()
    if line not in told or not is_spent_for(query, told[line], budget):
        raise Differs("%s\nhas no cause" % line)
    out.owed = query, told[line], budget
    return True


def is_searched(out, query, budget, candidates, lines):
    """The certain rows, or `Spent`."""
    if not is_spent(out, query, budget, candidates):
        out.expect(*lines)


def run(program, script, pieces):
    if not pieces:
        return subprocess.run([program, "run"], input=script, stdout=subprocess.PIPE, check=False)
    with subprocess.Popen([program, "run"], stdin=subprocess.PIPE, stdout=subprocess.PIPE) as process:
        at = 0
        while at < len(script):
            size = pieces.randint(1, 40)
            process.stdin.write(script[at:at + size])
            process.stdin.flush()
            at += size
            if pieces.random() < 0.05:
                time.sleep(0.002)
        output, _ = process.communicate()
        return subprocess.CompletedProcess([], process.returncode, output)


def compare(program, seed, pieces):
    """Runs one script; gives how many replies agreed, and the number of steps of each spent log."""
    script = Script(seed)
    script = script.make_linked(length=18) if seed % 2 == 0 else script.make(length=25)
    text = "\n".join(statement for statement, _ in script.statements) + "\n"
    ran = run(program, text.encode(), random.Random(seed) if pieces else None)
    out = Lines(ran.stdout.decode(), program)
    refused = 1 if re.search(r"^error ", ran.stdout.decode(), flags=re.M) else 0
    for statement, judge in script.statements:
        try:
            judge(out)
        except (Differs, KeyError, ValueError) as differs:
            shown = "\n".join(one for one, _ in script.statements[:[one for one, _ in script.statements].index(statement) + 1])
            raise Differs("seed %d\n%s\n-- %s" % (seed, shown, differs)) from differs
    if out.at != len(out.lines) or ran.returncode != refused:
        raise Differs("seed %d: the output goes on, or the status %d is wrong\n%s" % (seed, ran.returncode, text))
    return len(script.statements), out.spent


def main():
    parser = argparse.ArgumentParser(description=__doc__.split("\n")[0])
    parser.add_argument("program", nargs="?", default=PROGRAM)
    parser.add_argument("--seed", type=int, default=1)
    parser.add_argument("--count", type=int, default=200)
    parser.add_argument("--pieces", action="store_true")
    asked = parser.parse_args()
    replies, logs = 0, []
    for seed in range(asked.seed, asked.seed + asked.count):
        try:
            agreed, spent = compare(asked.program, seed, asked.pieces)
        except Differs as differs:
            print(differs)
            return 1
        replies += agreed
        logs += spent
    print("%d scripts, %d replies, %d spent logs of %d steps: no difference" % (asked.count, replies, len(logs), sum(logs)))
    return 0


if __name__ == "__main__":
    sys.exit(main())
