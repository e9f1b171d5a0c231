#!/usr/bin/env python3
"""Which keys matter to a question, as the package ranks them, against all repairs.

    differential/matter.py [PROGRAM] [--seed S] [--count N]

Each seed makes tables, a query or a union, and a range. A disputed row and a key are a pair if two repairs that differ in this key
alone differ in whether they give the row. Each pair that the package counts has to be one; those that it doesn't count are told.
What deciding a key takes off a range at most has to be what it is over all repairs. The last line says how much was tried; the
status is 0 where nothing differed.
"""

import argparse
import os
import random
import sys

TOP = os.path.dirname(os.path.dirname(os.path.abspath(__file__)))
sys.path.insert(0, os.path.join(TOP, "python"))
sys.dont_write_bytecode = True

from cqa import Session  # noqa: E402
from cqa.matter import Question, hanging  # noqa: E402
from model import Query, Table, Union, ends, row_text  # noqa: E402

PROGRAM = os.path.join(TOP, "crates", "cqa_cli", "out", "cqa_cli")
OPS = ("=", "<>", "<", ">=")


class Differs(Exception):
    pass


def tables_of(rng):
    """Three tables of two or three columns, with few rows in few blocks."""
    made = []
    for name in ("r", "s", "t"):
        width = rng.choice((2, 2, 3))
        table = Table(name, [("abc"[at], "int") for at in range(width)], list(range(rng.choice((1, 1, width - 1)))))
        table.rows = {tuple(rng.randrange(3) for _ in range(width)) for _ in range(rng.randint(1, 5))}
        made.append(table)
    return made


def column(rng, tables):
    atom = rng.randrange(len(tables))
    return atom, rng.randrange(len(tables[atom].columns))


def query_of(rng, tables, width):
    """A query over one table or two, whose answer has so many columns."""
    chosen = rng.sample(tables, rng.choice((1, 2, 2)))
    joins = [(column(rng, chosen[:1]), (1, rng.randrange(len(chosen[1].columns))))] if len(chosen) == 2 else []
    tests = [(column(rng, chosen), rng.choice(OPS), rng.randrange(3)) for _ in range(rng.choice((0, 0, 1)))]
    return Query(chosen, [column(rng, chosen) for _ in range(width)], joins, tests)


def question_of(rng, tables):
    width = rng.choice((1, 1, 2))
    if rng.random() < 0.6:
        return query_of(rng, tables, width)
    return Union(tables, [query_of(rng, tables, width) for _ in range(rng.choice((2, 2, 3)))])


def pairs_of(question):
    """Each pair of an answer and a key, (name, key), of which two repairs that differ in the key alone tell whether they give it."""
    given = {}
    for lists in question.repairs():
        given[tuple(map(tuple, lists))] = {answer for answer, _ in question.witnesses(lists)}
    pairs = set()
    for lists, answers in given.items():
        for at, table in enumerate(question.tables):
            for place, block in enumerate(table.blocks()):
                for row in block:
                    other = lists[:at] + (lists[at][:place] + (row,) + lists[at][place + 1:],) + lists[at + 1:]
                    pairs |= {(answer, (table.name, table.key_of(row))) for answer in answers ^ given[other]}
    return pairs


def compare_rows(session, question):
    """The number of pairs that are counted, and of those that aren't."""
    wanted = pairs_of(question)
    found = hanging(session, Question(question.text(), False), [])
    counted = {(answer, key) for key, answers in found.answers.items() for answer in answers}
    if not counted <= wanted:
        raise Differs("%s: %s" % (question.text(), sorted(counted - wanted)))
    if {key: len(answers) for key, answers in found.answers.items()} != dict(found.rows):
        raise Differs("%s: %s" % (question.text(), found))
    return len(counted), len(wanted - counted)


def compare_range(session, table, rng):
    """The number of keys that narrow a range."""
    goal = rng.choice([("count", 0), ("sum", rng.randrange(len(table.columns)))])
    tests = [(rng.randrange(len(table.columns)), rng.choice(OPS), rng.randrange(3)) for _ in range(rng.choice((0, 1)))]
    names = [name for name, _ in table.columns]
    text = goal[0] + (" " + names[goal[1]] if goal[0] == "sum" else "") + " from " + table.name
    text += " where " + " and ".join("%s %s %d" % (names[place], op, value) for place, op, value in tests) if tests else ""
    keys = [(table.name, table.key_of(block[0])) for block in table.conflicts()]
    found = hanging(session, Question(text, True), keys)
    whole = apart(table.range(goal, tests))
    wanted = {}
    for block in table.conflicts():
        decided = [table.with_rows(table.rows - set(block) | {row}) for row in block]
        narrowed = whole - min(apart(one.range(goal, tests)) for one in decided)
        if narrowed:
            wanted[table.name, table.key_of(block[0])] = narrowed
    if {key: int(width) for key, width in found.widths.items()} != wanted:
        raise Differs("range %s: %s and not %s" % (text, found.widths, wanted))
    return len(wanted)


def apart(both):
    least, greatest = both
    return 0 if least is None or greatest is None else greatest - least


def main():
    reader = argparse.ArgumentParser(description=__doc__.split("\n\n")[0])
    reader.add_argument("program", nargs="?", default=PROGRAM)
    reader.add_argument("--seed", type=int, default=1)
    reader.add_argument("--count", type=int, default=200)
    words = reader.parse_args()
    counted = missed = narrowed = tried = 0
    for seed in range(words.seed, words.seed + words.count):
        rng = random.Random(seed)
        tables = tables_of(rng)
        question = question_of(rng, tables)
        if not question.is_small():
            continue
        tried += 1
        with Session(words.program) as session:
            session.run("".join("create table %s;\ninsert into %s values %s;\n" % (table.schema(), table.name, ", ".join(map(row_text, sorted(table.rows))))
                                for table in tables))
            before = session.tell("dump;")
            try:
                here, lost = compare_rows(session, question)
                narrowed += compare_range(session, rng.choice(tables), rng)
                if session.tell("dump;") != before:
                    raise Differs("the tables have changed")
            except Differs as why:
                print("seed %d: %s" % (seed, why))
                return 1
        counted, missed = counted + here, missed + lost
    print("%d scripts: %d pairs of a disputed row and a key are counted and right, %d are not counted; %d keys narrow a range" % (tried, counted, missed, narrowed))
    return 0


if __name__ == "__main__":
    sys.exit(main())
