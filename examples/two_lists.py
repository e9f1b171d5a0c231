#!/usr/bin/env python3
"""Makes two_lists.cqa and two_lists.out: two shops' lists of customers, merged, with what is certain of them.

    examples/two_lists.py

The expected output is computed here, block by block, and not by the program.
"""

import os
import random

HERE = os.path.dirname(os.path.abspath(__file__))
NAMES = ["Ada", "Bo", "Cy", "Dag", "Eli", "Fay", "Gro", "Ida", "Jon", "Kai", "Liv", "M\u00e4rta", "Nils", "O'Hara"]
TOWNS = ["Bergen", "Hamar", "Oslo", "Troms\u00f8", "Voss"]


def lists():
    """The rows of the two shops: most customers stand in both, and some of these differ."""
    pick = random.Random(2026)
    one, two = [], []
    for number in range(1, 181):
        row = (number, pick.choice(NAMES), pick.choice(TOWNS))
        where = pick.random()
        if where < 0.85:
            one.append(row)
        if where > 0.15:
            moved = pick.random() < 0.2
            renamed = pick.random() < 0.08
            two.append((number, pick.choice(NAMES) if renamed else row[1], pick.choice(TOWNS) if moved else row[2]))
    return one, two


def literal(value):
    return str(value) if isinstance(value, int) else "'" + value.replace("'", "''") + "'"


def row_order(row):
    """Rows ascend column by column, texts by their bytes."""
    return [value if isinstance(value, int) else value.encode() for value in row]


def lines(rows):
    """The lines of a reply with these rows."""
    found = sorted(set(rows), key=row_order)
    return ["(" + ", ".join(map(literal, row)) + ")" for row in found] + ["%d rows" % len(found)]


def records(rows):
    return ["%d,%s,%s" % row for row in rows]


def write(name, parts):
    with open(os.path.join(HERE, name), "w", encoding="utf-8", newline="\n") as file:
        file.write("\n".join(parts) + "\n")


def main():
    one, two = lists()
    blocks = {}
    for row in one + two:
        blocks.setdefault(row[0], set()).add(row)
    stored = set(one + two)
    script = ["-- Made by two_lists.py: the customers of two shops, merged.",
              "create table customer (id int, name text, town text, primary key (id));",
              "copy customer;", *records(one), "\\.", "copy customer;", *records(two), "\\.", "show conflicts;"]
    output = ["created customer", "copied %d" % len(one), "copied %d" % len(set(two) - set(one)),
              "customer rows %d blocks %d conflicts %d" % (len(stored), len(blocks), sum(len(rows) > 1 for rows in blocks.values())), "1 tables"]

    def ask(what, where, fits, shown):
        """A question about one table: a row is certain where all rows of some block fit and show it."""
        script.append("ask %s from customer%s;" % (what, where))
        certain = []
        for rows in blocks.values():
            answers = {shown(row) for row in rows}
            if len(answers) == 1 and all(map(fits, rows)):
                certain += answers
        output.extend(lines(certain))

    script.append("-- Whose name is certain, of those who are certainly in Oslo?")
    ask("select id, name", " where town = 'Oslo'", lambda row: row[2] == "Oslo", lambda row: row[:2])
    script.append("-- And of those who are certainly in Oslo or in Bergen, though it may be open in which of them?")
    ask("select id, name", " where town = 'Oslo' union select id, name from customer where town = 'Bergen'",
        lambda row: row[2] in ("Bergen", "Oslo"), lambda row: row[:2])
    script.append("-- Who is certainly not in Oslo?")
    ask("select id", " where town <> 'Oslo'", lambda row: row[2] != "Oslo", lambda row: row[:1])
    script.append("-- What is certain of whom, and what is in conflict?")
    ask("select id, name, town", "", lambda row: True, lambda row: row)
    script.append("disputed select id, name, town from customer;")
    output += lines([row for rows in blocks.values() if len(rows) > 1 for row in rows])
    who, kept = next((row, other) for rows in blocks.values() if len(rows) == 2 for row in rows for other in rows if row[2] == "Oslo" != other[2])
    script.append("-- Why is customer %d not certainly in Oslo?" % who[0])
    script.append("against row (%d, 'Oslo') for select id, town from customer;" % who[0])
    output += ["keep customer (%s)" % ", ".join(map(literal, kept)), "1 rows"]
    script.append("-- How many customers are in Oslo, at least and at most?")
    script.append("range count from customer where town = 'Oslo';")
    for word, best in (("least", min), ("greatest", max)):
        kept = [best(sorted(rows, key=row_order), key=lambda row: row[2] == "Oslo") for _, rows in sorted(blocks.items())]
        output.append("%s %d" % (word, sum(row[2] == "Oslo" for row in kept)))
        output += ["keep customer (%s)" % ", ".join(map(literal, row)) for row in kept if len(blocks[row[0]]) > 1]
    script.append("-- Which towns may customer 17 be in?")
    script.append("possible select town from customer where id = 17;")
    output += lines([row[2:] for row in blocks.get(17, ())])
    write("two_lists.cqa", script)
    write("two_lists.out", output)


if __name__ == "__main__":
    main()
