#!/usr/bin/env python3
"""How long hard searches take: the certain rows of random strong cycles, and of unions, beside SAT solvers on the rows' formulas.

    bench/searches.py [--program FILE] [--values N,N,..] [--variables N,N,..] [--seed N]

Two tables meet in so many values, three of them in each of 2.3 times as many blocks of either table: with these numbers
it is hard to tell whether every repair joins. `ask` may search over classes of rows that are alike; `explain` prints the
formula with one variable for each row, and a refutation of it or a repair. minisat and cadical, where they are installed,
get that same formula.

The unions have six parts, each of which has a plan: random clauses of three variables without signs, of which none may be all 0
in `pos`, and none all 1 in `neg`, over three tables of the variables' values, which may not differ. Times are processor seconds, the least of three runs; the log is what `explain` prints of it.
"""

import argparse
import os
import random
import shutil
import subprocess
import sys
import tempfile

sys.path.insert(0, os.path.dirname(os.path.abspath(__file__)))
from growth import PROGRAM, inserts, measured


def cycle(values, seed):
    """The rows of both tables: three values in each block."""
    draw = random.Random(seed)
    blocks = values * 23 // 10
    return [[(block, z) for block in range(blocks) for z in sorted(draw.sample(range(values), 3))] for _ in range(2)]


def script(rows, question):
    lines = ["create table lhs (x int, z int, primary key (x));", "create table rhs (y int, z int, primary key (y));"]
    return "\n".join(lines + inserts("lhs", rows[0])[0] + inserts("rhs", rows[1])[0] + [question]) + "\n"


def formula(rows):
    """The row's formula: one row of each block, and no two rows that meet."""
    left, right = rows
    shared = {z for _, z in left} & {z for _, z in right}
    clauses, met, number = [], [{}, {}], 0
    for side in (0, 1):
        blocks = {}
        for block, z in rows[side]:
            blocks.setdefault(block, []).append(z)
        for values in blocks.values():
            if not shared.intersection(values):
                continue
            clause = []
            for z in values:
                number += 1
                clause.append(number)
                met[side].setdefault(z, []).append(number)
            clauses.append(clause)
    for z in shared:
        clauses += [[-one, -other] for one in met[0].get(z, []) for other in met[1].get(z, [])]
    return "p cnf %d %d\n" % (number, len(clauses)) + "".join(" ".join(map(str, one)) + " 0\n" for one in clauses)


def monotone(variables, seed):
    """Clauses of three variables, of which a half are of `pos`; so many that it is hard to tell whether values fit them all."""
    draw = random.Random(seed)
    clauses = [tuple(sorted(draw.sample(range(variables), 3))) for _ in range(variables * 44 // 10)]
    return sorted(set(clauses[::2])), sorted(set(clauses[1::2]))


VALUES = ("v1", "v2", "v3")


def union_script(lists, question):
    """The tables of such clauses."""
    variables = 1 + max(max(clause) for clauses in lists for clause in clauses)
    lines = ["create table %s (x int, s int, primary key (x));" % name for name in VALUES]
    lines += ["create table %s (a int, b int, c int, primary key (a, b, c));" % name for name in ("pos", "neg")]
    for name in VALUES:
        lines += inserts(name, [(x, s) for x in range(variables) for s in (0, 1)])[0]
    return "\n".join(lines + inserts("pos", lists[0])[0] + inserts("neg", lists[1])[0] + [question]) + "\n"


def union_query():
    parts = []
    for name, s in (("pos", 0), ("neg", 1)):
        joined = " and ".join("%s.%s = %s.x and %s.s = %d" % (name, column, value, value, s) for column, value in zip("abc", VALUES))
        parts.append("exists from %s, v1, v2, v3 where %s" % (name, joined))
    for one, other in (VALUES[:2], VALUES[1:]):
        for s in (0, 1):
            parts.append("exists from %s, %s where %s.x = %s.x and %s.s = %d and %s.s = %d" % (one, other, one, other, one, s, other, 1 - s))
    return " union ".join(parts)


def union_formula(lists):
    """The formula of such a union."""
    used = sorted({x for clauses in lists for clause in clauses for x in clause})
    values = range(1 + used[-1])
    number = {(value, x, s): 1 + 2 * (len(values) * place + x) + s for place, value in enumerate(VALUES) for x in values for s in (0, 1)}
    clauses = [[number[value, x, 0], number[value, x, 1]] for value in VALUES for x in values]
    top, met = len(number), []
    for s, rows in enumerate(lists):
        for row in rows:
            top += 1
            clauses.append([top])
            met.append([-number[value, x, s] for value, x in zip(VALUES, row)] + [-top])
    for one, other in (VALUES[:2], VALUES[1:]):
        met += [[-number[one, x, s], -number[other, x, 1 - s]] for s in (0, 1) for x in values]
    return "p cnf %d %d\n" % (top, len(clauses) + len(met)) + "".join(" ".join(map(str, one)) + " 0\n" for one in clauses + met)


def solver_time(words, path):
    """The least processor seconds of a solver, whose status is 10 or 20."""
    best = None
    for _ in range(3):
        before = os.times()
        ended = subprocess.run(words + [path], stdout=subprocess.DEVNULL, stderr=subprocess.DEVNULL, check=False)
        after = os.times()
        if ended.returncode not in (10, 20):
            sys.exit("%s ended with status %d" % (words[0], ended.returncode))
        used = after.children_user + after.children_system - before.children_user - before.children_system
        best = used if best is None else min(best, used)
    return best


def cells_of(program, room, named, cnf, made, query, solvers):
    """The cells of a search: its name, and what is found of the formula and of the questions about a query. made: makes the script that
    ends with a question."""
    path, formula_path = os.path.join(room, "script"), os.path.join(room, "cnf")
    with open(formula_path, "w", encoding="ascii") as file:
        file.write(cnf)
    cells = [named, "{:,}".format(cnf.count("\n") - 1)]
    for question in ("ask " + query, "explain row () for " + query):
        with open(path, "w", encoding="ascii") as file:
            file.write(made("set conflicts 4294967295;\n" + question + ";"))
        found = measured([program, "run"], path, 600, 3)
        cells.append("over the limit" if found is None else "%.2f s" % found[0])
    with open(path, encoding="ascii") as file:
        said = subprocess.run([program, "run"], stdin=file, capture_output=True, text=True, check=True).stdout
    cells.append("certain" if "certain by refutation" in said else "rejected")
    log = said.partition("\nlrat\n")[2]
    cells.append("{:,} steps, {:.1f} MB".format(log.count("\n"), len(log) / 1e6) if log else "")
    return cells + ["%.2f s" % solver_time(solver, formula_path) for solver in solvers]


def main():
    parser = argparse.ArgumentParser(description=__doc__.split("\n\n")[0])
    parser.add_argument("--program", default=PROGRAM)
    parser.add_argument("--values", default="100,104,108,112,116,120,160")
    parser.add_argument("--variables", default="100,150,200,250")
    parser.add_argument("--seed", type=int, default=1)
    words = parser.parse_args()
    solvers = [[name, *flags] for name, flags in (("minisat", ["-verb=0"]), ("cadical", ["-q", "-n"])) if shutil.which(name)]
    print("| Load | clauses | `ask` | `explain` | it says | its log | " + " | ".join(name[0] for name in solvers) + " |")
    print("|---|---|---|---|---|---|" + "---|" * len(solvers))
    with tempfile.TemporaryDirectory() as room:
        for values in map(int, filter(None, words.values.split(","))):
            rows = cycle(values, words.seed)
            cells = cells_of(words.program, room, "%d values" % values, formula(rows), lambda question: script(rows, question),
                             "exists from lhs, rhs where lhs.z = rhs.z", solvers)
            print("| " + " | ".join(cells) + " |", flush=True)
        for variables in map(int, filter(None, words.variables.split(","))):
            lists = monotone(variables, words.seed)
            cells = cells_of(words.program, room, "a union, %d variables" % variables, union_formula(lists),
                             lambda question: union_script(lists, question), union_query(), solvers)
            print("| " + " | ".join(cells) + " |", flush=True)


if __name__ == "__main__":
    main()
