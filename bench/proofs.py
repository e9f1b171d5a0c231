#!/usr/bin/env python3
"""How long the checker takes for long proofs: makes them, runs `check`, and prints a table in Markdown.

    bench/proofs.py [--program FILE] [--scale X]

A chain is a formula of n units and implications with a log of as many short steps; a log of wide steps has 20 hints a step.
"""

import argparse
import os
import sys
import tempfile

sys.path.insert(0, os.path.dirname(os.path.abspath(__file__)))
from growth import PROGRAM, measured, shown


def chain(n):
    """1 holds, each variable implies the next, the last doesn't hold; the log derives each variable in turn."""
    yield "p cnf %d %d\n1 0\n" % (n, n + 1)
    for one in range(1, n):
        yield "-%d %d 0\n" % (one, one + 1)
    yield "-%d 0\nlrat\n" % n
    last = 1
    for one in range(2, n + 1):
        number = n + one
        yield "%d %d 0 %d %d 0\n" % (number, one, last, one)
        last = number
    yield "%d 0 %d %d 0\n" % (2 * n + 1, last, n + 1)


def wide(n, hints=20):
    """Blocks of a chain of so many variables, of which each step derives the last from the first."""
    yield "p cnf %d %d\n1 0\n" % (hints, hints + 1)
    for one in range(1, hints):
        yield "-%d %d 0\n" % (one, one + 1)
    yield "-%d 0\nlrat\n" % hints
    numbers = " ".join(map(str, range(1, hints + 1)))
    for step in range(n):
        yield "%d %d 0 %s 0\n" % (hints + 2 + step, hints, numbers)
    yield "%d 0 %d %d 0\n" % (hints + 2 + n, hints + 1 + n, hints + 1)


def main():
    parser = argparse.ArgumentParser(description=__doc__.split("\n\n")[0])
    parser.add_argument("--program", default=PROGRAM)
    parser.add_argument("--scale", type=float, default=1.0, help="a factor for each n")
    words = parser.parse_args()
    print("| Proof | n | the program | 4n |")
    print("|---|---|---|---|")
    with tempfile.TemporaryDirectory() as room:
        for name, make, size in [("a chain of n clauses and n steps", chain, 375000), ("n steps of 20 hints", wide, 95000)]:
            cells = [name, "{:,}".format(int(size * words.scale))]
            for factor in (1, 4):
                path = os.path.join(room, "proof")
                with open(path, "w", encoding="ascii") as file:
                    file.writelines(make(int(size * words.scale) * factor))
                cells.append(shown(measured([words.program, "check"], path, 120, 3)))
            print("| " + " | ".join(cells) + " |", flush=True)


if __name__ == "__main__":
    main()
