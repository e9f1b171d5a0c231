#!/usr/bin/env python3
"""How long `judge` takes, at n and at 4n, beside a C++ program of the same format (bench/judge.cpp) that tries up to 1,000 choices
one after another and else runs a SAT solver, and beside `ask` over the same rows where a query gives them.

    bench/judge.py [--program FILE] [--repeat N] [--scale X] [--only WORD]

Times are processor seconds of the whole process, reading included, the least of N runs, and the greatest megabytes. The number of
groups that are certain has to be that of the C++ program. It needs a C++ compiler, as `c++` or in CXX, and CaDiCaL with its header
(Debian's libcadical-dev).
"""

import argparse
import os
import random
import subprocess
import sys
import tempfile

from growth import PROGRAM, inserts, measured, shown

SOURCE = os.path.join(os.path.dirname(os.path.abspath(__file__)), "judge.cpp")


def group(sizes, lists):
    yield "g " + " ".join(map(str, sizes))
    for rows in lists:
        yield "l " + " ".join("%d:%d" % row for row in rows)
    yield "e"


def small_groups(n):
    """n groups of one to three lists of one to three rows over blocks of two or three rows."""
    rng = random.Random(1)
    for _ in range(n):
        sizes = [rng.randint(2, 3) for _ in range(rng.randint(1, 4))]
        lists = []
        for _ in range(rng.randint(1, 3)):
            blocks = rng.sample(range(len(sizes)), min(len(sizes), rng.randint(1, 3)))
            lists.append([(block + 1, rng.randint(1, sizes[block])) for block in blocks])
        yield from group(sizes, lists)


def one_group(n):
    """One group of n lists of three rows over 0.4 n blocks of two rows."""
    rng = random.Random(2)
    blocks = 2 * n // 5
    yield from group([2] * blocks, ([(block + 1, rng.randint(1, 2)) for block in rng.sample(range(blocks), 3)] for _ in range(n)))


def cycles(n):
    """Two tables that meet in 3 to 18 values, three of them in each of 2.3 times as many blocks of either table: n of them."""
    rng = random.Random(3)
    for _ in range(n):
        values = rng.randint(3, 18)
        blocks = values * 23 // 10
        yield [[sorted(rng.sample(range(values), 3)) for _ in range(blocks)] for _ in range(2)]


def cycle_groups(n):
    """n groups of 100 to 1,000 lists, as strong cycles give them."""
    for left, right in cycles(n):
        lists = [((x + 1, at + 1), (len(left) + y + 1, to + 1)) for x, zs in enumerate(left) for at, z in enumerate(zs)
                 for y, others in enumerate(right) for to, other in enumerate(others) if z == other]
        yield from group([3] * (len(left) + len(right)), lists)


def cycle_script(n):
    """The same as tables and an `ask`, whose candidates are these groups."""
    rows = [[], []]
    for c, sides in enumerate(cycles(n)):
        for side, blocks in enumerate(sides):
            rows[side] += [(c, x, z) for x, zs in enumerate(blocks) for z in zs]
    yield "create table lhs (c int, x int, z int, primary key (c, x));"
    yield "create table rhs (c int, y int, z int, primary key (c, y));"
    yield from inserts("lhs", rows[0])[0]
    yield from inserts("rhs", rows[1])[0]
    yield "ask select lhs.c from lhs, rhs where lhs.c = rhs.c and lhs.z = rhs.z;"


def wide_block(n):
    """A block of n rows, of which two are named, and a list without a third row."""
    yield from group([n, 2], [[(1, 1), (2, 1)], [(1, n), (2, 2)]])


def long_list(n):
    """A list with a row of each of n blocks of one row."""
    yield from group([1] * n, [[(block, 1) for block in range(1, n + 1)]])


def same_lists(n):
    """A list that is told n times."""
    yield from group([2, 2], [[(1, 1), (2, 1)]] * n)


LOADS = [(small_groups, 250_000), (one_group, 250_000), (cycle_groups, 1_500), (wide_block, 249_000), (long_list, 250_000), (same_lists, 250_000)]
ASKED = {cycle_groups: cycle_script}


def write(lines, path):
    with open(path, "w", encoding="ascii") as file:
        for line in lines:
            file.write(line + "\n")
    return path


def certain(words, path):
    with open(path, "rb") as source:
        text = subprocess.run(words, stdin=source, stdout=subprocess.PIPE, check=True).stdout
    return text.count(b"certain\n")


def asked_rows(program, path):
    with open(path, "rb") as source:
        return int(subprocess.run([program, "run"], stdin=source, stdout=subprocess.PIPE, check=True).stdout.split()[-2])


def times(load, n, program, peer, repeat, room):
    """What the program takes, the peer, and `ask` where there is a query; all three have to find as many certain."""
    path = write(load(n), os.path.join(room, "groups"))
    found = certain([program, "judge"], path)
    if found != certain([peer], path):
        sys.exit("%s at n = %d: another number of certain groups" % (load.__name__, n))
    taken = [measured([program, "judge"], path, 120, repeat), measured([peer], path, 120, repeat), None]
    if load in ASKED:
        path = write(ASKED[load](n), path)
        if asked_rows(program, path) != found:
            sys.exit("%s at n = %d: ask has another number of certain rows" % (load.__name__, n))
        taken[2] = measured([program, "run"], path, 120, repeat)
    return taken


def main():
    parser = argparse.ArgumentParser(description=__doc__.split("\n\n")[0])
    parser.add_argument("--program", default=PROGRAM)
    parser.add_argument("--repeat", type=int, default=5)
    parser.add_argument("--scale", type=float, default=1.0, help="a factor for each n")
    parser.add_argument("--only", default="", help="the loads whose names hold this word")
    words = parser.parse_args()
    print("| Load | n | judge | C++ | ratio | ask |")
    print("|---|---|---|---|---|---|")
    with tempfile.TemporaryDirectory() as room:
        peer = os.path.join(room, "peer")
        subprocess.run([os.environ.get("CXX", "c++"), "-std=c++17", "-O2", "-o", peer, SOURCE, "-lcadical"], check=True)
        for load, least in LOADS:
            if words.only not in load.__name__:
                continue
            for n in (round(least * words.scale), round(4 * least * words.scale)):
                ours, theirs, asked = times(load, n, words.program, peer, words.repeat, room)
                name = (load.__doc__ or "").rstrip(".")
                ratio = "%.2f" % (ours[0] / theirs[0]) if ours and theirs and theirs[0] else ""
                print("| %s | %s | %s | %s | %s | %s |" % (name, format(n, ","), shown(ours), shown(theirs), ratio, shown(asked) if asked else ""), flush=True)


if __name__ == "__main__":
    main()
