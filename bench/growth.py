#!/usr/bin/env python3
"""How the time and the memory of the program grow: each load at n and at 4n, beside sqlite3 in the same run.

    bench/growth.py [--program FILE] [--scale X] [--only WORD] [--repeat N]

It makes the loads, runs them, and prints a table in Markdown. A load with statements that an older program doesn't know is
skipped for it, and standard error says so. Times are processor seconds of the whole process, reading
the script included, the least of N runs; memory is the greatest that a run held. A program that has to end with status 0
and doesn't is an error. `--scale 0.1` is a quick look. sqlite3 is optional. Python 3.9 and its library alone are needed.
"""

import argparse
import os
import random
import shutil
import subprocess
import sys
import tempfile

TOP = os.path.dirname(os.path.dirname(os.path.abspath(__file__)))
PROGRAM = os.path.join(TOP, "crates", "cqa_cli", "out", "cqa_cli")


# Loads. Each makes a script for the program and one for sqlite3, whose tables keep each row once, as the program's do.

def tables(names, columns, key, joined=False):
    """The statements that make tables of int columns, for both. The peer loads and finds keys fastest in tables in the order
    of their key, but makes an index by itself, for a join on other columns, of ordinary tables alone."""
    kinds = ", ".join(column + " int" for column in columns)
    ours = ["create table %s (%s, primary key (%s));" % (name, kinds, key) for name in names]
    order = "" if joined else " without rowid"
    theirs = ["create table %s (%s, primary key (%s))%s;" % (name, kinds, ", ".join(columns), order) for name in names]
    return ours, theirs


def inserts(name, rows, together=1000):
    """The same rows as statements of so many rows, for both."""
    ours, theirs = [], []
    for at in range(0, len(rows), together):
        values = ", ".join(map(row_text, rows[at:at + together]))
        ours.append("insert into %s values %s;" % (name, values))
        theirs.append("insert or ignore into %s values %s;" % (name, values))
    return ours, theirs


def row_text(row):
    return "(" + ", ".join(map(str, row)) + ")"


def join(*parts):
    """Parts of both scripts, one after the other."""
    return tuple([line for part in parts for line in part[side]] for side in (0, 1))


def shuffled(n, seed=1):
    keys = list(range(n))
    random.Random(seed).shuffle(keys)
    return keys


def turns(keys):
    """A row inserted and asked for by its key, in turn."""
    ours, theirs = tables(["r"], ["k", "v"], "k")
    for key in keys:
        ours.append("insert into r values (%d, %d);" % (key, key % 7))
        ours.append("ask select v from r where k = %d;" % key)
        theirs.append("insert or ignore into r values (%d, %d);" % (key, key % 7))
        theirs.append("select distinct v from r where k = %d;" % key)
    return ours, theirs


def ascending_turns(n):
    return turns(range(n))


def random_turns(n):
    return turns(shuffled(n))


def deletes(n):
    """Every second row of 2n is deleted by its key, one statement each."""
    made = join(tables(["r"], ["k", "v"], "k"), inserts("r", [(k, k % 7) for k in range(2 * n)]))
    gone = ["delete from r where k = %d;" % (2 * k) for k in range(n)]
    return made[0] + gone, made[1] + gone


def twos(n):
    """The load of a table of n / 2 keys of two rows."""
    return join(tables(["r"], ["k", "v"], "k"), inserts("r", [(k, v) for k in range(n // 2) for v in (0, 1)]))


def shown_tables(n):
    """100 times the numbers of rows and blocks of n rows."""
    ours, theirs = twos(n)
    return ours + ["show tables;"] * 100, theirs + ["select count(*), count(distinct k) from r;"] * 100


def shown_conflicts(n):
    """100 times the same, with the number of keys of two rows."""
    ours, theirs = twos(n)
    return ours + ["show conflicts;"] * 100, theirs + ["select sum(c), count(*), sum(c > 1) from (select count(*) as c from r group by k);"] * 100


def one_by_key(n):
    """1,000 statements that find one row of n by its key."""
    made = join(tables(["r"], ["k", "v"], "k"), inserts("r", [(k, k % 7) for k in range(n)]))
    keys = shuffled(n)[:1000]
    return (made[0] + ["ask select v from r where k = %d;" % k for k in keys],
            made[1] + ["select distinct v from r where k = %d;" % k for k in keys])


def two_tables(n):
    """Two tables of n rows, joined on columns that are no keys."""
    left = [(k, k) for k in range(n)]
    right = [(k, x) for k, x in enumerate(shuffled(n))]
    made = join(tables(["a", "b"], ["k", "x"], "k", joined=True), inserts("a", left), inserts("b", right))
    where = "from a, b where a.x = b.x"
    return made[0] + ["possible select a.k %s;" % where], made[1] + ["select distinct a.k %s;" % where]


def chain(n, order):
    """Three tables of n rows in a chain on columns that are no keys, in an order of `from`."""
    parts = [tables(["a", "b", "c"], ["k", "x", "y"], "k", joined=True)]
    for seed, name in enumerate(["a", "b", "c"]):
        other = shuffled(n, seed)
        parts.append(inserts(name, [(k, k, other[k]) for k in range(n)]))
    made = join(*parts)
    where = "from %s where a.y = b.x and b.y = c.x" % ", ".join(order)
    return made[0] + ["possible select a.k %s;" % where], made[1] + ["select distinct a.k %s;" % where]


def chain_from_the_front(n):
    return chain(n, "abc")


def chain_from_the_back(n):
    return chain(n, "cba")


def chain_by_a_product(n):
    return chain(n, "acb")


def all_pairs(n):
    """All pairs of n and n rows, of which 77 different rows come."""
    rows = [(k, k % 77) for k in range(n)]
    made = join(tables(["a", "b"], ["k", "x"], "k"), inserts("a", rows), inserts("b", rows))
    return made[0] + ["possible select a.x from a, b;"], made[1] + ["select distinct a.x from a, b;"]


def one_chain(n):
    """n rows and n rows with one value in the joined column: an exists is found at once."""
    rows = [(k, 0) for k in range(n)]
    made = join(tables(["a", "b"], ["k", "x"], "k", joined=True), inserts("a", rows), inserts("b", rows))
    where = "from a, b where a.x = b.x"
    return made[0] + ["possible exists %s;" % where], made[1] + ["select exists (select 1 %s);" % where]


MULTIPLIER = 0x9e37_79b9_7f4a_7c15


def folded(state, word):
    """The state of std's `FoldHasher` after a word of eight bytes."""
    product = (state ^ word) * (MULTIPLIER ^ 16)
    return product % 2 ** 64 ^ product >> 64


def number_of(value):
    """The number by which an index finds an integer: of its kind, and then of the integer itself."""
    return folded(folded(0x243f_6a88_85a3_08d3, 0), value)


def picked_values(n):
    """Two integers that an index of n rows, with two slots a row and one more, finds in one slot."""
    seen = {}
    for value in range(2 * n + 2):
        slot = number_of(value) % (2 * n + 1)
        if slot in seen:
            return seen[slot], value
        seen[slot] = value


def joined_by_picked_values(n):
    """A table of n rows that all have one value but for one row, joined to n rows that all have the value of this one. Both values
    are picked by someone who knows the hash: they lie in one slot of an index of either table."""
    many, one = picked_values(n)
    made = join(tables(["a", "b"], ["k", "x"], "k", joined=True), inserts("a", [(k, one) for k in range(n)]),
                inserts("b", [(k, one if k == n // 2 else many) for k in range(n)]))
    where = "from a, b where a.x = b.x"
    return made[0] + ["possible select a.k %s;" % where], made[1] + ["select distinct a.k %s;" % where]


def load(rows):
    return join(tables(["r"], ["a", "b"][:len(rows[0])], "a"), inserts("r", rows))


def ascending_load(n):
    return load([(k,) for k in range(n)])


def random_load(n):
    return load([(k,) for k in shuffled(n)])


def random_load_of_two(n):
    return load([(k, k % 7) for k in shuffled(n)])


def persons_and_towns(n, more=0):
    """About 1.25 n persons in n blocks, in 100 towns of 150 rows: those who are certainly in a town of zone 1. Both tables
    have so many more columns."""
    others = tuple(range(more))
    persons = sorted([(i, i % 100) + others for i in range(1, n + 1)] + [(i, 100) + others for i in range(1, n + 1, 4)])
    towns = sorted([(c, 1) + others for c in range(100)] + [(c, 2) + others for c in range(0, 100, 2)])
    person = tables(["person"], ["id", "city"] + ["p%d" % place for place in others], "id")
    town = tables(["town"], ["city", "zone"] + ["t%d" % place for place in others], "city")
    made = join(person, town, inserts("person", persons), inserts("town", towns))
    rewriting = ("select distinct p.id from person p where not exists (select 1 from person q where q.id = p.id and not exists "
                 "(select 1 from town t where t.city = q.city and not exists "
                 "(select 1 from town u where u.city = t.city and u.zone <> 1)));")
    ask = "ask select id from person, town where person.city = town.city and zone = 1;"
    return made[0] + [ask], made[1] + [rewriting]


def wide_persons_and_towns(n):
    """The same in tables of 16 columns."""
    return persons_and_towns(n, 14)


PERSONS = "from person, town where person.city = town.city and zone = 1"


def persons_asked_twice(n):
    """The same persons and towns: the certain rows and the possible ones."""
    ours, theirs = persons_and_towns(n)
    return ours + ["possible select id %s;" % PERSONS], theirs + ["select distinct id %s;" % PERSONS]


def persons_disputed(n):
    """The same: the rows that are possible and not certain."""
    ours, theirs = persons_and_towns(n)
    return ours[:-1] + ["disputed select id %s;" % PERSONS], theirs[:-1] + ["select id %s except %s" % (PERSONS, theirs[-1])]


def strong_cycle_disputed(n):
    """The same as a strong cycle: the possible rows that aren't certain."""
    ours, theirs = strong_cycle(n)
    return ours[:-1] + [ours[-1].replace("ask", "disputed", 1)], theirs


def against_one_person(n):
    """The same: what stands against one person."""
    ours, _ = persons_and_towns(n)
    return ours[:-1] + ["against row (1) for select id %s;" % PERSONS], None


def against_all(n):
    """What stands against an `exists` over n / 2 keys of two rows, one of which meets: the other row of each key."""
    return twos(n)[0] + ["against row () for exists from r where v = 1;"], None


def strong_cycle(n):
    """n candidates, each with a formula of its own, of which a third are certain; SQL has no query for it."""
    left = [(g, 1, z) for g in range(1, n + 1) for z in (0, 1)]
    right = [row for g in range(1, n + 1) for row in ([(g, 1, 0), (g, 2, 1)], [(g, 1, 0), (g, 1, 1)], [(g, 1, 2)])[g % 3]]
    ours = ["create table lhs (g int, x int, z int, primary key (g, x));", "create table rhs (g int, y int, z int, primary key (g, y));"]
    ours += inserts("lhs", left)[0] + inserts("rhs", right)[0]
    return ours + ["ask select lhs.g from lhs, rhs where lhs.g = rhs.g and lhs.z = rhs.z;"], None


def united_cycle(n):
    """The same as a union of two parts, by the value in which the rows meet."""
    ours, _ = strong_cycle(n)
    query = ours[-1][len("ask "):-1]
    return ours[:-1] + ["ask %s and lhs.z = 0 union %s and lhs.z = 1;" % (query, query)], None


def united_apart(n):
    """The same cycle and a chain of two tables, which has a plan, as a union: n candidates more, of which two thirds are certain."""
    ours, _ = strong_cycle(n)
    front = [(n + k, 2 * k + i) for k in range(1, n + 1) for i in (0, 1)]
    back = [(v, w) for k, v in front if v % 2 == 0 or k % 3 for w in (0, 1)]
    tables = ["create table front (k int, v int, primary key (k));", "create table back (v int, w int, primary key (v));"]
    chain = "select front.k from front, back where front.v = back.v and back.w >= 0"
    return tables + inserts("front", front)[0] + inserts("back", back)[0] + ours[:-1] + ["%s union %s;" % (ours[-1][:-1], chain)], None


def path_of_three(n):
    """Three tables of about n rows, each joined to the key of the next, with conflicts in each."""
    parts = []
    for seed, name in enumerate(["a", "b", "c"]):
        to = shuffled(n, seed)
        rows = [(k, to[k]) for k in range(n)] + [(k, to[k - 1]) for k in range(0, n, 50 + seed)]
        parts += [tables([name], ["k", "x"], "k"), inserts(name, rows)]
    return join(*parts)[0] + ["ask select a.k from a, b, c where a.x = b.k and b.x = c.k;"], None


def star(n):
    """A table of n facts with four dimensions of n / 10 rows, with conflicts in each."""
    few = max(n // 10, 1)
    to = [shuffled(n, seed) for seed in range(4)]
    facts = [(k, *(one[k] % few for one in to)) for k in range(n)] + [(k, 0, 0, 0, 0) for k in range(0, n, 20)]
    parts = [tables(["f"], ["k", "d0", "d1", "d2", "d3"], "k"), inserts("f", facts)]
    for name in ("d0", "d1", "d2", "d3"):
        rows = [(k, k % 3) for k in range(few)] + [(k, 5) for k in range(0, few, 30)]
        parts += [tables([name], ["k", "v"], "k"), inserts(name, rows)]
    where = " and ".join("f.d%d = d%d.k" % (place, place) for place in range(4))
    return join(*parts)[0] + ["ask select f.k from f, d0, d1, d2, d3 where %s and d0.v < 3 and d1.v < 3;" % where], None


def join_off_keys(n):
    """Two tables of about n rows, joined on columns that are no keys, and asked for these."""
    parts = []
    for seed, name in enumerate(["a", "b"]):
        to = shuffled(n, seed)
        rows = [(k, to[k]) for k in range(n)] + [(k, to[k - 1]) for k in range(0, n, 3 + seed)]
        parts += [tables([name], ["k", "x"], "k"), inserts(name, rows)]
    return join(*parts)[0] + ["ask select a.x from a, b where a.x = b.x;"], None


def weak_cycle(n, edges=None):
    """Rows of two tables that attack each other weakly, in the order of their keys; n blocks a side in one cycle, if none are given."""
    edges = edges or [(i, j % n) for i in range(n) for j in (i, i + 1)]
    ours = ["create table lhs (x int, y int, primary key (x));", "create table rhs (x int, y int, primary key (y));"]
    ours += inserts("lhs", sorted(edges))[0] + inserts("rhs", sorted(edges, key=lambda edge: edge[::-1]))[0]
    return ours + ["ask exists from lhs, rhs where lhs.x = rhs.x and lhs.y = rhs.y;"], None


def shuffled_weak_cycle(n):
    """The same cycle under other names, so that its blocks lie anywhere."""
    left, right = shuffled(n), shuffled(n, 2)
    return weak_cycle(n, [(left[i], right[j % n]) for i in range(n) for j in (i, i + 1)])


def picked_weak_pairs(n):
    """n rows in each of two such tables, of values that an adversary picks: what the program multiplies two small integers by
    puts all of them into one bucket."""
    inverse = pow(MULTIPLIER, -1, 1 << 64)
    codes = [divmod(k * inverse % (1 << 64) - 1, 1 << 32) for k in range(1, n + 1)]
    return weak_cycle(n, [(x - (1 << 31), y - (1 << 31)) for x, y in codes])


def wide_weak_blocks(n):
    """One block of n rows in each of two tables that attack each other weakly: all fit, so the row is certain."""
    ours = ["create table r (x int, y int, w int, primary key (x));", "create table s (y int, x int, w int, primary key (y));"]
    rows = [(1, 1, k) for k in range(n)]
    ours += inserts("r", rows)[0] + inserts("s", rows)[0]
    return ours + ["set conflicts 0;", "ask exists from r, s where r.x = s.x and r.y = s.y;"], None


def through_a_wide_block(n):
    """n candidates of a strong cycle, each with a witness through one block of n rows, and others that no free row avoids."""
    left, right = [], []
    for i in range(n):
        wide, one, two = 3 * i, 3 * i + 1, 3 * i + 2
        left += [(0, wide, i), (i + 1, one, i)]
        right += [(3 * i, wide), (3 * i + 1, one)]
        if i % 3 > 0:
            left.append((i + 1, two, i))
            right.append((3 * i + i % 3, two))
    ours = ["create table lhs (x int, z int, c int, primary key (x));", "create table rhs (y int, z int, primary key (y));"]
    ours += inserts("lhs", left)[0] + inserts("rhs", right)[0]
    return ours + ["ask select lhs.c from lhs, rhs where lhs.z = rhs.z;"], None


def pairs_through_a_wide_block(n):
    """The same of two tables that attack each other weakly."""
    left = [row for i in range(n) for row in ((0, i, i), (n + i, n + i, i))]
    right = [row for i in range(n) for row in ((i, 0), (n + i, n + i))]
    ours = ["create table r (x int, y int, a int, primary key (x));", "create table s (y int, x int, primary key (y));"]
    ours += inserts("r", left)[0] + inserts("s", right)[0]
    return ours + ["ask select r.a from r, s where r.x = s.x and r.y = s.y;"], None


TOTAL = ("select sum(low), sum(high) from (select min(case when y > 0 then {0} else 0 end) as low, "
         "max(case when y > 0 then {0} else 0 end) as high from r group by k);")
SURE = "case when min(case when y > 0 then 1 else 0 end) = 1 then {0}(y) end as low, "
HIGH = "max(case when y > 0 then y end) as high from r group by k);"
RANGES = {
    "count": TOTAL.format(1),
    "sum y": TOTAL.format("y"),
    "min y": "select case when count(low) > 0 then min(least) end, coalesce(min(low), max(high)) from (select "
             + SURE.format("max") + "min(case when y > 0 then y end) as least, " + HIGH,
    "max y": "select max(low), max(high) from (select " + SURE.format("min") + HIGH,
}
"""The two ends of ranges over the rows with y > 0, found by the peer from what it finds of each key."""


def ranges(rows, goals):
    """Ranges over one table of rows whose first value is their key."""
    made = join(tables(["r"], ["k", "y"], "k"), inserts("r", rows))
    return made[0] + ["range %s from r where y > 0;" % goal for goal in goals], made[1] + [RANGES[goal] for goal in goals]


def ranges_of_ones(n):
    """n blocks of one row, of which half meet the test: no row is printed."""
    return ranges([(k, k % 9 + 1 if k % 2 else -k) for k in range(n)], ["sum y"] * 10)


def ranges_of_twos(n):
    """n / 2 blocks of two rows, of which one meets the test: each range prints n rows."""
    return ranges([(k, y) for k in range(n // 2) for y in (-k - 1, k % 9 + 1)], ["sum y"])


def ranges_of_one_block(n):
    """One block of n rows."""
    return ranges([(1, y) for y in range(-(n // 2), n - n // 2)], ["sum y"] * 10)


def ranges_of_ends(n):
    """Counts, least and greatest values of n / 2 blocks of two rows, of which some meet the test in whole, some in part."""
    return ranges([(k, y) for k in range(n // 2) for y in (k % 3 - 1, k % 11 + 2)], ["count", "min y", "max y"])


def preferred(n):
    """A prefer that takes one row of each of n / 2 keys of two rows."""
    ours, theirs = twos(n)
    return ours + ["prefer r where v = 1;"], theirs + ["delete from r where v <> 1 and k in (select k from r where v = 1);"]


JOINED = ("select sum(low), sum(high) from (select min(case when z = 1 then y else 0 end) as low, "
          "max(case when z = 1 then y else 0 end) as high from r left join s on r.s = s.k group by r.k);")
"""The two ends of a range over the rows of r that a row of s with z = 1 joins, found by the peer from what it finds of each key."""


JOINED_GROUPS = ("select g, sum(low), sum(high) from (select s.k as g, min(min(y), case when count(*) < b.n then 0 else min(y) end) as low, "
                 "max(max(y), case when count(*) < b.n then 0 else max(y) end) as high from r, s, (select k, count(*) as n from r group by k) b "
                 "where r.s = s.k and b.k = r.k group by r.k, s.k) group by g;")
"""The same for each row of s, whether z is 1 or not."""


def joined_tables(n):
    """n / 2 blocks of two rows, and a strict table of 1,000 that they join."""
    rows = [(k, (7 * k + v) % 1000, v * (k % 9) - v) for k in range(n // 2) for v in (1, 2)]
    ours, theirs = tables(["s"], ["k", "z"], "k")
    strict = [line.replace("create table", "create strict table") for line in ours], theirs
    return join(tables(["r"], ["k", "s", "y"], "k"), strict, inserts("r", rows), inserts("s", [(k, k % 2) for k in range(1000)]))


def joined_range(n):
    """A range over these, of whose joined rows half meet the test: n rows are printed."""
    made = joined_tables(n)
    return made[0] + ["range sum y from r, s where r.s = s.k and z = 1;"], made[1] + [JOINED]


def joined_groups(n):
    """The same by 1,000 groups."""
    made = joined_tables(n)
    return made[0] + ["range sum y from r, s where r.s = s.k group by s.k;"], made[1] + [JOINED_GROUPS]


LOADS = [
    ("inserts and asks by key in turn, ascending", ascending_turns, 50000),
    ("inserts and asks by key in turn, random", random_turns, 50000),
    ("every second row deleted by key", deletes, 20000),
    ("1,000 asks by key, with the load", one_by_key, 250000),
    ("tables shown 100 times", shown_tables, 100000),
    ("conflicts shown 100 times", shown_conflicts, 100000),
    ("two tables joined off their keys", two_tables, 100000),
    ("a chain of three, from its front", chain_from_the_front, 20000),
    ("a chain of three, from its back", chain_from_the_back, 20000),
    ("a chain of three, that begins with a product", chain_by_a_product, 20000),
    ("all pairs, 77 answers", all_pairs, 3000),
    ("an exists over one chain of equal values", one_chain, 25000),
    ("two tables joined off their keys, by values picked against the index", joined_by_picked_values, 25000),
    ("a load of one column, ascending", ascending_load, 250000),
    ("a load of one column, random", random_load, 250000),
    ("a load of two columns, random", random_load_of_two, 250000),
    ("certain rows of a join, by a plan", persons_and_towns, 20000),
    ("certain rows of a join of tables of 16 columns, by a plan", wide_persons_and_towns, 20000),
    ("certain and possible rows of the same join", persons_asked_twice, 20000),
    ("disputed rows of the same join", persons_disputed, 20000),
    ("what stands against one row of the same join", against_one_person, 20000),
    ("what stands against an exists, a row of each key", against_all, 20000),
    ("certain rows of a path of three, by a plan", path_of_three, 25000),
    ("certain rows of a star with four dimensions, by a plan", star, 25000),
    ("certain rows of a join off keys, by a plan", join_off_keys, 25000),
    ("certain rows of a strong cycle, by formulas", strong_cycle, 20000),
    ("disputed rows of the same cycle", strong_cycle_disputed, 20000),
    ("certain rows of the same cycle, as a union of two parts", united_cycle, 20000),
    ("certain rows of the same cycle and of a chain by a plan, as a union", united_apart, 20000),
    ("a weak cycle of two tables, without a search", weak_cycle, 25000),
    ("a weak cycle of two tables, shuffled", shuffled_weak_cycle, 25000),
    ("weak pairs of values that are picked to share a bucket", picked_weak_pairs, 25000),
    ("a weak pair of two wide blocks", wide_weak_blocks, 25000),
    ("a strong cycle through one wide block, by formulas", through_a_wide_block, 8000),
    ("weak pairs through one wide block", pairs_through_a_wide_block, 8000),
    ("ten ranges of a sum, blocks of one row", ranges_of_ones, 250000),
    ("a range of a sum, blocks of two rows, all printed", ranges_of_twos, 250000),
    ("ten ranges of a sum, one block", ranges_of_one_block, 250000),
    ("ranges of a count, a least and a greatest value, blocks of two rows", ranges_of_ends, 250000),
    ("every second row taken by a prefer", preferred, 250000),
    ("a range of a sum over a join, blocks of two rows, all printed", joined_range, 247500),
    ("a range of a sum over a join by 1,000 groups", joined_groups, 247500),
]

NEWER = {"range": (ranges_of_ones, ranges_of_twos, ranges_of_one_block, ranges_of_ends),
         "disputed": (persons_disputed, strong_cycle_disputed), "against": (against_one_person, against_all),
         "ask exists from r union": (united_cycle, united_apart), "show conflicts": (shown_conflicts,), "prefer": (preferred,), "range count from r ,": (joined_range,),
         "range count from r , s group": (joined_groups,)}
"""Loads with statements that an older program doesn't know, by their first words."""


# Runs

def knows(program, words):
    """Whether a program's grammar has a statement that begins so: of one that it hasn't the last of the words is refused."""
    ran = subprocess.run([program, "run"], input=(words + ";").encode(), stdout=subprocess.PIPE, check=False)
    return ran.stdout != b"error 2 Syntax at %d\n" % (words.rfind(" ") + 1)


def write_scripts(make, n, script, other):
    """Writes both scripts of a load, and says whether the peer has one. A process of its own makes them: what a process held
    before a run would count as held by the run."""
    child = os.fork()
    if child == 0:
        ours, theirs = make(n)
        with open(script, "w", encoding="ascii") as file:
            file.write("\n".join(ours) + "\n")
        if theirs:
            with open(other, "w", encoding="ascii") as file:
                file.write("begin;\n" + "\n".join(theirs) + "\ncommit;\n")
        os._exit(0 if theirs else 1)
    return os.waitpid(child, 0)[1] == 0


def run(words, script, limit):
    """The status of a run; None where it doesn't end in time."""
    with open(script, "rb") as source:
        process = subprocess.Popen(words, stdin=source, stdout=subprocess.DEVNULL)
        try:
            process.wait(timeout=limit)
        except subprocess.TimeoutExpired:
            process.kill()
            process.wait()
            return None
    return process.returncode


def measured(words, script, limit, repeat):
    """The least processor seconds and the greatest megabytes of some runs, each in a process of its own that waits for it."""
    best, most = None, 0.0
    for _ in range(repeat):
        reader, writer = os.pipe()
        child = os.fork()
        if child == 0:
            import resource
            ended = run(words, script, limit)
            used = resource.getrusage(resource.RUSAGE_CHILDREN)
            line = "%s %f %d" % (ended, used.ru_utime + used.ru_stime, used.ru_maxrss)
            os.write(writer, line.encode())
            os._exit(0)
        os.close(writer)
        said = os.read(reader, 200).decode().split()
        os.close(reader)
        os.waitpid(child, 0)
        if not said or said[0] == "None":
            return None
        if said[0] != "0":
            sys.exit("%s ended with status %s" % (words[0], said[0]))
        best = float(said[1]) if best is None else min(best, float(said[1]))
        most = max(most, int(said[2]) / 1024)
    return best, most


def shown(result):
    return "over the limit" if result is None else "%.2f s, %.0f MB" % result


def main():
    parser = argparse.ArgumentParser(description=__doc__.split("\n\n")[0])
    parser.add_argument("--program", default=PROGRAM)
    parser.add_argument("--scale", type=float, default=1.0, help="a factor for each n")
    parser.add_argument("--only", default="", help="the loads whose names hold this word")
    parser.add_argument("--repeat", type=int, default=3)
    parser.add_argument("--limit", type=float, default=120.0, help="seconds for a run")
    words = parser.parse_args()
    if not os.access(words.program, os.X_OK):
        sys.exit("no program %s: build it by ./cqa run </dev/null" % words.program)
    peer = shutil.which("sqlite3")
    print("| Load | n | the program | sqlite3 | ratio | 4n: the program | sqlite3 | ratio |")
    print("|---|---|---|---|---|---|---|---|")
    unknown = [make for word, makes in NEWER.items() if not knows(words.program, word) for make in makes]
    with tempfile.TemporaryDirectory() as room:
        for name, make, size in LOADS:
            if words.only not in name:
                continue
            if make in unknown:
                print("%s: skipped, since the program doesn't know its statements" % name, file=sys.stderr)
                continue
            cells = [name, "{:,}".format(int(size * words.scale))]
            for factor in (1, 4):
                script, other = os.path.join(room, "ours"), os.path.join(room, "theirs")
                is_shared = write_scripts(make, max(int(size * words.scale) * factor, 1), script, other) and peer
                mine = measured([words.program, "run"], script, words.limit, words.repeat)
                its = measured([peer, ":memory:"], other, words.limit, words.repeat) if is_shared else None
                ratio = "%.2f" % (mine[0] / its[0]) if mine and its and its[0] else ""
                cells += [shown(mine), shown(its) if is_shared else "", ratio]
            print("| " + " | ".join(cells) + " |", flush=True)


if __name__ == "__main__":
    main()
