#!/usr/bin/env python3
"""How joins of any shape grow: many queries with a plan, each at n and at 4n rows a table, beside `possible` and sqlite3.

    bench/shapes.py [--program FILE] [--beside FILE] [--only WORD] [--count N] [--seed N] [--rows N] [--fan N] [--repeat N]
                    [--limit S]

The queries: customers with their orders and the items of these; all trees of three tables, where each edge is a foreign key one
way or the other or a join off both keys, with answers of one table or two or none, in two orders of `from`, with a condition or
none; and random joins of four to six tables. Of these the ones that have a plan are asked: `ask`, `possible`, and `explain` of a
certain row and of a rejected one. `possible` has to give sqlite3's rows, and each explanation has to agree with `ask`.

Tables have n blocks, a few percent of them with two rows. A value of a joined column stands in about one row, or in `--fan` rows
where the column is no key; rows that belong together in one join mostly do in another, so that cycles of joins have answers.

Times are processor seconds of a statement alone, or with the load before it, where that is said. What takes longer than a moment
is the least of N runs, and of N more if it is over a limit; a run that takes longer than S seconds is stopped. Another program is
measured in turn by `--beside`, and has to give the same rows.

The limits: at 4n a statement may take 5 times as long as at n; an ask with its load 3 times as long as `possible` with its load,
or 2 times as long as sqlite3's answer to the plain query, its keys indexed, whichever is more; at 8,000 rows a table nothing may
take over 0.3 s, load included, where the plain join has under 100,000 rows; and the customers 0.1 s at 20,000. The slowest
statements are printed as tables in Markdown, then what is over a limit, and the status is 1 if anything is. Linux, and Python 3.9
with its library alone, are needed.
"""

import argparse
import functools
import itertools
import os
import random
import select
import sqlite3
import subprocess
import sys
import time

from growth import PROGRAM

COLUMNS = "abcde"
MOST_GROWTH = 5.0
MOST_OF_POSSIBLE = 3.0
MOST_OF_SQLITE = 2.0
LONGEST = 0.3            # seconds at 8,000 rows a table
LONG_JOIN = 100_000      # rows of a plain join
MOMENT = 0.05            # seconds; shorter ones vary by more than the growth that is looked for: 0.03 s often take 5 to 7 times as long at 4n
PEER_LIMIT = 1.0         # seconds, after which sqlite3 is stopped and doesn't count
WORST = 10               # how many are printed
END = b"conflicts 200000\n"


class Table:
    """A table of five columns: `a` is its key, or `a` and `b`; `e` is for conditions, and the others for joins."""

    def __init__(self, number, is_pair, is_strict):
        self.number, self.is_strict = number, is_strict
        self.key = "ab" if is_pair else "a"
        self.name = "tp"[is_pair] + "s" * is_strict + str(number)

    def schema(self):
        kinds = ", ".join(column + " int" for column in COLUMNS)
        return "create %stable %s (%s, primary key (%s));" % ("strict " * self.is_strict, self.name, kinds, ", ".join(self.key))


TABLES = {(number, is_pair, is_strict): Table(number, is_pair, is_strict)
          for number in range(6) for is_pair in (False, True) for is_strict in (False, True)}
SIMPLE = [TABLES[number, False, False] for number in range(6)]


# Rows. Each has a number, and its columns have the values of this number or the next, so that rows with near numbers meet.

@functools.lru_cache(maxsize=None)
def values_of_numbers(n):
    values = list(range(n))
    random.Random(n).shuffle(values)
    return values


@functools.lru_cache(maxsize=None)
def rows_of(table, n, fan):
    """The rows of a table of n blocks, in ascending order. In one of 25 blocks two rows differ."""
    pick, values = random.Random("%s %d" % (table.name, n)), values_of_numbers(n)

    def near(number):
        return values[(number + pick.randrange(2)) // fan * fan % n]

    def others(number):
        return tuple(near(number) for _ in "cd") + (pick.randrange(100),)

    rows = set()
    for number in range(n):
        key = (near(number), values[number]) if len(table.key) == 2 else (values[number], near(number))
        rows.add(key + others(number))
        if not table.is_strict and pick.random() < 0.04:
            other = number if pick.random() < 0.5 else pick.randrange(n)
            rows.add((key if len(table.key) == 2 else (values[number], near(other))) + others(other))
    return sorted(rows)


@functools.lru_cache(maxsize=None)
def load_of(table, n, fan):
    """The statements that make a table."""
    lines = "".join(",".join(map(str, row)) + "\n" for row in rows_of(table, n, fan))
    return ("%s\ncopy %s;\n%s\\.\n" % (table.schema(), table.name, lines)).encode()


# Queries.

class Query:
    """A query over tables in the order of `from`, whose columns are pairs of a table's place and a name."""

    def __init__(self, family, tables, joins, tests, answer):
        self.family, self.tables, self.joins, self.tests, self.answer = family, tables, joins, tests, answer
        self.sizes, self.longest = (1, 4), LONGEST

    def column(self, column):
        return "%s.%s" % (self.tables[column[0]].name, column[1])

    def condition(self, test, n):
        """A test on `e` keeps one row of 100, or five; one on another column a row or a twentieth of all rows."""
        column, op = test
        value = 5 if column[1] == "e" else n // 20
        return "%s %s %d" % (self.column(column), op, value)

    def body(self, n, places=None):
        """`from` and `where`, over some of the tables."""
        places = range(len(self.tables)) if places is None else places
        conds = ["%s = %s" % (self.column(left), self.column(right)) for left, right in self.joins if left[0] in places]
        conds += [self.condition(test, n) for test in self.tests if test[0][0] in places]
        where = " where " + " and ".join(conds) if conds else ""
        return "from %s%s" % (", ".join(self.tables[place].name for place in places), where)

    def selected(self):
        return ", ".join(map(self.column, self.answer))

    def text(self, n):
        return "%s %s" % ("select " + self.selected() if self.answer else "exists", self.body(n))

    def plain(self, n):
        """The plain query, for sqlite3."""
        if self.answer:
            return "select distinct %s %s" % (self.selected(), self.body(n))
        return "select 1 where exists (select 1 %s)" % self.body(n)

    def components(self):
        """The places of tables that joins link, by component."""
        component = list(range(len(self.tables)))
        for left, right in self.joins:
            one, other = component[left[0]], component[right[0]]
            component = [one if place == other else place for place in component]
        return [[place for place, its in enumerate(component) if its == one] for one in sorted(set(component))]


def customers():
    query = Query("customers", SIMPLE[:3], [((1, "b"), (0, "a")), ((2, "b"), (1, "a"))], [], [(0, "a"), (2, "a")])
    query.sizes, query.longest = (2.5, 10), 0.1 * 8_000 / 20_000
    return query


def trees_of_three():
    """All trees of three tables. The columns of a table that are no keys are joined in turn."""
    answers = [(), (0,), (1,), (2,), (0, 1), (0, 2), (1, 2)]
    for kinds, answer, places, is_tested in itertools.product(
            itertools.product("<>x", repeat=2), answers, ([0, 1, 2], [2, 0, 1]), (False, True)):
        tables = [SIMPLE[number] for number in places]
        place = {number: tables.index(table) for number, table in zip(places, tables)}
        columns = {number: iter("bc") for number in places}
        joins = []
        for (one, other), kind in zip([(0, 1), (1, 2)], kinds):
            left = (place[one], "a" if kind == "<" else next(columns[one]))
            right = (place[other], "a" if kind == ">" else next(columns[other]))
            joins.append((right, left) if kind == "<" else (left, right))
        tests = [((place[0], "e"), "<")] if is_tested else []
        yield Query("three", tables, joins, tests, [(place[number], "a") for number in answer])


def edges_of(pick, family, count):
    """Pairs of tables that are joined: each table but the first with one before it, and what more the family has."""
    before = {"star": lambda place: 0, "chain": lambda place: place - 1}.get(family, pick.randrange)
    edges = [(before(place), place) for place in range(1, count)]
    return edges + [tuple(pick.sample(range(count), 2))] if family == "cycle" else edges


def joins_of(pick, tables, edge, is_double):
    """Joins of two tables, on one column of each or two: a foreign key one way or the other, or off both keys."""
    one, other = edge if pick.random() < 0.5 else edge[::-1]
    is_foreign, free = pick.random() < 2 / 3, [column for column in "bcd" if column not in tables[one].key]
    if not is_foreign:
        theirs = [column for column in "bcd" if column not in tables[other].key]
    elif is_double and len(tables[other].key) == 1:
        theirs = ["a", pick.choice("bcd")]
    else:
        theirs = list(tables[other].key)
    count = 2 if is_double else 1
    return [((one, left), (other, right)) for left, right in zip(pick.sample(free, count), pick.sample(theirs, count))]


def random_join(pick):
    """A join of four to six tables: a tree, a star or a chain, or with a cycle, with two columns joined, with a table apart."""
    count, family = pick.randint(4, 6), pick.choice(["tree", "star", "chain", "cycle", "double", "apart"])
    tables = [TABLES[number, pick.random() < 0.4, pick.random() < 0.1] for number in range(count)]
    linked = count - 1 if family == "apart" else count
    joins = []
    for edge in edges_of(pick, family, linked):
        joins += joins_of(pick, tables, edge, family == "double" and pick.random() < 0.5)
    tests = [((pick.randrange(count), pick.choice("eeeabcd")), pick.choice("=<")) for _ in range(pick.choice([0, 0, 0, 1, 2]))]
    answer = [(place, pick.choice("aaabcde")) for place in pick.sample(range(linked), pick.choice([0, 1, 1, 2, 2, 3]))]
    answer += [(place, "b") for place, column in answer if column == "a" and len(tables[place].key) == 2 and pick.random() < 0.4]
    order = pick.sample(range(count), count)
    moved = {place: order.index(place) for place in range(count)}

    def at(column):
        return moved[column[0]], column[1]

    return Query(family, [tables[place] for place in order], [(at(left), at(right)) for left, right in joins],
                 [(at(column), op) for column, op in tests], list(map(at, answer)))


def with_a_plan(program, queries):
    """Those that the program has a plan for."""
    script = "".join(table.schema() + "\n" for table in TABLES.values())
    script += "".join("plan %s;\nset conflicts 200000;\n" % query.text(2000) for query in queries)
    ran = subprocess.run([program, "run"], input=script.encode(), stdout=subprocess.PIPE, check=True)
    replies = ran.stdout.split(END)[:-1]
    return [query for query, reply in zip(queries, replies) if b"step" in reply]


# Runs.

class Over(Exception):
    """A statement that took longer than the limit."""


class Session:
    """A program that runs statements as they come, and whose time is read between them."""

    def __init__(self, program, limit):
        self.limit = limit
        self.process = subprocess.Popen([program, "run"], stdin=subprocess.PIPE, stdout=subprocess.PIPE)
        self.clock = (~self.process.pid << 3) | 2   # the processor time of this process, by clock_getcpuclockid

    def say(self, statements):
        """The reply to statements, and how long they took."""
        start = time.clock_gettime(self.clock)
        self.process.stdin.write(statements + b"set conflicts 200000;\n")
        self.process.stdin.flush()
        reply, last = [], b""
        while not last.endswith(END):
            if not select.select([self.process.stdout], [], [], 0.1)[0]:
                if time.clock_gettime(self.clock) > start + self.limit:
                    raise Over
                continue
            piece = os.read(self.process.stdout.fileno(), 1 << 20)
            if not piece:
                raise SystemExit("the program ended at %s" % statements[-300:].decode())
            reply.append(piece)
            last = last[-len(END):] + piece
        return b"".join(reply)[:-len(END)].decode(), time.clock_gettime(self.clock) - start

    def megabytes(self):
        """The most memory that it held so far."""
        with open("/proc/%d/status" % self.process.pid, encoding="ascii") as status:
            return next(int(line.split()[1]) / 1024 for line in status if line.startswith("VmHWM"))

    def end(self):
        self.process.kill()
        self.process.communicate()


class Timed:
    """A statement that ran after a load: its reply, seconds of both, and megabytes. No reply: it was over the limit."""

    def __init__(self, program, load, statement, limit):
        session = Session(program, limit)
        self.reply, self.alone, self.loading = None, limit, 0.0
        try:
            _, self.loading = session.say(load)
            self.reply, self.alone = session.say(statement.encode() + b";\n")
        except Over:
            pass
        finally:
            self.memory = session.megabytes()
            session.end()

    def whole(self):
        return self.loading + self.alone

    def lines(self):
        return [] if self.reply is None else self.reply.split("\n")[:-1]

    def rows(self):
        """The rows of an answer."""
        return self.lines()[:-1]

    def least(self, other):
        """The one of two runs that took less."""
        return other if other.reply is not None and other.alone < self.alone else self


class Peer:
    """sqlite3 with all tables of one size in memory, their keys indexed."""

    def __init__(self, n, fan):
        self.base = sqlite3.connect(":memory:")
        for table in TABLES.values():
            self.base.execute("create table %s (%s)" % (table.name, ", ".join(column + " int" for column in COLUMNS)))
            self.base.executemany("insert into %s values (?, ?, ?, ?, ?)" % table.name, rows_of(table, n, fan))
            self.base.execute("create index %s_key on %s (%s)" % (table.name, table.name, ", ".join(table.key)))
        self.base.execute("analyze")

    def answer(self, text):
        """The rows of a query, and the seconds that it took; None where it took too long."""
        start = time.process_time()
        self.base.set_progress_handler(lambda: time.process_time() > start + PEER_LIMIT, 100_000)
        try:
            rows = self.base.execute(text).fetchall()
        except sqlite3.OperationalError:
            return None
        return rows, time.process_time() - start

    def rows_of_join(self, query, n):
        """How many rows the joins of its components have, all together; None where that took too long."""
        counts = [self.answer("select count(*) " + query.body(n, places)) for places in query.components()]
        return None if None in counts else sum(rows[0][0] for rows, _ in counts)


@functools.lru_cache(maxsize=4)
def peer_of(n, fan):
    return Peer(n, fan)


# Measuring a query.

class Measured:
    """A query at one size: what each verb took, what sqlite3 took, how many rows the plain join has."""

    def __init__(self, words, query, n):
        self.words, self.query, self.n = words, query, n
        self.statements, self.runs, self.beside = {}, {}, {}
        peer = peer_of(n, words.fan)
        self.join = peer.rows_of_join(query, n)
        plain = peer.answer(query.plain(n))
        self.sqlite = plain and plain[1]
        for verb in ("ask", "possible"):
            self.run(verb, "%s %s" % (verb, query.text(n)))
        self.check_possible(plain)
        self.explain("explain certain", self.certain_row())
        self.explain("explain rejected", self.rejected_row())

    def run(self, verb, statement):
        """Runs a statement, more than once where it takes longer than a moment, and the other program in turn."""
        self.statements[verb] = statement
        load = b"".join(load_of(table, self.n, self.words.fan) for table in self.query.tables)
        for number in range(self.words.repeat):
            self.keep(self.runs, verb, Timed(self.words.program, load, statement, self.words.limit))
            if self.words.beside:
                self.keep(self.beside, verb, Timed(self.words.beside, load, statement, self.words.limit))
            if number == 0 and not any(MOMENT < runs[verb].whole() < 2.0 for runs in (self.runs, self.beside) if verb in runs):
                break
        self.compare(verb, statement)

    def keep(self, runs, verb, timed):
        runs[verb] = runs[verb].least(timed) if verb in runs else timed

    def forget_replies(self):
        for timed in (*self.runs.values(), *self.beside.values()):
            timed.reply = timed.reply and "forgotten"

    def fail(self, text):
        raise SystemExit("%s, at n = %d: %s" % (self.query.text(self.n), self.n, text))

    def compare(self, verb, statement):
        """Both programs have to say the same, but for the repair of a rejected row, which is free."""
        if self.words.beside and None not in (self.runs[verb].reply, self.beside[verb].reply):
            mine, other = self.runs[verb].lines(), self.beside[verb].lines()
            if mine != other and (mine[0] != "rejected" or other[0] != "rejected"):
                self.fail("the programs differ in %s" % statement)

    def check_possible(self, plain):
        if plain is not None and self.runs["possible"].reply is not None:
            shown = sorted("(%s)" % ", ".join(map(str, row if self.query.answer else ())) for row in plain[0])
            if shown != sorted(self.runs["possible"].rows()):
                self.fail("possible gives other rows than sqlite3")
        if not set(self.runs["ask"].rows()) <= set(self.runs["possible"].rows()) and self.runs["possible"].reply is not None:
            self.fail("a certain row isn't possible")

    def certain_row(self):
        rows = self.runs["ask"].rows()
        return rows[len(rows) // 2] if rows else None

    def rejected_row(self):
        """A possible row that isn't certain, or else stored values that are no answer together."""
        certain, possible = set(self.runs["ask"].rows()), self.runs["possible"].rows()
        rows = [row for row in possible if row not in certain]
        if rows or not self.query.answer or self.runs["ask"].reply is None:
            return rows[len(rows) // 2] if rows else None if possible else "()"
        drawn = (self.drawn_row(random.Random(seed)) for seed in range(1000))
        return next((row for row in drawn if row not in set(possible)), None)

    def drawn_row(self, pick):
        """Stored values of the answer's columns, each of any row."""
        def value(place, column):
            return pick.choice(rows_of(self.query.tables[place], self.n, self.words.fan))[COLUMNS.index(column)]

        return "(%s)" % ", ".join(str(value(*column)) for column in self.query.answer)

    def explain(self, verb, row):
        if row is None:
            return
        self.run(verb, "explain row %s for %s" % (row, self.query.text(self.n)))
        lines, is_known = self.runs[verb].lines(), self.runs["ask"].reply is not None
        if is_known and lines and lines[0].startswith("certain by block") != (verb == "explain certain"):
            self.fail("ask and explain differ at %s" % row)


class Growth:
    """A verb of a query at both sizes, as a line of the table."""

    def __init__(self, verb, small, big):
        self.verb, self.small, self.big, self.query = verb, small, big, big.query

    @property
    def first(self):
        return self.small.runs.get(self.verb)

    @property
    def last(self):
        return self.big.runs[self.verb]

    def again(self):
        """Runs everything anew that its limits are about."""
        for one in (self.small, self.big):
            for verb in {self.verb, "possible"} & one.runs.keys():
                one.run(verb, one.statements[verb])

    def growth(self):
        return self.last.alone / self.first.alone if self.first else None

    def faults(self):
        """The limits that it breaks, in words."""
        if self.last.reply is None:
            yield "over %.0f s" % self.last.alone
        elif self.last.whole() > MOMENT:
            if self.first and self.last.alone > max(MOMENT, MOST_GROWTH * self.first.alone):
                yield "grows %.1f times" % self.growth()
            if self.verb == "ask" and self.last.whole() > self.most_of_others():
                yield "takes %.1f times possible" % (self.last.whole() / self.big.runs["possible"].whole())
            longest = self.query.longest * self.big.n / 8_000
            if self.last.whole() > longest and self.big.join is not None and self.big.join < LONG_JOIN:
                yield "takes over %.2f s" % longest

    def most_of_others(self):
        return max(MOST_OF_POSSIBLE * self.big.runs["possible"].whole(), MOST_OF_SQLITE * (self.big.sqlite or 0.0))

    def line(self):
        def shown(timed):
            return "" if timed is None else "over %.0f s" % timed.alone if timed.reply is None else "%.4f s" % timed.alone

        join = "many" if self.big.join is None else "{:,}".format(self.big.join)
        cells = ["`%s`" % self.query.text(self.big.n), self.verb, join]
        if self.big.words.beside:
            cells += [shown(self.small.beside.get(self.verb)), shown(self.big.beside.get(self.verb))]
        cells += [shown(self.first), shown(self.last), shown(self.big.runs["possible"])]
        cells.append("over %.0f s" % PEER_LIMIT if self.big.sqlite is None else "%.4f s" % self.big.sqlite)
        cells += ["%.4f s" % self.last.loading, "%.0f MB" % self.last.memory]
        return "| " + " | ".join(cells) + " |"


def head(words):
    beside = "beside: n | 4n | " if words.beside else ""
    names = "| Query, at 4n | Verb | Rows of the join | %sn | 4n | `possible` | `sqlite3` | load | memory |" % beside
    return names + "\n|" + "---|" * (names.count("|") - 1)


def measured(words, query):
    """The verbs of a query that ran at 4n. What is a little over a limit is run again."""
    small, big = (Measured(words, query, int(words.rows * factor)) for factor in query.sizes)
    growths = [Growth(verb, small, big) for verb in big.runs]
    for growth in growths:
        if growth.last.whole() < 1.0 and any(growth.faults()):
            growth.again()
    small.forget_replies()
    big.forget_replies()
    return growths


def queries_of(words):
    pick = random.Random(words.seed)
    drawn = [random_join(pick) for _ in range(3 * words.count)]
    named = [customers()] + with_a_plan(words.program, list(trees_of_three()))
    queries = named + with_a_plan(words.program, drawn)[:words.count]
    return [query for query in queries if words.only in query.family or words.only in query.text(words.rows)]


def report(words, growths, count):
    faulty = [(growth, list(growth.faults())) for growth in growths]
    faulty = [(growth, faults) for growth, faults in faulty if faults]
    print("The slowest:\n\n" + head(words))
    for growth in sorted(growths, key=lambda growth: -growth.last.alone)[:WORST]:
        print(growth.line())
    grown = [growth for growth in growths if growth.first and growth.last.alone > MOMENT]
    print("\nThe fastest growing, of those that take over %.2f s:\n\n%s" % (MOMENT, head(words)))
    for growth in sorted(grown, key=lambda growth: -growth.growth())[:WORST]:
        print(growth.line())
    asks = [growth for growth in growths if growth.verb == "ask"]
    print("\nThe slowest asks beside `possible`, loads included:\n\n" + head(words))
    for growth in sorted(asks, key=lambda growth: -growth.last.whole() / growth.big.runs["possible"].whole())[:WORST]:
        print(growth.line())
    if faulty:
        print("\nOver a limit:\n\n%s" % head(words))
    for growth, faults in faulty:
        print("%s %s" % (growth.line(), ", ".join(faults)))
    kinds = ["over %.0f s" % words.limit, "grows", "times possible", "takes over"]
    counts = ["%s: %d" % (kind, sum(any(kind in fault for fault in faults) for _, faults in faulty)) for kind in kinds]
    broken = len({id(growth.query) for growth, _ in faulty})
    print("\n%d queries, %d statements at n and 4n; over a limit are %d queries, %d statements (%s)"
          % (count, len(growths), broken, len(faulty), ", ".join(counts)))
    return 1 if faulty else 0


def main():
    parser = argparse.ArgumentParser(description=__doc__.split("\n\n")[0])
    parser.add_argument("--program", default=PROGRAM)
    parser.add_argument("--beside", help="another program, measured in turn")
    parser.add_argument("--only", default="", help="the queries of this family, or that hold this word")
    parser.add_argument("--count", type=int, default=500, help="how many random joins")
    parser.add_argument("--seed", type=int, default=1, help="of the random joins")
    parser.add_argument("--rows", type=int, default=2000, help="n, the blocks of a table")
    parser.add_argument("--fan", type=int, default=1, help="rows of a value in a column that is no key")
    parser.add_argument("--repeat", type=int, default=3)
    parser.add_argument("--limit", type=float, default=20.0, help="seconds for a statement")
    words = parser.parse_args()
    for program in filter(None, (words.program, words.beside)):
        if not os.access(program, os.X_OK):
            sys.exit("no program %s: build it by ./cqa run </dev/null" % program)
    queries = queries_of(words)
    growths = []
    for number, query in enumerate(queries, 1):
        growths += measured(words, query)
        if number % 50 == 0:
            print("%d of %d queries" % (number, len(queries)), file=sys.stderr, flush=True)
    return report(words, growths, len(queries))


if __name__ == "__main__":
    sys.exit(main())
