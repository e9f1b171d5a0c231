#!/usr/bin/env python3
"""Groups of lists, judged by the program and by a plain machine that tries every choice of a row of each block.

    differential/judge.py [PROGRAM] [--seed S] [--count N]

Each seed makes an input of some groups: most are right, and some have lines that are changed, left out or put elsewhere. The
machine here reads it by a reader of its own, and each reply of `judge` has to be true: `certain` where each choice holds a list
whole, `open` with a choice that holds none, `refused` with the number of the line and the first fault of the line. `judge
reasons` has to reply the same, and what stands from `certain` to `c end` has to be the group's formula and has to be `verified`
by `check`. `judge ranges` reads such an input with weights, and has to reply the least and the greatest value of all choices, each
with a choice that has it. The input goes over a pipe in pieces of 1, 2 and 7 bytes, too, and with a small budget, where a hard group may be
refused as `Spent`. The last line says how much was tried; the status is 0 where nothing differed. Python 3.9 and its library
alone are needed.
"""

import argparse
import itertools
import os
import random
import re
import subprocess
import sys

TOP = os.path.dirname(os.path.dirname(os.path.abspath(__file__)))
PROGRAM = os.path.join(TOP, "crates", "cqa_cli", "out", "cqa_cli")
MOST_ROWS = 1_000_000
MOST_NUMBER = 1_000_000
MOST_WEIGHT = 2**63 - 1
PIECES = (1, 2, 7)
CHECKED = 4


class Differs(Exception):
    pass


class Faulty(Exception):
    """A line has this fault."""


# The reader.

def lines_of(data):
    """The lines, without their line feeds; the last one counts where it isn't empty."""
    *whole, rest = data.split(b"\n")
    return whole + [rest] if rest else whole


def tokens_of(line):
    return re.findall(rb"[^ \t\r]+", line)


def number(token, fault):
    """A number of digits from 0 to the greatest."""
    if not re.fullmatch(rb"[0-9]+", token) or int(token) > MOST_NUMBER:
        raise Faulty(fault)
    return int(token)


def sizes_of(tokens):
    sizes = []
    for token in tokens:
        size = number(token, "BadSize")
        if size == 0:
            raise Faulty("BadSize")
        sizes.append(size)
        if sum(sizes) > MOST_ROWS:
            raise Faulty("Limit rows 1000000")
    return sizes


def row_of(token, sizes):
    block, colon, row = token.partition(b":")
    if not colon:
        raise Faulty("BadRow")
    block, row = number(block, "BadRow"), number(row, "BadRow")
    if not 1 <= block <= len(sizes) or not 1 <= row <= sizes[block - 1]:
        raise Faulty("UnknownRow")
    return block, row


def weight_of(tokens):
    """What the tokens behind the rows of a list say it weighs."""
    if not tokens:
        return 1
    if len(tokens) != 2 or not re.fullmatch(rb"-?[0-9]+", tokens[1]) or not -MOST_WEIGHT - 1 <= int(tokens[1]) <= MOST_WEIGHT:
        raise Faulty("BadWeight")
    return int(tokens[1])


class Machine:
    """Reads lines one after another. `events` has what is to be judged or refused, each with the number of its line. ranges: whether
    lists have weights, and stand with them in a group."""

    def __init__(self, ranges):
        self.ranges = ranges
        self.group = None
        self.passes = False
        self.events = []

    def refuse(self, at, fault):
        self.events.append((at, fault, None))

    def begin(self, at, tokens):
        if self.group is not None:
            self.refuse(at, "Unfinished")
        self.group, self.passes = None, True
        self.group = (sizes_of(tokens), [])
        self.passes = False

    def listed(self, tokens):
        if self.group is None:
            raise Faulty("NoGroup")
        sizes, lists = self.group
        end = tokens.index(b"=") if self.ranges and b"=" in tokens else len(tokens)
        rows = [row_of(token, sizes) for token in tokens[:end]]
        lists.append((rows, weight_of(tokens[end:])) if self.ranges else rows)

    def end(self, at, tokens):
        if tokens:
            raise Faulty("BadLine")
        if self.group is None:
            raise Faulty("NoGroup")
        self.events.append((at, None, self.group))
        self.group = None

    def line(self, at, line):
        tokens = tokens_of(line)
        if line.startswith(b"c") or not tokens:
            return
        word, rest = tokens[0], tokens[1:]
        try:
            if word == b"g":
                self.begin(at, rest)
            elif self.passes:
                self.passes = word != b"e" or bool(rest)
            elif word == b"l":
                self.listed(rest)
            elif word == b"e":
                self.end(at, rest)
            else:
                raise Faulty("BadLine")
        except Faulty as fault:
            self.refuse(at, str(fault))
            self.group, self.passes = None, True


def events_of(data, ranges):
    machine = Machine(ranges)
    lines = lines_of(data)
    for at, line in enumerate(lines, 1):
        machine.line(at, line)
    if machine.group is not None:
        machine.refuse(len(lines) + 1, "Unfinished")
    return machine.events


# What is true of a group.

def holds(choice, rows):
    return all(choice[block - 1] == row for block, row in rows)


def is_forced(sizes, lists):
    choices = itertools.product(*[range(1, size + 1) for size in sizes])
    return all(any(holds(choice, rows) for rows in lists) for choice in choices)


def avoids(sizes, lists, choice):
    fits = len(choice) == len(sizes) and all(1 <= row <= size for row, size in zip(choice, sizes))
    return fits and not any(holds(choice, rows) for rows in lists)


def value_of(choice, lists):
    return sum(weight for rows, weight in lists if holds(choice, rows))


def is_range(sizes, lists, least, low, greatest, high):
    """Whether these are the least and the greatest value of all choices, and these choices have them."""
    values = {choice: value_of(choice, lists) for choice in itertools.product(*[range(1, size + 1) for size in sizes])}
    return (values.get(low), values.get(high)) == (least, greatest) == (min(values.values()), max(values.values()))


def formula_of(sizes, lists):
    """The group's formula in DIMACS: a clause for each block, and one for each list."""
    firsts = [sum(sizes[:block]) for block in range(len(sizes))]
    clauses = [[first + row for row in range(1, size + 1)] for first, size in zip(firsts, sizes)]
    clauses += [sorted({firsts[block - 1] + row for block, row in rows}) for rows in lists]
    signs = [1] * len(sizes) + [-1] * len(lists)
    head = "p cnf %d %d\n" % (sum(sizes), len(clauses))
    return head + "".join("".join("%d " % (sign * lit) for lit in clause) + "0\n" for sign, clause in zip(signs, clauses))


# What the program replies.

def run(program, words, data, piece=None):
    if piece is None:
        done = subprocess.run([program, *words], input=data, stdout=subprocess.PIPE, timeout=600)
        return done.returncode, done.stdout.decode("ascii")
    child = subprocess.Popen([program, *words], stdin=subprocess.PIPE, stdout=subprocess.PIPE)
    for at in range(0, len(data), piece):
        child.stdin.write(data[at:at + piece])
        child.stdin.flush()
    written = child.communicate(timeout=600)[0]
    return child.returncode, written.decode("ascii")


def replies_of(text, reasons):
    """The lines of replies, each with the lines of its proof if it has one."""
    lines = iter(text.splitlines())
    for line in lines:
        proof = None
        if reasons and line == "certain":
            proof = list(itertools.takewhile(lambda it: it != "c end", lines))
        yield line, proof


def compare_proof(program, group, proof, is_checked):
    text = "".join(line + "\n" for line in proof)
    formula, mark, _ = text.partition("lrat\n")
    if not mark or formula != formula_of(*group):
        raise Differs("the formula is %r" % formula)
    if is_checked:
        status, said = run(program, ["check"], ("certain\n" + text + "c end\n").encode())
        if (status, said) != (0, "verified\n"):
            raise Differs("check says %r of %r" % (said, text))


def compare_reply(at, fault, group, reply, budget):
    if fault is not None:
        if reply != "refused line %d %s" % (at, fault):
            raise Differs("line %d: %r, and not %s" % (at, reply, fault))
    elif reply == "certain":
        if not is_forced(*group):
            raise Differs("line %d isn't certain" % at)
    elif re.fullmatch(r"open( [0-9]+)*", reply):
        if not avoids(*group, [int(word) for word in reply.split()[1:]]):
            raise Differs("line %d: %r" % (at, reply))
    elif budget is None or reply != "refused line %d Spent conflicts %d" % (at, budget):
        raise Differs("line %d: %r" % (at, reply))


def compare_range(at, fault, group, reply, budget):
    found = re.fullmatch(r"least (-?[0-9]+)((?: [0-9]+)*) greatest (-?[0-9]+)((?: [0-9]+)*)", reply)
    if fault is None and found:
        low, high = (tuple(map(int, rows.split())) for rows in found.group(2, 4))
        if not is_range(*group, int(found[1]), low, int(found[3]), high):
            raise Differs("line %d: %r" % (at, reply))
    elif reply != "refused line %d %s" % (at, fault if fault is not None else "Spent work %s" % budget):
        raise Differs("line %d: %r, and not %s" % (at, reply, fault))


def compare(program, data, words, piece=None):
    """Compares a run's replies with the events of the input, and gives their number."""
    reasons, ranges = "reasons" in words, "ranges" in words
    budget = int(words[-1]) if words[-1].isdigit() else None
    status, text = run(program, words, data, piece)
    events, replies = events_of(data, ranges), list(replies_of(text, reasons))
    if len(events) != len(replies):
        raise Differs("%d replies in place of %d" % (len(replies), len(events)))
    checked = 0
    for (at, fault, group), (reply, proof) in zip(events, replies):
        (compare_range if ranges else compare_reply)(at, fault, group, reply, budget)
        if proof is not None:
            compare_proof(program, group, proof, checked < CHECKED)
            checked += 1
    wanted = 1 if any(reply.startswith("refused") for reply, _ in replies) else 0
    if status != wanted:
        raise Differs("status %d in place of %d" % (status, wanted))
    return len(events)


# Inputs.

def weight_text(rng):
    weight = rng.choice((rng.randint(-9, 9), rng.randint(-9, 9), rng.randint(-99, 99), MOST_WEIGHT, -MOST_WEIGHT - 1))
    return " = %d" % weight if rng.random() < 0.8 else ""


def group_text(rng, weighted):
    sizes = [rng.choice((1, 2, 2, 3)) for _ in range(rng.randint(0, 6))]
    lines = ["g " + " ".join(map(str, sizes))]
    for _ in range(rng.choice((0, 1, 2, 3, 5, 8, 20))):
        blocks = [rng.randrange(len(sizes)) for _ in range(rng.randint(0 if rng.random() < 0.05 else 1, 3))] if sizes else []
        lines.append("l " + " ".join("%d:%d" % (block + 1, rng.randint(1, sizes[block])) for block in blocks) + (weight_text(rng) if weighted else ""))
    return lines + ["e"]


ODD = ["", "c a comment", "certain", " c", "g", "g 0", "g 2 x", "g 1000000 1", "g 1000001", "g 2 2 2", "l", "l 1:1", "l 1:9", "l 9:1", "l 0:1",
       "l 1:0", "l 1", "l 1:1:1", "l :1", "l 1:", "l 1:1000001", "l 1:x", "e", "e e", "x", "l\t1:1\r", "g\r", "e \r", "g +1", "l 01:001",
       "g 007", "L 1:1", "gg", "l 1:1 2", "g -1", "l -1:1", "l 1:1 = 5", "l = -7", "l 1:1 =", "l 1:1 = x", "l 1:1 = 1 2", "l 1:1 =5", "l = = 1",
       "l 1:1 = -007", "l 1:1 = 9223372036854775808", "l 1:1 = -9223372036854775809", "l 1:9 = x", "l 1:1 = +5", "l 1:1 = 5 1:1", "l 1:1 = -"]


def changed(rng, lines):
    lines = list(lines)
    for _ in range(rng.randint(1, 3)):
        at = rng.randrange(len(lines) + 1)
        what = rng.random()
        if what < 0.5 or at == len(lines):
            lines.insert(at, rng.choice(ODD))
        elif what < 0.7:
            del lines[at]
        elif what < 0.85:
            lines[at] = rng.choice(ODD)
        else:
            lines[at] = lines[at].replace(" ", rng.choice(("  ", "\t", " \r", " ")), 1)
    return lines


def input_of(rng, weighted=False):
    lines = []
    for _ in range(rng.randint(1, 12)):
        group = group_text(rng, weighted)
        lines += changed(rng, group) if rng.random() < 0.4 else group
    end = rng.choice(("\n", "\n", "\n", "", "\r\n"))
    return (rng.choice(("\n", "\n", "\r\n")).join(lines) + end).encode()


def main():
    reader = argparse.ArgumentParser()
    reader.add_argument("program", nargs="?", default=PROGRAM)
    reader.add_argument("--seed", type=int, default=1)
    reader.add_argument("--count", type=int, default=1000)
    given = reader.parse_args()
    replies = 0
    for seed in range(given.seed, given.seed + given.count):
        rng = random.Random(seed)
        data = input_of(rng)
        ways = [(["judge"], None), (["judge", "reasons"], None), (["judge", str(rng.choice((0, 1, 200_000)))], None)]
        if seed % 10 == 0:
            ways += [(["judge"], piece) for piece in PIECES]
        weighted = input_of(rng, True)
        ranges = [(["judge", "ranges"], None), (["judge", "ranges", str(rng.choice((0, 5, 50, 1_000_000)))], None)]
        if seed % 10 == 0:
            ranges += [(["judge", "ranges"], piece) for piece in PIECES]
        for text, words, piece in [(data, *way) for way in ways] + [(weighted, *way) for way in ranges]:
            try:
                replies += compare(given.program, text, words, piece)
            except Differs as why:
                print("seed %d, %s: %s\n%s" % (seed, " ".join(words), why, text.decode()))
                return 1
    print("%d inputs, %d replies: no difference" % (given.count, replies))
    return 0


if __name__ == "__main__":
    sys.exit(main())
