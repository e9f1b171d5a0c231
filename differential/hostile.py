#!/usr/bin/env python3
"""Whether the program stands inputs that nobody meant.

    differential/hostile.py [--program FILE] [--count N] [--seed N]

Random bytes, random splices of the tests' scripts, proofs and certificates, each of these cut off at each byte, ranges of aggregates with words
that stand wrong, over great numbers, and with 100,000 tests, and questions about conflicts with words that stand
wrong: the program has to end by itself within a minute, with status 0 or 1, and with 1 exactly where a line of what it wrote is a refusal. The last line
says whether all did; the status is 0 then. Python 3.9 and its library alone are needed.
"""

import argparse
import glob
import os
import random
import subprocess
import sys
import tempfile
from concurrent.futures import ThreadPoolExecutor

TOP = os.path.dirname(os.path.dirname(os.path.abspath(__file__)))
PROGRAM = os.path.join(TOP, "crates", "cqa_cli", "out", "cqa_cli")
DATA = os.path.join(TOP, "crates", "script_tests", "data")

SECONDS = 60
"""How long a run may take."""

BYTES = b"\0\t\n\r '\"();,.=<>-_\\aeiou09\x7f\x80\xc3\xff"
"""Bytes that mean something to the program, and some that don't."""

RANGE_WORDS = ("range count sum min max from where and group by r x y t primary = <> < <= > >= 0 -7 9223372036854775807 "
               "-9223372036854775808 9223372036854775808 'a' '' ' , ( ) . -- ; none").split()
"""Words of ranges, and some that they don't have."""

QUESTION_WORDS = ("disputed against row for select exists from where and show conflicts tables log r s x y z k primary = <> < >= 0 -1 "
                  "9223372036854775807 9223372036854775808 'a' 'it''s' ' ( ) () , . -- ; keep").split()
"""Words of questions about conflicts, and some that they don't have."""


def fault_of(program, word, data):
    """What is wrong with a run over these bytes, if anything is."""
    try:
        ended = subprocess.run([program, word], input=data, stdout=subprocess.PIPE, stderr=subprocess.PIPE, timeout=SECONDS, check=False)
    except subprocess.TimeoutExpired:
        return "it doesn't end"
    refusal = b"error " if word == "run" else b"refused "
    refused = any(line.startswith(refusal) for line in ended.stdout.split(b"\n"))
    if ended.returncode not in (0, 1):
        return "it ends with %d" % ended.returncode
    if (ended.returncode == 1) != refused:
        return "it ends with %d, and a line is a refusal: %s" % (ended.returncode, refused)
    if ended.stdout and not ended.stdout.endswith(b"\n"):
        return "its last line has no end"
    if ended.stderr:
        return "it writes to standard error"
    return None


def read_all(kind):
    """The files of the tests of a kind."""
    found = []
    for name in sorted(glob.glob(os.path.join(DATA, "*." + kind))):
        with open(name, "rb") as file:
            found.append(file.read())
    return found


def random_bytes(random_source):
    """Some bytes."""
    size = random_source.randint(0, 400)
    if random_source.random() < 0.3:
        return bytes(random_source.randrange(256) for _ in range(size))
    return bytes(random_source.choice(BYTES) for _ in range(size))


def spliced(random_source, texts):
    """Stretches of some texts, one behind another."""
    parts = []
    for text in random_source.choices(texts, k=random_source.randint(2, 6)):
        start = random_source.randint(0, len(text))
        parts.append(text[start:start + random_source.randint(0, 500)])
    return b"".join(parts)


def changed(random_source, text):
    """A text with a few bytes put in, taken out or changed."""
    data = bytearray(text)
    for _ in range(random_source.randint(1, 4)):
        place = random_source.randint(0, len(data))
        data[place:place + random_source.randint(0, 2)] = random_bytes(random_source)[:random_source.randint(0, 3)]
    return bytes(data)


def ranges(random_source):
    """A table with great numbers, and ranges over it, in most of which a word or two are wrong."""
    pick = random_source
    rows = ", ".join("(%d, %d, '%s')" % (pick.randint(0, 3), pick.choice([-2 ** 63, -1, 0, 2 ** 63 - 1]), pick.choice(["", "none", "it''s"]))
                     for _ in range(pick.randint(1, 12)))
    lines = ["create table r (x int, y int, t text, primary key (%s));" % pick.choice(["x", "y", "t", "t, x", "y, t, x"]),
             "insert into r values %s;" % rows]
    for _ in range(6):
        words = ["range", *pick.choice([["count"], ["sum", "y"], ["min", "t"], ["max", "y"]]), "from", "r"]
        for joint in ["where", "and", "and"][:pick.randint(0, 3)]:
            words += [joint, *pick.choice([("x", "1"), ("y", "-1"), ("t", "'none'")])]
            words[-1:-1] = [pick.choice(["=", "<>", "<", "<=", ">", ">="])]
        words += pick.choice([[], ["group", "by", pick.choice("xyt")]])
        for _ in range(pick.choice([0, 1, 1, 2])):
            place = pick.randrange(len(words))
            words[place:place + pick.randint(0, 1)] = pick.choices(RANGE_WORDS, k=pick.randint(0, 2))
        lines.append(pick.choice([" ", "\n", " -- a word\n"]).join(words) + ";")
    return "\n".join(lines).encode() + b"\n"


def questions(random_source):
    """Two tables that attack each other, and what is disputed of them, and what stands against rows, with a word or two wrong in
    most."""
    pick = random_source
    lines = ["create table r (x int, z int, primary key (%s));" % pick.choice(["x", "z", "z, x"]),
             "create %stable s (k int, z int, y text, primary key (%s));" % (pick.choice(["", "", "strict "]), pick.choice(["k", "z", "k, y"])),
             "insert into r values %s;" % ", ".join("(%d, %d)" % (pick.randint(0, 3), pick.randint(0, 3)) for _ in range(pick.randint(1, 12))),
             "insert into s values %s;" % ", ".join("(%d, %d, '')" % (pick.randint(0, 3), pick.randint(0, 3)) for _ in range(pick.randint(1, 12))),
             "set conflicts %d;" % pick.choice([0, 1, 200_000])]
    join = ["from", "r", ",", "s", "where", "r.z", "=", "s.z"]
    for _ in range(6):
        words = list(pick.choice([["disputed", "select", "x", *join], ["disputed", "exists", *join],
                                  ["against", "row", "(", "1", ")", "for", "select", "x", *join],
                                  ["against", "row", "(", "0", ",", "''", ")", "for", "select", "k", ",", "y", *join],
                                  ["against", "row", "()", "for", "exists", *join],
                                  ["show", "conflicts"], ["show", "log"]]))
        for _ in range(pick.choice([0, 1, 1, 2])):
            place = pick.randrange(len(words))
            words[place:place + pick.randint(0, 1)] = pick.choices(QUESTION_WORDS, k=pick.randint(0, 2))
        lines.append(pick.choice([" ", "\n", " -- a word\n"]).join(words) + ";")
    return "\n".join(lines).encode() + b"\n"


def ranges_of_many_tests():
    """Ranges with 100,000 tests over some hundred rows, whole and by groups."""
    rows = ", ".join("(%d, %d, 'a')" % (k // 2, k % 2) for k in range(400))
    tests = " and ".join(["y<3"] * 100_000)
    return ("create table r (x int, y int, t text, primary key (x));\ninsert into r values %s;\nrange sum y from r where %s;\n"
            "range sum y from r where %s group by x;\n" % (rows, tests, tests)).encode()


def inputs(random_source, count, truncated):
    """Pairs of a word and an input."""
    yield "run", ranges_of_many_tests()
    scripts, proofs, certificates = read_all("cqa"), read_all("lrat"), read_all("rewriting")
    for word, texts in (("run", scripts), ("check", proofs), ("check", certificates)):
        for _ in range(count):
            yield word, random_bytes(random_source)
            yield word, spliced(random_source, texts)
            yield word, changed(random_source, random_source.choice(texts))
        for text in texts:
            if len(text) <= truncated:
                for end in range(len(text)):
                    yield word, text[:end]
    for _ in range(count):
        yield "run", ranges(random_source)
        yield "run", questions(random_source)
        yield "check", random_source.choice(scripts)
        yield "check", b"rewriting\n" + random_source.choice(scripts)
        yield "run", random_source.choice(proofs + certificates)


def main():
    parser = argparse.ArgumentParser(description=__doc__.splitlines()[0])
    parser.add_argument("--program", default=PROGRAM)
    parser.add_argument("--count", type=int, default=300, help="how many inputs of each kind")
    parser.add_argument("--truncated", type=int, default=600, help="the longest test that is cut off at each byte")
    parser.add_argument("--seed", type=int, default=1)
    parser.add_argument("--jobs", type=int, default=2)
    options = parser.parse_args()
    cases = list(inputs(random.Random(options.seed), options.count, options.truncated))
    with ThreadPoolExecutor(options.jobs) as pool:
        faults = pool.map(lambda case: fault_of(options.program, *case), cases)
        failed = 0
        for number, (case, fault) in enumerate(zip(cases, faults)):
            if fault is not None:
                failed += 1
                name = os.path.join(tempfile.gettempdir(), "hostile-%d.%s") % (number, case[0])
                with open(name, "wb") as file:
                    file.write(case[1])
                print("%s: %s" % (name, fault))
    print("%d of %d inputs fail" % (failed, len(cases)) if failed else "%d inputs end as they have to" % len(cases))
    return 1 if failed else 0


if __name__ == "__main__":
    sys.exit(main())
