#!/usr/bin/env python3
"""Whether the program answers while its input comes.

    differential/pieces.py [--program FILE] [--count N] [--seed N]

Each script of the tests, and N scripts that are spliced from them, are sent in one piece, and again over a pipe in pieces
of random sizes with pauses between some of them: the bytes written and the status have to be the same. Then a script is
sent statement by statement, and each reply has to come before the next statement is sent. The last line says whether all
agreed; the status is 0 then. Python 3.9 and its library alone are needed.
"""

import argparse
import glob
import os
import random
import select
import subprocess
import sys
import tempfile
import threading
import time

TOP = os.path.dirname(os.path.dirname(os.path.abspath(__file__)))
PROGRAM = os.path.join(TOP, "crates", "cqa_cli", "out", "cqa_cli")
DATA = os.path.join(TOP, "crates", "script_tests", "data")

SECONDS = 60
"""How long a run or a reply may take."""

DIALOGUE = [
    (b"create table person (id int, name text, city text, primary key (id));\n", b"created person\n"),
    (b"insert into person values (1, 'Ann', 'Oslo'), (1, 'Ann', 'Bergen'), (2, 'Bo', 'Oslo');", b"inserted 3\n"),
    (b"\nask select name from person where id = 1;", b"('Ann')\n1 rows\n"),
    (b" -- a comment with a ;\nask select city from person where id = 1 ;\n", b"0 rows\n"),
    (b"nonsense;", b"error 2 Syntax at 0\n"),
    (b"ask select name\nfrom person where city = 'Oslo';\n", b"('Bo')\n1 rows\n"),
]
"""Statements, each with its reply."""


def whole(program, word, script):
    """What the program writes of a script that comes in one piece, and its status."""
    ended = subprocess.run([program, word], input=script, stdout=subprocess.PIPE, timeout=SECONDS, check=False)
    return ended.stdout, ended.returncode


def pieces_of(random_source, script):
    """The script in pieces: of one byte, of a few, or of many."""
    most = random_source.choice([1, 2, 7, 100, 5_000, 100_000])
    place = 0
    while place < len(script):
        size = random_source.randint(1, most)
        yield script[place:place + size]
        place += size


def send(random_source, process, script):
    """Sends a script in pieces, with some pauses. A program that has ended takes no more."""
    pauses = 20
    try:
        for piece in pieces_of(random_source, script):
            process.stdin.write(piece)
            process.stdin.flush()
            if pauses > 0 and random_source.random() < 0.2:
                pauses -= 1
                time.sleep(random_source.random() / 200)
        process.stdin.close()
    except BrokenPipeError:
        pass


def in_pieces(random_source, program, word, script):
    """The same of a script that comes in pieces."""
    process = subprocess.Popen([program, word], stdin=subprocess.PIPE, stdout=subprocess.PIPE)
    sender = threading.Thread(target=send, args=(random_source, process, script))
    sender.start()
    written = process.stdout.read()
    status = process.wait(timeout=SECONDS)
    sender.join(timeout=SECONDS)
    return written, status


def spliced(random_source, scripts):
    """The front of a script behind that of another, cut at any byte."""
    fronts = [script[:random_source.randint(0, len(script))] for script in random_source.choices(scripts, k=3)]
    return b"".join(fronts)


def read_exactly(process, count):
    """The next bytes that the program writes, as many as they are or as come in time."""
    given = b""
    end = time.monotonic() + SECONDS
    while len(given) < count:
        ready, _, _ = select.select([process.stdout], [], [], max(0, end - time.monotonic()))
        if not ready:
            break
        piece = os.read(process.stdout.fileno(), count - len(given))
        if not piece:
            break
        given += piece
    return given


def answers_in_turn(program):
    """Whether each reply comes before the next statement is sent, and nothing else comes."""
    process = subprocess.Popen([program, "run"], stdin=subprocess.PIPE, stdout=subprocess.PIPE, bufsize=0)
    for statement, reply in DIALOGUE:
        process.stdin.write(statement)
        given = read_exactly(process, len(reply))
        if given != reply:
            print("after %r came %r, and not %r" % (statement, given, reply))
            process.kill()
            return False
    process.stdin.close()
    rest = process.stdout.read()
    status = process.wait(timeout=SECONDS)
    if rest or status != 1:
        print("at the end came %r with status %d" % (rest, status))
    return not rest and status == 1


def read_all(kind):
    """The files of the tests of a kind."""
    found = []
    for name in sorted(glob.glob(os.path.join(DATA, "*." + kind))):
        with open(name, "rb") as file:
            found.append(file.read())
    return found


def main():
    parser = argparse.ArgumentParser(description=__doc__.splitlines()[0])
    parser.add_argument("--program", default=PROGRAM)
    parser.add_argument("--count", type=int, default=200)
    parser.add_argument("--seed", type=int, default=1)
    options = parser.parse_args()
    random_source = random.Random(options.seed)
    scripts, proofs = read_all("cqa"), read_all("lrat") + read_all("rewriting")
    cases = [("run", script) for script in scripts] + [("check", proof) for proof in proofs]
    cases += [("run", spliced(random_source, scripts)) for _ in range(options.count)]
    failed = 0
    for number, (word, script) in enumerate(cases):
        wanted = whole(options.program, word, script)
        given = in_pieces(random_source, options.program, word, script)
        if wanted != given:
            failed += 1
            name = os.path.join(tempfile.gettempdir(), "pieces-%d.%s") % (number, word)
            with open(name, "wb") as file:
                file.write(script)
            print("%s: status %d in one piece, %d in pieces; the outputs are %s" % (
                name, wanted[1], given[1], "the same" if wanted[0] == given[0] else "different"))
    in_turn = answers_in_turn(options.program)
    if failed or not in_turn:
        print("%d of %d inputs differ in pieces; replies in turn: %s" % (failed, len(cases), in_turn))
        return 1
    print("%d inputs give the same in pieces, and each reply comes before the next statement is sent" % len(cases))
    return 0


if __name__ == "__main__":
    sys.exit(main())
