#!/usr/bin/env python3
"""Runs the blocks of README.md, docs/LANGUAGE.md and docs/SQL.md, and the examples, and says where a reply of the program differs.

    tools/blocks.py [PROGRAM]

A block ```cqa is a script, and the block ```reply behind it what the program has to write; a block ```groups has lists for
`judge`, and the block ```verdicts behind it the replies, and so have ```ranges and ```values for `judge ranges`. In docs/ each script is a
session of its own; in README.md all of them are one, which has to be the stored run of cqa_cli. Rows of a table whose first
cell is a statement and whose second is its reply, both in back quotes, are run behind the table `staff`. An example is a
script NAME.cqa, or a proof NAME.lrat or NAME.rewriting, with its output NAME.out beside it; the proof that search.cqa ends
with has to be verified, and the one that certificate.cqa ends with, which is certificate.rewriting.
"""

import glob
import os
import re
import subprocess
import sys

TOP = os.path.dirname(os.path.dirname(os.path.abspath(__file__)))
PROGRAM = sys.argv[1] if len(sys.argv) > 1 else os.path.join(TOP, "crates", "cqa_cli", "out", "cqa_cli")
STAFF = "create table staff (id int, name text, room int, primary key (id));\n"


def read(*path):
    with open(os.path.join(TOP, *path), encoding="utf-8") as file:
        return file.read()


def replies(script, words="run"):
    """What the program writes."""
    ran = subprocess.run([PROGRAM, *words.split()], input=script.encode(), stdout=subprocess.PIPE, check=False)
    return ran.stdout.decode()


def blocks(text, given="cqa", replied="reply"):
    return re.findall(r"```%s\n(.*?)```\n\n```%s\n(.*?)```" % (given, replied), text, flags=re.S)


def compare(where, script, expected, got):
    if expected == got:
        return 0
    print("%s:\n%s-- expected:\n%s-- written:\n%s" % (where, script, expected, got))
    return 1


def scripts():
    """The scripts and proofs of pages and examples, each with its place, its words and what the program has to write."""
    for name in ("LANGUAGE.md", "SQL.md"):
        for script, expected in blocks(read("docs", name)):
            yield "docs/" + name, script, "run", expected
        for groups, expected in blocks(read("docs", name), "groups", "verdicts"):
            yield "docs/" + name, groups, "judge", expected
        for groups, expected in blocks(read("docs", name), "ranges", "values"):
            yield "docs/" + name, groups, "judge ranges", expected
    script, expected = tour()
    yield "README.md", script, "run", expected
    for path in sorted(glob.glob(os.path.join(TOP, "examples", "*.out"))):
        name = os.path.basename(path)[:-4]
        kind = next(kind for kind in (".cqa", ".lrat", ".rewriting") if os.path.exists(os.path.join(TOP, "examples", name + kind)))
        yield "examples/" + name, read("examples", name + kind), "run" if kind == ".cqa" else "check", read("examples", name + ".out")


def statements():
    """The statements of the tables in LANGUAGE.md, each as a script behind a table, and the line that the program has to write next."""
    for statement, expected in re.findall(r"^\| `([^`]*;)` \| `([^`]*)` \|", read("docs", "LANGUAGE.md"), flags=re.M):
        yield STAFF + statement, expected


def tour():
    """The blocks of README.md as one script, and all that it writes."""
    parts = blocks(read("README.md"))
    return "\n".join(script for script, _ in parts), "".join(reply for _, reply in parts)


def proofs(replies_to):
    """How many of the proofs that examples end with aren't verified, or aren't the stored ones; replies_to: what the program writes."""
    proof = replies_to(read("examples", "search.cqa"), "run").partition("certain by refutation\n")[2]
    failed = compare("examples/search.cqa, its proof", proof, "verified\n", replies_to(proof, "check"))
    certificate = "rewriting\n" + replies_to(read("examples", "certificate.cqa"), "run").partition("rewriting\n")[2]
    failed += compare("examples/certificate.cqa, its end", "", read("examples", "certificate.rewriting"), certificate)
    return failed + compare("examples/certificate.cqa, its certificate", certificate, "verified\n", replies_to(certificate, "check"))


def stored_tour():
    """1 where the stored run of the program isn't the tour of README.md, and else 0."""
    return compare("crates/cqa_cli/stdin", "", read("crates", "cqa_cli", "stdin"), tour()[0])


def main():
    failed = stored_tour() + proofs(replies)
    for where, script, words, expected in scripts():
        failed += compare(where, script, expected, replies(script, words))
    for script, expected in statements():
        failed += compare("docs/LANGUAGE.md", script, expected, replies(script).split("\n")[1])
    print("%d differ" % failed if failed else "all blocks and examples agree")
    return 1 if failed else 0


if __name__ == "__main__":
    sys.exit(main())
