#!/usr/bin/env python3
"""The certain rows of a join, by a plan, beside a straight program in C++ for this one query (bench/straight.cpp).

    bench/straight.py [--program FILE] [--repeat N]

Times are processor seconds of the whole process, reading the script included, the least of N runs. Both must write the same
rows. It needs a C++ compiler, as `c++` or in CXX.
"""

import argparse
import os
import subprocess
import sys
import tempfile

from growth import PROGRAM, measured, persons_and_towns, shown, write_scripts

SOURCE = os.path.join(os.path.dirname(os.path.abspath(__file__)), "straight.cpp")


def written(words, script):
    with open(script, "rb") as source:
        return subprocess.run(words, stdin=source, stdout=subprocess.PIPE, check=True).stdout


def main():
    parser = argparse.ArgumentParser(description=__doc__.split("\n\n")[0])
    parser.add_argument("--program", default=PROGRAM)
    parser.add_argument("--repeat", type=int, default=9)
    words = parser.parse_args()
    print("| n | the program | straight | ratio |")
    print("|---|---|---|---|")
    with tempfile.TemporaryDirectory() as room:
        straight, script = os.path.join(room, "straight"), os.path.join(room, "script")
        subprocess.run([os.environ.get("CXX", "c++"), "-std=c++17", "-O2", "-o", straight, SOURCE], check=True)
        for n in (20000, 300000):
            write_scripts(persons_and_towns, n, script, os.devnull)
            mine = [words.program, "run"]
            if not written(mine, script).endswith(written([straight], script)):
                sys.exit("at n = %d the two write different rows" % n)
            its, ours = measured([straight], script, 60, words.repeat), measured(mine, script, 60, words.repeat)
            print("| {:,} | {} | {} | {:.2f} |".format(n, shown(ours), shown(its), ours[0] / its[0]), flush=True)


if __name__ == "__main__":
    main()
