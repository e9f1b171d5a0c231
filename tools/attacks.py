#!/usr/bin/env python3
"""The attack graph of a reply to `classify` as a picture: writes Graphviz, strong attacks with a thick line.

    ./cqa run <SCRIPT | tools/attacks.py | dot -Tsvg >attacks.svg
"""

import re
import sys


def main():
    print("digraph attacks {")
    for line in sys.stdin:
        attack = re.fullmatch(r"(\w+) attacks (\w+), (weak|strong)\n", line)
        if attack:
            print("  %s -> %s [style=%s];" % (attack[1], attack[2], "dashed" if attack[3] == "weak" else "bold"))
        elif line.startswith("class "):
            print('  label="%s";' % line[6:-1])
    print("}")


if __name__ == "__main__":
    main()
