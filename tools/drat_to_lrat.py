#!/usr/bin/env python3
"""A proof in DRAT's text form (without RAT steps), turned into LRAT for `cqa check`; for small proofs.

    tools/drat_to_lrat.py FORMULA PROOF | ./cqa check

It writes the formula, the line `lrat` and the steps with their hints. Hints are found by plain unit propagation over all
clauses, so the time grows with their number times the number of steps. A step that isn't implied by propagation is an
error: it needs RAT, or the proof is wrong.
"""

import sys


def formula(path):
    clauses, clause = [], []
    with open(path, encoding="ascii") as file:
        for line in file:
            if line[:1] in ("c", "p", "%"):
                continue
            for number in map(int, line.split()):
                if number:
                    clause.append(number)
                else:
                    clauses.append(clause)
                    clause = []
    return clauses


def hints(live, clause):
    """The clauses that force a conflict once the literals of a clause are false, in order, or None."""
    false, used, grows = {-number for number in clause}, [], True
    while grows:
        grows = False
        for number, literals in live.items():
            left = {one for one in literals if -one not in false}
            if not left:
                return used + [number]
            if len(left) == 1 and not left <= false:
                false |= left
                used.append(number)
                grows = True
    return None


def main():
    if len(sys.argv) != 3:
        sys.exit(__doc__)
    clauses = formula(sys.argv[1])
    live = dict(enumerate(clauses, 1))
    last = len(clauses)
    print("p cnf %d %d" % (max((abs(one) for clause in clauses for one in clause), default=0), last))
    for clause in clauses:
        print(*clause, 0)
    print("lrat")
    with open(sys.argv[2], encoding="ascii") as proof:
        for line in proof:
            words = line.split()
            if not words or words[0] == "c":
                continue
            if words[0] == "d":
                gone = sorted(map(int, words[1:-1]))
                number = next((one for one, literals in live.items() if sorted(literals) == gone), None)
                if number is not None:
                    del live[number]
                    print(last, "d", number, 0)
                continue
            clause = list(map(int, words[:-1]))
            found = hints(live, clause)
            if found is None:
                sys.exit("step %r isn't implied by propagation" % line.strip())
            last += 1
            live[last] = clause
            print(last, *clause, 0, *found, 0)
            if not clause:
                return


if __name__ == "__main__":
    main()
