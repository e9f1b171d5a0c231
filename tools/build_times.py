#!/usr/bin/env python3
"""Makes build_times.txt, the processor time of each crate's proof, of the log of a build: `./cqa build` tells by it how far it is.

    tools/build_times.py [LOG]        of the last build that proved all crates from nothing, or of another log
    tools/build_times.py watch PID    of a running `rt ci`, which is watched to its end; no edit and no test is counted

A crate that the log doesn't time, since it was kept, has the time that it had.
"""

import os
import re
import sys
import time

from progress import crates_below, measured, task_times

HERE = os.path.dirname(os.path.abspath(__file__))
TOP = os.path.dirname(HERE)
TABLE = os.path.join(HERE, "build_times.txt")
HEAD = """# Seconds of processor time in which each crate is proved from nothing, as the last build that was measured shares them out, at the
# speed of the first machine. The table is made by tools/build_times.py, and says only how far a build is: no proof rests on it. A
# crate that no measured build proved has an estimate by its size.
"""


def of_log(path):
    """The times that a build's log tells."""
    with open(path, encoding="utf-8", errors="replace") as file:
        return {found[1]: float(found[2]) for found in re.finditer(r"^cqa: (\w+) took ([0-9.]+) s of processor time$", file.read(), re.M)}


def of_process(root):
    """The times of the proofs of a running gate."""
    seen = {}
    while os.path.exists("/proc/%d" % root):
        for process, (name, seconds) in task_times(root, is_proof).items():
            seen[process] = name, seconds
        time.sleep(1)
    times = {}
    for name, seconds in seen.values():
        times[name] = times.get(name, 0.0) + seconds
    return times


def at_the_tables_speed(found, known):
    """Times as the table's machine would take them, by the crates that both have."""
    both = [name for name in found if name in known]
    speed = sum(known[name] for name in both) / sum(found[name] for name in both) if both else 1
    return {name: seconds * speed for name, seconds in found.items()}


def is_proof(words, folder):
    """Whether a prover's words are those of a crate's own proof, and not of its tests, nor of an edit, which is tried in a copy."""
    return "--test" not in words and os.path.basename(folder) == words[words.index("--crate-name") + 1] and "/rt-" not in folder


def main(words):
    if words[:1] == ["watch"]:
        found = of_process(int(words[1]))
    else:
        found = of_log(words[0] if words else os.path.join(TOP, "crates", "cqa_cli", "out", "cqa_cli.log"))
    known = measured(TABLE) if os.path.exists(TABLE) else {}
    crates = crates_below(os.path.join(TOP, "crates.txt"), "cqa_cli")
    known.update(at_the_tables_speed(found, known))
    with open(TABLE, "w", encoding="utf-8") as file:
        file.write(HEAD + "".join("%s %.0f\n" % (name, known[name]) for name in crates if name in known))
    lacking = [name for name in crates if name not in known]
    print("%d of %d crates timed anew%s" % (len(set(found) & set(crates)), len(crates), "; without a time: " + ", ".join(lacking) if lacking else ""))
    return 1 if lacking else 0


if __name__ == "__main__":
    sys.exit(main(sys.argv[1:]))
