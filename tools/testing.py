#!/usr/bin/env python3
"""A look at what a change does: `./cqa test`. It isn't the gate.

All scripts of `crates/script_tests/data` with their outputs, the blocks of the documents, the examples, and the tests of the Python
package: by the built program where it is newer than its sources, and else by one compile of the unproved one.
"""

import os
import subprocess
import sys
import time

TOP = os.path.dirname(os.path.dirname(os.path.abspath(__file__)))
sys.path.insert(0, os.path.join(TOP, "tools"))
sys.path.insert(0, os.path.join(TOP, "python"))

import blocks  # noqa: E402
from building import PROGRAM, is_fresh  # noqa: E402
from cqa.unproved import NotCompiled, Outcome, Run, compile_time, outcomes  # noqa: E402

DATA = os.path.join(TOP, "crates", "script_tests", "data")


def say(text):
    print("cqa test: %s" % text, file=sys.stderr, flush=True)


def read(path):
    with open(path, "rb") as file:
        return file.read()


#: The words by which cases are run, by the kinds of their files; the others are checked.
WORDS = {".cqa": ("run",), ".groups": ("judge",), ".ranges": ("judge", "ranges")}


def cases():
    """Each script with its place, its run, the status and the output that are wanted, or the output's second line; a status that the
    output doesn't tell is None."""
    for name in sorted(os.listdir(DATA)):
        topic, kind = os.path.splitext(name)
        if kind == ".out":
            continue
        wanted = read(os.path.join(DATA, topic + ".out"))
        status = int(any(line.startswith((b"error ", b"refused ")) for line in wanted.split(b"\n")))
        yield "script_tests/data/" + name, Run(WORDS.get(kind, ("check",)), read(os.path.join(DATA, name))), status, wanted, False
    for where, script, words, expected in blocks.scripts():
        yield where, Run(tuple(words.split()), script.encode()), None, expected.encode(), False
    for script, expected in blocks.statements():
        yield "docs/LANGUAGE.md: %s" % script.split("\n")[1], Run(("run",), script.encode()), None, expected.encode(), True


def by_program(runs):
    """What the built program does."""
    for run in runs:
        ran = subprocess.run([PROGRAM, *run.words], input=run.script, stdout=subprocess.PIPE, check=False)
        yield Outcome(ran.stdout, ran.returncode)


def difference(outcome, status, wanted, is_line):
    """How an outcome differs from what is wanted, in a line; nothing where it doesn't."""
    if outcome.fault:
        return outcome.fault
    written = outcome.written.split(b"\n")[1:2] if is_line else outcome.written.split(b"\n")
    expected = wanted.split(b"\n")
    if written != expected:
        at = next((at for at, (left, right) in enumerate(zip(expected, written)) if left != right), min(len(expected), len(written)))
        line = lambda lines: lines[at][:100].decode("utf-8", "replace") if at < len(lines) else "nothing"
        return "line %d is %r, and %r is wanted" % (at + 1, line(written), line(expected))
    if status is not None and outcome.status != status:
        return "its status is %d, and %d is wanted" % (outcome.status, status)
    return ""


def compared(is_built):
    """How many of the scripts differ; a line tells each."""
    wanted = list(cases())
    runs = [run for _, run, *_ in wanted]
    found = by_program(runs) if is_built else outcomes(TOP, runs)
    told = [(where, difference(outcome, *rest)) for (where, _, *rest), outcome in zip(wanted, found)]
    failed = [one for one in told if one[1]]
    for where, what in failed:
        print("%s: %s" % (where, what))
    print("%d scripts, blocks and examples, of which %d differ" % (len(told), len(failed)), flush=True)
    return len(failed)


def is_python_well(is_built):
    """Whether the tests of the Python package pass: those that need no program, where none is built."""
    environment = dict(os.environ, **({"CQA_PROGRAM": PROGRAM} if is_built else {"CQA_PROGRAM": os.devnull + "/none"}))
    words = [sys.executable, "-B", "-m", "unittest", "-q"]
    ran = subprocess.run(words, cwd=os.path.join(TOP, "python", "tests"), env=environment, stdin=subprocess.DEVNULL, check=False)
    return ran.returncode == 0


def main():
    began, is_built = time.monotonic(), is_fresh()
    if is_built:
        say("with the built program")
    else:
        say("%s: the program is compiled without its proofs, in about %s" % ("its sources are newer" if os.path.exists(PROGRAM) else "nothing is built", compile_time()))
    try:
        failed = blocks.stored_tour() + compared(is_built)
    except NotCompiled as fault:
        say(str(fault))
        return fault.status
    except KeyboardInterrupt:
        return 130
    say("the tests of the Python package%s" % ("" if is_built else ": those that need no built program"))
    is_well = is_python_well(is_built)
    say("%s, in %d s. This is a look and not the gate: nothing was proved; .ci/run proves, and tries the edits"
        % ("all is well" if is_well and not failed else "%d differ%s" % (failed, "" if is_well else ", and Python's tests fail"), time.monotonic() - began))
    return 0 if is_well and not failed else 1


if __name__ == "__main__":
    sys.exit(main())
