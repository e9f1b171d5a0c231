"""The line that says what goes on, dumps read by pieces, and the memory that a load takes."""

from __future__ import annotations

import csv
import io
import os
import pty
import random
import subprocess
import sys
import unittest
from typing import Dict, List, Sequence

from support import HERE, Case, ProgramCase

from cqa import underway
from cqa.dumps import read_dump

RUN = """import sys, time
from cqa import underway
from cqa.files import standard_output
with underway.shown("load"), underway.saying(lambda: "a.csv, 7 records" + "x" * 500):
    time.sleep(float(sys.argv[1]))
    print("a word", file=sys.stderr)
    with standard_output() as out:
        out.write(b"rows")
        time.sleep(float(sys.argv[2]))
"""


def on_terminal(words: Sequence[str]) -> bytes:
    """What a program writes on a terminal."""
    ours, theirs = pty.openpty()
    child = subprocess.Popen(words, stdin=subprocess.DEVNULL, stdout=theirs, stderr=theirs, env=dict(os.environ, PYTHONPATH=os.path.dirname(HERE)))
    os.close(theirs)
    written = b""
    while True:
        try:
            piece = os.read(ours, 1 << 16)
        except OSError:  # how a terminal ends
            break
        if not piece:
            break
        written += piece
    os.close(ours)
    assert child.wait() == 0
    return written


class Line(Case):
    """The line on a terminal."""

    def test_it_is_shown_after_two_seconds_and_wiped_before_anything_else(self) -> None:
        written = on_terminal([sys.executable, "-c", RUN, "3.3", "1"])
        lines = written.split(b"\r\x1b[K")
        self.assertEqual(b"", lines[0])
        self.assertGreaterEqual(len(lines), 4, written)
        self.assertTrue(all(line.startswith((b"cqa load: 2 s: a.csv, 7 records", b"cqa load: 3 s: a.csv, 7 records")) and len(line) < 80 for line in lines[1:-1]), written)
        self.assertIn(b"3 s", written)
        self.assertEqual(b"a word\r\nrows", lines[-1], written)  # nothing is written over what stands on standard output

    def test_a_quick_command_shows_none(self) -> None:
        self.assertEqual(b"a word\r\nrows", on_terminal([sys.executable, "-c", RUN, "0.1", "0"]))

    def test_there_is_none_where_standard_error_is_no_terminal(self) -> None:
        ran = subprocess.run([sys.executable, "-c", RUN, "2.6", "0"], stdout=subprocess.PIPE, stderr=subprocess.PIPE, check=True,
                             env=dict(os.environ, PYTHONPATH=os.path.dirname(HERE)))
        self.assertEqual((b"rows", b"a word\n"), (ran.stdout, ran.stderr))
        with underway.shown("load"):
            underway.hold()
            underway.go_on()


class Search(ProgramCase):
    """A search that takes long."""

    def test_the_statement_that_is_waited_for_is_told(self) -> None:
        self.file("s.cqa", "create table r (x int, primary key (x));\nask select x from r where x = 7;\n")
        written = on_terminal([sys.executable, "-c", WAITING, self.path("s.cqa")])
        self.assertIn(b"cqa csv: 2 s: ask select x from r where x = 7", written)


#: The replies come late, as those of a search do.
WAITING = """import sys, time
from cqa import running, underway
from cqa.program import Child
plain = Child.reply
def late(child, verb):
    if verb == "ask":
        time.sleep(3)
    return plain(child, verb)
Child.reply = late
with underway.shown("csv"):
    running.loaded([sys.argv[1]], []).close()
"""


class Dumps(Case):
    """Dumps read by pieces."""

    def read(self, dump: bytes) -> Dict[str, List[List[str]]]:  # type: ignore[override]
        found: Dict[str, List[List[str]]] = {}
        left = read_dump(io.BytesIO(dump + b"error 2 Syntax at 0\n"), lambda table, rows: found.setdefault(table, []).extend(map(list, rows)))
        self.assertEqual(set(), left)
        return found

    def test_each_record_is_read_as_csv_reads_it(self) -> None:
        rng = random.Random(65)
        parts = ["", "a", '"', '","', "\n", ",", '"\n"', " ", "\r\n", "ø", "\\."]
        for width in (1, 2, 3):
            for count in (1, 5, 4095, 4096, 4097, 9000):
                odd = rng.choice((0, 0, 0.0005, 0.3))
                rows = [["".join(rng.choices(parts, k=rng.randrange(4))) if rng.random() < odd else "%d" % rng.randrange(99) for _ in range(width)] for _ in range(count)]
                block = "".join(",".join('"%s"' % field.replace('"', '""') for field in row) + "\n" for row in rows)
                if "\n\\.\n" in "\n" + block:
                    continue  # which no dump writes so
                self.assertEqual({"t": rows}, self.read(b"copy t;\n" + block.encode() + b"\\.\n"))
                self.assertEqual(rows, list(csv.reader(io.StringIO(block, newline=""))))

    def test_two_tables_follow(self) -> None:
        self.assertEqual({"a": [["1", ""]], "b": [["x,y"]]}, self.read(b'copy a;\n"1",""\n\\.\ncopy b;\n"x,y"\n\\.\n'))


LOAD = """import resource, sys
from cqa.__main__ import main
status = main(["load", "--table", "t", "--key", "id", *sys.argv[1:], "-o", "out.cqa"])
print(resource.getrusage(resource.RUSAGE_SELF).ru_maxrss)
sys.exit(status)
"""


class Memory(Case):
    """What a load keeps."""

    def kept(self, *words: str) -> float:
        """The most memory of a load, in MiB."""
        ran = subprocess.run([sys.executable, "-c", LOAD, *words], cwd=self.folder, stdout=subprocess.PIPE, stderr=subprocess.PIPE, check=True,
                             env=dict(os.environ, PYTHONPATH=os.path.dirname(HERE)))
        return int(ran.stdout) / (1024 if sys.platform != "darwin" else 1 << 20)

    def list_of(self, name: str, rows: int, text: str) -> str:
        """A list with so many records."""
        return self.file(name, "id,v,w\n" + "".join("%d,%s,%d\n" % (number, text, number * 7) for number in range(rows)))

    def test_one_list_is_not_kept(self) -> None:
        self.list_of("few.csv", 1_000, "x" * 200)
        self.list_of("many.csv", 120_000, "x" * 200)  # 27 MB
        few, many = self.kept("few.csv"), self.kept("many.csv")
        self.assertLess(many - few, 12, "%.0f MiB over %.0f" % (many, few))

    def test_of_several_lists_the_keys_are_kept(self) -> None:
        self.list_of("few.csv", 1_000, "x" * 200)
        self.list_of("one.csv", 60_000, "x" * 200)
        self.list_of("two.csv", 60_000, "y" * 200)  # 27 MB together
        few, many = self.kept("--source", "a=few.csv", "--source", "b=few.csv"), self.kept("--source", "a=one.csv", "--source", "b=two.csv")
        self.assertLess(many - few, 20, "%.0f MiB over %.0f" % (many, few))


if __name__ == "__main__":
    unittest.main()
