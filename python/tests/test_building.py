"""The build and the unproved runs, with a kit that only pretends."""

from __future__ import annotations

import io
import os
import random
import shutil
import signal
import subprocess
import sys
import time
import unittest
from contextlib import redirect_stderr, redirect_stdout
from typing import Callable, Dict, List, Tuple
from unittest import mock

from support import PROGRAM, TOP, Case, ProgramCase, heeds_interrupts

from cqa import trying

sys.path.insert(0, os.path.join(TOP, "tools"))

import building  # noqa: E402
import testing  # noqa: E402
from progress import Progress, crates_below, measured  # noqa: E402

#: A kit whose gate takes a moment for each crate, and which makes a program of a line.
BUILDS = """#!/bin/sh
if [ "$1" = version ]; then echo kit; exit; fi
for name in low cqa_cli; do
  if [ -e "$ROOM/full" ]; then echo "error: cannot write: No space left on device (os error 28)"; exit 1; fi
  if [ -e "$ROOM/refuses" ]; then echo "rt: $name NOT PROVED"; echo "rt: FAILED: $name"; exit 1; fi
  while [ -n "$WAITS" ] && [ ! -e "$ROOM/go" ]; do echo >>"$ROOM/waiting"; sleep 0.1; done
  echo "rt: $name proved"
done
mkdir -p crates/cqa_cli/out
printf '#!/bin/sh\\necho built\\n' >crates/cqa_cli/out/cqa_cli
chmod +x crates/cqa_cli/out/cqa_cli
"""

#: A kit that tries each case with a built program.
TRIES = """#!/usr/bin/env python3
import os, subprocess, sys
words = sys.argv[1:]
with open(os.path.join(os.environ["ROOM"], "compiles"), "a") as file:
    file.write("x")
if os.environ.get("ENDS"):
    sys.stderr.write(os.environ["ENDS"])
    sys.exit(2)
folder = words[words.index("--cases") + 1]
for name in sorted(name for name in os.listdir(folder) if not name.endswith(".args")):
    with open(os.path.join(folder, name), "rb") as file, open(os.path.join(folder, name + ".args")) as args:
        ran = subprocess.run([os.environ["REAL"], *args.read().split()], stdin=file, stdout=subprocess.PIPE)
    said = "run=ended status=%d" % ran.returncode
    if os.environ.get("CHECK"):
        print("checked: " + os.environ["CHECK"], file=sys.stderr)
        said = "run=" + ("fault" if "fault" in os.environ["CHECK"] else "no-answer")
    else:
        sys.stdout.buffer.write(b"== %s\\n" % name.encode() + ran.stdout)
        sys.stdout.flush()
    print("case=%s %s proved=no" % (name, said), file=sys.stderr, flush=True)
"""

#: A kit whose compile doesn't end.
WAITS = "#!/bin/sh\nwhile true; do echo >>\"$ROOM/waiting\"; sleep 0.1; done\n"

LISTS = "create table t (id int, name text, source text, primary key (id));\ncopy t;\n1,a,x\n1,b,y\n2,c,x\n\\.\n"


def _as_another_user() -> None:
    """Root may write everywhere."""
    if os.geteuid() == 0:
        os.setgroups([])
        os.setgid(65534)
        os.setuid(65534)


class KitCase(Case):
    """A test with a kit in a folder of its own, and a temporary folder of its own."""

    def kit(self, text: str) -> Dict[str, str]:
        """Makes the kit, and gives the environment in which it is found."""
        os.makedirs(self.path("bin"), exist_ok=True)
        os.makedirs(self.path("tmp"), exist_ok=True)
        with open(self.path("bin/rt"), "w", encoding="utf-8") as file:
            file.write(text)
        os.chmod(self.path("bin/rt"), 0o755)
        return dict(os.environ, PATH=self.path("bin") + os.pathsep + os.environ["PATH"], ROOM=self.folder, TMPDIR=self.path("tmp"))

    def left(self) -> List[str]:
        """What is left in the temporary folder."""
        return os.listdir(self.path("tmp"))

    def is_waiting(self) -> bool:
        """Whether a kit still runs that waits."""
        if not os.path.exists(self.path("waiting")):
            return False
        size = os.path.getsize(self.path("waiting"))
        time.sleep(1)
        return os.path.getsize(self.path("waiting")) > size

    def begun(self, *words: str, environment: Dict[str, str]) -> "subprocess.Popen[bytes]":
        """Begins a command, and gives it once its kit waits."""
        process = subprocess.Popen(words, env=environment, cwd=self.folder, stdin=subprocess.DEVNULL, stdout=subprocess.PIPE, stderr=subprocess.PIPE,
                                   start_new_session=True, preexec_fn=heeds_interrupts)
        self.wait_for_kit()
        return process

    def wait_for_kit(self) -> None:
        """Returns once a kit waits."""
        end = time.monotonic() + 60
        while not os.path.exists(self.path("waiting")) and time.monotonic() < end:
            time.sleep(0.05)

    def unwritable_top(self) -> str:
        """A repository in which nobody but root may write, with the package, and with a script and its question beside it."""
        top = self.path("top")
        for folder in ("python", "tools"):
            shutil.copytree(os.path.join(TOP, folder), os.path.join(top, folder), ignore=lambda at, names: [name for name in names if name in ("tests", "__pycache__")])
        for name in ("cqa", "crates.txt", "HANDLES", "CHANGELOG.md"):
            shutil.copy(os.path.join(TOP, name), os.path.join(top, name))
        os.makedirs(os.path.join(top, "crates", "cqa_cli", "src"))
        self.file("top/t.cqa", LISTS + "ask select id, name from t;\n")
        self.file("compiles", "")
        for name, mode in (("", 0o755), ("bin", 0o755), ("tmp", 0o777), ("compiles", 0o666)):
            os.chmod(self.path(name), mode)
        for folder, _, _ in os.walk(top, topdown=False):
            os.chmod(folder, 0o555)
        return top


class TryTest(KitCase, ProgramCase):
    """`try` with a kit that compiles nothing, and runs the built program."""

    def tried(self, *words: str, stdin: bytes = b"", **more: str) -> Tuple[int, str, str]:
        environment = dict(self.kit(TRIES), REAL=PROGRAM or "", PYTHONPATH=os.path.join(TOP, "python"), **more)
        ran = subprocess.run([sys.executable, "-m", "cqa", "try", *words], cwd=self.folder, input=stdin, env=environment,
                             stdout=subprocess.PIPE, stderr=subprocess.PIPE, timeout=60, check=False)
        self.assertEqual(self.left(), [])
        return ran.returncode, ran.stdout.decode(), ran.stderr.decode()

    def compiles(self) -> int:
        """How often the kit was asked to compile, since the last time that this was asked."""
        path = self.path("compiles")
        count = os.path.getsize(path) if os.path.exists(path) else 0
        open(path, "w").close()
        return count

    def test_each_command_does_what_it_does_proved(self) -> None:
        self.file("t.cqa", LISTS)
        self.file("q.cqa", "ask select name from t where id = 1;\ndisputed select id, name from t;\nask select nothing from t;\n")
        self.file("a.cqa", "ask select id, name from t;\nrange count from t where name = 'a';\n")
        for words in (("run", "t.cqa", "q.cqa"), ("run", "--stop", "q.cqa", "t.cqa"), ("csv", "t.cqa", "a.cqa"), ("csv", "t.cqa", "q.cqa"),
                      ("conflicts", "t.cqa"), ("conflicts", "t.cqa", "--csv"), ("report", "t.cqa", "a.cqa"), ("report", "t.cqa")):
            with self.subTest(words):
                status, out, told = self.tried(*words)
                proved_status, proved_out, proved_told = self.command(*words)
                self.assertEqual((status, out), (proved_status, proved_out))
                self.assertIn("Nothing is proved", told)
                self.assertTrue(told.endswith(proved_told), told)
                self.assertEqual(self.compiles(), 2 if words == ("report", "t.cqa", "a.cqa") else 1)

    def test_a_visit_takes_one_compile(self) -> None:
        self.file("crm.csv", "id,name\n1,a\n2,c\n")
        self.file("shop.csv", "id,name\n1,b\n")
        self.file("a.cqa", "ask select id, name from t;\n")
        status, out, _ = self.tried("load", "--table", "t", "--key", "id", "--source", "x=crm.csv", "--source", "y=shop.csv", "-o", "t.cqa",
                                    "then", "conflicts", "t.cqa", "then", "csv", "t.cqa", "a.cqa", "-o", "certain.csv", "then", "run", "a.cqa")
        self.assertEqual((status, self.compiles(), self.read("certain.csv")), (1, 1, "id,name\n2,c\n"))
        self.assertIn("1  name: a (x) | b (y)", out)

    def test_standard_input_is_run_by_the_program_itself(self) -> None:
        for words, script in (((), b"ask"), (("run",), LISTS.encode() + b"ask exists from t;"), (("check",), b"p cnf"), (("demo", "3"), b"")):
            proved = subprocess.run([PROGRAM or "", *(words or ("run",))], input=script, stdout=subprocess.PIPE, check=False)
            self.assertEqual(self.tried(*words, stdin=script)[:2], (proved.returncode, proved.stdout.decode()))

    def test_what_is_at_fault_before_a_compile_is_told_without_one(self) -> None:
        for words, status in ((("shell",), 2), (("runs",), 2), (("then", "run"), 2), (("check", "then", "run"), 2), (("demo", "0"), 2), (("csv",), 2),
                              (("run", "none.cqa"), 1), (("load", "--table", "t"), 2), (("conflicts", "none.cqa", "then", "demo", "1"), 1)):
            with self.subTest(words):
                found, out, told = self.tried(*words)
                self.assertEqual((found, out, self.compiles()), (status, "", 0))
                self.assertNotEqual(told, "")
        self.file("t.cqa", LISTS)
        self.assertEqual(self.tried("conflicts", "t.cqa", "-o", self.path("none/out")), (1, "", "cqa conflicts: %s: no such file or directory\n" % self.path("none")))
        self.assertEqual(self.compiles(), 0)

    def test_runs_that_give_nothing_are_told_in_a_line(self) -> None:
        for more, told in (({"CHECK": "fault kind=overflow in=cdcl"}, "please report it"), ({"CHECK": "no-answer: the program did not end within the time limit"}, "did not end"),
                           ({"CHECK": "no-answer: the program wrote more than 1048576 bytes"}, "1,048,576"), ({"ENDS": "error: No space left on device"}, "TMPDIR"),
                           ({"ENDS": "src/lib.rt:1:1: error[syntax]: what"}, "error[syntax]")):
            with self.subTest(told):
                status, out, said = self.tried("run", stdin=b"ask;", **more)
                self.assertEqual((status, out), (126, ""))
                self.assertIn(told, said.split("\n")[-2])
        with mock.patch("cqa.trying.MOST_INPUT", 10), mock.patch.dict(os.environ, PATH=self.path("bin")), redirect_stderr(io.StringIO()) as said_here:
            self.assertEqual(trying.main(["run", self.file("long.cqa", LISTS)]), 6)
        self.assertIn("is longer than 10 bytes", said_here.getvalue())

    def test_an_interrupted_compile_leaves_nothing(self) -> None:
        environment = dict(self.kit(WAITS), PYTHONPATH=os.path.join(TOP, "python"))
        for number, wanted in ((signal.SIGINT, 130), (signal.SIGTERM, 143)):
            process = self.begun(sys.executable, "-m", "cqa", "try", "demo", "1", environment=environment)
            os.kill(process.pid, number)
            out, _ = process.communicate(timeout=60)
            self.assertEqual((process.returncode, out, self.left()), (wanted, b"", []))
            self.assertFalse(self.is_waiting())
            os.unlink(self.path("waiting"))

    def test_where_nothing_can_be_written(self) -> None:
        environment = dict(self.kit(TRIES), REAL=shutil.copy(PROGRAM or "", self.path("bin/real")))
        top = self.unwritable_top()

        def ran(*words: str) -> Tuple[int, str, str]:
            found = subprocess.run([os.path.join(top, "cqa"), *words], cwd=top, env=environment, stdin=subprocess.DEVNULL, stdout=subprocess.PIPE,
                                   stderr=subprocess.PIPE, preexec_fn=_as_another_user, timeout=60, check=False)
            self.assertEqual(self.left(), [])
            return found.returncode, found.stdout.decode(), found.stderr.decode().split("\n")[-2]
        proved = self.command("run", os.path.join(top, "t.cqa"))
        self.assertEqual(ran("try", "run", "t.cqa")[:2], proved[:2])
        self.assertEqual(ran("try", "csv", "t.cqa", "-o", "t.csv"), (1, "", "cqa csv: %s: permission denied" % top))
        status, out, told = ran("build")
        self.assertEqual((status, out), (126, ""))
        self.assertRegex(told, "^cqa: not built: .*/crates/cqa_cli/out can't be written: permission denied$")

    def test_without_a_temporary_folder(self) -> None:
        self.kit(TRIES)
        full = FileNotFoundError(2, "No usable temporary directory found")
        with mock.patch("tempfile.mkdtemp", side_effect=full), mock.patch.dict(os.environ, PATH=self.path("bin")), redirect_stderr(io.StringIO()) as told:
            self.assertEqual(trying.main(["demo", "1"]), 126)
        self.assertIn("no temporary folder can be made: no usable temporary directory found; TMPDIR names another place", told.getvalue())

    def test_without_the_kit(self) -> None:
        environment = dict(os.environ, PATH=self.folder, PYTHONPATH=os.path.join(TOP, "python"))
        ran = subprocess.run([sys.executable, "-m", "cqa", "try", "demo", "1"], env=environment, stdin=subprocess.DEVNULL, stdout=subprocess.PIPE,
                             stderr=subprocess.PIPE, check=False)
        self.assertEqual((ran.returncode, ran.stdout), (127, b""))
        self.assertEqual(ran.stderr.decode(), "cqa try: trying needs the Rattle kit, whose rt isn't on the path\n")


class BuildTest(KitCase):
    """`./cqa build` in a repository of two crates."""

    def setUp(self) -> None:
        super().setUp()
        os.makedirs(self.path("top/tools"))
        for name in ("cqa", "tools/building.py", "tools/progress.py", "tools/build_times.txt", "HANDLES", "CHANGELOG.md"):
            shutil.copy(os.path.join(TOP, name), self.path("top/" + name))
        for name in ("low", "cqa_cli", "above"):
            os.makedirs(self.path("top/crates/%s/src" % name))
        self.file("top/crates.txt", "low: std\ncqa_cli: low\nabove: cqa_cli\n")
        self.environment = self.kit(BUILDS)

    def build(self, **more: str) -> "subprocess.Popen[bytes]":
        """Begins a build."""
        return subprocess.Popen([self.path("top/cqa"), "build"], env={**self.environment, **more}, stdin=subprocess.DEVNULL, stdout=subprocess.PIPE,
                                stderr=subprocess.PIPE, bufsize=0, start_new_session=True, preexec_fn=heeds_interrupts)

    def told_until(self, build: "subprocess.Popen[bytes]", words: str) -> str:
        """What a build tells up to a line with these words."""
        assert build.stderr is not None
        told = ""
        while words not in told:
            line = build.stderr.readline().decode()
            self.assertNotEqual(line, "", told)
            told += line
        return told

    def ended(self, build: "subprocess.Popen[bytes]") -> Tuple[int, str]:
        """How a build ended."""
        out, told = build.communicate(timeout=60)
        self.assertEqual((out, self.left()), (b"", []))
        return build.returncode, told.decode()

    def is_built(self) -> bool:
        """Whether the program is in its place."""
        return os.path.exists(self.path("top/crates/cqa_cli/out/cqa_cli"))

    def test_a_build_ends_with_what_it_built(self) -> None:
        status, told = self.ended(self.build())
        self.assertEqual((status, self.is_built()), (0, True))
        self.assertRegex(told, r"(?s)building: 2 crates.*1 of 2: low proved; \d+ %.*built: .*cqa_cli, 0\.0 MB, in 0 min .* as no commit proves it\n")

    def test_two_builds_at_once(self) -> None:
        first = self.build(WAITS="1")
        begun = self.told_until(first, "building:")
        second = self.build()
        begun_second = self.told_until(second, "another build")
        self.file("go", "")
        status, told = self.ended(first)
        self.assertEqual((status, "built: " in begun + told), (0, True))
        status, told = self.ended(second)
        self.assertEqual((status, "the other build has built" in begun_second + told), (0, True))

    def test_an_interrupted_build_leaves_nothing(self) -> None:
        for number, wanted in ((signal.SIGINT, 130), (signal.SIGTERM, 143)):
            build = self.build(WAITS="1")
            self.told_until(build, "building:")
            os.kill(build.pid, number)
            self.assertEqual((self.ended(build)[0], self.is_built()), (wanted, False))
            self.assertFalse(self.is_waiting())

    def test_builds_that_fail(self) -> None:
        self.file("refuses", "")
        status, told = self.ended(self.build())
        self.assertEqual((status, self.is_built()), (126, False))
        self.assertIn("failed at low", told)
        status, told = self.ended(self.build(PATH="/usr/bin:/bin"))
        self.assertEqual((status, told), (127, "cqa: not built: building needs the Rattle kit, whose rt isn't on the path\n"))
        shutil.rmtree(self.path("top/crates/cqa_cli/out"))
        self.file("top/crates/cqa_cli/out", "")
        status, told = self.ended(self.build())
        self.assertEqual((status, "can't be written" in told), (126, True))

    def test_a_disk_without_room(self) -> None:
        self.file("full", "")
        status, told = self.ended(self.build())
        self.assertEqual((status, self.is_built()), (126, False))
        self.assertIn("the disk has no room for the build", told.split("\n")[-2])
        with mock.patch("tempfile.mkdtemp", side_effect=OSError(28, "No space left on device")), self.assertRaisesRegex(building.NotBuilt, "TMPDIR names another place"):
            with building.room():
                pass

    def test_try_beside_a_build(self) -> None:
        shutil.copytree(os.path.join(TOP, "python", "cqa"), self.path("top/python/cqa"))
        build = self.build(WAITS="1")
        self.told_until(build, "building:")
        self.wait_for_kit()
        os.chmod(self.file("bin/tries", TRIES), 0o755)
        os.replace(self.path("bin/tries"), self.path("bin/rt"))  # the build's kit goes on with the file that it began
        real = self.file("real", "#!/bin/sh\necho tried\n")
        os.chmod(real, 0o755)
        ran = subprocess.run([self.path("top/cqa"), "try", "demo", "1"], env={**self.environment, "REAL": real}, stdin=subprocess.DEVNULL, stdout=subprocess.PIPE,
                             stderr=subprocess.PIPE, timeout=60, check=False)
        self.assertEqual((ran.returncode, ran.stdout), (0, b"tried\n"))
        self.file("go", "")
        status, told = self.ended(build)
        self.assertEqual((status, self.is_built()), (0, True), told)

    def test_without_python(self) -> None:
        self.file("bin/python3", "#!/bin/sh\nexit 1\n")
        os.chmod(self.path("bin/python3"), 0o755)
        for word in ("try", "build", "test"):
            ran = subprocess.run([self.path("top/cqa"), word], env=self.environment, stdin=subprocess.DEVNULL, stdout=subprocess.PIPE, stderr=subprocess.PIPE, check=False)
            self.assertEqual((ran.returncode, ran.stdout, ran.stderr.decode()), (127, b"", "cqa: '%s' needs Python 3.9 or later as python3\n" % word))


class TestTest(KitCase, ProgramCase):
    """`./cqa test` over three scripts, where nothing is built, with a kit that compiles nothing."""

    def setUp(self) -> None:
        super().setUp()
        os.makedirs(self.path("data"))
        for name, script, wanted in (("right.cqa", "ask", "error syntax at byte 3\n"), ("wrong.cqa", LISTS, "created t\nloaded 4\n"), ("proof.lrat", "p cnf", "")):
            self.file("data/" + name, script)
            proved = subprocess.run([PROGRAM or "", "check" if name == "proof.lrat" else "run"], input=script.encode(), stdout=subprocess.PIPE, check=False).stdout
            self.file("data/%s.out" % name.split(".")[0], wanted if name == "wrong.cqa" else proved)

    def outcome(self, tests: "Callable[[bool], bool]" = lambda is_built: True, **more: str) -> Tuple[int, str, str]:
        """How a test ended, with its lines."""
        environment = {**self.kit(TRIES), "REAL": PROGRAM or "", **more}
        with mock.patch.multiple(testing, DATA=self.path("data"), is_fresh=lambda: False, is_python_well=tests), mock.patch.dict(os.environ, environment), \
                mock.patch.multiple("blocks", scripts=lambda: [], statements=lambda: [], stored_tour=lambda: 0), mock.patch("tempfile.tempdir", self.path("tmp")), \
                redirect_stdout(io.StringIO()) as out, redirect_stderr(io.StringIO()) as told:
            status = testing.main()
        self.assertEqual(self.left(), [])
        return status, out.getvalue(), told.getvalue()

    def test_a_line_tells_what_differs(self) -> None:
        status, out, told = self.outcome()
        self.assertEqual(status, 1)
        self.assertRegex(out, r"^script_tests/data/wrong\.cqa: line \d is '.*', and '.*' is wanted\n3 scripts, blocks and examples, of which 1 differ\n$")
        self.assertRegex(told, r"(?s)compiled without its proofs.*1 differ, in \d+ s\. This is a look and not the gate")
        os.unlink(self.path("data/wrong.cqa"))
        os.unlink(self.path("data/wrong.out"))
        self.assertEqual(self.outcome()[0], 0)
        status, _, told = self.outcome(lambda is_built: False)
        self.assertEqual((status, "0 differ, and Python's tests fail" in told), (1, True))

    def test_what_keeps_it_from_being_tested(self) -> None:
        status, out, told = self.outcome(ENDS="src/lib.rt:1:1: error[syntax]: what")
        self.assertEqual((status, out, "error[syntax]" in told), (126, "", True))
        status, out, told = self.outcome(PATH=self.path("none"))
        self.assertEqual((status, out, "rt isn't on the path" in told), (127, "", True))


class ProgressTest(unittest.TestCase):
    """How far a build is, over builds that are simulated: each crate takes up to a sixth more or less than the table says, as it was seen
    from one build to the next, times how slow the machine is, and gets a part of a processor."""

    def test_the_time_left_is_right_within_a_quarter_from_the_third_minute_on(self) -> None:
        crates = crates_below(os.path.join(TOP, "crates.txt"), "cqa_cli")
        costs = measured(os.path.join(TOP, "tools", "build_times.txt"))
        for processors, slowness, part in ((1, 1.0, 0.95), (2, 2.5, 0.95), (4, 1.0, 0.95), (4, 0.7, 0.95), (4, 1.0, 0.4)):
            with self.subTest(processors=processors, slowness=slowness, part=part):
                told = self._told(Progress(crates, costs, processors), crates, costs, processors, slowness, part)
                whole = told[-1][0]
                for at, left, _ in told:
                    if at >= 180:
                        self.assertLess(abs(left - (whole - at)), max((whole - at) / 4, 120), "at %d s of %d s" % (at, whole))
                self.assertEqual([done for _, _, done in told], sorted(done for _, _, done in told))

    def _told(self, progress: Progress, crates: Dict[str, List[str]], costs: Dict[str, float], processors: int, slowness: float,
              part: float) -> List[Tuple[float, float, float]]:
        """When, what time is said to be left, and which part is said to be done, of a build whose crates begin as they can."""
        chance, numbers = random.Random(7), {name: number for number, name in enumerate(crates)}
        real = {name: costs.get(name, 60.0) * slowness * chance.uniform(0.83, 1.17) for name in crates}
        waiting, running, done, told, now = list(crates), {}, set(), [], 0.0
        while waiting or running:
            ready = [name for name in waiting if all(below in done for below in crates[name])][:processors - len(running)]
            for name in ready:
                waiting.remove(name)
                running[name] = 0.0
            now += 5
            running = {name: spent + 5 * part for name, spent in running.items()}
            progress.sample(now, {numbers[name]: (name, spent) for name, spent in running.items()})
            for name in [name for name, spent in running.items() if spent >= real[name]]:
                done.add(name)
                del running[name]
                progress.end(name, False)
            told.append((now, progress.left(), progress.part()))
        return told
