"""What the tests share: a folder of their own, and the real program."""

from __future__ import annotations

import os
import signal
import subprocess
import sys
import tempfile
import unittest
from typing import Dict, List, Optional, Tuple, Union

HERE = os.path.dirname(os.path.abspath(__file__))
TOP = os.path.dirname(os.path.dirname(HERE))
sys.path.insert(0, os.path.dirname(HERE))

from cqa.errors import NotBuilt  # noqa: E402
from cqa.program import found_program  # noqa: E402

try:
    PROGRAM: Optional[str] = found_program()
except NotBuilt:
    PROGRAM = None


def heeds_interrupts() -> None:
    """In the background of a shell, Ctrl-C is ignored by what is started there."""
    signal.signal(signal.SIGINT, signal.SIG_DFL)


class Case(unittest.TestCase):
    """A test in a folder of its own."""

    def setUp(self) -> None:
        room = tempfile.TemporaryDirectory()
        self.addCleanup(room.cleanup)
        self.folder = room.name

    def path(self, name: str) -> str:
        """The path of a file in the test's folder."""
        return os.path.join(self.folder, name)

    def file(self, name: str, content: Union[str, bytes]) -> str:
        """Makes a file and gives its path."""
        with open(self.path(name), "wb") as file:
            file.write(content if isinstance(content, bytes) else content.encode())
        return self.path(name)

    def read(self, name: str) -> str:
        """The text of a file."""
        with open(self.path(name), encoding="utf-8", newline="") as file:
            return file.read()

    def command(self, *words: str, program: Optional[str] = None, stdin: bytes = b"") -> Tuple[int, str, str]:
        """Runs `python3 -m cqa` in the test's folder: its status, its output and its errors."""
        environment: Dict[str, str] = dict(os.environ, PYTHONPATH=os.path.dirname(HERE))
        if program or PROGRAM:
            environment["CQA_PROGRAM"] = program or PROGRAM or ""
        ran = subprocess.run([sys.executable, "-m", "cqa", *words], cwd=self.folder, input=stdin, env=environment,
                             stdout=subprocess.PIPE, stderr=subprocess.PIPE, timeout=60, check=False)
        return ran.returncode, ran.stdout.decode("utf-8"), ran.stderr.decode("utf-8")


@unittest.skipIf(PROGRAM is None, "the program isn't built")
class ProgramCase(Case):
    """A test with the real program."""


def lines(text: str) -> List[str]:
    """The lines of a text without their ends."""
    return text.split("\n")[:-1]
