"""Whether the program takes a statement over the reader's tables: asked before a hint shows it."""

from __future__ import annotations

import os
from typing import Mapping

from .blocks import create_text
from .errors import CqaError
from .marks import Marks
from .meaning import meaning_of
from .program import Child
from .replies import IS_REFUSAL
from .scripts import Schema, verb_of

#: How many statements are tried: a script with more refusals gets no more whole statements.
_MOST = 20


class Trial:
    """A program of its own for each statement, with the reader's tables, without their rows."""

    def __init__(self, program: str) -> None:
        self._program = program
        self._left = _MOST

    def takes(self, statement: str, schemas: Mapping[str, Schema], marks: Marks) -> bool:
        """Whether it is answered over these tables."""
        meaning = meaning_of(statement.rstrip(";"), marks, lambda: schemas)
        if not self._left or meaning.wrong or meaning.faults or not os.path.isfile(self._program):
            return False  # `cqa try` would compile it anew
        self._left -= 1
        try:
            child = Child(self._program)
        except CqaError:
            return False
        try:
            for schema in schemas.values():
                child.tell(create_text(schema).encode(), "create")
            lines = child.tell(meaning.sent().encode("utf-8", "surrogateescape") + b";", verb_of(statement))
        except CqaError:
            return False
        finally:
            child.kill()
        return not lines or not IS_REFUSAL.match(lines[0])
