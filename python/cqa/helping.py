"""The command `help`."""

from __future__ import annotations

import sys
from typing import Sequence

from .statements import VERBS, about, all_statements


def main(arguments: Sequence[str]) -> int:
    """The command `help [STATEMENT]`."""
    if not arguments:
        print("\nStatements, each with a ; at its end (help STATEMENT tells how it is written):\n\n%s\nAll of them, with their replies and "
              "refusals: docs/LANGUAGE.md" % all_statements())
        return 0
    text = "".join(about(word) for word in arguments)
    if not text:
        print("cqa help: no statement %s; there are %s" % (" ".join(arguments), ", ".join(VERBS)), file=sys.stderr)
        return 2
    print(text, end="")
    return 0
