"""The words of a command."""

from __future__ import annotations

import argparse
from typing import Sequence


def told(words: argparse.ArgumentParser, arguments: Sequence[str]) -> argparse.Namespace:
    """What the arguments of a command say. Options may stand between files, as in `a.cqa --stop b.cqa`; behind `--` all are files."""
    return words.parse_args(arguments) if "--" in arguments else words.parse_intermixed_args(arguments)
