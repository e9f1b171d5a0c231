"""An answered question of a report."""

from __future__ import annotations

from typing import NamedTuple, Sequence

from . import page
from .rows import Cell


class Answered(NamedTuple):
    """A question with its part of the page. words: it, in a line. said: its answer, in a line."""

    words: str
    said: str
    part: str


def pair_part(columns: Sequence[str], certain: Sequence[Sequence[Cell]], disputed: Sequence[Sequence[Cell]]) -> str:
    """Certain rows and disputed rows, beside each other."""
    return '<div class="pair"><div><h3>Certain rows: %s</h3>%s</div><div><h3>Disputed rows: %s</h3>%s</div></div>' % (
        page.number(len(certain)), page.table(columns, certain), page.number(len(disputed)), page.table(columns, disputed))
