"""The questions in SQL of a report: certain and disputed rows over a database or over lists, and why a row isn't certain."""

from __future__ import annotations

import argparse
import html
from typing import Any, List, Sequence, Tuple

from . import page
from .answered import Answered, pair_part
from .asking import opened, query_text
from .database.answering import Kept
from .database.connecting import heed_interrupts
from .database.front import Database, shown
from .errors import QueryRefused
from .rows import Cell

_HOW = ("<h3>How it was found</h3><p>The database found, for each answer, the lists of rows that make it; which answers are certain was "
        "decided by them, and none was guessed.%s</p>")


def sql_parts(told: argparse.Namespace, before: int) -> List[Answered]:
    """The parts of the questions that words tell, all over one state of the database. before: how many questions stand before them."""
    heed_interrupts()
    with opened(told) as database, database.snapshot():
        return [_part(database, number, query_text(word)) for number, word in enumerate(told.sql, before + 1)]


def _part(database: Database, number: int, sql: str) -> Answered:
    words = " ".join(sql.split()).rstrip("; ")
    head = '<h2 id="q%d">Question %d <span class="quiet">in SQL</span></h2><pre>%s</pre>' % (number, number, page.text(sql.strip()))
    try:
        answers = database.certain(sql)
        certain = [_cells(row) for row in answers]
        disputed = list(database.disputed(sql))
        why = _why_part(disputed[0], database.against(disputed[0], sql) or []) if disputed else ""
    except QueryRefused as refused:
        return Answered(words, "refused", head + '<p class="odd">%s</p>' % page.text(str(refused)))
    said = "%s certain, %s disputed" % (page.number(len(certain)), page.number(len(disputed)))
    taken = " Taken as certain, since no key is told of them: %s." % html.escape(", ".join(answers.certain_tables)) if answers.certain_tables else ""
    return Answered(words, said, head + pair_part(answers.columns, certain, list(map(_cells, disputed))) + why + _HOW % taken)


def _cells(row: Sequence[Any]) -> Tuple[Cell, ...]:
    return tuple(map(_cell, row))


def _cell(value: Any) -> Cell:
    """A value as the page shows it; NULL by its word, since an empty text is one, too."""
    if isinstance(value, int) and not isinstance(value, bool):
        return value
    return "NULL" if value is None else shown(value)


def _why_part(row: Sequence[Any], kept: Sequence[Kept]) -> str:
    """Why a disputed row isn't certain: the rows to keep so that it is no answer, table by table."""
    parts = ["<h3>Why <code>%s</code> isn't certain</h3>" % page.text("(%s)" % ", ".join(str(_cell(value)) for value in row)),
             "<p>It is no answer where these rows are the right ones of their keys:</p>"]
    for table in dict.fromkeys(one.table for one in kept):
        rows = [one.row for one in kept if one.table == table]
        parts += ['<p class="quiet">%s</p>' % page.text(table), page.table(tuple(rows[0]), [_cells(tuple(one.values())) for one in rows])]
    return "".join(parts)
