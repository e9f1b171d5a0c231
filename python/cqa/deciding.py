"""The command `decide`: a page on which the conflicts of tables are settled, those first on which most of the questions' answers hang."""

from __future__ import annotations

import argparse
import base64
import datetime
import hashlib
import html
import json
import os
import sys
import warnings
from typing import Any, Callable, Dict, List, Mapping, NamedTuple, Optional, Sequence, Tuple

from . import matter, page
from .conflicts import Columns, Conflicts, Disputed, values_text
from .errors import Refused, ScaleWarning
from .files import check_output, standard_output, written
from .matter import Blocks, Hanging, Key, Question
from .replies import row_of
from .report import questions_of
from .rows import Cell, Rows, cell_text
from .running import Answer, loaded
from .scaling import places_of
from .scripts import Schema, selected
from .session import Session
from .stated import Stated, stated
from .words import told as words_told

#: What is done about a question that is refused.
LeftOut = Callable[[Refused, Question], None]

#: Of each question so many answers are shown that hang on a key.
_MOST_SHOWN = 5


class Table(NamedTuple):
    """A table with its rows as they are stored: names has its columns, those of the key first, in the order of the values."""

    schema: Schema
    names: List[str]
    places: List[int]
    source: str
    told: Stated
    conflicts: Conflicts


def main(arguments: Sequence[str]) -> int:
    """The command `decide FILE ..`. Where a statement is refused nothing is written."""
    words = argparse.ArgumentParser(prog="cqa decide", description="A page on which one settles the conflicts of what script files make: those "
                                    "first on which most disputed answers of the questions in the files hang. It saves a script, decided.cqa, to run behind them.")
    words.add_argument("files", nargs="+", metavar="FILE")
    words.add_argument("--source", metavar="COLUMN", help="the column of sources, where `cqa load` didn't mark one")
    words.add_argument("--title", help="the page's title, in place of the files' names")
    words.add_argument("-o", "--output", metavar="FILE", help="the page's file, in place of standard output")
    told = words_told(words, arguments)
    with warnings.catch_warnings():
        warnings.simplefilter("ignore", ScaleWarning)  # values are handled as they are stored
        return _main(told)


def _main(told: argparse.Namespace) -> int:
    answers: List[Answer] = []
    check_output(told.output, told.files)
    session = loaded(told.files, answers)
    if session is None:
        print("cqa decide: nothing is written", file=sys.stderr)
        return 1
    with session:
        text = decide_page(session, questions(answers), told.title or ", ".join(map(os.path.basename, told.files)), told.source or "")
    with written(told.output) if told.output else standard_output() as out:
        out.write(text.encode("utf-8", "replace"))
    return 0


def questions(answers: Sequence[Answer]) -> List[Question]:
    """The questions of scripts, each once."""
    return [Question(one.query, one.is_range) for one in questions_of(answers)]


def tables_of(session: Session, source: str = "") -> List[Table]:
    """The tables of a session, with what is in conflict."""
    return [_table(session, schema, source) for schema in session.tables()]


def _table(session: Session, schema: Schema, source: str) -> Table:
    columns = Columns(schema.columns, schema.key, source if source in schema.columns else session.source_of(schema.table), {})
    names = [columns.names[at] for at in columns.order]
    lines = session.tell("possible select %s from %s;" % (", ".join(names), schema.table))
    conflicts = Conflicts(schema.table, columns)
    conflicts.add(columns.in_order(row_of(line)) for line in lines[:-1])
    told = stated(schema.table, names, [line.encode("utf-8") for line in lines])
    return Table(schema, names, [session.places.get((schema.table, name), -1) for name in names], conflicts.source or "", told, conflicts)


def _key(table: Table, values: Sequence[Cell]) -> Key:
    return table.schema.table, tuple(values)


def note_left_out(refused: Refused, question: Question) -> None:
    """Says on standard error that a question is left out."""
    print("note: %s: %s" % (question.query, refused.line), file=sys.stderr)


def all_hanging(session: Session, asked: Sequence[Question], keys: Sequence[Key], left_out: Optional[LeftOut]) -> List[Hanging]:
    """What hangs on the keys for each question. left_out: told of each one that is refused over the tables as they are; else that is raised."""
    found = []
    for question in asked:
        try:
            found.append(matter.hanging(session, question, keys))
        except Refused as refused:
            if left_out is None:
                raise
            left_out(refused, question)
    return found


class Ranked(NamedTuple):
    """The keys in conflict of tables in the order in which it helps to decide them, each with its table's place and what of it differs,
    and what hangs on them."""

    tables: List[Table]
    keys: Dict[Key, Tuple[int, Disputed]]
    found: List[Hanging]


def ranked_keys(session: Session, asked: Sequence[Question], source: str = "", names: Sequence[str] = (), left_out: Optional[LeftOut] = None) -> Ranked:
    """The conflicts of tables, of all where none is named, ranked by what hangs on them for some questions. left_out: as of `all_hanging`."""
    tables = [table for table in tables_of(session, source) if not names or table.schema.table in names]
    blocks = {_key(table, one.key): (number, one) for number, table in enumerate(tables) for one in table.conflicts.disputed}
    found = all_hanging(session, asked, list(blocks), left_out)
    return Ranked(tables, {key: blocks[key] for key in matter.ranked(list(blocks), found)}, found)


def ranked_rows(ranked: Ranked) -> Rows:
    """A row for each key in its order."""
    return matter.listed({key: _key_text(ranked.tables[number], block) for key, (number, block) in ranked.keys.items()}, ranked.found)


def _key_text(table: Table, block: Disputed) -> str:
    return ", ".join(_shown(table, block.rows[0])[:len(table.schema.key)])


def ranked_text(ranked: Ranked) -> str:
    """A line for each key with what hangs on it and its values; those on which no question hangs stand last, under a line of their own."""
    lines: List[str] = []
    is_last = False
    for key, (number, block) in ranked.keys.items():
        if not is_last and not matter.matters(key, ranked.found):
            lines.append("no question hangs on these:\n")
            is_last = True
        table = ranked.tables[number]
        places = dict(zip(table.names, table.places))
        values = ["%s: %s" % (name, values_text({_shown_value(value, places[name]): sources for value, sources in of_column.items()}))
                  for name, of_column in block.values.items()]
        lines.append("%s %s  %s%s\n" % (table.schema.table, _key_text(table, block), _matters(key, ranked.found) + "  " if not is_last else "", "   ".join(values)))
    return "".join(lines)


def ranked_notes(ranked: Ranked) -> List[str]:
    """What is to know of how the questions were looked at."""
    return ["%s: %s" % (_question_text(one.question), _looked_at(one)) for one in ranked.found]


def decide_page(session: Session, asked: Sequence[Question], title: str, source: str = "") -> str:
    """The page of a session's conflicts, ranked by what hangs on them for some questions."""
    ranked = ranked_keys(session, asked, source, left_out=note_left_out)
    data = {
        "tables": [_table_data(table) for table in ranked.tables],
        "questions": [_question_text(one.question) for one in ranked.found],
        "keys": [_key_data(ranked.tables[number], number, block, key, ranked.found, session.places) for key, (number, block) in ranked.keys.items()],
    }
    return _page(title, data, [_told(one) for one in ranked.found])


def _table_data(table: Table) -> Dict[str, Any]:
    kinds = ["text" if table.schema.columns[name] == "text" else "int" if places < 0 else "places" for name, places in zip(table.names, table.places)]
    return {"name": table.schema.table, "columns": table.names, "kinds": kinds, "key": list(range(len(table.schema.key))),
            "source": table.names.index(table.source) if table.source else None, "told": table.told.text()}


def _key_data(table: Table, number: int, block: Disputed, key: Key, found: Sequence[Hanging], places: Mapping[Tuple[str, str], int]) -> Dict[str, Any]:
    shown = [_shown(table, row) for row in block.rows]
    differs = [table.names.index(name) for name in block.values]
    return {"table": number, "key": shown[0][:len(table.schema.key)], "rows": shown, "differs": differs, "matters": _matters(key, found),
            "hangs": _hangs(key, found, places)}


def _shown(table: Table, row: Sequence[Cell]) -> List[str]:
    """The values of a row as texts, with their places."""
    return [cell_text(_shown_value(value, places)) for value, places in zip(row, table.places)]


def _shown_value(value: Cell, places: int) -> Cell:
    return value if places < 0 else matter.with_places(value, places)


def _matters(key: Key, found: Sequence[Hanging]) -> str:
    """What hangs on a key, in a few words."""
    rows = sum(one.rows[key] for one in found)
    widths = ["%s by %s" % (_question_text(one.question), cell_text(one.widths[key])) for one in found if key in one.widths]
    return "; ".join(([matter.counted(rows, "disputed answer")] if rows else []) + widths)


def _hangs(key: Key, found: Sequence[Hanging], places: Mapping[Tuple[str, str], int]) -> List[Tuple[int, str]]:
    """Some of the answers that hang on a key, each with the number of its question."""
    shown: List[Tuple[int, str]] = []
    for number, one in enumerate(found):
        answers = one.answers.get(key, [])
        columns, tables = selected(one.question.query)
        of_columns = [places_of(name, tables, places) for name in columns]
        shown += [(number, "(%s)" % ", ".join([cell_text(_shown_value(value, count or -1)) for value, count in zip(answer, of_columns)]))
                  for answer in answers[:_MOST_SHOWN]]
        if one.rows[key] > _MOST_SHOWN:
            shown.append((number, "and %d more" % (one.rows[key] - _MOST_SHOWN)))
        if key in one.widths:
            shown.append((number, "is narrower by %s at most" % cell_text(one.widths[key])))
    return shown


def _question_text(question: Question) -> str:
    return ("range " if question.is_range else "") + " ".join(question.query.split())


def _looked_at(one: Hanging) -> str:
    """How a question was looked at."""
    said = "looked at for %s" % matter.counted(one.looked_at, "key") if one.question.is_range else matter.counted(one.disputed, "disputed answer")
    if not one.question.is_range and one.looked_at < one.disputed:
        said += ", of which %s were looked at, evenly chosen" % format(one.looked_at, ",")
    if one.untold:
        said += "; of %s it can't be told" % format(one.untold, ",")
    return said


def _told(one: Hanging) -> str:
    """How a question was looked at, as a part of the page."""
    return "<li><code>%s</code> <span class=\"quiet\">%s</span></li>" % (html.escape(_question_text(one.question)), html.escape(_looked_at(one)))


_BODY = """
<header><h1>%(title)s</h1>
<div class="row"><span id="left"></span><button type="button" id="undo">Undo</button><button type="button" class="main" id="save">Save decided.cqa</button>
<button type="button" id="throwAway">Throw away</button></div>
<div class="row"><label>Search <input id="search" type="search"></label><label>Table <select id="table"><option value="">all</option></select></label>
<label>Differs in <select id="column"><option value="">any column</option></select></label>
<label>Source <select id="source"><option value="">any</option></select></label>
<label>Show <select id="state"><option value="all">all keys</option><option value="open">those left</option><option value="decided">those decided</option></select></label>
<button type="button" id="takeSource">Take this source for all that are shown</button></div>
<p id="said" role="status" aria-live="polite"></p><p id="kept" class="odd"></p></header>
<main><nav id="keys" aria-label="Keys in conflict"><p id="above" class="quiet"></p><ul id="list"></ul><p id="below" class="quiet"></p></nav>
<section id="card" aria-live="polite" aria-label="The key"></section></main>
<p><b>Certain means undisputed, not confirmed:</b> of the rows of a key one is right, and the tables can't tell which. Pick it, say that none is, or leave the key.
What you pick is kept in this browser until you throw it away, and saved as a script that deletes the other rows. Run it behind the files that made this page.</p>
<p class="quiet">Keys: <kbd>j</kbd> <kbd>k</kbd> next and previous, <kbd>1</kbd> to <kbd>9</kbd> this row, <kbd>n</kbd> none of these, <kbd>x</kbd> leave it,
<kbd>u</kbd> undo, <kbd>/</kbd> search, <kbd>Esc</kbd> out of a field, <kbd>s</kbd> save.</p>
<h2>The questions</h2><ul>%(questions)s</ul>
<details id="saved"><summary>The script so far</summary><textarea id="script" readonly aria-label="The script"></textarea></details>
<p class="quiet">Made on %(date)s from %(title)s.</p>
<script type="application/json" id="data">%(data)s</script>
<script>%(code)s</script>
"""


def _read(name: str) -> str:
    with open(os.path.join(os.path.dirname(os.path.abspath(__file__)), name), encoding="utf-8") as file:
        return file.read()


def _hash(text: str) -> str:
    return "'sha256-%s'" % base64.b64encode(hashlib.sha256(text.encode("utf-8")).digest()).decode()


def _page(title: str, data: Dict[str, Any], questions_told: Sequence[str]) -> str:
    """The whole page: one script and one style are let run, by their hashes, and nothing comes from outside."""
    code, style = _read("decide.js"), page.STYLE + _read("decide.css")
    held = json.dumps(data, ensure_ascii=False, separators=(",", ":")).replace("<", "\\u003c").replace("\u2028", "\\u2028").replace("\u2029", "\\u2029")
    told = "".join(questions_told) or '<li class="quiet">The files ask none, so keys stand in the order of their tables.</li>'
    body = _BODY % {"title": page.text(title), "questions": told, "date": datetime.date.today().isoformat(), "data": held, "code": code}
    policy = "default-src 'none'; script-src %s; style-src %s; base-uri 'none'; form-action 'none'" % (_hash(code), _hash(style))
    return ('<!doctype html>\n<html lang="en">\n<head>\n<meta charset="utf-8">\n<meta http-equiv="Content-Security-Policy" content="%s">\n'
            '<meta name="viewport" content="width=device-width, initial-scale=1">\n<title>%s</title>\n<style>%s</style>\n</head>\n<body>%s</body>\n</html>\n'
            % (policy, html.escape("cqa: " + title), style, body))
