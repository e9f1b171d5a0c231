"""The command `report`: a page of what script files make: tables, conflicts, questions."""

from __future__ import annotations

import argparse
import datetime
import html
import os
import re
import sys
import warnings
from typing import Dict, List, NamedTuple, Optional, Sequence, Tuple

from . import page, underway
from .answered import Answered, pair_part
from .answers import Classification, Explanation, Range, against, explanation
from .asking import add_place
from .conflicts import Conflicts, Disputed
from .drawing import HEADS, attack_graph
from .errors import Refused, ScaleFault, ScaleWarning
from .files import check_output, standard_output, written
from .origins import Origin
from .report_sql import sql_parts
from .rows import Cell, Rows, cell_text
from .running import QUERY_VERBS, Answer, loaded
from .scripts import Schema, aggregate_of, parts_of, quoted, selected, tokens, without_comments
from .session import Session
from .version import version
from .why import Rows as Shown
from .why import literals_of
from .words import told as words_told

#: Statements that change no table and no setting.
_QUIET = (*QUERY_VERBS, "show", "dump", "")
_EXPLAINS = re.compile(r"\s*(?:explain|against|prove)\s+row\s*(\((?:[^')]|'[^']*')*\))\s*for\b(.*)", re.S)
_WORST = 20

_SURE = "The answer is exact: each row was decided, and none was guessed. "
_HOW = {
    "first-order": _SURE + "It was found by going through the tables once, and stays quick on longer lists.",
    "polynomial": _SURE + "It was found by following how rows lead to each other, which takes longer on longer lists, but not out of hand.",
    "conp-complete": _SURE + "Such a question may take a search for each row: on much longer lists it may take long, and is then refused and not guessed.",
}
_CLASSES = {
    "first-order": "The tables can be gone through one after the other, and each row is decided without a search.",
    "polynomial": "Tables attack each other weakly: no order of the tables decides it, but each row is decided in polynomial time.",
    "conp-complete": "Tables attack each other strongly: in the worst case each row takes a search.",
}


class Question(NamedTuple):
    """A query of the scripts, a row of which they ask why, if they do, where it is asked first, and by which statements. is_range:
    whether it is what stands behind `range`."""

    query: str
    row: Optional[str]
    place: str
    verbs: Tuple[str, ...]
    is_range: bool = False


def questions_of(answers: Sequence[Answer]) -> List[Question]:
    """The queries of the scripts in their order, each once."""
    found: Dict[str, Question] = {}
    for answer in answers:
        if answer.verb not in QUERY_VERBS:
            continue
        text = without_comments(answer.text)
        explained = _EXPLAINS.match(text)
        query = explained[2] if explained else re.sub(r"^\s*\w+\s", "", text)
        name = " ".join(tokens(query))
        if answer.verb == "range":
            found.setdefault("range " + name, Question(query.strip(), None, "%s:%d" % (os.path.basename(answer.path), answer.line), ("range",), True))
            continue
        row = explained[1] if explained else None
        known = found.get(name)
        place = "%s:%d" % (os.path.basename(answer.path), answer.line)
        verbs = (*known.verbs, answer.verb) if known else (answer.verb,)
        found[name] = known._replace(row=known.row or row, verbs=tuple(dict.fromkeys(verbs))) if known else Question(query.strip(), row, place, verbs)
    return list(found.values())


class Questions:
    """The questions of scripts, each answered over the tables as they are where it stands."""

    def __init__(self) -> None:
        self.answers: List[Answer] = []
        self.parts: List[Answered] = []
        self._answered = 0

    def before(self, session: Session, verb: str) -> None:
        """Answers the questions so far before a statement that may change what they are about."""
        if verb not in _QUIET:
            self.answer(session)

    def answer(self, session: Session) -> None:
        """Answers the questions that aren't answered yet: of those between two changes each once."""
        questions = questions_of(self.answers[self._answered:])
        self._answered = len(self.answers)
        self.parts += [_question_part(session, number, question) for number, question in enumerate(questions, len(self.parts) + 1)]


def main(arguments: Sequence[str]) -> int:
    """The command `report FILE ..`. Where a statement is refused nothing is written."""
    words = argparse.ArgumentParser(prog="cqa report", description="A page of what script files make: tables, conflicts, and for each "
                                    "question its certain and its disputed rows. Where a statement is refused, nothing is written.")
    words.add_argument("files", nargs="+", metavar="FILE")
    words.add_argument("--source", metavar="COLUMN", help="the column of sources, which is no conflict: else that which load made, if it did")
    words.add_argument("--title", metavar="TEXT", help="the page's title, in place of the files' names")
    words.add_argument("-o", "--output", metavar="FILE", help="the page's file, in place of standard output")
    words.add_argument("--sql", action="append", default=[], metavar="QUERY", help="a question in SQL, or a file that has it, over the database of --db or the lists of --csv")
    add_place(words)
    told = words_told(words, arguments)
    if not told.sql and (told.db or told.csv or told.key or told.keys):
        words.error("--db, --csv, --key and --keys are for --sql QUERY")
    with warnings.catch_warnings():
        warnings.simplefilter("ignore", ScaleWarning)  # what statements name is told where they are run
        return _main(told)


def _main(told: argparse.Namespace) -> int:
    check_output(told.output, told.files)
    questions = Questions()
    session = loaded(told.files, questions.answers, before=questions.before)
    if session is None:
        print("cqa report: nothing is written", file=sys.stderr)
        return 1
    with session:
        if not session.tables():
            print("cqa report: %s makes no table; nothing is written" % ", ".join(told.files), file=sys.stderr)
            return 1
        if told.source and not any(told.source in schema.columns for schema in session.tables()):
            print("cqa report: no table has a column %s; nothing is written" % told.source, file=sys.stderr)
            return 1
        questions.answer(session)
        questions.parts += sql_parts(told, len(questions.parts)) if told.sql else []
        text = report(session, questions.parts, [os.path.basename(path) for path in told.files], told.title, told.source)
    with written(told.output) if told.output else standard_output() as out:
        out.write(text.encode("utf-8", "replace"))
    return 0


def report(session: Session, questions: Sequence[Answered], files: Sequence[str], title: Optional[str] = None, source: Optional[str] = None) -> str:
    """The page of a session's tables, with the parts of questions. files: the names of the scripts."""
    schemas = session.tables()
    found = {schema.table: session.conflicts_of([schema.table], source if source in schema.columns else None)[0] for schema in schemas if source}
    found = found or dict(zip([schema.table for schema in schemas], session.conflicts_of([schema.table for schema in schemas])))
    whole = [("questions", len(questions)), ("tables", len(schemas)), ("rows", sum(one.rows for one in found.values())),
             ("keys", sum(one.keys for one in found.values())), ("keys in conflict", sum(len(one) for one in found.values()))]
    heading = title or ", ".join(files)
    made = "Made on %s%s from %s." % (datetime.datetime.now().astimezone().strftime("%Y-%m-%d at %H:%M (UTC%z)"), (" by cqa " + version()).rstrip(), ", ".join(files))
    body = [HEADS, "<h1>%s</h1>" % page.text(heading), '<p class="quiet">%s</p>' % html.escape(made), page.facts(whole),
            "<p><b>Certain means undisputed, not confirmed:</b> of the stored rows of each key one is taken to be right. A row is "
            "certain if it is an answer whichever these are, and disputed if it is one only for some choices. Tables and conflicts are "
            "as the scripts leave them; each question is answered where it stands.</p>",
            page.contents([("q%d" % number, one.words, one.said) for number, one in enumerate(questions, 1)], True) if questions else "",
            page.contents([("lists", "The lists", "which files, how many records, and keys of one list alone"),
                           *(("t-" + schema.table, "Table " + schema.table, _conflicts_said(found[schema.table])) for schema in schemas)], False)]
    body += [one.part for one in questions]
    body.append(_lists_part(session, found))
    body += [_table_part(schema, found[schema.table]) for schema in schemas]
    return page.page("cqa: " + heading, "\n".join(body))


def _conflicts_said(found: Conflicts) -> str:
    return "%s of %s keys in conflict" % (page.number(len(found)), page.number(found.keys))


def _lists_part(session: Session, found: Dict[str, Conflicts]) -> str:
    """The lists from which the rows come: their files, how many records each gave, and how many keys stand in it alone."""
    rows: List[Tuple[Cell, ...]] = []
    for table, conflicts in found.items():
        origins = session.origins_of(table)
        names = list(dict.fromkeys([*(one.source for one in origins if one.source is not None), *map(str, conflicts.by_source)]))
        rows += [_list_row(table, name, [one for one in origins if one.source == name], conflicts) for name in names]
        rows += [(table, "", one.path, one.records, "", "") for one in origins if one.source is None]
        shared = conflicts.keys - sum(alone for _, alone in conflicts.by_source.values())
        if conflicts.by_source:
            rows.append((table, "in several lists", "", "", "", shared))
    if not rows:
        return '<h2 id="lists">The lists</h2><p class="quiet">The scripts don\'t say from which lists the rows come.</p>'
    return '<h2 id="lists">The lists</h2>' + page.table(("table", "list", "file", "records read", "rows here", "keys in it alone"), rows)


def _list_row(table: str, name: str, origins: Sequence[Origin], conflicts: Conflicts) -> Tuple[Cell, ...]:
    here, alone = conflicts.by_source.get(name, (0, 0))
    return table, name, ", ".join(one.path for one in origins), sum(one.records for one in origins) if origins else "", here, alone


def _table_part(schema: Schema, conflicts: Conflicts) -> str:
    """A table: its counts, in how many keys each column differs, and the worst keys."""
    columns = ", ".join("%s %s" % item for item in schema.columns.items())
    kind = ", strict" if schema.strict else ""
    parts = ['<h2 id="t-%s">Table %s</h2>' % (html.escape(schema.table), page.text(schema.table)),
             '<p class="quiet"><code>%s</code>, key <code>%s</code>%s</p>' % (html.escape(columns), html.escape(", ".join(schema.key)), kind),
             page.facts([("rows", conflicts.rows), ("keys", conflicts.keys), ("keys in conflict", len(conflicts))])]
    if not conflicts.disputed:
        return "".join(parts) + '<p class="quiet">No key of this table is in conflict.</p>'
    parts.append("<h3>Keys that disagree, by column</h3>")
    parts.append(page.bars([item for item in sorted(conflicts.by_column.items(), key=lambda item: -item[1])], conflicts.keys))
    worst = conflicts.worst(_WORST)
    is_all = len(worst) == len(conflicts)
    parts.append("<h3>The keys in conflict</h3>" if is_all else "<h3>The %d keys that disagree most</h3>" % len(worst))
    parts.append(page.raw_table((*conflicts.key, "column", "values"), (cells for block in worst for cells in _block_cells(block))))
    if not is_all:
        parts.append('<p class="quiet">All %s are those of <code>cqa conflicts</code>.</p>' % page.number(len(conflicts)))
    return "".join(parts)


def _block_cells(block: Disputed) -> List[List[str]]:
    """The lines of a key in conflict: one for each column that differs, with its values beside their sources."""
    lines = []
    for number, (name, values) in enumerate(block.values.items()):
        key = ['<td rowspan="%d">%s</td>' % (len(block.values), page.text(value)) for value in block.key] if number == 0 else []
        items = "".join("<li>%s%s</li>" % (page.text(value), _sources_part(sources)) for value, sources in values.items())
        lines.append([*key, "<td>%s</td>" % page.text(name), '<td><ul class="values">%s</ul></td>' % items])
    return lines


def _sources_part(sources: Sequence[Cell]) -> str:
    return ' <span class="quiet">%s</span>' % ", ".join(map(page.text, sources)) if sources else ""


def _question_part(session: Session, number: int, question: Question) -> Answered:
    """A question: its certain and its disputed rows, how they were found, and why a row isn't certain; or the ends of a range."""
    verb, others = question.verbs[0], question.verbs[1:]
    asked = verb if verb in ("ask", "possible", "disputed", "range") else "ask"
    words = "%s %s" % (asked, " ".join(without_comments(question.query).split()))
    also = '<p class="quiet">Also asked by %s.</p>' % ", ".join("<code>%s</code>" % html.escape(one) for one in (*((verb,) if verb != asked else ()), *others))
    head = '<h2 id="q%d">Question %d <span class="quiet">%s</span></h2><pre>%s %s;</pre>%s' % (
        number, number, page.text(question.place), asked, page.text(question.query), also if others or verb != asked else "")
    try:
        with underway.saying(lambda: words):
            said, part = _range_part(session, question.query) if question.is_range else _rows_part(session, question)
    except (Refused, ScaleFault) as refused:
        text = refused.line if isinstance(refused, Refused) else str(refused)
        return Answered(words, "refused", head + '<p class="odd">%s</p>' % page.text(text))
    return Answered(words, said, head + part)


def _rows_part(session: Session, question: Question) -> Tuple[str, str]:
    """The answer of a query in a line, and its part of the page."""
    certain, possible = session.certain(question.query), session.possible(question.query)
    known = set(certain)
    disputed = Rows(possible.columns, (row for row in possible if row not in known))
    if certain.columns:
        said = "%s certain, %s disputed" % (page.number(len(certain)), page.number(len(disputed)))
    else:
        said = "disputed" if disputed else "yes" if certain else "no"
    is_union = len(parts_of(question.query)) > 1
    how = _union_part() if is_union else _class_part(question.query, session.classify(question.query))
    return said, _answer_part(certain, disputed) + _why_part(session, question, disputed) + how


def _range_part(session: Session, aggregate: str) -> Tuple[str, str]:
    """The ends of a range in a line, and its part of the page: the rows of which one end takes another than the other end."""
    group = aggregate_of(aggregate).group
    if group:
        groups = session.ranges(aggregate)
        return "%s groups" % page.number(len(groups)), page.table((group, "least", "greatest"), [tuple(map(_end_shown, one)) for one in groups])
    found: Range = session.range(aggregate)
    least, greatest = _end_shown(found.least), _end_shown(found.greatest)
    ends = "<p>It lies between <b>%s</b> and <b>%s</b>, whichever rows are right.</p>" % (page.text(least), page.text(greatest))
    said = "between %s and %s" % (cell_text(least), cell_text(greatest))
    if found.least == found.greatest or found.low == found.high:
        return said, ends
    return said, ends + "<p>It has these values where these rows are the right ones of their keys:</p>" + Shown(session).ends_part(found)


def _end_shown(end: Optional[Cell]) -> Cell:
    return "none" if end is None else end


def _answer_part(certain: Rows, disputed: Rows) -> str:
    if not certain.columns:
        sure = "Yes, whichever rows are right." if certain else "No, whichever rows are right."
        return "<h3>Answer</h3><p>%s</p>" % ("Yes for some choice of rows, no for others." if disputed else sure)
    return pair_part(certain.columns, certain, disputed)


def _class_part(query: str, classified: Classification) -> str:
    """How the answer was found, and behind a line for those who know the theory, the class of the query and how its tables attack."""
    tables = selected(query)[1]
    parts = ["<p>%s</p><details><summary>The theory of it</summary><p>Class: %s. %s</p>"
             % (_HOW.get(classified.name, _SURE), html.escape(classified.name), _CLASSES.get(classified.name, ""))]
    if len(tables) > 1:
        parts.append(attack_graph(tables, classified.attacks))
        parts.append('<p class="quiet">A broken thin line is a weak attack, a thick line a strong one.</p>' if classified.attacks else
                     '<p class="quiet">No table attacks another.</p>')
    return "<h3>How it was found</h3>%s</details>" % "".join(parts)


def _union_part() -> str:
    return "<h3>How it was found</h3><p>%sA row is certain if each choice of rows gives it by some part of the question, not always by the same one.</p>" % _SURE


def _why_part(session: Session, question: Question, disputed: Rows) -> str:
    """Why a row isn't certain: the one that the script asks of, or the first that is disputed."""
    literals = literals_of(question.row) if question.row else _literals(session, question.query, disputed[0]) if disputed else None
    if literals is None:
        return ""
    shown = question.row or _row_shown(disputed[0])
    row = "(%s)" % ", ".join(literals)
    head = "<h3>Why %s isn't certain</h3>" % ("the yes" if not literals else "<code>%s</code>" % page.text(shown))
    words = "row %s for %s;" % (row, question.query.strip().rstrip(";"))
    is_union = len(parts_of(question.query)) > 1
    try:
        told = explanation(session._lines("explain " + words)) if is_union else against(session._lines("against " + words))
        if told.is_certain:
            why = told if is_union else explanation(session._lines("explain " + words))
            return "<h3><code>%s</code> is certain</h3>%s" % (page.text(shown), _by_block(why))
    except Refused as refused:
        return head + '<p class="odd">%s</p>' % page.text(refused.line)
    rows = Shown(session)
    kept = session._shown_kept(told.kept)
    relevant = rows.relevant(question.query, literals) if is_union else None
    if relevant is not None:
        kept = tuple(one for one in kept if rows.block(*one) in relevant)
    if not kept:
        return head + "<p>No choice of rows gives it: it isn't even possible.</p>"
    return head + "<p>It is no answer where these rows are the right ones of their keys; what others of their keys say otherwise is marked:</p>" + rows.kept_part(kept)


def _row_shown(row: Sequence[Cell]) -> str:
    return "(%s)" % ", ".join(quoted(value) if isinstance(value, (int, str)) else cell_text(value) for value in row)


def _by_block(told: Explanation) -> str:
    if told.table is None or told.key is None:
        return "<p>A refutation shows it.</p>" if told.kind == "refutation" else ""
    return "<p>By the rows of %s with the key %s: each of them gives it.</p>" % (page.text(told.table), ", ".join(map(page.text, told.key)))


def _literals(session: Session, query: str, row: Sequence[Cell]) -> List[str]:
    """The values of a row as literals."""
    return [quoted(value) for value in session._stored(row, query)]
