"""The commands that look at what script files make: `csv` and `conflicts`."""

from __future__ import annotations

import argparse
import re
import sys
import warnings
from typing import List, Optional, Sequence

from .conflicts import Conflicts
from .deciding import note_left_out, questions, ranked_keys, ranked_notes, ranked_rows, ranked_text
from .errors import ScaleWarning
from .files import check_output, standard_output, written
from .running import Answer, loaded
from .session import Session
from .words import told as words_told

_NAME = re.compile(r"[A-Za-z_][A-Za-z0-9_]*")

#: The statements whose answer is rows.
QUESTIONS = ("ask", "possible", "disputed")

#: And those whose answer is ends.
ENDS = ("range",)


def csv_main(arguments: Sequence[str]) -> int:
    """The command `csv FILE ..`: the rows of the last question as CSV. Where a statement is refused nothing is written."""
    words = argparse.ArgumentParser(prog="cqa csv", description="The rows of the last question of script files as CSV with a header, or "
                                    "the two ends, where it is a range, a line for each group; an end that is none is empty. Where a statement is refused, nothing is written.")
    words.add_argument("files", nargs="+", metavar="FILE")
    words.add_argument("--table", metavar="TABLE", help="in place of a question: the rows of a table, with all columns but that of sources; "
                       "refused while keys of it are in conflict")
    words.add_argument("--certain", action="store_true", help="with --table: the keys that are in no conflict alone")
    words.add_argument("-o", "--output", metavar="FILE", help="the file to write, in place of standard output")
    told = words_told(words, arguments)
    if told.certain and not told.table:
        words.error("--certain wants --table")
    check_output(told.output, told.files)
    answers: List[Answer] = []
    session = loaded(told.files, answers)
    if session is None:
        return _nothing()
    with session:
        text = _table_text(session, told.table, told.certain, told.files) if told.table else _last_text(session, answers, told.files)
    if text is None:
        return _nothing()
    _write(text, told.output)
    return 0


def _nothing() -> int:
    print("cqa csv: nothing is written", file=sys.stderr)
    return 1


def _last_text(session: Session, answers: Sequence[Answer], files: Sequence[str]) -> Optional[str]:
    """The answer of the last question as CSV, or None where there is no question."""
    asked = [answer for answer in answers if answer.verb in QUESTIONS + ENDS]
    if not asked:
        print("cqa csv: no statement of %s is an ask, a possible, a disputed or a range; --table TABLE writes the rows of a table" % ", ".join(files),
              file=sys.stderr)
        return None
    last = asked[-1]
    if len(asked) > 1:
        print("cqa csv: note: of %d questions the last one is written, %s:%d" % (len(asked), last.path, last.line), file=sys.stderr)
    lines = [line.decode("utf-8") for line in last.lines]
    return (session.ends_of(last.text, lines) if last.verb in ENDS else session.rows_of(last.text, lines)).csv_text()


def _table_text(session: Session, table: str, is_part_wanted: bool, files: Sequence[str]) -> Optional[str]:
    """The certain rows of a table as CSV, or None where it isn't there, or where keys in conflict would be missing and that isn't wanted."""
    if session.schema(table) is None:
        print("cqa csv: no table %s in %s" % (table, ", ".join(files)), file=sys.stderr)
        return None
    settled = session.settled(table)
    if settled.open_keys:
        print("cqa csv: %d of %d keys of %s %s in conflict%s" % (
            settled.open_keys, settled.keys, table, "is" if settled.open_keys == 1 else "are",
            ", and not written" if is_part_wanted else ": `cqa decide` makes a page to settle them, and --certain writes the other keys alone"), file=sys.stderr)
    return None if settled.open_keys and not is_part_wanted else settled.rows.csv_text()


def conflicts_main(arguments: Sequence[str]) -> int:
    """The command `conflicts FILE .. [TABLE ..]`: the keys whose rows differ. Where a statement is refused nothing is written."""
    words = argparse.ArgumentParser(prog="cqa conflicts", description="The keys of tables whose rows differ: how many by column, and "
                                    "for each its values with their sources. Where a statement is refused, nothing is written.")
    words.add_argument("first", metavar="FILE", help="a script")
    words.add_argument("others", nargs="*", metavar="FILE or TABLE",
                       help="a word that may be a table's name is one, as customer; another is a script, as b.cqa or ./customer")
    words.add_argument("--source", metavar="COLUMN", help="the column of sources, which is no conflict: else that which load made, if it did")
    words.add_argument("--csv", action="store_true", help="the values in conflict of one table as CSV, for a spreadsheet")
    words.add_argument("--matter", action="store_true", help="the keys in the order of how many disputed answers of the files' questions hang on them")
    words.add_argument("-o", "--output", metavar="FILE", help="the file to write, in place of standard output")
    told = words_told(words, arguments)
    tables = [word for word in told.others if _NAME.fullmatch(word)]
    files = [told.first] + [word for word in told.others if not _NAME.fullmatch(word)]
    check_output(told.output, files)
    answers: List[Answer] = []
    session = loaded(files, answers if told.matter else None)
    if session is None:
        print("cqa conflicts: nothing is written", file=sys.stderr)
        return 1
    with session:
        there = [schema.table for schema in session.tables()]
        missing = [table for table in tables if table not in there]
        if missing or not there:
            lacking = "no table %s in %s" % (missing[0], ", ".join(files)) if missing else "%s makes no table" % ", ".join(files)
            print("cqa conflicts: %s" % lacking, file=sys.stderr)
            return 1
        if told.matter:
            _write(_by_matter(session, answers, told.source or "", tables, told.csv), told.output)
            return 0
        if told.csv and len(tables or there) > 1:
            print("cqa conflicts: --csv wants one table: %s" % ", ".join(tables or there), file=sys.stderr)
            return 1
        try:
            found = session.conflicts_of(tables or there, told.source)
            for one in found:
                _tell_source(one)
            text = found[0].listed().csv_text() if told.csv else "".join(map(str, found))
        except KeyError as fault:
            print("cqa conflicts: %s" % fault.args[0], file=sys.stderr)
            return 1
    _write(text, told.output)
    return 0


def _by_matter(session: Session, answers: Sequence[Answer], source: str, tables: Sequence[str], is_csv: bool) -> str:
    """The keys in conflict in the order in which it helps to decide them, as lines or as CSV."""
    with warnings.catch_warnings():
        warnings.simplefilter("ignore", ScaleWarning)  # values are handled as they are stored
        ranked = ranked_keys(session, questions(answers), source, tables, note_left_out)
    for note in ranked_notes(ranked):
        print("cqa conflicts: %s" % note, file=sys.stderr)
    return ranked_rows(ranked).csv_text() if is_csv else ranked_text(ranked)


def _tell_source(found: Conflicts) -> None:
    """Says that a column called `source` counts as the others do where nothing says that it has the sources."""
    if found.source is None and "source" in found.columns and "source" not in found.key:
        print("cqa conflicts: note: %s.source counts as the other columns do; --source source says that it tells where a row is from" % found.table,
              file=sys.stderr)


def _write(text: str, path: Optional[str]) -> None:
    with written(path) if path else standard_output() as out:
        out.write(text.encode("utf-8"))
