"""The command `load`: lists made a script, or taken into the table of one."""

from __future__ import annotations

import argparse
import sys
import warnings
from typing import List, Optional, Sequence

from .errors import LoadFault, LoadWarning, Refused
from .files import check_output, standard_output, written
from .lists import Lists
from .loading import Source, load_script, options_of, parser, sources_of
from .options import ListOptions, word_of
from .running import loaded
from .scaling import stored_note
from .scripts import Schema
from .words import told


def main(arguments: Sequence[str]) -> int:
    """The command `load`: 0, or 1 with the faults on standard error and nothing written, or 2 for wrong words."""
    words = told(parser(), arguments)
    try:
        options, sources = options_of(words), sources_of(words)
        check_output(words.output or words.into, [path for path, _ in sources])
    except ValueError as fault:
        print("cqa load: %s" % fault, file=sys.stderr)
        return 2
    if words.into:
        return _added(words, options, sources)
    try:
        lists = _written(options, sources, words.output)
    except LoadFault:
        return _nothing()
    for note in lists.notes():
        print("cqa load: %s" % note, file=sys.stderr)
    for name, count in options.decimals.items():
        print("cqa load: " + stored_note(word_of(name), count), file=sys.stderr)
    for count_of_keys in lists.shared():
        print("cqa load: %s" % count_of_keys, file=sys.stderr)
    parts = " (%s)" % ", ".join("%s %d" % (one.source or one.path, one.records) for one in lists.origins) if len(lists.origins) > 1 else ""
    print("cqa load: %s, %s%s" % (_shown(lists.schema()), _records(lists.records), parts), file=sys.stderr)
    return 0


def _nothing() -> int:
    print("cqa load: nothing is written", file=sys.stderr)
    return 1


def _written(options: ListOptions, sources: Sequence[Source], output: Optional[str]) -> Lists:
    """Writes the script to a file or to standard output. Raises LoadFault where a list has a fault, which then is told."""
    with written(output) if output else standard_output() as out:
        lists = load_script(options, sources, out, lambda fault: print(fault, file=sys.stderr))
        if lists is None:
            raise LoadFault([])
        out.flush()
        return lists


def _added(words: argparse.Namespace, options: ListOptions, sources: Sequence[Source]) -> int:
    """Takes lists into the table of a script, and keeps all tables in its file, or in that of -o."""
    session = loaded([words.into])
    if session is None:
        return _nothing()
    with session, warnings.catch_warnings(record=True) as noted:
        warnings.simplefilter("always")
        try:
            if session.schema(options.table) is None:
                raise ValueError("%s makes no table %s" % (words.into, options.table))
            rows = session.load_lists(options, sources)
            session.save(words.output or words.into)
        except LoadFault as fault:
            print("\n".join(fault.faults), file=sys.stderr)
            return _nothing()
        except (ValueError, Refused) as fault:
            print("cqa load: %s" % fault, file=sys.stderr)
            return _nothing()
        kept = session.schema(options.table)
    for note in noted:
        if issubclass(note.category, LoadWarning):
            print("cqa load: %s" % note.message, file=sys.stderr)
    assert kept is not None
    print("cqa load: %s, %d new rows" % (_shown(kept), rows), file=sys.stderr)
    return 0


def _records(count: int) -> str:
    return "1 record" if count == 1 else "%d records" % count


def _shown(schema: Schema) -> str:
    columns = ", ".join("%s %s" % item for item in schema.columns.items())
    return "%s (%s) by %s" % (schema.table, columns, ", ".join(schema.key))
