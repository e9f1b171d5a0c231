"""Lists made a script, and the command `load`."""

from __future__ import annotations

import argparse
import re
import shutil
import tempfile
from dataclasses import replace
from typing import IO, Callable, Dict, List, Optional, Sequence, Tuple

from .blocks import create_text
from .lists import Lists
from .marks import Marks
from .options import Form, ListOptions, word_of
from .origins import origin_text
from .scripts import Schema

#: A list and what its rows have in the column of sources; None where there is no such column.
Source = Tuple[str, Optional[str]]

_PIECE = 1 << 20
_MOST_INPUT = 268_435_456


def load_script(options: ListOptions, sources: Sequence[Source], out: IO[bytes], fault: Callable[[str], None],
                there: Optional[Schema] = None) -> Optional[Lists]:
    """Writes the script that loads lists to a file, where none of them has a fault; `fault` is told of each.

    there: the table, if it is there already; then the script has no `create`. None is given where there are faults, and then
    nothing is written. The lists are read once, and no row is kept in memory.
    """
    with tempfile.TemporaryFile() as blocks:
        lists = Lists(options, blocks, fault, there, len(sources) > 1)
        try:
            for path, source in sources:
                lists.add(path, source)
            lists.end()
            lists.finish_blocks()
        except OSError as wrong:
            raise OSError(wrong.errno, "%s, in the folder of temporary files" % wrong.strerror, tempfile.gettempdir()) from None
        if lists.faults:
            return None
        places = {(options.table, word_of(name)): count for name, count in options.decimals.items()}
        times = {(options.table, name): form for name, form in lists.times().items()}
        head = Marks(places, times, {options.table: options.source_column} if sources[0][1] is not None else {}).text()
        head += origin_text(options.table, lists.origins) + ("" if there else create_text(lists.schema()))
        size = blocks.tell() + len(head.encode("utf-8", "replace"))
        if size > _MOST_INPUT:
            lists.tell(options.table, None, "%d bytes of records, and a script has at most 268,435,456" % size)
            return None
        out.write(head.encode("utf-8", "replace"))
        blocks.seek(0)
        shutil.copyfileobj(blocks, out, _PIECE)
        return lists


def parser() -> argparse.ArgumentParser:
    """The words of `load`."""
    words = argparse.ArgumentParser(
        prog="cqa load", description="CSV lists with header lines as one script of cqa. With a fault in a list nothing is written.",
        epilog="Where one list is written otherwise than the others, NAME= says which: its source, or the list itself where it has none, as "
               "in --skip shop=2. "
               "Example: cqa load --table customer --key id --source shop=shop.csv --source crm=crm.csv -o load.cqa")
    words.add_argument("files", nargs="*", metavar="LIST", help="a list without a source")
    words.add_argument("--table", required=True, help="the table's name")
    words.add_argument("--key", default="", help="the columns of its key: id or id,day; with --into that of the table")
    words.add_argument("--source", action="append", default=[], metavar="NAME=LIST",
                       help="a list, and what its rows have in the column of sources")
    words.add_argument("--source-column", default="source", metavar="NAME", help="what the column of sources is called (source)")
    words.add_argument("--columns", help="the columns that are taken: id,name,city")
    words.add_argument("--rename", action="append", default=[], metavar="OLD=NEW", help="a column that a list calls otherwise")
    words.add_argument("--delimiter", action="append", default=[], metavar="[NAME=]MARK",
                       help="what stands between two fields: else a comma, or what the header has in its place; tab is written \\t")
    words.add_argument("--encoding", action="append", default=[], metavar="[NAME=]ENCODING",
                       help="the lists' encoding, such as latin-1 (utf-8 where it isn't told); a list that is UTF-8 is read so; under mixed what isn't UTF-8 is Latin-1")
    words.add_argument("--decimal", action="append", default=[], metavar="COLUMN:PLACES",
                       help="a column of numbers with so many places, stored as ints, as which statements speak of them")
    words.add_argument("--decimal-mark", action="append", default=[], metavar="[NAME=]MARK", help="the mark before the places: . or , (.)")
    words.add_argument("--date", action="append", default=[], metavar="[NAME=]COLUMN=ORDER",
                       help="a column of dates that the lists write in the order DMY, MDY or YMD, stored as 2026-03-01")
    words.add_argument("--time", action="append", default=[], metavar="COLUMN",
                       help="a column of dates, or of times in UTC, all in one form")
    words.add_argument("--text", action="append", default=[], metavar="COLUMN",
                       help="a column that is text, even where it holds numbers alone")
    words.add_argument("--missing", choices=["refuse", "keep", "drop"], default="refuse",
                       help="an empty field outside the key is a fault (refuse), the text '' (keep), or its record is left out (drop)")
    words.add_argument("--strip", action="store_true", help="blanks at the ends of fields are left out, and a line feed within one is LF")
    words.add_argument("--null", action="append", default=[], metavar="WORD", help="a word that stands for an empty field, as NULL")
    words.add_argument("--skip", action="append", default=[], metavar="[NAME=]N", help="how many lines stand above the header (0)")
    words.add_argument("--strict", action="store_true", help="the table takes no two rows of one key")
    words.add_argument("--into", metavar="FILE", help="a script, or a state, whose table takes the lists too: the file is written anew with all of its tables, or -o names another")
    words.add_argument("-o", "--output", metavar="FILE", help="the script's file, in place of standard output")
    return words


def options_of(words: argparse.Namespace) -> ListOptions:
    """The options that the words tell. Raises ValueError where they tell none."""
    decimals = {}
    for decimal in words.decimal:
        name, _, places = decimal.rpartition(":")
        if not name or not places.isdigit() or int(places) > 18:
            raise ValueError("--decimal wants COLUMN:PLACES, with at most 18 places, and not %s" % decimal)
        decimals[name] = int(places)
    renamed = dict(pair.partition("=")[::2] for pair in words.rename)
    form, forms = _forms_of(words)
    if not words.key and not words.into:
        raise ValueError("--key names the columns of the key: --key id, or --key id,day")
    return ListOptions(words.table, words.key.split(",") if words.key else [], words.columns.split(",") if words.columns else None, decimals,
                       words.time, words.text, form.delimiter, form.encoding, renamed, form.decimal_mark, words.missing, words.strict,
                       words.source_column, words.strip, form.skip, forms, form.dates, words.null)


def _forms_of(words: argparse.Namespace) -> Tuple[Form, Dict[str, Form]]:
    """How lists are written, and how those are of which NAME=.. tells it apart."""
    names = [pair.partition("=")[0] for pair in words.source] + words.files
    whole = Form()
    apart: List[Tuple[str, str, str]] = []
    for option in ("delimiter", "encoding", "decimal_mark", "skip", "date"):
        for word in getattr(words, option):
            name = next((name for name in names if word.startswith(name + "=") and (option != "date" or word.count("=") > 1)), None)
            if name is None:
                whole = _with(whole, option, word)
            else:
                apart.append((name, option, word[len(name) + 1:]))
    forms: Dict[str, Form] = {}
    for name, option, value in apart:
        forms[name] = _with(forms.get(name, whole), option, value)
    return whole, forms


def _with(form: Form, option: str, value: str) -> Form:
    """A form of which a word tells one part."""
    if option == "delimiter":
        return replace(form, delimiter="\t" if value in ("\\t", "tab") else value)
    if option == "encoding":
        return replace(form, encoding=value)
    if option == "decimal_mark":
        return replace(form, decimal_mark=value)
    if option == "date":
        column, _, order = value.partition("=")
        if not re.fullmatch("DMY|MDY|YMD", order):
            raise ValueError("--date wants COLUMN=DMY, MDY or YMD, or NAME=COLUMN=DMY for the list of one source, and not %s" % value)
        return replace(form, dates={**form.dates, word_of(column): order})
    if not value.isdigit():
        raise ValueError("--skip wants a number of lines, as 1, or NAME=1 for the list of one source, and not %s" % value)
    return replace(form, skip=int(value))


def sources_of(words: argparse.Namespace) -> List[Source]:
    """The lists in the order that the words tell. Raises ValueError where some have a source and others none."""
    sources: List[Source] = []
    for pair in words.source:
        name, is_given, path = pair.partition("=")
        if not is_given or not name or not path or "\n" in name or len(name.encode()) > 1024:
            raise ValueError("--source wants NAME=LIST, and not %s" % pair)
        sources.append((path, name))
    if sources and words.files:
        raise ValueError("each list has a source or none has: --source NAME=%s" % words.files[0])
    if not sources and not words.files:
        raise ValueError("no list is named: --source NAME=LIST, or LIST")
    return sources or [(path, None) for path in words.files]
