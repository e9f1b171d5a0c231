"""How lists become a table: what is told, and headers as names of the language."""

from __future__ import annotations

import re
import unicodedata
from dataclasses import dataclass, field, replace
from typing import Dict, List, Mapping, Optional, Sequence, Set, Tuple, TypeVar, Union

MOST_NAME = 64
_NAME = re.compile(r"[A-Za-z_][A-Za-z0-9_]*")
_PLAIN_LETTERS = str.maketrans(
    {"æ": "ae", "ø": "o", "å": "a", "ß": "ss", "đ": "d", "ð": "d", "þ": "th", "ł": "l", "œ": "oe", "ı": "i"})


@dataclass(frozen=True)
class Form:
    """How a list is written.

    delimiter: what stands between two fields; where it isn't told, that of the header line. encoding: one with a byte order mark of
    UTF-8 is UTF-8; under "mixed" what isn't UTF-8 is Latin-1. decimal_mark: "." or ",". skip: the number of lines above the header.
    dates: in which order the dates of a column are written, "DMY", "MDY" or "YMD".
    """

    delimiter: str = ""
    encoding: str = "utf-8"
    decimal_mark: str = "."
    skip: int = 0
    dates: Mapping[str, str] = field(default_factory=dict)

    def __post_init__(self) -> None:
        """Raises ValueError where a part tells nothing."""
        if len(self.delimiter) > 1 or self.delimiter and self.delimiter in '"\r\n':
            raise ValueError("the delimiter is one letter, and not %r" % self.delimiter)
        if self.decimal_mark not in (".", ","):
            raise ValueError("the decimal mark is . or , and not %r" % self.decimal_mark)
        for name, order in self.dates.items():
            if order not in ("DMY", "MDY", "YMD"):
                raise ValueError("the order of the dates of %s is DMY, MDY or YMD, and not %r" % (name, order))


@dataclass(frozen=True)
class ListOptions:
    """How lists become a table.

    table: its name. key: the columns of its key. columns: those that are taken, all where None. decimals: the number of places
    by column. times, texts: the columns that are one. delimiter: what stands between two fields; where it isn't told, that of the
    header line. encoding: how the lists are written; one with a byte order mark of UTF-8 is UTF-8. renamed: the names of columns by
    those that lists have. decimal_mark: "." or ",".
    missing: what becomes of a record with an empty field outside the key: "refuse", "keep" (the empty text is a value) or "drop".
    source_column: the name of the column that says from which list a row is. strip: whether blanks at the ends of fields are left out.
    skip: the number of lines above the header. forms: how lists are written that aren't written so, by their sources, or else by their
    paths. dates: in which order dates are written, by column. nulls: words that stand for an empty field.
    """

    table: str
    key: Sequence[str]
    columns: Optional[Sequence[str]] = None
    decimals: Mapping[str, int] = field(default_factory=dict)
    times: Sequence[str] = ()
    texts: Sequence[str] = ()
    delimiter: str = ""
    encoding: str = "utf-8"
    renamed: Mapping[str, str] = field(default_factory=dict)
    decimal_mark: str = "."
    missing: str = "refuse"
    strict: bool = False
    source_column: str = "source"
    strip: bool = False
    skip: int = 0
    forms: Mapping[str, Form] = field(default_factory=dict)
    dates: Mapping[str, str] = field(default_factory=dict)
    nulls: Sequence[str] = ()

    def form_of(self, path: str, source: Optional[str]) -> Form:
        """How a list is written."""
        return self.forms.get(path if source is None else source) or self._form()

    def _form(self) -> Form:
        return Form(self.delimiter, self.encoding, self.decimal_mark, self.skip, self.dates)

    def dated(self) -> Set[str]:
        """The columns whose dates are turned round, as names of the language."""
        return {word_of(name) for form in (self._form(), *self.forms.values()) for name in form.dates}

    def __post_init__(self) -> None:
        """Raises ValueError where an option tells nothing."""
        self._form()
        names = [("table", self.table), ("source column", self.source_column), *(("new name", new) for new in self.renamed.values())]
        for what, name in names:
            if not _NAME.fullmatch(name) or len(name) > MOST_NAME:
                raise ValueError("the %s %r is no name: letters, digits and _ are wanted" % (what, name))
            if name == "primary":
                raise ValueError("the %s %r is no name: it begins `primary key`" % (what, name))
        for what, listed in (("key", self.key), ("columns", self.columns or ())):
            words = list(map(word_of, listed))
            twice = next((word for at, word in enumerate(words) if word in words[:at]), None)
            if twice is not None:
                raise ValueError("the %s name%s %s twice" % (what, "s" if what == "key" else "", twice))
        for name, places in self.decimals.items():
            if not isinstance(places, int) or not 0 <= places <= 18:
                raise ValueError("%s: a number of places from 0 to 18 is wanted, and not %r" % (name, places))
        if self.missing not in ("refuse", "keep", "drop"):
            raise ValueError("missing is refuse, keep or drop, and not %r" % self.missing)


Value = TypeVar("Value")
#: A value for all lists of a call, or one for each of some lists, by their names.
ByList = Union[Value, Mapping[str, Value]]


def forms_by_list(names: Sequence[str], delimiter: ByList[str], encoding: ByList[str], decimal_mark: ByList[str], skip: ByList[int],
                  dates: Mapping[str, ByList[str]]) -> Tuple[Form, Dict[str, Form]]:
    """How lists are written, and how those are of which an option tells it apart. names: what options call the lists. dates: the
    order of dates by column. Raises ValueError where no list is called so."""
    told: List[Tuple[str, object]] = [("delimiter", delimiter), ("encoding", encoding), ("decimal_mark", decimal_mark), ("skip", skip)]
    whole, apart = Form(), {name: Form() for name in names}
    for option, value in told:
        for name in value if isinstance(value, Mapping) else ():
            if name not in apart:
                raise ValueError("%s: no list is called %r; there %s %s" % (option, name, "is" if len(names) == 1 else "are", ", ".join(names)))
        if not isinstance(value, Mapping):
            whole = replace(whole, **{option: value})
        apart = {name: replace(form, **{option: value[name]}) if isinstance(value, Mapping) and name in value
                 else replace(form, **{option: getattr(whole, option)}) for name, form in apart.items()}
    orders = {word_of(column): order for column, order in dates.items()}
    whole = replace(whole, dates={column: order for column, order in orders.items() if isinstance(order, str)})
    apart = {name: replace(form, dates={column: order if isinstance(order, str) else order.get(name, "YMD") for column, order in orders.items()})
             for name, form in apart.items()}
    return whole, apart


def word_of(header: str) -> str:
    """A header as a name of the language: `Full Name` is full_name. Empty where nothing of it is left."""
    plain = unicodedata.normalize("NFKD", header.strip().lower().translate(_PLAIN_LETTERS))
    word = re.sub(r"[^a-z0-9]+", "_", "".join(letter for letter in plain if not unicodedata.combining(letter))).strip("_")
    return "c_" + word if word[:1].isdigit() else "primary_" if word == "primary" else word
