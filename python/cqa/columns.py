"""The columns of a list: what kind each has, how its fields are written, and what is wrong with them."""

from __future__ import annotations

import csv
import datetime
import functools
import re
from typing import Callable, List, Optional, Sequence, Tuple

from .options import Form
from .unseen import Unseen
from .writing import NULL_WORDS, Writing, shown_word

#: A fault or a note about the field of a record: the record's place in the piece, and what to say.
Say = Callable[[int, str], None]

LONGEST_TEXT = 1024
_LEAST, _GREATEST = -(2 ** 63), 2 ** 63 - 1
_INT = re.compile(r"0|-?[1-9][0-9]*")
_SHORT_INTS = re.compile(r"(?:(?:0|-?[1-9][0-9]{0,17})\n)*")
_NUMBER = re.compile(r"[+-]?(?:[0-9]+(?:\.[0-9]*)?|\.[0-9]+)")
_DATE = re.compile(r"([0-9]{1,4})([-./]) ?([0-9]{1,2})\2 ?([0-9]{1,4})")
_TIME = re.compile(r"([0-9]{4}-[0-9]{2}-[0-9]{2})(?:T([0-9]{2}):([0-9]{2})(?::([0-9]{2})(\.[0-9]{1,9})?)?Z)?")

_DROP = ", so that --missing keep doesn't fit the column: --missing drop leaves the record out"

_CSV_FAULTS = (
    ("unexpected end of data", "a quote is opened here and never closed"),
    ("expected after", "something stands behind a closing quote"),
    ("field larger than field limit", "a field has more than 131,072 letters, as where a quote is opened and not closed"),
    ("NUL", "a zero byte; is the list UTF-16?"),
)


def scaled(number: str, places: int) -> Optional[int]:
    """A number with places as the int that is stored for it, or None where it is no number, or has more places.

    Whether it is in the range of int is for the caller to see.
    """
    if not _NUMBER.fullmatch(number):
        return None
    whole, _, fraction = number.partition(".")
    if len(fraction.rstrip("0")) > places:
        return None
    return int(whole + fraction[:places].ljust(places, "0")) if len(number) <= 400 else None


def is_in_range(number: int) -> bool:
    """Whether an int of the language has the value."""
    return _LEAST <= number <= _GREATEST


def csv_fault(fault: csv.Error) -> str:
    """What is wrong with a record that can't be read, in words that say what to mend."""
    return next((text for part, text in _CSV_FAULTS if part in str(fault)), str(fault))


class Column:
    """A column whose kind is found: int where each field is an integer as cqa writes it, else text."""

    def __init__(self, name: str, is_there: bool = False) -> None:
        """is_there: whether a table has the column already, as int."""
        self.name = name
        self.kind = "int"
        self.note = ""
        self._mixes = is_there
        self._too_great: List[Tuple[str, int, str]] = []
        self._unseen = Unseen()
        self._writing = Writing()

    def begin(self, form: Form, name: str) -> None:
        """Begins a list. form: how it is written. name: what options call it."""
        self._writing.begin(name, form.encoding)

    def take(self, fields: Sequence[str], where: Sequence[int], path: str, say: Say) -> Sequence[str]:
        """Looks at the fields of a piece of a list and gives what is written for them.

        where: the line of each field's record. path: the list's name. say: told of each fault.
        """
        joined = "\n".join(fields) + "\n"
        _check_text(self.name, fields, joined, say)
        if self.kind == "int" and not (_SHORT_INTS.fullmatch(joined) and joined.count("\n") == len(fields)):
            self._find_kind(fields, where, path)
        if self.kind == "text":
            self._unseen.look(fields, joined, where, path)
            self._writing.look(fields, joined, where, path)
        else:
            self._writing.are_numbers()
        self._mixes = True
        return fields

    def _find_kind(self, fields: Sequence[str], where: Sequence[int], path: str) -> None:
        for at, field in enumerate(fields):
            if not _INT.fullmatch(field):
                self.kind = "text"
                if self._mixes or at:
                    shown = "an empty field" if not field else repr(field)
                    self.note = "%s is text, because of %s in %s:%d" % (self.name, shown, path, where[at])
                return
            if not _LEAST <= int(field) <= _GREATEST:
                self._too_great.append((path, where[at], field))

    def notes(self) -> List[str]:
        """What is good to know of the column."""
        return self._kind_notes() + self._unseen.notes(self.name)

    def _kind_notes(self) -> List[str]:
        if self.kind != "text":
            return []
        notes = self._writing.notes(self.name)
        is_told = any(note.startswith(self.name + " holds ") for note in notes)
        return notes if is_told or not self.note else [self.note, *notes]

    def faults(self) -> List[Tuple[str, int, str]]:
        """What is wrong with the column once all lists are read: the list, the line, and what to say."""
        if self.kind != "int":
            return []
        return [(path, line, "%s: %s is out of the range of int, 64 bits; --text %s takes the column as text"
                 % (self.name, _shortened(field), self.name)) for path, line, field in self._too_great]


class TextColumn(Column):
    """A column that is text whatever its fields are."""

    def __init__(self, name: str) -> None:
        super().__init__(name)
        self.kind = "text"
        self._writing = Writing(is_free=False)


class DecimalColumn(Column):
    """A column of numbers with a fixed number of places, stored as ints: 900.5 with two places is 90050."""

    def __init__(self, name: str, places: int) -> None:
        super().__init__(name)
        self._places = places
        self._mark = "."
        self._zeros = ["0" * (places - count) for count in range(places + 1)]

    def begin(self, form: Form, name: str) -> None:
        self._mark = form.decimal_mark

    def take(self, fields: Sequence[str], where: Sequence[int], path: str, say: Say) -> Sequence[str]:
        return [self._scaled(at, field, say) for at, field in enumerate(fields)]

    def _scaled(self, at: int, field: str, say: Say) -> str:
        whole, mark, places = field.partition(self._mark)
        count = len(places)
        is_plain = whole.isdecimal() and field.isascii() and (places.isdecimal() or not mark)
        if is_plain and count <= self._places and len(whole) + self._places <= 18:
            return str(int(whole + places + self._zeros[count]))
        return self._scaled_with_care(at, field, say)

    def _scaled_with_care(self, at: int, field: str, say: Say) -> str:
        is_pointed = self._mark == "," and "." in field
        number = field.replace(",", ".") if self._mark == "," and not is_pointed else field
        value = None if is_pointed else scaled(number, self._places)
        if value is None:
            say(at, "%s: %s %s" % (self.name, _shown(field), self._cause(number)))
        elif not is_in_range(value):
            say(at, "%s: %s is out of range" % (self.name, _shown(field)))
        return str(value)


    def _cause(self, number: str) -> str:
        """Why a field isn't taken: the number that it is, with a point before its places."""
        if self._mark == "," and "." in number and _NUMBER.fullmatch(number):
            return "has a point, and the mark before the places is a comma"
        if self._mark == "." and "," in number and _NUMBER.fullmatch(number.replace(",", ".", 1)):
            return "has a comma: --decimal-mark , takes it as the mark before the places"
        if not number:
            return "is no number" + _DROP
        if number in NULL_WORDS:
            return "is no number" + _null_hint(number)
        most = "%d place%s" % (self._places, "" if self._places == 1 else "s")
        return "has more than " + most if _NUMBER.fullmatch(number) else "is no number"


class TimeColumn(TextColumn):
    """A column of dates or of times in UTC, as 2026-03-01, 2026-03-01T00:10Z or 2026-03-01T00:10:00.5Z, all of one form, so that
    their order as texts is their order in time."""

    def __init__(self, name: str) -> None:
        super().__init__(name)
        self._length: Optional[int] = None

    @property
    def form(self) -> str:
        """A time of the form in which all fields are, or nothing where there is none."""
        return "" if self._length is None else time_form(self._length)

    def take(self, fields: Sequence[str], where: Sequence[int], path: str, say: Say) -> Sequence[str]:
        distinct = set(fields)
        if {*map(len, distinct)} <= {self._length} and all(map(is_time, distinct)):
            return fields
        for at, field in enumerate(fields):
            if not is_time(field):
                hint = _DROP if not field else _null_hint(field) if field in NULL_WORDS else "; --date %s=DMY, MDY or YMD turns dates round" % self.name if _DATE.fullmatch(field) else ""
                say(at, "%s: %s is no date, and no time in UTC as 2026-03-01T00:10:00Z%s" % (self.name, _shown(field), hint))
            elif self._length is None:
                self._length = len(field)
            elif len(field) != self._length:
                say(at, "%s: %s is written in another form than the column's first" % (self.name, _shown(field)))
        return fields


class DateColumn(TextColumn):
    """A column of dates that lists write in an order of their own, as 1.3.2026 or 03/01/2026: 2026-03-01 is stored."""

    def __init__(self, name: str) -> None:
        super().__init__(name)
        self._order = "YMD"

    @property
    def form(self) -> str:
        """A date of the form in which all are stored."""
        return time_form(len("2026-03-01"))

    def begin(self, form: Form, name: str) -> None:
        self._order = form.dates.get(self.name, "YMD")

    def take(self, fields: Sequence[str], where: Sequence[int], path: str, say: Say) -> Sequence[str]:
        turned = []
        for at, field in enumerate(fields):
            date = turned_date(field, self._order)
            if date is None:
                hint = _DROP if not field else _null_hint(field) if field in NULL_WORDS else ""
                say(at, "%s: %s is no date %s%s" % (self.name, _shown(field), _ORDERS[self._order], hint))
            turned.append(date or "")
        return turned


@functools.lru_cache(maxsize=100_000)
def turned_date(field: str, order: str) -> Optional[str]:
    """A date that is written in an order, DMY, MDY or YMD, as 2026-03-01; one that begins with a year of four digits is so in any
    order. None where it is no such date."""
    found = _DATE.fullmatch(field)
    if found is None:
        parts = (field[:4], field[4:6], field[6:]) if order == "YMD" and re.fullmatch("[0-9]{8}", field) else None
    elif len(found[1]) == 4:
        parts = found[1], found[3], found[4]
    else:
        parts = (found[4], found[3], found[1]) if order == "DMY" else (found[4], found[1], found[3]) if order == "MDY" else None
    if parts is None or len(parts[0]) != 4 or max(len(parts[1]), len(parts[2])) > 2:
        return None
    date = "%s-%02d-%02d" % (parts[0], int(parts[1]), int(parts[2]))
    return date if _is_date(date) else None


#: How dates are written in each order.
_ORDERS = {"DMY": "with the day first and a year of four digits, as 28.2.2026", "MDY": "with the month first and a year of four digits, as 2/28/2026",
           "YMD": "with the year first, as 2026/2/28 or 20260228"}


@functools.lru_cache(maxsize=100_000)
def _is_date(field: str) -> bool:
    try:
        datetime.date(int(field[:4]), int(field[5:7]), int(field[8:10]))
    except ValueError:
        return False
    return True


def is_time(field: str) -> bool:
    """Whether a field is a date or a time in UTC."""
    found = _TIME.fullmatch(field)
    if found is None or not _is_date(found[1]):
        return False
    return found[2] is None or (int(found[2]) < 24 and int(found[3]) < 60 and int(found[4] or 0) < 60)


def time_form(length: int) -> str:
    """A time of the form that has so many letters."""
    return {10: "2026-03-01", 17: "2026-03-01T00:10Z"}.get(length, "2026-03-01T00:10:00%sZ" % ("." + "0" * (length - 21))[:length - 20])


def _check_text(name: str, fields: Sequence[str], joined: str, say: Say) -> None:
    """Says which fields are too long for a text, aren't in the list's encoding, or hold a zero byte."""
    if joined.isascii() and "\0" not in joined and max(map(len, fields)) <= LONGEST_TEXT:
        return
    are_mixed = any("\x80" <= letter < "\udc80" for letter in joined)
    for at, field in enumerate(fields):
        try:
            length = len(field.encode("utf-8"))
        except UnicodeEncodeError as fault:
            say(at, "%s: the byte 0x%02X isn't UTF-8; --encoding says how the list is written, as latin-1%s"
                % (name, ord(field[fault.start]) & 0xFF, "; other letters are UTF-8, and mixed reads both" if are_mixed else ""))
            continue
        if length > LONGEST_TEXT:
            say(at, "%s: a text of %d bytes, and the most are 1,024" % (name, length))
        if "\0" in field:
            say(at, "%s: a zero byte; is the list UTF-16?" % name)


def _null_hint(word: str) -> str:
    return ": --null %s takes it as an empty field" % shown_word(word)


def _shortened(field: str) -> str:
    return field if len(field) <= 40 else field[:37] + "..."


def _shown(field: str) -> str:
    return "an empty field" if not field else repr(_shortened(field))
