"""How lists write the fields of a column: marks in numbers, forms of dates, words for what is missing, line feeds, encodings.

Two lists that write the same value in two ways are in conflict, or don't meet; what is found here is told with the option that mends it.
"""

from __future__ import annotations

import re
from typing import Dict, List, NamedTuple, Optional, Sequence, Set, Tuple

#: The words that lists write where nothing is known.
NULL_WORDS = frozenset(("NULL", "Null", "null", "N/A", "n/a", "#N/A", "NA", "\\N", "nil", "None", "NaN", "nan", "(null)", "<NA>"))

_NUMBERS = re.compile(r"(?:[+-]?(?:0|[1-9][0-9]*)(?:[.,][0-9]+)?\n)*")
_MARKED = re.compile(r"([.,])([0-9]+)")
_DATES = re.compile(r"(?:(?:[0-9]{4}([-./])[0-9]{1,2}\1[0-9]{1,2}|[0-9]{1,2}([-./])[0-9]{1,2}\2[0-9]{4})?\n)*")
_DATE_PARTS = re.compile(r"([0-9]+)([-./])([0-9]+)[-./]([0-9]+)")
_ISO = re.compile(r"[0-9]{4}-[0-9]{2}-[0-9]{2}")
_READ_AS_LATIN = re.compile("[\u00c2-\u00f4][\u0080-\u00bf\u0152\u0153\u0160\u0161\u0178\u017d\u017e\u0192\u02c6\u02dc\u2013-\u2122\u20ac]")


class _First(NamedTuple):
    """How many fields are written so, the first one, and where it stands."""

    number: int
    field: str
    place: str

    def more(self, number: int) -> "_First":
        return self._replace(number=self.number + number)


class _Dates:
    """How a list writes dates: the first one, whether all are as 2026-03-01, and the greatest first and second number of those that
    end with the year."""

    def __init__(self, first: str) -> None:
        self.first = first
        self.are_iso = True
        self.has_year_last = False
        self.most = (0, 0)

    def take(self, dates: Set[str]) -> None:
        """Looks at different dates of a list."""
        for date in dates:
            found = _DATE_PARTS.fullmatch(date)
            if found is None:
                continue
            self.are_iso = self.are_iso and _ISO.fullmatch(date) is not None
            if len(found[1]) < 4:
                self.has_year_last = True
                self.most = max(self.most[0], int(found[1])), max(self.most[1], int(found[3]))

    def order(self) -> str:
        """DMY, MDY or YMD; nothing where the day can't be told from the month, or where neither order fits."""
        if not self.has_year_last:
            return "YMD"
        first, second = self.most
        return "DMY" if first > 12 >= second else "MDY" if second > 12 >= first else ""


class Writing:
    """How the lists of a table write the fields of one column of texts."""

    def __init__(self, is_free: bool = True) -> None:
        """is_free: whether it may be that the column holds numbers, or dates."""
        self._list = ""
        self._is_read_as_latin = False
        self._are_numbers = is_free
        self._are_dates = is_free
        self._marks: Dict[str, List[str]] = {}  # by mark, the lists that have it
        self._most_places = 0
        self._other_places: Set[str] = set()  # the marks that stand before other than three digits somewhere, so that they mark no thousands
        self._dates: Dict[str, _Dates] = {}
        self._nulls: Dict[str, _First] = {}
        self._feeds: Dict[str, _First] = {}
        self._formulas: Optional[_First] = None
        self._signed: Optional[_First] = None
        self._twice: Dict[bool, _First] = {}  # UTF-8 read as Latin-1: by whether the list is read so

    def begin(self, name: str, encoding: str) -> None:
        """Begins a list, which is named so in options."""
        self._list = name
        self._is_read_as_latin = encoding.lower().replace("_", "-") not in ("utf-8", "utf8", "mixed")

    def look(self, fields: Sequence[str], joined: str, where: Sequence[int], path: str) -> None:
        """Looks at the fields of a piece. joined: they, with a line feed behind each. where: the line of each."""
        if self._are_numbers:
            self._look_for_places(joined)
        if self._are_numbers and "+" in joined:
            self._signed = _counted(self._signed, [field.startswith("+") for field in fields], fields, where, path)
        if self._are_dates:
            self._look_for_dates(fields, joined)
        for word in NULL_WORDS.intersection(fields):
            self._nulls[word] = _counted(self._nulls.get(word), [field == word for field in fields], fields, where, path)
        if joined.count("\n") != len(fields):
            for kind, is_so in (("CR LF", [("\r\n" in field) for field in fields]), ("LF", [_has_lone_feed(field) for field in fields])):
                if any(is_so):
                    self._feeds[kind] = _counted(self._feeds.get(kind), is_so, fields, where, path)
        if '="' in joined:
            is_formula = [field.startswith('="') for field in fields]
            if any(is_formula):
                self._formulas = _counted(self._formulas, is_formula, fields, where, path)
        if not joined.isascii() and _READ_AS_LATIN.search(joined):
            is_twice = [is_utf_8_read_as_latin(field) for field in fields]
            if any(is_twice):
                self._twice[self._is_read_as_latin] = _counted(self._twice.get(self._is_read_as_latin), is_twice, fields, where, path)

    def are_numbers(self) -> None:
        """The fields of a piece that isn't looked at are integers: such a column has no dates."""
        self._are_dates = False

    def _look_for_places(self, joined: str) -> None:
        """Sees whether the fields are numbers with places, which marks stand before these, and how many there are."""
        self._are_numbers = _NUMBERS.fullmatch(joined) is not None
        for mark, places in set(_MARKED.findall(joined)) if self._are_numbers else ():
            lists = self._marks.setdefault(mark, [])
            if self._list not in lists:
                lists.append(self._list)
            self._most_places = max(self._most_places, len(places))
            if len(places) != 3:
                self._other_places.add(mark)

    def _look_for_dates(self, fields: Sequence[str], joined: str) -> None:
        self._are_dates = _DATES.fullmatch(joined) is not None
        dates = set(fields) - {""} if self._are_dates else set()
        if dates:
            self._dates.setdefault(self._list, _Dates(min(dates))).take(dates)

    def notes(self, name: str) -> List[str]:
        """What is good to know of a column of texts."""
        return [*self._number_notes(name), *self._sign_notes(name), *self._date_notes(name), *self._word_notes(name)]

    def _number_notes(self, name: str) -> List[str]:
        if not self._are_numbers or not self._marks:
            return []
        thousands = sorted(self._marks.keys() - self._other_places)
        if len(self._marks) == 1:
            mark = " --decimal-mark ," if "," in self._marks else ""
            if thousands:
                return ["%s holds numbers with %s before three digits each time, and is text: where it marks places, --decimal %s:3%s stores them; "
                        "where it marks thousands, take it out of the list first" % (name, thousands[0], name, mark)]
            return ["%s holds numbers and is text, which compares by its bytes: --decimal %s:%d%s stores such numbers with %s"
                    % (name, name, self._most_places, mark, _places(self._most_places))]
        commas, points = self._marks[","], self._marks["."]
        both = [one for one in commas if one in points]
        if both:
            return ["%s holds numbers, with , and with . before the places in the same list, %s: which mark stands before the places?" % (name, both[0])]
        options = " ".join("--decimal-mark %s=," % one for one in commas)
        return ["%s holds numbers, with , before the places in %s and with . in %s, so that equal ones differ: --decimal %s:%d %s stores both with %s%s"
                % (name, " and ".join(commas), " and ".join(points), name, self._most_places, options, _places(self._most_places),
                   "; but if %s marks thousands, as it stands before three digits each time, take it out of the list first" % thousands[0] if thousands else "")]

    def _sign_notes(self, name: str) -> List[str]:
        if not self._are_numbers or self._signed is None:
            return []
        return ["%s: %s written with a sign, as %s in %s, which differs from the number without it: --decimal %s:%d stores both as one"
                % (name, _fields(self._signed.number), self._signed.field, self._signed.place, name, self._most_places)]

    def _date_notes(self, name: str) -> List[str]:
        if not self._are_dates or not self._dates or all(dates.are_iso for dates in self._dates.values()):
            return []
        forms = " and ".join("as %s in %s" % (dates.first, one) for one, dates in self._dates.items())
        orders = {dates.order() for dates in self._dates.values()} - {"YMD"}
        said = "%s holds dates, %s, and is text, which compares by its bytes: " % (name, forms)
        if "" in orders:
            return [said + "--date %s=DMY turns round those that begin with the day, and --date %s=MDY those that begin with the month" % (name, name)]
        if len(orders) < 2:
            return [said + "--date %s=%s stores all as 2026-03-01" % (name, "".join(orders) or "YMD")]
        options = " ".join("--date %s=%s=%s" % (one, name, dates.order()) for one, dates in self._dates.items() if not dates.are_iso)
        return [said + options + " stores all as 2026-03-01"]

    def _word_notes(self, name: str) -> List[str]:
        notes = ["%s: %s in %s, as in %s, is a value like others: --null %s takes it as an empty field"
                 % (name, word, _fields(one.number), one.place, shown_word(word)) for word, one in sorted(self._nulls.items())]
        if len(self._feeds) > 1:
            notes.append("%s: lines within a field end with CR LF in %s, as in %s, and with LF in %s, as in %s: --strip makes all of them LF"
                         % (name, _fields(self._feeds["CR LF"].number), self._feeds["CR LF"].place, _fields(self._feeds["LF"].number), self._feeds["LF"].place))
        if self._formulas:
            notes.append("%s: %s written as for a spreadsheet, as %s in %s; such a text differs from the one without"
                         % (name, _fields(self._formulas.number), self._formulas.field, self._formulas.place))
        for is_read_so, one in self._twice.items():
            mend = "--encoding mixed reads them as UTF-8, and others as Latin-1" if is_read_so else "it was written so into the list: mend it where the list comes from"
            notes.append("%s: %s of UTF-8 read as Latin-1, as %s in %s; %s" % (name, _fields(one.number), one.field, one.place, mend))
        return notes


def is_utf_8_read_as_latin(field: str) -> bool:
    """Whether a text is what UTF-8 looks like when it is read as Latin-1, as `MÃ¼ller`."""
    if not _READ_AS_LATIN.search(field):
        return False
    for encoding in ("latin-1", "cp1252"):
        try:
            return not field.encode(encoding).decode("utf-8").isascii()
        except UnicodeError:
            continue
    return False


def _counted(known: Optional[_First], is_so: Sequence[bool], fields: Sequence[str], where: Sequence[int], path: str) -> _First:
    """What is known of fields that are written in some way, with those of a piece, of which one is at least."""
    if known is not None:
        return known.more(sum(is_so))
    at = is_so.index(True)
    return _First(sum(is_so), fields[at][:40].replace("\r", "\\r").replace("\n", "\\n"), "%s:%d" % (path, where[at]))


def _has_lone_feed(field: str) -> bool:
    return field.count("\n") > field.count("\r\n")


def _fields(count: int) -> str:
    return "1 field" if count == 1 else "%d fields" % count


def _places(count: int) -> str:
    return "1 place" if count == 1 else "%d places" % count


def shown_word(word: str) -> str:
    """A word as it is written in a command of the shell."""
    return word if re.fullmatch(r"[A-Za-z/]+", word) else "'%s'" % word
