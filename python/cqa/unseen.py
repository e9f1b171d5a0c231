"""Signs that nobody sees: blanks at the ends of a text, letters without a look, and accents that stand apart from their letter."""

from __future__ import annotations

import re
import unicodedata
from typing import Dict, List, Sequence, Tuple

_ENDS = (" \n", "\n ", "\t\n", "\n\t")
_WITHOUT_LOOK = re.compile("[\x01-\x08\x0b\x0c\x0e-\x1f\x7f-\xa0\xad\u061c\u1680\u180e\u2000-\u200f\u2028-\u202f\u205f-\u206f\u3000\ufeff]")
_PICTURES = {0x7F: "\u2421", **{code: chr(0x2400 + code) for code in range(0x20) if code not in (0x09, 0x0A)}}

_BLANK = "a blank at an end"
_SIGN = "a sign that nobody sees"
_APART = "an accent apart from its letter"
_SAID = {
    _BLANK: "such a text differs from the one without; --strip takes blanks off",
    _SIGN: "such a text differs from the one without",
    _APART: "such a text differs from the one with both as one letter",
}


def is_seen(text: str) -> bool:
    """Whether each letter of a text has a look of its own; blanks at its ends may be overlooked."""
    return text.isprintable() and (text.isascii() or unicodedata.is_normalized("NFC", text))


def seen(text: str) -> str:
    """A text with marks for what nobody sees: a picture of a blank or a tab at an end and of a control byte, and the number of a
    letter without a look, as \\u200b, or of an accent that stands apart."""
    if is_seen(text) and text == text.strip(" "):
        return text
    inner = text.strip(" \t")
    begin = len(text) - len(text.lstrip(" \t"))
    ends = text[:begin], text[begin + len(inner):]
    first, last = (end.replace(" ", "\u2423").replace("\t", "\u2409") for end in ends)
    is_joined = unicodedata.is_normalized("NFC", inner)
    return first + "".join(_mark(letter, is_joined) for letter in inner.translate(_PICTURES)) + last


def _mark(letter: str, is_joined: bool) -> str:
    if _WITHOUT_LOOK.match(letter) or not is_joined and unicodedata.combining(letter):
        return "\\u%04x" % ord(letter)
    return letter


class Unseen:
    """What nobody sees in the fields of a column: how many have it, and where the first one is."""

    def __init__(self) -> None:
        self._found: Dict[str, Tuple[int, str, str]] = {}

    def look(self, fields: Sequence[str], joined: str, where: Sequence[int], path: str) -> None:
        """Looks at the fields of a piece of a list. joined: they, with a line feed behind each. where: the line of each."""
        is_plain = joined.replace("\n", "").isprintable() and (joined.isascii() or unicodedata.is_normalized("NFC", joined))
        if is_plain and joined[:1] not in " \t" and not any(end in joined for end in _ENDS):
            return
        for at, field in enumerate(fields):
            for cause in _causes(field):
                count, first, place = self._found.get(cause, (0, field, "%s:%d" % (path, where[at])))
                self._found[cause] = count + 1, first, place

    def notes(self, name: str) -> List[str]:
        """What is good to know of it."""
        return ["%s: %s in %d field%s, as %s in %s; %s"
                % (name, cause, count, "" if count == 1 else "s", seen(first[:40]), place, _SAID[cause]) for cause, (count, first, place) in self._found.items()]


def _causes(field: str) -> List[str]:
    causes = [_BLANK] if field != field.strip(" \t") else []
    causes += [_SIGN] if _WITHOUT_LOOK.search(field) else []
    return causes + ([] if unicodedata.is_normalized("NFC", field) else [_APART])
