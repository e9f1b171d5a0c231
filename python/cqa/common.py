"""What the lists of a table have in common: how many keys stand in two of them, and which are written in two ways."""

from __future__ import annotations

import re
import unicodedata
from collections import Counter
from itertools import combinations
from typing import Callable, Dict, Iterable, List, NamedTuple, Sequence, Tuple, Union

Key = Union[str, Tuple[str, ...]]

_MOST_PAIRS = 10
#: Lists share few keys where the smaller one has this many times as many.
_FEW = 20
_ZEROS = re.compile(r"(?<![0-9])0+(?=[0-9])")
_NO_LETTERS = re.compile(r"(?!\A-[0-9])[\W_]+")


def _without_blanks(text: str) -> str:
    return "".join(text.split())


def _without_zeros(text: str) -> str:
    return _ZEROS.sub("", text)


def _without_case(text: str) -> str:
    return unicodedata.normalize("NFKC", text).casefold()


def _without_punctuation(text: str) -> str:
    return _NO_LETTERS.sub("", text)


#: What two ways to write a key may differ in, and how a text is had without it.
_WAYS: Tuple[Tuple[str, Callable[[str], str]], ...] = (
    ("blanks", _without_blanks), ("leading zeros", _without_zeros), ("case", _without_case), ("punctuation", _without_punctuation))


class Shared(NamedTuple):
    """Two lists, how many keys each has, and how many stand in both."""

    one: str
    other: str
    of_one: int
    of_other: int
    in_both: int

    @property
    def is_few(self) -> bool:
        """Whether they share none of their keys, or few."""
        return self.in_both * _FEW < min(self.of_one, self.of_other)


class KeysOfLists:
    """Which keys stand in which lists."""

    def __init__(self) -> None:
        self._names: List[str] = []
        self._bit = 0
        self._lists: Dict[Key, int] = {}  # by key, a bit for each list that has it

    def begin(self, name: str) -> None:
        """Begins a list, or goes on with one of this name."""
        if name not in self._names:
            self._names.append(name)
        self._bit = 1 << self._names.index(name)

    def take(self, keys: Iterable[Union[str, Tuple[str, ...]]]) -> None:
        """Takes keys of the list."""
        lists, bit = self._lists, self._bit
        for key in keys:
            lists[key] = lists.get(key, 0) | bit

    def shared(self) -> List[Shared]:
        """Each pair of lists that have keys, in their order."""
        counts = Counter(self._lists.values())
        sizes = [sum(count for bits, count in counts.items() if bits >> at & 1) for at in range(len(self._names))]
        return [Shared(self._names[one], self._names[other], sizes[one], sizes[other],
                       sum(count for bits, count in counts.items() if bits >> one & 1 and bits >> other & 1))
                for one, other in combinations(range(len(self._names)), 2) if sizes[one] and sizes[other]]

    def notes(self, table: str, has_text: bool) -> List[str]:
        """What is good to know: pairs of lists that share few keys, and keys that lists write in two ways. has_text: whether a column
        of the key is text."""
        few = [pair for pair in self.shared() if pair.is_few]
        notes = [_few_note(table, pair) for pair in few[:_MOST_PAIRS]]
        if len(few) > _MOST_PAIRS:
            notes.append("and %d more pairs of lists share few keys of %s, or none" % (len(few) - _MOST_PAIRS, table))
        return self._alike_notes(table) + notes if has_text else notes

    def counts(self) -> List[str]:
        """How many keys each pair of lists shares."""
        pairs = self.shared()
        said = ["%s in both %s and %s; %s in %s alone, %s in %s alone"
                % (_keys(pair.in_both), pair.one, pair.other, number(pair.of_one - pair.in_both), pair.one, number(pair.of_other - pair.in_both), pair.other)
                if len(self._names) == 2 else "%s in both %s and %s" % (_keys(pair.in_both), pair.one, pair.other) for pair in pairs[:_MOST_PAIRS]]
        return said + (["and %d more pairs of lists" % (len(pairs) - _MOST_PAIRS)] if len(pairs) > _MOST_PAIRS else [])

    def _alike_notes(self, table: str) -> List[str]:
        """Keys of different lists that are the same but for blanks, leading zeros, case or punctuation."""
        found: Dict[str, List[Tuple[Key, Key]]] = {}
        every = (1 << len(self._names)) - 1
        first: Dict[Key, Key] = {}
        for key, bits in self._lists.items():
            if bits == every:
                continue
            other = first.setdefault(_loose(key), key)
            if other is not key and self._lists[other] != bits:
                found.setdefault(_difference(other, key), []).append((other, key))
        return [self._alike_note(table, way, pairs) for way, pairs in sorted(found.items(), key=lambda item: -len(item[1]))]

    def _alike_note(self, table: str, way: str, pairs: Sequence[Tuple[Key, Key]]) -> str:
        one, other = pairs[0]
        many = "1 key of %s is" % table if len(pairs) == 1 else "%s keys of %s are" % (number(len(pairs)), table)
        mend = "--strip takes blanks off at the ends" if way == "blanks" else "they are two keys until the lists write them alike"
        return ("%s written in two ways, which differ in %s: %s in %s and %s in %s; %s"
                % (many, way, _key_shown(one), self._first_list(one), _key_shown(other), self._first_list(other), mend))

    def _first_list(self, key: Key) -> str:
        bits = self._lists[key]
        return self._names[(bits & -bits).bit_length() - 1]


def _few_note(table: str, pair: Shared) -> str:
    if not pair.in_both:
        return ("warning: no key of %s stands in both %s (%s) and %s (%s): nothing that they say can be in conflict"
                % (table, pair.one, _keys(pair.of_one), pair.other, _keys(pair.of_other)))
    return ("warning: only %s of %s %s in both %s (%s) and %s (%s)"
            % (_keys(pair.in_both), table, "stands" if pair.in_both == 1 else "stand", pair.one, _keys(pair.of_one), pair.other, _keys(pair.of_other)))


def _loose(key: Key) -> Key:
    """A key without what two lists often write in two ways."""
    if isinstance(key, tuple):
        return tuple(map(_loose_text, key))
    return _loose_text(key)


def _loose_text(text: str) -> str:
    return _without_zeros(_without_punctuation(_without_case(text)))


def _difference(one: Key, other: Key) -> str:
    """In what two keys differ that are the same loosely: in one thing where this tells it, or else in several."""
    ones = one if isinstance(one, tuple) else (one,)
    others = other if isinstance(other, tuple) else (other,)
    for name, without in _WAYS:
        if list(map(without, ones)) == list(map(without, others)):
            return name
    for at in range(2, len(_WAYS) + 1):
        for ways in combinations(_WAYS, at):
            if [_reduced(text, ways) for text in ones] == [_reduced(text, ways) for text in others]:
                return " and ".join(name for name, _ in ways)
    return "how they are written"


def _reduced(text: str, ways: Iterable[Tuple[str, Callable[[str], str]]]) -> str:
    """A text without some things; leading zeros last, since a mark before them may go."""
    for name, without in sorted(ways, key=lambda way: way[0] == "leading zeros"):
        text = without(text)
    return text


def _key_shown(key: Key) -> str:
    return ", ".join(map(repr, key)) if isinstance(key, tuple) else repr(key)


def _keys(count: int) -> str:
    return "1 key" if count == 1 else "%s keys" % number(count)


def number(count: int) -> str:
    """A count with commas."""
    return format(count, ",")
