"""What the comments of scripts say of columns, and whether a kept state is whole."""

from __future__ import annotations

import hashlib
import re
from dataclasses import dataclass, field
from typing import Dict, Iterator, List, Tuple

from .errors import ScaleFault
from .scripts import gaps

#: A column: its table and its name.
Name = Tuple[str, str]

_BEGINS = b"-- cqa: column "
_LINE = re.compile(rb"^-- cqa: column ([^\n]*)", re.M)
_COLUMN = re.compile(rb"(\w+)\.(\w+) has (?:(\d{1,2}) places|times as (\S+)|(the sources))\s*\Z")

STATE_HEAD = b"-- cqa state: a script that makes the tables again; its last line tells by what it is seen to be whole\n"
_STATE_BEGINS = b"-- cqa state: "
_STATE_LINE = re.compile(rb"^-- cqa state: [^\n]*(?:\n|\Z)", re.M)
_STATE_END = re.compile(rb"-- cqa state: \d+ bytes with the sha256 ([0-9a-f]{64})\n?\Z")


@dataclass
class Marks:
    """places: how many places the numbers of a column have, which is stored as int. times: a time of the form in which all of a column
    are, as 2026-03-01. sources: a table's column that says from which list a row is."""

    places: Dict[Name, int] = field(default_factory=dict)
    times: Dict[Name, str] = field(default_factory=dict)
    sources: Dict[str, str] = field(default_factory=dict)

    def __bool__(self) -> bool:
        """Whether a statement that names a column may mean something else than it says."""
        return bool(self.places or self.times)

    def text(self) -> str:
        """The comments that say the same."""
        return "".join(["-- cqa: column %s.%s has %d places\n" % (*name, count) for name, count in self.places.items()]
                       + ["-- cqa: column %s.%s has times as %s\n" % (*name, form) for name, form in self.times.items()]
                       + ["-- cqa: column %s.%s has the sources\n" % name for name in self.sources.items()])

    def add(self, other: "Marks") -> None:
        """Takes what others say, too; of a column of which both speak, what they say."""
        self.places.update(other.places)
        self.times.update(other.times)
        self.sources.update(other.sources)

    def disagreement(self, other: "Marks") -> str:
        """The first column of which two say different things, or nothing."""
        for name, count in other.places.items():
            if self.places.get(name, count) != count:
                return "%s.%s has %d places by one comment and %d by another" % (*name, self.places[name], count)
        for name, form in other.times.items():
            if self.times.get(name, form) != form:
                return "%s.%s has times as %s by one comment and as %s by another" % (*name, self.times[name], form)
        for table, column in other.sources.items():
            if self.sources.get(table, column) != column:
                return "the sources of %s are %s by one comment and %s by another" % (table, self.sources[table], column)
        return ""


def marks_of(script: bytes) -> Marks:
    """What the comments between statements say of columns. What stands in a text or in a block is no comment. Raises ScaleFault for a
    comment that begins so and says nothing known, and where two say different things of a column."""
    found = Marks()
    if _BEGINS not in script:
        return found
    for _, comments in gaps(script, script.rfind(_BEGINS)):
        for line in _LINE.findall(comments):
            mark = _mark_of(line)
            fault = found.disagreement(mark)
            if fault:
                raise ScaleFault(fault)
            found.add(mark)
    return found


def _mark_of(line: bytes) -> Marks:
    """What a comment says of a column, behind `-- cqa: column`."""
    told = _COLUMN.match(line)
    if told is None:
        raise ScaleFault("what this comment says of a column isn't known: -- cqa: column %s" % line.decode("utf-8", "replace").strip())
    name = told[1].decode(), told[2].decode()
    if told[3]:
        return Marks(places={name: int(told[3])})
    return Marks(times={name: told[4].decode("utf-8", "replace")}) if told[4] else Marks(sources={name[0]: name[1]})


def state_text(script: bytes) -> bytes:
    """A script with the lines before and behind it by which it is seen whether it is whole."""
    digest = hashlib.sha256(script).hexdigest()
    return STATE_HEAD + script + b"-- cqa state: %d bytes with the sha256 %s\n" % (len(script), digest.encode())


def is_state(script: bytes) -> bool:
    """Whether a script begins as a kept state does."""
    return script.startswith(_STATE_BEGINS)


def state_fault(script: bytes) -> str:
    """Why the kept states in a script aren't whole, or nothing: each is the text between its two lines, and no letter of it is changed."""
    if _STATE_BEGINS not in script:
        return ""
    begin = -1
    for start, end, line in _state_lines(script):
        told = _STATE_END.match(line)
        if told is None:
            if begin >= 0:
                return "a kept state isn't whole: its end is missing"
            begin = end
        elif begin < 0:
            return "a kept state isn't whole: its beginning is missing"
        elif hashlib.sha256(script[begin:start]).hexdigest() != told[1].decode():
            return "a kept state isn't whole: its text isn't the one that was kept"
        else:
            begin = -1
    return "a kept state isn't whole: its end is missing" if begin >= 0 else ""


def _state_lines(script: bytes) -> Iterator[Tuple[int, int, bytes]]:
    """The first and last lines of kept states, each with its places."""
    lines: List[Tuple[int, int, bytes]] = []
    for start, comments in gaps(script, script.rfind(_STATE_BEGINS)):
        lines += [(start + found.start(), start + found.end(), found[0]) for found in _STATE_LINE.finditer(comments)]
    return iter(lines)
