"""Replies that are more than rows: classes, explanations, ranges."""

from __future__ import annotations

import re
from typing import List, NamedTuple, Optional, Tuple

from .errors import ReplyFault
from .replies import Value, kept_of, row_of
from .rows import Cell

Kept = Tuple[str, Tuple[Cell, ...]]

_ATTACK = re.compile(r"(\w+) attacks (\w+), (weak|strong)\Z")
_PART = re.compile(r"part \d+\Z")
_BY_BLOCK = re.compile(r"certain by block (\w+) (\(.*\))\Z", re.S)
_GROUP = re.compile(r"group ('(?:[^']|'')*'|-?\d+) least ('(?:[^']|'')*'|\S+) greatest ('(?:[^']|'')*'|\S+)\Z", re.S)


class Attack(NamedTuple):
    """One table of a query attacks another, weakly or strongly."""

    attacker: str
    attacked: str
    is_strong: bool


class Classification(NamedTuple):
    """How hard a query is: "first-order", "polynomial" or "conp-complete", and its attacks in the order of `from`."""

    name: str
    attacks: List[Attack]


class UnionClassification(NamedTuple):
    """How hard each part of a union is, and the first table that isn't strict and stands in two parts; None where they are apart.

    No class of the union as a whole is told: none is known.
    """

    parts: List[Classification]
    together: Optional[str]


class Explanation(NamedTuple):
    """Why a row is certain, or isn't.

    kind: "block" (certain by the block `table` with the key `key`), "refutation" (certain: `proof` is a formula with its
    refutation, which `cqa check` verifies), "rewriting" (certain: `proof` is a certificate), "rejected" (not certain: the
    repair that keeps `kept` has no witness of the row), "against" (not certain: no repair that keeps `kept` has one),
    "certain", or "no plan".
    """

    kind: str
    table: Optional[str] = None
    key: Optional[Tuple[Cell, ...]] = None
    kept: Tuple[Kept, ...] = ()
    proof: str = ""

    @property
    def is_certain(self) -> Optional[bool]:
        """Whether the row is certain; None where the reply doesn't say ("no plan")."""
        return None if self.kind == "no plan" else self.kind not in ("rejected", "against")


class Range(NamedTuple):
    """The least and the greatest value of an aggregate over all repairs, each with the rows that a repair which has it keeps.

    None stands for `none`: no row meets the tests.
    """

    least: Optional[Cell]
    greatest: Optional[Cell]
    low: Tuple[Kept, ...] = ()
    high: Tuple[Kept, ...] = ()


class Group(NamedTuple):
    """The least and the greatest value of an aggregate for one value of the column behind `group by`."""

    value: Cell
    least: Optional[Cell]
    greatest: Optional[Cell]


def classification(lines: List[str]) -> Classification:
    """Reads the reply to `classify`."""
    if not lines or not lines[0].startswith("class "):
        raise ReplyFault("no class: %r" % lines[:1])
    attacks = [_ATTACK.match(line) for line in lines[1:]]
    return Classification(lines[0][6:], [Attack(found[1], found[2], found[3] == "strong") for found in attacks if found])


def union_classification(lines: List[str]) -> UnionClassification:
    """Reads the reply to `classify` of a union."""
    begins = [at for at, line in enumerate(lines) if _PART.match(line)] + [len(lines) - 1]
    if len(begins) < 2 or not (lines[-1] == "apart" or lines[-1].startswith("together ")):
        raise ReplyFault("no classes: %r" % lines[:1])
    return UnionClassification([classification(lines[at + 1:end]) for at, end in zip(begins, begins[1:])], lines[-1][9:] or None)


def explanation(lines: List[str]) -> Explanation:
    """Reads the reply to `explain` or `prove`."""
    first = lines[0] if lines else ""
    by_block = _BY_BLOCK.match(first)
    if by_block:
        return Explanation("block", by_block[1], row_of(by_block[2]))
    if first == "rejected":
        return Explanation("rejected", kept=tuple(kept_of(line) for line in lines[1:]))
    if first == "certain by refutation":
        return Explanation("refutation", proof="".join(line + "\n" for line in lines[1:]))
    if first == "rewriting":
        return Explanation("rewriting", proof="".join(line + "\n" for line in lines))
    if first == "no plan":
        return Explanation("no plan")
    raise ReplyFault("no explanation: %r" % first[:200])


def against(lines: List[str]) -> Explanation:
    """Reads the reply to `against`."""
    if lines == ["certain"]:
        return Explanation("certain")
    return Explanation("against", kept=tuple(kept_of(line) for line in lines[:-1]))


def ranges(lines: List[str]) -> Range:
    """Reads the reply to a `range` without groups."""
    at = [place for place, line in enumerate(lines) if line.startswith("greatest ")]
    if not lines or not lines[0].startswith("least ") or len(at) != 1:
        raise ReplyFault("no range: %r" % lines[:1])
    low, high = lines[1:at[0]], lines[at[0] + 1:]
    return Range(_end(lines[0][6:]), _end(lines[at[0]][9:]), tuple(map(kept_of, low)), tuple(map(kept_of, high)))


def groups(lines: List[str]) -> List[Group]:
    """Reads the reply to a `range .. group by`."""
    found = [_GROUP.match(line) for line in lines[:-1]]
    if not lines or not lines[-1].endswith(" groups") or None in found:
        raise ReplyFault("no groups: %r" % lines[:1])
    return [Group(row_of("(%s)" % group[1])[0], _end(group[2]), _end(group[3])) for group in found if group]


def _end(text: str) -> Optional[Value]:
    return None if text == "none" else row_of("(%s)" % text)[0]
