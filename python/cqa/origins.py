"""From which lists a table's rows come: comments at the head of a script, which `load` writes and `report` reads."""

from __future__ import annotations

import re
from typing import Dict, List, NamedTuple, Optional, Sequence

_HEAD = re.compile(rb"(?:[ \t\r\n]+|--[^\n]*)*")
_ORIGIN = re.compile(r"^-- cqa: table (\w+) has (\d+) records(?:, source '((?:[^'\n]|'')*)',)? of the list ([^\r\n]+)$", re.M)


class Origin(NamedTuple):
    """A list: its path, how many records it gave, and what its rows have in the column of sources, if there is one."""

    path: str
    records: int
    source: Optional[str]


def origin_text(table: str, origins: Sequence[Origin]) -> str:
    """Comments that `origins_of` reads."""
    return "".join("-- cqa: table %s has %d records%s of the list %s\n" % (
        table, one.records, "" if one.source is None else ", source '%s'," % one.source.replace("'", "''"), re.sub(r"[\r\n]", "?", one.path))
        for one in origins)


def origins_of(script: bytes) -> Dict[str, List[Origin]]:
    """The lists of each table, by what the comments before a script's first statement say."""
    head = _HEAD.match(script)
    found: Dict[str, List[Origin]] = {}
    for one in _ORIGIN.finditer(head[0].decode("utf-8", "replace") if head else ""):
        source = None if one[3] is None else one[3].replace("''", "'")
        found.setdefault(one[1], []).append(Origin(one[4], int(one[2]), source))
    return found
