"""Branches as SQL again: the texts as they were written, with names where they stand, and further columns of leaves."""

from __future__ import annotations

from typing import Collection, Dict, List, Mapping, NamedTuple, Tuple

from .query import Branch, Column, Element, Leaf, printed

#: For each leaf, the columns of it that are wanted.
Wanted = Mapping[Leaf, Collection[Column]]


class Rendered(NamedTuple):
    """A SELECT. places: for each leaf and column that is wanted, the text that names it in this SELECT; the items have them all behind
    the branch's own, in this order."""

    text: str
    places: Dict[Tuple[Leaf, str], str]


def with_head(head: str, text: str) -> str:
    """A query behind WITH and its queries; it may begin with WITH itself."""
    if head and text[:5].upper() == "WITH ":
        return "%s, %s" % (head.rstrip(), text[5:])
    return head + text


def rendered(branch: Branch, wanted: Wanted, without_null: bool = False, depth: int = 0) -> Rendered:
    """A branch as a SELECT of its items and of what is wanted of leaves. without_null: rows with a NULL in their key are left out. depth: how
    many derived tables it stands in."""
    places: Dict[Tuple[Leaf, str], str] = {}
    froms: List[str] = []
    conditions = ["(%s)" % printed(condition) for condition in branch.conditions]
    for element in branch.elements:
        on = printed(element.on)
        text = "%s %s" % (_source(element, wanted, places, without_null, depth), element.alias)
        if froms:
            text = "%s %s ON %s" % ("LEFT JOIN" if element.is_left else "JOIN", text, on or "1 = 1")
        elif on:
            conditions.append(on)
        froms.append(text)
        if without_null and isinstance(element.source, Leaf):
            conditions += ["%s.%s IS NOT NULL" % (element.alias, column.quoted) for column in element.source.table.key if column.is_nullable]
    items = [printed(item) for item in branch.items] + list(places.values())
    text = "SELECT %s%s%s" % (", ".join(items) or "1", " FROM " + " ".join(froms) if froms else "",
                              " WHERE " + " AND ".join(conditions) if conditions else "")
    return Rendered(with_head(branch.head, text), places)


def _source(element: Element, wanted: Wanted, places: Dict[Tuple[Leaf, str], str], without_null: bool, depth: int) -> str:
    """What stands in FROM before the element's name; adds the places of what is wanted of its leaves."""
    source = element.source
    if isinstance(source, str):
        return source
    if isinstance(source, Leaf):
        places.update({(source, column.name): "%s.%s" % (element.alias, column.quoted) for column in wanted.get(source, ())})
        return source.table.relation.name
    inner = rendered(source, wanted, without_null, depth + 1)
    names = {key: "cqa_u%d_%d" % (key[0].number, at) for at, key in enumerate(inner.places)}
    places.update({key: "%s.%s" % (element.alias, name) for key, name in names.items()})
    columns = [column.quoted for column in element.columns.values()] + list(names.values())
    name = "cqa_x%d" % depth
    return "(WITH %s(%s) AS (%s) SELECT * FROM %s)" % (name, ", ".join(columns), inner.text, name)
