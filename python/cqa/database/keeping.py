"""Rows in conflict that are kept for a snapshot, so that its questions don't look for them anew."""

from __future__ import annotations

from contextlib import contextmanager, suppress
from typing import Dict, Iterator, List, Mapping, NamedTuple, Sequence

from ..errors import DatabaseFault, QueryRefused
from .engine import Engine
from .keys import named_relation
from .query import Keyed


class Prepared(NamedTuple):
    """The whole rows of a table's keys with several rows, in a temporary table. rows: how many. writes: what `Engine.writes` gave then."""

    name: str
    rows: int
    writes: object


@contextmanager
def prepared(engine: Engine, keyed: Mapping[str, Keyed], tables: Sequence[str], before: Mapping[str, Prepared]) -> Iterator[Dict[str, Prepared]]:
    """Within it the rows in conflict of these tables are kept, beside those that were kept before; by the tables' whole names.

    Raises QueryRefused where a table has no key, or where none can be kept.
    """
    found = dict(before)
    made: List[str] = []
    try:
        for table in tables:
            relation = named_relation(engine, table)
            if relation.name not in keyed:
                raise QueryRefused("prepare: no key is told of %s" % table)
            if relation.name not in found:
                name = "cqa_h%d" % len(found)
                made.append(name)
                found[relation.name] = _kept(engine, keyed[relation.name], name)
        yield found
    finally:
        with suppress(DatabaseFault):  # a transaction that failed keeps nothing
            for name in made:
                engine.drop_table(name)


def _kept(engine: Engine, table: Keyed, name: str) -> Prepared:
    """Makes the table of rows in conflict of one table."""
    fault = engine.keeping_fault(table.relation)
    if fault:
        raise QueryRefused("prepare: %s: %s" % (table.label, fault))
    writes = engine.writes(table.relation)
    keys = [column.quoted for column in table.key]
    own = ", ".join("t." + key for key in keys)
    conditions = ["t.%s IS NOT NULL" % column.quoted for column in table.key if column.is_nullable]
    where = " WHERE " + " AND ".join(conditions) if conditions else ""
    repeated = ["cqa_k%d" % at for at in range(len(keys))]
    columns = [column.quoted for column in table.relation.columns]
    engine.drop_table(name + "k")
    with engine.find_by_index(True):
        engine.make_table(name + "k", repeated, "SELECT %s FROM %s t%s GROUP BY %s HAVING count(*) > 1" % (own, table.relation.name, where, own), (), {})
    on = " AND ".join("k.%s = t.%s" % pair for pair in zip(repeated, keys))
    select = "SELECT %s FROM %sk k JOIN %s t ON %s" % (", ".join("t." + column for column in columns), name, table.relation.name, on)
    engine.drop_table(name)
    rows = engine.make_table(name, columns, select, keys, {})
    engine.drop_table(name + "k")
    return Prepared(name, rows, writes)


def check_unwritten(engine: Engine, tables: Sequence[Keyed], kept: Mapping[str, Prepared]) -> None:
    """Refuses a question over a table whose rows in conflict are kept, and which was written since through this connection."""
    for table in tables:
        known = kept.get(table.relation.name)
        if known is not None and engine.writes(table.relation) != known.writes:
            raise QueryRefused("%s was written in this snapshot after its rows in conflict were kept: begin another snapshot" % table.label)
