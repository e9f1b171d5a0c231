"""The statements that find the lists of a question.

The join is done once: `cqa_w0`, `cqa_w1`, .. have each branch's items with the used columns of its leaves. Of each table that is watched
`cqa_d0`, .. have the rows of keys in conflict: their key, an identity, the number of the block, the row's number in it, and how many
there are. A block is what the database takes for one key; two rows of it are one where no expression over used columns tells them apart.
`cqa_n` has the lists, with a number for each candidate.
"""

from __future__ import annotations

from typing import Dict, Iterator, List, Mapping, NamedTuple, Sequence, Set, Tuple

from ..errors import QueryRefused
from .engine import Engine
from .keeping import Prepared
from .query import Branch, Column, Keyed, Leaf
from .rendering import rendered

MOST_LEAVES = 32


class Step(NamedTuple):
    """A table of our own: its columns, the query that fills it, and the columns by which it is looked up."""

    columns: Sequence[str]
    select: str
    key: Sequence[str] = ()


class _Joined(NamedTuple):
    """A branch's join: its table, the watched leaves, and the columns of it by leaf and column."""

    name: str
    leaves: List[Leaf]
    places: Dict[Tuple[Leaf, str], str]

    def key_of(self, leaf: Leaf, alias: str) -> List[str]:
        """The key of a leaf."""
        return ["%s.%s" % (alias, self.places[leaf, column.name]) for column in leaf.table.key]


class Plan:
    """The steps of a question. watched: the tables whose conflicts are looked for. width: the longest list."""

    def __init__(self, engine: Engine, branches: Sequence[Branch], used: Mapping[str, Set[str]], count: int, null_key: str,
                 kept: Mapping[str, Prepared]) -> None:
        """used: the used columns of each table. count: how many columns answers have. null_key: "refuse", "own" or "drop". kept: rows
        in conflict that are kept, by the whole names of their tables."""
        self.engine = engine
        self.null_key = null_key
        self.kept = kept
        self.columns = ["cqa_c%d" % at for at in range(count)]
        self.tables: List[Keyed] = list(dict.fromkeys(leaf.table for branch in branches for leaf in branch.leaves()))
        self.used = {table.relation.name: [column for column in table.relation.columns if column.name in used[table.relation.name]]
                     for table in self.tables}
        self.watched = [table for table in self.tables if not self._is_clean(table)]
        self.joins: List[_Joined] = []
        self._selects: List[Step] = []
        for branch in branches:
            self._add(branch)
        self.width = max([len(join.leaves) for join in self.joins] + [0])
        if self.width > MOST_LEAVES or any(len(branch.elements) + self.width > engine.most_elements for branch in branches):
            raise QueryRefused("more than %d places of tables with keys in one SELECT" % MOST_LEAVES)

    def _is_clean(self, table: Keyed) -> bool:
        """Whether the key alone is used, and equal keys are the same."""
        key = {column.name for column in table.key}
        return {column.name for column in self.used[table.relation.name]} <= key and all(column.is_exact for column in table.key)

    def _wanted(self, leaf: Leaf) -> List[Column]:
        """The columns of a leaf that the join keeps."""
        if leaf.table in self.watched:
            return self.used[leaf.table.relation.name]
        return [column for column in leaf.table.key if column.is_nullable and self.null_key == "refuse"]

    def _add(self, branch: Branch) -> None:
        leaves = list(branch.leaves())
        made = rendered(branch, {leaf: self._wanted(leaf) for leaf in leaves}, self.null_key == "drop")
        places = {key: "cqa_p%d" % at for at, key in enumerate(made.places)}
        name = "cqa_w%d" % len(self.joins)
        self.joins.append(_Joined(name, [leaf for leaf in leaves if leaf.table in self.watched], places))
        self._selects.append(Step([*self.columns, *places.values()], made.text))

    # Steps.

    def join_steps(self) -> Dict[str, Step]:
        """The joins, one for each branch."""
        return {join.name: step for join, step in zip(self.joins, self._selects)}

    def conflict_steps(self, table: Keyed, is_touched: bool) -> Dict[str, Step]:
        """The rows of a table in conflict; is_touched: of keys that stand in the joins alone."""
        number = self.watched.index(table)
        quoted = [column.quoted for column in table.key]
        keys = ["cqa_k%d" % at for at in range(len(quoted))]
        own, kept = ", ".join("t." + name for name in quoted), ", ".join(keys)
        conditions = ["t.%s IS NOT NULL" % column.quoted for column in table.key if column.is_nullable]
        if is_touched:
            conditions.append("(%s) IN (%s)" % (own, " UNION ALL ".join(self._touched(table))))
        where = " WHERE " + " AND ".join(conditions) if conditions else ""
        used = self.used[table.relation.name]
        name = self.rows_of(table)
        on = " AND ".join("k.%s = t.%s" % pair for pair in zip(keys, quoted))
        identity = self.engine.identity(["t." + column.quoted for column in used], used)
        of = "cqa_k%d" % number
        rows = "cqa_r%d" % number
        numbered = ("SELECT %s, cqa_is, dense_rank() OVER (ORDER BY %s) AS b, row_number() OVER (PARTITION BY %s ORDER BY cqa_is) AS r, "
                    "count(*) OVER (PARTITION BY %s) AS z FROM %s" % (kept, kept, kept, kept, rows))
        return {
            of: Step(keys, "SELECT %s FROM %s t%s GROUP BY %s HAVING count(*) > 1" % (own, name, where, own)),
            rows: Step([*keys, "cqa_is"], "SELECT DISTINCT %s, %s FROM %s k JOIN %s t ON %s" % (", ".join("k." + key for key in keys), identity, of, name, on)),
            "cqa_d%d" % number: Step([*keys, "cqa_is", "cqa_b", "cqa_r", "cqa_z"], "SELECT %s, cqa_is, %d + %d * b, r, z FROM (%s) x WHERE z > 1"
                                     % (kept, number, len(self.watched), numbered), keys),
        }

    def rows_of(self, table: Keyed) -> str:
        """Where the rows of keys in conflict of a table are: the table, or what is kept of it."""
        known = self.kept.get(table.relation.name)
        return table.relation.name if known is None else known.name

    def _touched(self, table: Keyed) -> Iterator[str]:
        for join in self.joins:
            for leaf in join.leaves:
                if leaf.table is table:
                    yield "SELECT %s FROM %s w" % (", ".join(join.key_of(leaf, "w")), join.name)

    def list_steps(self) -> Dict[str, Step]:
        """The lists with a row in conflict, and their candidates' numbers."""
        ids = [name % at for at in range(self.width) for name in ("cqa_b%d", "cqa_r%d", "cqa_z%d")]
        texts = [self._lists_of(join) for join in self.joins if join.leaves]
        names = ", ".join(self.columns)
        return {
            "cqa_l": Step([*self.columns, *ids], " UNION ALL ".join(texts)),
            "cqa_n": Step(["cqa_n", *self.columns, *ids], "SELECT DISTINCT dense_rank() OVER (ORDER BY %s), %s FROM cqa_l" % (names, ", ".join([names, *ids]))),
        }

    def _lists_of(self, join: _Joined) -> str:
        """The lists of a branch with a row in conflict."""
        joins: List[str] = []
        ids: List[str] = []
        for at, leaf in enumerate(join.leaves):
            joins.append("LEFT JOIN cqa_d%d s%d ON %s" % (self.watched.index(leaf.table), at, self._met(join, leaf, "s%d" % at)))
            ids += [name % at for name in ("s%d.cqa_b", "s%d.cqa_r", "s%d.cqa_z")]
        ids += [self.engine.null_number] * (3 * (self.width - len(join.leaves)))
        dirty = " OR ".join("s%d.cqa_b IS NOT NULL" % at for at in range(len(join.leaves)))
        conditions = ["(%s)" % dirty, *self._in_one_repair(join)]
        return "SELECT %s FROM %s w %s WHERE %s" % (", ".join([*self._values("w"), *ids]), join.name, " ".join(joins), " AND ".join(conditions))

    def _values(self, alias: str) -> List[str]:
        return [self.engine.bare % ("%s.%s" % (alias, column)) for column in self.columns]

    def _met(self, join: _Joined, leaf: Leaf, alias: str) -> str:
        """That a row in conflict is the one of a leaf."""
        used = self.used[leaf.table.relation.name]
        keys = ["%s.cqa_k%d = %s" % (alias, at, text) for at, text in enumerate(join.key_of(leaf, "w"))]
        made = self.engine.identity(["w." + join.places[leaf, column.name] for column in used], used)
        return " AND ".join([*keys, self.engine.is_same_identity(alias + ".cqa_is", made)])

    def _in_one_repair(self, join: _Joined) -> Iterator[str]:
        """That two rows of one block are the same, for each two leaves of one table."""
        for at, leaf in enumerate(join.leaves):
            for other in range(at + 1, len(join.leaves)):
                if join.leaves[other].table is leaf.table:
                    yield "(s%d.cqa_b IS NULL OR s%d.cqa_b IS NULL OR s%d.cqa_b <> s%d.cqa_b OR s%d.cqa_r = s%d.cqa_r)" % (at, other, at, other, at, other)

    # Last queries.

    def clean(self) -> str:
        """The candidates of each witness none of whose rows is in conflict."""
        texts = []
        for join in self.joins:
            conditions = ["NOT EXISTS (SELECT 1 FROM cqa_d%d s WHERE %s)" % (self.watched.index(leaf.table), " AND ".join(
                "s.cqa_k%d = %s" % pair for pair in enumerate(join.key_of(leaf, "w")))) for leaf in join.leaves]
            texts.append("SELECT %s FROM %s w%s" % (", ".join(self._values("w")), join.name, " WHERE " + " AND ".join(conditions) if conditions else ""))
        return " UNION ALL ".join(texts)

    def clean_step(self) -> Dict[str, Step]:
        """`clean` as a step."""
        return {"cqa_c": Step(self.columns, self.clean())}

    def sure(self, has_lists: bool, is_clean_made: bool = False) -> str:
        """The candidates with a witness that no conflict touches, each once, with their number among those that have lists too, or 0.
        is_clean_made: whether `cqa_c` is a step before."""
        names = ", ".join(self.columns)
        clean = "" if is_clean_made else "WITH cqa_c(%s) AS (%s) " % (names, self.clean())
        if not has_lists:
            return "%sSELECT DISTINCT 0 AS cqa_m, %s FROM cqa_c" % (clean, names)
        both = "SELECT 0 AS cqa_m, %s FROM cqa_c UNION ALL SELECT cqa_n, %s FROM cqa_n" % (names, names)
        return "%sSELECT max(cqa_m) AS cqa_m, %s FROM (%s) x GROUP BY %s HAVING min(cqa_m) = 0" % (clean, names, both, names)

    def lists(self) -> str:
        """The lists, with what `list_steps` says."""
        return "SELECT * FROM cqa_n"

    def nulls(self) -> List[Tuple[Keyed, str]]:
        """For tables with a NULL in their key that may be read: how many rows of the joins have one."""
        found: List[Tuple[Keyed, str]] = []
        for join, step in zip(self.joins, self._selects) if self.null_key == "refuse" else ():
            for leaf in {leaf for leaf, _ in join.places}:
                tests = ["%s IS NULL" % join.places[leaf, column.name] for column in leaf.table.key if column.is_nullable]
                if tests:
                    found.append((leaf.table, "SELECT count(*) FROM %s WHERE %s" % (join.name, " OR ".join(tests))))
        return found
