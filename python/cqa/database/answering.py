"""The answers of a question, as they come: first those that no conflict touches, then those that are decided by their lists."""

from __future__ import annotations

from abc import ABC, abstractmethod
from itertools import groupby
from typing import Any, Dict, Iterator, List, Mapping, NamedTuple, Sequence, Set, Tuple

from ..errors import QueryRefused
from ..judging import Group
from .engine import Engine, Row, with_steps
from .plan import Plan, Step
from .query import Keyed

_MOST_AT_ONCE = 500


class Candidate(NamedTuple):
    """An answer that is decided by its lists."""

    values: Row
    group: Group


class Kept(NamedTuple):
    """A row of a table, by its columns."""

    table: str
    row: Dict[str, Any]


class Evaluation(ABC):
    """A question in one state of the database. `sure` has to be gone through before `candidates`."""

    def __init__(self, engine: Engine, plan: Plan, arguments: Mapping[str, Any]) -> None:
        self.engine = engine
        self.plan = plan
        self.arguments = arguments
        self.statements: List[str] = []

    @abstractmethod
    def sure(self) -> Iterator[Row]:
        """The answers with a witness that no conflict touches. Raises QueryRefused where a key is NULL and mustn't be."""

    @abstractmethod
    def candidates(self) -> Iterator[Candidate]:
        """The others, each with its lists."""

    def end(self) -> None:
        """Ends what was made for it, where all went well; else it is gone with the transaction."""

    @abstractmethod
    def _over_conflicts(self, select: str) -> Iterator[Row]:
        """The rows of a query over the steps that find conflicts."""

    def kept_rows(self, choice: Mapping[int, int]) -> List[Kept]:
        """The rows that a choice of blocks keeps; of those that no used column tells apart any one."""
        self._check_state()
        found: List[Kept] = []
        for number, table in enumerate(self.plan.watched):
            blocks = sorted(block for block in choice if block % len(self.plan.watched) == number)
            rows: Dict[int, Row] = {}
            for begin in range(0, len(blocks), _MOST_AT_ONCE):
                for block, row, *values in self._over_conflicts(_rows_text(self.engine, self.plan, table, blocks[begin:begin + _MOST_AT_ONCE])):
                    if choice[block] == row:
                        rows.setdefault(block, tuple(values))
            names = [column.name for column in table.relation.columns]
            found += [Kept(table.label, dict(zip(names, rows[block]))) for block in blocks]
        return found

    def keys_of(self, blocks: Sequence[int]) -> Dict[int, Tuple[str, Row]]:
        """The tables and keys of blocks."""
        self._check_state()
        found: Dict[int, Tuple[str, Row]] = {}
        for number, table in enumerate(self.plan.watched):
            own = [block for block in blocks if block % len(self.plan.watched) == number]
            keys = ", ".join("cqa_k%d" % at for at in range(len(table.key)))
            for begin in range(0, len(own), _MOST_AT_ONCE):
                chosen = ", ".join(map(str, own[begin:begin + _MOST_AT_ONCE]))
                for row in self._over_conflicts("SELECT cqa_b, %s FROM cqa_d%d WHERE cqa_b IN (%s)" % (keys, number, chosen)):
                    found.setdefault(row[0], (table.label, tuple(row[1:])))
        return found

    def _check_state(self) -> None:
        """Refuses what takes a second statement where it may see another state than the first."""
        if not self.engine.has_one_state():
            raise QueryRefused("the transaction is READ COMMITTED, so that a second statement may see other rows: REPEATABLE READ is wanted")

    def counts(self) -> Dict[str, int]:
        """The number of keys in conflict that were looked at, by table."""
        return {table.label: list(self._over_conflicts("SELECT count(DISTINCT cqa_b) FROM cqa_d%d" % number))[0][0]
                for number, table in enumerate(self.plan.watched)}

    def _refuse_nulls(self, table: Keyed) -> None:
        tests = " OR ".join("%s IS NULL" % column.quoted for column in table.key if column.is_nullable)
        count = self.engine.number("SELECT count(*) FROM %s WHERE %s" % (table.relation.name, tests))
        raise QueryRefused("%s: %d row%s a NULL in the key %s: null_key=\"own\" makes each a key of its own, \"drop\" leaves them out" % (
            table.label, count, " has" if count == 1 else "s have", ", ".join(column.name for column in table.key)))


def _rows_text(engine: Engine, plan: Plan, table: Keyed, blocks: Sequence[int]) -> str:
    """The query for the whole rows of some blocks, with their numbers."""
    number = plan.watched.index(table)
    used = plan.used[table.relation.name]
    on = ["d.cqa_k%d = t.%s" % (at, column.quoted) for at, column in enumerate(table.key)]
    on.append(engine.is_same_identity("d.cqa_is", engine.identity(["t." + column.quoted for column in used], used)))
    columns = ", ".join("t." + column.quoted for column in table.relation.columns)
    return "SELECT d.cqa_b, d.cqa_r, %s FROM cqa_d%d d JOIN %s t ON %s WHERE d.cqa_b IN (%s)" % (
        columns, number, plan.rows_of(table), " AND ".join(on), ", ".join(map(str, blocks)))


class ByTables(Evaluation):
    """With tables of our own, which are gone with the transaction: the join is done once, and conflicts are looked for where fewer keys are."""

    def __init__(self, engine: Engine, plan: Plan, arguments: Mapping[str, Any]) -> None:
        super().__init__(engine, plan, arguments)
        self._done: Set[int] = set()
        self._made: List[str] = []
        self._has_lists = False

    def _make(self, steps: Mapping[str, Step]) -> int:
        """Makes the tables of steps; the number of rows of the last."""
        count = 0
        for name, step in steps.items():
            self.engine.drop_table(name)
            count = self.engine.make_table(name, step.columns, step.select, step.key, self.arguments)
            self.statements.append("%s: %s" % (name, step.select))
            self._made.append(name)
        return count

    def sure(self) -> Iterator[Row]:
        plan = self.plan
        met = {name: self._make({name: step}) for name, step in plan.join_steps().items()}
        for table, text in plan.nulls():
            if self.engine.number(text):
                self._refuse_nulls(table)
        rows = 0
        for table in plan.watched:
            touched = sum(met[join.name] for join in plan.joins for leaf in join.leaves if leaf.table is table)
            kept = plan.kept.get(table.relation.name)
            is_touched = touched <= kept.rows if kept is not None else touched * self.engine.few <= self.engine.size(table.relation)
            repeated, *others = plan.conflict_steps(table, is_touched).items()
            with self.engine.find_by_index(not is_touched and kept is None):
                self._make(dict([repeated]))
            rows += self._make(dict(others))
        self._has_lists = rows > 0 and self._make(plan.list_steps()) > 0
        text = plan.sure(self._has_lists)
        self.statements.append(text)
        for row in self.engine.rows(text, {}):
            if row[0]:
                self._done.add(row[0])
            yield tuple(row[1:])

    def candidates(self) -> Iterator[Candidate]:
        if not self._has_lists:
            return
        width = len(self.plan.columns)
        for number, rows in groupby(self.engine.rows(self.plan.lists() + " ORDER BY cqa_n", {}), lambda row: row[0]):  # type: ignore[no-any-return]
            if number in self._done:
                continue
            sizes: Dict[int, int] = {}
            lists: List[Sequence[Tuple[int, int]]] = []
            values: Row = ()
            for row in rows:
                values = tuple(row[1:1 + width])
                lists.append(_list_of(row[1 + width:], sizes))
            yield Candidate(values, Group(sizes, lists))

    def _over_conflicts(self, select: str) -> Iterator[Row]:
        return self.engine.rows(select, {})

    def end(self) -> None:
        for name in self._made:
            self.engine.drop_table(name)
        self._made.clear()


class ByStatement(Evaluation):
    """In one statement, which writes nothing. The numbers of lists that are decided are held, and one value of each candidate."""

    def __init__(self, engine: Engine, plan: Plan, arguments: Mapping[str, Any]) -> None:
        super().__init__(engine, plan, arguments)
        self._found: Dict[int, Candidate] = {}
        self._steps: Dict[str, Tuple[Sequence[str], str]] = {}

    def _all_steps(self) -> Dict[str, Tuple[Sequence[str], str]]:
        plan = self.plan
        steps = dict(plan.join_steps())
        for table in plan.watched:
            steps.update(plan.conflict_steps(table, True))
        if plan.width:
            steps.update(plan.list_steps())
        steps.update(plan.clean_step())  # MariaDB takes no WITH within a step
        return {name: (step.columns, step.select) for name, step in steps.items()}

    def sure(self) -> Iterator[Row]:
        plan = self.plan
        self._steps = self._all_steps()
        ids, null = 3 * plan.width, self.engine.null_number
        names = ", ".join(["cqa_m", *plan.columns, *[null] * ids])
        text = with_steps(self._steps, self.engine.materialized)
        text += "SELECT 1, %s FROM (%s) x" % (names, plan.sure(plan.width > 0, is_clean_made=True))
        if plan.width:
            text += " UNION ALL SELECT 2, %s FROM cqa_n" % ", ".join(["cqa_n", *plan.columns, *["cqa_%s%d" % (kind, at) for at in range(plan.width) for kind in "brz"]])
        nulls = plan.nulls()
        for at, (_, count) in enumerate(nulls):
            text += " UNION ALL SELECT 0 - x.n, %s FROM (%s) x WHERE x.n > 0" % (
                ", ".join([str(at), *["NULL"] * len(plan.columns), *[null] * ids]), count.replace("count(*)", "count(*) AS n", 1))
        self.statements.append(text)
        width = len(plan.columns)
        for kind, number, *rest in self.engine.rows(text, self.arguments):
            if kind < 0:
                self._refuse_nulls(nulls[number][0])
            elif kind == 1:
                self._found.setdefault(-number, Candidate((), Group({}, [])))
                yield tuple(rest[:width])
            else:
                candidate = self._found.setdefault(number, Candidate(tuple(rest[:width]), Group({}, [])))
                candidate.group.lists.append(_list_of(rest[width:], candidate.group.sizes))  # type: ignore[attr-defined]

    def candidates(self) -> Iterator[Candidate]:
        for number, candidate in self._found.items():
            if number > 0 and -number not in self._found:
                yield candidate

    def _over_conflicts(self, select: str) -> Iterator[Row]:
        steps = {name: step for name, step in self._steps.items() if name[:5] not in ("cqa_l", "cqa_n", "cqa_c")}
        return self.engine.rows(with_steps(steps, self.engine.materialized) + select, self.arguments)


def _list_of(ids: Sequence[Any], sizes: Dict[int, int]) -> List[Tuple[int, int]]:
    """The rows that a list names, of triples of block, row and size; the sizes are noted."""
    names: List[Tuple[int, int]] = []
    for at in range(0, len(ids), 3):
        if ids[at] is not None:
            sizes[ids[at]] = ids[at + 2]
            names.append((ids[at], ids[at + 1]))
    return names
