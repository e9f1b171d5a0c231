"""Reads a query over tables with keys into branches whose union it is.

Answers are a set, so DISTINCT, UNION ALL and ORDER BY are left out. What isn't monotone in a table with a key is refused by name;
what reads other tables alone is the same in each repair and may be anything.
"""

from __future__ import annotations

from itertools import product
from typing import Any, Dict, List, Mapping, Sequence, Set, Tuple

from ..errors import QueryRefused
from .engine import Engine
from .names import Common, Env, Names, star_items
from .query import Branch, Column, ColumnOf, Element, Keyed, Piece, Scope
from .rendering import rendered, with_head
from .sources import Sources
from .tokens import Token, asks, closing, cut, depths, is_wrapped, mark, text_of

_CLAUSES = {
    "group": "GROUP BY", "having": "HAVING", "window": "WINDOW", "limit": "LIMIT", "offset": "OFFSET", "fetch": "FETCH", "for": "FOR",
    "except": "EXCEPT", "intersect": "INTERSECT", "minus": "MINUS", "qualify": "QUALIFY", "into": "INTO", "lock": "LOCK IN SHARE MODE",
    "procedure": "PROCEDURE", "returning": "RETURNING",
}
_HINTS = {
    "limit": "ask without it and take the first answers", "offset": "ask without it", "fetch": "ask without it and take the first answers",
    "group": "over a table without a key it may stand in a derived table", "having": "over a table without a key it may stand in a derived table",
    "except": "a table without a key may be left out by NOT EXISTS", "intersect": "write EXISTS or IN",
}
#: Signs and words that no left side of IN has outside of brackets: what binds less tightly than IN in one database and more in another.
_LOOSE = ("=", "<", ">", "!", "~")
_LOOSE_WORDS = ("is", "not", "like", "ilike", "glob", "regexp", "rlike", "match", "between", "in", "and", "or", "similar", "isnull", "notnull",
                "xor", "escape", "exists", "overlaps")

Choice = Tuple[List[Element], List[List[Piece]]]


class Reader:
    """Reads one question. certain: the tables without a key that it reads. taken: the names of elements so far. commons:
    the names of queries of WITH."""

    MOST_BRANCHES = 64

    def __init__(self, engine: Engine, keyed: Mapping[str, Keyed], arguments: Mapping[str, Any]) -> None:
        self.engine = engine
        self.keyed = keyed
        self.arguments = arguments
        self.names = Names(engine, keyed)
        self.certain: Set[str] = set()
        self.taken: Set[str] = set()
        self.commons: Set[str] = set()
        self._spelled: Dict[str, str] = {}
        self._count = 0

    def fresh(self) -> int:
        """A number that nothing has yet."""
        self._count += 1
        return self._count

    def check_spelling(self, alias: Token) -> None:
        """Refuses names of tables that differ in their capitals alone: databases differ in whether they are one."""
        text = alias.text.strip('"`[]')
        if self._spelled.setdefault(alias.value, text) != text and self.engine.reads_capitals:
            raise QueryRefused("the names %s and %s: write them alike" % (self._spelled[alias.value], text))

    def described(self, sql: str) -> List[Column]:
        """The columns of a query."""
        return self.engine.described(sql, self.arguments)

    def read(self, tokens: Sequence[Token]) -> List[Branch]:
        """The branches of a whole question."""
        if not asks(tokens) or tokens[0].is_word("values"):
            raise QueryRefused("%s: a query begins with SELECT or WITH" % (tokens[0].text if tokens else "an empty text"))
        self._check_signs(tokens)
        for at, token in enumerate(tokens):
            if token.is_word("table") and not (at and tokens[at - 1].is_mark(".")):
                raise QueryRefused("TABLE in a query: write SELECT * FROM")
        while is_wrapped(tokens):
            tokens = tokens[1:-1]
        try:
            return self.query(tokens, {}, [])
        except IndexError:
            raise QueryRefused("the query ends where more is wanted") from None

    def _check_signs(self, tokens: Sequence[Token]) -> None:
        run = ""
        for token in (*tokens, mark(" ")):
            is_sign = token.kind == "mark" and token.value in set("+-*/<>=~!@#%^&|`?")
            if run and (token.space or not is_sign):
                fault = self.engine.operator_fault(run)
                if fault:
                    raise QueryRefused("%s: %s" % (run, fault))
                run = ""
            if is_sign:
                run += token.value

    # WITH, UNION.

    def query(self, tokens: Sequence[Token], env: Env, outer: Scope, is_within: bool = False) -> List[Branch]:
        """The branches of a query. outer: the elements around it, the innermost first. is_within: whether its elements come to those."""
        own: Dict[str, Common] = {}
        if tokens and tokens[0].is_word("with"):
            if is_within:
                raise QueryRefused("WITH in a subquery over tables with keys: put it at the head of the query")
            own, at = self._commons(tokens, env)
            tokens, env = tokens[at:], {**env, **own}
        tokens = cut(tokens, "order")[0]
        self._check_clauses(tokens)
        branches: List[Branch] = []
        parts = [part[1:] if at and part and part[0].is_word("all", "distinct") else part for at, part in enumerate(cut(tokens, "union"))]
        for part in parts:
            found = self.query(part[1:-1], env, outer, is_within) if is_wrapped(part) else self._select(part, env, outer, is_within)
            branches += found
        if len(parts) > 1:
            self.check_parts(branches, env, "UNION", is_inner=False)
        self._check_count(branches)
        head = self.head(own)
        for branch in branches:
            branch.head = with_head(head, branch.head)
        return branches

    def _check_count(self, found: Sequence[object]) -> None:
        if len(found) > self.MOST_BRANCHES:
            raise QueryRefused("more than %d cases of OR, IN and UNION: ask them apart" % self.MOST_BRANCHES)

    def _check_clauses(self, tokens: Sequence[Token]) -> None:
        for at, token, depth in depths(tokens):
            is_call = tokens[at + 1:at + 2] and tokens[at + 1].is_mark("(") and token.is_word("minus", "lock")
            is_part = at > 0 and tokens[at - 1].is_mark(".") or tokens[at + 1:at + 2] and tokens[at + 1].is_mark(".")
            if depth == 0 and token.is_word(*_CLAUSES) and not is_call and not is_part:
                hint = _HINTS.get(token.value, "")
                raise QueryRefused("%s over tables with keys%s" % (_CLAUSES[token.value], ": " + hint if hint else ""))

    def _commons(self, tokens: Sequence[Token], env: Env) -> Tuple[Dict[str, Common], int]:
        """The queries of WITH, and where the query behind begins."""
        found: Dict[str, Common] = {}
        at = 1
        while True:
            if tokens[at].is_word("recursive") and not (tokens[at + 1].is_word("as") or tokens[at + 1].is_mark("(")):
                raise QueryRefused("WITH RECURSIVE")
            name = tokens[at]
            at += 1
            columns: Sequence[Token] = ()
            if tokens[at].is_mark("("):
                end = closing(tokens, at)
                columns, at = tokens[at:end + 1], end + 1
            if not name.is_name or not tokens[at].is_word("as"):
                raise QueryRefused("WITH %s: AS (..) is wanted behind a name" % name.text)
            at += 1
            while tokens[at].is_word("not", "materialized"):
                at += 1
            end = closing(tokens, at)
            self.commons.add(name.value)
            found[name.value] = self._common(name, tokens[at + 1:end], columns, {**env, **found})
            if name.value in env:
                raise QueryRefused("WITH %s stands within another: call it otherwise" % name.text)
            at = end + 1
            if not tokens[at].is_mark(","):
                return found, at
            at += 1

    def _common(self, name: Token, tokens: Sequence[Token], columns: Sequence[Token], env: Env) -> Common:
        if not asks(tokens):
            raise QueryRefused("WITH %s: only queries are taken" % name.text)
        self.names.check_certain(tokens, [])
        is_keyed = self.names.may_read(tokens, env)
        if not is_keyed:
            self.note_certain(tokens, env)
        return Common(name, tuple(tokens), tuple(columns), env, is_keyed)

    def head(self, env: Env) -> str:
        """WITH and those of its queries that read certain tables alone."""
        texts = [common.text() for common in env.values() if not common.is_keyed]
        return "WITH %s " % ", ".join(texts) if texts else ""

    def note_certain(self, tokens: Sequence[Token], env: Env) -> None:
        """Notes the tables that a text names in its FROMs."""
        is_source = [False]
        for at, token in enumerate(tokens):
            if token.is_mark("("):
                is_source.append(False)
            elif token.is_mark(")") and len(is_source) > 1:
                is_source.pop()
            elif token.is_word("from", "join"):
                is_source[-1] = True
            elif token.is_word("where", "on", "using", "group", "having", "order", "union", "except", "intersect", "limit", "select"):
                is_source[-1] = False
            elif is_source[-1] and token.is_name and (tokens[at - 1].is_word("from", "join") or tokens[at - 1].is_mark(",")):
                if token.value not in env and self.engine.columns_named(token.value):
                    self.certain.add(token.text)

    def check_parts(self, branches: Sequence[Branch], env: Env, what: str, is_inner: bool = True, around: Sequence[Element] = ()) -> None:
        """Refuses a union that means something else than its parts do alone. around: the elements of the queries around it."""
        if len({id(branch.items) for branch in branches}) <= 1:
            return
        parts: List[List[Column]] = []
        for branch in branches if is_inner and self.engine.checks_types else ():
            plain = Branch(branch.items, [*around, *branch.elements], [], branch.head)
            parts.append(self.described(with_head(self.head(env), rendered(plain, {}).text)))
        fault = self.engine.union_fault(branches, parts, is_inner)
        if fault:
            raise QueryRefused("%s: %s" % (what, fault))

    # SELECT.

    def _select(self, tokens: Sequence[Token], env: Env, outer: Scope, is_within: bool) -> List[Branch]:
        """The branches of one SELECT: one for each case of its condition."""
        if not tokens or not tokens[0].is_word("select"):
            raise QueryRefused("%s where SELECT is wanted" % (text_of(tokens[:2]) or "nothing"))
        body = tokens[2:] if tokens[1:2] and tokens[1].is_word("all", "distinct") else tokens[1:]
        if body and len(body) < len(tokens) - 1 and body[0].is_word("on"):
            raise QueryRefused("DISTINCT ON")
        items, *rest = cut(body, "from")
        if len(rest) > 1:
            raise QueryRefused("FROM twice")
        source, *where = cut(rest[0], "where") if rest else [[]]
        if len(where) > 1:
            raise QueryRefused("WHERE twice")
        if not rest and cut(items, "where")[1:]:
            raise QueryRefused("WHERE without FROM")
        sources = Sources(self, env, is_within)
        choices = sources.read(source) if source else [[]]
        branches: List[Branch] = []
        for elements in choices:
            branches += self._chosen(items, elements, where[0] if where else [], sources, env, outer)
        return branches

    def _chosen(self, items: List[Token], elements: List[Element], where: List[Token], sources: Sources, env: Env, outer: Scope) -> List[Branch]:
        """The branches of a SELECT whose FROM is chosen."""
        scope = [elements, *outer]
        if self.names.reads_keyed(items, env):
            raise QueryRefused("a subquery over a table with a key in the select list: join it in FROM")
        for place, tokens in sources.ons:
            if self.names.reads_keyed(tokens, env):
                raise QueryRefused("a subquery over a table with a key in ON: write it in WHERE")
            at, element = next((at, element) for at, element in enumerate(elements) if any(element is other for other in place))
            self.note_certain(tokens, env)
            near = [elements[:at + 1], elements[at + 1:], *outer]  # a name means a table that is joined already, if it can
            element.on += [*([Token("word", "AND", "and")] if element.on else []), mark("(", " "),
                           *self.names.resolved(tokens, near, sources.merged), mark(")")]
        pieces = self._items(items, elements, scope, sources)
        self.note_certain(items, env)
        names = {item[-1].value for item in cut(items, ",") if len(item) > 1 and item[-1].is_name}
        found: List[Branch] = []
        for more, conditions in self._cases(where, env, scope, sources.merged):
            self._check_aliases(names, more, conditions)
            found.append(Branch(pieces, elements + more, conditions, names=names))
        return found

    def _items(self, items: List[Token], elements: List[Element], scope: Scope, sources: Sources) -> List[List[Piece]]:
        found: List[List[Piece]] = []
        for item in cut(items, ","):
            if len(item) == 1 and item[0].is_mark("*"):
                if sources.merged:
                    raise QueryRefused("* beside USING: name the columns")
                for element in elements:
                    for name in element.columns:
                        self.names.use(element, name)
                found += star_items(elements)
            elif len(item) == 3 and item[1].is_mark(".") and item[2].is_mark("*"):
                those = [element for element in elements if element.name == item[0].value]
                if not those:
                    raise QueryRefused("%s: no table of that name is here" % text_of(item))
                for name in those[0].columns:
                    self.names.use(those[0], name)
                found += star_items(those[:1])
            elif item:
                found.append(self.names.resolved(item, scope, sources.merged, is_item=True))
        return found

    def _check_aliases(self, names: Set[str], more: Sequence[Element], conditions: Sequence[Sequence[Piece]]) -> None:
        """Refuses a condition that may name an item, where a column that came from a subquery has that name too."""
        if not self.engine.reads_aliases:
            return
        columns = {column for element in more for column in element.columns}
        for condition in conditions:
            for at, piece in enumerate(condition):
                if isinstance(piece, Token) and piece.is_name and piece.value in columns and piece.value in names:
                    raise QueryRefused("%s in a condition may be an item or a column: write its expression" % piece.text)

    # WHERE.

    def _cases(self, tokens: List[Token], env: Env, scope: Scope, merged: Mapping[str, ColumnOf]) -> List[Choice]:
        """The cases of a condition, one of which has to hold: each with the elements that it adds and its conditions."""
        if not tokens:
            return [([], [])]
        if not self.names.reads_keyed(tokens, env):
            self.note_certain(tokens, env)
            return [([], [self.names.resolved(tokens, scope, merged)])]
        cases = cut(tokens, "or")
        if len(cases) > 1:
            found = [case for part in cases for case in self._cases(part, env, scope, merged)]
            self._check_count(found)
            return found
        parts = cut(tokens, "and")
        if len(parts) > 1:
            each = [self._cases(part, env, scope, merged) for part in parts]
            count = 1
            for one in each:
                count *= len(one)
            self._check_count(range(count))
            return [([element for case in chosen for element in case[0]], [text for case in chosen for text in case[1]])
                    for chosen in product(*each)]
        if is_wrapped(tokens) and not asks(tokens[1:]):
            return self._cases(tokens[1:-1], env, scope, merged)
        return self._subquery(tokens, env, scope, merged)

    def _subquery(self, tokens: List[Token], env: Env, scope: Scope, merged: Mapping[str, ColumnOf]) -> List[Choice]:
        """EXISTS or IN over tables with keys: its elements come to those around it."""
        if tokens[0].is_word("not"):
            raise QueryRefused("NOT before a subquery over a table with a key: a row that is missing isn't certain; over tables without keys it may stand")
        begin = next((at for at, token in enumerate(tokens) if token.is_mark("(") and closing(tokens, at) == len(tokens) - 1), -1)
        before = tokens[:begin] if begin >= 0 else []
        if begin < 0 or not before or not asks(tokens[begin + 1:]):
            raise QueryRefused("a subquery over a table with a key within an expression: write EXISTS or IN for itself between AND and OR")
        inner: List[Token] = tokens[begin + 1:-1]
        while is_wrapped(inner):
            inner = inner[1:-1]
        if len(before) == 1 and before[0].is_word("exists"):
            return [(branch.elements, branch.conditions) for branch in self.query(inner, env, scope, True)]
        left = self._left_side(before, env)
        branches = self.query(inner, env, scope, True)
        self.check_parts(branches, env, "a union behind IN", around=[element for level in scope for element in level])
        if self.engine.collation_fault(branches):
            raise QueryRefused("IN over columns whose texts may be equal and differ: write EXISTS")
        found: List[Choice] = []
        for branch in branches:
            if len(left) != len(branch.items):
                raise QueryRefused("IN with %d columns on its left and %d on its right" % (len(left), len(branch.items)))
            equal = [self._equal(self.names.resolved(side, scope, merged), item) for side, item in zip(left, branch.items)]
            found.append((branch.elements, [*branch.conditions, *equal]))
        return found

    def _left_side(self, before: List[Token], env: Env) -> List[List[Token]]:
        """The expressions to the left of IN or = ANY."""
        if before[-1].is_word("in") and len(before) > 1 and not before[-2].is_word("not"):
            left = before[:-1]
        elif before[-1].is_word("any", "some") and len(before) > 2 and before[-2].is_mark("=") and not before[-3].is_mark(*_LOOSE):
            left = before[:-2]
        else:
            raise QueryRefused("%s before a subquery over a table with a key: EXISTS, IN and = ANY are taken" % text_of(before[-2:]).upper())
        for _, token, depth in depths(left):
            if depth == 0 and (token.is_mark(*_LOOSE) or token.is_word(*_LOOSE_WORDS)):
                raise QueryRefused("%s to the left of IN: put the left side in brackets" % token.text)
        if self.names.reads_keyed(left, env):
            raise QueryRefused("a subquery over a table with a key to the left of IN")
        self.note_certain(left, env)
        return cut(left[1:-1], ",") if is_wrapped(left) and len(cut(left[1:-1], ",")) > 1 else [left]

    def _equal(self, left: List[Piece], item: List[Piece]) -> List[Piece]:
        """That a left side is an item of the subquery, without the item's name."""
        names = [at for at, piece in enumerate(item) if isinstance(piece, Token) and piece.is_word("as") and at == len(item) - 2]
        right = item[:names[0]] if names else item
        return [mark("("), *left, mark(")"), mark("=", " "), mark("(", " "), *right, mark(")")]
