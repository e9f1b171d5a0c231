"""FROM: elements, and for derived unions one list of elements for each choice of their parts."""

from __future__ import annotations

from itertools import product
from typing import TYPE_CHECKING, Dict, List, Optional, Sequence, Tuple

from ..errors import QueryRefused
from .names import Env
from .query import Branch, Column, ColumnOf, Element, Leaf
from .rendering import with_head
from .tokens import Token, asks, closing, cut, is_wrapped, mark, scanned, text_of, word

if TYPE_CHECKING:
    from .reader import Reader

_JOIN_WORDS = ("join", "inner", "left", "right", "full", "cross", "natural", "outer", "straight_join")
_NO_ALIAS = (*_JOIN_WORDS, "on", "using", "tablesample", "indexed", "not", "window", "union")
_NO_JOINS = {
    "right": "RIGHT JOIN: turn it to a LEFT JOIN of a table without a key",
    "full": "FULL JOIN: ask its parts by a UNION",
    "natural": "NATURAL JOIN: write ON or USING",
    "straight_join": "STRAIGHT_JOIN: write JOIN",
}

Choice = List[Element]


class Sources:
    """Reads one FROM. merged: what the columns behind USING mean."""

    def __init__(self, reader: "Reader", env: Env, is_within: bool) -> None:
        """is_within: whether it is that of a subquery, whose elements come to those of the query around it."""
        self.reader = reader
        self.env = env
        self.is_within = is_within
        self.merged: Dict[str, ColumnOf] = {}
        self.ons: List[Tuple[List[Element], List[Token]]] = []  # the conditions behind ON, with the choices of the element they stand at

    def read(self, tokens: Sequence[Token]) -> List[Choice]:
        """The choices of a whole FROM."""
        places: List[List[Element]] = []
        for part in cut(tokens, ","):
            self._joined(part, places, len(places))
        choices = [list(choice) for choice in product(*places)]
        if len(choices) > self.reader.MOST_BRANCHES:
            raise QueryRefused("more than %d choices of the parts of unions" % self.reader.MOST_BRANCHES)
        for choice in choices:
            names = [element.name for element in choice]
            for name in names:
                if names.count(name) > 1:
                    raise QueryRefused("%s stands twice in one FROM: give one another name behind AS" % name)
        return choices

    def _joined(self, tokens: Sequence[Token], places: List[List[Element]], first: int) -> None:
        """Reads tables with JOIN between them, and adds them to the places. first: where those of this part begin."""
        at = 0
        is_left = False
        while at < len(tokens):
            if tokens[at].is_word(*_JOIN_WORDS):
                if tokens[at].value in _NO_JOINS:
                    raise QueryRefused(_NO_JOINS[tokens[at].value])
                is_left = is_left or tokens[at].is_word("left")
                at += 1
                continue
            at = self._place(tokens, at, places, is_left)
            at = self._condition(tokens, at, places, first, is_left)
            is_left = False

    def _place(self, tokens: Sequence[Token], at: int, places: List[List[Element]], is_left: bool) -> int:
        """Reads a table, a derived table or brackets around joins."""
        if tokens[at].is_mark("(") and not asks(tokens[at + 1:]):
            end = closing(tokens, at)
            if is_left:
                raise QueryRefused("LEFT JOIN of brackets around joins: write a derived table")
            self._joined(tokens[at + 1:end], places, len(places))
            return end + 1
        elements, at = self._element(tokens, at)
        for element in elements:
            element.is_left = is_left
            if is_left and not isinstance(element.source, str):
                raise QueryRefused("LEFT JOIN of %s, which has a key or reads a table that has: ask the rows with and without a match apart, "
                                   "or leave out its key" % element.name)
        places.append(elements)
        return at

    def _condition(self, tokens: Sequence[Token], at: int, places: List[List[Element]], first: int, is_left: bool) -> int:
        """Reads ON or USING behind a table, if they are there."""
        if tokens[at:at + 1] and tokens[at].is_word("on"):
            end = next((place for place in range(at, len(tokens)) if tokens[place].is_word(*_JOIN_WORDS) and not _is_deep(tokens, at, place)
                        and not _is_call(tokens, place)), len(tokens))
            if places[-1][0].is_left and not is_left:
                raise QueryRefused("ON behind brackets that end with a LEFT JOIN: write the joins without brackets")
            self.ons.append((places[-1], list(tokens[at + 1:end])))
            return end
        if tokens[at:at + 1] and tokens[at].is_word("using"):
            end = closing(tokens, at + 1)
            for part in cut(tokens[at + 2:end], ","):
                self._using(part[0], places, first, is_left)
            if tokens[end + 1:end + 2] and tokens[end + 1].is_word("as"):
                raise QueryRefused("USING with a name: write ON")
            return end + 1
        return at

    def _using(self, token: Token, places: List[List[Element]], first: int, is_left: bool) -> None:
        """A column behind USING is that of the table to the left."""
        lefts = [elements for elements in places[first:-1] if token.value in elements[0].columns]
        rights = places[-1]
        if len(lefts) != 1 or len(lefts[0]) > 1 or len(rights) > 1 or is_left or token.value not in rights[0].columns:
            raise QueryRefused("USING (%s): write ON" % token.text)
        left, right = lefts[0][0], rights[0]
        columns = left.columns[token.value], right.columns[token.value]
        if columns[0].type != columns[1].type and self.reader.engine.using_converts:
            raise QueryRefused("USING (%s): the types of the columns differ: write ON" % token.text)
        self.merged.setdefault(token.value, ColumnOf(left, columns[0], " "))
        self.reader.names.use(left, token.value)
        self.reader.names.use(right, token.value)
        if right.on:
            right.on.append(word("AND"))
        right.on += [self.merged[token.value], mark("=", " "), ColumnOf(right, columns[1], " ")]

    def _element(self, tokens: Sequence[Token], at: int) -> Tuple[List[Element], int]:
        """A table or a derived table with its name; one element for each part of a union."""
        if tokens[at].is_mark("("):
            end = closing(tokens, at)
            inner: Sequence[Token] = tokens[at + 1:end]
            alias, at = self._alias(tokens, end + 1)
            while is_wrapped(inner):
                inner = inner[1:-1]
            if alias is None:
                raise QueryRefused("a derived table without a name: give it one behind AS")
            return self._derived(inner, alias, self.env), at
        parts, at = _parts(tokens, at)
        if at < len(tokens) and tokens[at].is_mark("("):
            raise QueryRefused("%s(..) in FROM: a function there isn't taken" % text_of(parts))
        if parts[0].is_word("only", "lateral", "unnest", "table", "values", "select"):
            raise QueryRefused("%s in FROM" % parts[0].text.upper())
        alias, at = self._alias(tokens, at)
        if len(parts) == 1 and parts[0].value in self.env:
            return self._common(parts[0], alias or parts[0]), at
        return self._relation(parts, alias or parts[-1]), at

    def _alias(self, tokens: Sequence[Token], at: int) -> Tuple[Optional[Token], int]:
        """The name behind a table, if it has one."""
        alias: Optional[Token] = None
        if tokens[at:at + 1] and tokens[at].is_word("as"):
            alias, at = tokens[at + 1], at + 2
        elif tokens[at:at + 1] and tokens[at].is_name and not tokens[at].is_word(*_NO_ALIAS):
            alias, at = tokens[at], at + 1
        if tokens[at:at + 1] and not tokens[at].is_word("on", "using", *_JOIN_WORDS):
            raise QueryRefused("%s behind a table in FROM" % tokens[at].text)
        if alias is not None and not alias.is_name:
            raise QueryRefused("%s as the name of a table" % alias.text)
        return alias, at

    def _common(self, name: Token, alias: Token) -> List[Element]:
        """A query of WITH by its name."""
        common = self.env[name.value]
        if not common.is_keyed:
            columns = self.reader.described("%sSELECT * FROM %s" % (self.reader.head(self.env), name.text))
            return [self._made(name.text, alias, columns)]
        if common.columns:
            raise QueryRefused("WITH %s(..), which reads a table with a key: name its columns in its SELECT" % name.text)
        return self._derived(common.tokens, alias, common.env)

    def _relation(self, parts: Sequence[Token], alias: Token) -> List[Element]:
        """A table or a view."""
        reader = self.reader
        relation = reader.engine.relation(parts)
        keyed = reader.keyed.get(relation.name)
        if keyed is not None:
            return [self._made(Leaf(keyed, reader.fresh()), alias, relation.columns)]
        if parts[-1].value in reader.names.hidden:
            raise QueryRefused("%s reads a table that has a key, in a way that can't be followed: ask that table itself" % text_of(parts))
        if relation.definition is None:
            if relation.is_table:
                reader.certain.add(text_of(parts))
            return [self._made(text_of(parts), alias, relation.columns)]
        inner = scanned(relation.definition, reader.engine.lexicon)
        reader.names.check_certain(inner, [])
        if not reader.names.may_read(inner, {}):
            reader.certain.add(text_of(parts))
            return [self._made(text_of(parts), alias, relation.columns)]
        taken = [token.text for token in inner if token.is_name and token.value in reader.commons]
        if taken:
            raise QueryRefused("WITH %s: the view %s names something of that name: call it otherwise" % (taken[0], relation.name))
        return self._derived(inner, alias, {})

    def _derived(self, inner: Sequence[Token], alias: Token, env: Env) -> List[Element]:
        """A derived table: a text where it reads certain tables alone, else one element for each part of its union."""
        reader = self.reader
        text = with_head(reader.head(env), text_of(inner))
        columns = reader.described(text)
        if len({column.name for column in columns}) < len(columns):
            raise QueryRefused("%s has two columns of one name: name them apart" % alias.text)
        if not reader.names.may_read(inner, env):
            reader.names.check_certain(inner, [])
            reader.note_certain(inner, env)
            return [self._made("(%s)" % text, alias, columns)]
        branches = reader.query(inner, env, [])
        reader.check_parts(branches, env, "a union within the query")
        first: Optional[Tuple[str, str, bool]] = None
        made: List[Element] = []
        for branch in branches:
            element = self._made(branch, alias, columns) if first is None else Element(
                branch, first[0], first[1], {column.name: column for column in columns}, first[2])
            first = element.alias, element.name, element.is_renamed
            made.append(element)
        return made

    def _made(self, source: "str | Leaf | Branch", alias: Token, columns: Sequence[Column]) -> Element:
        """An element; where its name is that of another element around a subquery, it is printed by a name of our own."""
        reader = self.reader
        reader.check_spelling(alias)
        is_renamed = self.is_within and alias.value in reader.taken
        reader.taken.add(alias.value)
        text = "cqa_a%d" % reader.fresh() if is_renamed else alias.text
        return Element(source, text, alias.value, {column.name: column for column in columns}, is_renamed)


def _parts(tokens: Sequence[Token], at: int) -> Tuple[List[Token], int]:
    """A name, part by part, and where it ends."""
    if not tokens[at].is_name:
        raise QueryRefused("%s in FROM, where a table is wanted" % tokens[at].text)
    parts = [tokens[at]]
    at += 1
    while at + 1 < len(tokens) and tokens[at].is_mark(".") and tokens[at + 1].is_name:
        parts.append(tokens[at + 1])
        at += 2
    return parts, at


def _is_deep(tokens: Sequence[Token], begin: int, place: int) -> bool:
    """Whether a place stands within brackets that open behind a beginning."""
    depth = 0
    for token in tokens[begin:place]:
        depth += token.is_mark("(") - token.is_mark(")")
    return depth > 0


def _is_call(tokens: Sequence[Token], place: int) -> bool:
    """Whether left and right are functions here."""
    return place + 1 < len(tokens) and tokens[place + 1].is_mark("(") and tokens[place].is_word("left", "right")

