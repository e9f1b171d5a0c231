"""What the names in a text mean: columns of elements, elements, functions.

A name that means a column or an element is kept as such, so that it still does where texts are put together. Columns count as used
where their name stands, even where it means something else: too many used columns are never wrong.
"""

from __future__ import annotations

from dataclasses import dataclass
from typing import Dict, List, Mapping, Optional, Sequence, Set, Tuple

from ..errors import QueryRefused
from .engine import Engine
from .query import Branch, ColumnOf, Column, Element, Keyed, Leaf, NameOf, Piece, Scope
from .tokens import Token, asks, closing, cut, scanned, text_of, word

#: Words that may stand before a bracket and are no functions, or whose function is the same for all databases.
_NO_CALLS = frozenset("""in and or not exists any all some as on using where select from union when then else case between like ilike
 values cast extract row array numeric decimal varchar char character timestamp time interval bit float is by similar escape with
 distinct join over filter glob regexp match collate order group having limit offset intersect except within partition int integer
 materialized rlike div mod binary""".split())
#: Words that name no column where they aren't in quotes.
_RESERVED = frozenset("""select from where and or not null case when then else end in is like between exists as on using current_date
 current_time current_timestamp distinct all any some cast localtime localtimestamp current_user session_user union order group by asc
 desc join inner left outer collate isnull notnull unknown""".split())
_RELATION_FOLLOWS_NOT = frozenset("""select where and or not on by distinct when then else case having between like ilike is = < > + - * /
 | % ~ ! ^ & # @ collate""".split())
_SYSTEM = frozenset("rowid _rowid_ oid ctid xmin xmax cmin cmax tableoid".split())


@dataclass(frozen=True)
class Common:
    """A query of WITH. columns: the list behind its name, if there is one. is_keyed: whether it reads a table with a key."""

    name: Token
    tokens: Tuple[Token, ...]
    columns: Tuple[Token, ...]
    env: "Mapping[str, Common]"
    is_keyed: bool

    def text(self) -> str:
        """Its part of WITH."""
        return "%s%s AS (%s)" % (self.name.text, text_of(self.columns), text_of(self.tokens))


Env = Mapping[str, Common]


class Names:
    """The names of one question. used: the columns of each keyed table that are used, by its whole name."""

    def __init__(self, engine: Engine, keyed: Mapping[str, Keyed]) -> None:
        self.engine = engine
        self.keyed = keyed
        self.used: Dict[str, Set[str]] = {name: {column.name for column in table.key} for name, table in keyed.items()}
        self._checked: Set[str] = set()  # the names of views that were looked at
        self.readers, self.hidden = engine.readers(set(keyed))

    # What reads tables with keys.

    def reads_keyed(self, tokens: Sequence[Token], env: Env) -> bool:
        """Whether a text has a subquery that may read a table with a key."""
        for at, token in enumerate(tokens):
            if token.is_mark("(") and asks(tokens[at + 1:]) and self.may_read(tokens[at + 1:closing(tokens, at)], env):
                return True
        return False

    def may_read(self, query: Sequence[Token], env: Env) -> bool:
        """Whether a query may read a table with a key: whether the name of one, or of what reads one, stands where a table may stand."""
        found = False
        for at, token in enumerate(query):
            if token.is_name and not _is_before_point(query, at) and not (at and query[at - 1].value in _RELATION_FOLLOWS_NOT):
                known = env.get(token.value) if not (at and query[at - 1].is_mark(".")) else None
                if known is None and token.value in self.hidden:
                    raise QueryRefused("%s reads a table that has a key, in a way that can't be followed: ask that table itself" % token.text)
                found = found or (known.is_keyed if known else token.value in self.readers)
        return found

    # What names mean.

    def resolved(self, tokens: Sequence[Token], scope: Scope, merged: Mapping[str, ColumnOf], is_item: bool = False) -> List[Piece]:
        """A text with its names told apart. merged: what the columns behind USING mean."""
        pieces: List[Piece] = []
        at = 0
        alias = _implicit_alias(tokens) if is_item else -1
        while at < len(tokens):
            if tokens[at].is_mark("(") and asks(tokens[at + 1:]):
                end = closing(tokens, at) + 1
                pieces += self.within(tokens[at:end], scope)
            elif tokens[at].is_name and at != alias:
                end = _end_of_chain(tokens, at)
                pieces += self._chain(tokens, at, end, scope, merged)
            else:
                end = at + 1
                self._note(tokens[at], scope)
                pieces.append(tokens[at])
            at = end
        return pieces

    def _chain(self, tokens: Sequence[Token], at: int, end: int, scope: Scope, merged: Mapping[str, ColumnOf]) -> List[Piece]:
        """What a name means, or several with points between them."""
        chain = list(tokens[at:end])
        before = tokens[at - 1] if at else None
        after = tokens[end] if end < len(tokens) else None
        for token in chain:
            self._note(token, scope)
        if before is not None and (before.is_mark(".", "::") or before.is_word("as", "collate")):
            return list(chain)
        if after is not None and after.is_mark("("):
            if len(chain) > 1 or not chain[0].is_word(*_NO_CALLS):
                self._check_call(tokens, at, end, False)
            return list(chain)
        if chain[0].is_word("in") and self.engine.takes_in_names and (after is None or not after.is_mark("(")):
            raise QueryRefused("IN before a name: write IN (SELECT .. FROM ..)")
        if len(chain) == 1:
            return self._single(chain[0], after, scope, merged)
        if len(chain) == 3:
            return self._dotted(chain, scope)
        raise QueryRefused("%s: give the table another name behind AS, and use that" % text_of(chain))

    def _single(self, token: Token, after: Optional[Token], scope: Scope, merged: Mapping[str, ColumnOf]) -> List[Piece]:
        if token.is_word(*_RESERVED) or after is not None and after.kind == "text" and self.engine.lexicon.has_typed_texts:
            return [token]
        if token.value in merged:
            return [merged[token.value]._replace(space=token.space)]
        for level in scope:
            having = [element for element in level if token.value in element.columns]
            if len(having) > 1:
                raise QueryRefused("the column %s is in several tables: write %s.%s" % (token.text, having[0].name, token.text))
            if having:
                return [ColumnOf(having[0], having[0].columns[token.value], token.space)]
        element = _element(token.value, scope)
        if element is not None:
            self._use_all(element)
            return [NameOf(element, token.space)]
        if token.value in _SYSTEM:
            raise QueryRefused("the system column %s: it tells rows apart that are equal" % token.text)
        if token.kind == "name" and self.engine.has_quoted_texts:
            raise QueryRefused("%s: no table here has a column of that name; a text is written '..'" % token.text)
        return [token]

    def _dotted(self, chain: Sequence[Token], scope: Scope) -> List[Piece]:
        """table.column, or table.* where it isn't an item of its own."""
        element = _element(chain[0].value, scope)
        if element is None:
            raise QueryRefused("%s: no table of that name is here" % text_of(chain))
        if chain[2].is_mark("*"):
            self._use_all(element)
            return [NameOf(element, chain[0].space), *chain[1:]]
        column = element.columns.get(chain[2].value)
        if column is None:
            raise QueryRefused("%s: %s has no column of that name that can be asked" % (text_of(chain), chain[0].text))
        return [ColumnOf(element, column, chain[0].space)]

    # Subqueries of certain tables, which are handed on.

    def within(self, tokens: Sequence[Token], scope: Scope) -> List[Piece]:
        """A text that reads certain tables alone, with subqueries: its own names stay, and those of renamed elements are replaced."""
        self.check_certain(tokens, scope)
        pieces: List[Piece] = []
        bare = {token.value for at, token in enumerate(tokens) if token.is_name and not _is_before_point(tokens, at)}
        for at, token in enumerate(tokens):
            self._note(token, scope)
            element = _element(token.value, scope) if token.is_name and not (at and tokens[at - 1].is_mark(".")) else None
            if element is None or not element.is_renamed:
                if element is not None and not _is_before_point(tokens, at):
                    self._use_all(element)
                pieces.append(token)
                continue
            if token.value in bare:
                raise QueryRefused("%s stands for two tables: give one of them another name behind AS" % token.text)
            if tokens[at + 2:at + 3] and tokens[at + 2].is_mark("*"):
                self._use_all(element)
            pieces.append(NameOf(element, token.space))
        return pieces

    def check_certain(self, tokens: Sequence[Token], scope: Scope) -> None:
        """Refuses what isn't the same each time in a text that reads certain tables alone, also within views, and names in quotes that
        may be texts."""
        for name in {token.value for token in tokens if token.is_name} - self._checked:
            self._checked.add(name)
            for text in self.engine.definitions_named(name):
                self.check_certain(scanned(text, self.engine.lexicon), [])
        known: Set[str] = set()
        if self.engine.has_quoted_texts and any(token.text[0] == '"' for token in tokens):
            known = self._known_within(tokens, scope)
        for at, token in enumerate(tokens):
            after = tokens[at + 1] if at + 1 < len(tokens) else None
            is_type = at > 0 and (tokens[at - 1].is_mark("::") or tokens[at - 1].is_word("as"))
            if token.is_name and after is not None and after.is_mark("(") and not token.is_word(*_NO_CALLS) and not is_type:
                self._check_call(tokens, at, at + 1, True)
            if token.is_word("in") and self.engine.takes_in_names and (after is None or not after.is_mark("(")):
                raise QueryRefused("IN before a name: write IN (SELECT .. FROM ..)")
            if token.is_word("insert", "update", "delete", "merge", "table", "recursive") and not (at and tokens[at - 1].is_mark(".")):
                raise QueryRefused("%s within a query" % token.text.upper())
            is_loose = token.kind == "name" and token.text[0] == '"' and not (after is not None and after.is_mark(".", "("))
            if is_loose and self.engine.has_quoted_texts and token.value not in known and not (at and tokens[at - 1].is_mark(".")):
                raise QueryRefused("%s: no table here has a column of that name; a text is written '..'" % token.text)

    def _known_within(self, tokens: Sequence[Token], scope: Scope) -> Set[str]:
        """What names in quotes may mean in a subquery."""
        known = {name for level in scope for element in level for name in (*element.columns, element.name)}
        for at, token in enumerate(tokens):
            if token.is_name:
                columns = self.engine.columns_named(token.value)
                known |= columns | ({token.value} if columns or at and tokens[at - 1].is_word("as") else set())
        return known

    # Functions, and used columns.

    def _check_call(self, tokens: Sequence[Token], at: int, end: int, is_within: bool) -> None:
        arguments = tokens[end + 1:closing(tokens, end)]
        count = len(cut(arguments, ",")) if arguments else 0
        fault = self.engine.function_fault(tokens[end - 1].value, count, is_within)
        if fault:
            raise QueryRefused("%s: %s" % (text_of(tokens[at:end]), fault))

    def _note(self, token: Token, scope: Scope) -> None:
        """A column of this name is used, in whatever element there is one."""
        if token.is_name:
            for level in scope:
                for element in level:
                    if token.value in element.columns:
                        self.use(element, token.value)

    def use(self, element: Element, column: str) -> None:
        """A column of an element is used."""
        if isinstance(element.source, Leaf):
            self.used[element.source.table.relation.name].add(column)

    def _use_all(self, element: Element) -> None:
        """All columns of an element are used. A derived table that reads tables with keys has further ones where it is printed."""
        if isinstance(element.source, Branch):
            raise QueryRefused("%s as a whole row: name its columns" % element.name)
        for column in element.columns:
            self.use(element, column)


def _element(name: str, scope: Scope) -> Optional[Element]:
    """The element of a name, of the innermost level that has one."""
    return next((element for level in scope for element in level if element.name == name), None)


def _end_of_chain(tokens: Sequence[Token], at: int) -> int:
    """Where names with points between them end, the last of which may be *."""
    end = at + 1
    while end + 1 < len(tokens) and tokens[end].is_mark(".") and (tokens[end + 1].is_name or tokens[end + 1].is_mark("*")):
        end += 2
    return end


def _is_before_point(tokens: Sequence[Token], at: int) -> bool:
    return at + 1 < len(tokens) and tokens[at + 1].is_mark(".")


def _implicit_alias(tokens: Sequence[Token]) -> int:
    """The place of a name at the end of an item that may be what it is called, without AS; else -1."""
    if len(tokens) < 2 or not tokens[-1].is_name:
        return -1
    before = tokens[-2]
    ends = before.kind in ("name", "number", "text", "parameter") or before.is_mark(")", "]") or before.kind == "word" and (
        before.value not in _RESERVED or before.is_word("end", "null", "current_date", "current_timestamp", "current_time"))
    return len(tokens) - 1 if ends else -1


def star_items(elements: Sequence[Element]) -> List[List[Piece]]:
    """The items that a * stands for."""
    return [[ColumnOf(element, column, " ")] for element in elements for column in element.columns.values()]


def as_word(column: Column) -> Token:
    """A column's name as a token."""
    return word(column.quoted)
