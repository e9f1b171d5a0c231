"""A query's text as tokens: what is told apart is what the cuts need, and each text is handed on as it was written.

Scanning is by the rules of the database: a text that two databases read differently is refused where it isn't read for sure.
"""

from __future__ import annotations

import re
import string
from dataclasses import dataclass
from typing import Callable, Dict, FrozenSet, Iterator, List, NamedTuple, Sequence, Tuple

from ..errors import QueryRefused

#: Names of our own begin so: a query that has such a name is refused.
RESERVED = "cqa_"
_LOWER = str.maketrans(string.ascii_uppercase, string.ascii_lowercase)


def folded(name: str) -> str:
    """A name in small letters; letters beyond ASCII stay, as databases leave them."""
    return name.translate(_LOWER)


class Token(NamedTuple):
    """kind: "word", "name" (in quotes), "text", "number", "parameter", "mark". text: as it was written. value: what is compared: a
    word in small letters, a name as the database takes it. space: a blank where one stood before it, and else nothing."""

    kind: str
    text: str
    value: str
    space: str = " "

    @property
    def is_name(self) -> bool:
        """Whether it may name something: a word or a name in quotes."""
        return self.kind in ("word", "name")

    def is_word(self, *words: str) -> bool:
        """Whether it is one of these words, not in quotes."""
        return self.kind == "word" and self.value in words

    def is_mark(self, *marks: str) -> bool:
        """Whether it is one of these signs."""
        return self.kind == "mark" and self.value in marks


@dataclass(frozen=True)
class Lexicon:
    """How a database writes what differs.

    name_quotes: what opens and closes a name in quotes. text_prefixes: letters that may stand before a text, as x'00'. has_dollar_texts:
    whether $$..$$ is a text. has_double_quoted_texts: whether "..." is a text. folds_quoted: whether names in quotes are compared without
    regard to case. has_typed_texts: whether a type may stand before a text. longest_name: the bytes of a name that are read, where it is cut behind them. refused: signs or beginnings that are refused, each with what
    to write in its place.
    """

    name_quotes: FrozenSet[str]
    text_prefixes: str
    has_dollar_texts: bool = False
    has_double_quoted_texts: bool = False
    folds_quoted: bool = True
    has_typed_texts: bool = True
    has_only_ascii_names: bool = False
    longest_name: int = 0
    refused: Tuple[Tuple[str, str], ...] = ()


_TOKEN = re.compile(r"""
    (?P<blank>[ \t\r\n\f]+|--[^\r\n]*|/\*.*?\*/)
  | (?P<dollar>\$(?P<tag>[A-Za-z_]*)\$.*?\$(?P=tag)\$)
  | (?P<text>(?:[A-Za-z]|[Uu]&)?'(?:[^']|'')*')
  | (?P<double>(?:[Uu]&)?"(?:[^"]|"")*")
  | (?P<back>`(?:[^`]|``)*`)
  | (?P<bracket>\[[^\]]*\])
  | (?P<cast>::)
  | (?P<parameter>:[A-Za-z_][A-Za-z0-9_]*)
  | (?P<number>0[xX][0-9A-Fa-f]+|(?:[0-9]+(?:\.[0-9]*)?|\.[0-9]+)(?:[eE][+-]?[0-9]+)?)
  | (?P<word>[A-Za-z_\x80-\U0010ffff][A-Za-z0-9_$\x80-\U0010ffff]*)
  | (?P<mark>[^'"`$?\\\x00-\x20])
  | (?P<other>.)
""", re.S | re.X)
_AFTER_NUMBER = re.compile(r"[A-Za-z_$\x80-\U0010ffff]")


def scanned(text: str, lexicon: Lexicon) -> List[Token]:
    """The tokens of one statement. Raises QueryRefused."""
    found: List[Token] = []
    space = ""
    at = 0
    while at < len(text):
        match = _matched(text, at, lexicon)
        piece = match.group()
        if match.lastgroup == "blank":
            _check_comment(piece, lexicon)
            space = " "
        else:
            found.append(_token(match, text, space, lexicon))
            space = ""
        at = match.end()
    while found and found[-1].is_mark(";"):
        found.pop()
    if any(token.is_mark(";") for token in found):
        raise QueryRefused("more than one statement: ask one query")
    if found:
        found[0] = found[0]._replace(space="")
    _check_nesting(found)
    return found


def _matched(text: str, at: int, lexicon: Lexicon) -> "re.Match[str]":
    match = _TOKEN.match(text, at)
    assert match is not None  # any letter is of some group
    for begin, hint in lexicon.refused:
        if match.lastgroup != "text" and text.startswith(begin, at) and match.lastgroup not in ("double", "back", "dollar"):
            raise QueryRefused("%s: %s" % (begin, hint))
    if match.lastgroup == "dollar" and not lexicon.has_dollar_texts or match.lastgroup == "other" and match.group() == "$":
        raise QueryRefused("a $ at offset %d: parameters are written :name" % at)
    if match.lastgroup == "bracket" and "[" not in lexicon.name_quotes:
        return _only(_MARK, text, at)
    if match.lastgroup == "text" and text[at] != "'" and text[at].lower() not in lexicon.text_prefixes:
        return _only(_WORD, text, at)
    return match


_MARK = re.compile(r"(?P<mark>.)", re.S)
_WORD = re.compile(r"(?P<word>[A-Za-z_][A-Za-z0-9_$]*)")


def _only(pattern: "re.Pattern[str]", text: str, at: int) -> "re.Match[str]":
    match = pattern.match(text, at)
    assert match is not None
    return match


def _check_comment(piece: str, lexicon: Lexicon) -> None:
    if piece.startswith("/*") and "/*" in piece[2:]:
        raise QueryRefused("a comment within a comment: leave it out")
    if piece.startswith("--") and lexicon.has_double_quoted_texts and piece[2:3] not in ("", " ", "\t"):
        raise QueryRefused("a -- without a blank behind it: put a blank between the signs, or behind them")


def _token(match: "re.Match[str]", text: str, space: str, lexicon: Lexicon) -> Token:
    kind, piece = str(match.lastgroup), match.group()
    if kind == "other" or text.startswith("/*", match.start()):
        raise QueryRefused(_said_of_other(piece, match.start()))
    if kind in ("double", "back", "bracket") or kind == "text" and piece[0] in "uU" and piece[1] == "&":
        return _quoted(piece, space, lexicon)
    if kind == "word":
        return Token("word", piece, _checked(folded(piece), lexicon), space)
    if kind == "number" and _AFTER_NUMBER.match(text, match.end()):
        raise QueryRefused("%s%s: a blank is missing behind the number" % (piece, text[match.end()]))
    if kind in ("text", "dollar"):
        _check_text(piece, lexicon)
        return Token("text", piece, piece, space)
    return Token("mark" if kind == "cast" else kind, piece, piece, space)


def _said_of_other(piece: str, at: int) -> str:
    if piece in "'\"`":
        return "a quote without its end at offset %d" % at
    if piece == "?":
        return "a ? at offset %d: parameters are written :name" % at
    if piece == "/":
        return "a comment without its end at offset %d" % at
    return "the sign %r at offset %d" % (piece, at)


def _quoted(piece: str, space: str, lexicon: Lexicon) -> Token:
    if piece[0] in "uU":
        raise QueryRefused("U& before a quote: write the letters themselves")
    if piece[0] == '"' and lexicon.has_double_quoted_texts:
        _check_text(piece, lexicon)
        return Token("text", piece, piece, space)
    if piece[0] not in lexicon.name_quotes:
        raise QueryRefused("%s is no name in quotes of this database" % piece)
    inner = piece[1:-1] if piece[0] == "[" else piece[1:-1].replace(piece[0] * 2, piece[0])
    return Token("name", piece, _checked(folded(inner) if lexicon.folds_quoted else inner, lexicon), space)


def _checked(name: str, lexicon: Lexicon) -> str:
    if folded(name).startswith(RESERVED):
        raise QueryRefused("the name %s: names that begin with %s are ours; name it anew, as by a view" % (name, RESERVED))
    if lexicon.has_only_ascii_names and not name.isascii():
        raise QueryRefused("the name %s has a letter beyond ASCII, and how this database compares it isn't known for sure" % name)
    if lexicon.longest_name and len(name.encode("utf-8", "surrogatepass")) > lexicon.longest_name:
        raise QueryRefused("the name %s.. is longer than %d bytes" % (name[:20], lexicon.longest_name))
    return name


def _check_text(piece: str, lexicon: Lexicon) -> None:
    """A backslash before a quote ends a text or doesn't, by a setting: such a text is refused."""
    if "\\" in piece and (lexicon.has_double_quoted_texts or piece[0] in "eE"):
        raise QueryRefused("a backslash in the text %s: write it without one, as a parameter :name" % piece)


def _check_nesting(tokens: Sequence[Token]) -> None:
    """Raises QueryRefused where brackets, or CASE and END, don't pair."""
    open_ones: List[str] = []
    for token in tokens:
        opened = _closes(token)
        if token.is_mark("(", "[") or token.is_word("case"):
            open_ones.append(token.value)
        elif opened and (not open_ones or open_ones.pop() != opened):
            raise QueryRefused("a %s without its %s; a column of that name has to stand in quotes" % (token.text, opened))
    if open_ones:
        raise QueryRefused("a %s without its end" % open_ones[-1])


_PAIRS: Dict[str, str] = {")": "(", "]": "[", "end": "case"}


def _closes(token: Token) -> str:
    return _PAIRS.get(token.value, "") if token.kind == "mark" or token.is_word("end") else ""


def depths(tokens: Sequence[Token]) -> Iterator[Tuple[int, Token, int]]:
    """Each token with its place and its depth; CASE .. END nests as brackets do."""
    depth = 0
    for at, token in enumerate(tokens):
        if _closes(token):
            depth -= 1
        yield at, token, depth
        if token.is_mark("(", "[") or token.is_word("case"):
            depth += 1


def closing(tokens: Sequence[Token], at: int) -> int:
    """The place of the bracket that closes the one at a place."""
    for place, _, depth in depths(tokens[at:]):
        if place and depth == 0:
            return at + place
    raise QueryRefused("a bracket without its end")


def cut(tokens: Sequence[Token], *words: str) -> List[List[Token]]:
    """The parts between words, or commas, that stand outside of brackets; the AND of a BETWEEN and the FROM of IS DISTINCT FROM
    cut nothing."""
    parts: List[List[Token]] = [[]]
    between = 0
    for at, token, depth in depths(tokens):
        if depth == 0 and token.is_word("between"):
            between += 1
        elif depth == 0 and between and token.is_word("and"):
            between -= 1
        elif depth == 0 and (token.is_word(*words) or token.is_mark(*words)) and not _is_distinct_from(tokens, at):
            parts.append([])
            continue
        parts[-1].append(token)
    return parts


def _is_distinct_from(tokens: Sequence[Token], at: int) -> bool:
    return at > 0 and tokens[at].is_word("from") and tokens[at - 1].is_word("distinct")


def is_wrapped(tokens: Sequence[Token]) -> bool:
    """Whether one pair of brackets is around all."""
    return bool(tokens) and tokens[0].is_mark("(") and closing(tokens, 0) == len(tokens) - 1


def asks(tokens: Sequence[Token]) -> bool:
    """Whether a query begins here, or brackets around one."""
    for token in tokens:
        if not token.is_mark("("):
            return token.is_word("select", "with", "values")
    return False


def text_of(tokens: Sequence[Token]) -> str:
    """The tokens as they were written, but for comments and for how wide blanks are."""
    return "".join(token.space + token.text for token in tokens).strip()


def with_parameters(text: str, placed: Callable[[str], str], other: Callable[[str], str]) -> str:
    """A text with its parameters, and all else, written otherwise."""
    return "".join(placed(match.group()[1:]) if match.lastgroup == "parameter" else other(match.group()) for match in _TOKEN.finditer(text))


def mark(sign: str, space: str = "") -> Token:
    """A sign as a token."""
    return Token("mark", sign, sign, space)


def word(text: str, space: str = " ") -> Token:
    """A word as a token."""
    return Token("word", text, folded(text), space)
