"""Which tables have which keys, as they are told."""

from __future__ import annotations

import re
from typing import Dict, Mapping, Sequence, Tuple, Union

from ..errors import QueryRefused
from .engine import Engine
from .query import Keyed, Relation
from .tokens import Token, scanned

Keys = Mapping[str, Union[str, Sequence[str]]]

_SECTION = re.compile(r"\[\s*(?:\"([^\"]*)\"|'([^']*)'|([\w.-]+))\s*\]")
_LINE = re.compile(r"(?:\"([^\"]*)\"|'([^']*)'|([\w-]+))\s*=\s*(.*)")
_TEXT = re.compile(r"\s*(?:\"([^\"\\]*)\"|'([^']*)')\s*")


def keyed_tables(engine: Engine, keys: Keys) -> Dict[str, Keyed]:
    """The tables with their keys, by their whole names. Raises QueryRefused where one tells no key."""
    found: Dict[str, Keyed] = {}
    for table, columns in keys.items():
        relation = named_relation(engine, table)
        if not relation.is_table or relation.definition is not None:
            raise QueryRefused("key of %s: it is a view; give the keys of the tables that it reads" % table)
        key = []
        for text in [columns] if isinstance(columns, str) else columns:
            name = _name(engine, text)
            column = relation.column(name[0].value) or relation.column(text)
            if len(name) != 1 or column is None:
                raise QueryRefused("key of %s: no column %s; it has %s" % (table, text, ", ".join(one.name for one in relation.columns)))
            fault = engine.key_fault(column)
            if fault:
                raise QueryRefused("key of %s: %s: %s" % (table, text, fault))
            key.append(column)
        if not key or len(set(key)) < len(key):
            raise QueryRefused("key of %s: columns are wanted, each once" % table)
        if relation.name in found:
            raise QueryRefused("key of %s: it is told twice" % table)
        found[relation.name] = Keyed(relation, tuple(key), table)
    return found


def named_relation(engine: Engine, table: str) -> Relation:
    """The table of a name as keys have it. Raises QueryRefused."""
    return engine.relation(_name(engine, table))


def _name(engine: Engine, text: str) -> Sequence[Token]:
    """A name, part by part; one that isn't a name as it stands is taken as one in quotes."""
    if not re.fullmatch(r"[\w$.\"`\[\] ]+", text) or not text.strip():
        raise QueryRefused("%r is no name" % text)
    tokens = scanned(text, engine.lexicon)
    names = tokens[::2]
    if not all(token.is_name for token in names) or not all(token.is_mark(".") for token in tokens[1::2]) or len(tokens) % 2 == 0:
        names = scanned(engine.quoted(text), engine.lexicon)
    return names


def told_keys(words: Sequence[str]) -> Dict[str, Sequence[str]]:
    """The keys that words tell: TABLE=COLUMN or TABLE=COLUMN,COLUMN. Raises QueryRefused."""
    found: Dict[str, Sequence[str]] = {}
    for word in words:
        table, sign, columns = word.partition("=")
        if not sign or not table.strip() or not all(name.strip() for name in columns.split(",")):
            raise QueryRefused("--key wants TABLE=COLUMN or TABLE=COLUMN,COLUMN, and not %s" % word)
        if table.strip() in found:
            raise QueryRefused("the key of %s is told twice" % table.strip())
        found[table.strip()] = [name.strip() for name in columns.split(",")]
    return found


def read_keys(path: str) -> Dict[str, Sequence[str]]:
    """The keys in a TOML file, behind [keys]: customer = "id", or orders = ["oid", "line"]. Raises QueryRefused or OSError."""
    with open(path, encoding="utf-8") as file:
        lines = file.read().splitlines()
    found: Dict[str, Sequence[str]] = {}
    is_within = False
    for number, line in enumerate(lines, 1):
        line = line.strip()
        if not line or line.startswith("#"):
            continue
        section = _SECTION.fullmatch(line)
        if section:
            is_within = "keys" in section.groups()
        elif is_within:
            table, columns = _key_line(line, "%s:%d" % (path, number))
            found[table] = columns
    if not found:
        raise QueryRefused('%s: no keys; they stand behind a line [keys], as customer = "id"' % path)
    return found


def _key_line(line: str, place: str) -> Tuple[str, Sequence[str]]:
    match = _LINE.fullmatch(line)
    rest = match[4].split("#")[0].strip() if match else ""
    inner = rest[1:-1].rstrip(", ") if rest[:1] == "[" and rest[-1:] == "]" else rest
    texts = [_TEXT.fullmatch(part) for part in inner.split(",")]
    if match is None or not all(texts):
        raise QueryRefused('%s: TABLE = "COLUMN" or TABLE = ["COLUMN", "COLUMN"] is wanted' % place)
    return next(filter(None, match.groups()[:3]), ""), [next(filter(None, text.groups()), "") for text in texts if text]
