"""`\\database` and `\\ask` of the shell: SQL over a database of the user's own, by the words of the command `ask`."""

from __future__ import annotations

import argparse
import re
import shlex
from typing import List, NoReturn, Optional, Tuple

from .asking import add_place, add_wishes, answer, opened
from .database.connecting import heed_interrupts
from .database.front import Database
from .errors import QueryRefused

#: One word that begins with -, with its value behind = where it has one.
_OPTION = re.compile(r"\s*(-o|--[a-z-]+)(?:=|\s+|$)")
_PASSWORD = re.compile(r"(//[^:@/]*):[^/]*@")
_VALUE = re.compile(r"('[^']*'|\"[^\"]*\"|\S+)\s*")
_FLAGS = ("--possible", "--disputed", "--clean-first", "--explain", "--show-sql", "--strict-keys", "--help")


class _Words(argparse.ArgumentParser):
    """Words whose faults are told in a line, and end nothing."""

    def error(self, message: str) -> NoReturn:
        """Raises QueryRefused."""
        raise QueryRefused(message)


class Asking:
    """The database that a shell asks, if any."""

    def __init__(self) -> None:
        self._database: Optional[Database] = None
        self._name = ""

    def open(self, text: str) -> str:
        """Opens the database of `\\database WHERE TABLE=COLUMNS ..`, in the place of another, and says which is asked."""
        words = _Words(prog="\\database", add_help=False)
        words.add_argument("words", nargs="*", metavar="WHERE TABLE=COLUMNS")
        add_place(words)
        told = words.parse_intermixed_args(shlex.split(text))
        if text.strip():
            if not told.db and not told.csv and told.words:
                told.db, told.words = told.words[0], told.words[1:]
            told.key += told.words
            heed_interrupts()
            database = opened(told)
            self.close()
            self._database, self._name = database, told.db or ", ".join(told.csv)
        if self._database is None:
            raise QueryRefused("no database is open: \\database sqlite:shop.db customer=id orders=oid,line")
        return "\\ask asks %s" % _PASSWORD.sub(r"\1@", self._name)

    def ask(self, text: str) -> None:
        """Answers `\\ask [OPTIONS] SELECT ..`: the options are those of the command, and the query stands as it is to the end of the line."""
        options, query = _options_of(text)
        words = _Words(prog="\\ask", usage="\\ask [options] SELECT ..")
        add_wishes(words)
        add_place(words)
        told = words.parse_args(options)
        told.query = query.rstrip().rstrip(";") or None
        if (told.query is None) == (told.conflicts is None):
            raise QueryRefused("\\ask wants a query, or --conflicts TABLE")
        if told.db or told.csv:
            heed_interrupts()
            with opened(told) as database:
                answer(database, told)
            return
        if self._database is None:
            raise QueryRefused("no database is open: \\database sqlite:shop.db customer=id orders=oid,line")
        answer(self._database, told)

    def close(self) -> None:
        """Closes the database."""
        if self._database is not None:
            self._database.close()
        self._database = None


def _options_of(text: str) -> Tuple[List[str], str]:
    """The options before a query, and the query as it is written: quotes are SQL's there."""
    options: List[str] = []
    while True:
        option = _OPTION.match(text)
        if option is None:
            break
        options.append(option[1])
        text = text[option.end():]
        value = _VALUE.match(text) if option[1] not in _FLAGS else None
        if value:
            options += shlex.split(value[1])
            text = text[value.end():]
    whole = text.strip()
    is_quoted = len(whole) > 1 and whole[0] == whole[-1] == '"' and '"' not in whole[1:-1]
    return options, whole[1:-1] if is_quoted else whole
