"""The statements in a line each, for `--help`, `help` and the completion of words."""

from __future__ import annotations

from typing import NamedTuple, Tuple


class Help(NamedTuple):
    """name: the words with which a statement begins. form: how it is written. does: what it does and replies, in a line."""

    name: str
    form: str
    does: str


STATEMENTS: Tuple[Help, ...] = (
    Help("create", "create [strict] table NAME (COLUMN int, COLUMN text, primary key (COLUMN));",
         "makes a table, whose rows may break its key; a strict one takes no two rows of one key"),
    Help("insert", "insert into NAME values (1, 'a'), (2, 'b');", "puts rows in, beside those of their key"),
    Help("copy", "copy NAME;", "takes the records of CSV on the lines behind it, up to a line \\.; `cqa load` makes it from a file"),
    Help("delete", "delete from NAME [where COLUMN = 1 and COLUMN <> 'a'];", "deletes the rows that pass all tests"),
    Help("prefer", "prefer NAME where COLUMN = 'a' and COLUMN <> 1;",
         "of each key with a row that passes all tests, deletes the rows that don't; run it again behind each load"),
    Help("alter", "alter table NAME set strict | drop strict | set primary key (COLUMN);", "makes a table strict, or gives it another key"),
    Help("ask", "ask select COLUMN from NAME, NAME where COLUMN = COLUMN [union select COLUMN from NAME];",
         "the certain rows: those that hold whichever row of each key is right; of a union, for some part or other"),
    Help("possible", "possible select COLUMN from NAME [union select COLUMN from NAME];", "the possible rows: those that hold for some choice of rows"),
    Help("disputed", "disputed select COLUMN from NAME;", "the rows that are possible and not certain"),
    Help("range", "range count | sum COLUMN | min COLUMN | max COLUMN from NAME, NAME [where COLUMN = 1 and COLUMN <> 'a'] [group by COLUMN];",
         "between which values a number, a sum, a least or a greatest value lies, with a choice of rows for each end; or for each value of a column"),
    Help("explain", "explain row (1, 'a') for select COLUMN, COLUMN from NAME [union ..];", "why a row is certain, or a choice of rows in which it is no answer"),
    Help("against", "against row (1, 'a') for select COLUMN, COLUMN from NAME;", "which rows stand against a row: if they are right, it is no answer; or that it is certain"),
    Help("prove", "prove row (1, 'a') for select COLUMN, COLUMN from NAME;", "a certificate of a certain row, which `check` checks without tables"),
    Help("classify", "classify select COLUMN from NAME, NAME [union ..];",
         "how hard a query is, by its attacks; of a union, each of its parts, and whether two of them share a table"),
    Help("plan", "plan select COLUMN from NAME, NAME;", "the order in which tables are gone through without a search"),
    Help("sql", "sql select COLUMN from NAME, NAME [union ..];", "the query for the certain rows on another engine"),
    Help("show", "show tables; show conflicts; show log;",
         "the tables with their rows and blocks; how many keys of each have several rows; the last formula with its refutation"),
    Help("dump", "dump;", "a script that makes the tables again, with their rows"),
    Help("set", "set conflicts 200000;", "how many steps a solver's search may take; they are no conflicts of rows"),
)

#: The first words of the statements.
VERBS = tuple(statement.name for statement in STATEMENTS)

#: All words of the language, for completion.
WORDS = tuple(sorted({*VERBS, "and", "by", "conflicts", "count", "drop", "exists", "for", "from", "group", "int", "into", "key", "log", "max", "min", "primary", "row",
                      "select", "strict", "sum", "table", "tables", "text", "union", "values", "where"}))


def all_statements() -> str:
    """A line for each statement."""
    width = max(len(statement.name) for statement in STATEMENTS)
    return "".join("  %-*s  %s\n" % (width, statement.name, statement.does) for statement in STATEMENTS)


def about(word: str) -> str:
    """The help of a statement, or nothing where there is no such statement."""
    return "".join("%s\n    %s\n" % (statement.form, statement.does) for statement in STATEMENTS if statement.name == word)
