"""What people write by habit, what cqa replies to it, and what to write in its place.

The table "If you come from SQL" of docs/LANGUAGE.md is made from `HABITS`, and a refusal of `run FILE` and of the shell is told by
them what to write. tools/blocks.py runs each of them and compares its reply.
"""

from __future__ import annotations

import re
from typing import Callable, Mapping, NamedTuple, Optional, Sequence, Tuple

from .queries import said
from .scripts import Schema
from .sqlwords import rewritten
from .statements import VERBS, WORDS


class Habit(NamedTuple):
    """written: a statement over `staff (id int, name text, room int, primary key (id))`. reply: what the program replies.
    write: what to write. at: a pattern that is looked for at the place of the refusal. before: one that has to stand before it.
    is_whole: whether the reader's whole statement is written anew, where the program takes it so, and `write` only says why. Else
    what a group of either pattern finds in `written` is in `write` replaced by what it finds in the reader's statement."""

    written: str
    reply: str
    write: str
    at: str
    before: str = ""
    is_whole: bool = False


HABITS: Tuple[Habit, ...] = (
    Habit("SELECT id FROM staff;", "error 2 Syntax at 0", "words stand in lower case; `ask` gives what is certain, `possible` what is possible", r"(?-i:SELECT)\b", r"^\s*$", True),
    Habit("CREATE TABLE staff (id int, primary key (id));", "error 2 Syntax at 0", "words in lower case, as `create table`",
          r"(?-i:[A-Z]+)\b", r"^\s*$"),
    Habit("ask select id from staff WHERE id = 1;", "error 2 Syntax at 25", "words stand in lower case", r"(?-i:SELECT|FROM|WHERE|AND|VALUES|INTO|TABLE|PRIMARY|KEY|INT|TEXT|EXISTS)\b", "", True),
    Habit("create table staff (id integer, primary key (id));", "error 2 Syntax at 23", "`int` or `text` alone are kinds: `id int`",
          r"(?:big|small|tiny)?int(?:eger)?\b|serial\b", r"^create\b"),
    Habit("create table staff (id int, name varchar(40), primary key (id));", "error 2 Syntax at 33", "`name text`: a text has up to 1,024 bytes",
          r"(?:var)?char\w*\b|string\b|clob\b", r"^create\b"),
    Habit("create table staff (id int, pay numeric(9,2), primary key (id));", "error 2 Syntax at 32", "`pay int`, in cents: as texts they compare by their bytes",
          r"(?:numeric|decimal|float|double|real|money)\b", r"^create\b"),
    Habit("create table staff (id int, since date, primary key (id));", "error 2 Syntax at 34", "`since text`, written as `2026-03-01` or `2026-03-01T00:10:00Z`: their order is that of time",
          r"(?:date|time|timestamp\w*|datetime)\b", r"^create\b"),
    Habit("create table staff (id int, ok boolean, primary key (id));", "error 2 Syntax at 31", "`ok int`, with 0 and 1", r"bool(?:ean)?\b", r"^create\b"),
    Habit("create table staff (id int primary key);", "error 2 Syntax at 27", "the key at the end: `create table staff (id int, primary key (id));`",
          r"primary\b", r"^create\b"),
    Habit("create table staff (id int not null, primary key (id));", "error 2 Syntax at 27", "leave it out: there is no missing value", r"not\s+null\b", r"^create\b"),
    Habit("create table staff (id int unique, primary key (id));", "error 2 Syntax at 27", "`create strict table staff (id int, primary key (id));`",
          r"unique\b", r"^create\b"),
    Habit("create table if not exists staff (id int, primary key (id));", "error 2 Syntax at 16", "leave `if not exists` out: a session begins without tables",
          r"not\s+exists\b", r"^create\s+table\s+if\b"),
    Habit("drop table staff;", "error 2 Syntax at 0", "`delete from staff;`: the table stays", r"drop\b", r"^$"),
    Habit("truncate staff;", "error 2 Syntax at 0", "`delete from staff;`", r"truncate\b", r"^$"),
    Habit("insert into staff (id) values (1);", "error 2 Syntax at 18", "all values in the order of the columns: `insert into staff values (1, 'Ida', 12);`",
          r"\(", r"^insert\s+into\s+\w+\s*$"),
    Habit("insert into staff values (null);", "error 2 Syntax at 26", "a value: there is no missing one", r"null\b", r"\bvalues\b"),
    Habit("copy staff from 'staff.csv';", "error 15 Unfinished", "`copy staff;`, the records, and a line `\\.`; or `./cqa load --table staff --key id staff.csv`",
          r"from\b|\(", r"^copy\s+\w+\s*$"),
    Habit("select id from staff;", "error 2 Syntax at 0", "`ask` gives what is certain, `possible` what is possible", r"select\b", r"^$", True),
    Habit("ask select * from staff;", "error 1 BadByte at 11", "columns are named", r"\*", r"\bselect\s*$", True),
    Habit("ask select count(*) from staff;", "error 1 BadByte at 17", "how many rows there are at least and at most; an `ask` ends with its number of rows", r"\*", r"\bcount\s*\(\s*$", True),
    Habit("ask select max(room) from staff;", "error 2 Syntax at 14", "between which values it lies", r"\(\s*(\w+)", r"\b(?:select|range)\s+(sum|min|max)\s*$", True),
    Habit("ask select avg(room) from staff;", "error 2 Syntax at 14", "`range sum room from staff;` and `range count from staff;`: there is no average",
          r"\(\s*(\w+)", r"\b(?:select|range)\s+(?:avg|mean|average)\s*$"),
    Habit("ask select count(distinct room) from staff;", "error 2 Syntax at 16", "`ask select room from staff;`: it ends with the number of certain values, and `possible` with that of possible ones",
          r"\(\s*distinct\s+(\w+)", r"\bcount\s*$"),
    Habit("ask select upper(name) from staff;", "error 2 Syntax at 16", "the column alone: there are no functions in a query", r"\(",
          r"\bselect\b.*\b(?!(?:not|and|or|where|in|exists)\b)[A-Za-z_]\w*\s*$"),
    Habit("range avg room from staff;", "error 2 Syntax at 6", "`range sum room from staff;` and `range count from staff;`: there is no average", r"(?:avg|mean|average)\s+(\w+)", r"^range\s+$"),
    Habit("range count room from staff;", "error 2 Syntax at 12", "`range count from staff;`: rows are counted, and no column is named", r"(?!from\b)\w+", r"^range\s+count\s+$"),
    Habit("range sum staff.room from staff;", "error 2 Syntax at 31", "`range sum room from staff;`: over one table a column stands alone",
          r"\s*(?:(?:where|group)\b.*)?$", r"^range\s+\w+\s+\w+\s*\.\s*(\w+)\s+from\s+\w+\s*$"),
    Habit("range count from staff group by room, name;", "error 2 Syntax at 36", "`range count from staff group by room;`: one column makes the groups",
          r",", r"^range\b.*\bgroup\s+by\s+(\w+)\s*$"),
    Habit("range count from staff group by room having room > 1;", "error 2 Syntax at 37", "leave it out: each group is told with both ends, and `where` says which rows count",
          r"having\b", r"^range\b"),
    Habit("ask select top 10 id from staff;", "error 2 Syntax at 15", "leave it out: `./cqa csv FILE .. | head` has the first rows", r"[0-9]+", r"\bselect\s+top\s+$"),
    Habit("ask select case when id = 1 then 2 end from staff;", "error 2 Syntax at 16", "the columns alone: there is no `case`, and what comes out is told apart afterwards",
          r"when\b|\w+\s+when\b", r"\bcase\s+$"),
    Habit("ask select distinct id from staff;", "error 2 Syntax at 20", "rows come once", r"\w", r"\bselect\s+distinct\s+$", True),
    Habit("ask select id as number from staff;", "error 2 Syntax at 14", "columns have no other names", r"as\b", r"\bselect\b", True),
    Habit("ask select id, room from staff order by room desc limit 10;", "error 2 Syntax at 31",
          "rows ascend by their first column, so the greatest come last: `./cqa csv FILE .. | tail -n 10`", r"order\s+by\b[^;]*\bdesc\b(?:\s+limit\s+([0-9]+))?", "", True),
    Habit("ask select id from staff order by id;", "error 2 Syntax at 25", "rows ascend, in the order of the columns", r"order\s+by\b", "", True),
    Habit("ask select id from staff limit 10;", "error 2 Syntax at 25", "`./cqa csv FILE .. | head` has the first rows", r"(?:limit|offset|fetch)\b", "", True),
    Habit("ask select room from staff group by room;", "error 2 Syntax at 27", "rows come once, and there are no groups in a query; `range` has them", r"(?:group|having)\b", "", True),
    Habit("ask select s.id from staff s;", "error 2 Syntax at 27", "tables have no other names", r"\w+\s*(?:$|,|where\b)", r"\bfrom\s+(?:\w+\s*,\s*)*\w+\s+$", True),
    Habit("ask select id from staff left join door on staff.room = door.room;", "error 2 Syntax at 25",
          "there is no outer join, and this has the rows alone that have a partner", r"(?:(?:left|right|full)\s+)(?:outer\s+)?join\b", "", True),
    Habit("ask select id from staff except select room from staff;", "error 2 Syntax at 25",
          "`ask select id from staff;` and `possible select room from staff;`: there is no `except`. The rows of the first that the second doesn't have are certain, "
          "though there may be more", r"(?:except|minus)\b"),
    Habit("ask select id from staff intersect select room from staff;", "error 2 Syntax at 25",
          "`ask select id from staff;` and `ask select room from staff;`: there is no `intersect`. The rows that both have are the certain ones", r"intersect\b"),
    Habit("ask select id from staff join door on staff.room = door.room;", "error 2 Syntax at 25", "tables stand behind `from`, and what joins them behind `where`", r"(?:(?:inner|left|right|full|cross)\s+)?(?:outer\s+)?join\b", "", True),
    Habit("ask exists from staff where id != 1;", "error 1 BadByte at 31", "`<>` is the word", r"!=", "", True),
    Habit("ask select id from staff where id > room;", "error 2 Syntax at 36", "both columns behind `select`: columns are compared by `=` alone, so compare them in what comes out",
          r"[A-Za-z_]\w*", r"(?:<>|<=|>=|<|>)\s*$"),
    Habit("ask select id + 1 from staff;", "error 1 BadByte at 14", "the columns alone: there is no arithmetic, so compute with what comes out", r"\+|/(?!\*)|\|\||%"),
    Habit("ask exists from staff where room > id * 2;", "error 1 BadByte at 38", "the columns alone: there is no arithmetic, so compute with what comes out", r"\*", r"\w\s*$"),
    Habit("ask exists from staff where id > 1.5;", "error 2 Syntax at 34", "a whole number, or load the column with places, as `--decimal id:1`: an int has none", r"\.[0-9]", r"\b(?:where|and)\s+(?:\w+\s*\.\s*)?(\w+)\s*[=<>]+\s*-?[0-9]+$"),
    Habit("ask exists from staff where name = date '2026-03-01';", "error 2 Syntax at 40", "a date is a text", r"'", r"\b(?:date|timestamp)\s*$", True),
    Habit("ask exists from staff where (id = 1);", "error 2 Syntax at 28", "there are no brackets around tests", r"\(", r"\b(?:where|and|or|not)\s*$", True),
    Habit("ask exists from staff where 7 = id;", "error 2 Syntax at 28", "the column stands left", r"-?\d|'", r"\b(?:where|and)\s*$", True),
    Habit("ask exists from staff where id = 1 or id = 2;", "error 2 Syntax at 35", "there is no `or`", r"or\b", r"(\w+)\s*[=<>]+\s*(?:\S+|'[^']*')\s+$", True),
    Habit("ask select id from staff union all select room from staff;", "error 2 Syntax at 31", "rows come once", r"all\b", r"\bunion\s+$", True),
    Habit("plan select id from staff union select room from staff;", "error 2 Syntax at 26",
          "one query: `ask`, `possible`, `explain`, `classify` and `sql` alone take a union", r"union\b"),
    Habit("ask select id from staff where not exists (select room from staff);", "error 2 Syntax at 35",
          "two questions: there is no `not exists`. The rows of the first `ask` that a `possible` of the second doesn't have are certain, though there may be more",
          r"exists\b|\w+\s+exists\b", r"\bnot\s+$"),
    Habit("ask exists from staff where not id = 1;", "error 2 Syntax at 32", "there is no `not`", r"\w", r"\bnot\s+$", True),
    Habit("ask select id from staff where id in (select room from staff);", "error 2 Syntax at 34", "a join: there are no queries within queries. `from` names both tables, and `where` what joins them; no table twice",
          r"in\s*\(\s*select\b"),
    Habit("ask exists from staff where id in (1, 2);", "error 2 Syntax at 31", "there is no `in`", r"in\b", "", True),
    Habit("ask exists from staff where id between 1 and 2;", "error 2 Syntax at 31", "there is no `between`", r"between\b", "", True),
    Habit("ask select id from staff where name like '%a';", "error 2 Syntax at 36", "the column behind `select`, and look in what comes out, as by `./cqa csv FILE .. | grep`: only the beginning of a text can be tested",
          r"(?:not\s+)?i?like\s*'(?:%|[^']*[%_][^'])"),
    Habit("ask exists from staff where name like 'I%';", "error 2 Syntax at 33", "texts compare by their bytes", r"i?like\b", "", True),
    Habit("ask exists from staff where name is null;", "error 2 Syntax at 33", "there is no missing value", r"is\b", "", True),
    Habit("ask exists from staff where name = null;", "error 6 UnknownColumn null", "there is no missing value", r"null\b", "", True),
    Habit('ask exists from staff where name = "Ida";', "error 1 BadByte at 35", "texts stand between `'`", r'"', "", True),
    Habit("ask exists from staff where name = 1034;", "error 9 TypeMismatch condition 1", "a literal is of its column's kind", r"", r"", True),
    Habit("ask select a.id from staff a, staff b where a.room = b.room;", "error 2 Syntax at 27",
          "`range count from staff group by room;`: a query names each table once. A group whose `least` is 2 or more has so many rows in any case", r"", r""),
    Habit("ask exists from staff, staff;", "error 8 SelfJoin staff", "each table once: a copy under another name would be another question, since it is repaired by itself", r"", r""),
    Habit("explain select id from staff;", "error 2 Syntax at 8", "`explain row (1) for select id from staff;` for why a row is certain; `classify select id from staff;` for how hard the query is",
          r"select\b|\w+\s+select\b", r"^explain\s+$"),
    Habit("with a as (select id from staff) select id from a;", "error 2 Syntax at 0", "one query: there are no names for others", r"with\b", r"^$"),
    Habit("create view rooms as select room from staff;", "error 2 Syntax at 7", "the query where it is asked: there are no views, and no indexes", r"(?:view|index|unique|temp\w*|or)\b", r"^create\s+$"),
    Habit("describe staff;", "error 2 Syntax at 0", "`show tables;`", r"desc(?:ribe)?\b", r"^$"),
    Habit("update staff set id = 1;", "error 2 Syntax at 0", "`delete`, then `insert`", r"(?:update|upsert|merge)\b", r"^$"),
    Habit("alter table staff add phone text;", "error 2 Syntax at 18", "a new table, filled anew: columns are fixed", r"(?:add|rename|modify)\b", r"^alter\b"),
    Habit("alter table staff drop primary key;", "error 2 Syntax at 23", "`alter table staff set primary key (id, room);`: each table has a key", r"\w+", r"^alter\b.*\bdrop\s+$"),
    Habit("/* a comment */ dump;", "error 1 BadByte at 0", "`-- a comment`, up to the end of the line", r"/\*"),
    Habit("# a comment;", "error 1 BadByte at 0", "`-- a comment`, up to the end of the line", r"#"),
    Habit(".tables;", "error 2 Syntax at 0", "`show tables;`", r"\.", r"^$"),
    Habit("begin;", "error 2 Syntax at 0", "leave it out: each statement is done in whole, or changes nothing", r"(?:begin|commit|rollback)\b", r"^$"),
    Habit("quit;", "error 2 Syntax at 0", "the end of the input: Ctrl-D; in `./cqa shell` also `\\q`", r"(?:quit|exit)\b", r"^$"),
)


_TABLE = re.compile(r"\b(?:from|into|table|copy|truncate|update)\s+(?:if\s+not\s+exists\s+)?(?!if\b)([A-Za-z_]\w*)", re.I)
_LAST_WORD = re.compile(r"([A-Za-z_]\w*)\W*\Z")


_COUNTS = re.compile(r"\b(?:count|max)\(")
_RANGES = "a `range` says between which values it lies"

#: Whether the program takes a statement over the reader's tables.
Takes = Callable[[str], bool]


def advice_for(text: str, at: int, refusal: str, schemas: Optional[Mapping[str, Schema]] = None, takes: Optional[Takes] = None) -> str:
    """What to write in place of what stands at a place of a refused statement, or nothing.

    text: the statement with blanks in the place of its comments. at: the place, in letters. schemas: the reader's tables. takes: asked
    before a whole statement is told; without it none is.
    """
    number = re.match(r"error (1|2|6|8|9|15|23) ", refusal)
    if number is None:
        return ""
    there = schemas or {}
    twice = _twice(text)
    if twice:
        return _of_self_join(text, twice)
    if number[1] == "23":
        return "over several tables a range takes one that isn't strict: `alter table %s set strict;`, where none of its keys is in conflict" % refusal.rsplit(" ", 1)[1]
    habit = _habit_at(text, at) if number[1] in ("1", "2", "6", "15") else None
    two = _two_questions(text, at) if habit is not None and number[1] == "2" else None
    if two and takes is not None and all(map(takes, two)):
        return "write `%s` and `%s`: %s" % (*two, habit.write.partition("`: ")[2] if habit else "")
    may_be_whole = habit.is_whole if habit is not None else number[1] != "6"
    whole = rewritten(text, there) if number[1] in ("1", "2", "6", "9") and may_be_whole else ""
    whole = "" if whole.rstrip(";").split() == text.split() else whole
    if whole and takes is not None and takes(whole):
        why = _why(habit, text, at, refusal, there) if not whole.startswith("range") or _COUNTS.search(habit.written if habit else "") else _RANGES
        return "write `%s`%s" % (whole, ": " + why if why else "")
    if habit is not None:
        return ("write " if habit.write.startswith("`") and not habit.is_whole else "") + (habit.write if habit.is_whole else _in_readers_words(habit, text, at))
    if number[1] == "9":
        return _kind_told(text, refusal, there)
    return _near_word(text, at, VERBS if not text[:at].strip() else WORDS) if " Syntax " in refusal else ""


def _two_questions(text: str, at: int) -> Optional[Tuple[str, str]]:
    """The two questions of a query with `except` or `intersect` at a place, or nothing."""
    word = re.compile(r"(except|minus|intersect)\b\s*(?:all\b)?", re.I).match(text, at)
    if word is None:
        return None
    first = re.sub(r"^\s*(?:ask|possible|disputed)\b\s*", "", text[:at]).strip()
    second = text[word.end():].strip()
    return "ask %s;" % first, "%s %s;" % ("ask" if word[1].lower() == "intersect" else "possible", second)


def _habit_at(text: str, at: int) -> Optional[Habit]:
    """The habit that stands at a place of a statement."""
    for habit in HABITS:
        if habit.at and re.compile(habit.at, re.I).match(text, at) and (not habit.before or re.search(habit.before, text[:at], re.I | re.S)):
            return habit
    return None


def _why(habit: Optional[Habit], text: str, at: int, refusal: str, schemas: Mapping[str, Schema]) -> str:
    """Why a statement is written otherwise."""
    if habit is None:
        return _kind_told(text, refusal, schemas).partition(": write")[0]
    limit = re.compile(habit.at, re.I).match(text, at)
    return habit.write.replace("-n 10", "-n " + limit[1]) if limit and limit.groups() and limit[1] else habit.write


def _kind_told(text: str, refusal: str, schemas: Mapping[str, Schema]) -> str:
    """What kind the column of a refused test has."""
    found = re.search(r" TypeMismatch condition (\d+)$", refusal)
    parts = said(text).parts
    tests = parts[0].tests if len(parts) == 1 else []
    if found is None or not 0 < int(found[1]) <= len(tests):
        return ""
    test, tables = tests[int(found[1]) - 1], parts[0].tables
    owner, _, name = test.column.word.rpartition(".")
    kind = next((schemas[table].columns[name] for table in ([owner] if owner else tables) if table in schemas and name in schemas[table].columns), "")
    literal = test.right.word
    fitting = "'%s'" % literal if kind == "text" and test.right.is_number else literal[1:-1] if kind == "int" and re.fullmatch(r"'-?[0-9]+'", literal) else ""
    return "%s is %s%s" % (test.column.word, kind, ": write " + fitting if fitting else "") if kind else ""


def _twice(text: str) -> str:
    """The first table that stands twice behind one `from`, or nothing."""
    for part in re.split(r"\bunion\b", text, flags=re.I):
        tables = re.search(r"\bfrom\s+(.*?)(?:\bwhere\b|\bgroup\s+by\b|\border\s+by\b|\Z)", part, re.I | re.S)
        words = re.findall(r"(?:^|,|\bjoin\s)\s*([A-Za-z_]\w*)", tables[1], re.I) if tables and "(" not in tables[1] else []
        names = [word.lower() for word in words]
        double = next((word for at, word in enumerate(words) if word.lower() in names[:at]), "")
        if double:
            return double
    return ""


def _of_self_join(text: str, table: str) -> str:
    """What to say of a query that names a table twice: which groups have several rows, where it joins two by one column."""
    shared = re.search(r"(\w+)\s*\.\s*(\w+)\s*=\s*(\w+)\s*\.\s*(\w+)", text)
    if shared and shared[2].lower() == shared[4].lower() and shared[1] != shared[3]:
        return ("write `range count from %s group by %s;`: a query names each table once. A group whose `least` is 2 or more has so many rows in any case"
                % (table, shared[2]))
    return "a query names each table once: a copy of %s under another name would be another question, since it is repaired by itself" % table


def _in_readers_words(habit: Habit, text: str, at: int) -> str:
    """What a habit says to write, with the reader's table, list and column in the place of those of the example."""
    write, before = habit.write, text[:at]
    table = _TABLE.search(text)
    path = re.search(r"\bfrom\s+'([^']+)'", text)
    if path:
        write = write.replace("staff.csv", path[1])
    if table:
        write = re.sub(r"\bstaff\b(?!\.csv)", table[1], write)
    offset = re.search(r" at (\d+)$", habit.reply)
    place = int(offset[1]) if offset else 0
    for pattern, of_example, of_reader in ((habit.at, habit.written[place:], text[at:]), (habit.before, habit.written[:place], before)):
        found, theirs = (re.search(pattern, one, re.I | re.S) for one in (of_example, of_reader))
        if found and theirs:
            for word, their_word in zip(found.groups(), theirs.groups()):
                write = re.sub(r"\b%s\b" % word, their_word.lower() if word in WORDS else their_word, write)
    example, own = (_LAST_WORD.search(begin) for begin in (habit.written[:place], before))
    if example and own and example[1] not in (*WORDS, "staff") and own[1] not in WORDS:
        write = re.sub(r"\b%s\b" % example[1], own[1], write)
    return write


def _near_word(text: str, at: int, words: Sequence[str]) -> str:
    """The word that was meant where the one at a place differs from it by a letter."""
    found = re.compile(r"[A-Za-z_]\w*").match(text, at)
    near = [word for word in words if found and _differ_by_one(found[0].lower(), word)]
    return "is it `%s`?" % near[0] if near else ""


def _differ_by_one(one: str, other: str) -> bool:
    """Whether two words differ by one letter more, less or other, or by two neighbours that changed places."""
    if one == other or abs(len(one) - len(other)) > 1:
        return False
    at = next((place for place, (left, right) in enumerate(zip(one, other)) if left != right), min(len(one), len(other)))
    rest, other_rest = one[at:], other[at:]
    swapped = rest[1:2] + rest[:1] + rest[2:]
    return rest[1:] == other_rest or rest == other_rest[1:] or rest[1:] == other_rest[1:] or swapped == other_rest


def language_table() -> str:
    """The rows of the table in docs/LANGUAGE.md."""
    staff = {"staff": Schema("staff", {"id": "int", "name": "text", "room": "int"}, ["id"])}
    rows = []
    for habit in HABITS:
        whole = rewritten(habit.written, staff) if habit.is_whole else ""
        write = "`%s`: %s" % (whole, habit.write) if whole else habit.write
        rows.append("| `%s` | `%s` | %s |\n" % (habit.written.replace("|", "\\|"), habit.reply, write.replace("|", "\\|")))
    return "| Written | Reply | Write |\n|---|---|---|\n" + "".join(rows)
