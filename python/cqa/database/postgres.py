"""PostgreSQL, by psycopg or psycopg2."""

from __future__ import annotations

import importlib
import re
from contextlib import contextmanager, suppress
from typing import Any, Dict, Iterator, List, Mapping, Optional, Sequence, Set, Tuple

from ..errors import DatabaseFault, QueryRefused
from .dbapi import DbApi
from .engine import Row, named
from .query import Branch, Column, Relation
from .tokens import Lexicon, Token

#: Types whose equal values are the same, texts by their collation.
_EXACT = frozenset(["integer", "bigint", "smallint", "date", "boolean", "uuid", "text", "bytea", "oid", "character varying",
                    "timestamp without time zone", "timestamp with time zone"])
#: Functions of the grammar, which the catalogue hasn't.
_GRAMMAR = frozenset("coalesce greatest least nullif position trim normalize".split())
#: Functions of the catalogue that read tables, or how a value is stored.
_READING = re.compile(r"(table|query|cursor|schema|database)_to_xml.*|pg_stat_.*|pg_column_size|pg_column_compression|ts_stat|ts_rewrite")
_PIECE = 5_000
_IDLE, _IN_TRANSACTION = 0, 2

_RELATION = """SELECT c.oid, quote_ident(n.nspname) || '.' || quote_ident(c.relname), c.relkind, c.relrowsecurity
FROM pg_class c JOIN pg_namespace n ON n.oid = c.relnamespace WHERE c.oid = to_regclass(%s)"""
_COLUMNS = """SELECT attname, atttypid, format_type(atttypid, NULL), attnotnull, coalesce(collisdeterministic, true)
FROM pg_attribute LEFT JOIN pg_collation l ON l.oid = attcollation WHERE attrelid = %s AND attnum > 0 AND NOT attisdropped ORDER BY attnum"""
#: What reads a table, by its rules or by inheritance, and whether that can't be followed; and what calls a function that may read any.
_READERS = """WITH RECURSIVE edges(reader, read, is_hidden) AS (
  SELECT r.ev_class, d.refobjid, c.relkind <> 'v' FROM pg_depend d JOIN pg_rewrite r ON r.oid = d.objid JOIN pg_class c ON c.oid = r.ev_class
  WHERE d.classid = 'pg_rewrite'::regclass AND d.refclassid = 'pg_class'::regclass AND r.ev_class <> d.refobjid
  UNION SELECT inhrelid, inhparent, true FROM pg_inherits UNION SELECT inhparent, inhrelid, true FROM pg_inherits),
reading(oid, is_hidden) AS (
  SELECT unnest(%s::oid[]), false
  UNION SELECT r.ev_class, true FROM pg_depend d JOIN pg_rewrite r ON r.oid = d.objid JOIN pg_proc p ON p.oid = d.refobjid
  WHERE d.classid = 'pg_rewrite'::regclass AND d.refclassid = 'pg_proc'::regclass AND p.provolatile <> 'i' AND p.pronamespace <> 'pg_catalog'::regnamespace
  UNION SELECT e.reader, e.is_hidden OR r.is_hidden FROM reading r JOIN edges e ON e.read = r.oid)
SELECT c.relname, r.is_hidden FROM reading r JOIN pg_class c ON c.oid = r.oid"""
#: The locks on a table and what is below it by which this transaction wrote, or changed the table.
_WRITES = """WITH RECURSIVE parts(oid) AS (SELECT %s::oid UNION SELECT inhrelid FROM pg_inherits JOIN parts ON inhparent = parts.oid)
SELECT relation::bigint, mode FROM pg_locks WHERE pid = pg_backend_pid() AND locktype = 'relation' AND relation IN (SELECT oid FROM parts)
AND database = (SELECT oid FROM pg_database WHERE datname = current_database()) AND mode NOT IN ('AccessShareLock', 'RowShareLock')"""
_FAULTY_OPERATORS = """SELECT DISTINCT oprname FROM pg_operator o JOIN pg_proc p ON p.oid = o.oprcode
WHERE p.provolatile = 'v' OR p.provolatile = 's' AND p.pronamespace <> 'pg_catalog'::regnamespace"""


class Postgres(DbApi):
    """One connection to PostgreSQL."""

    name = "PostgreSQL"
    lexicon = Lexicon(frozenset('"'), "ebxn", has_dollar_texts=True, folds_quoted=False, longest_name=63)
    null_number = "NULL::bigint"
    own_schema = "pg_temp"
    most_elements = 1_000

    def __init__(self, connection: Any, is_own: bool) -> None:
        super().__init__(connection, is_own)
        self._oids: Dict[str, int] = {}
        self._faulty_operators: Optional[Set[str]] = None
        self._cursors = 0
        self._transactions = 0
        self._can_make = False
        self._has_one_state = False

    @classmethod
    def opened(cls, url: str) -> "Postgres":
        """The database of a URL. Raises DatabaseFault where it can't be had, QueryRefused where no driver is installed."""
        for name in ("psycopg", "psycopg2"):
            with suppress(ImportError):
                module = importlib.import_module(name)
                try:
                    connection = module.connect(url)
                    connection.autocommit = True
                except module.Error as fault:
                    raise DatabaseFault("PostgreSQL: %s" % str(fault).strip().split("\n")[0]) from None
                return cls(connection, True)
        raise QueryRefused("PostgreSQL wants psycopg or psycopg2, and neither is installed")

    def said(self, fault: BaseException) -> str:
        text = super().said(fault)
        return re.sub(r"^ERROR:\s*", "", text)

    def is_of_text(self, fault: BaseException) -> bool:
        return not isinstance(fault, self.module.OperationalError)  # as a deadlock, or a timeout

    def cursor(self) -> Any:
        return self.module.ClientCursor(self.connection) if hasattr(self.module, "ClientCursor") else self.connection.cursor()

    # The catalogue.

    def begin_question(self, tokens: Sequence[Any]) -> None:
        super().begin_question(tokens)
        self._oids.clear()
        self._faulty_operators = None
        settings = self.all("SELECT current_setting('standard_conforming_strings'), current_setting('extra_float_digits')::int")[0]
        if settings[0] != "on":
            raise QueryRefused("standard_conforming_strings is off: how texts end isn't known then; SET standard_conforming_strings = on")
        if settings[1] < 1:
            raise QueryRefused("extra_float_digits is less than 1: numbers that differ look alike then; SET extra_float_digits = 1")

    def relation(self, parts: Sequence[Token]) -> Relation:
        text = ".".join(part.text for part in parts)
        found = self.all(_RELATION, text)
        if not found:
            raise QueryRefused("no table %s" % text)
        oid, name, kind, has_policies = found[0]
        kind = kind.decode() if isinstance(kind, bytes) else kind
        if kind not in "rpfvm":
            raise QueryRefused("%s is no table" % text)
        self._oids[name] = oid
        columns = tuple(Column(column, self.quoted(column), str(type_id), kind_name in _EXACT and is_exact and kind != "f",
                               not is_not_null or kind == "f") for column, type_id, kind_name, is_not_null, is_exact in self.all(_COLUMNS, oid))
        if kind != "v":
            return Relation(name, columns, kind in "rpf")
        definition = self.all("SELECT pg_get_viewdef(%s::oid)", oid)[0][0]
        policies = self.all("SELECT 1 FROM pg_class WHERE relrowsecurity LIMIT 1")
        if policies:
            raise QueryRefused("the view %s, where tables have row level security: whose rows it reads isn't known; ask its tables" % text)
        return Relation(name, columns, False, definition.rstrip().rstrip(";"))

    def readers(self, tables: Set[str]) -> Tuple[Set[str], Set[str]]:
        rows = self.all(_READERS, [self._oids[name] for name in tables])
        return {name for name, is_hidden in rows if not is_hidden}, {name for name, is_hidden in rows if is_hidden}

    def find_columns(self, name: str) -> Set[str]:
        return {row[0] for row in self.all("SELECT attname FROM pg_attribute a JOIN pg_class c ON c.oid = a.attrelid WHERE c.relname = %s AND "
                                           "c.relkind IN ('r', 'v', 'm', 'f', 'p') AND a.attnum > 0", name)}

    def definitions_named(self, name: str) -> List[str]:
        return [row[0] for row in self.all("SELECT pg_get_viewdef(oid) FROM pg_class WHERE relname = %s AND relkind = 'v' AND relnamespace NOT IN "
                                           "('pg_catalog'::regnamespace, 'information_schema'::regnamespace)", name)]

    def find_function_fault(self, name: str, count: int, is_within: bool) -> Optional[str]:
        if name in _GRAMMAR:
            return None
        rows = self.all("SELECT prokind::text, provolatile::text, proretset, pronamespace = 'pg_catalog'::regnamespace FROM pg_proc WHERE proname = %s", name)
        if not rows:
            return "an unknown function"
        if not is_within and any(kind in "aw" for kind, _, _, _ in rows):
            return "an aggregate or a window function over a table with a key"
        if not is_within and any(is_set for _, _, is_set, _ in rows):
            return "it gives several rows"
        if _READING.fullmatch(name):
            return "it reads tables, or how a value is stored"
        if any(volatile == "v" or volatile == "s" and not is_own for _, volatile, _, is_own in rows):
            return "it isn't the same each time, or may read tables: only immutable functions of your own are taken"
        return None

    def operator_fault(self, sign: str) -> Optional[str]:
        if self._faulty_operators is None:
            self._faulty_operators = {row[0] for row in self.all(_FAULTY_OPERATORS)}
        return "an operator that may not be the same each time, or may read tables" if sign in self._faulty_operators else None

    def quoted(self, name: str) -> str:
        return '"%s"' % name.replace('"', '""')

    def union_fault(self, branches: Sequence[Branch], parts: Sequence[Sequence[Column]], is_inner: bool) -> Optional[str]:
        kinds = [[column.type for column in part] for part in parts]
        if any(kind != kinds[0] for kind in kinds):
            return "the parts' columns are of different types: write cast(.. as ..) around each"
        return None

    def description_text(self, sql: str) -> str:
        return "SELECT * FROM (%s\n) cqa_q LIMIT 0" % sql

    # The dialect.

    def identity(self, expressions: Sequence[str], columns: Sequence[Column]) -> str:
        return "ROW(%s)::text" % ", ".join(expressions)

    def is_same_identity(self, kept: str, made: str) -> str:
        return "%s IS NOT DISTINCT FROM %s" % (kept, made)  # which no join hashes, so that it is made only where the key met

    # Running.

    @contextmanager
    def transaction(self, timeout: Optional[float]) -> Iterator[None]:
        if self._depth:
            self._depth += 1
            try:
                yield
            finally:
                self._depth = max(0, self._depth - 1)  # the outer one may have ended
            return
        begins = self._status() == _IDLE
        self._begin(begins, timeout)
        self._depth = 1
        self._transactions += 1
        try:
            yield
        finally:
            self._depth = 0
            self._transactions += 1
            self._can_make = False
            with suppress(Exception):  # a connection that is lost has no transaction
                self._end(begins)

    def _status(self) -> int:
        status = int(self.connection.info.transaction_status)
        if status not in (_IDLE, _IN_TRANSACTION):
            raise DatabaseFault("PostgreSQL: the connection is busy, lost, or in a transaction that failed")
        return status

    def _begin(self, begins: bool, timeout: Optional[float]) -> None:
        """Begins a transaction, or a part of the user's own; what is set in it is gone with it."""
        if not begins:
            self.run("SAVEPOINT cqa_t", {})
        elif self.connection.autocommit:
            self.run("BEGIN ISOLATION LEVEL REPEATABLE READ", {})
        else:
            self.run("SET TRANSACTION ISOLATION LEVEL REPEATABLE READ", {})
        settings = {"jit": "off", "cursor_tuple_fraction": "1", "default_statistics_target": "10"}  # the last for our own tables
        if timeout is not None:
            settings["statement_timeout"] = str(max(1, int(timeout * 1000)))
        version, isolation, is_read_only, may = self.all(
            "SELECT current_setting('server_version_num')::int, current_setting('transaction_isolation'), current_setting('transaction_read_only'), "
            "has_database_privilege(current_database(), 'TEMP')")[0]
        if version >= 140000:
            settings["client_connection_check_interval"] = "2s"
        for name, value in settings.items():
            self.all("SELECT set_config(%s, %s, true)", name, value)
        self._has_one_state = isolation in ("repeatable read", "serializable")
        self._can_make = self._has_one_state and is_read_only == "off" and may

    def _end(self, begins: bool) -> None:
        if not begins:
            self.run("ROLLBACK TO SAVEPOINT cqa_t", {})
            self.run("RELEASE SAVEPOINT cqa_t", {})
        elif self.connection.autocommit:
            self.run("ROLLBACK", {})
        else:
            self.connection.rollback()

    def can_make_tables(self) -> bool:
        return self._can_make

    def keeping_fault(self, relation: Relation) -> Optional[str]:
        return "it was written in this transaction: commit that, or leave it out" if self.writes(relation) else None

    def writes(self, relation: Relation) -> object:
        return sorted(self.all(_WRITES, self._oids[relation.name]))

    def has_one_state(self) -> bool:
        return self._has_one_state

    @contextmanager
    def kept_apart(self) -> Iterator[None]:
        self.run("SAVEPOINT cqa_s", {})
        try:
            yield
        except self.error:
            self.run("ROLLBACK TO SAVEPOINT cqa_s", {})
            raise
        self.run("RELEASE SAVEPOINT cqa_s", {})

    def rows(self, sql: str, arguments: Mapping[str, Any]) -> Iterator[Row]:
        self._cursors += 1
        name, within = "cqa_f%d" % self._cursors, self._transactions
        self.run("DECLARE %s NO SCROLL CURSOR FOR %s" % (name, sql), arguments)
        cursor = self.cursor()
        try:
            while True:
                if self._transactions != within:
                    raise DatabaseFault("PostgreSQL: the snapshot ended before its answers had come")
                with self.told():
                    cursor.execute("FETCH %d FROM %s" % (_PIECE, name))
                    rows = cursor.fetchall()
                yield from rows
                if len(rows) < _PIECE:
                    return
        finally:
            if self._transactions == within:
                with suppress(self.error):  # where a statement failed, it is closed already
                    cursor.execute("CLOSE %s" % name)
            cursor.close()

    def make_table(self, name: str, columns: Sequence[str], select: str, key: Sequence[str], arguments: Mapping[str, Any]) -> int:
        cursor = self.cursor()
        try:
            with self.told():
                self.execute(cursor, "CREATE TEMP TABLE %s ON COMMIT DROP AS %s" % (name, named(columns, select, name)), arguments)
                count = int(cursor.rowcount)
                if key:
                    cursor.execute("CREATE INDEX ON %s (%s)" % (name, ", ".join(key)))
                cursor.execute("ANALYZE %s" % name)
        finally:
            cursor.close()
        return count

    def size(self, relation: Relation) -> int:
        return int(self.all("SELECT coalesce(sum(CASE WHEN c.reltuples > 0 THEN c.reltuples ELSE pg_relation_size(c.oid) / 100 END), 0)::bigint FROM pg_class c "
                            "WHERE c.oid = %s OR c.oid IN (SELECT relid FROM pg_partition_tree(%s::oid::regclass) WHERE isleaf)",
                            self._oids[relation.name], self._oids[relation.name])[0][0])

    @contextmanager
    def find_by_index(self, is_wanted: bool) -> Iterator[None]:
        if not is_wanted:
            yield
            return
        names = ("enable_hashagg", "enable_seqscan", "enable_bitmapscan")
        before = self.all("SELECT %s" % ", ".join("current_setting('%s')" % name for name in names))[0]
        self.all("SELECT %s" % ", ".join("set_config('%s', 'off', true)" % name for name in names))
        yield
        self.all("SELECT %s" % ", ".join("set_config('%s', '%s', true)" % pair for pair in zip(names, before)))

    def cancel(self) -> None:
        with suppress(Exception):
            self.connection.cancel()
