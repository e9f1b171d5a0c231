"""From what a user names or hands in to a connection."""

from __future__ import annotations

import importlib
import importlib.util
import select
import sqlite3
from typing import Any

from ..errors import QueryRefused
from .engine import Engine
from .mariadb import MariaDB
from .postgres import Postgres
from .sqlite import SQLite


def connected(where: Any) -> Engine:
    """The engine of a path, a URL or a connection. Raises QueryRefused where none is known for it, DatabaseFault where it can't be had."""
    if isinstance(where, str):
        return _opened(where)
    if isinstance(where, sqlite3.Connection):
        return SQLite(where, False)
    driver = type(where).__module__.split(".")[0]
    if driver == "sqlalchemy":
        return _of_sqlalchemy(where)
    if driver in ("psycopg2", "psycopg"):
        return Postgres(where, False)
    if driver in ("pymysql", "MySQLdb"):
        return MariaDB(where, False)
    raise QueryRefused("%s.%s is no connection that is known: a path, a URL, or a connection of sqlite3, psycopg, psycopg2, PyMySQL, MySQLdb or SQLAlchemy is "
                       "wanted" % (driver, type(where).__name__))


def _of_sqlalchemy(where: Any) -> Engine:
    """Over an engine or a connection of SQLAlchemy. A connection that an engine lends is held till the end, so that no other gets it."""
    is_lent = hasattr(where, "raw_connection")
    held = where.raw_connection() if is_lent else getattr(where, "connection", None)
    for name in ("driver_connection", "dbapi_connection", "connection"):
        if getattr(held, name, None) is not None:
            found = connected(getattr(held, name))
            found.lent = held if is_lent else None
            return found
    raise QueryRefused("%s of SQLAlchemy is no engine and no connection" % type(where).__name__)


def _opened(where: str) -> Engine:
    scheme, sign, rest = where.partition(":")
    if not sign or len(scheme) == 1 or "/" in scheme or "\\" in scheme:
        return SQLite.opened(where)
    if scheme in ("sqlite", "sqlite3"):
        return SQLite.opened(rest[3:] if rest.startswith("///") else rest)
    if scheme in ("postgresql", "postgres"):
        return Postgres.opened(where)
    if scheme in ("mysql", "mariadb"):
        return MariaDB.opened(where)
    raise QueryRefused("%s: no database is known by this" % where)


def heed_interrupts() -> None:
    """Makes Ctrl-C end a statement that runs, for this whole process, where a driver would wait for its end."""
    if importlib.util.find_spec("psycopg2") is not None:
        importlib.import_module("psycopg2.extensions").set_wait_callback(_wait)


def _wait(connection: Any) -> None:
    """Waits for what psycopg2 runs. Ctrl-C cancels it, and is raised when that is done."""
    extensions = importlib.import_module("psycopg2.extensions")
    is_interrupted = False
    while True:
        try:
            state = connection.poll()
            if state == extensions.POLL_OK:
                break
            number = connection.fileno()
            select.select([number] if state == extensions.POLL_READ else [], [number] if state == extensions.POLL_WRITE else [], [], 1.0)
        except KeyboardInterrupt:
            is_interrupted = True
            connection.cancel()
        except extensions.QueryCanceledError:
            if is_interrupted:
                raise KeyboardInterrupt from None
            raise
    if is_interrupted:
        raise KeyboardInterrupt
