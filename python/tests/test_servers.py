"""Certain answers over PostgreSQL and MariaDB where things go wrong: a clear error, or the right answer."""

from __future__ import annotations

import os
import shutil
import signal
import subprocess
import sys
import tempfile
import threading
import time
import unittest
from typing import Any, List, Set, Tuple

from support import HERE, TOP, Case, heeds_interrupts

from cqa.database import Database
from cqa.errors import DatabaseFault, QueryRefused

try:
    import psycopg2
except ImportError:
    psycopg2 = None
try:
    import pymysql
except ImportError:
    pymysql = None
try:
    import sqlalchemy
except ImportError:
    sqlalchemy = None
try:
    import pandas
except ImportError:
    pandas = None

sys.path.insert(0, os.path.join(TOP, "differential"))
from database import InMaria, InPostgres, tool  # noqa: E402

KEYS = {"customer": "id", "orders": ["oid"]}
TABLES = """
create table customer (id int, name varchar(40), city varchar(40), since date);
create table orders (oid int, cid int, amount decimal(9,2));
create table city (city varchar(40), region varchar(40));
insert into customer values (1, 'Ada', 'Oslo', '2020-01-01'), (1, 'Ada', 'Bergen', '2020-01-01'), (2, 'Bo', 'Hamar', '2021-05-05'), (3, 'Cy', 'Oslo', '2022-02-02');
insert into orders values (1, 1, 10.5), (2, 2, 5), (2, 3, 7), (3, 3, 1);
insert into city values ('Oslo', 'East'), ('Bergen', 'West'), ('Hamar', 'East')
"""
SLOW = "select a.oid from orders a, orders b, orders c, orders d, orders e where a.amount + b.amount + c.amount + d.amount + e.amount < 0"


class ServerCase(Case):
    """What is tried over each server, in a database of its own for each test."""

    server: Any

    def connect(self) -> Any:
        """A new connection to the test's database."""
        raise NotImplementedError

    def run_all(self, connection: Any, script: str) -> List[Tuple[Any, ...]]:
        """Runs statements, and commits; the rows of the last."""
        cursor = connection.cursor()
        for text in script.strip().rstrip(";").split(";\n"):
            cursor.execute(text)
        rows = list(cursor.fetchall()) if cursor.description else []
        connection.commit()
        return rows

    def more_orders(self, count: int) -> None:
        """Puts further rows into orders."""
        values = ", ".join("(%d, %d, 1)" % (at, at % 7) for at in range(10, count))
        self.run_all(self.other, "insert into orders values " + values)

    def setUp(self) -> None:
        super().setUp()
        self.connection, self.other = self.connect(), self.connect()
        self.addCleanup(self.other.close)
        self.run_all(self.connection, TABLES)
        self.database = Database(self.connection, KEYS)

    def possible(self, sql: str, database: Any = None, **params: Any) -> Set[Tuple[Any, ...]]:
        """The possible answers."""
        return set((database or self.database).possible(sql, **params))

    def refused(self, sql: str, **params: Any) -> str:
        """Why a query is refused."""
        with self.assertRaises(QueryRefused) as caught:
            list(self.database.possible(sql, **params))
        return str(caught.exception)


class OverBoth:
    """What is the same of both servers."""

    def test_percent_signs(self: Any) -> None:
        self.assertEqual(self.possible("select name from customer where name like '%d%' and city = :city", city="Oslo"), {("Ada",)})
        self.assertEqual(self.possible("select id % 2 from customer where name like :part", part="%y"), {(1,)})
        self.assertEqual(self.possible("select name from customer where name like 'A_a%'"), {("Ada",)})

    def test_a_timeout(self: Any) -> None:
        self.more_orders(400)
        database = Database(self.connection, KEYS, timeout=0.3)
        with self.assertRaisesRegex(DatabaseFault, "timeout|max_statement_time"):
            list(database.possible(SLOW))
        self.assertEqual(self.possible("select name from customer where id = 3", database), {("Cy",)})
        self.assertEqual(self.own_tables(), [])

    def test_a_lost_connection(self: Any) -> None:
        self.more_orders(12_000)
        answers = self.database.possible("select oid, amount from orders")
        next(answers)
        self.kill()
        with self.assertRaises(DatabaseFault):
            list(self.database.possible("select name from customer"))
        answers.close()
        with self.assertRaises(DatabaseFault):
            list(self.database.possible("select name from customer"))
        database = Database(self.connect(), KEYS)
        self.assertEqual(self.possible("select name from customer where id = 3", database), {("Cy",)})
        database._engine.connection.close()

    def test_a_hundred_columns(self: Any) -> None:
        self.run_all(self.connection, "create table wide (id int, %s);\ninsert into wide values (%s)" % (
            ", ".join("c%d int" % at for at in range(100)), ", ".join(map(str, range(101)))))
        self.assertEqual(self.possible("select * from wide", Database(self.connection, {"wide": "id"})), {tuple(range(101))})

    def test_keys_that_are_none(self: Any) -> None:
        self.run_all(self.connection, "create view seen as select id, name from customer")
        for keys, told in (({"customer": "nothing"}, "no column nothing"), ({"seen": "id"}, "it is a view"), ({"nobody": "id"}, "no table nobody")):
            with self.subTest(keys), self.assertRaisesRegex(QueryRefused, told):
                Database(self.connection, keys)

    def test_columns_that_are_called_as_ours(self: Any) -> None:
        self.run_all(self.connection, "create table odd (id int, cqa_b int, cqa_k0 int, name varchar(9));\ninsert into odd values (1, 1, 1, 'x'), (1, 2, 2, 'x')")
        database = Database(self.connection, {"odd": "id"})
        self.assertEqual(self.possible("select name from odd", database), {("x",)})
        with self.assertRaisesRegex(QueryRefused, "begin with cqa_ are ours"):
            self.possible("select cqa_b from odd", database)

    def test_a_deadlock(self: Any) -> None:
        self.begin_waiting_at_once()
        cursor, other = self.connection.cursor(), self.other.cursor()
        cursor.execute(self.lock_text("customer"))
        other.execute(self.lock_text("orders"))
        waits = threading.Thread(target=lambda: self.swallow(other, self.lock_text("customer")))
        waits.start()
        time.sleep(0.3)
        try:
            self.ask_in_a_deadlock()
        finally:
            self.connection.rollback()
            waits.join()
            self.other.rollback()
        self.assertEqual(self.possible("select name from customer where id = 3"), {("Cy",)})

    def swallow(self: Any, cursor: Any, text: str) -> None:
        """Runs a statement that may be the one that a deadlock ends."""
        try:
            cursor.execute(text)
        except self.error:
            pass


@unittest.skipIf(psycopg2 is None or tool("initdb") is None, "PostgreSQL or psycopg2 isn't installed")
class OverPostgres(OverBoth, ServerCase):
    error = psycopg2.Error if psycopg2 else Exception

    @classmethod
    def setUpClass(cls) -> None:
        cls.room = tempfile.mkdtemp()
        cls.server = InPostgres(cls.room)
        cls.number = 0

    @classmethod
    def tearDownClass(cls) -> None:
        cls.server.close()
        shutil.rmtree(cls.room, ignore_errors=True)

    def setUp(self) -> None:
        type(self).number += 1
        self.name = "test_%d" % self.number
        self.server.asked.rollback()
        self.server.asked.autocommit = True
        self.server.asked.cursor().execute("create database " + self.name)
        super().setUp()
        self.addCleanup(self.connection.close)

    def connect(self, user: str = "postgres") -> Any:
        return psycopg2.connect(host=self.server.server.folder, dbname=self.name, user=user)

    def own_tables(self) -> List[Tuple[Any, ...]]:
        return self.run_all(self.other, "select relname from pg_class where relname like 'cqa%' and relkind = 'r'") if not self.database._engine._depth else \
            self.database._engine.all("select relname from pg_class where relname like 'cqa%' and relkind = 'r'")

    def kill(self) -> None:
        self.run_all(self.other, "select pg_terminate_backend(%d)" % self.connection.get_backend_pid())

    def lock_text(self, table: str) -> str:
        return "lock table %s in access exclusive mode" % table

    def begin_waiting_at_once(self) -> None:
        self.run_all(self.connection, "set deadlock_timeout = '100ms'")
        self.run_all(self.other, "set deadlock_timeout = '10s'")

    def ask_in_a_deadlock(self) -> None:
        with self.assertRaisesRegex(DatabaseFault, "deadlock"):
            list(self.database.possible("select cid from orders"))

    def test_kept_rows(self) -> None:
        asked = ["select city from customer where id = 1", "select cid from orders where amount > 6", "select a.city, b.city from customer a, customer b where a.id = b.id"]
        wanted = [self.possible(sql) for sql in asked]
        with self.database.snapshot(prepare=["customer", "orders"]):
            self.assertEqual([self.possible(sql) for sql in asked], wanted)
            self.assertEqual(len(self.own_tables()), 2)
        self.assertEqual(self.own_tables(), [])
        self.assertEqual([self.possible(sql) for sql in asked], wanted)

    def test_kept_rows_are_never_old(self) -> None:
        with self.database.snapshot(prepare=["customer"]):
            self.assertEqual(self.possible("select name from customer where id = 3"), {("Cy",)})
            self.connection.cursor().execute("insert into customer values (3, 'Cy', 'Hamar', null)")
            self.assertIn("begin another snapshot", self.refused("select name from customer where id = 3"))
        self.assertEqual(self.run_all(self.other, "select count(*) from customer"), [(4,)])

    def test_room_for_temporary_files(self) -> None:
        self.more_orders(40_000)
        self.run_all(self.connection, "set work_mem = '64kB';\nset temp_file_limit = '64kB'")
        with self.assertRaisesRegex(DatabaseFault, "temp_file_limit"):
            list(Database(self.connection, KEYS, tables=False).possible("select distinct oid, cid, amount from orders"))
        self.run_all(self.connection, "set temp_file_limit = -1")
        self.assertEqual(len(self.possible("select oid, cid from orders")), 39_994)

    def test_values_that_the_driver_cannot_read(self) -> None:
        self.run_all(self.connection, "insert into customer values (9, 'Methusalem', 'Ur', '0044-03-15 BC')")
        with self.assertRaisesRegex(DatabaseFault, "write cast"):
            list(self.database.possible("select since from customer"))
        self.assertEqual(self.possible("select cast(since as text) from customer where id = 9"), {("0044-03-15 BC",)})

    def test_names_in_capitals_in_quotes_and_with_schemas(self) -> None:
        self.run_all(self.connection, 'create schema "My Shop";\ncreate table "My Shop"."Customer" ("ID" int, "Full Name" text, "order" text);\n'
                     "insert into \"My Shop\".\"Customer\" values (1, 'Ada', 'x'), (1, 'Ada', 'y')")
        for keys in ({'"My Shop"."Customer"': '"ID"'}, {'"My Shop"."Customer"': "ID"}):
            database = Database(self.connection, {**KEYS, **keys})
            self.assertEqual(self.possible('select "Full Name" from "My Shop"."Customer" where "ID" = 1', database), {("Ada",)})
            self.assertEqual(self.possible('select C."order" from "My Shop"."Customer" c, CUSTOMER where c."ID" = Id', database), {("x",), ("y",)})
            with database.snapshot(prepare=['"My Shop"."Customer"']):
                self.assertEqual(self.possible('select "order" from "My Shop"."Customer"', database), {("x",), ("y",)})
        with self.assertRaises(QueryRefused):
            Database(self.connection, {"My Shop.customer": "ID"})

    def test_row_level_security(self) -> None:
        self.run_all(self.connection, "create view names as select id, name from customer;\nalter table customer enable row level security;\n"
                     "create policy south on customer using (city <> 'Bergen');\ndrop role if exists clerk;\ncreate role clerk login;\n"
                     "grant select on customer, orders, names to clerk")
        clerk = self.connect("clerk")
        self.addCleanup(clerk.close)
        database = Database(clerk, KEYS)
        self.assertEqual(self.possible("select id, city from customer", database), {(1, "Oslo"), (2, "Hamar"), (3, "Oslo")})
        self.assertEqual(list(database.conflicts("customer")), [])
        with self.assertRaisesRegex(QueryRefused, "row level security"):
            self.possible("select name from names", database)

    def test_what_reads_a_table_unseen(self) -> None:
        self.run_all(self.connection, "create materialized view frozen as select id, name from customer;\ncreate view over_it as select name from frozen;\n"
                     "create function seen() returns bigint stable language sql as 'select count(*) from customer';\n"
                     "create view calls as select seen() as n;\ncreate table parts (id int, x int) partition by range (id);\n"
                     "create table part_one partition of parts for values from (0) to (10);\ncreate table part_two partition of parts for values from (10) to (20);\n"
                     "insert into parts values (1, 1), (1, 2), (11, 3)")
        for sql in ("select name from frozen, customer", "select name from over_it", "select n from calls, customer", "select seen() from customer",
                    "select name from customer where seen() > 1"):
            with self.subTest(sql):
                self.assertRegex(self.refused(sql), "can't be followed|may read tables")
        database = Database(self.connection, {"parts": "id"})
        with database.snapshot(prepare=["parts"]):
            self.assertEqual(self.possible("select x from parts", database), {(1,), (2,), (3,)})
            self.connection.cursor().execute("insert into part_two values (12, 4)")
            with self.assertRaisesRegex(QueryRefused, "begin another snapshot"):
                self.possible("select x from parts", database)
        with self.assertRaisesRegex(QueryRefused, "can't be followed"):
            self.possible("select x from part_one", database)

    def test_in_a_transaction_that_is_not_ours(self) -> None:
        self.connection.set_session(readonly=True)
        with self.assertRaisesRegex(QueryRefused, "no temporary tables"), self.database.snapshot(prepare=["customer"]):
            self.fail("it isn't taken")
        self.assertEqual(self.possible("select name from customer where id = 3"), {("Cy",)})
        self.connection.set_session(readonly=False, isolation_level="REPEATABLE READ")
        self.connection.cursor().execute("insert into customer values (4, 'Di', 'Oslo', null)")
        with self.assertRaisesRegex(QueryRefused, "it was written in this transaction"), self.database.snapshot(prepare=["customer"]):
            self.fail("it isn't taken")
        with self.database.snapshot(prepare=["orders"]):
            self.assertEqual(self.possible("select name from customer, orders where id = 4"), {("Di",)})
        self.assertEqual(self.possible("select name from customer where id = 4"), {("Di",)})
        self.connection.rollback()
        self.assertEqual(self.possible("select name from customer where id = 4"), set())

    def test_a_snapshot_that_ends_before_its_answers(self) -> None:
        self.more_orders(20_000)
        with self.database.snapshot():
            answers = self.database.possible("select oid, amount from orders")
            next(answers)
        with self.assertRaises(DatabaseFault):
            list(answers)
        self.assertEqual(self.possible("select name from customer where id = 3"), {("Cy",)})
        self.run_all(self.other, "insert into customer values (5, 'Eve', 'Oslo', null)")
        self.assertEqual(self.possible("select name from customer where id = 5"), {("Eve",)})

    def test_a_client_that_ends_leaves_no_query(self) -> None:
        self.more_orders(600)
        url = "postgresql://postgres@/%s?host=%s" % (self.name, self.server.server.folder)
        driver = os.path.dirname(os.path.dirname(psycopg2.__file__))
        environment = dict(os.environ, PYTHONPATH=os.pathsep.join([os.path.dirname(HERE), driver]))
        for number, wait in ((signal.SIGINT, 20), (signal.SIGKILL, 30)):
            child = subprocess.Popen([sys.executable, "-m", "cqa", "ask", "--possible", "--db", url, "--key", "orders=oid", SLOW], stdout=subprocess.DEVNULL,
                                     stderr=subprocess.DEVNULL, env=environment, preexec_fn=heeds_interrupts)
            self.until(lambda: self.running() == 1, 60)
            child.send_signal(number)
            self.assertEqual(child.wait(timeout=10), 130 if number == signal.SIGINT else -9)
            self.until(lambda: self.running() == 0, wait)

    def running(self) -> int:
        return int(self.run_all(self.other, "select count(*) from pg_stat_activity where query like '%cqa_w0%' and state = 'active' and "
                                            "pid <> pg_backend_pid()")[0][0])

    def until(self, is_so: Any, seconds: float) -> None:
        """Waits for what has to come."""
        end = time.monotonic() + seconds
        while not is_so():
            self.assertLess(time.monotonic(), end)
            time.sleep(0.1)

    @unittest.skipIf(sqlalchemy is None, "SQLAlchemy isn't installed")
    def test_sqlalchemy(self) -> None:
        engine = sqlalchemy.create_engine("postgresql+psycopg2://postgres@/%s?host=%s" % (self.name, self.server.server.folder))
        with Database(engine, KEYS) as database, engine.connect() as connection:
            held = connection.connection
            self.assertIsNot(getattr(held, "driver_connection", None) or held.connection, database._engine.connection)
            self.assertEqual(self.possible("select name from customer where id = 3", database), {("Cy",)})
            self.assertEqual(self.possible("select name from customer where id = :id", Database(connection, KEYS), id=3), {("Cy",)})
        engine.dispose()


@unittest.skipIf(pymysql is None or tool("mariadbd") is None, "MariaDB or PyMySQL isn't installed")
class OverMariaDB(OverBoth, ServerCase):
    error = pymysql.Error if pymysql else Exception

    @classmethod
    def setUpClass(cls) -> None:
        cls.room = tempfile.mkdtemp()
        cls.server = InMaria(cls.room)
        cls.number = 0

    @classmethod
    def tearDownClass(cls) -> None:
        cls.server.close()
        shutil.rmtree(cls.room, ignore_errors=True)

    def setUp(self) -> None:
        type(self).number += 1
        self.name = "test_%d" % self.number
        self.server.asked.cursor().execute("create database " + self.name)
        super().setUp()
        self.addCleanup(lambda: self.connection.open and self.connection.close())

    def connect(self) -> Any:
        return pymysql.connect(unix_socket=os.path.join(self.room, "socket"), user="root", charset="utf8mb4", database=self.name)

    def own_tables(self) -> List[Tuple[Any, ...]]:
        return []

    def kill(self) -> None:
        self.run_all(self.other, "kill %d" % self.connection.thread_id())

    def lock_text(self, table: str) -> str:
        return "select * from %s for update" % table

    def begin_waiting_at_once(self) -> None:
        self.run_all(self.connection, "set innodb_lock_wait_timeout = 2")

    def ask_in_a_deadlock(self) -> None:
        # rows are read from the snapshot, so that nothing waits
        self.assertEqual(self.possible("select cid from orders where oid = 3"), {(3,)})

    def test_one_state(self) -> None:
        with self.database.snapshot():
            self.assertEqual(self.possible("select oid from orders where oid > 2"), {(3,)})
            self.run_all(self.other, "insert into orders values (3, 9, 9);\ninsert into orders values (4, 9, 9)")
            self.assertEqual(self.possible("select oid from orders where oid > 2"), {(3,)})
            with self.assertRaisesRegex(QueryRefused, "no temporary tables"), self.database.snapshot(prepare=["orders"]):
                self.fail("it isn't taken")
        self.assertEqual(self.possible("select oid from orders where oid > 2"), {(3,), (4,)})

    def test_names_in_capitals_and_in_quotes(self) -> None:
        self.run_all(self.connection, "create table `Order By` (`ID` int, `Full Name` varchar(20));\ninsert into `Order By` values (1, 'x'), (1, 'y')")
        database = Database(self.connection, {"Order By": "ID"})
        self.assertEqual(self.possible("select `full name` from `Order By`", database), {("x",), ("y",)})


class Frames(Case):
    @unittest.skipIf(pandas is None, "pandas isn't installed")
    def test_to_pandas(self) -> None:
        self.file("shop.csv", "id,name\n1,Ada\n1,Bo\n2,\n")
        from cqa.database.csv_lists import database_of_lists
        frame = Database(database_of_lists({"shop": [self.path("shop.csv")]}), {"shop": "id"}).possible("select id, name from shop").to_pandas()
        self.assertEqual((list(frame.columns), sorted(frame["id"]), len(frame)), (["id", "name"], [1, 1, 2], 3))

    @unittest.skipIf(sqlalchemy is None, "SQLAlchemy isn't installed")
    def test_sqlalchemy_over_sqlite(self) -> None:
        engine = sqlalchemy.create_engine("sqlite:///" + self.path("shop.db"))
        with engine.connect() as connection:
            connection.connection.executescript("create table shop (id integer, name text); insert into shop values (1, 'a'), (1, 'b')")
        with Database(engine, {"shop": "id"}) as database:
            self.assertEqual(set(database.possible("select name from shop")), {("a",), ("b",)})
        engine.dispose()


if __name__ == "__main__":
    unittest.main()
