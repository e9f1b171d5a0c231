"""Certain answers of SQL over a database of the user's own: what is taken, what is refused, and what comes."""

from __future__ import annotations

import json
import sqlite3
import subprocess
import unittest
from typing import Any, List, Set, Tuple

from support import PROGRAM, Case, lines

from cqa.database import Database
from cqa.database.sqlite import SQLite
from cqa.database.tokens import scanned
from cqa.errors import DatabaseFault, QueryRefused

HAS_JUDGE = PROGRAM is not None and subprocess.run([PROGRAM, "judge"], stdin=subprocess.DEVNULL, stdout=subprocess.DEVNULL,
                                                   stderr=subprocess.DEVNULL, check=False).returncode == 0
KEYS = {"customer": "id", "orders": ["oid"]}
TABLES = """
create table customer (id integer, name text, city text, since text);
create table orders (oid integer, cid integer, amount real);
create table city (city text, region text);
create view oslo as select id, name from customer where city = 'Oslo';
create view regions as select region, count(*) as cities from city group by region;
insert into customer values (1, 'Ada', 'Oslo', '2020-01-01'), (1, 'Ada', 'Bergen', '2020-01-01'), (2, 'Bo', 'Hamar', '2021-05-05'), (3, 'Cy', 'Oslo', '2022-02-02');
insert into orders values (1, 1, 10.5), (2, 2, 5), (2, 3, 7), (3, 3, 1);
insert into city values ('Oslo', 'East'), ('Bergen', 'West'), ('Hamar', 'East');
"""


class DatabaseCase(Case):
    """A test with a database in memory."""

    def setUp(self) -> None:
        super().setUp()
        self.connection = sqlite3.connect(":memory:")
        self.addCleanup(self.connection.close)
        self.connection.executescript(TABLES)
        self.database = Database(self.connection, KEYS)

    def refused(self, sql: str, **params: Any) -> str:
        """Why a query is refused."""
        with self.assertRaises(QueryRefused) as caught:
            list(self.database.possible(sql, **params))
        return str(caught.exception)

    def possible(self, sql: str, **params: Any) -> Set[Tuple[Any, ...]]:
        """The possible answers of a query, each of which has to come once."""
        rows = list(self.database.possible(sql, **params))
        self.assertEqual(len(rows), len(set(rows)))
        return set(rows)


class Refusals(DatabaseCase):
    def test_what_is_not_monotone(self) -> None:
        for sql, words in (
                ("select city, count(*) from customer group by city", "GROUP BY over tables with keys"),
                ("select name from customer having 1 = 1", "HAVING"),
                ("select count(*) from customer", "count: an aggregate"),
                ("select max(id) from customer", "max: an aggregate"),
                ("select row_number() over (order by id) from customer", "row_number: an aggregate or a window function"),
                ("select name from customer limit 3", "LIMIT over tables with keys: ask without it"),
                ("select name from customer limit 3 offset 2", "LIMIT"),
                ("select id from customer except select cid from orders", "EXCEPT"),
                ("select id from customer intersect select cid from orders", "INTERSECT over tables with keys: write EXISTS or IN"),
                ("select id from customer where not exists (select 1 from orders where cid = id)", "NOT before a subquery over a table with a key"),
                ("select id from customer where id not in (select cid from orders)", "NOT IN before a subquery"),
                ("select id from customer where id > all (select cid from orders)", "before a subquery"),
                ("select city.city from city left join customer on customer.city = city.city", "LEFT JOIN of customer"),
                ("select name from orders right join customer on cid = id", "RIGHT JOIN"),
                ("select name from orders full join customer on cid = id", "FULL JOIN"),
                ("select name from orders natural join customer", "NATURAL JOIN: write ON or USING"),
                ("select name, (select count(*) from orders where cid = id) from customer", "in the select list"),
                ("select a.name from customer a join customer b on exists (select 1 from orders where cid = b.id)", "in ON"),
                ("select id from customer where (select max(amount) from orders where cid = id) > 3", "within an expression"),
                ("select id from customer where case when exists (select 1 from orders) then 1 end = 1", "within an expression"),
                ("with recursive w as (select id from customer union select id + 1 from w) select * from w", "WITH RECURSIVE"),
                ("with w(x) as (select id from customer) select x from w", "name its columns in its SELECT")):
            with self.subTest(sql):
                self.assertIn(words, self.refused(sql))

    def test_what_is_not_the_same_each_time(self) -> None:
        self.connection.create_function("seen", 1, lambda value: value)
        for sql, words in (
                ("select random() from customer", "random: it isn't the same each time"),
                ("select seen(id) from customer", "seen: it isn't the same each time"),
                ("select id from customer where exists (select random() from city)", "random: it isn't the same each time"),
                ("select nosuch(id) from customer", "nosuch: an unknown function"),
                ("select rowid from customer", "the system column rowid"),
                ("select customer.rowid from customer", "has no column of that name that can be asked")):
            with self.subTest(sql):
                self.assertIn(words, self.refused(sql))

    def test_what_would_be_read_otherwise(self) -> None:
        for sql, words in (
                ("select 1 from customer; drop table customer", "more than one statement"),
                ("select 'a from customer", "a quote without its end"),
                ("select 1 /* from customer", "a comment without its end"),
                ("select (1 from customer", "without"),
                ("select id from customer where id = ?", "parameters are written :name"),
                ("select id from customer where id = $1", "parameters are written :name"),
                ("select id from customer where id = :i", "the parameter :i isn't given"),
                ("select id from customer where id = 1and 2 = 2", "a blank is missing behind the number"),
                ('select id from customer where city = "Oslo"', "a text is written '..'"),
                ("select id from customer where id in orders", "IN before a name"),
                ("select id from customer where exists (select 1 from city where city in customer)", "IN before a name"),
                ("select id as cqa_b from customer", "names that begin with cqa_ are ours"),
                ("select id from customer where id = 2 in (select cid from orders)", "= to the left of IN"),
                ("insert into customer values (9, 'x', 'y', 'z')", "a query begins with SELECT or WITH"),
                ("select id from customer where id in (table orders)", "TABLE in a query"),
                ("select x from (select id, name from customer) x", "x as a whole row: name its columns"),
                ("values (1)", "a query begins with SELECT or WITH"),
                ("", "a query begins with SELECT or WITH"),
                ("select id from customer c, orders c", "c stands twice in one FROM"),
                ("select id from customer join orders using (nothing)", "USING (nothing): write ON"),
                ("select name from nobody", "no table nobody"),
                ("select missing from customer", "no such column: missing"),
                ("select city from customer, city", "the column city is in several tables"),
                ("select p + 1 from (select id as p from customer union select name from customer) x", "of different types")):
            with self.subTest(sql):
                self.assertIn(words, self.refused(sql))
        self.assertEqual(self.connection.execute("select count(*) from customer").fetchone(), (4,))

    def test_parameters_that_no_text_names(self) -> None:
        self.assertIn("no parameter :j", self.refused("select id from customer where id = :i", i=1, j=2))

    def test_unions_of_texts_with_a_collation(self) -> None:
        self.connection.execute("create table folk (id integer, name text collate nocase)")
        database = Database(self.connection, {"folk": "id"})
        for sql in ("select name from folk union select name from customer", "select id from folk where 'a' in (select name from folk)"):
            with self.subTest(sql), self.assertRaises(QueryRefused):
                list(database.possible(sql))

    def test_virtual_tables(self) -> None:
        try:
            self.connection.execute("create virtual table words using fts5(word)")
        except sqlite3.OperationalError:
            self.skipTest("no fts5")
        self.assertIn("a virtual table", self.refused("select word from words, customer"))


class KeysTold(DatabaseCase):
    def fault(self, keys: Any, **options: Any) -> str:
        with self.assertRaises(QueryRefused) as caught:
            Database(self.connection, keys, **options)
        return str(caught.exception)

    def test_keys_that_cannot_be(self) -> None:
        self.assertIn("no column nope; it has id, name, city, since", self.fault({"customer": "nope"}))
        self.assertIn("no table nobody", self.fault({"nobody": "id"}))
        self.assertIn("it is a view", self.fault({"oslo": "id"}))
        self.assertIn("columns are wanted, each once", self.fault({"customer": ["id", "id"]}))
        self.assertIn("columns are wanted", self.fault({"customer": []}))
        self.assertIn("told twice", self.fault({"customer": "id", "CUSTOMER": "id"}))

    def test_a_file_of_keys(self) -> None:
        path = self.file("keys.toml", '# keys\n[keys]\ncustomer = "id"  # one\n"main.orders" = ["oid", "cid"]\n[other]\nx = 1\n')
        self.assertEqual(Database(self.connection, path).possible("select id from customer").columns, ("id",))
        for text, words in (("customer = 'id'\n", "no keys"), ("[keys]\ncustomer = id\n", ":2: TABLE = ")):
            self.assertIn(words, self.fault(self.file("bad.toml", text)))

    def test_a_table_without_a_key_is_told(self) -> None:
        answers = self.database.possible("select name from customer where city in (select city from city) or exists (select 1 from regions)")
        self.assertEqual(answers.certain_tables, ("city", "regions"))
        answers.close()
        strict = Database(self.connection, KEYS, strict_keys=True)
        with self.assertRaisesRegex(QueryRefused, "no key is told of city"):
            list(strict.possible("select name from customer join city on customer.city = city.city"))

    def test_a_null_in_a_key(self) -> None:
        self.connection.execute("insert into customer values (null, 'Di', 'Oslo', null), (null, 'Ed', 'Oslo', null)")
        self.assertIn('customer: 2 rows have a NULL in the key id: null_key="own"', self.refused("select name from customer"))
        self.assertEqual(self.possible("select name from customer where id = 3"), {("Cy",)})
        own, drop = (set(Database(self.connection, KEYS, null_key=way).possible("select name from customer where city = 'Oslo' and since is null"))
                     for way in ("own", "drop"))
        self.assertEqual((own, drop), ({("Di",), ("Ed",)}, set()))
        with self.assertRaises(ValueError):
            Database(self.connection, KEYS, null_key="else")


class WithoutJudge(DatabaseCase):
    def test_a_database_that_is_not_there(self) -> None:
        with self.assertRaisesRegex(DatabaseFault, "no such file"):
            Database(self.path("nothing.db"), KEYS)
        with self.assertRaisesRegex(DatabaseFault, "file is not a database"):
            Database(self.file("text.db", "this is a text and no database at all, and long enough"), KEYS)
        with self.assertRaisesRegex(QueryRefused, "no database is known"):
            Database("oracle://x", KEYS)
        with self.assertRaisesRegex(QueryRefused, "no connection that is known"):
            Database(3, KEYS)

    def test_names_in_capitals_in_quotes_and_with_schemas(self) -> None:
        wanted = {("Cy",), ("Ada",)}
        for sql in ("SELECT NAME FROM CUSTOMER WHERE CITY = 'Oslo'", 'select "name" from main."customer" where "customer"."city" = \'Oslo\'',
                    "select [name] from `customer` c where C.city = 'Oslo'", "select name from oslo"):
            with self.subTest(sql):
                self.assertEqual(self.possible(sql), wanted)

    def test_signs_in_texts(self) -> None:
        self.assertEqual(self.possible("select name from customer where name like '%d%' and city = :where -- 'a comment", where="Oslo"), {("Ada",)})
        self.assertEqual(self.possible("select name || '?;$1 :x' from customer /* ; */ where id = 2;"), {("Bo?;$1 :x",)})

    def test_what_is_taken(self) -> None:
        for sql, wanted in (
                ("select distinct c.name from customer c, orders o where o.cid = c.id and (o.amount between 6 and 20 or c.city like 'Ham%')", {("Ada",), ("Bo",), ("Cy",)}),
                ("select a.id, b.id from customer a join customer b on a.city = b.city and a.id < b.id", {(1, 3)}),
                ("select id from customer where (id, name) in (select cid, 'Cy' from orders)", {(3,)}),
                ("select id from customer c where exists (select * from orders where cid = c.id and amount > 6)", {(1,), (3,)}),
                ("with w as (select cid from orders where amount > 6) select name from customer, w where cid = id", {("Ada",), ("Cy",)}),
                ("select name from (select id, name from customer where city = 'Oslo') x where exists (select 1 from orders where cid = x.id)", {("Ada",), ("Cy",)}),
                ("select region from customer join city using (city)", {("East",), ("West",)}),
                ("select c.id, r.cities from customer c join city t on t.city = c.city left join regions r on r.region = t.region where c.id = 1", {(1, 2), (1, 1)}),
                ("select id from customer where city not in (select city from city where region = 'East') order by id", {(1,)}),
                ("select id from customer where city = (select max(city) from city)", {(1,), (3,)}),
                ("select name from customer union all select region from city", {("Ada",), ("Bo",), ("Cy",), ("East",), ("West",)})):
            with self.subTest(sql):
                self.assertEqual(self.possible(sql), wanted)

    def test_nothing_stays_and_nothing_changes(self) -> None:
        before = list(self.connection.iterdump())
        answers = self.database.possible("select name from customer")
        next(answers)
        answers.close()
        self.assertFalse(self.connection.in_transaction)
        self.assertEqual(list(self.connection.iterdump()), before)
        self.assertEqual(self.connection.execute("select count(*) from sqlite_temp_master").fetchone(), (0,))

    def test_in_a_transaction_of_the_user(self) -> None:
        self.connection.execute("insert into customer values (4, 'Di', 'Oslo', null)")
        self.assertTrue(self.connection.in_transaction)
        self.assertIn(("Di",), self.possible("select name from customer"))
        self.assertTrue(self.connection.in_transaction)
        self.connection.rollback()
        self.assertNotIn(("Di",), self.possible("select name from customer"))

    def test_two_questions_at_once(self) -> None:
        first, second = self.database.possible("select name from customer"), self.database.possible("select oid from orders")
        self.assertEqual((set(second), set(first)), ({(1,), (2,), (3,)}, {("Ada",), ("Bo",), ("Cy",)}))

    def test_a_timeout(self) -> None:
        self.connection.executemany("insert into orders values (?, ?, ?)", [(at, at % 7, at) for at in range(10, 3000)])
        database = Database(self.connection, KEYS, timeout=0.05)
        with self.assertRaisesRegex(DatabaseFault, "longer than the timeout"):
            list(database.possible("select a.oid from orders a, orders b, orders c where a.amount + b.amount + c.amount < 0"))
        self.assertEqual(set(database.possible("select name from customer where id = 3")), {("Cy",)})

    def test_rows_in_conflict_are_kept_for_a_snapshot(self) -> None:
        asked = ["select name, city from customer where city <> 'Hamar'", "select a.city, b.city from customer a, customer b where a.id = b.id",
                 "select name from customer where id in (select cid from orders where amount > 6)"]
        before = list(self.connection.iterdump())
        wanted = [self.possible(sql) for sql in asked]
        with self.database.snapshot(prepare=["customer", "orders"]):
            self.assertEqual([self.possible(sql) for sql in asked], wanted)
            with self.database.snapshot(prepare=["orders"]):
                self.assertEqual(self.possible(asked[2]), wanted[2])
            self.assertEqual(self.possible(asked[2]), wanted[2])
            kept = self.connection.execute("select name from sqlite_temp_master where name like 'cqa_h%' and type = 'table' order by 1").fetchall()
            self.assertEqual(kept, [("cqa_h0",), ("cqa_h1",)])
        self.assertEqual([self.possible(sql) for sql in asked], wanted)
        self.assertEqual((list(self.connection.iterdump()), self.connection.in_transaction), (before, False))
        self.assertEqual(self.connection.execute("select count(*) from sqlite_temp_master").fetchone(), (0,))

    def test_kept_rows_are_never_old(self) -> None:
        for sql in ("insert into customer values (3, 'Cy', 'Hamar', null)", "update customer set id = 2 where id = 3", "delete from customer",
                    "alter table customer add column more text"):
            with self.subTest(sql), self.database.snapshot(prepare=["customer"]):
                self.assertEqual(self.possible("select count from (select 1 as count) x, customer"), {(1,)})
                self.connection.execute(sql)
                self.assertIn("begin another snapshot", self.refused("select city from customer"))
                self.assertEqual(self.possible("select cid from orders where oid = 1"), {(1,)})

    def test_where_no_rows_can_be_kept(self) -> None:
        self.connection.execute("create table folk (id integer, name text collate nocase)")
        database = Database(self.connection, {**KEYS, "folk": "id"})
        self.connection.execute("begin")
        for where, table, told in ((self.database, "customer", "no temporary tables can be made here"),
                                   (Database(self.connection, KEYS, tables=False), "customer", "no temporary tables")):
            with self.assertRaisesRegex(QueryRefused, told), where.snapshot(prepare=[table]):
                self.fail("it isn't taken")
        self.connection.execute("rollback")
        for where, table, told in ((self.database, "city", "no key is told of city"), (self.database, "nobody", "no table nobody"),
                                   (database, "folk", "lose the collations")):
            with self.subTest(table), self.assertRaisesRegex(QueryRefused, told), where.snapshot(prepare=["customer", table]):
                self.fail("it isn't taken")
        self.assertEqual(self.connection.execute("select count(*) from sqlite_temp_master").fetchone(), (0,))

    def test_a_snapshot_that_ends_before_its_answers(self) -> None:
        with self.database.snapshot():
            answers = self.database.possible("select a.oid, b.oid from orders a, orders b")
            next(answers)
        with self.assertRaises(DatabaseFault):
            list(answers)
        self.assertEqual(self.possible("select name from customer where id = 3"), {("Cy",)})

    def test_a_full_disk(self) -> None:
        self.connection.executemany("insert into orders values (?, ?, ?)", [(at, at % 7, at) for at in range(10, 3000)])
        self.connection.commit()
        self.connection.execute("pragma temp.max_page_count = 8")
        with self.assertRaisesRegex(DatabaseFault, "full"):
            list(self.database.possible("select oid, amount from orders"))
        self.connection.execute("pragma temp.max_page_count = 100000")
        self.assertEqual(len(self.possible("select oid, amount from orders")), 2994)

    def test_a_connection_that_is_closed_and_one_that_is_locked_out(self) -> None:
        path = self.path("shop.db")
        with sqlite3.connect(path) as other:
            self.connection.backup(other)
        own = sqlite3.connect(path, timeout=0.1)
        database = Database(own, KEYS)
        other.execute("begin exclusive")
        with self.assertRaisesRegex(DatabaseFault, "locked"):
            list(database.possible("select name from customer"))
        other.rollback()
        self.assertEqual(len(list(database.possible("select name from customer"))), 3)
        own.close()
        with self.assertRaisesRegex(DatabaseFault, "closed"):
            list(database.possible("select name from customer"))
        other.close()

    def test_a_file_that_is_no_database_any_more(self) -> None:
        path = self.path("shop.db")
        with sqlite3.connect(path) as other:
            self.connection.backup(other)
        other.close()
        with Database(path, KEYS) as database:
            with open(path, "r+b") as file:
                file.write(b"x" * 8192)
            with self.assertRaises(DatabaseFault):
                list(database.possible("select name from customer"))

    def test_keys_that_are_none(self) -> None:
        for keys, told in (({"customer": "nothing"}, "no column nothing; it has id, name, city, since"), ({"oslo": "id"}, "it is a view"), ({"nobody": "id"}, "no table nobody"),
                           ({"customer": ["id", "ID"]}, "columns are wanted, each once"), ({"customer": []}, "columns are wanted"), ({"customer": "id", "CUSTOMER": "id"}, "told twice")):
            with self.subTest(keys), self.assertRaisesRegex(QueryRefused, told):
                Database(self.connection, keys)

    def test_columns_that_are_called_as_ours(self) -> None:
        self.connection.executescript('create table odd (id integer, cqa_b text, "cqa_k0" integer, name text); insert into odd values (1, \'a\', 1, \'x\'), (1, \'b\', 2, \'x\')')
        database = Database(self.connection, {"odd": "id"})
        for prepare in ([], ["odd"]):
            with database.snapshot(prepare=prepare):
                self.assertEqual(list(database.possible("select name from odd")), [("x",)])
                with self.assertRaisesRegex(QueryRefused, "begin with cqa_ are ours"):
                    list(database.possible("select cqa_b from odd"))

    def test_names_in_capitals_and_in_quotes(self) -> None:
        self.connection.executescript('attach \':memory:\' as "My Shop"; create table "My Shop"."Order By" ("ID" integer, "Näme" text, "a.b" text);'
                                      'insert into "My Shop"."Order By" values (1, \'é%\', \'x\'), (1, \'é%\', \'y\')')
        for keys in ({'"My Shop"."Order By"': '"ID"'}, {"Order By": "id"}):
            database = Database(self.connection, keys)
            self.assertEqual(list(database.possible('select o."Näme" from "Order By" o where o."Näme" like :n || \'%\' and O.id = 1', n="é")), [("é%",)])
            self.assertEqual(set(database.possible('select "a.b" from "my shop"."order by"')), {("x",), ("y",)})

    def test_a_hundred_columns(self) -> None:
        names = ["c%d" % at for at in range(100)]
        self.connection.execute("create table wide (id integer, %s)" % ", ".join(names))
        self.connection.execute("insert into wide values (%s)" % ", ".join(map(str, range(101))))
        rows = list(Database(self.connection, {"wide": "id"}).possible("select * from wide"))
        self.assertEqual(rows, [tuple(range(101))])

    def test_values_that_cannot_be_read(self) -> None:
        self.connection.execute("insert into customer values (9, cast(x'ff' as text), 'Oslo', null)")
        with self.assertRaisesRegex(DatabaseFault, "UTF-8"):
            list(self.database.possible("select name from customer"))

    def test_conflicts(self) -> None:
        answers = self.database.conflicts("customer")
        self.assertEqual(answers.columns, ("id", "name", "city", "since"))
        self.assertEqual({row[:3] for row in answers}, {(1, "Ada", "Oslo"), (1, "Ada", "Bergen")})
        with self.assertRaisesRegex(QueryRefused, "no key is told of city"):
            self.database.conflicts("city")

    def test_rows_are_told_apart_by_all_that_an_expression_sees(self) -> None:
        texts = ["typeof(v)", "hex(v)", "quote(v)", "v || ''", "printf('%!.20e', v)", "length(v)", "unicode(substr(v, 3))"]
        values: List[Any] = [0, 0.0, "0", b"0", None, "", b"", "a\0b", "a\0c", "a", "A", 0.1, 0.1 + 2 ** -56, 1e300, 9007199254740993, 9007199254740992.0, "T61", "é"]
        engine = SQLite(self.connection, False)
        for at, one in enumerate(values):
            for other in values[at + 1:]:
                seen = [self.connection.execute("select %s from (select ? as v)" % text, (value,)).fetchone() for text in texts for value in (one, other)]
                made = [self.connection.execute("select %s from (select ? as v)" % engine.identity(["v"], []), (value,)).fetchone() for value in (one, other)]
                if seen[::2] != seen[1::2]:
                    self.assertNotEqual(made[0], made[1], (one, other))

    def test_scanning_keeps_a_text(self) -> None:
        for text in ("select a.b||c, x'00'", "select \"a\"\"b\", [c d], `e` from t where a<>1.5e-3 and b!=.5", "select 'it''s' -- end"):
            made = "".join(token.space + token.text for token in scanned(text, SQLite.lexicon))
            self.assertEqual(made, text.split(" --")[0])


@unittest.skipIf(not HAS_JUDGE, "the program isn't built, or has no judge")
class Judged(DatabaseCase):
    def sets(self, sql: str, **params: Any) -> Tuple[Set[Tuple[Any, ...]], Set[Tuple[Any, ...]]]:
        """The certain and the disputed answers, by tables and by one statement."""
        found = [(set(database.certain(sql, **params)), set(database.disputed(sql, **params)))
                 for database in (self.database, Database(self.connection, KEYS, tables=False))]
        self.assertEqual(found[0], found[1])
        return found[0]

    def test_certain_and_disputed(self) -> None:
        for sql, certain, disputed in (
                ("select name from customer where city in ('Oslo', 'Bergen')", {("Cy",), ("Ada",)}, set()),
                ("select distinct city from customer", {("Hamar",), ("Oslo",)}, {("Bergen",)}),
                ("select cid from orders where amount > 4", {(1,)}, {(2,), (3,)}),
                ("select name from customer where id in (select cid from orders where oid = 2)", set(), {("Bo",), ("Cy",)}),
                ("select 1 from customer where id in (select cid from orders where oid = 2)", {(1,)}, set()),
                ("select a.city, b.city from customer a, customer b where a.id = b.id and a.id = 1", set(), {("Oslo", "Oslo"), ("Bergen", "Bergen")}),
                ("select id from customer", {(1,), (2,), (3,)}, set())):
            with self.subTest(sql):
                self.assertEqual(self.sets(sql), (certain, disputed))

    def test_against(self) -> None:
        sql = "select distinct city from customer"
        kept = self.database.against(("Bergen",), sql)
        assert kept is not None
        self.assertEqual([(one.table, one.row["id"], one.row["city"]) for one in kept], [("customer", 1, "Oslo")])
        self.assertIsNone(self.database.against(("Oslo",), sql))
        self.assertEqual(self.database.against(("Paris",), sql), [])
        self.assertEqual(self.database.against((3,), "select length(city) from customer"), [])
        with self.assertRaises(QueryRefused):
            self.database.against((1, 2), sql)

    def test_clean_first(self) -> None:
        found = self.database.clean_first("select o.oid, c.name from orders o, customer c where c.id = o.cid and c.city <> 'Bergen'")
        self.assertEqual(found, [("orders", (2,), 2), ("customer", (1,), 1)])

    def test_kept_rows_change_no_answer(self) -> None:
        asked = ["select distinct city from customer", "select cid from orders where amount > 4", "select a.city from customer a, customer b where a.id = b.id",
                 "select name from customer where id in (select cid from orders where oid = 2)", "select name from customer union select region from city"]
        wanted = [self.sets(sql) for sql in asked]
        against = self.database.against(("Bergen",), asked[0])
        with self.database.snapshot(prepare=["customer", "orders"]):
            found = [(set(self.database.certain(sql)), set(self.database.disputed(sql))) for sql in asked]
            self.assertEqual(self.database.against(("Bergen",), asked[0]), against)
            self.assertEqual(self.database.clean_first("select cid, amount from orders")[0].key, (2,))
        self.assertEqual(found, wanted)

    def test_the_class_of_a_query(self) -> None:
        for sql, told in (
                ("select name from customer where city like 'O%' and id between 1 and 7", "class: first-order"),
                ("select c.name from customer c join orders o on o.cid = c.id and o.amount > 3", "class: first-order; orders attacks customer, weak"),
                ("select 1 from customer c, orders o where c.city = o.amount", "class: conp-complete; customer attacks orders, strong; orders attacks customer, strong"),
                ("select c.name from customer c join city t on t.city = c.city where region = 'East'", "class: first-order; customer attacks t, weak"),
                ("select name from customer where exists (select 1 from orders where cid = customer.id)", "class: first-order; orders attacks customer, weak"),
                ("select a.id from customer a, customer b where a.city = b.city", "class: none is known for a table that stands twice: customer"),
                ("select id from customer union select oid from orders", "class: none is known for a union"),
                ("select upper(name) from customer", "class: none is known for an expression in the select list"),
                ("select c.id as one, o.amount as other from customer c, orders o where one = other", "class: none is known for a condition over a name of the select list"),
                ("select name collate binary from customer", "class: none is known for an expression"),
                ("select c.id from customer c, orders o where c.id < o.cid", "class: none is known for columns of two tables"),
                ("select id from (select id from customer) x", "class: none is known for a query in FROM"),
                ("select c.id from customer c left join city t on t.city = c.city", "class: none is known for LEFT JOIN"),
                ("select id from customer where city in (select city from city)", "class: none is known for a condition with a subquery")):
            with self.subTest(sql):
                self.assertTrue(self.database.explain(sql).hardness.startswith(told), self.database.explain(sql).hardness)
        self.assertIn("class: first-order", str(self.database.explain("select name from customer")))

    def test_explain(self) -> None:
        told = self.database.explain("select name, region from customer c join city t on c.city = t.city, orders where oid = 1")
        self.assertEqual(told.certain_tables, ("city",))
        self.assertEqual(told.used, {"customer": ("id", "name", "city"), "orders": ("oid",)})
        self.assertEqual(told.conflicts, {"customer": 1})

    def test_a_snapshot(self) -> None:
        path = self.path("shop.db")
        with sqlite3.connect(path) as copy:
            self.connection.backup(copy)
        copy.close()
        with Database(path, KEYS) as database, database.snapshot():
            before = set(database.certain("select name from customer"))
            self.assertEqual(set(database.certain("select name from customer")), before)
            self.assertEqual(before, {("Ada",), ("Bo",), ("Cy",)})


@unittest.skipIf(not HAS_JUDGE, "the program isn't built, or has no judge")
class Command(Case):
    def setUp(self) -> None:
        super().setUp()
        connection = sqlite3.connect(self.path("shop.db"))
        connection.executescript(TABLES)
        connection.close()

    def ask(self, *words: str) -> Tuple[int, str, str]:
        return self.command("ask", "--db", "sqlite:shop.db", "--key", "customer=id", "--key", "orders=oid", *words)

    def test_the_forms(self) -> None:
        sql = "select name, id from customer where city <> 'Hamar' order by 1"
        status, out, told = self.ask(sql)
        self.assertEqual((status, set(lines(out)), told), (0, {"name,id", "Ada,1", "Cy,3"}, ""))
        self.assertEqual({json.loads(line)["name"] for line in lines(self.ask("--format", "json", sql)[1])}, {"Ada", "Cy"})
        self.assertEqual(lines(self.ask("--format", "table", sql)[1])[-1], "2 rows")
        self.assertEqual(lines(self.ask("--disputed", "select distinct city from customer")[1]), ["city", "Bergen"])
        self.assertEqual(lines(self.ask("--clean-first", "select city from customer")[1]), ["table,key,answers", "customer,1,1"])

    def test_against(self) -> None:
        self.assertTrue(self.ask("--against", "Bergen", "select city from customer")[1].startswith('keep customer {"id": 1, "name": "Ada", "city": "Oslo"'))
        self.assertEqual(self.ask("--against", "Oslo", "select city from customer")[1], "certain\n")
        self.assertEqual(self.ask("--against", "Rome", "select city from customer")[1], "no answer, whatever is kept\n")

    def test_lists(self) -> None:
        self.file("crm.csv", "Id;Full Name\n1;Ada\n2;Bo\n")
        self.file("shop.csv", "full name,id\nAda,1\nBob,2\nCy,\n")
        words = ["ask", "--csv", "customer=crm.csv", "--csv", "customer=shop.csv", "--key", "customer=id", "select id, full_name from customer"]
        self.assertEqual(self.command(*words)[::2], (1, 'cqa ask: customer: 1 row has a NULL in the key id: null_key="own" makes each a key of its own, "drop" leaves them out\n'))
        self.assertEqual(self.command(*words, "--null-key", "drop")[:2], (0, "id,full_name\n1,Ada\n"))

    def test_faults(self) -> None:
        for words, told in ((["select missing from customer"], "no such column: missing"), (["select 1 from customer limit 1"], "LIMIT over tables with keys"),
                            (["--param", "d", "select 1 from customer"], "--param wants NAME=VALUE"), (["nothing.sql"], "no such file or directory")):
            status, out, fault = self.ask(*words)
            self.assertEqual((status, out), (1, ""))
            self.assertIn(told, fault)
        self.assertEqual(self.command("ask", "--db", "sqlite:shop.db", "select 1")[0], 1)
        self.assertEqual(self.command("ask", "select 1")[0], 2)

    def test_parameters_and_files(self) -> None:
        self.file("query.sql", "select name from customer\nwhere id = :id")
        self.assertEqual(self.ask("--param", "id=3", "query.sql", "-o", "out.csv")[:2], (0, ""))
        self.assertEqual(self.read("out.csv"), "name\nCy\n")
