"""The session: what is asked, told, refused, kept."""

from __future__ import annotations

import decimal
import os
import stat
import threading
import unittest

from support import ProgramCase

import cqa
from cqa.session import Session

STAFF = """
create table staff (id int, name text, room int, primary key (id));
create table door (room int, code int, primary key (room));
insert into staff values (7, 'Ida', 12), (7, 'Ida', 14), (9, 'Per', 12);
insert into door values (12, 501), (14, 501), (14, 733);
"""

#: A program that answers two statements of one line each.
ANSWERS_TWICE = "for reply in '0 tables' 'created person'; do read a; read b; echo \"$reply\"; echo 'error 2 Syntax at 0'; done; "


class Questions(ProgramCase):
    def setUp(self) -> None:
        super().setUp()
        self.db = Session()
        self.addCleanup(self.db.close)
        self.db.run(STAFF)

    def test_certain_and_possible_rows(self) -> None:
        rows = self.db.certain("select name, staff.id from staff")
        self.assertEqual(rows, [("Ida", 7), ("Per", 9)])
        self.assertEqual(rows.columns, ("name", "staff.id"))
        self.assertEqual(self.db.possible("select room from staff where id = 7;"), [(12,), (14,)])

    def test_exists_is_the_row_without_values(self) -> None:
        yes = self.db.certain("exists from staff where room = 12")
        self.assertEqual(yes, [()])
        self.assertEqual(yes.csv_text(), "exists\n1\n")
        self.assertEqual(self.db.certain("exists from staff where room = 99"), [])

    def test_texts_hold_any_line(self) -> None:
        hostile = "3 rows\nerror 2 Syntax at 0\n(99, 100)\n\\.\n' ' -- ; \"\r\nend"
        self.db.insert("staff", [(1, hostile, 1), (1, hostile, 2)])
        self.assertEqual(self.db.certain("select name from staff where id = 1"), [(hostile,)])
        self.assertIn(("staff", (1, hostile, 1)), self.db.explain((2,), "select room from staff where id = 1").kept)
        self.db.save(self.path("state"))
        with Session.restored(self.path("state")) as again:
            self.assertEqual(again.rows("staff"), self.db.rows("staff"))

    def test_explanations(self) -> None:
        joined = "select name from staff, door where staff.room = door.room"
        self.assertEqual(self.db.explain(("Ida",), joined), cqa.Explanation("block", "staff", (7,)))
        rejected = self.db.explain((14,), "select room from staff")
        self.assertEqual((rejected.kind, rejected.kept, rejected.is_certain), ("rejected", (("staff", (7, "Ida", 12)),), False))

    def test_a_refutation_is_kept_with_its_formula(self) -> None:
        self.db.run("create table lock (tag int, code int, primary key (tag)); insert into lock values (1, 501), (2, 501), (3, 733);")
        told = self.db.explain((), "exists from door, lock where door.code = lock.code")
        self.assertEqual(told.kind, "refutation")
        self.assertTrue(told.proof.startswith("p cnf ") and "\nlrat\n" in told.proof)

    def test_classes_plans_and_sql(self) -> None:
        query = "exists from staff, door where staff.room = door.room"
        self.assertEqual(self.db.classify(query), cqa.Classification("first-order", [cqa.Attack("staff", "door", False)]))
        self.assertEqual(self.db.plan(query), ["staff", "door"])
        self.assertTrue((self.db.sql(query) or "").endswith(";\n"))
        self.db.run("create table lock (tag int, code int, primary key (tag));")
        cycle = "exists from door, lock where door.code = lock.code"
        self.assertIsNone(self.db.plan(cycle))
        self.assertIsNone(self.db.sql(cycle))
        self.assertTrue(self.db.classify(cycle).attacks[0].is_strong)

    def test_refusals_say_what_and_where(self) -> None:
        with self.assertRaises(cqa.Refused) as caught:
            self.db.certain("select nmae from staff")
        refused = caught.exception
        self.assertEqual((refused.number, refused.name, refused.fields), (6, "UnknownColumn", "nmae"))
        self.assertIn("ask select nmae from staff", refused.statement)
        with self.assertRaises(cqa.Refused) as caught:
            self.db.tell("ask select id from staff wehre id = 1")
        self.assertEqual((caught.exception.name, caught.exception.offset), ("Syntax", 25))
        self.assertEqual(len(self.db.rows("staff")), 3)

    def test_a_refused_row_with_quotes_and_line_feeds(self) -> None:
        self.db.run("create strict table note (id int, body text, primary key (id));")
        with self.assertRaises(cqa.Refused) as caught:
            self.db.insert("note", [(1, "a\nb'c"), (1, "x")])
        self.assertEqual(caught.exception.fields, "row 2 (1, 'a\nb''c') (1, 'x')")

    def test_certificates(self) -> None:
        told = self.db.prove(("Ida",), "select name from staff")
        self.assertEqual(told.kind, "rewriting")
        self.assertEqual(told.proof.splitlines()[0], "rewriting")
        self.assertEqual(told.proof.splitlines()[-1], "block staff values (7, 'Ida', 12), (7, 'Ida', 14);")
        self.assertEqual(self.db.prove((12,), "select room from staff where id = 7"), cqa.Explanation("rejected", kept=(("staff", (7, "Ida", 14)),)))
        self.db.run("create table lock (tag int, code int, primary key (tag));")
        self.assertEqual(self.db.prove((), "exists from door, lock where door.code = lock.code"), cqa.Explanation("no plan"))

    def test_what_is_disputed_and_what_stands_against_it(self) -> None:
        joined = "select name, code from staff, door where staff.room = door.room"
        self.assertEqual(self.db.disputed(joined), [("Ida", 501), ("Ida", 733)])
        self.assertEqual(self.db.against(("Ida", 501), joined), cqa.Explanation("against", kept=(("staff", (7, "Ida", 14)), ("door", (14, 733)))))
        self.assertIs(self.db.against(("Per", 501), joined).is_certain, True)
        self.assertEqual(self.db.against(("Eli", 501), joined), cqa.Explanation("against"))
        self.assertEqual(self.db.tell("show conflicts"), ["staff rows 3 blocks 2 conflicts 1", "door rows 3 blocks 2 conflicts 1", "2 tables"])
        self.assertEqual(self.db.disputed("exists from door where code = 733"), [()])

    def test_unions(self) -> None:
        parts = ["select id from staff where room = %d" % room for room in (12, 14, 13)]
        union = " union ".join(parts[:2])
        self.assertEqual([self.db.certain(part) for part in parts], [[(9,)], [], []])
        self.assertEqual(self.db.certain(union), [(7,), (9,)])
        self.assertEqual(self.db.certain(union).columns, ("id",))
        self.assertEqual(self.db.possible("select name from staff where id = 7 union select name from staff where room = 14;"), [("Ida",)])
        self.assertEqual(self.db.explain((7,), union).kind, "refutation")
        self.assertEqual(self.db.explain((7,), " union ".join(parts[::2])), cqa.Explanation("rejected", kept=(("staff", (7, "Ida", 14)),)))
        first_order = cqa.Classification("first-order", [])
        self.assertEqual(self.db.classify_union(union), cqa.UnionClassification([first_order, first_order], "staff"))
        self.assertIsNone(self.db.sql(union))
        apart = "exists from staff, door where staff.room = door.room union exists from lock"
        self.db.run("create table lock (tag int, code int, primary key (tag));")
        self.assertEqual(self.db.classify_union(apart), cqa.UnionClassification(
            [cqa.Classification("first-order", [cqa.Attack("staff", "door", False)]), first_order], None))
        self.assertIn("\nUNION SELECT * FROM (\n", self.db.sql(apart) or "")
        with self.assertRaises(cqa.Refused) as caught:
            self.db.certain("select id from staff union exists from door")
        self.assertEqual((caught.exception.name, caught.exception.fields), ("WrongArity", "row 2"))

    def test_rows_that_are_preferred(self) -> None:
        self.assertEqual(self.db.prefer("staff", "room = 12 and id = 7"), 1)
        self.assertEqual(self.db.prefer("staff", "room = 0"), 0)
        self.assertEqual(self.db.certain("select room from staff where id = 7"), [(12,)])
        with self.assertRaises(cqa.Refused):
            self.db.prefer("staff", "floor = 1")

    def test_ranges_over_joins(self) -> None:
        self.db.run("create strict table floor (room int, level int, primary key (room)); insert into floor values (12, 1), (14, 4);")
        joined = "staff, floor where staff.room = floor.room"
        found = self.db.range("sum level from " + joined)
        self.assertEqual((found.least, found.greatest, [row for _, row in found.low]), (2, 5, [(7, "Ida", 12)]))
        self.assertEqual(self.db.range("max floor.level from %s and id = 7" % joined)[:2], (1, 4))
        self.assertEqual(self.db.ranges("count from %s group by level" % joined), [(1, 1, 2), (4, 0, 1)])
        self.assertEqual(self.db.ranges("max name from %s group by floor.room;" % joined), [(12, "Per", "Per"), (14, None, "Ida")])
        with self.assertRaises(cqa.Refused) as caught:
            self.db.range("count from staff, door where staff.room = door.room")
        self.assertEqual((caught.exception.number, caught.exception.fields), (23, "door"))

    def test_ranges(self) -> None:
        self.db.run("create table r (x int, y int, primary key (x)); insert into r values (1, 5), (1, -2), (2, 7), (3, 1), (3, 9);")
        self.assertEqual(self.db.range("sum y from r where y > 0"),
                         cqa.Range(8, 21, (("r", (1, -2)), ("r", (3, 1))), (("r", (1, 5)), ("r", (3, 9)))))
        told = self.db.range("max y from r where y > 100;")
        self.assertEqual((told.least, told.greatest, len(told.low), len(told.high)), (None, None, 2, 2))
        self.assertEqual(self.db.ranges("sum y from r where y > 0 group by x"), [(1, 0, 5), (2, 7, 7), (3, 1, 9)])
        self.assertEqual(self.db.ranges("max y from r where y > 5 group by y;"), [cqa.Group(7, 7, 7), cqa.Group(9, None, 9)])
        self.assertEqual(self.db.ranges("min y from r where y > 100 group by x"), [])
        with self.assertRaises(cqa.Refused) as caught:
            self.db.ranges("count from r group by z")
        self.assertEqual((caught.exception.number, caught.exception.fields), (6, "z"))
        with self.assertRaises(cqa.Refused) as caught:
            self.db.range("sum name from staff")
        self.assertEqual((caught.exception.number, caught.exception.fields), (9, "condition 0"))
        self.db.heed(b"-- cqa: column pay.cents has 2 places\ndump;")
        self.db.run("create table pay (id int, cents int, primary key (id)); copy pay;\n1,90000\n1,12050\n2,5000\n\\.\n")
        told = self.db.range("sum cents from pay where cents >= 100.00")
        least, greatest = decimal.Decimal("120.50"), decimal.Decimal("900.00")
        self.assertEqual(told, cqa.Range(least, greatest, (("pay", (1, least)),), (("pay", (1, greatest)),)))
        self.assertEqual(self.db.ranges("count from pay where cents > 60.00 group by cents"), [(least, 0, 1), (greatest, 0, 1)])
        self.assertEqual(self.db.ranges("sum cents from pay where cents > 60.00 group by id"), [(1, least, greatest)])

    def test_one_statement_is_one(self) -> None:
        for text in ("", "dump; dump;", "copy staff;\n1,a,1\n", "insert into staff values (1, 'open"):
            with self.subTest(text), self.assertRaises(ValueError):
                self.db.tell(text)
        with self.assertRaises(ValueError):
            self.db.run("show tables; ask select id from staff")
        self.assertEqual(self.db.tell("copy staff;\n1,Ada,1\n\\.\n"), ["copied 1"])

    def test_an_empty_dump_and_tables_with_words_of_replies(self) -> None:
        with Session() as empty:
            self.assertEqual(empty.tell("dump;"), [])
            self.assertEqual(empty.tables(), [])
            empty.run("create table error (error int, rows text, primary key (error)); insert into error values (1, 'x');")
            self.assertEqual(empty.tables()[0].table, "error")
            self.assertEqual(empty.rows("error"), [(1, "x")])


class Ends(ProgramCase):
    def test_no_program(self) -> None:
        with self.assertRaises(cqa.NotBuilt):
            Session(self.path("nothing"))
        with self.assertRaises(cqa.NotBuilt):
            Session(self.file("text", "no program"))

    def other(self, script: str) -> str:
        """A program of the test's own."""
        path = self.file("program", "#!/bin/sh\n" + script)
        os.chmod(path, os.stat(path).st_mode | stat.S_IXUSR)
        return path

    def test_statuses_are_exceptions_with_their_cause(self) -> None:
        wanted = {3: cqa.ReadingFailed, 4: cqa.WritingFailed, 5: cqa.MemoryRanOut, 6: cqa.InputTooLong, 7: cqa.WordsUnreadable, 9: cqa.Ended}
        for status, kind in wanted.items():
            with self.subTest(status), self.assertRaises(kind) as caught:
                with Session(self.other("exit %d" % status)) as db:
                    db.tell("show tables;")
            self.assertEqual(caught.exception.status, status)

    def test_a_program_that_dies_within_a_reply(self) -> None:
        with self.assertRaises(cqa.Ended) as caught:
            with Session(self.other("read line; echo \"(1, 'half\"; kill -9 $$")) as db:
                db.certain("select id from staff")
        self.assertEqual(caught.exception.status, -9)

    def test_an_interrupted_statement_ends_the_session(self) -> None:
        with Session() as db:
            db.run(STAFF)

            def interrupted(verb: str) -> None:
                raise KeyboardInterrupt

            db._child.reply = interrupted  # type: ignore
            with self.assertRaises(KeyboardInterrupt):
                db.certain("select id from staff")
            del db._child.reply
            with self.assertRaisesRegex(cqa.Closed, "the session was interrupted"):
                db.certain("select name from staff")
        with Session() as other:
            pass
        with self.assertRaisesRegex(cqa.Closed, "the session is closed"):
            other.certain("select name from staff")

    def test_threads_wait_for_each_other(self) -> None:
        with Session() as db:
            db.run("create table t (a int, primary key (a)); insert into t values %s;" % ", ".join("(%d)" % at for at in range(300)))
            found = []

            def ask(number: int) -> None:
                for _ in range(20):
                    found.append((number, db.certain("select a from t where a = %d" % number)))

            threads = [threading.Thread(target=ask, args=(number,)) for number in range(8)]
            for thread in threads:
                thread.start()
            for thread in threads:
                thread.join()
            self.assertEqual(len(found), 160)
            self.assertTrue(all(rows == [(number,)] for number, rows in found))

    def test_a_program_that_dies_in_the_middle_of_a_load(self) -> None:
        path = self.file("a.csv", "id,name\n" + "".join("%d,Name\n" % number for number in range(200_000)))
        with self.assertRaises(cqa.Ended):
            with Session(self.other(ANSWERS_TWICE + "head -c 5000 >/dev/null; exit 5")) as db:
                db.load("person", path, key="id")


class Lists(ProgramCase):
    def setUp(self) -> None:
        super().setUp()
        self.crm = self.file("crm.csv", "id,name,city,credit\n1,Ada,Oslo,900.00\n2,Bo,Bergen,1200.5\n3,\"Moe, Cy\",Hamar,7\n")
        self.shop = self.file("shop.csv", "city,id,credit,name\r\nBergen,1,900,Ada\r\nBergen,2,1200.50,Bo\r\n")
        self.db = Session()
        self.addCleanup(self.db.close)

    def load_both(self) -> None:
        self.assertEqual(self.db.load("customer", {"crm": self.crm, "shop": self.shop}, key="id", decimal={"credit": 2}), 5)

    def test_decimals_compare_as_numbers_and_are_given_as_decimals(self) -> None:
        self.load_both()
        self.assertEqual(self.db.certain("select id, credit from customer where credit >= 900.00"),
                         [(1, decimal.Decimal("900.00")), (2, decimal.Decimal("1200.50"))])
        told = self.db.explain((decimal.Decimal("900"),), "select credit from customer where id = 1")
        self.assertEqual(told.kind, "block")
        self.assertEqual(self.db.certain("select credit from customer where credit < 900.50 union select credit from customer where credit > 1200.25"),
                         [(decimal.Decimal("7.00"),), (decimal.Decimal("900.00"),), (decimal.Decimal("1200.50"),)])

    def test_conflicts_with_their_sources(self) -> None:
        self.load_both()
        found = self.db.conflicts("customer")
        self.assertEqual((found.keys, len(found), found.by_column), (3, 1, {"name": 0, "city": 1, "credit": 0}))
        self.assertEqual(found.disputed[0].values, {"city": {"Bergen": ["shop"], "Oslo": ["crm"]}})
        self.assertEqual(str(found), "customer: 3 keys, 1 in conflict: city 1\n1  city: Bergen (shop) | Oslo (crm)\n")

    def test_what_nobody_sees_is_shown(self) -> None:
        with cqa.Session() as db:
            db.run("create table t (id int, city text, source text, primary key (id));\n"
                   "insert into t values (1, 'Oslo', 'a'), (1, 'Oslo ', 'b'), (1, 'Oslo\u00a0', 'c\nd'), (2, '\x1b[31m', 'a'), (2, 'e\u0301', 'b'), (2, '\u00e9', 'c');")
            self.assertEqual(str(db.conflicts("t", "source")), "t: 2 keys, 2 in conflict: city 2\n"
                             "1  city: Oslo (a) | Oslo\u2423 (b) | Oslo\\u00a0 (c\\nd)\n2  city: \u241b[31m (a) | e\\u0301 (b) | \u00e9 (c)\n")

    def test_one_list_after_the_other(self) -> None:
        self.db.load("customer", self.crm, key="id", source="crm", decimal={"credit": 2})
        self.db.load("customer", self.shop, source="shop")
        self.assertEqual(len(self.db.conflicts("customer")), 1)
        with self.assertRaises(ValueError):
            self.db.load("customer", self.shop, key="name", source="shop")
        with self.assertRaises(ValueError):
            self.db.load("customer", self.shop, source="shop", source_column="origin")

    def test_places_that_are_told_late(self) -> None:
        self.db.run("create table other (a int, primary key (a)); insert into other values (1); set conflicts 77;")
        with self.assertWarnsRegex(cqa.LoadWarning, "credit holds numbers and is text"):
            self.db.load("customer", self.crm, key="id", source="crm")
        self.db.load("customer", self.shop, key="id", source="shop", decimal={"credit": 2})
        self.assertEqual(self.db.certain("select id, credit from customer where credit >= 900.00"),
                         [(1, decimal.Decimal("900.00")), (2, decimal.Decimal("1200.50"))])
        self.assertEqual([schema.table for schema in self.db.tables()], ["other", "customer"])
        self.assertEqual(self.db.rows("other"), [(1,)])
        self.db.load("customer", self.file("more.csv", "id,name,city,credit\n9,Eva,Voss,1.125\n"), source="more", decimal={"credit": 3})
        self.assertEqual(self.db.certain("select credit from customer where id = 9"), [(decimal.Decimal("1.125"),)])
        self.assertEqual(self.db.certain("select credit from customer where id = 2"), [(decimal.Decimal("1200.500"),)])

    def test_a_stored_text_that_is_no_number(self) -> None:
        self.db.load("t", self.file("one.csv", "id,n\n1,many\n2,3.5\n"), key="id")
        with self.assertRaises(cqa.LoadFault) as caught:
            self.db.load("t", self.file("two.csv", "id,n\n3,4.5\n"), decimal={"n": 1})
        self.assertEqual(caught.exception.faults, ["t: n: 'many', which was loaded before, is no number with such places"])
        self.assertEqual(self.db.rows("t"), [(1, "many"), (2, "3.5")])

    def test_an_int_column_becomes_text_where_a_later_list_needs_it(self) -> None:
        hostile = "a\n\\.\nb'\"c"
        self.db.load("t", self.file("one.csv", "id,zip,note\n1,5003,\"%s\"\n" % hostile.replace('"', '""')), key="id")
        with self.assertWarnsRegex(cqa.LoadWarning, "zip is text, because of '0150' in .*two.csv:2"):
            self.db.load("t", self.file("two.csv", "note,id,zip\nx,1,0150\ny,2,N-1\n"))
        self.assertEqual(self.db.rows("t"), [(1, "0150", "x"), (1, "5003", hostile), (2, "N-1", "y")])

    def test_the_column_of_sources_stands_anywhere(self) -> None:
        self.db.run("create table t (source text, id int, name text, primary key (id));")
        self.db.load("t", self.file("one.csv", "id,name\n1,Ada\n"), source="crm")
        self.assertEqual(self.db.rows("t"), [("crm", 1, "Ada")])

    def test_options_that_tell_nothing(self) -> None:
        wrong: "list[dict]" = [{"delimiter": ";;"}, {"decimal": {"credit": -1}}, {"decimal_mark": ";"}, {"missing": "no"}, {"source_column": "Kilde Ø", "source": "a"}]
        for options in wrong:
            with self.subTest(options), self.assertRaises(ValueError):
                self.db.load("m", self.crm, key="id", **options)
        with self.assertRaises(ValueError):
            self.db.load("m x", self.crm, key="id")
        self.db.load("m", self.crm, key="id", columns="id,credit", text="credit")
        self.assertEqual(self.db.certain("select credit from m where id = 3;"), [("7",)])

    def test_a_refused_list_changes_nothing(self) -> None:
        self.db.run("create strict table s (id int, n int, primary key (id)); insert into s values (1, 7);")
        other = self.file("other.csv", "id,n\n2,x\n1,y\n")
        with self.assertRaisesRegex(cqa.Refused, "of the list .*other.csv"):
            self.db.load("s", other, key="id")
        self.assertEqual(self.db.schema("s"), cqa.Schema("s", {"id": "int", "n": "int"}, ["id"], True))
        self.assertEqual(self.db.rows("s"), [(1, 7)])

    def test_missing_tables_and_slices(self) -> None:
        with self.assertRaises(cqa.CqaError) as caught:
            self.db.rows("nothing")
        self.assertIsInstance(caught.exception, KeyError)
        self.assertEqual(str(caught.exception), "no table nothing")
        self.load_both()
        rows = self.db.rows("customer")
        self.assertEqual(rows[:2].columns, rows.columns)
        self.assertEqual(rows[0], rows[:1][0])

    def test_names_are_names(self) -> None:
        with self.assertRaises(ValueError):
            self.db.load("t (id int, primary key (id)); delete from customer; create table u", self.crm, key="id")

    def test_a_faulty_list_loads_nothing(self) -> None:
        bad = self.file("bad.csv", "id,name,city,credit\n1,Ada,Bergen,1\n,Nobody,Voss,1\n2,Bo,Stavanger,1\n")
        with self.assertRaises(cqa.LoadFault) as caught:
            self.db.load("customer", {"crm": self.crm, "bad": bad}, key="id", decimal={"credit": 2})
        self.assertEqual(caught.exception.faults, [bad + ":3: the key id is empty"])
        self.assertEqual(self.db.tables(), [])

    def test_saved_and_restored(self) -> None:
        self.load_both()
        self.db.save(self.path("state.cqa"))
        with Session.restored(self.path("state.cqa")) as again:
            self.assertEqual(again.rows("customer"), self.db.rows("customer"))
            self.assertEqual(str(again.conflicts("customer")), str(self.db.conflicts("customer")))
        status, out, _ = self.command("run", "state.cqa")
        self.assertEqual((status, out), (0, "created customer\ncopied 5\n"))

    def test_a_cut_state_is_refused(self) -> None:
        self.load_both()
        self.db.save(self.path("state.cqa"))
        kept = self.read("state.cqa")
        self.file("cut.cqa", kept[:len(kept) // 2])
        self.file("short.cqa", kept.replace('"1","Ada","Oslo","90000","crm"\n', ""))
        self.file("other.cqa", "show tables;")
        for name in ("cut.cqa", "short.cqa", "other.cqa"):
            with self.subTest(name), self.assertRaises(cqa.StateFault):
                Session.restored(self.path(name))
        with self.assertRaises(OSError):
            Session.restored(self.path("nothing.cqa"))

    def test_a_state_is_never_half_written(self) -> None:
        self.load_both()
        self.file("state.cqa", "old")
        with self.assertRaises(OSError):
            self.db.save(self.path("no/folder/state.cqa"))
        self.db.close()
        with self.assertRaises(cqa.Closed):
            self.db.save(self.path("state.cqa"))
        self.assertEqual(self.read("state.cqa"), "old")
        self.assertEqual(sorted(os.listdir(self.folder)), ["crm.csv", "shop.csv", "state.cqa"])

    def test_rows_as_csv_and_html(self) -> None:
        rows = cqa.Rows(("id", "note"), [(1, 'a "b", <i>\n'), (2, "")])
        rows.to_csv(self.path("out.csv"))
        self.assertEqual(self.read("out.csv"), 'id,note\n1,"a ""b"", <i>\n"\n2,\n')
        self.assertIn("&lt;i&gt;", rows._repr_html_())
        self.assertNotIn("<i>", rows._repr_html_())


if __name__ == "__main__":
    unittest.main()
