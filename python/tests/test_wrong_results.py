"""What once ended in a wrong or an empty result with status 0: each is right now, or fails loudly."""

from __future__ import annotations

import os
import re
import sqlite3
import subprocess
import unittest
import warnings
from decimal import Decimal

from support import TOP, Case, ProgramCase, lines

import cqa

GOOD = 'id,name,city\n1,Ada,Oslo\n2,Bo,Bergen\n3,"Moe, Cy",Hamar\n'
BROKEN = "id,name,city\n1,Ada,Bergen\n,Nobody,Voss\n2,Bo,Stavanger\n"
BY_HAND = "create table customer (id int, name text, city text, shop text, primary key (id));\n"


class TwoLists(ProgramCase):
    def recipe(self, script: str) -> "tuple[int, str, str]":
        """Runs lines of a shell in the test's folder, with `./cqa` there."""
        if not os.path.exists(self.path("cqa")):
            os.symlink(os.path.join(TOP, "cqa"), self.path("cqa"))
        ran = subprocess.run(["bash", "-c", script], cwd=self.folder, stdout=subprocess.PIPE, stderr=subprocess.PIPE, timeout=60, check=False)
        return ran.returncode, ran.stdout.decode(), ran.stderr.decode()

    LOAD = "./cqa load --table customer --key id --source A=A.csv --source B=B.csv >load.cqa || exit\n"

    def test_no_list_no_word_of_no_conflict(self) -> None:
        self.file("A.csv", GOOD)
        self.file("B.csv", BROKEN)
        status, out, told = self.recipe(self.LOAD + "./cqa conflicts load.cqa customer")
        self.assertEqual((status, out), (1, ""))
        self.assertIn("B.csv:3: the key id is empty", told)
        self.file("load.cqa", BY_HAND + "copy customer;\n1,Ada,Oslo,A\n\\.\ncopy customer;\n1,Ada,Bergen,B\n,Nobody,Voss,B\n\\.\n")
        status, out, told = self.recipe("./cqa conflicts load.cqa customer")
        self.assertEqual((status, out), (1, ""))
        self.assertIn("load.cqa:7: error 19 BadCsv record 2: id is empty", told)

    def test_no_list_no_clean_list(self) -> None:
        self.file("A.csv", GOOD)
        self.file("B.csv", BROKEN)
        self.file("ask.cqa", "delete from customer where id = 1 and source = 'A';\nask select id, name, city from customer;\n")
        status, out, _ = self.recipe(self.LOAD + "./cqa csv load.cqa ask.cqa -o clean.csv")
        self.assertEqual((status, out, os.path.exists(self.path("clean.csv"))), (1, "", False))

    def test_a_list_without_its_last_line_feed(self) -> None:
        self.file("A.csv", GOOD[:-1])
        self.file("B.csv", BROKEN.replace(",Nobody,Voss\n", "")[:-1])
        status, out, _ = self.recipe(self.LOAD + "./cqa conflicts load.cqa customer")
        self.assertEqual((status, lines(out)), (0, ["customer: 3 keys, 2 in conflict: city 2", "1  city: Bergen (B) | Oslo (A)", "2  city: Bergen (A) | Stavanger (B)"]))

    def test_an_unclosed_quote_swallows_no_record(self) -> None:
        self.file("A.csv", 'id,name\n1,Ada Holm\n2,"Bo Lind\n3,Cy Moe\n4,Dag Vik\n')
        status, out, told = self.recipe("./cqa load --table customer --key id A.csv")
        self.assertEqual((status, out), (1, ""))
        self.assertIn("A.csv:3: a quote is opened here and never closed", told)
        block = 'create table customer (id int, name text, primary key (id));\ncopy customer;\n1,Ada Holm\n2,"Bo Lind\n3,Cy Moe\n4,%s\n\\.\nask select id from customer;\n'
        for last, cause in (("Dag Vik", "a quote is opened here and never closed"), ('"Dag Vik"', "something stands behind a closing quote")):
            self.file("s.cqa", block % last)
            status, out, told = self.recipe("./cqa run s.cqa")
            self.assertEqual((status, out, told), (1, "created customer\n0 rows\n", "s.cqa:4: error 19 BadCsv record 2: %s\n" % cause))

    def test_headers_are_looked_at(self) -> None:
        self.file("A.csv", GOOD)
        self.file("B.csv", "id,city,name\n1,Oslo,Ada\n")
        self.assertEqual(self.recipe(self.LOAD + "./cqa conflicts load.cqa customer")[1], "customer: 3 keys, 0 in conflict\n")
        os.unlink(self.path("B.csv"))
        status, out, told = self.recipe(self.LOAD + "./cqa conflicts load.cqa customer")
        self.assertEqual((status, out), (1, ""))
        self.assertIn("B.csv: no such file or directory", told)

    def test_csv_of_an_answer_has_no_forged_rows_and_drops_no_error(self) -> None:
        made = "create table note (id int, body text, primary key (id));\ninsert into note values (1, 'x\n(99, 100)\ny');\n"
        self.file("s.cqa", made + "ask select id from note where id = 5;\nask select id, body from note;\n")
        self.assertEqual(self.recipe("./cqa csv s.cqa")[:2], (0, 'id,body\n1,"x\n(99, 100)\ny"\n'))
        self.file("s.cqa", made + "ask select idd from note;\n")
        status, out, told = self.recipe("./cqa csv s.cqa")
        self.assertEqual((status, out), (1, ""))
        self.assertIn("s.cqa:5: error 6 UnknownColumn idd", told)

    def test_asks_behind_a_refused_load_can_be_stopped(self) -> None:
        self.file("s.cqa", BY_HAND + "copy customer;\n1,Ada,Oslo,A\n\\.\ncopy customer;\n,x,y,B\n\\.\nask select id, city from customer;\n")
        status, out, told = self.recipe("./cqa run --stop s.cqa")
        self.assertEqual((status, out), (1, "created customer\ncopied 1\n"))
        self.assertEqual(len(lines(told)), 1)

    def test_decimals_compare_as_numbers(self) -> None:
        self.file("A.csv", "id,credit\n1,900.00\n2,1200.50\n3,2500.0\n")
        self.file("B.csv", "id,credit\n3,2500.00\n")
        status, out, told = self.recipe("./cqa load --table customer --key id --source A=A.csv --source B=B.csv >load.cqa")
        self.assertIn("credit holds numbers and is text", told)
        with cqa.Session() as db:
            db.load("customer", {"A": self.path("A.csv"), "B": self.path("B.csv")}, key="id", decimal={"credit": 2})
            self.assertEqual(db.certain("select id, credit from customer where credit >= 1000.00"), [(2, Decimal("1200.50")), (3, Decimal("2500.00"))])
            self.assertEqual(len(db.conflicts("customer")), 0)

    def test_a_time_with_an_offset_is_refused(self) -> None:
        self.file("A.csv", "id,ts\n1,2026-03-01T00:10:00+01:00\n")
        status, out, told = self.recipe("./cqa load --table reading --key id --time ts A.csv")
        self.assertEqual((status, out), (1, ""))
        self.assertIn("A.csv:2: ts:", told)

    def test_a_missing_field_is_told_unless_somebody_chose(self) -> None:
        self.file("A.csv", "id,name,email\n1,Ada,\n")
        self.file("B.csv", "id,name,email\n1,Ada,ada@example.no\n")
        self.assertEqual(self.recipe(self.LOAD)[:2], (1, ""))
        wanted = {"keep": "id,email\n", "drop": "id,email\n1,ada@example.no\n"}
        self.file("q.cqa", "ask select id, email from customer;")
        for choice, answer in wanted.items():
            load = self.LOAD.replace("load ", "load --missing %s " % choice)
            self.assertEqual(self.recipe(load + "./cqa csv load.cqa q.cqa")[:2], (0, answer))

    def test_a_state_is_kept_and_whole(self) -> None:
        self.file("A.csv", GOOD)
        with cqa.Session() as db:
            db.load("customer", self.path("A.csv"), key="id")
            db.run("create table note (id int, primary key (id)); insert into note values (1);")
            db.save(self.path("state.cqa"))
        self.assertEqual(self.command("run", "state.cqa"), (0, "created customer\ncopied 3\ncreated note\ncopied 1\n", ""))


class EverySender(ProgramCase):
    """A block whose quote has no end is refused wherever a statement is sent."""

    UNENDED = 'create table c (id int, name text, primary key (id));\ncopy c;\n1,"a"b\n2,"Bo\n3,Cy\n4,"Dag"\n\\.\nask select id from c;\n'

    def test_in_python(self) -> None:
        with cqa.Session() as db, self.assertRaises(cqa.Refused) as caught:
            db.run(self.UNENDED)
        self.assertIn("error 19 BadCsv record 1", str(caught.exception))
        with cqa.Session() as db:
            db.tell("create table c (id int, name text, primary key (id));")
            with self.assertRaises(cqa.Refused):
                db.tell('copy c;\n2,"Bo\n3,Cy\n4,"Dag"\n\\.\n')
            self.assertEqual(db.rows("c"), [])

    def test_in_the_shell(self) -> None:
        status, out, told = self.command("shell", stdin=self.UNENDED.encode())
        self.assertEqual((status, lines(out)), (1, ["created c", "0 rows"]))
        self.assertIn("error 19 BadCsv record 1: something stands behind a closing quote", told)


class Comments(ProgramCase):
    """What the comments of scripts say of columns."""

    def test_scripts_one_after_the_other_in_a_file(self) -> None:
        first = "-- cqa: column m.kilde has the sources\ncreate table m (id int, kilde text, primary key (id));\ninsert into m values (1, 'a'), (1, 'b');\n"
        second = ("-- cqa: column n.id has 2 places\n-- cqa: column n.kilde has the sources\ncreate table n (id int, name text, kilde text, primary key (id));\n"
                  "copy n;\n100,a,x\n100,b,y\n\\.\ninsert into m values (2, '\n-- cqa: column m.id has 1 places\n');\n")
        wanted = "n: 1 key, 1 in conflict: name 1\n1.00  name: a (x) | b (y)\n"
        self.file("a.cqa", first)
        self.file("b.cqa", second)
        self.file("both.cqa", first + second)
        self.assertEqual(self.command("conflicts", "both.cqa"), (0, "m: 2 keys, 0 in conflict\n" + wanted, ""))
        self.assertEqual(self.command("conflicts", "a.cqa", "b.cqa", "n"), (0, wanted, ""))
        self.assertEqual(self.command("conflicts", "--csv", "a.cqa", "b.cqa")[0], 1)
        self.assertEqual(self.command("conflicts", "--csv", "a.cqa", "b.cqa", "n")[:2], (0, "id,column,value,sources\n1.00,name,a,x\n1.00,name,b,y\n"))
        self.assertEqual(self.command("conflicts", "a.cqa", "n")[::2], (1, "cqa conflicts: no table n in a.cqa\n"))


class ColumnsWithPlaces(ProgramCase):
    """A column with places is stored as int: what speaks of it either means what it says, or is told."""

    def setUp(self) -> None:
        super().setUp()
        self.list = self.file("A.csv", "id,credit\n1,900.00\n2,1200.50\n3,2500.00\n")
        self.db = cqa.Session()
        self.addCleanup(self.db.close)
        self.db.load("c", self.list, key="id", decimal={"credit": 2})

    def test_numbers_with_a_point_are_scaled(self) -> None:
        with warnings.catch_warnings():
            warnings.simplefilter("error")
            self.assertEqual(self.db.certain("select id, credit from c where credit >= 1000.00"), [(2, Decimal("1200.50")), (3, Decimal("2500.00"))])
            self.assertEqual(self.db.certain("select id from c where c . credit = 1200.5 -- credit = 1.5\n and id <> 7;"), [(2,)])
            self.assertEqual(self.db.possible("select id from c where credit > 0"), [(1,), (2,), (3,)])
            self.assertEqual(self.db.delete("c", "credit < 1000.0"), 1)
            with self.assertRaises(ValueError):
                self.db.certain("select id from c where credit > 1.005")

    def test_numbers_without_one_are_told(self) -> None:
        with self.assertWarnsRegex(cqa.ScaleWarning, "credit is stored times 100: 1000 stands for 10.00 here; write 1000.00 for 1000") as caught:
            self.assertEqual(len(self.db.certain("select id from c where credit >= 1000")), 3)
        self.assertEqual(os.path.basename(caught.filename), os.path.basename(__file__))
        for speaks in (lambda: self.db.delete("c", "credit < 10"), lambda: self.db.tell("ask select id from c where credit = 7"),
                       lambda: self.db.run("insert into c values (9, 12);")):
            with self.assertWarns(cqa.ScaleWarning):
                speaks()

    def test_rows_are_inserted_as_they_are_given(self) -> None:
        self.db.insert("c", [(4, 12), (5, Decimal("12.5")), *self.db.rows("c")])
        self.assertEqual(self.db.certain("select credit from c where id > 3"), [(Decimal("12.00"),), (Decimal("12.50"),)])
        for wrong in (12.5, None, True):
            with self.assertRaises(TypeError):
                self.db.insert("c", [(6, wrong)])  # type: ignore[list-item]
        for number in ("1.005", "NaN", "1e-3"):
            with self.assertRaises(ValueError):
                self.db.insert("c", [(6, Decimal(number))])
        self.assertEqual(len(self.db.rows("c")), 5)

    def test_explanations_and_joins(self) -> None:
        self.db.insert("c", [(1, 7)])
        told = self.db.explain((Decimal("900.00"),), "select credit from c")
        self.assertEqual([row for table, row in told.kept if row[0] == 1], [(1, Decimal("7.00"))])
        self.db.run("create table a (id int, amt int, primary key (id));")
        with self.assertRaisesRegex(cqa.ScaleFault, "c.credit has 2 places and a.amt has none, and they are compared: load a by --decimal amt:2; "
                                    "where it is stored so already, the line `-- cqa: column a.amt has 2 places` says it"):
            self.db.certain("exists from a, c where c.credit = a.amt")
        self.db.run("-- cqa: column a.amt has 2 places\ninsert into a values (1, 7.00);")
        self.assertEqual(self.db.possible("select amt from a, c where c.credit = a.amt"), [(Decimal("7.00"),)])

    def test_scripts_are_told(self) -> None:
        told = self.command("load", "--table", "c", "--key", "id", "--decimal", "credit:2", "A.csv", "-o", "load.cqa")[2]
        self.assertIn("cqa load: credit is stored times 100: statements write 1000 as 1000.00, or as 100000\n", told)
        self.file("q.cqa", "ask select id, credit from c where credit >= 1000;\ninsert into c values (4, 12);\nask select id from c where credit > 10.5;\n")
        test = "q.cqa:1: note: credit is stored times 100: 1000 stands for 10.00 here; write 1000.00 for 1000"
        insert = "q.cqa:2: note: c.credit is stored times 100: 12 stands for 0.12 here; write 12.00 for 12"
        shown = "q.cqa:1: note: credit is shown as it is stored, times 100"
        self.assertEqual(lines(self.command("run", "load.cqa", "q.cqa")[2]), [test, shown, insert])
        self.assertEqual(self.command("csv", "load.cqa", "q.cqa"), (0, "id\n1\n2\n3\n", test + "\n" + insert + "\ncqa csv: note: of 2 questions the last one is written, q.cqa:3\n"))
        told = self.command("shell", "load.cqa", stdin=b"ask select id, credit from c where credit >= 1000;\n")[2]
        self.assertEqual(lines(told), [test.replace("q.cqa:1: ", ""), shown.replace("q.cqa:1: ", "")])


class ListsOfOnesOwn(ProgramCase):
    """What lists of a user's own, in forms that no page names, once made of answers, with status 0."""

    def setUp(self) -> None:
        super().setUp()
        for name, options, text in (("t", ("--decimal", "a:2"), "id,a\n1,9.00\n2,5.50\n"), ("u", (), "id,b\n1,900\n2,5\n"),
                                    ("v", ("--decimal", "c:3"), "id,c\n1,9.000\n2,5.500\n"), ("w", ("--decimal", "d:2"), "id,d\n1,9\n3,7.25\n"),
                                    ("day", ("--time", "since"), "id,since\n1,2018-09-28\n2,2021-01-01\n")):
            self.file(name + ".csv", text)
            status, _, told = self.command("load", "--table", name, "--key", "id", *options, name + ".csv", "-o", name + ".cqa")
            self.assertEqual(status, 0, told)

    def asked(self, command: str, question: str, *scripts: str) -> "tuple[int, str, str]":
        """What a command says of a question over scripts."""
        self.file("q.cqa", question + "\n")
        return self.command(command, *scripts, "q.cqa")

    def refused_by_all(self, query: str, cause: str, *scripts: str) -> None:
        """A query is refused by csv, report and the package, with nothing written, and noted by run and the shell."""
        for command in ("csv", "report"):
            status, out, told = self.asked(command, "ask %s;" % query, *scripts)
            self.assertEqual((status, out), (1, ""), told)
            self.assertIn("q.cqa:1: " + cause, told)
        self.assertIn("q.cqa:1: note: " + cause, self.asked("run", "ask %s;" % query, *scripts)[2])
        self.assertIn("note: " + cause, self.command("shell", *scripts, stdin=("ask %s;\n" % query).encode())[2])
        with cqa.Session() as db:
            for script in scripts:
                db.run(self.read(script))
            for ask in (db.certain, db.possible, lambda query: db.explain((1,), query)):
                with self.assertRaisesRegex(cqa.ScaleFault, re.escape(cause)):
                    ask(query)

    def test_a_union_of_columns_with_different_places(self) -> None:
        cause = "%s, and they are one column of the answer: load "
        self.refused_by_all("select a from t union select b from u", cause % "t.a has 2 places and u.b has none" + "u by --decimal b:2; where it is stored so already, "
                            "the line `-- cqa: column u.b has 2 places` says it", "t.cqa", "u.cqa")
        self.refused_by_all("select b from u union select a from t", cause % "u.b has none and t.a has 2 places" + "u by --decimal b:2", "t.cqa", "u.cqa")
        self.refused_by_all("select a from t union select c from v", cause % "t.a has 2 places and v.c has 3 places" + "t by --decimal a:3", "t.cqa", "v.cqa")
        self.assertEqual(self.asked("csv", "ask select a from t union select d from w;", "t.cqa", "w.cqa"), (0, "a\n5.50\n7.25\n9.00\n", ""))

    def test_a_join_of_columns_with_different_places(self) -> None:
        self.refused_by_all("select t.id from t, u where a = b", "t.a has 2 places and u.b has none, and they are compared: load u by --decimal b:2", "t.cqa", "u.cqa")
        status, out, told = self.asked("csv", "range count from t, u where a = b;", "t.cqa", "u.cqa")
        self.assertEqual((status, out), (1, ""))
        self.assertIn("t.a has 2 places and u.b has none", told)
        self.assertEqual(self.asked("csv", "ask select t.id from t, w where a = d;", "t.cqa", "w.cqa"), (0, "t.id\n1\n", ""))

    def test_scripts_that_say_different_things_of_a_column(self) -> None:
        self.file("other.cqa", "-- cqa: column t.a has 3 places\n")
        for command in ("run", "csv", "conflicts", "report", "shell"):
            status, out, told = self.command(command, "t.cqa", "other.cqa")
            self.assertEqual((status, out), (1, ""))
            self.assertIn("other.cqa: t.a has 2 places by one comment and 3 by another", told)

    def test_a_comment_that_says_nothing_known(self) -> None:
        script = self.read("t.cqa")
        for wrong in (script.replace("has 2 places", "has two places"), script + "-- cqa: column t.a has 3 places\n"):
            self.file("wrong.cqa", wrong)
            status, out, told = self.asked("csv", "ask select a from t;", "wrong.cqa")
            self.assertEqual((status, out), (1, ""))
            self.assertIn("wrong.cqa: ", told)
        self.file("crlf.cqa", script.replace("\n", "\r\n"))
        self.assertEqual(self.asked("csv", "ask select a from t;", "crlf.cqa"), (0, "a\n5.50\n9.00\n", ""))

    def test_a_lists_own_column_called_source(self) -> None:
        self.file("src.csv", "id,name,source\n1,Ada,web\n1,Ada,phone\n2,Bo,web\n")
        self.command("load", "--table", "lead", "--key", "id", "src.csv", "-o", "src.cqa")
        status, out, told = self.command("conflicts", "src.cqa")
        self.assertEqual((status, out), (0, "lead: 2 keys, 1 in conflict: source 1\n1  source: phone | web\n"))
        self.assertIn("lead.source counts as the other columns do; --source source says that it tells where a row is from", told)
        self.assertEqual(self.command("conflicts", "--source", "source", "src.cqa"), (0, "lead: 2 keys, 0 in conflict\n", ""))
        self.assertNotIn("No key of this table is in conflict", self.command("report", "src.cqa")[1])
        self.assertEqual(self.command("report", "--source", "sorce", "src.cqa"), (1, "", "cqa report: no table has a column sorce; nothing is written\n"))
        with cqa.Session() as db:
            db.load("lead", self.path("src.csv"), key="id")
            self.assertEqual((len(db.conflicts("lead")), len(db.conflicts("lead", "source"))), (1, 0))

    def test_a_dump_keeps_places_sources_and_times(self) -> None:
        self.file("s.csv", "id,a,since\n1,9.00,2024-03-01\n")
        self.command("load", "--table", "s", "--key", "id", "--decimal", "a:2", "--time", "since", "--source-column", "shop", "--source", "x=s.csv", "-o", "s.cqa")
        question = "ask select id, a from s;"
        for dumped in (self.asked("run", "dump;", "s.cqa")[1].partition("copied 1\n")[2], self.command("shell", "s.cqa", stdin=b"dump;\n")[1]):
            self.file("kept.cqa", dumped)
            self.assertEqual(self.asked("csv", question, "kept.cqa"), (0, "id,a\n1,9.00\n", ""))
            for mark in ("s.a has 2 places", "s.shop has the sources", "s.since has times as 2024-03-01".replace("2024", "2026")):
                self.assertIn("-- cqa: column %s\n" % mark, dumped)
            self.assertEqual(cqa.Session.restored(self.path("kept.cqa")).rows("s"), [(1, Decimal("9.00"), "2024-03-01", "x")])

    def test_a_time_is_compared_to_a_time(self) -> None:
        for test in ("since > '1.1.2020'", "since = '2020-13-45'", "since <= '2021'", "since < '2021-01-01T00:00Z'", "since <> ''"):
            self.refused_by_all("select id from day where " + test, "since has times as 2026-03-01, and %s is none" % test.split(" ")[2], "day.cqa")
        for test, answer in (("since >= '2020'", "2\n"), ("since < '2021-01'", "1\n"), ("since > '2020-02-29'", "2\n"), ("since = '2018-09-28'", "1\n")):
            self.assertEqual(self.asked("csv", "ask select id from day where %s;" % test, "day.cqa"), (0, "id\n" + answer, ""))
        for change in ("delete from day where since < '1.1.2020';", "prefer day where since > 'x';", "insert into day values (3, '1.3.2024');"):
            self.assertEqual(self.asked("csv", change + " ask select id from day;", "day.cqa")[:2], (1, ""))
        with cqa.Session() as db:
            db.load("day", self.path("day.csv"), key="id", time="since")
            for wrong in (lambda: db.delete("day", "since < '1.1.2020'"), lambda: db.prefer("day", "since > 'x'"), lambda: db.insert("day", [(3, "1.3.2024")])):
                with self.assertRaises(cqa.ScaleFault):
                    wrong()
            self.file("later.csv", "id,since\n3,2024-03-01T00:00Z\n")
            with self.assertRaises(cqa.LoadFault):
                db.load("day", self.path("later.csv"))
            self.assertEqual(len(db.rows("day")), 2)

    def test_no_file_that_is_read_is_written_over(self) -> None:
        os.symlink(self.path("t.csv"), self.path("link.csv"))
        self.file("q.cqa", "ask select id, a from t;\n")
        before = {name: self.read(name) for name in ("t.csv", "t.cqa", "q.cqa")}
        for words in (("load", "--table", "t", "--key", "id", "u.csv", "t.csv", "--columns", "id", "-o", "t.csv"), ("load", "--table", "t", "--key", "id", "t.csv", "-o", "link.csv"),
                      ("csv", "t.cqa", "q.cqa", "-o", "t.cqa"), ("csv", "t.cqa", "q.cqa", "-o", "./q.cqa"), ("report", "t.cqa", "q.cqa", "-o", "q.cqa"), ("conflicts", "t.cqa", "-o", "t.cqa")):
            status, out, told = self.command(*words)
            self.assertEqual((status, out), (1, ""), words)
            self.assertIn("is read, and -o would write over it: nothing is written", told)
        self.assertEqual(before, {name: self.read(name) for name in before})

    def test_a_state_that_was_cut(self) -> None:
        self.assertEqual(self.command("shell", "t.cqa", "u.cqa", stdin=b"\\save kept.cqa\n")[0], 0)
        kept = self.read("kept.cqa").splitlines(True)
        self.assertEqual(self.asked("csv", "ask select id from t;", "kept.cqa")[:2], (0, "id\n1\n2\n"))
        cuts = [kept[:at] + kept[at + 1:] for at in range(len(kept))] + [kept[:-3], ["9".join(line.split("5")) if '"2"' in line else line for line in kept]]
        for cut in cuts[::3] + cuts[-2:]:
            self.file("cut.cqa", "".join(cut))
            for command in ("run", "csv", "conflicts", "report", "shell"):
                status, out, told = self.command(command, "cut.cqa", stdin=b"ask select id from t;\n")
                self.assertEqual((status, out), (1, ""))
                self.assertIn("cut.cqa: a kept state isn't whole: ", told)
            with self.assertRaises(cqa.StateFault):
                cqa.Session.restored(self.path("cut.cqa"))
            with cqa.Session() as db, self.assertRaises(cqa.StateFault):
                db.run("".join(cut))

    def test_numbers_with_a_point_mean_the_same_everywhere(self) -> None:
        tested = "ask select id, a from t where a > 5.50;"
        self.assertEqual(self.asked("csv", tested, "t.cqa"), (0, "id,a\n1,9.00\n", ""))
        self.assertEqual(self.asked("run", tested, "t.cqa")[1], "created t\ncopied 2\n(1, 900)\n1 rows\n")
        self.assertEqual(self.command("shell", "t.cqa", stdin=tested.encode() + b"\n")[1], "(1, 900)\n1 rows\n")
        self.assertEqual(self.asked("run", "against row (1, 9.00) for select id, a from t;", "t.cqa"), (0, "created t\ncopied 2\ncertain\n",
                                                                                                      "q.cqa:1: note: a is shown as it is stored, times 100\n"))
        self.assertIn("a is stored times 100: 9 stands for 0.09 here; write 9.00 for 9", self.asked("run", "against row (1, 9) for select id, a from t;", "t.cqa")[2])
        self.assertEqual(self.asked("csv", "insert into t values (3, 7.25); ask select a from t where id = 3;", "t.cqa"), (0, "a\n7.25\n", ""))
        status, out, told = self.asked("csv", "ask select id from t where a > 5.501;", "t.cqa")
        self.assertEqual((status, out), (1, ""))
        self.assertIn("q.cqa:1: a has 2 places, and 5.501 has more", told)
        self.assertIn("q.cqa:1: error 2 Syntax at 41", self.asked("run", "ask select id, a from t where a > 5.50   oder a = 1;", "t.cqa")[2])

    def test_records_by_hand_and_those_of_load(self) -> None:
        self.file("line.csv", 'id,a,x\n1,9.00,"p\n\\.\nq"\n')
        self.command("load", "--table", "n", "--key", "id", "--decimal", "a:2", "line.csv", "-o", "line.cqa")
        self.assertEqual(self.asked("csv", "ask select a from n;", "line.cqa"), (0, "a\n9.00\n", ""))
        self.assertIn("q.cqa:1: note: n.a is stored times 100: records write 1000.00 as 100000", self.asked("csv", "copy n;\n2,5,z\n\\.\nask select a from n;", "line.cqa")[2])

    def test_the_sql_text_speaks_of_what_is_stored(self) -> None:
        self.assertIn("the text speaks of a as it is stored here, times 100: the column there has to be so, too", self.asked("run", "sql select id from t where a >= 5.50;", "t.cqa")[2])
        with cqa.Session() as db:
            db.run(self.read("t.cqa"))
            with self.assertWarnsRegex(cqa.ScaleWarning, "as it is stored here, times 100"):
                self.assertIn('"a" >= 550', db.sql("select id from t where a >= 5.50") or "")

    def test_hints_in_the_package(self) -> None:
        with cqa.Session() as db:
            db.run("create table c (id int, city text, primary key (id));")
            with self.assertRaises(cqa.Refused) as caught:
                db.certain("select id from c where city in ('K\u00f6ln', 'Berlin')")
            self.assertEqual(caught.exception.hint, "write `ask select id from c where city = 'K\u00f6ln' union select id from c where city = 'Berlin';`: there is no `in`")
            with self.assertRaises(cqa.Refused) as caught:
                db.certain("select id from c where city = 7")
            self.assertEqual(caught.exception.hint, "write `ask select id from c where city = '7';`: city is text")


class Elsewhere(Case):
    def test_the_sql_by_hand_is_plain_sql(self) -> None:
        with open(os.path.join(TOP, "docs", "SQL.md"), encoding="utf-8") as file:
            text = file.read()
        found = re.search(r"`(select distinct max\(name\).*?)`", text, flags=re.S)
        assert found is not None
        self.assertIsNone(re.search(r"min\(city", found[1]), "a comparison is no number for PostgreSQL")
        with sqlite3.connect(":memory:") as engine:
            engine.execute("create table customer (id int, name text, city text)")
            engine.executemany("insert into customer values (?, ?, ?)", [(1, "Ada", "Oslo"), (1, "Ada", "Bergen"), (2, "Bo", "Oslo"), (2, "Bo", "Oslo"), (3, "Cy", "Oslo"), (3, "Si", "Oslo")])
            self.assertEqual(engine.execute(found[1]).fetchall(), [("Bo",)])


if __name__ == "__main__":
    unittest.main()
