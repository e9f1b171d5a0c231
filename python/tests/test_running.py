"""Script files that are run: what goes where, and the places of refusals."""

from __future__ import annotations

import os
import re
import stat
import subprocess
import sys
import unittest
import zipfile
from unittest import mock

from support import PROGRAM, TOP, Case, ProgramCase, lines

from cqa.habits import HABITS, advice_for
from cqa.marks import Marks, marks_of
from cqa.places import place_of
from cqa.program import Child
from cqa.running import ScriptFile, run_files
from cqa.scripts import Schema, aggregate_of, parts_of, schema_of, selected, statements

STAFF = "create table staff (id int, name text, room int, primary key (id));\n"
STAFF_SCHEMA = Schema("staff", {"id": "int", "name": "text", "room": "int"}, ["id"])


class Scripts(unittest.TestCase):
    def texts(self, script: bytes) -> "list[bytes]":
        """The texts of a script's statements."""
        return [part.text(script) for part in statements(script)]

    def test_statements_end_where_the_program_ends_them(self) -> None:
        script = b"-- a;b\n create table t (id int, primary key (id)) -- ;'\n;ask exists from t where a = ';''--';;copy t; \n1,';'\n\\.\r\n dump;"
        self.assertEqual(len(self.texts(script)), 5)
        self.assertEqual(self.texts(script)[1], b"ask exists from t where a = ';''--'")
        self.assertEqual(self.texts(script)[2:], [b"", b"copy t", b"dump"])
        self.assertTrue(all(part.complete for part in statements(script)))

    def test_blocks(self) -> None:
        part = next(statements(b"copy t;\n\\.\n"))
        self.assertEqual((part.block, part.complete), ((8, 8), True))
        self.assertEqual(next(statements(b"copy t; 1,a\n\\.")).block, (7, 12))
        self.assertFalse(next(statements(b"copy t;\n1,a\\.\n")).complete)
        self.assertIsNone(next(statements(b"copying t;\n1,a\n")).block)
        self.assertFalse(next(statements(b"insert into t values ('a;")).complete)
        self.assertFalse(next(statements(b"ask -- ;")).complete)
        self.assertEqual(list(statements(b" -- nothing\n ")), [])

    def test_schemas_selections_and_remarks(self) -> None:
        schema = schema_of("create strict\n table t (a int, -- x text,\n b text, primary key (b, a))")
        assert schema is not None
        self.assertEqual((schema.columns, schema.key, schema.strict), ({"a": "int", "b": "text"}, ["b", "a"], True))
        self.assertEqual(selected("ask select from, t.select from from, t where a = 'from x'"), (["from", "t.select"], ["from", "t"]))
        self.assertEqual(selected("exists from a, b"), ([], ["a", "b"]))
        self.assertEqual(parts_of("ask exists from union union -- two\n select union from union where a = 'x union select'"),
                         ["ask exists from union ", " -- two\n select union from union where a = 'x union select'"])
        self.assertEqual(aggregate_of("range sum from from from where sum = 1 and t = 'group by x'"), ("sum", "from", ["from"], ""))
        self.assertEqual(aggregate_of("count from t"), ("count", "", ["t"], ""))
        self.assertEqual(aggregate_of("min r.y from r, s where r.p = s.id group by s.z"), ("min", "r.y", ["r", "s"], "s.z"))
        self.assertEqual(marks_of(b"-- cqa: column t.a has 2 places\n-- cqa: column t.b has the sources\n-- cqa: column t.c has times as 2026-03-01\ncreate"),
                         Marks({("t", "a"): 2}, {("t", "c"): "2026-03-01"}, {"t": "b"}))
        self.assertEqual(marks_of(b"dump;\n-- cqa: column t.a has 2 places\n"), Marks({("t", "a"): 2}))
        self.assertEqual(marks_of(b"copy t;\n-- cqa: column t.a has 2 places\n\\.\n"), Marks())


class Places(ProgramCase):
    def refusals(self, script: str) -> "list[str]":
        """The refusals of a script whose every statement is refused but the first."""
        self.file("s.cqa", STAFF + script)
        status, out, told = self.command("run", "s.cqa")
        self.assertEqual((status, out), (1, "created staff\n"), told)
        return lines(told)

    def test_each_refusal_names_its_line(self) -> None:
        self.assertEqual(self.refusals(
            "ask select id,\n nmae from staff;\nask select id\n  from staff, staff;\ninsert into staff values (1, 'a', 2),\n (2, 3, 4);\n"
            "delete from staff where id = 1\n and name = 2;\ninsert into staff values\n (1, 'a');\ncreate table t (a int,\n a text, primary key (a));\n"
            "create table t (a int,\n primary key (b));\nask exists from staf;\nask select id from staff\n union select id, name\n from staff;\n"
            "possible select id, room from staff union select id,\n name from staff;\n"),
            ["s.cqa:3: error 6 UnknownColumn nmae: is it `name`?", "s.cqa:5: error 8 SelfJoin staff: a query names each table once: a copy of staff under another name would be another question, since it is repaired by itself",
             "s.cqa:7: error 9 TypeMismatch row 2 column 2: name is text: write '3'",
             "s.cqa:9: error 9 TypeMismatch condition 2: name is text: write '2'", "s.cqa:11: error 10 WrongArity row 1: 3 columns: id, name, room", "s.cqa:13: error 11 DuplicateColumn a",
             "s.cqa:15: error 12 BadKey b", "s.cqa:16: error 4 UnknownTable staf: is it `staff`?", "s.cqa:18: error 10 WrongArity row 2",
             "s.cqa:21: error 9 TypeMismatch row 2 column 2"])

    def test_a_bad_record_names_its_line_its_list_and_its_cause(self) -> None:
        self.assertEqual(self.refusals("-- crm.csv:17\ncopy staff;\n7,Ida,12\n\n8,\"two\nlines\",1\n,Ola,3\n9,Per\n\\.\ncopy staff;\nid,name,room\n\\.\n"),
                         ["s.cqa:8: error 19 BadCsv record 3, crm.csv:21: id is empty, an int is wanted; and 1 more",
                          "s.cqa:12: error 19 BadCsv record 1: id: 'id' is no int"])

    def test_what_is_left_at_the_end(self) -> None:
        for text, note in (("ask exists from staff", "the statement that begins here has no ;"), ("delete from staff where name = 'a;\n;", "the text that begins here has no end"),
                           ("copy staff;\n1,a,1\\.", "the block of this copy has no line \\."),
                           ("copy staff from 'x.csv';\nask exists from staff;", "write `copy staff;`, the records, and a line `\\.`; or `./cqa load --table staff --key id x.csv`")):
            with self.subTest(text):
                self.assertEqual(self.refusals(text), ["s.cqa:2: error 15 Unfinished: " + note])

    def test_each_habit_gets_its_advice(self) -> None:
        for habit in HABITS:
            with self.subTest(habit.written):
                script = habit.written.encode()
                note = place_of(script, next(statements(script)), habit.reply, {"staff": STAFF_SCHEMA}, lambda whole: True).note
                whole = re.match(r"write `(ask |range )[^`]*;`: (.*)", note) if habit.is_whole else None
                self.assertEqual(whole is not None, habit.is_whole, note)
                if habit.at:
                    self.assertTrue(note.endswith(whole[2] if whole else habit.write), note)

    def test_whole_statements_in_the_readers_words(self) -> None:
        tables = ("create table customer (id int, name text, city text, zip text, since text, credit int, phone text, primary key (id));\n"
                  "create table door (room int, code int, primary key (room));\ncreate table person (pid int, name text, room int, primary key (pid));\n")
        wholes = (
            ("ask select id from customer where city = 'K\u00f6ln' or city = 'Berlin';", "ask select id from customer where city = 'K\u00f6ln' union select id from customer where city = 'Berlin';"),
            ("ask select id from customer where city in ('K\u00f6ln', 'Berlin') and credit > 5;",
             "ask select id from customer where city = 'K\u00f6ln' and credit > 5 union select id from customer where city = 'Berlin' and credit > 5;"),
            ("ask select id from customer where city not in ('a', 'b');", "ask select id from customer where city <> 'a' and city <> 'b';"),
            ("ask select id from customer where not (city = 'a' or credit >= 5);", "ask select id from customer where city <> 'a' and credit < 5;"),
            ("ask select id from customer where since between '2020-01-01' and '2020-12-31';", "ask select id from customer where since >= '2020-01-01' and since <= '2020-12-31';"),
            ("ask select id from customer where name like 'Anna%';", "ask select id from customer where name >= 'Anna' and name < 'Annb';"),
            ("ask select id from customer where zip = 1034;", "ask select id from customer where zip = '1034';"),
            ("ask select p.pid from person p join door d on p.room = d.room where d.code = 5;", "ask select pid from person, door where person.room = door.room and code = 5;"),
            ("ask select credit, id from customer order by credit desc limit 7;", "ask select credit, id from customer;"),
            ("SELECT * FROM Door WHERE Code <> 7", "ask select room, code from door where code <> 7;"),
            ("select city, max(credit) from customer group by city;", "range max credit from customer group by city;"),
            ("ask select id from customer except select pid from person;", "ask select id from customer;"),
            ("ask select a.id from customer a, customer b where a.phone = b.phone;", "range count from customer group by phone;"))
        for written, whole in wholes:
            with self.subTest(written):
                self.file("s.cqa", tables + written.rstrip(";") + ";\n")
                self.assertIn("write `%s`" % whole, self.command("run", "s.cqa")[2])
                self.file("s.cqa", tables + whole + "\n")
                self.assertEqual(self.command("run", "s.cqa")[0::2], (0, ""))

    def test_no_hint_shows_what_is_refused(self) -> None:
        for written in ("select id from nothing;", "ask select id from staff where name > id or id = 1;", "ask select nope from staff where id in (1, 2);"):
            self.assertNotIn("write `ask select id", "".join(self.refusals(written + "\n")).replace("write `ask select id from nothing", ""))
            self.assertNotIn("nope from", "".join(self.refusals(written + "\n")).partition("write")[2])

    def test_marks_of_other_files(self) -> None:
        self.file("s.cqa", b"\xef\xbb\xbf" + STAFF.encode())
        self.assertEqual(self.command("run", "s.cqa"), (1, "", "s.cqa:1: error 1 BadByte at 0: a mark of byte order: save the script without it\n"))
        self.file("s.cqa", STAFF.encode("utf-16"))
        self.assertIn("UTF-16", self.command("run", "s.cqa")[2])

    def test_a_misspelt_verb(self) -> None:
        self.assertEqual(advice_for("possibel select id from t", 0, "error 2 Syntax at 0"), "is it `possible`?")
        self.assertEqual(advice_for("ask select id frm t", 14, "error 2 Syntax at 14"), "is it `from`?")
        self.assertEqual(advice_for("ask exists from t wehre a = 1", 18, "error 2 Syntax at 18"), "is it `where`?")
        self.assertEqual(advice_for("truncate customer", 0, "error 2 Syntax at 0"), "write `delete from customer;`")
        self.assertEqual(advice_for("copy c from 'x.csv'", 7, "error 15 Unfinished"),
                         "write `copy c;`, the records, and a line `\\.`; or `./cqa load --table c --key id x.csv`")
        self.assertEqual(advice_for("ask exists from c where age between 1 and 2", 28, "error 2 Syntax at 28"), "there is no `between`")
        self.assertEqual(advice_for("SELECT id FROM c", 0, "error 2 Syntax at 0"),
                         "words stand in lower case; `ask` gives what is certain, `possible` what is possible")
        self.assertEqual(advice_for("frobnicate", 0, "error 2 Syntax at 0"), "")
        self.assertEqual(advice_for("ask select sum( pay ), id from c", 14, "error 2 Syntax at 14"), "between which values it lies")
        self.assertEqual(advice_for("range sum pay from c group by town, year", 34, "error 2 Syntax at 34"),
                         "write `range count from c group by town;`: one column makes the groups")
        self.assertEqual(advice_for("range count from c group by town", 28, "error 6 UnknownColumn town"), "")

    def test_texts_lead_no_place_astray(self) -> None:
        hostile = "a\n3 rows\nerror 2 Syntax at 0\nx"
        self.file("s.cqa", STAFF + "insert into staff values (1, '%s', 2);\nask select name from staff;\ndump;\nask select bdy from staff;\n" % hostile)
        status, out, told = self.command("run", "s.cqa")
        self.assertEqual((status, told), (1, "s.cqa:8: error 6 UnknownColumn bdy\n"))
        self.assertEqual(out.count(hostile), 2)

    def test_carets(self) -> None:
        script = "ask select é from staff;\n".encode()
        place = place_of(script, next(statements(script)), "error 1 BadByte at 11", {})
        self.assertEqual(place.caret(), "ask select é from staff;\n           ^")
        script = b"ask exists\n\tfrom staff wehre id = 1;"
        self.assertEqual(place_of(script, next(statements(script)), "error 2 Syntax at 23", {}).caret(), "\tfrom staff wehre id = 1;\n\t           ^^^^^")


class Dying(ProgramCase):
    """A program that dies while statements are sent and replies are read."""

    def test_a_program_that_dies_in_the_middle(self) -> None:
        script = "create table t (a int, b text, primary key (a));\n" + "".join("insert into t values (%d, '%s');\nask select a, b from t where a = %d;\n"
                                                                              % (at, "x" * 60, at) for at in range(8_000))
        self.file("many.cqa", script)
        program = self.file("dies.sh", "#!/bin/sh\n'%s' run | head -c 29000\nkill -9 $$\n" % PROGRAM)
        os.chmod(program, 0o755)
        for _ in range(4):
            status, out, told = self.command("run", "many.cqa", program=program)
            self.assertEqual((status, told), (128 + 9, "cqa run: %s: status -9: signal 9 ended it\n" % program))
            self.assertTrue(out.startswith("created t\ninserted 1\n"))

    def test_a_script_that_is_cut_while_it_runs(self) -> None:
        self.file("big.cqa", "create table t (a int, primary key (a));\n" + "insert into t values (1);\n" * 100_000)
        environment = dict(os.environ, PYTHONPATH=os.path.join(TOP, "python"), CQA_PROGRAM=PROGRAM or "")
        with subprocess.Popen([sys.executable, "-m", "cqa", "run", "big.cqa"], cwd=self.folder, env=environment, stdout=subprocess.PIPE) as ran:
            assert ran.stdout is not None
            ran.stdout.readline()
            self.file("big.cqa", "")
            self.assertEqual(ran.stdout.read().count(b"inserted "), 100_000)
        self.assertEqual(ran.returncode, 0)

    def test_a_folder_on_standard_input(self) -> None:
        ran = subprocess.run(["bash", "-c", '"%s/cqa" run <"%s"' % (TOP, self.folder)], stderr=subprocess.PIPE, timeout=60, check=False)
        self.assertEqual((ran.returncode, lines(ran.stderr.decode())[-1:]), (3, ["cqa: standard input is a folder"]))

    def test_what_the_sending_raises_is_told(self) -> None:
        path = self.file("s.cqa", "show tables;\n")
        child = Child()
        with mock.patch("cqa.running.fault_of", side_effect=MemoryError), self.assertRaises(MemoryError):
            list(run_files([ScriptFile(path)], child, False))
        child.kill()


class Runs(ProgramCase):
    def test_files_are_one_script(self) -> None:
        self.file("a.cqa", STAFF + "copy staff;\n1,Ada,2\n\\.")
        self.file("b.cqa", "-- a comment without its end")
        self.file("c.cqa", "ask select name from staff;")
        self.assertEqual(self.command("run", "a.cqa", "b.cqa", "c.cqa"), (0, "created staff\ncopied 1\n('Ada')\n1 rows\n", ""))
        self.file("b.cqa", "ask select")
        status, out, told = self.command("run", "a.cqa", "b.cqa", "c.cqa")
        self.assertEqual((status, out), (1, "created staff\ncopied 1\n"))
        self.assertTrue(told.startswith("b.cqa:1: error 15 Unfinished"))

    def test_stop_ends_at_the_first_refusal(self) -> None:
        self.file("s.cqa", STAFF + "ask select;\nask exists from staff;\nask;\n")
        self.assertEqual(self.command("run", "--stop", "s.cqa")[:2], (1, "created staff\n"))
        self.assertEqual(len(lines(self.command("run", "--stop", "s.cqa")[2])), 1)
        self.assertEqual(len(lines(self.command("run", "s.cqa")[2])), 2)

    def test_options_may_stand_between_files(self) -> None:
        self.file("a.cqa", STAFF)
        self.file("b.cqa", "ask select;\nshow tables;\n")
        for words in (("a.cqa", "--stop", "b.cqa"), ("--stop", "a.cqa", "b.cqa"), ("a.cqa", "b.cqa", "--stop"), ("--stop", "--", "a.cqa", "b.cqa")):
            self.assertEqual(self.command("run", *words), (1, "created staff\n", "b.cqa:1: error 2 Syntax at 10\n"))
        self.file("c.cqa", "ask select id from staff;\n")
        self.assertEqual(self.command("csv", "a.cqa", "-o", "out.csv", "c.cqa"), (0, "", ""))
        self.assertEqual(self.read("out.csv"), "id\n")
        self.assertEqual(self.command("conflicts", "a.cqa", "--csv", "c.cqa", "staff"), (0, "id,column,value,sources\n", ""))
        self.assertEqual(self.command("run", "a.cqa", "--stpo", "c.cqa")[0], 2)

    def test_the_output_is_that_of_standard_input(self) -> None:
        for name in ("first", "two_lists", "literature"):
            with self.subTest(name), open(os.path.join(TOP, "examples", name + ".out"), encoding="utf-8") as file:
                self.assertEqual(self.command("run", os.path.join(TOP, "examples", name + ".cqa")), (0, file.read(), ""))

    def test_every_stored_script_gets_the_same_replies(self) -> None:
        stricter = {"copies", "copies_of_one_column"}  # `run FILE` refuses a block with something behind a closing quote
        folder = os.path.join(TOP, "crates", "script_tests", "data")
        for name in sorted(name[:-4] for name in os.listdir(folder) if name.endswith(".cqa")):
            with self.subTest(name), open(os.path.join(folder, name + ".out"), "rb") as file:
                child = Child()
                replies = [[answer.refusal.encode()] if answer.refusal else answer.lines
                           for answer in run_files([ScriptFile(os.path.join(folder, name + ".cqa"))], child, False)]
                child.kill()
                written = b"".join(line + b"\n" for lines in replies for line in lines)
                self.assertEqual(written == file.read(), name not in stricter)

    def test_many_small_statements_and_long_replies(self) -> None:
        self.file("s.cqa", STAFF + "".join("insert into staff values (%d, 'x', 1);\n" % at for at in range(30_000)) + "ask select id, name from staff;\n" * 3)
        status, out, _ = self.command("run", "s.cqa")
        self.assertEqual((status, out.count("\n")), (0, 1 + 30_000 + 3 * 30_001))

    def test_files_that_cant_be_read(self) -> None:
        self.assertEqual(self.command("run", "nothing.cqa"), (1, "", "cqa run: nothing.cqa: no such file or directory\n"))
        status, out, told = self.command("run", self.folder)
        self.assertEqual((status, out, len(lines(told))), (1, "", 1))
        self.assertEqual(self.command("run", self.file("empty.cqa", "")), (0, "", ""))
        with open(self.file("long.cqa", ""), "r+b") as file:
            file.truncate(268_435_457)
        self.assertEqual(self.command("run", "long.cqa"), (6, "", "cqa run: long.cqa: status 6: the input is longer than 268,435,456 bytes\n"))
        self.assertEqual(self.command("run", "/dev/stdin", stdin=STAFF.encode()), (0, "created staff\n", ""))

    def test_statuses_of_the_program_are_told_in_a_line(self) -> None:
        path = self.file("program", "#!/bin/sh\nread a\nexit 5\n")
        os.chmod(path, os.stat(path).st_mode | stat.S_IXUSR)
        self.file("s.cqa", STAFF)
        status, out, told = self.command("run", "s.cqa", program=path)
        self.assertEqual((status, out, told), (5, "", "cqa run: %s: status 5: memory ran out\n" % path))
        status, _, told = self.command("run", "s.cqa", program=self.path("none"))
        self.assertEqual((status, len(lines(told))), (127, 1))

    def test_csv_of_the_last_question(self) -> None:
        self.file("s.cqa", STAFF + "insert into staff values (1, 'a, \"b\"', 2), (2, 'x\n(99, 100)\ny', 3);\nask select room from staff;\nask select id, name from staff;\n")
        self.assertEqual(self.command("csv", "s.cqa"), (0, 'id,name\n1,"a, ""b"""\n2,"x\n(99, 100)\ny"\n',
                                                        "cqa csv: note: of 2 questions the last one is written, s.cqa:6\n"))
        self.assertEqual(self.command("csv", self.file("t.cqa", STAFF))[:2], (1, ""))

    def test_ranges(self) -> None:
        pay = "-- cqa: column pay.cents has 2 places\ncreate table pay (id int, cents int, name text, primary key (id));\n"
        self.file("s.cqa", pay + "insert into pay values (1, 500, 'a'), (1, -200, 'b'), (2, 50, 'c');\nrange sum cents from pay;\n")
        self.file("none.cqa", "ask select id from pay;\nrange max name from pay where id = 3;\n")
        self.file("groups.cqa", "range sum cents from pay group by name;\n")
        self.file("bad.cqa", "range sum name from pay\n where id = 1;\n")
        self.assertEqual(self.command("csv", "s.cqa")[:2], (0, "least,greatest\n-1.50,5.50\n"))
        self.assertEqual(self.command("csv", "s.cqa", "none.cqa")[:2], (0, "least,greatest\n,\n"))
        self.assertEqual(self.command("csv", "s.cqa", "groups.cqa")[:2], (0, "name,least,greatest\na,0.00,5.00\nb,-2.00,0.00\nc,0.50,0.50\n"))
        status, out, told = self.command("run", "s.cqa", "bad.cqa")
        self.assertEqual((status, lines(out)[2:]), (1, ["least -150", "keep pay (1, -200, 'b')", "greatest 550", "keep pay (1, 500, 'a')"]))
        self.assertIn("s.cqa:4: note: cents is shown as it is stored, times 100\n", told)
        self.assertIn("bad.cqa:1: error 9 TypeMismatch condition 0: a sum is of an int column; min and max are of texts too\n", told)

    def test_conflicts_by_command(self) -> None:
        self.file("a.csv", "id,name,credit\n1,Ada,9.00\n2,Bo,1\n")
        self.file("b.csv", "id,name,credit\n1,Ada,9\n2,Bob,2.5\n")
        status, out, _ = self.command("load", "--table", "t", "--key", "id", "--decimal", "credit:2", "--source", "A=a.csv", "--source", "B=b.csv", "-o", "load.cqa")
        self.assertEqual((status, out), (0, ""))
        self.assertEqual(self.command("conflicts", "load.cqa", "t"), (0, "t: 2 keys, 1 in conflict: name 1, credit 1\n2  name: Bo (A) | Bob (B)   credit: 1.00 (A) | 2.50 (B)\n", ""))
        self.assertEqual(self.command("conflicts", "load.cqa", "u"), (1, "", "cqa conflicts: no table u in load.cqa\n"))


class Wrapper(ProgramCase):
    def wrapper(self, *words: str, stdin: bytes = b"") -> "tuple[int, str, str]":
        """Runs ./cqa in the test's folder."""
        ran = subprocess.run([os.path.join(TOP, "cqa"), *words], cwd=self.folder, input=stdin, stdout=subprocess.PIPE, stderr=subprocess.PIPE,
                             timeout=60, check=False)
        return ran.returncode, ran.stdout.decode(), ran.stderr.decode()

    def test_words(self) -> None:
        self.assertEqual(self.wrapper("run", stdin=STAFF.encode())[:2], (0, "created staff\n"))
        self.file("s.cqa", STAFF)
        self.assertEqual(self.wrapper("run", "s.cqa")[:2], (0, "created staff\n"))
        for words in ((), ("nothing",), ("demo", "0"), ("demo",), ("demo", "200000"), ("check", "x")):
            status, out, told = self.wrapper(*words)
            self.assertEqual((status, out), (2, ""))
            self.assertTrue(told)
        status, out, _ = self.wrapper("--help")
        self.assertIn("cqa load", out)
        self.assertEqual(status, 0)
        self.assertTrue(self.wrapper("--version")[1].startswith("cqa 0."))

    def test_a_copy_without_a_program_says_so_and_builds_nothing(self) -> None:
        os.makedirs(self.path("crates"))
        for name in ("cqa", "crates.txt"):
            with open(os.path.join(TOP, name), "rb") as file:
                self.file(name, file.read())
        os.chmod(self.path("cqa"), 0o755)
        for words in (("run",), ("run", "x.cqa"), ("csv", "x.cqa")):
            ran = subprocess.run([self.path("cqa"), *words], stdin=subprocess.DEVNULL, stdout=subprocess.PIPE, stderr=subprocess.PIPE, timeout=60, check=False)
            self.assertEqual((ran.returncode, ran.stdout, ran.stderr.count(b"\n")), (127, b"", 1))
            self.assertIn(b"not built yet", ran.stderr)


    def test_a_program_older_than_its_sources_is_run_and_told(self) -> None:
        os.makedirs(self.path("crates/cqa_cli/src"))
        os.makedirs(self.path("crates/cqa_cli/out"))
        self.file("crates.txt", "cqa_cli:\n")
        self.file("crates/cqa_cli/src/main.rt", "")
        with open(os.path.join(TOP, "cqa"), "rb") as file:
            self.file("cqa", file.read())
        self.file("crates/cqa_cli/out/cqa_cli", "#!/bin/sh\necho built\n")
        for name in ("cqa", "crates/cqa_cli/out/cqa_cli"):
            os.chmod(self.path(name), 0o755)
        for when, lines in ((0, 0), (4e9, 1)):
            os.utime(self.path("crates/cqa_cli/src/main.rt"), (when, when))
            os.utime(self.path("crates.txt"), (0, 0))
            ran = subprocess.run([self.path("cqa"), "run"], stdin=subprocess.DEVNULL, stdout=subprocess.PIPE, stderr=subprocess.PIPE, timeout=60, check=False)
            self.assertEqual((ran.stdout, ran.stderr.count(b"\n")), (b"built\n", lines), ran.stderr)


class Packages(Case):
    def test_an_installed_package_finds_the_program_of_its_repository(self) -> None:
        sys.path.insert(0, os.path.join(TOP, "python", "build_backend"))
        import wheel_builder
        sys.path.pop(0)
        repository = os.path.join(self.folder, "repo")
        with mock.patch.object(wheel_builder, "HERE", os.path.join(TOP, "python")):
            with zipfile.ZipFile(self.path(wheel_builder.build_wheel(self.folder))) as wheel:
                self.assertEqual(wheel.read("cqa/repository.txt").decode(), TOP)
                wheel.extractall(self.path("site"))
        self.file("site/cqa/repository.txt", repository)
        program = os.path.join(repository, "crates", "cqa_cli", "out", "cqa_cli")
        os.makedirs(os.path.dirname(program))
        environment = {name: value for name, value in os.environ.items() if name not in ("CQA_PROGRAM", "PYTHONPATH")}
        script = "from cqa.program import found_program; print(found_program())"
        for is_there in (False, True):
            if is_there:
                self.file(program, "#!/bin/sh\n")
                os.chmod(program, 0o700)
            ran = subprocess.run([sys.executable, "-c", script], cwd=self.path("site"), env=dict(environment, PATH=""), stdout=subprocess.PIPE, stderr=subprocess.PIPE, timeout=60, check=False)
            self.assertEqual((ran.returncode == 0, ran.stdout.decode()), (is_there, program + "\n" if is_there else ""))

    def test_an_editable_wheel_leads_to_the_sources(self) -> None:
        sys.path.insert(0, os.path.join(TOP, "python", "build_backend"))
        import wheel_builder
        sys.path.pop(0)
        with zipfile.ZipFile(self.path(wheel_builder.build_editable(self.folder))) as wheel:
            paths = [wheel.read(name).decode() for name in wheel.namelist() if name.endswith(".pth")]
            self.assertEqual((paths, sorted(name.split("/")[-1] for name in wheel.namelist())),
                             ([os.path.join(TOP, "python") + "\n"], ["METADATA", "RECORD", "WHEEL", "__editable__.cqa.pth"]))


class Versions(Case):
    def test_the_packages_version_is_that_of_the_changes(self) -> None:
        with open(os.path.join(TOP, "CHANGELOG.md"), encoding="utf-8") as changes, open(os.path.join(TOP, "python", "pyproject.toml"), encoding="utf-8") as project:
            version = next(line[3:].strip() for line in changes if line.startswith("## "))
            self.assertIn('version = "%s"' % version, project.read())


if __name__ == "__main__":
    unittest.main()
