"""What `load` says of lists that write the same in two ways, and what it refuses before the program does."""

from __future__ import annotations

import datetime
import io
import unittest
from typing import List, Tuple
from unittest import mock

from support import Case, ProgramCase, lines

import cqa
from cqa.columns import turned_date
from cqa.loading import load_script
from cqa.options import ListOptions


class Together(Case):
    def told(self, *words: str, key: str = "id") -> Tuple[int, str, List[str]]:
        """The status of a load, its script, and what it says without its name."""
        status, out, told = self.command("load", "--table", "t", "--key", key, *words)
        return status, out, [line[len("cqa load: "):] if line.startswith("cqa load: ") else line for line in lines(told)]

    def script(self, *words: str, key: str = "id") -> str:
        """The script of a load that has to go well."""
        status, out, told = self.told(*words, key=key)
        self.assertEqual(status, 0, told)
        return out

    def test_keys_with_leading_zeros_are_told_in_any_order(self) -> None:
        self.file("a.csv", "id,name\n" + "".join("%06d,N%d\n" % (at, at) for at in range(1, 41)))
        self.file("b.csv", "id,name\n" + "".join("%d,M%d\n" % (at, at) for at in range(1, 41)))
        for lists in (["--source", "a=a.csv", "--source", "b=b.csv"], ["--source", "b=b.csv", "--source", "a=a.csv"], ["a.csv", "b.csv"]):
            with self.subTest(lists):
                told = self.told(*lists)[2]
                self.assertRegex("\n".join(told), r"40 keys of t are written in two ways, which differ in leading zeros: '0*1' in \w[.csv]* and '0*1' in \w")
                self.assertRegex("\n".join(told), r"warning: no key of t stands in both \w[.csv]* \(40 keys\) and \w[.csv]* \(40 keys\)")

    def test_in_what_keys_differ(self) -> None:
        for one, other, way in (("A-17", "a17", "case and punctuation"), ("A 17", "A17", "blanks"), ("Ab", "aB", "case"), ("x.1", "x1", "punctuation"),
                                ("A-017", "A-17", "leading zeros"), (" 07", "7", "blanks and leading zeros")):
            with self.subTest(one):
                self.file("a.csv", 'id,n\nq,1\n"%s",1\n' % one)
                self.file("b.csv", 'id,n\nq,1\n"%s",1\n' % other)
                self.assertIn("1 key of t is written in two ways, which differ in %s: %r in a.csv and %r in b.csv" % (way, one, other),
                              "\n".join(self.told("a.csv", "b.csv")[2]))

    def test_keys_that_differ_are_not_alike(self) -> None:
        for one, other in (("-5", "5"), ("2026-01-11", "2026-11-01"), ("A1", "A10"), ("10", "1")):
            with self.subTest(one):
                self.file("a.csv", "id,n\nq,1\n%s,1\n" % one)
                self.file("b.csv", "id,n\nq,1\n%s,1\n" % other)
                self.assertNotIn("written in two ways", "\n".join(self.told("a.csv", "b.csv")[2]))

    def test_how_many_keys_lists_share(self) -> None:
        for name, begin, end in (("a", 0, 100), ("b", 98, 200), ("c", 150, 250), ("d", 0, 60)):
            self.file(name + ".csv", "id,day,n\n" + "".join("%d,x,1\n" % at for at in range(begin, end)))
        told = self.told("--source", "a=a.csv", "--source", "b=b.csv", key="id,day")[2]
        self.assertEqual(told[:-1], ["warning: only 2 keys of t stand in both a (100 keys) and b (102 keys)",
                                     "2 keys in both a and b; 98 in a alone, 100 in b alone"])
        told = self.told(*(word for name in "abcd" for word in ("--source", "%s=%s.csv" % (name, name))))[2]
        self.assertEqual([line for line in told if "in both" in line and not line.startswith("warning")], [
            "2 keys in both a and b", "0 keys in both a and c", "60 keys in both a and d", "50 keys in both b and c", "0 keys in both b and d", "0 keys in both c and d"])
        self.assertEqual(len([line for line in told if line.startswith("warning")]), 4)

    def test_numbers_with_two_marks(self) -> None:
        self.file("crm.csv", "id;credit\n1;2583,32\n2;4\n")
        self.file("shop.csv", "id,credit\n1,2583.32\n2,4.0\n")
        both = ["--source", "crm=crm.csv", "--source", "shop=shop.csv"]
        hint = "--decimal credit:2 --decimal-mark crm=,"
        self.assertIn("credit holds numbers, with , before the places in crm and with . in shop, so that equal ones differ: %s stores both with 2 places" % hint,
                      self.told(*both)[2])
        out = self.script(*both, *hint.split(" "))
        self.assertEqual((out.count('"1","258332"'), out.count('"2","400"')), (2, 2))
        self.file("one.csv", "id;credit\n1;2,5\n2;2.5\n")
        self.assertIn("credit holds numbers, with , and with . before the places in the same list, one.csv: which mark stands before the places?", self.told("one.csv")[2])

    def test_marks_that_may_be_of_thousands(self) -> None:
        self.file("a.csv", 'id,v\n1,"1,234"\n2,"5,678"\n3,9\n')
        self.file("b.csv", "id,v\n1,1234.5\n2,5678\n")
        self.assertIn("v holds numbers with , before three digits each time, and is text: where it marks places, --decimal v:3 --decimal-mark , stores them; "
                      "where it marks thousands, take it out of the list first", self.told("a.csv")[2])
        self.assertIn("; but if , marks thousands, as it stands before three digits each time, take it out of the list first",
                      "\n".join(self.told("--source", "a=a.csv", "--source", "b=b.csv")[2]))
        self.file("c.csv", 'id,v\n1,"1,234"\n2,"5,67"\n')
        self.assertNotIn("thousands", "\n".join(self.told("c.csv")[2]))

    def test_numbers_with_a_sign(self) -> None:
        self.file("a.csv", "id,n\n1,+5\n2,+7.5\n")
        self.file("b.csv", "id,n\n1,5\n2,7.5\n")
        self.assertIn("n: 2 fields written with a sign, as +5 in a.csv:2, which differs from the number without it: --decimal n:1 stores both as one",
                      self.told("--source", "a=a.csv", "--source", "b=b.csv")[2])
        self.assertIn('"1","50","a"', self.script("--decimal", "n:1", "--source", "a=a.csv", "--source", "b=b.csv"))
        self.file("c.csv", "id,n\n1,+47 22\n2,5\n")
        self.assertNotIn("sign", "\n".join(self.told("c.csv")[2]))

    def test_a_field_written_for_a_spreadsheet(self) -> None:
        self.file("a.csv", 'id,zip\n1,="0012"\n2,="0013"\n')
        self.assertIn('zip: 2 fields written as for a spreadsheet, as ="0012" in a.csv:2; such a text differs from the one without', self.told("a.csv")[2])

    def test_dates_in_two_forms(self) -> None:
        self.file("crm.csv", "id,since\n1,28.09.2018\n2,1.3.2020\n")
        self.file("shop.csv", "id,since\n1,2018-09-28\n2,2020-03-01\n")
        self.file("us.csv", "id,since\n1,9/28/2018\n2,3/1/2020\n")
        self.file("open.csv", "id,since\n1,1.2.2018\n")
        told = self.told("--source", "crm=crm.csv", "--source", "shop=shop.csv")[2]
        self.assertIn("since holds dates, as 1.3.2020 in crm and as 2018-09-28 in shop, and is text, which compares by its bytes: --date since=DMY stores all as 2026-03-01", told)
        self.assertIn("--date crm.csv=since=DMY --date us.csv=since=MDY stores all as 2026-03-01", "\n".join(self.told("crm.csv", "us.csv", "shop.csv")[2]))
        self.assertIn("--date since=DMY turns round those that begin with the day, and --date since=MDY those", "\n".join(self.told("open.csv")[2]))
        out = self.script("crm.csv", "us.csv", "shop.csv", "--date", "crm.csv=since=DMY", "--date", "us.csv=since=MDY")
        self.assertEqual((out.count('"1","2018-09-28"'), out.count('"2","2020-03-01"')), (3, 3))
        self.assertIn('"1","2018-02-01"', self.script("open.csv", "--date", "since=DMY"))
        self.assertIn('"1","2018-01-02"', self.script("open.csv", "--date", "since=MDY"))
        self.assertFalse([line for line in self.told("shop.csv")[2] if "dates" in line])

    def test_each_day_in_each_order(self) -> None:
        day = datetime.date(1999, 12, 1)
        while day < datetime.date(2001, 3, 2):
            for order, forms in (("DMY", ("%d.%m.%Y", "%d/%m/%Y", "%d-%m-%Y", "%Y-%m-%d", "%Y/%m/%d")), ("MDY", ("%m/%d/%Y", "%m.%d.%Y", "%Y-%m-%d")),
                                 ("YMD", ("%Y%m%d", "%Y.%m.%d", "%Y-%m-%d"))):
                for form in forms:
                    self.assertEqual(turned_date(day.strftime(form), order), day.isoformat())
            self.assertEqual(turned_date("%d.%d.%d" % (day.day, day.month, day.year), "DMY"), day.isoformat())
            day += datetime.timedelta(1)
        for wrong in ("31.02.2020", "1.13.2020", "1.1.20", "2020", "1.1/2020", "20200101", "01.01.2020 10:00", "", "0.1.2020"):
            self.assertIsNone(turned_date(wrong, "DMY"))
        self.assertIsNone(turned_date("1.2.2020", "YMD"))

    def test_dates_that_are_none(self) -> None:
        self.file("a.csv", "id,since\n1,31.02.2020\n2,NULL\n3,1.1.20\n")
        status, out, told = self.told("--date", "since=DMY", "a.csv")
        self.assertEqual((status, out, told[:-1]), (1, "", [
            "a.csv:2: since: '31.02.2020' is no date with the day first and a year of four digits, as 28.2.2026",
            "a.csv:3: since: 'NULL' is no date with the day first and a year of four digits, as 28.2.2026: --null NULL takes it as an empty field",
            "a.csv:4: since: '1.1.20' is no date with the day first and a year of four digits, as 28.2.2026"]))
        self.assertEqual(self.told("--time", "since", "a.csv")[2][0],
                         "a.csv:2: since: '31.02.2020' is no date, and no time in UTC as 2026-03-01T00:10:00Z; --date since=DMY, MDY or YMD turns dates round")
        self.assertEqual(self.told("--date", "since=DYM", "a.csv")[0], 2)
        self.assertIn("a.csv:1: no column sice; it has id, since", self.told("--date", "sice=DMY", "a.csv")[2])

    def test_words_for_what_is_missing(self) -> None:
        self.file("a.csv", "id,m,n\n1,NULL,5\n2,x,N/A\n3,\\N,7\n")
        told = "\n".join(self.told("a.csv")[2])
        for wanted in ("m: NULL in 1 field, as in a.csv:2, is a value like others: --null NULL takes it", "m: \\N in 1 field, as in a.csv:4, is a value like others: --null '\\N' takes it",
                       "n is text, because of 'N/A' in a.csv:3", "n: N/A in 1 field"):
            self.assertIn(wanted, told)
        out = self.script("--null", "NULL", "--null", "N/A", "--null", "\\N", "--missing", "drop", "a.csv")
        self.assertIn("create table t (id int, m int, n int,", self.script("--null", "NULL", "--null", "N/A", "--null", "\\N", "--null", "x", "--missing", "drop", "a.csv"))
        self.assertNotIn("NULL", out)
        self.assertEqual(self.told("--null", "NULL", "a.csv")[0], 1)

    def test_line_feeds_and_encodings(self) -> None:
        self.file("a.csv", 'id,n\n1,"a\nb"\n')
        self.file("b.csv", 'id,n\r\n1,"a\r\nb"\r\n')
        self.assertIn("n: lines within a field end with CR LF in 1 field, as in b.csv:2, and with LF in 1 field, as in a.csv:2: --strip makes all of them LF", self.told("a.csv", "b.csv")[2])
        self.assertEqual(self.script("--strip", "a.csv", "b.csv").count('"1","a\nb"\n'), 2)
        self.file("m.csv", b"id,n\n1,M\xc3\xbcller\n2,M\xfcller\n")
        self.assertEqual(self.told("m.csv")[2][0], "m.csv:3: n: the byte 0xFC isn't UTF-8; --encoding says how the list is written, as latin-1; other letters are UTF-8, and mixed reads both")
        self.assertIn("n: 1 field of UTF-8 read as Latin-1, as M\u00c3\u00bcller in m.csv:2; --encoding mixed reads them as UTF-8, and others as Latin-1", self.told("--encoding", "latin-1", "m.csv")[2])
        out = self.script("--encoding", "mixed", "m.csv")
        self.assertIn('"1","M\u00fcller"\n"2","M\u00fcller"\n', out)
        self.file("d.csv", "id,n\n1,M\u00c3\u00bcller\n2,\u00c3 propos\n3,Gr\u00f6\u00dfe\n")
        self.assertIn("n: 1 field of UTF-8 read as Latin-1, as M\u00c3\u00bcller in d.csv:2; it was written so into the list: mend it where the list comes from", self.told("d.csv")[2])


class Refusals(Case):
    def test_scripts_that_would_be_refused_are_not_written(self) -> None:
        self.file("a.csv", "id,name\n1,Ada\n")
        for words, told in ((("--key", "id,id"), "the key names id twice"), (("--key", "id", "--columns", "id,name,id"), "the columns name id twice"),
                            (("--key", "id", "--table", "primary"), "the table 'primary' is no name: it begins `primary key`"),
                            (("--key", "id", "--rename", "name=primary"), "the new name 'primary' is no name"), (("--table", "t"), "--key names the columns")):
            with self.subTest(words):
                status, out, said = self.command("load", "--table", "t", *words, "a.csv", "-o", "out.cqa")
                self.assertEqual((status, out), (2, ""))
                self.assertIn(told, said)

    def test_a_strict_table_over_lists_that_disagree(self) -> None:
        self.file("a.csv", "id,name\n1,Ada\n2,Bo\n")
        self.file("b.csv", "id,name\n2,Bo\n1,Eva\n")
        status, out, told = self.command("load", "--table", "t", "--key", "id", "--strict", "a.csv", "b.csv")
        self.assertEqual((status, out, lines(told)), (1, "", ["b.csv:3: the key 1 stands in a.csv:2 with another row, and a strict table takes one row of a key",
                                                               "cqa load: nothing is written"]))
        status, out, told = self.command("load", "--table", "t", "--key", "id", "--strict", "--source", "a=a.csv", "--source", "b=b.csv")
        self.assertEqual((status, out, len(lines(told))), (1, "", 3))
        self.assertEqual(self.command("load", "--table", "t", "--key", "id", "--strict", "a.csv", "a.csv")[0], 0)

    def test_more_rows_than_a_session_takes(self) -> None:
        path = self.file("a.csv", "id\n1\n2\n2\n3\n3\n")
        for most, told in ((2, ["t: 3 different rows, and a session has at most 2: docs/SQL.md says how to ask of them where they are"]), (3, [])):
            faults: List[str] = []
            with mock.patch("cqa.lists.MOST_ROWS", most):
                load_script(ListOptions("t", ["id"]), [(path, None)], io.BytesIO(), faults.append)
            self.assertEqual(faults, told)

    def test_help_is_no_fault(self) -> None:
        for word in ("--help", "-h"):
            status, out, told = self.command(word)
            self.assertEqual((status, told), (0, ""))
            self.assertIn("load, run, csv", out)
        self.assertEqual(self.command("lod")[0], 2)


class InPython(ProgramCase):
    def test_options_by_list(self) -> None:
        crm = self.file("crm.csv", "Report\nid;name;credit;since\n1;M\u00fcller;140,97;28.09.2018\n".encode("latin-1"))
        shop = self.file("shop.csv", "id,name,credit,since\n1,M\u00fcller,140.97,9/28/2018\n")
        with cqa.Session() as db:
            db.load("t", {"crm": crm, "shop": shop}, key="id", decimal={"credit": 2}, encoding={"crm": "latin-1"}, decimal_mark={"crm": ","}, skip={"crm": 1},
                    delimiter={"crm": ";"}, date={"since": {"crm": "DMY", "shop": "MDY"}})
            self.assertEqual(len(db.conflicts("t")), 0)
            self.assertEqual(len(db.rows("t")), 2)
            with self.assertRaisesRegex(ValueError, "encoding: no list is called 'crn'; there are crm, shop"):
                db.load("t", {"crm": crm, "shop": shop}, encoding={"crn": "latin-1"})
            with self.assertWarnsRegex(cqa.LoadWarning, "--null NULL"):
                db.load("n", self.file("n.csv", "id,n\n1,NULL\n"), key="id")
            self.assertEqual(db.load("m", self.file("n.csv", "id,n\n1,NULL\n2,5\n"), key="id", null="NULL", missing="drop"), 1)

    def test_a_third_list_next_week(self) -> None:
        self.file("crm.csv", "id,name,credit\n1,Ada,9.00\n2,Bo,5\n")
        self.file("shop.csv", "id,name,credit\n1,Ada,9.5\n")
        self.file("web.csv", "id,credit,name\n2,5.00,Bob\n03,1.25,Cy\n")
        words = ["load", "--table", "t", "--decimal", "credit:2"]
        self.assertEqual(self.command(*words, "--key", "id", "--source", "crm=crm.csv", "--source", "shop=shop.csv", "-o", "load.cqa")[0], 0)
        status, out, told = self.command(*words, "--into", "load.cqa", "--source", "web=web.csv")
        self.assertEqual((status, out), (0, ""), told)
        self.assertIn("t (id text, name text, credit int, source text) by id, 2 new rows", told)
        self.assertEqual(lines(self.command("conflicts", "load.cqa")[1]), [
            "t: 3 keys, 2 in conflict: name 1, credit 1", "1  credit: 9.00 (crm) | 9.50 (shop)", "2  name: Bo (crm) | Bob (web)"])
        before = self.read("load.cqa")
        self.assertEqual(self.command(*words, "--into", "load.cqa", "--source", "bad=nope.csv")[::2], (1, "nope.csv: no such file or directory\ncqa load: nothing is written\n"))
        self.assertEqual(self.command("load", "--table", "u", "--into", "load.cqa", "--source", "bad=web.csv")[::2], (1, "cqa load: load.cqa makes no table u\ncqa load: nothing is written\n"))
        self.assertEqual(self.read("load.cqa"), before)


if __name__ == "__main__":
    unittest.main()
