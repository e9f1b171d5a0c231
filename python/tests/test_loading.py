"""The loader: what it takes, what it refuses, and that a fault leaves nothing."""

from __future__ import annotations

import io
import os
import re
import resource
import subprocess
import sys
import unittest
from typing import List
from unittest import mock

import support
from support import Case, ProgramCase, lines

from cqa.loading import load_script
from cqa.options import ListOptions


class Taken(Case):
    def load(self, *words: str) -> str:
        """The script of a load that has to go well, without its comments that name the lists."""
        status, out, told = self.command("load", "--table", "t", *words)
        self.assertEqual(status, 0, told)
        return re.sub(r"^-- cqa: table t has .*\n", "", out, flags=re.M)

    def test_headers_by_name_whatever_their_order(self) -> None:
        self.file("a.csv", "\ufeffid,Full Name,City\r\n1,Ada,Oslo\r\n3,\"Moe, Cy\",Hamar")
        self.file("b.csv", "city,id,full name\nBergen,1,Ada\n")
        self.assertEqual(self.load("--key", "id", "--source", "A=a.csv", "--source", "B=b.csv"),
                         '-- cqa: column t.source has the sources\ncreate table t (id int, full_name text, city text, source text, primary key (id));\n'
                         '-- a.csv:2\ncopy t;\n"1","Ada","Oslo","A"\n"3","Moe, Cy","Hamar","A"\n\\.\n'
                         '-- b.csv:2\ncopy t;\n"1","Ada","Bergen","B"\n\\.\n')

    def test_lists_that_are_written_differently(self) -> None:
        self.file("a.csv", "id;tlf;sum\n1;11;350,50\n".encode("latin-1"))
        self.file("b.csv", "\ufeffid\tTelefon\tsum\n2\tMärta\t0,5\n")
        out = self.load("--key", "id", "--rename", "telefon=tlf", "--decimal", "sum:2", "--decimal-mark", ",", "--encoding", "latin-1", "a.csv", "b.csv")
        self.assertIn("(id int, tlf text, sum int, primary key (id))", out)
        self.assertIn('"1","11","35050"', out)
        self.assertIn('"2","Märta","50"', out)

    def test_options_of_one_list(self) -> None:
        self.file("a.csv", "id,sum\n1,350.50\n")
        self.file("b.csv", "Report of May\nid|sum|name\n2|0,5|Märta\n".encode("latin-1"))
        words = ["--key", "id", "--decimal", "sum:2", "--columns", "id,sum"]
        apart = ["--skip", "B=1", "--delimiter", "B=|", "--encoding", "B=latin-1", "--decimal-mark", "B=,"]
        for lists in (["--source", "A=a.csv", "--source", "B=b.csv"], ["--source", "B=b.csv", "--source", "A=a.csv"]):
            out = self.load(*words, *lists, *apart)
            self.assertEqual(sorted(line for line in lines(out) if line.startswith('"')), ['"1","35050","A"', '"2","50","B"'])
            self.assertIn("-- b.csv:3\n", out)
        self.assertIn('"2","50"', self.load(*words, "a.csv", "b.csv", *(word.replace("B=", "b.csv=") for word in apart)))
        self.file("c.csv", "id=sum\n3=4\n")
        self.assertIn('"3","400"', self.load(*words, "--delimiter", "=", "c.csv"))

    def test_options_of_lists_that_arent_there(self) -> None:
        self.file("a.csv", "id\n1\n")
        for words, told in ((("--skip", "shpo=2"), "--skip wants a number of lines, as 1, or NAME=1 for the list of one source, and not shpo=2"),
                            (("--decimal-mark", "shpo=,"), "the decimal mark is . or , and not 'shpo=,'"), (("--skip", "-1"), None)):
            status, out, said = self.command("load", "--table", "t", "--key", "id", "a.csv", *words)
            self.assertEqual((status, out), (2, ""))
            self.assertIn(told or "", said)

    def test_kinds_are_found(self) -> None:
        self.file("a.csv", "id,zip,phone,minus,plus,zero,greatest,real\n1,0150,+4722,-5,+5,-0,9223372036854775807,1.0\n"
                           "2,5003,11,0,6,0,-9223372036854775808,2\n")
        self.assertEqual(lines(self.load("--key", "id", "a.csv"))[0],
                         "create table t (id int, zip text, phone text, minus int, plus text, zero text, greatest int, real text, "
                         "primary key (id));")
        self.file("b.csv", 'id,n\n1,"1\n2"\n3,4\n')
        self.assertIn("(id int, n text,", self.load("--key", "id", "b.csv"))
        self.assertIn("zip text", self.load("--key", "id", "--columns", "id,zip", "--text", "zip", "a.csv"))

    def test_decimals_are_scaled(self) -> None:
        self.file("a.csv", "id;credit\n1;900.00\n2;-1200.5\n3;.5\n4;+7\n5;-0.00\n6;1.500\n")
        self.assertEqual(lines(self.load("--key", "id", "--delimiter", ";", "--decimal", "credit:2", "a.csv"))[4:-1],
                         ['"1","90000"', '"2","-120050"', '"3","50"', '"4","700"', '"5","0"', '"6","150"'])
        self.file("b.csv", "id;credit\n1;900,5\n")
        self.assertIn('"1","9005"', self.load("--key", "id", "--delimiter", ";", "--decimal", "credit:1", "--decimal-mark", ",", "b.csv"))

    def test_the_mark_before_the_places(self) -> None:
        self.file("a.csv", "id;amount\n1;1.200\n2;12,50\n3;1.200,50\n")
        status, out, told = self.command("load", "--table", "t", "--key", "id", "--decimal", "amount:2", "--decimal-mark", ",", "a.csv")
        self.assertEqual((status, out, lines(told)[:2]), (1, "", [
            "a.csv:2: amount: '1.200' has a point, and the mark before the places is a comma", "a.csv:4: amount: '1.200,50' is no number"]))
        self.file("b.csv", "id;amount\n2;12,50\n")
        told = self.command("load", "--table", "t", "--key", "id", "--decimal", "amount:2", "b.csv")[2]
        self.assertIn("b.csv:2: amount: '12,50' has a comma: --decimal-mark , takes it as the mark before the places", told)

    def test_columns_of_numbers_are_told(self) -> None:
        self.file("a.csv", "id;dues;rate\n1;100,00;1.5\n2;250;2.125\n")
        status, _, told = self.command("load", "--table", "t", "--key", "id", "a.csv")
        self.assertEqual((status, lines(told)[:-1]), (0, [
            "cqa load: dues holds numbers and is text, which compares by its bytes: --decimal dues:2 --decimal-mark , stores such numbers with 2 places",
            "cqa load: rate holds numbers and is text, which compares by its bytes: --decimal rate:3 stores such numbers with 3 places"]))

    def test_encodings_and_names(self) -> None:
        self.file("a.csv", "Kunde-Nr;Größe;2nd;primary;Tromsø\n1;Märta;x;y;z\n".encode("latin-1"))
        out = self.load("--key", "kunde_nr", "--encoding", "latin-1", "--delimiter", ";", "a.csv")
        self.assertIn("(kunde_nr int, grosse text, c_2nd text, primary_ text, tromso text,", out)
        self.assertIn('"Märta"', out)

    def test_a_list_in_another_encoding_than_told(self) -> None:
        self.file("a.csv", "id,name\n1,Sæther\n".encode("latin-1"))
        self.file("b.csv", "id,name\n1,Sæther\n")
        words = ["--key", "id", "--encoding", "latin-1", "--source", "a=a.csv", "--source", "b=b.csv"]
        out = self.load(*words)
        self.assertEqual(out.count("Sæther"), 2)
        self.assertIn("cqa load: b.csv is UTF-8, and is read so, not as latin-1\n", self.command("load", "--table", "t", *words)[2])

    def test_records_are_told_by_list(self) -> None:
        self.file("a.csv", "id,name\n1,Ada\n2,Bo\n")
        self.file("b.csv", "id,name\n")
        told = self.command("load", "--table", "t", "--key", "id", "--source", "A=a.csv", "--source", "B=b.csv")[2]
        self.assertEqual(lines(told), ["cqa load: B has no records", "cqa load: t (id int, name text, source text) by id, 2 records (A 2, B 0)"])
        self.file("empty.cqa", "")
        self.assertEqual(self.command("report", "empty.cqa"), (1, "", "cqa report: empty.cqa makes no table; nothing is written\n"))

    def test_blanks_and_signs_that_nobody_sees(self) -> None:
        self.file("a.csv", "id,city\n1 ,Oslo \n2,Os\u200blo\n3,Be\u0301b\n")
        status, _, told = self.command("load", "--table", "t", "--key", "id", "a.csv")
        self.assertEqual((status, lines(told)[:-1]), (0, [
            "cqa load: id: a blank at an end in 1 field, as 1\u2423 in a.csv:2; such a text differs from the one without; --strip takes blanks off",
            "cqa load: city: a blank at an end in 1 field, as Oslo\u2423 in a.csv:2; such a text differs from the one without; --strip takes blanks off",
            "cqa load: city: a sign that nobody sees in 1 field, as Os\\u200blo in a.csv:3; such a text differs from the one without",
            "cqa load: city: an accent apart from its letter in 1 field, as Be\\u0301b in a.csv:4; such a text differs from the one with both as one letter"]))
        self.assertIn('"1","Oslo"\n', self.load("--key", "id", "--strip", "a.csv"))

    def test_the_delimiter_by_which_the_key_is_found(self) -> None:
        for header in ("Nr.;Navn (etternavn, fornavn);Post nr\n1;Moe, Cy;2\n", "nr\tnavn, fullt\n1\tCy\n", '"nr";"a;b,c";d\n1;x;y\n', "sep=|\nnr|navn\n1|Cy\n"):
            self.file("a.csv", header)
            self.assertIn('"1",', self.load("--key", "nr", "a.csv"))
        self.file("a.csv", "Members of 2026\n\nnr;name\n1;Ada\n")
        self.assertIn("-- a.csv:4\n", self.load("--key", "nr", "--skip", "2", "a.csv"))

    def test_headers_that_arent_taken_are_no_faults(self) -> None:
        self.file("a.csv", "id;name;;x;x\n1;Ada;;2;3\n")
        self.assertIn('"1","Ada"\n', self.load("--key", "id", "--columns", "id,name", "a.csv"))

    def test_missing_fields_as_told(self) -> None:
        self.file("a.csv", "id,email,age\n1,a@b,7\n2,,8\n3,c@d,\n")
        self.assertIn('"2","","8"', self.load("--key", "id", "--missing", "keep", "a.csv"))
        dropped = self.load("--key", "id", "--missing", "drop", "a.csv")
        self.assertEqual(lines(dropped), ["create table t (id int, email text, age int, primary key (id));", "-- a.csv:2", "copy t;",
                                          '"1","a@b","7"', "\\."])

    def test_lines_of_blocks_are_lines_of_the_list(self) -> None:
        self.file("a.csv", "id,note\n\n1,\"two\nlines\"\n\n\n2,b\n3,\n4,d\n")
        out = self.load("--key", "id", "--missing", "drop", "a.csv")
        self.assertEqual(out.partition("copy t;\n")[2], '"1","two\nlines"\n\n\n"2","b"\n\n"4","d"\n\\.\n')
        self.assertIn("-- a.csv:3\n", out)

    def test_composite_keys_strict_tables_and_columns(self) -> None:
        self.file("a.csv", "sensor,day,note,value\ns1,2026-02-28,x,4\n")
        self.assertEqual(lines(self.load("--key", "sensor,day", "--strict", "--columns", "day,sensor,value", "--time", "day", "a.csv"))[1],
                         "create strict table t (day text, sensor text, value int, primary key (sensor, day));")

    def test_a_list_that_is_a_pipe_and_a_header_alone(self) -> None:
        status, out, _ = self.command("load", "--table", "t", "--key", "id", "/dev/stdin", stdin=b"id,name\n1,Ada\n")
        self.assertEqual((status, lines(out)[4]), (0, '"1","Ada"'))
        self.file("a.csv", "id,name\n")
        self.assertEqual(self.load("--key", "id", "a.csv"), "create table t (id int, name int, primary key (id));\n")

    def test_a_file_is_written_whole_or_not_at_all(self) -> None:
        self.file("a.csv", "id,name\n1,Ada\n")
        self.file("load.cqa", "old")
        self.assertEqual(self.command("load", "--table", "t", "--key", "no", "-o", "load.cqa", "a.csv")[0], 1)
        self.assertEqual(self.read("load.cqa"), "old")
        self.assertEqual(self.command("load", "--table", "t", "--key", "id", "-o", "load.cqa", "a.csv")[0], 0)
        self.assertIn("create table t", self.read("load.cqa"))
        self.assertEqual(sorted(os.listdir(self.folder)), ["a.csv", "load.cqa"])


class Faults(Case):
    HINT = "; --delimiter says what stands between two fields, --skip how many lines stand above the header"

    def faults(self, content: "str | bytes", *words: str) -> List[str]:
        """The faults of a list `a.csv` whose load has to write nothing."""
        self.file("a.csv", content)
        status, out, told = self.command("load", "--table", "t", "--key", "id", *words, "a.csv")
        self.assertEqual((status, out), (1, ""), told)
        self.assertEqual(lines(told)[-1], "cqa load: nothing is written")
        return lines(told)[:-1]

    def test_all_faults_are_listed_in_order(self) -> None:
        found = self.faults('id,name,city\n1,Ada,Bergen\n,Nobody,Voss\n2,Bo\n3,"x"y,z\n4,,\n5,a,b,c\n6,"open,Voss\n7,x,y\n')
        self.assertEqual(found, [
            "a.csv:3: the key id is empty", "a.csv:4: 2 fields, and the header has 3", "a.csv:5: something stands behind a closing quote",
            "a.csv:6: name is empty: --missing keep takes it as the text '', --missing drop leaves the record out",
            "a.csv:6: city is empty: --missing keep takes it as the text '', --missing drop leaves the record out",
            "a.csv:7: 4 fields, and the header has 3", "a.csv:8: a quote is opened here and never closed"])

    def test_faults_alike_are_counted(self) -> None:
        found = self.faults("id,n,m\n" + "".join("%d,12.%03d,\n" % (at, at) for at in range(300)), "--decimal", "n:2", "--missing", "keep")
        self.assertEqual((len(found), found[0]), (11, "a.csv:3: n: '12.001' has more than 2 places"))
        self.assertRegex(found[-1], r"^a.csv: and \d+ more like line \d+: n: '12.0\d\d' has more than 2 places$")
        found = self.faults("id,n,m\n" .encode() + b"1,\xe6,\xf8\n" * 300)
        self.assertEqual(found, ["a.csv:2: n: the byte 0xE6 isn't UTF-8; --encoding says how the list is written, as latin-1",
                                 "a.csv: and 599 more like line 2: n: the byte 0xE6 isn't UTF-8; --encoding says how the list is written, as latin-1"])

    def test_an_unended_quote_swallows_nothing(self) -> None:
        self.assertEqual(self.faults('id,name\n1,Ada Holm\n2,"Bo Lind\n3,Cy Moe\n4,Dag Vik\n'), ["a.csv:3: a quote is opened here and never closed"])
        self.assertEqual(self.faults('id,name\n2,"Bo\n3,"Cy"\n4,Dag\n'), ["a.csv:2: something stands behind a closing quote"])
        self.assertEqual(self.faults('id,name\n2,"Bo\n' + "3,Cy\n" * 50_000), ["a.csv:2: a field has more than 131,072 letters, as where a quote is opened and not closed"])
        self.assertEqual(self.faults("id,name\n2," + "x" * 200_000 + "\n3,Cy\n"), ["a.csv:2: a field has more than 131,072 letters, as where a quote is opened and not closed"])

    def test_a_line_without_end(self) -> None:
        self.assertTrue(self.faults("id,n\n1," + "x" * 3_000_000))
        self.assertTrue(self.faults("id,n\n" + "1," * 1_500_000))
        self.assertTrue(self.faults("x" * 3_000_000))

    def test_numbers_and_texts_out_of_range(self) -> None:
        self.assertEqual(self.faults("id,n\n1,9223372036854775808\n2,5\n"),
                         ["a.csv:2: n: 9223372036854775808 is out of the range of int, 64 bits; --text n takes the column as text"])
        self.assertEqual(self.faults("id,n\n1,%s\n" % ("ä" * 513)), ["a.csv:2: n: a text of 1026 bytes, and the most are 1,024"])
        self.assertEqual(self.faults("id,n\n1,1.005\n2,1e3\n3,NaN\n4,92233720368547758.08\n", "--decimal", "n:2"),
                         ["a.csv:2: n: '1.005' has more than 2 places", "a.csv:3: n: '1e3' is no number", "a.csv:4: n: 'NaN' is no number: --null NaN takes it as an empty field",
                          "a.csv:5: n: '92233720368547758.08' is out of range"])
        self.assertEqual(len(self.faults("id,n\n1,\n", "--decimal", "n:2", "--missing", "keep")), 1)

    def test_times_are_in_utc_and_of_one_form(self) -> None:
        good = "id,at\n1,2026-03-01T00:10:00Z\n2,2024-02-29T23:59:59Z\n"
        for bad in ("2026-02-29T00:00:00Z", "2026-03-01T00:10:00+01:00", "2026-03-01 00:10:00", "01.03.2026", "2026-03-01", "2026-03-01T24:00:00Z"):
            with self.subTest(bad):
                self.assertEqual(len(self.faults(good + "3,%s\n" % bad, "--time", "at")), 1)

    def test_encodings(self) -> None:
        self.assertEqual(self.faults(b"id,name\n1,Ada\n2,M\xe4rta\n"),
                         ["a.csv:3: name: the byte 0xE4 isn't UTF-8; --encoding says how the list is written, as latin-1"])
        self.assertEqual(self.faults("id,größe\n1,2\n".encode("latin-1")), ["a.csv:1: the header isn't UTF-8; --encoding says how the list is written, as latin-1"])
        self.assertTrue(self.faults("id,name\n1,Ada\n".encode("utf-16")))
        self.assertTrue(self.faults("id,name\n1,A\0da\n"))
        self.assertEqual(self.faults("id,name\n1,Ada\n", "--encoding", "klingon"), ["a.csv: no encoding is called klingon"])

    def test_headers(self) -> None:
        self.assertEqual(self.faults(""), ["a.csv: it is empty, and a header line is wanted"])
        self.assertEqual(self.faults("nr name\n1,Ada\n"), ["a.csv:1: no column id for the key; it has nr_name" + self.HINT])
        self.assertEqual(self.faults("nr;name\n1;Ada,b,c\n"), ["a.csv:1: no column id for the key; it has nr, name" + self.HINT])
        self.assertEqual(self.faults("id,Name,name\n1,a,b\n"), ["a.csv:1: columns 2 and 3 are both called name"])
        self.assertEqual(self.faults("id,,x\n1,a,b\n"), [
            "a.csv:1: the header of column 2, '', makes no name: --rename =NAME gives it one, --columns leaves it out; is line 1 no header? --skip 1"])
        wide = ",".join(["id"] + ["c%d" % at for at in range(16)])
        self.assertEqual(self.faults(wide + "\n"), ["a.csv:1: 17 columns, and a table has at most 16: --columns says which are taken"])

    def test_lists_that_differ_in_their_columns(self) -> None:
        self.file("b.csv", "id,name,phone\n1,Ada,1\n")
        self.file("a.csv", "id,name,city\n1,Ada,Oslo\n")
        _, out, told = self.command("load", "--table", "t", "--key", "id", "a.csv", "b.csv")
        self.assertEqual((out, lines(told)[:-1]), ("", ["b.csv:1: no column city; it has id, name, phone (--rename OLD=NEW names a column anew)",
                                                        "b.csv:1: a column phone, which a.csv hasn't; --columns says which are taken"]))

    def test_lists_that_cant_be_read(self) -> None:
        self.file("a.csv", "id,name\n1,Ada\n")
        _, out, told = self.command("load", "--table", "t", "--key", "id", "a.csv", "missing.csv", self.folder)
        self.assertEqual((out, lines(told)[:-1]), ("", ["missing.csv: no such file or directory", self.folder + ": is a directory"]))

    def test_a_list_that_changes_while_it_is_read(self) -> None:
        path = self.file("a.csv", "id,name\n1,Ada\n")
        now = os.stat(path)
        later = os.stat_result((*now[:6], now.st_size + 1, *now[7:10]))
        faults: List[str] = []
        with mock.patch("cqa.lists.os.fstat", side_effect=[now, later]):
            self.assertIsNone(load_script(ListOptions("t", ["id"]), [(path, None)], io.BytesIO(), faults.append))
        self.assertEqual(faults, [path + ": it changed while it was read"])

    def test_wrong_words_have_status_2(self) -> None:
        self.file("a.csv", "id,name\n1,Ada\n")
        for words in ([], ["--table", "t"], ["--table", "t", "--key", "id"], ["--table", "t", "--key", "id", "--source", "a.csv"],
                      ["--table", "t", "--key", "id", "--decimal", "credit", "a.csv"], ["--table", "a b", "--key", "id", "a.csv"],
                      ["--table", "t", "--key", "id", "--delimiter", ";;", "a.csv"],
                      ["--table", "t", "--key", "id", "--source-column", "Kilde Ø", "--source", "A=a.csv"]):
            with self.subTest(words):
                status, out, told = self.command("load", *words)
                self.assertEqual((status, out), (2, ""), told)
                self.assertTrue(told)

    def test_empty_times_and_numbers_and_names_that_no_list_has(self) -> None:
        drop = ", so that --missing keep doesn't fit the column: --missing drop leaves the record out"
        self.assertEqual(self.faults("id,day,n\n1,,\n", "--time", "day", "--decimal", "n:2", "--missing", "keep"), [
            "a.csv:2: day: an empty field is no date, and no time in UTC as 2026-03-01T00:10:00Z" + drop, "a.csv:2: n: an empty field is no number" + drop])
        self.file("b.csv", "id\n1\n")
        told = self.command("load", "--table", "t", "--key", "id", "--rename", "nope=x", "b.csv")[2]
        self.assertIn("cqa load: no list has a column nope, which is named anew\n", told)

    def test_a_full_folder_of_temporary_files(self) -> None:
        self.file("a.csv", "id,name\n" + "".join("%d,Ada\n" % at for at in range(100_000)))
        command = 'ulimit -f 8; "%s" -m cqa load --table t --key id a.csv' % sys.executable
        environment = dict(os.environ, PYTHONPATH=os.path.dirname(support.HERE), TMPDIR=self.folder)
        ran = subprocess.run(["bash", "-c", command], cwd=self.folder, env=environment, stdout=subprocess.PIPE, stderr=subprocess.PIPE, timeout=60, check=False)
        self.assertEqual((ran.returncode, ran.stderr.decode()), (1, "cqa load: %s: file too large, in the folder of temporary files\n" % self.folder))

    def test_a_full_disk_and_a_broken_pipe(self) -> None:
        self.file("a.csv", "id,name\n" + "1,Ada\n" * 100_000)
        command = '"%s" -m cqa load --table t --key id a.csv' % sys.executable
        environment = dict(os.environ, PYTHONPATH=os.path.dirname(support.HERE))
        for way in ("%s >/dev/full", "%s | head -1 >/dev/null; exit ${PIPESTATUS[0]}"):
            ran = subprocess.run(["bash", "-c", way % command], cwd=self.folder, env=environment, stderr=subprocess.PIPE, timeout=60, check=False)
            self.assertEqual(ran.returncode, 4, ran.stderr)
            self.assertNotIn(b"Traceback", ran.stderr)


class Loaded(ProgramCase):
    def test_what_is_loaded_is_what_the_list_has(self) -> None:
        texts = ["it's", 'say "hi"', "a,b", "two\nlines", "cr\r\nlf", "a\n\\.\nb", "  blanks  ", "\\.", "-- no comment", "ünï", ";", "x" * 1024]
        with open(self.path("a.csv"), "w", encoding="utf-8", newline="") as file:
            file.write("id,note\n" + "".join('%d,"%s"\n' % (at, text.replace('"', '""')) for at, text in enumerate(texts)))
        import cqa
        with cqa.Session() as db:
            with self.assertWarns(cqa.LoadWarning):
                self.assertEqual(db.load("t", self.path("a.csv"), key="id"), len(texts))
            self.assertEqual(db.rows("t"), list(enumerate(texts)))

    def test_a_hundred_thousand_records_in_time_and_in_little_memory(self) -> None:
        with open(self.path("a.csv"), "w", encoding="utf-8") as file:
            file.write("id,name,city,since\n")
            file.writelines('%d,"Name %d, X",City%d,2026-01-01\n' % (at, at, at % 97) for at in range(100_000))
        before = resource.getrusage(resource.RUSAGE_CHILDREN)
        status, _, told = self.command("load", "--table", "t", "--key", "id", "-o", "load.cqa", "a.csv")
        after = resource.getrusage(resource.RUSAGE_CHILDREN)
        self.assertEqual(status, 0, told)
        self.assertLess(after.ru_utime - before.ru_utime, 5.0)
        self.assertEqual(self.command("run", "load.cqa")[:2], (0, "created t\ncopied 100000\n"))


if __name__ == "__main__":
    unittest.main()
