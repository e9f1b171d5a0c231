"""The page of a report: what it says, and that texts of lists stay texts."""

from __future__ import annotations

import os
import re
import unittest
from html.parser import HTMLParser
from typing import List, Tuple

from support import ProgramCase, lines

VOID = {"meta", "br", "img", "link", "input"}
ALLOWED = {"html", "head", "meta", "title", "style", "body", "h1", "h2", "h3", "p", "b", "ul", "li", "div", "span", "bdi", "table", "thead", "tbody", "tr", "th",
           "td", "code", "pre", "a", "ol", "mark", "details", "summary", "svg", "defs", "marker", "path", "rect", "g", "text"}
SCRIPT = """-- cqa: column customer.source has the sources
create table customer (id int, name text, city text, source text, primary key (id));
create table branch (city text, region text, primary key (city));
insert into customer values (1, 'Ada', 'Oslo', 'crm'), (1, 'Ada', 'Bergen', 'shop'), (2, 'Bo', 'Hamar', 'crm'), (3, 'Cy', 'Oslo', 'shop');
insert into branch values ('Oslo', 'East'), ('Bergen', 'West'), ('Hamar', 'East'), ('Hamar', 'Inland');
"""


class Reader(HTMLParser):
    """Gathers the tags and the text of a page, and sees that each tag is closed."""

    def __init__(self, page: str) -> None:
        super().__init__(convert_charrefs=True)
        self.tags: List[Tuple[str, dict]] = []
        self.text = ""
        self.open: List[str] = []
        self.feed(page)

    def handle_starttag(self, tag: str, attrs: "list") -> None:
        self.tags.append((tag, dict(attrs)))
        if tag not in VOID:
            self.open.append(tag)

    def handle_startendtag(self, tag: str, attrs: "list") -> None:
        self.tags.append((tag, dict(attrs)))

    def handle_endtag(self, tag: str) -> None:
        assert self.open and self.open[-1] == tag, "%s is closed in %s" % (tag, self.open)
        self.open.pop()

    def handle_data(self, data: str) -> None:
        if self.open[-1:] != ["style"]:
            self.text += data + "\n"


class Pages(ProgramCase):
    def page(self, script: str) -> Reader:
        """The page of a script, which has to be well formed and to need nothing from outside."""
        self.file("s.cqa", script)
        status, out, told = self.command("report", "s.cqa")
        self.assertEqual((status, told), (0, ""))
        read = Reader(out)
        self.assertEqual(read.open, [])
        self.assertLessEqual({tag for tag, _ in read.tags}, ALLOWED)
        for tag, attributes in read.tags:
            for name, value in attributes.items():
                self.assertFalse(name.startswith("on") or name == "src" or name == "href" and not value.startswith("#"), (tag, name, value))
        identities = [attributes["id"] for _, attributes in read.tags if "id" in attributes]
        self.assertLessEqual({attributes["href"][1:] for tag, attributes in read.tags if tag == "a"}, set(identities))
        self.assertEqual(len(identities), len(set(identities)))
        return read

    def test_tables_conflicts_and_questions(self) -> None:
        read = self.page(SCRIPT + "ask select id, name from customer, branch where customer.city = branch.city and region = 'East';\n"
                         "possible select id, name from customer, branch where customer.city = branch.city and region = 'East';\n"
                         "ask exists from customer where city <> 'Hamar';\nexplain row (1) for select id from customer where city = 'Oslo';\n"
                         "explain row (3) for select id from customer where name = 'Cy';\n")
        words = " ".join(read.text.split())
        for wanted in ("8 rows", "6 keys", "1 key in conflict", "2 keys in conflict", "4 questions", "Bergen shop Oslo crm", "Certain rows: 1", "Disputed rows: 2", "Class: first-order.",
                       "Why (1, 'Ada') isn't certain", "In the table customer : id name city source 1 Ada Bergen shop", "Yes, whichever rows are right.", "Why (1) isn't certain",
                       "(3) is certain", "By the rows of customer with the key 3"):
            self.assertIn(wanted, words)
        graphs = [attributes["aria-label"] for tag, attributes in read.tags if tag == "svg" and "aria-label" in attributes]
        self.assertEqual(graphs, ["customer attacks branch, weak"])
        self.assertEqual([attributes["style"] for tag, attributes in read.tags if attributes.get("class") == "bar"], ["width:33.33%", "width:0.00%", "width:33.33%"])

    def test_questions_are_answered_where_they_stand(self) -> None:
        read = self.page("create table c (id int, city text, primary key (id));\ninsert into c values (1, 'Oslo'), (1, 'Bergen');\nask select city from c;\n"
                         "possible select city from c;\ndelete from c where city = 'Oslo';\nask select city from c;\n")
        words = " ".join(read.text.split())
        first, second = words.split("Question 2 s.cqa:6")
        self.assertIn("Question 1 s.cqa:3 ask select city from c ; Also asked by possible . Certain rows: 0", first)
        self.assertIn("Disputed rows: 2", first)
        self.assertIn("Certain rows: 1 city Bergen Disputed rows: 0", second)

    def test_columns_with_places_bring_no_warning(self) -> None:
        read = self.page("-- cqa: column c.credit has 2 places\ncreate table c (id int, credit int, primary key (id));\ncopy c;\n1,90000\n1,12050\n\\.\n"
                         "ask select credit from c;\n")
        words = " ".join(read.text.split())
        self.assertIn("Why (120.50) isn't certain", words)

    def test_a_tested_column_with_places_is_told_once(self) -> None:
        self.file("s.cqa", "-- cqa: column c.credit has 2 places\ncreate table c (id int, credit int, primary key (id));\nask select id from c where credit > 1000;\n")
        self.assertEqual(self.command("report", "s.cqa", "-o", "out.html")[::2],
                         (0, "s.cqa:3: note: credit is stored times 100: 1000 stands for 10.00 here; write 1000.00 for 1000\n"))

    def test_unions(self) -> None:
        read = self.page(SCRIPT + "ask select id from customer where city = 'Oslo' union select id from customer where city = 'Hamar';\n"
                         "explain row (1) for select id from customer where city = 'Oslo' union select id from customer where city = 'Bergen';\n")
        words = " ".join(read.text.split())
        for wanted in ("2 questions", "Certain rows: 2 id 2 3 Disputed rows: 1 id 1", "by some part of the question, not always by the same one.",
                       "Why (1) isn't certain", "1 Ada Bergen shop", "(1) is certain A refutation shows it."):
            self.assertIn(wanted, words)

    def test_ranges(self) -> None:
        read = self.page("-- cqa: column c.credit has 2 places\ncreate table c (id int, credit int, primary key (id));\ncopy c;\n1,90000\n1,12050\n2,100\n2,100\n\\.\n"
                         "range sum credit from c;\nrange sum credit from c;\nrange max credit from c where credit < 0;\nask select id from c;\n")
        words = " ".join(read.text.split())
        for wanted in ("3 questions", "Question 1 s.cqa:9 range sum credit from c ; It lies between 121.50 and 901.00 , whichever rows are right.",
                       "In the table c : for id credit the least 1 120.50 the greatest 1 900.00 Question 2 s.cqa:11", "between none and none", "Question 3 s.cqa:12"):
            self.assertIn(wanted, words)

    def test_ranges_by_groups(self) -> None:
        read = self.page("-- cqa: column c.credit has 2 places\ncreate table c (id int, credit int, primary key (id));\ncopy c;\n1,90000\n1,12050\n2,100\n2,100\n\\.\n"
                         "range max credit from c where credit > 0 group by id;\nrange count from c group by credit;\n")
        words = " ".join(read.text.split())
        for wanted in ("2 questions", "range max credit from c where credit > 0 group by id ; id least greatest 1 120.50 900.00 2 1.00 1.00",
                       "range count from c group by credit ; credit least greatest 1.00 1 1 120.50 0 1 900.00 0 1"):
            self.assertIn(wanted, words)

    def test_nothing_is_cut_on_a_narrow_page(self) -> None:
        self.file("s.cqa", SCRIPT)
        style = self.command("report", "s.cqa")[1].split("</style>")[0]
        narrow = style.split("@media (max-width: 40rem)")[1]
        self.assertIn("th, td { padding: .25rem .3rem; min-width: 0; overflow-wrap: anywhere; }", narrow)

    def test_weak_and_strong_attacks_are_told_apart(self) -> None:
        read = self.page(SCRIPT + "create table head (person text, region text, primary key (person));\n"
                         "ask exists from customer, branch, head where customer.city = branch.city and branch.region = head.region;\n")
        kinds = [attributes["class"] for tag, attributes in read.tags if tag == "path" and "marker-end" in attributes]
        self.assertEqual(set(kinds), {"weak", "strong"})

    def test_hostile_texts_stay_texts(self) -> None:
        texts = ["<script>alert(1)</script>", "<img src=x onerror=alert(1)>", "</td></table></body>", '"\'&amp;', "\u202eright to left", "W" * 1024, "a\x01b\x00", "]]>", "<!--"]
        rows = ", ".join("(%d, '%s', '%s')" % (at, text.replace("'", "''"), text.replace("'", "''")) for at, text in enumerate(texts))
        more = ", ".join("(%d, 'x', '%s')" % (at, text.replace("'", "''")) for at, text in enumerate(texts))
        read = self.page("create table note (id int, body text, source text, primary key (id));\ninsert into note values %s, %s;\n"
                         "ask select body from note where body <> '<script>';\nask select id, source from note;\n" % (rows, more))
        for text in texts:
            self.assertIn(text.replace("\x01", "\u2401").replace("\x00", "\u2400").replace("\u202e", "\\u202e"), read.text)

    def test_refused_questions_are_shown_and_refused_scripts_are_not(self) -> None:
        self.file("s.cqa", SCRIPT + "ask select nothing from customer;\n")
        status, out, told = self.command("report", "s.cqa", "-o", "report.html")
        self.assertEqual((status, out, os.path.exists(self.path("report.html"))), (1, "", False))
        self.assertEqual(len(lines(told)), 2)

    def test_an_empty_script_and_long_answers(self) -> None:
        self.file("s.cqa", "")
        self.assertEqual(self.command("report", "s.cqa"), (1, "", "cqa report: s.cqa makes no table; nothing is written\n"))
        rows = ", ".join("(%d, 'x', 'y', 'z')" % at for at in range(1000))
        read = self.page(SCRIPT.split("insert")[0] + "insert into customer values %s;\nask select id from customer;\n" % rows)
        self.assertIn("485 more", read.text)
        self.assertIn("500 further rows aren't on this page", read.text)
        self.assertEqual(read.text.count("\n499\n"), 1)
        self.assertEqual(read.text.count("\n500\n"), 0)

    def load(self) -> None:
        """Two lists as a script, load.cqa."""
        self.file("crm.csv", "id,name,city,credit\n1,Ada,Oslo,9.00\n2,Bo,Bergen,5\n3,Cy,Bonn,1\n4,Dag,Voss,1\n")
        self.file("shop.csv", "id,name,city,credit\n1,Ada,Bergen,9.50\n2,Bo,Bergen,5\n5,Eli,K\u00f6ln,2\n3,Cy,K\u00f6ln,1\n")
        words = ["--table", "customer", "--key", "id", "--decimal", "credit:2", "--source", "crm=crm.csv", "--source", "shop=shop.csv", "-o", "load.cqa"]
        self.assertEqual(self.command("load", *words)[0], 0)

    def test_questions_come_first_with_links_and_then_the_lists(self) -> None:
        self.load()
        self.file("q.cqa", "disputed select id, city from customer;\nrange sum credit from customer;\nask exists from customer where city = 'Oslo';\n")
        status, out, told = self.command("report", "load.cqa", "q.cqa", "--title", "Customers <of> May")
        self.assertEqual((status, told), (0, ""))
        read = Reader(out)
        words = " ".join(read.text.split())
        self.assertRegex(words, r"Customers <of> May Made on 20\d\d-\d\d-\d\d at \d\d:\d\d \(UTC[+-]\d{4}\) by cqa \d+\.\d+ from load.cqa, q.cqa\.")
        links = [attributes["href"] for tag, attributes in read.tags if tag == "a"]
        self.assertEqual(links, ["#q1", "#q2", "#q3", "#lists", "#t-customer"])
        order = [attributes["id"] for _, attributes in read.tags if "id" in attributes and not attributes["id"].endswith("-head")]
        self.assertEqual(order, ["q1", "q2", "q3", "lists", "t-customer"])
        for wanted in ("disputed select id, city from customer 3 certain, 4 disputed", "range sum credit from customer between 18.00 and 18.50",
                       "ask exists from customer where city = 'Oslo' disputed", "Table customer 2 of 5 keys in conflict",
                       "table list file records read rows here keys in it alone customer crm crm.csv 4 4 1 customer shop shop.csv 4 4 1 customer in several lists (empty) (empty) (empty) 3"):
            self.assertIn(wanted, words)

    def test_rows_have_the_names_of_their_columns_and_marks(self) -> None:
        self.load()
        self.file("q.cqa", "ask select id, city from customer;\nrange sum credit from customer;\n")
        out = self.command("report", "load.cqa", "q.cqa")[1]
        marked = re.findall(r"<mark><bdi>([^<]*)</bdi></mark>", out)
        self.assertEqual(marked, ["Oslo", "9.00", "Oslo", "9.00", "Bergen", "9.50"])
        self.assertIn("id name city credit source 1 Ada Oslo 9.00 crm", " ".join(Reader(out).text.split()))

    def test_a_union_is_explained_by_the_rows_that_matter(self) -> None:
        self.load()
        self.file("q.cqa", "ask select city from customer where city = 'K\u00f6ln' and id < 5 union select city from customer where city = 'Oslo';\n")
        words = " ".join(Reader(self.command("report", "load.cqa", "q.cqa")[1]).text.split())
        why = words.split("Why ('K\u00f6ln') isn't certain")[1].split("How it was found")[0]
        self.assertIn("3 Cy Bonn 1.00 crm", why)
        for other in ("Ada", "Bo ", "Dag", "Eli"):
            self.assertNotIn(other, why)

    def test_questions_in_sql(self) -> None:
        self.file("s.cqa", SCRIPT)
        self.file("crm.csv", "id,name,city\n1,Ada,Oslo\n2,<b>Bo,\n")
        self.file("shop.csv", "id,name,city\n1,Ada,Bergen\n")
        words = ["report", "s.cqa", "--csv", "customer=crm.csv", "--csv", "customer=shop.csv", "--key", "customer=id"]
        status, out, told = self.command(*words, "--sql", "select name, city from customer where id < 3", "--sql", "select count(*) from customer", "--sql", "select 'x' from customer")
        self.assertEqual((status, told), (0, ""))
        read = Reader(out)
        self.assertEqual(read.open, [])
        self.assertLessEqual({tag for tag, _ in read.tags}, ALLOWED)
        for part in ("1 certain, 2 disputed", "<b>Bo", "NULL", "Certain rows: 1", "Disputed rows: 2", "It is no answer where these rows are the right ones of their keys:",
                     "count: an aggregate or a window function over a table with a key", "1 certain, 0 disputed"):
            self.assertIn(part, read.text)
        self.assertEqual(self.command("report", "s.cqa", "--sql", "select 1")[::2], (1, "cqa report: one of --db and --csv is wanted\n"))
        self.assertEqual(self.command("report", "s.cqa", "--key", "customer=id")[0], 2)


if __name__ == "__main__":
    unittest.main()
