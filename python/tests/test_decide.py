"""The page of `cqa decide` in a browser, and the script that it saves."""

from __future__ import annotations

import glob
import os
import random
import sys
import time
import unittest
from typing import Any, List

from support import ProgramCase

import cqa
from cqa.deciding import tables_of

try:
    from selenium import webdriver
except ImportError:
    sys.path.append("/usr/lib/python3/dist-packages")  # where Debian keeps it
    try:
        from selenium import webdriver
    except ImportError:
        webdriver = None

BROWSER, DRIVER = "/usr/bin/chromium", "/usr/bin/chromedriver"
HAS_BROWSER = webdriver is not None and os.path.exists(BROWSER) and os.path.exists(DRIVER)

LOAD = """-- cqa: column customer.credit has 2 places
-- cqa: column customer.source has the sources
create table customer (id int, name text, city text, credit int, source text, primary key (id));
insert into customer values (1, 'Ada', 'Oslo', 12.50, 'crm'), (1, 'Ada', 'Bergen', 12.50, 'shop'), (2, 'Bo', 'Bergen', 5.00, 'crm');
insert into customer values (3, 'Cy', 'Oslo', 7.00, 'crm'), (3, 'Cy', 'Voss', 7.00, 'shop'), (4, 'Dag', 'Oslo', 1.00, 'crm'), (4, 'Dag', 'Oslo', 2.00, 'shop');
create table door (room int, customer int, primary key (room));
insert into door values (10, 1), (11, 3), (11, 4);
"""
ASK = """ask select name from customer, door where customer.id = door.customer and city = 'Oslo';
range sum credit from customer;
"""
HOSTILE = ["</script><b>x</b>", "a'b", 'a"b', "line\nfeed", "\u202eback", "&amp;", "\\.", "-- cqa: column", "x" * 1024, "", "😀"]


def browser(folder: str) -> Any:
    """A browser without a window that saves into a folder."""
    options = webdriver.ChromeOptions()
    options.binary_location = BROWSER
    for word in ("--headless=new", "--no-sandbox", "--disable-gpu", "--window-size=1280,900", "--user-data-dir=" + os.path.join(folder, "profile")):
        options.add_argument(word)
    options.add_experimental_option("prefs", {"download.default_directory": folder})
    return webdriver.Chrome(service=webdriver.chrome.service.Service(DRIVER), options=options)


class Command(ProgramCase):
    """The command without a browser."""

    def test_a_refused_statement_writes_nothing(self) -> None:
        self.file("bad.cqa", "create table r (a int, primary key (b));\n")
        status, _, told = self.command("decide", "bad.cqa", "-o", "page.html")
        self.assertEqual((1, False), (status, os.path.exists(self.path("page.html"))), told)

    def test_keys_come_by_what_hangs_on_them(self) -> None:
        self.file("load.cqa", LOAD)
        self.file("ask.cqa", ASK)
        status, page, told = self.command("decide", "load.cqa", "ask.cqa")
        self.assertEqual(0, status, told)
        places = [page.index('"key":["%s"]' % key) for key in ("11", "1", "3", "4")]
        self.assertEqual(sorted(places[:3]) + places[3:], sorted(places))
        self.assertIn("1 disputed answer", page)
        self.assertIn("range sum credit from customer by 1.00", page)

    def test_numbers_with_many_places_have_no_exponent(self) -> None:
        self.file("small.csv", "id,v\n1.5,0.00000005\n1.5,0.00000006\n2,0\n")
        self.assertEqual(0, self.command("load", "--table", "s", "--key", "id", "--decimal", "v:8", "--decimal", "id:1", "small.csv", "-o", "s.cqa")[0])
        self.file("ask.cqa", "disputed select v from s;\nrange sum v from s;\n")
        self.assertEqual("id,v\n2.0,0.00000000\n", self.command("csv", "s.cqa", "--table", "s", "--certain")[1])
        self.assertEqual("id,column,value,sources\n1.5,v,0.00000005,\n1.5,v,0.00000006,\n", self.command("conflicts", "s.cqa", "--csv")[1])
        self.assertIn("\n1.5  v: 0.00000005 | 0.00000006\n", self.command("conflicts", "s.cqa")[1])
        self.assertEqual("table,key,disputed rows,range sum v from s\ns,1.5,2,0.00000001\n", self.command("conflicts", "s.cqa", "ask.cqa", "--matter", "--csv")[1])
        for word in ("report", "decide"):
            page = self.command(word, "s.cqa", "ask.cqa")[1]
            self.assertEqual((True, False), ("0.00000005" in page, "E-8" in page), word)

    def test_the_rows_of_a_table_that_is_settled(self) -> None:
        self.file("load.cqa", LOAD)
        self.file("decided.cqa", "prefer customer where source = 'crm';\n")
        status, rows, said = self.command("csv", "load.cqa", "decided.cqa", "--table", "customer", "-o", "clean.csv")
        self.assertEqual((0, ""), (status, rows), said)
        self.assertNotIn("in conflict", said)
        self.assertEqual("id,name,city,credit\n1,Ada,Oslo,12.50\n2,Bo,Bergen,5.00\n3,Cy,Oslo,7.00\n4,Dag,Oslo,1.00\n", self.read("clean.csv"))

    def test_the_rows_of_a_table_in_conflict_are_refused(self) -> None:
        self.file("load.cqa", LOAD)
        status, rows, said = self.command("csv", "load.cqa", "--table", "customer", "-o", "clean.csv")
        self.assertEqual((1, "", False), (status, rows, os.path.exists(self.path("clean.csv"))))
        self.assertEqual("cqa csv: 3 of 4 keys of customer are in conflict: `cqa decide` makes a page to settle them, and --certain writes the other "
                         "keys alone\ncqa csv: nothing is written\n", said)
        status, rows, said = self.command("csv", "load.cqa", "--table", "customer", "--certain")
        self.assertEqual((0, "id,name,city,credit\n2,Bo,Bergen,5.00\n", "cqa csv: 3 of 4 keys of customer are in conflict, and not written\n"), (status, rows, said))
        status, _, said = self.command("csv", "load.cqa", "--table", "shop")
        self.assertEqual((1, "cqa csv: no table shop in load.cqa\ncqa csv: nothing is written\n"), (status, said))
        self.assertEqual(2, self.command("csv", "load.cqa", "--certain")[0])

    def test_conflicts_in_the_order_in_which_they_matter(self) -> None:
        self.file("load.cqa", LOAD)
        self.file("ask.cqa", ASK)
        status, text, told = self.command("conflicts", "load.cqa", "ask.cqa", "--matter")
        self.assertEqual(0, status, told)
        lines = text.split("\n")[:-1]
        self.assertEqual(["customer 1", "customer 3", "customer 4", "door 11"], sorted(" ".join(line.split()[:2]) for line in lines))
        self.assertIn("customer 1  1 disputed answer  city: Bergen (shop) | Oslo (crm)", lines)
        self.assertEqual("customer 4  range sum credit from customer by 1.00  credit: 1.00 (crm) | 2.00 (shop)", lines[-1])
        self.file("one.cqa", "ask select name from customer where city = 'Oslo' and id = 1;\n")
        status, text, _ = self.command("conflicts", "load.cqa", "one.cqa", "--matter", "--csv")
        self.assertEqual("table,key,disputed rows\ncustomer,1,1\ncustomer,3,0\ncustomer,4,0\ndoor,11,0\n", text)
        with cqa.Session() as session:
            session.run(LOAD)
            rows = session.conflicts(matter=["select name from customer where city = 'Oslo' and id = 1", "range sum credit from customer;"])
            self.assertEqual([("customer", "1"), ("customer", "4")], [row[:2] for row in rows[:2]])
            self.assertEqual([("door", "11", 0)], session.conflicts("door", matter="select name from customer where city = 'Oslo'"))
            self.assertEqual(3, len(session.conflicts("customer")))
            for wrong, words in ((ValueError, {}), (cqa.Refused, {"matter": ["select nothing from customer"]}),
                                 (cqa.NoSuchName, {"table": "shop", "matter": []}), (cqa.NoSuchName, {"table": "door", "source": "city", "matter": []})):
                with self.assertRaises(wrong):
                    session.conflicts(**words)

    def test_decisions_for_other_rows_are_refused(self) -> None:
        self.file("load.cqa", LOAD)
        with cqa.Session() as session:
            session.run(LOAD)
            told = tables_of(session)[0].told.text()
        self.file("decided.cqa", told + "delete from customer where id = 1 and source = 'shop';\n")
        self.file("all.cqa", "possible select id, city from customer where id = 1;\n")
        status, rows, said = self.command("csv", "load.cqa", "decided.cqa", "all.cqa")
        self.assertEqual((0, "id,city\n1,Oslo\n"), (status, rows), said)
        self.file("more.cqa", "insert into customer values (9, 'New', 'Oslo', 1, 'web');\n")
        for word in ("run", "csv", "conflicts", "report"):
            status, rows, said = self.command(word, "load.cqa", "more.cqa", "decided.cqa", "all.cqa")
            self.assertEqual(1, status, word)
            self.assertIn("decided.cqa: it was saved for other lists: customer has 8 rows in place of 7 now", said)
            self.assertNotIn("Oslo", rows)
        self.file("other.cqa", "delete from customer where id = 2;\ninsert into customer values (2, 'Bo', 'Oslo', 500, 'crm');\n")
        status, _, said = self.command("csv", "load.cqa", "other.cqa", "decided.cqa", "all.cqa")
        self.assertEqual(1, status)
        self.assertIn("customer has other rows now", said)
        with cqa.Session() as session:
            session.run(LOAD)
            session.run("delete from customer where id = 2;")
            with self.assertRaises(cqa.StateFault):
                session.run(self.read("decided.cqa"))
            self.assertEqual(6, len(session.rows("customer")))


@unittest.skipUnless(HAS_BROWSER, "chromium, its driver and selenium aren't there")
class Page(ProgramCase):
    """The page in a browser."""

    def setUp(self) -> None:
        super().setUp()
        self.browser = browser(self.folder)
        self.addCleanup(self.browser.quit)

    def opened(self, *scripts: str) -> None:
        """Makes the page of scripts and opens it."""
        names = [os.path.basename(self.file("%d.cqa" % number, script)) for number, script in enumerate(scripts)]
        status, _, told = self.command("decide", *names, "-o", "page.html")
        self.assertEqual(0, status, told)
        self.browser.get("file://" + self.path("page.html"))

    def text(self, name: str) -> str:
        return str(self.browser.find_element("id", name).text)

    def press(self, letters: str) -> None:
        for letter in letters:
            self.browser.find_element("tag name", "body").send_keys(letter)

    def card(self) -> str:
        return str(self.browser.find_element("css selector", "#card h2").text)

    def decided(self) -> List[str]:
        """The keys of the list that are decided, with their marks."""
        return [" ".join(one.text.split("\n")[:2]) for one in self.browser.find_elements("css selector", "button.key.decided")]

    def saved(self) -> str:
        """Saves the script and gives its text."""
        for path in glob.glob(self.path("decided*.cqa")):
            os.unlink(path)
        self.browser.find_element("id", "save").click()
        for _ in range(100):
            if os.path.exists(self.path("decided.cqa")):
                return self.read("decided.cqa")
            time.sleep(0.05)
        raise AssertionError("nothing is saved")

    def find(self, key: str) -> None:
        """Goes to a key by the list."""
        for one in self.browser.find_elements("css selector", "button.key"):
            if one.text.split("\n")[0] == key:
                one.click()
                return
        raise AssertionError("no key %s" % key)

    def answers(self, *files: str) -> str:
        status, rows, told = self.command("csv", *files)
        self.assertEqual(0, status, told)
        return rows

    def test_decisions_are_saved_as_a_script(self) -> None:
        self.opened(LOAD, ASK)
        self.assertEqual("4 of 4 keys are left", self.text("left"))
        self.find("customer 1")
        self.browser.find_element("css selector", "#card tbody tr:nth-child(2) button").click()
        self.find("door 11")
        self.press("n")
        self.find("customer 4")
        self.press("1")
        self.assertEqual("1 of 4 keys are left", self.text("left"))
        self.saved()
        self.file("all.cqa", "possible select id, city, credit from customer;\n")
        self.assertEqual("id,city,credit\n1,Oslo,12.50\n2,Bergen,5.00\n3,Oslo,7.00\n3,Voss,7.00\n4,Oslo,1.00\n", self.answers("0.cqa", "decided.cqa", "all.cqa"))
        self.file("doors.cqa", "possible select room from door;\n")
        self.assertEqual("room\n10\n", self.answers("0.cqa", "decided.cqa", "doors.cqa"))

    def test_by_the_keyboard_with_undo(self) -> None:
        self.opened(LOAD, ASK)
        first = self.card()
        self.press("2")
        self.assertNotEqual(first, self.card())
        self.press("j1u")
        self.assertEqual([first + " row 2"], self.decided())
        self.press("ku")
        self.assertEqual([], self.decided())
        self.assertEqual("4 of 4 keys are left", self.text("left"))

    def test_what_is_picked_is_there_again_and_can_be_thrown_away(self) -> None:
        self.opened(LOAD, ASK)
        self.press("1n")
        before = self.decided()
        self.assertEqual(2, len(before))
        self.browser.refresh()
        self.assertEqual(before, self.decided())
        self.browser.find_element("id", "throwAway").click()
        self.browser.switch_to.alert.accept()
        self.browser.refresh()
        self.assertEqual([], self.decided())

    def choose(self, name: str, value: str) -> None:
        self.browser.find_element("css selector", "#%s option[value='%s']" % (name, value)).click()

    def test_a_source_is_taken_as_a_rule(self) -> None:
        self.opened(LOAD)
        self.find("customer 1")
        self.press("1")
        self.choose("table", "customer")
        self.choose("source", "crm")
        self.browser.find_element("id", "takeSource").click()
        script = self.saved()
        self.assertEqual(1, script.count("prefer customer where source = 'crm';"), script)
        self.assertEqual(1, script.count("delete from"), script)
        self.file("all.cqa", "possible select id, source from customer;\n")
        self.assertEqual("id,source\n1,shop\n2,crm\n3,crm\n4,crm\n", self.answers("0.cqa", "decided.cqa", "all.cqa"))

    def test_a_source_for_some_keys_is_no_rule(self) -> None:
        self.opened(LOAD)
        self.choose("column", "city")
        self.choose("source", "shop")
        self.browser.find_element("id", "takeSource").click()
        script = self.saved()
        self.assertNotIn("prefer", script)
        self.file("all.cqa", "possible select id, source from customer;\n")
        self.assertEqual("id,source\n1,shop\n2,crm\n3,shop\n4,crm\n4,shop\n", self.answers("0.cqa", "decided.cqa", "all.cqa"))

    def test_search_and_filter(self) -> None:
        self.opened(LOAD)
        self.browser.find_element("id", "search").send_keys("voss")
        self.assertEqual("customer 3", self.card())
        self.assertEqual(1, len(self.browser.find_elements("css selector", "button.key")))

    def test_hostile_values(self) -> None:
        values = [(number, value) for number, value in enumerate(HOSTILE)]
        with cqa.Session() as session:
            session.run("create table t (id int, v text, primary key (id));")
            session.insert("t", [row for number, value in values for row in ((number, value), (number, value[:500] + "!"))])
            session.save(self.path("state.cqa"))
        self.opened(self.read("state.cqa"))
        self.assertEqual([], [entry for entry in self.browser.get_log("browser") if entry["level"] == "SEVERE"])
        shown = self.browser.find_element("id", "list").text
        self.assertEqual(len(HOSTILE), len(self.browser.find_elements("css selector", "button.key")), shown)
        wanted = []
        for number, value in values:
            self.find("t %d" % number)
            rows = [row[1] for row in sorted([(number, value), (number, value[:500] + "!")], key=lambda row: row[1].encode())]
            self.press(str(rows.index(value) + 1))
            wanted.append((number, value))
        self.saved()
        self.file("all.cqa", "possible select id, v from t;\n")
        with cqa.Session() as session:
            session.run(self.read("state.cqa"))
            session.run(self.read("decided.cqa"))
            self.assertEqual(wanted, list(session.rows("t")))

    def test_five_thousand_conflicts_are_quick(self) -> None:
        rng = random.Random(1)
        with cqa.Session() as session:
            session.run("create table t (id int, v text, w int, primary key (id));")
            for first in range(0, 5000, 500):
                session.insert("t", [(number, "value %d of %d" % (rng.randrange(1000), number), side) for number in range(first, first + 500) for side in (1, 2)])
            session.save(self.path("state.cqa"))
        self.opened(self.read("state.cqa"))
        self.assertLess(os.path.getsize(self.path("page.html")), 10_000_000)
        spent = self.browser.execute_script("const began = performance.now(); for (let i = 0; i < 50; i++) pick(i % 2); return (performance.now() - began) / 50;")
        self.assertLess(spent, 100)
        self.assertEqual("4950 of 5000 keys are left", self.text("left"))


if __name__ == "__main__":
    unittest.main()
