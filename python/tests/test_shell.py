"""The shell: by lines, and at a terminal."""

from __future__ import annotations

import contextlib
import io
import os
import pty
import select
import signal
import subprocess
import sys
import time
import unittest

import support
from support import PROGRAM, ProgramCase, lines

from cqa.asking_shell import Asking
from cqa.session import Session
from cqa.shell import Shell

STAFF = "create table staff (id int, name text, room int, primary key (id));\n"


class ByLines(ProgramCase):
    def shell(self, text: str, *files: str) -> "tuple[int, str, str]":
        """Runs the shell over lines."""
        return self.command("shell", *files, stdin=text.encode())

    def test_statements_over_several_lines(self) -> None:
        self.assertEqual(self.shell(STAFF + "insert into staff\n values (1, 'a;\nb', 2);\nask select name\nfrom staff; show\ntables;\n"),
                         (0, "created staff\ninserted 1\n('a;\nb')\n1 rows\nstaff (id int, name text, room int, primary key (id)) rows 1 blocks 1\n1 tables\n", ""))

    def test_errors_have_a_caret_and_what_to_write(self) -> None:
        status, _, told = self.shell(STAFF + "ask select id from staff\n where 7 = id;\nSELECT id FROM staff;\n")
        self.assertEqual((status, lines(told)), (1, [
            " where 7 = id;", "       ^", "error 2 Syntax at 32: write `ask select id from staff where id = 7;`: the column stands left",
            "SELECT id FROM staff;", "^^^^^^", "error 2 Syntax at 0: write `ask select id from staff;`: words stand in lower case; `ask` gives what is certain, `possible` what is possible"]))

    def test_commands_that_say_too_little(self) -> None:
        status, out, told = self.shell("\\d nope\n\\save\n\\save /nodir/x\nhelp foo\n\\load --table 'x\nask select id\n\\q\nshow tables;\n")
        self.assertEqual((status, out), (1, ""))
        self.assertEqual(lines(told)[:3], ["no table nope", "\\save FILE: the name of one file is wanted", "/nodir: no such file or directory"])
        self.assertEqual((lines(told)[3][:17], lines(told)[4]), ("no statement foo;", "a quote has no end"))

    def test_a_folder_that_takes_no_file(self) -> None:
        if os.path.isdir("/proc/self"):
            self.assertEqual((1, "", "/proc: it takes no new file\n"), self.shell("\\save /proc/x.cqa\n"))

    def test_rows_that_dont_fit(self) -> None:
        told = self.shell(STAFF + "insert into staff values (1, 2, 3);\ninsert into staff values ('1', 'a', 3);\ninsert into staff values (1, 'a');\n")[2]
        self.assertEqual([line for line in lines(told) if line.startswith("error")], [
            "error 9 TypeMismatch row 1 column 2: name is text: write '2'", "error 9 TypeMismatch row 1 column 1: id is int: write 1",
            "error 10 WrongArity row 1: 3 columns: id, name, room"])

    def test_copy_from_is_told_before_it_swallows_anything(self) -> None:
        status, out, told = self.shell(STAFF + "copy staff from 'x.csv';\nask exists from staff;\ncopy -- here\n staff;\n1,a,2\n\\.\nask exists from staff;\n")
        self.assertEqual((status, lines(out)), (1, ["created staff", "0 rows", "copied 1", "()", "1 rows"]))
        self.assertIn("write `copy staff;`", told)

    def test_sql_over_a_database(self) -> None:
        self.file("crm.csv", "id,name,city\n1,Ada,Oslo\n2,Bo,Hamar\n")
        self.file("shop.csv", "id,name,city\n1,Ada,Bergen\n")
        opened = "\\database --csv customer=crm.csv --csv customer=shop.csv customer=id\n"
        status, out, told = self.shell(opened + "\\ask select name from customer where city in ('Oslo', 'Bergen');\n"
                                       "\\ask --disputed --format json select city from customer where id = 1 order by 1\n"
                                       "\\ask --param 'who=A%' --against Oslo select city from customer where name like :who\n" + STAFF)
        self.assertEqual((status, told), (0, ""))
        self.assertEqual(lines(out)[:3], ["\\ask asks customer=crm.csv, customer=shop.csv", "name", "Ada"])
        self.assertEqual({line for line in lines(out) if line.startswith("{")}, {'{"city": "Oslo"}', '{"city": "Bergen"}'})
        self.assertEqual(lines(out)[-2:], ['keep customer {"id": 1, "name": "Ada", "city": "Bergen", "source": "shop"}', "created staff"])

    def test_a_password_is_not_shown(self) -> None:
        asking = Asking()
        self.file("crm.csv", "id\n1\n")
        asking.open("--csv t=%s t=id" % self.path("crm.csv"))
        asking._name = "postgresql://me:a:b@c@host/shop"
        self.assertEqual(asking.open(""), "\\ask asks postgresql://me@host/shop")
        asking.close()

    def test_sql_that_is_not_taken(self) -> None:
        self.file("crm.csv", "id,name\n1,Ada\n")
        status, out, told = self.shell("\\ask select 1\n\\database nothing.db a=b\n\\database --csv t=crm.csv\n\\database --csv t=crm.csv t=id\n\\ask\n\\ask select max(id) from t\n"
                                       "\\ask --format xml select 1 from t\n\\ask --csv u=crm.csv --key u=id select 'It''s ' || name from u\n\\ask select name from t\n")
        self.assertEqual((status, lines(out)), (1, ["\\ask asks t=crm.csv", "'it''s ' || name", "It's Ada", "name", "Ada"]))
        for line, words in zip(lines(told), ("no database is open: \\database sqlite:shop.db", "nothing.db: no such file", "no key is told", "\\ask wants a query",
                                             "max: an aggregate", "invalid choice: 'xml'")):
            self.assertIn(words, line)

    def test_load_save_and_describe(self) -> None:
        self.file("a.csv", "id,credit\n1,9.50\n")
        self.file("bad.csv", "id,credit\n,1\n")
        status, out, told = self.shell("\\load --table t --key id --decimal credit:2 a.csv\n\\load --table t bad.csv --key id\n\\d\n\\d t\n\\save 'my state'\n")
        self.assertEqual(lines(out), ["loaded 1 rows into t", "t (id int, credit int, primary key (id)) rows 1 blocks 1", "1 tables",
                                      "t (id int, credit int, primary key (id)) rows 1 blocks 1", "saved my state"])
        self.assertEqual((status, told), (1, "bad.csv:2: the key id is empty\nnothing is loaded\n"))
        self.assertEqual(self.shell("ask select credit from t;\n", "my state"),
                         (0, "(950)\n1 rows\n", "note: credit is shown as it is stored, times 100\n"))

    def test_bytes_that_are_no_text(self) -> None:
        status, out, told = self.command("shell", stdin=STAFF.encode() + b"insert into staff values (1, 'M\xe4rta', 2);\ncopy staff;\n1,M\xe4rta,2\n\\.\nshow tables;\n")
        self.assertEqual((status, lines(out)[0], lines(out)[-1]), (1, "created staff", "1 tables"))
        self.assertIn("error 1 BadByte at 31", told)
        self.assertIn("error 19 BadCsv record 1: name isn't UTF-8", told)

    def test_ends_and_unknown_commands(self) -> None:
        for word in ("\\q", "quit", "exit;", "quit;"):
            self.assertEqual(self.shell(word + "\nask exists from nothing;\n"), (0, "", ""))
        for word in ("\\nothing", ".tables", "\\save", "\\load --nothing", "\\load --table t", "help \""):
            self.assertEqual(self.shell(word + "\nshow tables;\n")[1], "0 tables\n")
        self.assertIn("error 15 Unfinished: the text that begins here has no end", self.shell("ask exists from t where a = 'x\n")[2])
        self.assertEqual(self.shell("", "nothing.cqa")[0], 1)
        self.assertIn("copy NAME;", self.shell("help copy\n")[1])

    def test_prompts_and_completion(self) -> None:
        with Session() as session, contextlib.redirect_stdout(io.StringIO()):
            shell = Shell(session)
            self.assertEqual(shell.prompt, "cqa> ")
            for line, prompt in (("create table staff", "  ..> "), (" (id int, name text, primary key (id)); -- it's", "cqa> "), ("insert into staff values (1, 'a", "'..> "),
                                 ("b;", "'..> "), ("c');", "cqa> "), ("copy staff;", "copy> "), ("2,it's;", "copy> "), ("\\.", "cqa> "), ("-- a comment", "cqa> ")):
                self.assertTrue(shell.take(line))
                self.assertEqual(shell.prompt, prompt, line)
            self.assertEqual(shell.complete("na"), ["name"])
            self.assertEqual(shell.complete("ra"), ["range"])
            self.assertEqual(shell.complete("gr"), ["group"])
            self.assertIn("staff", shell.complete("st"))
            self.assertIn("\\load", shell.complete("\\l"))
            self.assertTrue(shell.take("ask exists"))
            shell.drop()
            self.assertEqual(shell.prompt, "cqa> ")


class AtATerminal(ProgramCase):
    def setUp(self) -> None:
        super().setUp()
        self.start(PROGRAM or "")

    def start(self, program: str) -> None:
        """Starts the shell with a program."""
        self.master, slave = pty.openpty()
        environment = dict(os.environ, PYTHONPATH=os.path.dirname(support.HERE), CQA_PROGRAM=program, CQA_HISTORY=self.path("history"), TERM="dumb")
        self.child = subprocess.Popen([sys.executable, "-m", "cqa", "shell"], stdin=slave, stdout=slave, stderr=slave, env=environment, cwd=self.folder,
                                      start_new_session=True, preexec_fn=support.heeds_interrupts)
        os.close(slave)
        self.addCleanup(self.child.wait)
        self.addCleanup(self.child.kill)
        self.addCleanup(os.close, self.master)

    def until(self, wanted: str) -> str:
        """What is shown, up to a text that has to come within some seconds."""
        shown, end = "", time.monotonic() + 60
        while wanted not in shown:
            ready = select.select([self.master], [], [], max(0, end - time.monotonic()))[0]
            self.assertTrue(ready, "%r isn't shown, but %r" % (wanted, shown))
            shown += os.read(self.master, 4096).decode()
        return shown

    def interrupt(self) -> None:
        """Interrupts the line that is open, up to the next prompt. A signal that comes just before the reader waits for keys is
        seen with the next one, so it is sent anew until the prompt is there."""
        shown = ""
        for _ in range(20):
            self.child.send_signal(signal.SIGINT)
            while select.select([self.master], [], [], 2)[0]:
                shown += os.read(self.master, 4096).decode()
                if "cqa> " in shown:
                    return
        self.fail("no prompt, but %r" % shown)

    def type(self, text: str) -> None:
        """Types a text."""
        os.write(self.master, text.encode())

    def test_prompts_history_and_ctrl_c(self) -> None:
        self.until("cqa> ")
        self.type("create table staff (id int, name text, primary key (id));\n")
        self.until("created staff\r\ncqa> ")
        self.type("insert into staff\n")
        self.until("  ..> ")
        self.type("values (1, 'it\n")
        self.until("'..> ")
        self.interrupt()
        self.type("show tables;\n")
        self.assertIn("rows 0 blocks 0", self.until("1 tables\r\ncqa> "))
        self.type("\x10\n")
        self.until("1 tables\r\ncqa> ")
        self.type("copy staff;\n")
        self.until("copy> ")
        self.type("1,se\tq\n\\.\n")
        self.until("copied 1\r\ncqa> ")
        self.type("insert into staff values (2, 'cop\ty');\n")
        self.until("inserted 1\r\ncqa> ")
        self.type("ask select name from sta\t;\n")
        shown = self.until("2 rows\r\ncqa> ")
        self.assertIn("('cop\ty')", shown.replace("     y", "\ty"))
        self.assertIn("('se\tq')", shown.replace("     q", "\tq"))
        self.type("\x04")
        self.assertEqual(self.child.wait(60), 0)
        self.assertTrue(os.path.exists(self.path("history")))

    def test_a_closed_terminal_ends_the_program(self) -> None:
        slow = self.file("slow.sh", "#!/bin/sh\necho $$ >number; read line; echo '0 tables'; echo 'error 2 Syntax at 0'; exec sleep 100\n")
        os.chmod(slow, 0o755)
        self.start(slow)
        self.until("cqa> ")
        self.type("ask exists from t;\n")
        time.sleep(0.3)
        self.child.send_signal(signal.SIGHUP)
        self.assertEqual(self.child.wait(20), 129)
        self.assertFalse(os.path.exists("/proc/" + self.read("number").strip()))

    def test_the_second_ctrl_c_ends_the_session(self) -> None:
        slow = self.file("slow.sh", "#!/bin/sh\nread line; echo '0 tables'; echo 'error 2 Syntax at 0'; exec sleep 100\n")
        os.chmod(slow, 0o755)
        self.start(slow)
        self.until("cqa> ")
        self.type("ask exists from t;\n")
        time.sleep(0.3)
        self.child.send_signal(signal.SIGINT)
        self.until("Ctrl-C again ends the session")
        self.child.send_signal(signal.SIGINT)
        self.assertEqual(self.child.wait(20), 130)


if __name__ == "__main__":
    unittest.main()
