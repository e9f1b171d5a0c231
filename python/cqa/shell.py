"""The shell: statements by hand, with prompts that say what is open, and errors with a caret and what to write."""

from __future__ import annotations

import argparse
import contextlib
import os
import shlex
import signal
import sys
import time
import warnings
from types import FrameType
from typing import Iterator, List, Optional, Sequence, Set

from .asking_shell import Asking
from .errors import CqaError, Ended, LoadFault, Refused, ScaleFault, ScaleWarning
from .files import said
from .habits import advice_for
from .loading import options_of, parser, sources_of
from .places import place_of
from .running import loaded
from .scripts import Schema, Statement, open_part, statements, verb_of, without_comments
from .session import Session
from .statements import VERBS, WORDS, about, all_statements
from .words import told as words_told

PROMPTS = {"": "cqa> ", "statement": "  ..> ", "text": "'..> ", "block": "copy> "}

_COMMANDS = """\
\\load --table T --key K --source NAME=LIST ..   loads CSV lists (\\load --help)
\\save FILE        keeps the tables in a file; cqa shell FILE goes on with them
\\d [TABLE]        the tables, or the columns of one
\\database WHERE TABLE=COLUMNS ..   a database of your own with its keys: \\database sqlite:shop.db customer=id
\\ask [--disputed ..] SELECT ..     the certain answers of SQL over it, in one line, with the options of `cqa ask`
\\timing           how long each statement takes, or no more
\\q                ends (and so do quit, exit and Ctrl-D)
help [STATEMENT]  the statements, or one of them; each ends with ;
Ctrl-C drops what is typed, and not the session.
"""


class Shell:
    """What is typed so far, and the session that it is for."""

    def __init__(self, session: Session) -> None:
        self.session = session
        self.status = 0
        self._buffer = b""
        self._block: Optional[List[bytes]] = None  # the further lines of a block that is open
        self._is_timing = False
        self._schemas: List[Schema] = []
        self._shown_notes: Set[str] = set()
        self._asking = Asking()
        self._look()

    @property
    def prompt(self) -> str:
        """The prompt that says what is open."""
        rest = next(statements(self._buffer), None)
        return PROMPTS[open_part(self._buffer, rest)[0] if rest else ""]

    @property
    def is_open(self) -> bool:
        """Whether a statement has begun."""
        return next(statements(self._buffer), None) is not None

    def drop(self) -> None:
        """Drops what is typed so far."""
        self._buffer = b""
        self._block = None

    def take(self, line: str) -> bool:
        """Takes a line without its end, and says whether the shell goes on."""
        text = line.encode("utf-8", "surrogateescape") + b"\n"
        if self._block is not None and line.rstrip("\r") != "\\.":
            self._block.append(text)
            return True
        if not self.is_open:
            word = line.strip().rstrip(";").strip()
            if word in ("\\q", "quit", "exit"):
                return False
            if word.startswith("\\") or word.split(" ")[0] == "help":
                self._command(line.strip())
                return True
            if word.startswith("."):
                self._fault("there are no commands with a dot: \\d shows the tables, \\? all commands")
                return True
        elif self._block is None and line.strip() == "\\q" and not self.takes_tabs(""):
            return False
        self._buffer += b"".join(self._block or []) + text
        self._run_complete()
        return True

    def end(self) -> None:
        """Tells what is left at the end of the input."""
        rest = next(statements(self._buffer), None)
        if rest is not None:
            self._refused(rest, "error 15 Unfinished")
            self.drop()

    def _run_complete(self) -> None:
        """Runs the statements that are complete, and keeps the rest."""
        self._block = None
        while True:
            statement = next(statements(self._buffer), None)
            if statement is None:
                self._buffer = b""
                return
            if statement.block is not None and self._is_wrong_copy(statement):
                return
            if not statement.complete:
                self._block = [] if statement.block is not None else None
                return
            self._run(statement)
            self._buffer = self._buffer[statement.end:]

    def _is_wrong_copy(self, statement: Statement) -> bool:
        """Tells a `copy t from 'x.csv'` before it takes the lines behind it as records."""
        text = without_comments(statement.text(self._buffer).decode("utf-8", "replace"))
        words = text.split()
        if len(words) == 2:
            return False
        at = len(text) - len(text.split(words[1], 1)[1].lstrip()) if len(words) > 1 else len(text)
        self._fault("this copy isn't `copy NAME;`: " + (advice_for(text, at, "error 2 Syntax") or "only a table's name stands behind copy"))
        self._buffer = self._buffer[statement.text_end + 1:]
        self._run_complete()
        return True

    def _run(self, statement: Statement) -> None:
        began = time.monotonic()
        script = self._buffer[statement.start:statement.end]
        text = statement.text(self._buffer).decode("utf-8", "surrogateescape")
        verb = verb_of(text)
        try:
            with _patience(), self._telling_notes():
                replies = self.session.run(script)
            self._tell_shown(text)
            if verb == "dump":
                print(self.session.state().decode("utf-8"), end="")
            else:
                print("".join(line + "\n" for lines in replies for line in lines), end="")
        except Refused as refused:
            self._refused(statement, refused.line)
        except ScaleFault as fault:
            self._fault(str(fault))
        if self._is_timing:
            print("%.1f ms" % (1000 * (time.monotonic() - began)))
        if verb in ("create", "alter"):
            self._look()

    @contextlib.contextmanager
    def _telling_notes(self) -> Iterator[None]:
        """Tells what is to know of the numbers of a statement, behind it."""
        with warnings.catch_warnings(record=True) as notes:
            warnings.simplefilter("always", ScaleWarning)
            try:
                yield
            finally:
                for note in notes:
                    print("note: %s" % note.message, file=sys.stderr)

    def _tell_shown(self, text: str) -> None:
        """Says once of each column that a reply shows it as it is stored."""
        for note in self.session.meaning(text).shown:
            if note not in self._shown_notes:
                self._shown_notes.add(note)
                print("note: " + note, file=sys.stderr)

    def _refused(self, statement: Statement, line: str) -> None:
        schemas = {schema.table: schema for schema in self._schemas}
        place = place_of(self._buffer, statement, line, schemas, lambda whole: self.session.takes(whole, schemas))
        self._fault(place.caret() + "\n" + line.replace("\n", "\\n") + (": " + place.note if place.note else ""))

    def _fault(self, text: str) -> None:
        self.status = 1
        sys.stdout.flush()
        print(text, file=sys.stderr)

    def _look(self) -> None:
        self._schemas = self.session.tables()

    # -- commands of the shell ----------------------------------------------------------------------------------------------

    def _command(self, line: str) -> None:
        try:
            if self._asks(line):
                return
            words = shlex.split(line.rstrip(";").lstrip("\\"))
            words[:1] = [line[:line.startswith("\\")] + word for word in words[:1]] or [""]
            if words[0] == "\\load":
                self._load(words[1:])
            elif words[0] == "\\save" and len(words) == 2:
                self.session.save(words[1])
                print("saved %s" % words[1])
            elif words[0] == "\\d" and len(words) <= 2:
                self._describe(words[1:])
            elif words[0] == "\\timing":
                self._is_timing = not self._is_timing
                print("timing is %s" % ("on" if self._is_timing else "off"))
            elif words[0] == "help" or words[0] == "\\?":
                self._help(words[1:])
            elif words[0] == "\\save":
                self._fault("\\save FILE: the name of one file is wanted")
            else:
                self._fault("no such command; these are there:\n" + _COMMANDS.rstrip())
        except (OSError, ValueError, CqaError) as fault:
            if isinstance(fault, Ended):
                raise
            self._fault("a quote has no end" if str(fault) == "No closing quotation" else said(fault))

    def _asks(self, line: str) -> bool:
        """Takes `\\database` and `\\ask`, whose texts are read as they are written."""
        word, _, text = line.partition(" ")
        if word.rstrip(";") == "\\database":
            print(self._asking.open(text.rstrip().rstrip(";")))
        elif word.rstrip(";") == "\\ask":
            sys.stdout.flush()
            began = time.monotonic()
            try:
                self._asking.ask(text)
            except KeyboardInterrupt:
                self._fault("interrupted")
            except SystemExit:  # help was asked for
                return True
            if self._is_timing:
                print("%.1f ms" % (1000 * (time.monotonic() - began)))
        else:
            return False
        return True

    def close(self) -> None:
        """Closes the database that is asked, if one is."""
        self._asking.close()

    def _load(self, words: Sequence[str]) -> None:
        try:
            told = words_told(parser(), words)
        except SystemExit:
            return
        if told.output:
            raise ValueError("\\load writes no file, so -o isn't taken")
        options, sources = options_of(told), sources_of(told)
        try:
            with warnings.catch_warnings(record=True) as notes:
                warnings.simplefilter("always")
                count = self.session.load_lists(options, sources)
        except LoadFault as fault:
            self._fault("\n".join(fault.faults) + "\nnothing is loaded")
        else:
            print("loaded %d rows into %s" % (count, options.table))
            for note in notes:
                print(note.message, file=sys.stderr)
            self._look()

    def _help(self, words: Sequence[str]) -> None:
        for word in words:
            if not about(word):
                self._fault("no statement %s; there are %s" % (word, ", ".join(VERBS)))
        print("".join(map(about, words)) if words else all_statements() + "\n" + _COMMANDS, end="")

    def _describe(self, tables: Sequence[str]) -> None:
        for table in tables:
            if self.session.schema(table) is None:
                self._fault("no table %s" % table)
                return
        for line in self.session.tell("show tables;"):
            if not tables or line.split(" (")[0].split(" ")[-1] in tables:
                print(line)

    # -- completion ---------------------------------------------------------------------------------------------------------

    def takes_tabs(self, line: str) -> bool:
        """Whether a block or a text is open behind the beginning of a line, so that a tab is a tab."""
        if self._block is not None:
            return True
        text = self._buffer + line.encode("utf-8", "surrogateescape")
        rest = None
        for rest in statements(text):
            pass
        return rest is not None and not rest.complete and open_part(text, rest)[0] != "statement"

    def complete(self, begin: str) -> List[str]:
        """The words, tables and columns that begin so."""
        names = {name for schema in self._schemas for name in (schema.table, *schema.columns)}
        commands = {"\\load", "\\save", "\\d", "\\database", "\\ask", "\\timing", "\\q", "help", "quit"} if not self.is_open else set()
        return sorted(word for word in set(WORDS) | names | commands if word.startswith(begin))


@contextlib.contextmanager
def _patience() -> Iterator[None]:
    """While the program works, the first Ctrl-C says so, and the second ends the session."""
    count = 0

    def interrupted(number: int, frame: Optional[FrameType]) -> None:
        """Counts; the second time it raises."""
        nonlocal count
        count += 1
        if count > 1:
            raise KeyboardInterrupt
        print("\nthe statement is being answered; Ctrl-C again ends the session", file=sys.stderr)

    before = signal.signal(signal.SIGINT, interrupted)
    try:
        yield
    finally:
        signal.signal(signal.SIGINT, before)


def _set_up_readline(shell: Shell) -> None:
    """History and completion, where Python has readline."""
    try:
        import readline
    except ImportError:
        return
    history = os.environ.get("CQA_HISTORY") or os.path.join(os.path.expanduser("~"), ".cqa_history")
    with contextlib.suppress(OSError):
        readline.read_history_file(history)
    readline.set_history_length(1000)
    found: List[str] = []

    def complete(begin: str, number: int) -> Optional[str]:
        if number == 0 and shell.takes_tabs(readline.get_line_buffer()[:readline.get_endidx()]):
            readline.insert_text("\t")  # a completion would close the text's quote, too
            readline.redisplay()
            found.clear()
        elif number == 0:
            found[:] = shell.complete(begin)
        return found[number] if number < len(found) else None

    readline.set_completer(complete)
    readline.set_completer_delims(" \t\n(),.;=<>'")
    readline.parse_and_bind("bind ^I rl_complete" if "libedit" in (readline.__doc__ or "") else "tab: complete")
    import atexit

    def keep() -> None:
        with contextlib.suppress(OSError):
            readline.write_history_file(history)

    atexit.register(keep)


def _by_hand(shell: Shell) -> None:
    """Reads lines from a terminal."""
    _set_up_readline(shell)
    print("cqa: statements end with ; (help, \\? and \\q are there)")
    while True:
        try:
            line = input(shell.prompt)
        except EOFError:
            print()
            shell.end()
            return
        except KeyboardInterrupt:
            print()
            shell.drop()
            continue
        if not shell.take(line):
            return


def _hung_up(number: int, frame: Optional[FrameType]) -> None:
    """The terminal is closed: what the program does is ended with the shell."""
    sys.exit(128 + number)


def main(arguments: Sequence[str]) -> int:
    """The command `shell [FILE ..]`: 1 where a statement was refused and the input is no terminal."""
    words = argparse.ArgumentParser(prog="cqa shell", description="Statements by hand. The files, scripts or kept states, are run first.")
    words.add_argument("files", nargs="*", metavar="FILE")
    session = loaded(words_told(words, arguments).files, is_apart=True)
    if session is None:
        return 1
    with session, contextlib.closing(Shell(session)) as shell:
        if sys.stdin.isatty():
            signal.signal(signal.SIGHUP, _hung_up)
            _by_hand(shell)
            return 0
        for line in sys.stdin:
            if not shell.take(line.rstrip("\n")):
                return shell.status
        shell.end()
        return shell.status
