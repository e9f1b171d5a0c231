"""Script files, run: rows on standard output, refusals on standard error with their file and line."""

from __future__ import annotations

import argparse
import contextlib
import queue
import sys
import threading
from functools import partial
from typing import BinaryIO, Callable, Dict, Iterator, List, NamedTuple, Optional, Sequence, Set, Tuple

from . import underway
from .errors import InputTooLong, ScaleFault, StateFault
from .files import standard_output
from .marks import Marks, marks_of, state_fault, state_text
from .meaning import Meaning, copy_notes, meaning_of
from .places import Place, place_at, place_of
from .program import Child
from .replies import END_STATEMENT, IS_REFUSAL
from .scripts import Schema, Statement, fault_of, schema_of, statements, verb_of
from .session import Session
from .stated import Stated, stated_of
from .trial import Trial
from .words import told as words_told

_PIECE = 1 << 20
_MOST_INPUT = 268_435_456
_MOST_NOTES = 20
_MOST_SHOWN = 200


#: The statements that ask of a query, and change nothing.
QUERY_VERBS = ("ask", "possible", "disputed", "classify", "plan", "sql", "explain", "against", "prove", "range")


class Answer(NamedTuple):
    """A statement of a file with its reply: its lines without their line feeds, or a refusal with its place. notes: what to know
    of the numbers that the statement names; shown: of those in its reply's rows. line: where it begins."""

    path: str
    text: str
    verb: str
    lines: List[bytes]
    refusal: str
    place: Optional[Place]
    notes: Sequence[str] = ()
    shown: Sequence[str] = ()
    line: int = 0


class ScriptFile:
    """A script in a file, read as it is when the run begins."""

    def __init__(self, path: str) -> None:
        """Raises OSError where the file can't be read, and InputTooLong where it is longer than the program takes."""
        self.path = path
        with open(path, "rb") as file:
            self.script = file.read(_MOST_INPUT + 1)
        if len(self.script) > _MOST_INPUT:
            raise InputTooLong(6, path)


def _marks_of(file: ScriptFile) -> Marks:
    """What the comments of a file say of columns. Raises ScaleFault with the file's path."""
    try:
        return marks_of(file.script)
    except ScaleFault as fault:
        raise ScaleFault("%s: %s" % (file.path, fault)) from None


class _Sent(NamedTuple):
    """A statement, with what it means over the columns that the comments of scripts speak of. fault: why it isn't sent. cause: why it
    isn't sent, in words of this package, and where in the statement, in letters. stated: what the file says of a table, where the
    rows of the table are asked for."""

    file: ScriptFile
    statement: Statement
    fault: str
    meaning: Meaning
    cause: Optional[Tuple[int, str]] = None
    stated: Optional[Stated] = None


#: Stands where no statement of a file is meant.
_NOTHING = Statement(0, 0, None, 0, True)


class Runner:
    """Runs files as one script. A thread sends the statements, so that the program needn't wait for the replies to be read."""

    def __init__(self, child: Child, files: Sequence[ScriptFile], is_strict: bool = False) -> None:
        """is_strict: whether what has no right meaning is refused, and not only told. Raises ScaleFault where the files say different
        things of a column, and StateFault where a kept state in one of them isn't whole."""
        self.child = child
        self.schemas: Dict[str, Schema] = {}
        self._is_strict = is_strict
        self._trial = Trial(child.program)
        self._marks = Marks()
        self._own: Dict[str, Marks] = {}  # what the comments of each file say
        for file in files:
            fault = state_fault(file.script)
            if fault:
                raise StateFault("%s: %s" % (file.path, fault))
            marks = _marks_of(file)
            if self._marks.disagreement(marks):
                raise ScaleFault("%s: %s" % (file.path, self._marks.disagreement(marks)))
            self._marks.add(marks)
            self._own[file.path] = marks
        self._made: Dict[str, Schema] = {}  # the tables that the statements up to here make, where nothing is refused
        self.sent_bytes = 0
        self._awaited: Optional[_Sent] = None
        self._bytes_before = 0
        self._counted: Tuple[Optional[ScriptFile], int, int] = (None, 0, 1)
        self.answered = 0
        self._files = files
        self._sent: "queue.Queue[Optional[_Sent]]" = queue.Queue(maxsize=10_000)
        self._is_stopped = False
        self._failure: Optional[BaseException] = None

    def answers(self) -> Iterator[Answer]:
        """The answers in the order of the statements. What is left at the end of a file is refused, and ends all. Raises Ended where
        the program ends, and what the sending raises."""
        threading.Thread(target=self._send, daemon=True).start()
        while True:
            sent = self._sent.get()
            if sent is None:
                if self._failure is not None:
                    raise self._failure
                return
            if sent.stated is not None:
                self._compare(sent.file, sent.stated)
                continue
            self._awaited = sent
            yield self._answer(sent)
            self.answered += 1
            if self._is_stopped or not sent.statement.complete:
                return

    def answers_in_step(self, before: Callable[[str], None]) -> Iterator[Answer]:
        """As `answers`, but each statement is sent when the one before is dealt with, so that the program can be asked in between.
        before: called with the first word of each statement before it is sent."""
        with underway.saying(self.waits_for):
            yield from self._in_step(before)

    def _in_step(self, before: Callable[[str], None]) -> Iterator[Answer]:
        for file in self._files:
            for told in stated_of(file.script):
                self._ask_for(told)
                self.child.flush()
                self._compare(file, told)
            for statement in statements(file.script):
                sent = self._looked_at(file, statement)
                before(verb_of(statement.text(file.script).decode("utf-8", "replace")))
                self._awaited = sent
                if not sent.fault and sent.cause is None:
                    with contextlib.suppress(BrokenPipeError):
                        self._send_statement(sent)
                        self.child.flush()
                yield self._answer(sent)
                if not statement.complete:
                    return

    def waits_for(self) -> str:
        """The statement whose reply is waited for, in a line."""
        if self._awaited is None:
            return ""
        script, statement = self._awaited.file.script, self._awaited.statement
        text = script[statement.start:min(statement.text_end, statement.start + _MOST_SHOWN)]
        return " ".join(text.decode("utf-8", "replace").split())

    def stop(self) -> None:
        """Ends the run: no further answer comes."""
        self._is_stopped = True

    def _send(self) -> None:
        try:
            for file in self._files:
                if not self._send_file(file):
                    break
                self._bytes_before += len(file.script)
                self.sent_bytes = self._bytes_before
            self.child.flush()
        except BrokenPipeError:
            pass  # the end of the replies tells why
        except BaseException as fault:
            self._failure = fault
        finally:
            self._sent.put(None)

    def _send_file(self, file: ScriptFile) -> bool:
        """Sends the statements of a file, and says whether the next file may follow."""
        for told in stated_of(file.script):
            self._put(_Sent(file, _NOTHING, "", Meaning(""), None, told))
            self._ask_for(told)
        for statement in statements(file.script):
            sent = self._looked_at(file, statement)
            self._put(sent)
            if self._is_stopped or not statement.complete:
                return False
            if not sent.fault and sent.cause is None:
                self._send_statement(sent)
        return True

    def _ask_for(self, told: Stated) -> None:
        """Asks for the rows of a table of which a file says something."""
        self.child.write(told.question().encode("utf-8") + END_STATEMENT)

    def _compare(self, file: ScriptFile, told: Stated) -> None:
        """Raises StateFault where a table's rows aren't those that a file was saved for."""
        fault = told.fault([line[:-1] for line in self.child.reply("possible")])
        if fault:
            raise StateFault("%s: %s" % (file.path, fault))

    def _looked_at(self, file: ScriptFile, statement: Statement) -> _Sent:
        """A statement with what is to know of it before it is sent."""
        fault = fault_of(file.script, statement)
        if fault or not self._marks:
            return _Sent(file, statement, fault, Meaning(""))
        text = statement.text(file.script).decode("utf-8", "surrogateescape")
        if statement.block is not None:
            return _Sent(file, statement, "", Meaning(text, notes=copy_notes(file.script, statement, self._marks, self._own[file.path])))
        schema = schema_of(text) if verb_of(text) == "create" else None
        if schema is not None:
            self._made.setdefault(schema.table, schema)
        meaning = meaning_of(text, self._marks, lambda: self._made)
        faults = [*meaning.wrong, *(meaning.faults if self._is_strict else ())]
        return _Sent(file, statement, "", meaning, (faults[0].at, faults[0].text) if faults else None)

    def _put(self, sent: _Sent) -> None:
        """Says that a statement is sent; where too many are unanswered, all are sent in full before it waits."""
        try:
            self._sent.put_nowait(sent)
        except queue.Full:
            self.child.flush()
            self._sent.put(sent)

    def _send_statement(self, sent: _Sent) -> None:
        script, statement = sent.file.script, sent.statement
        if sent.meaning.edits:
            self.child.write(sent.meaning.sent().encode("utf-8", "surrogateescape") + b";" + END_STATEMENT)
            return
        for begin in range(statement.start, statement.end, _PIECE):
            end = min(begin + _PIECE, statement.end)
            self.child.write(script[begin:end])
            self.sent_bytes = self._bytes_before + end
        self.child.write(END_STATEMENT)
        if self._sent.qsize() <= 1:
            self.child.flush()

    def _answer(self, sent: _Sent) -> Answer:
        answer = self._plain_answer(sent)
        notes = [*sent.meaning.notes, *(fault.text for fault in sent.meaning.faults if sent.cause is None)]
        if answer.verb in QUERY_VERBS or notes:
            answer = answer._replace(line=self._line_of(sent.file, sent.statement.start))
        return answer._replace(notes=notes, shown=sent.meaning.shown)

    def _line_of(self, file: ScriptFile, start: int) -> int:
        """The line of a statement, counted on from the last one that was asked for."""
        known, at, line = self._counted
        if known is not file or at > start:
            at, line = 0, 1
        line += file.script.count(b"\n", at, start)
        self._counted = file, start, line
        return line

    def _plain_answer(self, sent: _Sent) -> Answer:
        text = sent.statement.text(sent.file.script).decode("utf-8", "replace")
        verb = verb_of(text)
        if sent.cause is not None:
            return Answer(sent.file.path, text, verb, [], sent.cause[1], place_at(sent.file.script, sent.statement, sent.cause[0]))
        if sent.fault:
            return self._refused(sent, text, verb, sent.fault)
        lines = self.child.reply(verb)
        if lines and IS_REFUSAL.match(lines[0]):
            return self._refused(sent, text, verb, sent.meaning.refusal(lines[0][:-1].decode("utf-8", "replace")))
        schema = schema_of(text) if verb == "create" else None
        if schema is not None:
            self.schemas[schema.table] = schema
        return Answer(sent.file.path, text, verb, [line[:-1] for line in lines], "", None)

    def _refused(self, sent: _Sent, text: str, verb: str, refusal: str) -> Answer:
        place = place_of(sent.file.script, sent.statement, refusal, self.schemas, lambda whole: self._trial.takes(whole, self.schemas, self._marks))
        return Answer(sent.file.path, text, verb, [], refusal, place)


def _progress(runner: Runner, total: int) -> str:
    """How much of the files is read, and from then on which statement is waited for."""
    done = runner.sent_bytes
    if done < total:
        return "%s of %s bytes (%d%%), %s statements" % (format(done, ","), format(total, ","), 100 * done // max(1, total), format(runner.answered, ","))
    return runner.waits_for()


class Notes:
    """Tells what is to know of the answers of a run: each note once, and the first ones alone."""

    def __init__(self, is_shown: bool) -> None:
        """is_shown: whether rows are shown as they are stored."""
        self._is_shown = is_shown
        self._known: Set[str] = set()

    def tell(self, answer: Answer) -> None:
        """Writes the notes of an answer that weren't told yet to standard error."""
        for note in (*answer.notes, *(answer.shown if self._is_shown and not answer.refusal else ())):
            if note not in self._known:
                self._known.add(note)
                if len(self._known) <= _MOST_NOTES:
                    print("%s:%d: note: %s" % (answer.path, answer.line, note), file=sys.stderr)

    def end(self) -> None:
        """Says how many notes weren't told."""
        if len(self._known) > _MOST_NOTES:
            print("cqa: and %d more notes like these" % (len(self._known) - _MOST_NOTES), file=sys.stderr)


def run_files(files: Sequence[ScriptFile], child: Child, stops: bool, is_strict: bool = False) -> Iterator[Answer]:
    """Runs files one after the other as one script and gives each answer; `stops` ends it behind the first refusal.

    Raises Ended where the program ends, and as `Runner`.
    """
    runner = Runner(child, files, is_strict)
    with underway.saying(partial(_progress, runner, sum(len(file.script) for file in files))):
        for answer in runner.answers():
            underway.hold()
            yield answer
            underway.go_on()
            if stops and answer.refusal:
                runner.stop()
                return


def loaded(paths: Sequence[str], answers: Optional[List[Answer]] = None, is_apart: bool = False,
           before: Optional[Callable[[Session, str], None]] = None) -> Optional[Session]:
    """A session over what files make, or None where a statement was refused; each refusal is told. Answers go into a list.

    is_apart: Ctrl-C doesn't reach the program. before: called with the session, which may be asked then, and with the first word of
    each statement before it is run. Raises OSError where a file can't be read, and Ended where the program ends.
    """
    files = [ScriptFile(path) for path in paths]
    child = Child(is_apart=is_apart)
    is_refused = False
    session = Session(child=child)
    notes = Notes(is_shown=False)
    try:
        for file in files:
            try:
                session.heed(file.script)
            except ScaleFault as fault:
                raise ScaleFault("%s: %s" % (file.path, fault)) from None
        run = run_files(files, child, False, True) if before is None else Runner(child, files, True).answers_in_step(partial(before, session))
        for answer in run:
            notes.tell(answer)
            if answer.refusal:
                is_refused = True
                tell_refusal(answer)
            elif answers is not None:
                answers.append(answer)
    except BaseException:
        child.kill()
        raise
    notes.end()
    if is_refused:
        child.kill()
    return None if is_refused else session


def tell_refusal(answer: Answer) -> None:
    """Writes a refusal to standard error as FILE:LINE: error .., with a caret under its word on a terminal."""
    assert answer.place is not None
    print(answer.place.message(answer.path, answer.refusal), file=sys.stderr)
    if sys.stderr.isatty():
        print(answer.place.caret(), file=sys.stderr)


def main(arguments: Sequence[str]) -> int:
    """The command `run FILE ..`."""
    words = argparse.ArgumentParser(prog="cqa run", description="Runs script files, one after the other, as one script: rows and other "
                                    "replies on standard output, refusals on standard error. Without a file it reads standard input.")
    words.add_argument("files", nargs="+", metavar="FILE")
    words.add_argument("--stop", action="store_true", help="end at the first refusal")
    told = words_told(words, arguments)
    files = [ScriptFile(path) for path in told.files]
    child = Child()
    try:
        with standard_output() as out:
            status = _print_answers(files, child, told.stop, out)
    except BaseException:
        child.kill()
        raise
    if status and told.stop:
        child.kill()
    else:
        child.close()
    return status


def _dumped(files: Sequence[ScriptFile], lines: Sequence[bytes]) -> List[bytes]:
    """A dump as a kept state, with what the comments of the files say of columns."""
    marks = Marks()
    for file in files:
        marks.add(marks_of(file.script))
    return [state_text(marks.text().encode() + b"".join(line + b"\n" for line in lines))]


def _print_answers(files: Sequence[ScriptFile], child: Child, stops: bool, out: BinaryIO) -> int:
    """Writes replies to a stream and refusals to standard error, in their order. 1 where a statement was refused, and else 0."""
    status = 0
    notes = Notes(is_shown=True)
    for answer in run_files(files, child, stops):
        if answer.notes or answer.shown:
            out.flush()
            notes.tell(answer)
        if answer.refusal:
            status = 1
            out.flush()
            tell_refusal(answer)
        else:
            out.writelines(_dumped(files, answer.lines) if answer.verb == "dump" else (line + b"\n" for line in answer.lines))
            if out.isatty():
                out.flush()
    notes.end()
    return status
