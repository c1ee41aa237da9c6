"""A session of the program on a stack: lines go in, answers come out, and a command can be broken off. One that takes
too long is broken off by itself.

To break a command off, the program is ended and started again on the very text that was opened, and the lines that were
answered are given again. The program's answers to the same lines on the same text are the same, and so is its state.
The line that was broken off is as if it had not been typed. Where an external is free, answers may differ: then
`interrupt` says which.

Lines that are given again must not write to the user's file. `front/opened_file.py` says how that is done: where the
session hasn't saved, the program opens the file itself again; where it has, it works on a copy of the first text, and
what is saved from then on is brought to the file once the program has answered `ok`. So `.save` does the same before
and after, but for the reason that is told where it can't be done.
"""

import threading
import time
from dataclasses import replace
from typing import List, NamedTuple, Optional, Tuple

from front import program as programs
from front.answers import NO_MEMORY, NOT_SAVED, OK, REFUSED, Answer, answer_of
from front.opened_file import OpenedFile
from front.running import Ended, Garbled, Late, Running

__all__ = ["MINUTES", "Answer", "Difference", "Ended", "Entry", "Garbled", "Interrupted", "Session", "TookTooLong",
           "minutes_of"]

SAVE, SHOW, WHERE, HISTORY = b".save", b".show", b".where", b".history"
# A line that is refused: it is counted, and changes nothing.
NOTHING = b".nothing"
# How many minutes a line of the user may take, unless it is said.
MINUTES = 60.0


def minutes_of(word: str) -> float:
    """The minutes that a word says. Raises ValueError where it isn't a number above 0."""
    minutes = float(word)
    if not 0 < minutes < float("inf"):
        raise ValueError("a line takes more than 0 minutes, and not without end")
    return minutes


class Interrupted(Exception):
    """The line was broken off by `interrupt`, in another thread."""


class Entry(NamedTuple):
    """A line that was answered, and whether the front itself sent it, to look at something.

    What such a line shows isn't kept where it is the text of the whole stack.
    """

    line: bytes
    answer: Answer
    own: bool


class Difference(NamedTuple):
    """A line, by the program's number, whose answer was another one when it was given again."""

    number: int
    line: bytes
    before: Answer
    after: Answer


class TookTooLong(Exception):
    """The line took longer than a line may, and was broken off. `differences` are those that `interrupt` gives."""

    def __init__(self, minutes: float, differences: List[Difference]) -> None:
        self.differences = differences
        super().__init__("it took longer than %g minute%s" % (minutes, "" if minutes == 1 else "s"))


class Session:
    """A session. Its calls may come from several threads: one line is in work at a time, and `interrupt` ends that."""

    def __init__(self, stack_path: str, steps: Optional[int] = None, depth: Optional[int] = None, watch: bool = True,
                 explain: bool = True, program: Optional[str] = None, minutes: float = MINUTES) -> None:
        """Opens the stack, and sees that the program runs, by a line of its own, `.where`.

        `steps` and `depth` are the program's options; a line of the user may take so many minutes. `program` is a path in
        place of the one of `program.path()`.
        Raises OSError where the file can't be read, ProgramMissing where there is no program, and Ended where the
        program refuses the words or the stack: `said` has its reason.
        """
        self.lines: List[Entry] = []
        self._program = program or programs.path()
        self._options, self._minutes = (steps, depth, watch, explain), minutes
        self._lock = threading.RLock()
        self._stopping = threading.Event()
        self._unsure = self._saving = False
        self.file = OpenedFile(stack_path)
        self._running = self._started()
        try:
            self.where()
        except BaseException:
            self.close()
            raise

    def _started(self) -> Running:
        steps, depth, watch, explain = self._options
        words = programs.words(self.file.place(), steps, depth, watch, explain)
        return Running(programs.start(words, self._program))

    @property
    def pid(self) -> int:
        """The id of the program's process; another one after `interrupt`."""
        return self._running.pid

    def __enter__(self) -> "Session":
        return self

    def __exit__(self, *_: object) -> None:
        self.close()

    def send(self, line: bytes, own: bool = False) -> Answer:
        """Sends one line, without its line feed, and gives the answer. `own` marks a line that only the front wants.

        A byte 13 at the end is dropped by the program; others stand between statements. A line over 30,000 bytes is
        refused by the program. Raises ValueError for a line feed, before anything is sent; Ended where the program has
        ended, this time and each time until `interrupt` starts it again; Interrupted where another thread calls that;
        TookTooLong where it took longer than a line may, and is taken back as by `interrupt`. After a KeyboardInterrupt
        the line is broken off: the next call begins by taking it back, as `interrupt` does.
        """
        if b"\n" in line:
            raise ValueError("a line can't have a line feed in it; a return (byte 13) stands between statements")
        with self._lock:
            if self._stopping.is_set():
                raise Interrupted("the line was broken off")
            if self._unsure:
                self._restore()
            self._unsure, self._saving = True, self._saving or line.rstrip(b" \r") == SAVE
            answer = self._kept(self._asked(line) if own else self._asked_for_minutes(line))
            is_look = own and line == SHOW
            self.lines.append(Entry(line, replace(answer, shown=[]) if is_look else answer, own))
            self._unsure = self._saving = False
            return answer

    def _asked_for_minutes(self, line: bytes) -> Answer:
        """Asks the program, and takes the line back where it took too long."""
        try:
            return self._asked(line, 60.0 * self._minutes)
        except Late:
            raise TookTooLong(self._minutes, self._restore()) from None

    def _asked(self, line: bytes, seconds: Optional[float] = None) -> Answer:
        """Asks the program. Where that has ended by itself, nothing is unsure: the line wasn't answered."""
        start = time.monotonic()
        try:
            heard = self._running.ask(line, seconds)
        except Ended:
            self._unsure = False
            if self._stopping.is_set():
                raise Interrupted("the line was broken off") from None
            raise
        return answer_of(heard.answer, heard.told, time.monotonic() - start)

    def _kept(self, answer: Answer) -> Answer:
        """The answer; that to a line that saved in a copy, once it is brought to the user's file."""
        if not self._saving or answer.ending != OK:
            return answer
        reason = self.file.saved()
        if reason is None:
            return answer
        return Answer([], REFUSED, NOT_SAVED, [], answer.watched, ["card_cli: not saved: " + reason], answer.seconds)

    def interrupt(self) -> List[Difference]:
        """Ends the program and starts it again where it stood after the last answered line. Gives what differs.

        It may be called from another thread while a line is in work, after a KeyboardInterrupt, and where the program
        has died. It takes as long as the answered lines did. Raises Ended where the program ended by itself with
        status 0, as after `.quit`, or where it ends while the lines are given again; and OSError where it can't be
        started.
        """
        if self._running.status() == 0:
            raise Ended(0, [])
        self._stopping.set()
        try:
            self._running.kill()
            with self._lock:
                self._stopping.clear()
                return self._restore()
        finally:
            self._stopping.clear()

    def _restore(self) -> List[Difference]:
        self._unsure = True
        self._running.kill()
        self._running.close()
        if self._saving:
            self.file.notice()
            self._saving = False
        self._running = self._started()
        differences = [found for found in map(self._again, range(len(self.lines))) if found is not None]
        self._unsure = False
        return differences

    def _again(self, at: int) -> Optional[Difference]:
        """Gives a line again. In place of one that was refused for memory or its file, and of a look at the whole text
        that the front had, stands a line that changes nothing."""
        entry = self.lines[at]
        if entry.answer.is_refused(NO_MEMORY, NOT_SAVED) or (entry.own and entry.line == SHOW):
            self._asked(NOTHING)
            return None
        answer = self._asked(entry.line)
        if answer.says_as(entry.answer):
            return None
        self.lines[at] = Entry(entry.line, answer, entry.own)
        return Difference(at + 1, entry.line, entry.answer, answer)

    def number_of(self, mine: int) -> int:
        """The program's number of the user's line of this number, both counted from 1; 0 for 0: for `.undo to`.

        Raises ValueError where there is no such line.
        """
        numbers = [0] + [number for number, entry in enumerate(self.lines, 1) if not entry.own]
        if not 0 <= mine < len(numbers):
            raise ValueError("there is no line %d: %d were answered" % (mine, len(numbers) - 1))
        return numbers[mine]

    def _looked(self, line: bytes) -> List[bytes]:
        """What an own line shows. Raises MemoryError where the program is out of memory for it."""
        answer = self.send(line, own=True)
        if answer.ending != OK:
            raise MemoryError("the program is out of memory: %s for %s" % (answer.verdict, line.decode()))
        return answer.shown

    def text(self) -> bytes:
        """The stack's text now, in version 2. It is a line of the program, `.show`, but no command."""
        return b"".join(line + b"\n" for line in self._looked(SHOW))

    def where(self) -> int:
        """The id of the current card, by `.where`."""
        return int(self._looked(WHERE)[0])

    def history(self) -> Tuple[int, int]:
        """How many commands can be undone, and how many redone, by `.history`."""
        undoable, redoable = self._looked(HISTORY)[0].split()
        return int(undoable), int(redoable)

    def close(self) -> int:
        """Ends the program, by the end of its input, and gives its status. What wasn't saved is gone."""
        status = self._running.close()
        self.file.close()
        return status
