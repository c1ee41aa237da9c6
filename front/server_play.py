"""The session that a page plays: the program on a stack, what the page knows of it, and one act at a time.

All that changes the stack is a line of the program. After each act the program is asked where it stands, by lines that
change nothing (`.show`, `.where`, `.history`). Each change of what is known has a number, the revision. An act says
which revision its user saw; where that is no longer the last one, nothing is sent: so of two tabs, none acts on what it
doesn't show.

Where the program is ended from outside, or by the page to stop a long command, it is started again and the lines that
were answered are given again; the line that was in work is as if it had not been sent.
"""

import contextlib
import os
import re
import tempfile
import threading
from dataclasses import dataclass
from typing import Iterator, List, NamedTuple, Optional, Sequence

from front.answers import OK, Answer
from front.program import ProgramMissing
from front.server_objects import Objects
from front.server_places import Places, move
from front.session import MINUTES, SAVE, Difference, Ended, Entry, Garbled, Interrupted, Session, TookTooLong
from front.stack_text import read
from front.terminal_text import Coding, coding_of

QUIT = b".quit"
UNDO_TO = re.compile(rb"\.undo +to +([0-9]{1,7}) *")
# How long an act waits for the one before it.
SECONDS_TO_WAIT = 2.0
BROKEN = (Ended, Garbled, OSError, ProgramMissing)


class NotDone(Exception):
    """An act that wasn't done: its text says why, and what stands."""


class Stale(NotDone):
    """The page showed an earlier revision."""


@dataclass(frozen=True)
class Options:
    """How the stack is opened. No coding means that the stack's own bytes decide."""

    steps: Optional[int] = None
    depth: Optional[int] = None
    coding: Optional[Coding] = None
    minutes: float = MINUTES


class Standing(NamedTuple):
    """What tells whether there is news: which stack is open, counted from 1, the revision, how many notices there were,
    and whether a command is at work."""

    session: int
    revision: int
    notices: int
    busy: bool


@dataclass(frozen=True)
class Known:
    """What is known of the stack at a revision: its text and its objects."""

    revision: int
    text: bytes
    objects: Objects


class Play:
    """A session with all that a page needs of it. Its calls come from many threads."""

    def __init__(self, path: str, options: Options) -> None:
        """Opens the stack. Raises what Session raises."""
        self.options = options
        self.news = threading.Condition()
        self.notices: List[str] = []
        self.number = 0
        self.working = b""
        self.ended = False
        self._turn = threading.Lock()
        self._stopping = threading.Lock()
        self._astray = False
        self._in_work, self._sent_so_far = False, 0
        self._home: Optional[int] = None
        self._begin(self._session_on(path), path, None, 1)

    def _session_on(self, path: str) -> Session:
        said = self.options
        return Session(path, said.steps, said.depth, minutes=said.minutes)

    def _begin(self, session: Session, path: str, folder: "Optional[tempfile.TemporaryDirectory[str]]",
               revision: int) -> None:
        """Plays this session from now on. The folder is that of a stack that was dropped, whose file is in it."""
        text, here = session.text(), session.where()
        self.known = Known(revision, text, Objects(read(text), here))
        self.session, self.path, self.folder = session, path, folder
        self.places, self.saved = Places(), text
        self.number += 1
        self.coding = self.options.coding or coding_of(text)

    @property
    def unsaved(self) -> bool:
        """Whether the stack isn't as it was opened or saved last."""
        return self.known.text != self.saved

    @property
    def dropped(self) -> bool:
        """Whether the stack came from the page, so that its file is the server's own."""
        return self.folder is not None

    def run(self, seen: int, lines: Sequence[bytes]) -> List[Entry]:
        """Sends the lines as the user's, up to the first that isn't answered `ok`, and gives those that were answered.

        Raises Stale, and NotDone where the program is at work, or ended before a line was answered.
        """
        with self._my_turn(seen, learns=True):
            done: List[Entry] = []
            for line in lines:
                done.append(self._sent(line))
                if done[-1].answer.ending != OK or self.ended:
                    break
            return done

    def go_to(self, seen: int, place: int) -> List[Entry]:
        """Goes to a place of the history. Raises as `run` does."""
        with self._my_turn(seen, learns=True):
            self._check(place)
            line = move(self.places.cursor, place)
            return [self._sent(line)] if line else []

    def look(self, lines: Sequence[bytes]) -> List[Entry]:
        """Sends lines that only look, such as `.globals`. Raises NotDone as `run` does."""
        with self._my_turn(None):
            return [self._sent(line, own=True) for line in lines]

    def texts_at(self, seen: int, places: Sequence[int]) -> List[bytes]:
        """The texts of the stack at these places: it goes there and comes back. Raises as `run` does."""
        with self._my_turn(seen):
            for place in places:
                self._check(place)
            self._home = self.places.cursor
            texts = [self._text_at(place) for place in places]
            self._come_home()
            return texts

    def open(self, seen: int, name: str, data: bytes) -> None:
        """Plays the stack with this text in place of the one that is open. It lies in a folder of the server, under
        this name. Raises NotDone where the program refuses it; then the one that is open stays."""
        with self._my_turn(seen):
            old, old_folder = self.session, self.folder
            folder = tempfile.TemporaryDirectory(prefix="yarvekko-")
            try:
                self._opened(os.path.join(folder.name, name), folder, data)
            except (*BROKEN, MemoryError) as error:
                folder.cleanup()
                raise NotDone("that isn't a stack that can be opened: %s" % words_of(error)) from None
            old.close()
            if old_folder:
                old_folder.cleanup()

    def _opened(self, path: str, folder: "tempfile.TemporaryDirectory[str]", data: bytes) -> None:
        with open(path, "wb") as file:
            file.write(data)
        session = self._session_on(path)
        try:
            self._begin(session, path, folder, self.known.revision + 1)
        except BaseException:
            session.close()
            raise

    def stop(self) -> bool:
        """Breaks off the command that is at work; whether there was one. The act that sent it ends with NotDone."""
        with self._stopping:
            if not self.working:
                return False
            try:
                self._differ(self.session.interrupt())
            except BROKEN:
                self._astray = True
            return True

    def close(self) -> None:
        """Ends the program. What wasn't saved is gone."""
        self.ended = True
        self._changed()
        self.session.close()
        if self.folder:
            self.folder.cleanup()

    def wait_for_news(self, seen: Standing, seconds: float) -> None:
        """Waits until it doesn't stand so any more, or so long."""
        with self.news:
            self.news.wait_for(lambda: self.ended or self.standing() != seen, seconds)

    def standing(self) -> Standing:
        """Where it stands."""
        return Standing(self.number, self.known.revision, len(self.notices), bool(self.working))

    @contextlib.contextmanager
    def _my_turn(self, seen: Optional[int], learns: bool = False) -> Iterator[None]:
        """One act at a time, which `learns` where it may change the stack. What is known at its end is what the program
        says, whatever it meets. Raises Stale and NotDone."""
        if not self._turn.acquire(timeout=SECONDS_TO_WAIT):
            raise NotDone("a command is at work: wait for it, or stop it")
        try:
            self._ready(seen)
            yield
            if learns:
                self._learn()
        except Interrupted:
            self._restarted(None)
            raise NotDone("stopped: " + self._what_stands()) from None
        except TookTooLong as late:
            self._differ(late.differences)
            self._restarted(None)
            raise NotDone("broken off, since %s: %s" % (late, self._what_stands())) from None
        except BROKEN as error:
            self._restarted(error)
            how = words_of(error)
            raise NotDone("the program had ended (%s) and was started again: %s" % (how, self._what_stands())) from None
        except MemoryError as error:
            self._astray = True
            raise NotDone(str(error)) from None
        finally:
            self.working = b""
            self._turn.release()
            self._changed()

    def _what_stands(self) -> str:
        """What became of an act that was broken off, whose lines were answered as far as they were counted."""
        if not self._in_work and self._sent_so_far:
            return "the command had ended before that, and stands"
        if self._sent_so_far:
            return "the last line is as if it had not been sent; what was sent before it for this act stands"
        return "all is as it was before the command"

    def _ready(self, seen: Optional[int]) -> None:
        """Whether an act may begin. Where the program wasn't there after the last act, it is started first."""
        self._in_work, self._sent_so_far = False, 0
        if self.ended:
            raise NotDone("the session has ended")
        if self._astray:
            self._restarted(None)
        if seen is not None and seen != self.known.revision:
            raise Stale("the stack was changed meanwhile, in another tab or by a new start: look, and do it again; "
                        "nothing was sent")

    def _restarted(self, error: Optional[Exception]) -> None:
        """Sees that the program runs, and learns where it stands: after it was stopped, or ended by an error."""
        if self.ended:
            raise NotDone("the session has ended") from None
        with self._stopping:
            again = self._astray or error is not None
            try:
                if again:
                    self._differ(self.session.interrupt())
                self._come_home()
                self._learn()
                self._astray = False
            except (*BROKEN, Interrupted, MemoryError) as why:
                self._astray = True
                raise NotDone("the program couldn't be started again: %s. Nothing is lost: the stack's text as it was "
                              "before can be downloaded, and the next act tries again" % words_of(why)) from None

    def _differ(self, differences: Sequence[Difference]) -> None:
        """Tells of lines that were answered otherwise when they were given again, as a free external may do."""
        if differences:
            numbers = ", ".join(str(each.number) for each in differences[:10])
            self.notices.append("the program was started again, and answered these lines otherwise than before: %s; "
                                "so the stack may differ" % numbers)

    def _changed(self) -> None:
        with self.news:
            self.news.notify_all()

    def _check(self, place: int) -> None:
        if not 0 <= place <= self.places.last():
            raise NotDone("there is no place %d: the last one is %d" % (place, self.places.last()))

    def _sent(self, line: bytes, own: bool = False) -> Entry:
        """Sends a line. In `.undo to N` the user's lines count alone, not those that only look."""
        found = UNDO_TO.fullmatch(line)
        if found and not own:
            try:
                line = b".undo to %d" % self.session.number_of(int(found.group(1)))
            except ValueError as error:
                raise NotDone(str(error)) from None
        if not own:
            self.working, self._in_work = line, True
            self._changed()
        self.ended = line.rstrip(b" \r") == QUIT
        entry = self._answered(line, own)
        self._in_work = False
        self._sent_so_far += not own
        self.places.answered(line, len(self.session.lines), entry.answer.verdict)
        if line.rstrip(b" \r") == SAVE and entry.answer.ending == OK:
            self.saved = self.session.text()
        return entry

    def _answered(self, line: bytes, own: bool) -> Entry:
        """Sends a line. The program may be gone before its answer to `.quit` is read; its status says that all is
        well."""
        try:
            self.session.send(line, own)
        except Ended as error:
            if not self.ended or error.status != 0:
                raise
            return Entry(line, Answer([]), own)
        return self.session.lines[-1]

    def _learn(self) -> None:
        """Asks the program where it stands."""
        if self.ended:
            return
        text, here = self.session.text(), self.session.where()
        self.places.counted(*self.session.history())
        old = self.known
        objects = old.objects
        if text != old.text or here != objects.card.id:
            objects = Objects(read(text) if text != old.text else objects.stack, here)
        self.known = Known(old.revision + 1, text, objects)

    def _text_at(self, place: int) -> bytes:
        """Goes to a place, and gives the text there."""
        self._moved(place)
        return self.session.text()

    def _come_home(self) -> None:
        """Comes back from where the texts of places were asked."""
        if self._home is not None:
            self.places.counted(*self.session.history())
            self._moved(self._home)
            self._home = None

    def _moved(self, place: int) -> None:
        """Goes to a place, to look."""
        line = move(self.places.cursor, place)
        if line:
            self.session.send(line, own=True)
            self.places.counted(*self.session.history())


def words_of(error: Exception) -> str:
    """What went wrong, for people."""
    said = [line for line in error.said if line.strip()] if isinstance(error, Ended) else []
    return said[0] if said else str(error)
