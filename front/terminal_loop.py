"""The terminal: takes what is typed, line by line, and gives it to the program or does what it asks for."""

import os
import sys
from typing import Callable, Dict, List, Optional

from front import terminal_views as views
from front.answers import NOT_IN_GRAMMAR, REFUSED, Answer
from front.hints import hints
from front.hints_of_dot_lines import OF_TERMINAL
from front.server_places import COMMANDS
from front.session import Difference, Ended, Session, TookTooLong
from front.terminal_completion import Names, candidates
from front.terminal_input import Entry, Joiner
from front.terminal_mode import HungUp
from front.terminal_reader import Reader
from front.terminal_scripts import Scripts
from front.terminal_state import State
from front.terminal_text import Coding, NoSuchCharacter, explained, shown, to_bytes

GOES_ON = ".. "
UNSAVED = "The stack has changes that aren't saved. Save them? [y]es, [n]o, or Return to stay: "
# What takes longer than so many seconds is told before.
LONG = 1.0
# The dot lines of the program beside its commands.
ASKED = (".redo", ".undo", ".undo to", ".show", ".globals", ".where", ".cells", ".history", ".save", ".quit")


def say(*lines: str) -> None:
    """Shows lines."""
    for line in lines:
        print(line)
    sys.stdout.flush()


def _speak_to_nobody() -> None:
    """Where the terminal is gone: what is still to be shown goes nowhere, and isn't an error."""
    nowhere = os.open(os.devnull, os.O_WRONLY)
    for stream in (1, 2):
        os.dup2(nowhere, stream)


class Terminal:
    """A session at a terminal. `watch` says whether the messages that are sent are shown, on standard error. Where no
    coding is given, the stack's own bytes decide, which is said."""

    def __init__(self, path: str, session: Session, coding: Optional[Coding], watch: bool) -> None:
        self._path, self._session, self._watch = path, session, watch
        self._state = State(session, coding)
        self._coding = self._state.coding
        self._is_guessed = coding is None
        self._reader = Reader(self._complete)
        self._scripts = Scripts(self._state, self._reader, self.give, say)
        self._joiner = Joiner()
        self._done = False
        self._commands: Dict[str, Callable[[str], None]] = {
            ".help": self._help, ".cards": self._cards, ".card": self._card, ".script": self._scripts.show,
            ".edit": self._scripts.edit, ".diff": self._diff, ".log": self._log, ".quit": self._quit,
        }

    def run(self) -> int:
        """Takes lines until the person ends it. Gives the status: 0, or 1 where the program or the terminal is gone;
        then what wasn't saved is kept beside the stack."""
        try:
            with self._reader:
                self._greet()
                while not self._done:
                    self._take_line()
            return 0
        except (HungUp, Ended, OSError) as error:
            self._keep_aside(str(error) or "the terminal is gone")
            return 1
        except BaseException as error:
            self._keep_aside("the terminal ends by a mistake of its own, %s" % type(error).__name__)
            raise

    def _greet(self) -> None:
        count = len(self._state.objects.stack.cards)
        say("%s: %d card%s. .help says what can be typed." % (self._path, count, "" if count == 1 else "s"))
        if self._is_guessed and self._coding is Coding.MAC_ROMAN:
            say("Its texts are read as Mac Roman, since some aren't UTF-8; --utf-8 would show their bytes.")

    def _take_line(self) -> None:
        """Takes one line."""
        try:
            line = self._reader.line(GOES_ON if self._joiner.is_open else self._state.prompt())
        except KeyboardInterrupt:
            self._joiner.drop()
            return
        except EOFError:
            self._end_of_input()
            return
        try:
            entry = self._joiner.give(to_bytes(line, self._coding))
        except NoSuchCharacter as error:
            say("The line isn't taken: %s." % error)
            return
        if entry:
            self._take(entry)

    def _end_of_input(self) -> None:
        """Control-D: drops an entry that is open, or else ends."""
        if self._joiner.is_open:
            waits_for = shown(self._joiner.waits_for, self._coding)
            say("It isn't taken: %s was missing." % (waits_for or "its next line"))
            self._joiner.drop()
        else:
            self._done = self._may_end()

    def _take(self, entry: Entry) -> None:
        """Does what was typed."""
        word, _, rest = entry.text.decode(self._coding.value, "surrogateescape").partition(" ")
        if entry.handler:
            self._scripts.take_handler(entry.text)
        elif word in self._commands:
            self._commands[word](rest.strip())
        else:
            self.give(entry.text)

    def give(self, line: bytes) -> Optional[Answer]:
        """Sends a line to the program, and shows the answer; None where there is none, which is said."""
        known = len(self._session.lines)
        try:
            with self._reader.interrupts.let_in():
                answer = self._session.send(self._numbered(line))
        except KeyboardInterrupt:
            self._break_off(known)
            return None
        except TookTooLong as late:
            self._taken_back("Broken off: %s. All is as before that line." % late, late.differences)
            return None
        except Ended as ended:
            self._start_again(ended)
            return None
        self._show(answer)
        if line.startswith(b".") and answer.is_refused(NOT_IN_GRAMMAR):
            say("  .help lists the lines that begin with a dot")
        try:
            self._state.was_answered(line, answer.ending == REFUSED)
            say(*hints(line, answer, lambda: self._state.objects, self._coding, OF_TERMINAL))
        except MemoryError as error:
            say("%s." % error)
        except Ended as ended:
            self._start_again(ended)
        return answer

    def _numbered(self, line: bytes) -> bytes:
        """The line, where it is `.undo to N` with the program's number of the user's line. The program refuses a number
        that stands for no line."""
        found = views.UNDO_TO.fullmatch(line)
        if not found:
            return line
        number = int(found.group(2))
        try:
            return found.group(1) + b"%d" % self._session.number_of(number)
        except ValueError:
            return found.group(1) + b"%d" % (len(self._session.lines) + number)

    def _show(self, answer: Answer) -> None:
        """Shows an answer. Control-C ends that."""
        if self._watch:
            for name, number in answer.watched:
                print(name, number, file=sys.stderr)
        for told in answer.told:
            print(told, file=sys.stderr)
        sys.stderr.flush()
        try:
            with self._reader.interrupts.let_in():
                say(*("> " + shown(text, self._coding) for text in answer.shown))
        except KeyboardInterrupt:
            say("", "(and more)")
        say(*(explained(list(answer.explained), self._coding) or [answer.verdict]))

    def _break_off(self, known: int) -> None:
        """After Control-C in a command: brings the program back to where it stood before it."""
        seconds = sum(entry.answer.seconds for entry in self._session.lines)
        if seconds > LONG:
            say("", "Your lines are given again; that takes %d seconds." % seconds)
        differences = self._session.interrupt()
        was_answered = len(self._session.lines) > known
        self._taken_back("It had ended already." if was_answered else "Broken off. All is as before that line.", differences)

    def _taken_back(self, what: str, differences: List[Difference]) -> None:
        """Tells what became of a line, once the program stands where it stood before it."""
        self._state.refresh()
        say("", what)
        self._tell_differences(differences)
        dropped = self._reader.drop()
        if dropped:
            say("What was pasted behind it isn't taken: %d line%s." % (dropped, "" if dropped == 1 else "s"))

    def _start_again(self, ended: Ended) -> None:
        """After the program's end: starts it again, and gives it the lines that were answered. Raises Ended where that
        can't be done."""
        say(*ended.said[:-1], "%s." % ended, "It is started again, and gets all lines again that were answered.")
        differences = self._session.interrupt()
        self._state.refresh()
        self._tell_differences(differences)

    @staticmethod
    def _tell_differences(differences: List[Difference]) -> None:
        for number, line, before, after in differences:
            say("Line %d of the program has another answer now, %s in place of %s: %s" % (
                number, after.verdict, before.verdict, line.decode("utf-8", "replace")))

    def _help(self, _rest: str) -> None:
        say(views.HELP)

    def _cards(self, _rest: str) -> None:
        say(*views.cards(self._state.objects, self._coding))

    def _card(self, _rest: str) -> None:
        say(*views.card(self._state.objects, self._coding))

    def _diff(self, _rest: str) -> None:
        say(*views.diff(*self._state.texts, self._coding))

    def _log(self, rest: str) -> None:
        """Keeps the lines so far with their answers in a file; asks before it writes over one."""
        path = os.path.expanduser(rest)
        if not path:
            say("Name a file: .log FILE")
            return
        if os.path.exists(path) and not self._is_sure("%s is there. Write over it? [y]es, [n]o: " % path):
            return
        data = views.log(self._session.lines)
        try:
            with open(path, "wb") as file:
                file.write(data)
        except OSError as error:
            say("The session isn't kept: %s" % error)
            return
        say("Kept in %s." % path)

    def _is_sure(self, question: str) -> bool:
        try:
            return self._reader.ask(question).lower() in ("y", "yes")
        except (EOFError, KeyboardInterrupt):
            return False

    def _quit(self, rest: str) -> None:
        """Ends, unless something that isn't saved is in the way."""
        if rest:
            self.give(b".quit " + to_bytes(rest, self._coding))
        elif self._may_end():
            self._done = True
            try:
                self._show(self._session.send(b".quit"))
            except Ended as ended:
                say("%s." % ended if ended.status else "ok")

    def _may_end(self) -> bool:
        """Whether all is saved, or the person says what to do with what isn't."""
        if self._state.is_saved:
            return True
        try:
            said = self._reader.ask(UNSAVED).lower()
        except KeyboardInterrupt:
            return False
        except EOFError:
            self._keep_aside("the input ended")
            return True
        if said in ("y", "yes"):
            answer = self.give(b".save")
            return answer is not None and answer.ending != REFUSED
        return said in ("n", "no")

    def _keep_aside(self, why: str) -> None:
        """Writes the stack into a new file beside its own, where it has changes that aren't saved."""
        words = [why]
        if not self._state.is_saved:
            path, number = self._path + ".unsaved", 1
            while os.path.exists(path):
                number += 1
                path = "%s.unsaved%d" % (self._path, number)
            try:
                with open(path, "xb") as file:
                    file.write(self._state.text)
                words.append("What wasn't saved is in %s." % path)
            except OSError as error:
                words.append("What wasn't saved couldn't be kept: %s" % error)
        try:
            print(*words, sep="\n", file=sys.stderr, flush=True)
        except OSError:
            _speak_to_nobody()

    def _complete(self, before: str, word: str) -> List[str]:
        """What the word can be completed to. Nothing goes wrong here that a person had to know."""
        try:
            names = self._state.names()
        except (KeyError, ValueError):
            names = Names()
        dot_lines = sorted(set(self._commands) | {each.decode() for each in COMMANDS} | set(ASKED))
        return candidates(before, word, names, dot_lines)
