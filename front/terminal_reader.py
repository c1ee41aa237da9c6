"""Lines from a person at a terminal: editing, completion, a history that is kept, and questions."""

import io
import locale
import os
import select
import sys
from contextlib import contextmanager
from typing import Callable, Iterator, List, Optional, cast

from front.terminal_mode import Interrupts, Mode

try:
    import readline
except ImportError:
    readline = None  # type: ignore[assignment]

MOST_KEPT = 2_000
# How long a paste may pause between two lines, in seconds.
PAUSE = 0.03
HISTORY_VARIABLE = "YARVEKKO_HISTORY"
# Between these a word ends for completion; what a word is besides, the completion itself says.
DELIMITERS = " \t\n()&,=<>+-*/^"

# Letters beyond ASCII can be typed whatever the locale says.
EIGHT_BITS = ("set input-meta on", "set output-meta on", "set convert-meta off")

# The simplest locale knows no letter beyond ASCII; these stand in for it, the first that is there.
SIMPLEST, INSTEAD = ("C", "POSIX"), ("C.UTF-8", "C.utf8", "en_US.UTF-8", "UTF-8")

# Gives what can stand in place of a word, from what stands before it in the line, and the word.
Completer = Callable[[str, str], List[str]]


def history_path() -> Optional[str]:
    """The file of the history: what YARVEKKO_HISTORY says, none where that is empty, else one in the user's folder."""
    named = os.environ.get(HISTORY_VARIABLE)
    if named is not None:
        return named or None
    state = os.environ.get("XDG_STATE_HOME") or os.path.join(os.path.expanduser("~"), ".local", "state")
    return os.path.join(state, "yarvekko", "history")


def leave_simplest_locale() -> None:
    """Takes UTF-8 in place of the simplest locale, for this process and those that it starts."""
    if locale.setlocale(locale.LC_CTYPE) not in SIMPLEST:
        return
    for name in INSTEAD:
        try:
            locale.setlocale(locale.LC_CTYPE, name)
        except locale.Error:
            continue
        # Line editing asks the environment again.
        os.environ["LC_ALL" if os.environ.get("LC_ALL") else "LC_CTYPE"] = name
        return


class Reader:
    """Reads lines from standard input, which is a terminal, and asks questions there. Where Python has no readline,
    lines are as the terminal gives them: without editing, and no longer than 4,095 bytes."""

    def __init__(self, completer: Completer) -> None:
        self._completer = completer
        self._mode = Mode()
        self.interrupts = Interrupts(self._mode, self._resumed)
        # How many inputs were read: lines of one paste have the same number.
        self.inputs = 0
        self._waiting: List[str] = []
        self._found: List[str] = []
        self._prompt: Optional[str] = None
        self._before = ""
        self._history = history_path()

    def __enter__(self) -> "Reader":
        leave_simplest_locale()
        cast(io.TextIOWrapper, sys.stdin).reconfigure(errors="surrogateescape")
        cast(io.TextIOWrapper, sys.stdout).reconfigure(errors="backslashreplace")
        self.interrupts.__enter__()
        if readline:
            self._mode.take_keys()
            self._set_up_editing()
        else:
            print("this Python has no readline: there is no line editing", file=sys.stderr)
        return self

    def __exit__(self, *_: object) -> None:
        if readline:
            self._keep_history()
        self._mode.give_back()
        self.interrupts.__exit__()

    def line(self, prompt: str) -> str:
        """The next line, without its end. A paste of several lines that came as one is given line by line.

        Raises EOFError for Control-D, KeyboardInterrupt for Control-C, and HungUp."""
        if not self._waiting:
            self._waiting = self._read(prompt)
        return self._waiting.pop(0)

    def ask(self, question: str, completed_as: str = "") -> str:
        """The answer to a question; it is completed as if it stood behind these words. What was pasted behind the line
        that raised the question is read first, and kept for later, so that no line of it is taken for the answer.
        Raises what `line` raises."""
        while self._is_pending():
            self._waiting += self._read("")
        self._before = completed_as
        try:
            return self._input(question).strip()
        finally:
            self._before = ""

    def drop(self) -> int:
        """Drops the lines of a paste that weren't given yet, and says how many these were."""
        dropped = len(self._waiting)
        self._waiting = []
        return dropped

    @contextmanager
    def lent(self) -> Iterator[None]:
        """Where the terminal is as it was found, and its keys are another program's."""
        with self._mode.lent(), self.interrupts.left_to_others():
            yield

    def _read(self, prompt: str) -> List[str]:
        """The lines of one input; those that aren't empty go to the history."""
        self.inputs += 1
        lines = self._input(prompt).replace("\r\n", "\n").replace("\r", "\n").split("\n")
        if len(lines) > 1 and not lines[-1]:
            lines.pop()
        for line in filter(None, lines if readline else []):
            try:
                readline.add_history(line)
            except UnicodeEncodeError:
                pass  # a line that the locale can't spell is taken, but isn't found again
        return lines

    def _input(self, prompt: str) -> str:
        """One input, whose lines stand between line feeds where it was pasted as one."""
        if readline:
            # Line editing draws nothing at a terminal that doesn't show what is typed.
            self._mode.take_keys(shows=True)
        self._prompt = prompt
        try:
            with self.interrupts.let_in():
                return input(prompt)
        except (EOFError, KeyboardInterrupt):
            print()
            raise
        finally:
            self._prompt = None
            if readline:
                self._mode.take_keys()

    @staticmethod
    def _is_pending() -> bool:
        return bool(select.select([sys.stdin], [], [], PAUSE)[0])

    def _resumed(self) -> None:
        """Draws the line anew that was begun before Control-Z."""
        if readline and self._prompt is not None:
            sys.stdout.write(self._prompt + readline.get_line_buffer())
            sys.stdout.flush()

    def _set_up_editing(self) -> None:
        readline.set_auto_history(False)
        readline.set_completer_delims(DELIMITERS)
        readline.set_completer(self._complete)
        libedit = "libedit" in (readline.__doc__ or "")
        readline.parse_and_bind("bind ^I rl_complete" if libedit else "tab: complete")
        for setting in () if libedit else EIGHT_BITS:
            readline.parse_and_bind(setting)
        readline.set_history_length(MOST_KEPT)
        if self._history and os.path.exists(self._history):
            try:
                readline.read_history_file(self._history)
            except OSError as error:
                print("the history wasn't read: %s" % error, file=sys.stderr)

    def _keep_history(self) -> None:
        if not self._history:
            return
        try:
            os.makedirs(os.path.dirname(self._history) or ".", mode=0o700, exist_ok=True)
            readline.write_history_file(self._history)
        except OSError as error:
            print("the history wasn't kept: %s" % error, file=sys.stderr)

    def _complete(self, word: str, state: int) -> Optional[str]:
        """What readline asks for: the candidate of this number, None behind the last."""
        if state == 0:
            # The place where the word begins is counted in bytes.
            line = readline.get_line_buffer().encode("utf-8", "surrogateescape")
            before = line[: readline.get_begidx()].decode("utf-8", "surrogateescape")
            self._found = self._completer(self._before + before, word)
        return self._found[state] if state < len(self._found) else None
