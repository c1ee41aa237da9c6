"""Scripts that a person writes at the terminal: handlers that are typed or pasted, and scripts in an editor.

A script is checked by the program before it is set, on a copy of the stack. It is set by lines of HyperTalk, which are
shown, so it is a command like any other, and is undone like any other.
"""

from typing import Callable, List, Optional, Tuple

from front.answers import OK, Answer
from front.checks import NotChecked, Remark, check
from front.handlers import with_handler
from front.hypertalk_text import TEXT_LIMIT, set_lines, unused_name
from front.server_objects import Found, Objects
from front.session import Ended, TookTooLong
from front.stack_lines import spell
from front.stack_text import read, write
from front.terminal_copy import Named, NotFound, find
from front.terminal_editor import NotEdited, edited
from front.terminal_reader import Reader
from front.terminal_state import State, title
from front.terminal_text import Coding, NoSuchCharacter, explained, shown, to_bytes
from front.terminal_views import script as script_view

WHICH, USUAL = "For which object? [%s] ", "this card"
LONGEST_SHOWN = 2_000
WRONG = "[e]dit it, [s]et it all the same, or [d]rop it? "


class Scripts:
    """What is done with scripts. `give` sends a line as if it were typed, and shows the answer; `say` shows lines."""

    def __init__(self, state: State, reader: Reader, give: Callable[[bytes], Optional[Answer]],
                 say: Callable[..., None]) -> None:
        self._state, self._reader, self._give, self._say = state, reader, give, say
        # For which object the last handler was, and in which input it came.
        self._last_words, self._last_input = USUAL, 0

    @property
    def _coding(self) -> Coding:
        return self._state.coding

    def show(self, words: str) -> None:
        """Shows the script of the object that the words name."""
        named = self._named(words)
        if named:
            self._say(*script_view(named.found, self._coding))

    def edit(self, words: str) -> None:
        """Opens the script of the object in the editor, checks and sets what comes back."""
        named = self._named(words)
        if not named:
            return
        old = named.found.thing.script
        new = self._edited(old)
        if new == old:
            self._say("The script is as it was.")
        elif new is not None:
            self._check_and_set(named, new)

    def take_handler(self, handler: bytes) -> None:
        """Asks for which object a handler is, and puts it into that one's script."""
        named = self._asked_for()
        if named is None:
            self._say("The handler isn't taken.")
            return
        new, replaced = with_handler(named.found.thing.script, handler)
        what = "It replaces the handler of its name in" if replaced else "It is added to"
        self._say("%s the script of %s:" % (what, title(named.found, self._coding)))
        self._check_and_set(named, new)

    def _asked_for(self) -> Optional[Named]:
        """The object that a person names when asked; None for Control-C or Control-D. Unless told it is the current
        card, or that of the handler before it in the same paste."""
        while True:
            usual = self._last_words if self._last_input == self._reader.inputs else USUAL
            try:
                words = self._reader.ask(WHICH % usual, ".script ") or usual
            except (EOFError, KeyboardInterrupt):
                return None
            named = self._named(words)
            if named:
                self._last_words, self._last_input = words, self._reader.inputs
                return named

    def _named(self, words: str) -> Optional[Named]:
        """The object of the words; where there is none it says why."""
        try:
            return find(self._state, to_bytes(words, self._coding))
        except (NotFound, NoSuchCharacter) as error:
            self._say(str(error))
        except (OSError, Ended, TookTooLong) as error:
            self._say("The object wasn't looked for: %s" % error)
        return None

    def _edited(self, script: bytes) -> Optional[bytes]:
        """What the editor makes of the script; None where it fails, which is said."""
        try:
            return edited(script, self._reader, self._coding)
        except (NotEdited, NoSuchCharacter, OSError) as error:
            self._say("The script isn't set: %s" % error)
            return None

    def _check_and_set(self, named: Named, script: Optional[bytes]) -> None:
        """Checks the script, asks what to do where it is wrong, and sets it."""
        while script is not None:
            remarks, wrong = self._remarks(named.found, script)
            if not wrong:
                self._set(named, script)
                self._say_remarks(remarks)
                return
            self._say_remarks(remarks)
            choice = self._choice(len(script) <= TEXT_LIMIT)
            if choice == "s":
                self._set(named, script)
                return
            if choice == "d":
                self._say("The script isn't set.")
                return
            script = self._edited(script)

    def _choice(self, can_be_set: bool) -> str:
        """What to do with a script that is wrong: `e`, `s` or `d`."""
        while True:
            try:
                choice = self._reader.ask(WRONG if can_be_set else "[e]dit it, or [d]rop it? ").lower()[:1]
            except (EOFError, KeyboardInterrupt):
                return "d"
            if choice in ("e", "d") or (choice == "s" and can_be_set):
                return choice

    def _remarks(self, found: Found, script: bytes) -> Tuple[List[Remark], bool]:
        """What there is to say of a script, and whether it is wrong. Where it can't be checked it isn't wrong."""
        if len(script) > TEXT_LIMIT:
            self._say("The script has %d bytes; %d is the most." % (len(script), TEXT_LIMIT))
            return [], True
        objects = Objects(read(self._state.text), self._state.card)
        objects.found[found.id].thing.script = script
        try:
            remarks = check(write(objects.stack))
        except (NotChecked, OSError) as error:
            self._say("The script wasn't checked: %s" % error)
            return [], False
        remarks = [remark for remark in remarks if remark.id == found.id]
        return remarks, any(remark.is_error for remark in remarks)

    def _say_remarks(self, remarks: List[Remark]) -> None:
        for remark in remarks:
            self._say(*explained(remark.text(), self._coding))

    def _set(self, named: Named, script: bytes) -> None:
        """Sets the script, by lines that are shown."""
        lines = set_lines(named.reference, b"script", script, unused_name([self._state.text]))
        if len(lines) > 1:
            count = len(lines)
            self._say("It doesn't fit one line; these are %d commands, so .undo %d takes them back." % (count, count))
        for line in lines:
            self._say("  " + _as_typed(line, self._coding))
            answer = self._give(line)
            if answer is None or answer.ending != OK:
                return


def _as_typed(line: bytes, coding: Coding) -> str:
    """A line as it would be typed; of a long one its beginning, and how long it is."""
    text = shown(spell(line).replace(b"\\5c", b"\\"), coding)
    return text if len(text) <= LONGEST_SHOWN else "%s .. (%d bytes)" % (text[:LONGEST_SHOWN], len(line))
