"""What the terminal knows of the stack between two lines: its text, the current card, what the last command changed.

The program is asked for both by lines of its own that change nothing, `.show` and `.where`; what is kept of the text's
objects is read when it is needed.
"""

from typing import Dict, Iterable, List, Optional, Tuple

from front.server_objects import Found, Objects
from front.server_places import adds_place
from front.session import Session
from front.stack_lines import spell
from front.stack_text import Stack, read
from front.terminal_completion import Names
from front.terminal_text import Coding, coding_of, shown

LONGEST_NAME = 30
MOVES = (b".undo", b".redo")


class State:
    """The stack as it is now, and as it was. `texts` are the text of the stack before the last command that was taken,
    and after it; they are the same until there is one. Where no coding is given, the stack's own bytes decide."""

    def __init__(self, session: Session, coding: Optional[Coding]) -> None:
        self.session = session
        self.text = b""
        self._current = 0
        self._objects: Optional[Objects] = None
        self.refresh()
        self.coding = coding or coding_of(self.text)
        self.saved = self.text
        self.texts: Tuple[bytes, bytes] = (self.text, self.text)

    def refresh(self) -> None:
        """Asks the program anew."""
        text = self.session.text()
        current = self.session.where()
        if (text, current) != (self.text, self._current):
            self._objects = None
        self.text, self._current = text, current

    def was_answered(self, line: bytes, refused: bool) -> None:
        """Takes notice of a line that was answered. One that was refused, or that only looks, has changed nothing;
        else the program is asked anew."""
        if refused:
            return
        if line.strip() == b".save":
            self.saved = self.text
        if adds_place(line) or line.split(b" ")[0] in MOVES:
            before = self.text
            self.refresh()
            self.texts = (before, self.text)

    @property
    def is_saved(self) -> bool:
        """Whether the stack is as it was opened, or as it was saved last."""
        return self.text == self.saved

    @property
    def objects(self) -> Objects:
        """The objects of the stack as it is now."""
        if self._objects is None:
            self._objects = Objects(read(self.text), self._current)
        return self._objects

    @property
    def card(self) -> int:
        """The id of the current card."""
        return self._current

    def prompt(self) -> str:
        """The prompt: the name of the current card, or its id where it has none."""
        name = self._current_name()
        if len(name) > LONGEST_NAME:
            name = name[:LONGEST_NAME] + ".."
        return (name or "card id %d" % self._current) + "> "

    def _current_name(self) -> str:
        """The name of the current card as it is shown. It is looked for in the text, so that no large stack is read as
        a whole for each prompt; such a line stands nowhere else, since texts stand behind bars."""
        head = self.text.find(b"\ncard %d " % self._current)
        start = self.text.index(b"\nname |", head) + len(b"\nname |")
        return shown(self.text[start : self.text.index(b"\n", start)], self.coding)

    def names(self) -> Names:
        """The names that can be typed."""
        objects = self.objects
        found: Dict[str, List[str]] = {
            "card": self._typed(card.name for card in objects.stack.cards),
            "background": self._typed(background.name for background in objects.stack.backgrounds),
        }
        here = objects.card.parts + objects.background.parts
        for kind in ("button", "field"):
            found[kind] = self._typed(part.name for part in here if part.kind == kind)
        return Names(found, sorted(self._typed(objects.handler_names)))

    def _typed(self, names: Iterable[bytes]) -> List[str]:
        """Names as they are typed, without those that can't be: with a quotation mark or a control character."""
        texts = [name.decode(self.coding.value, "surrogateescape") for name in names]
        return [text for text in dict.fromkeys(texts) if text.isprintable() and '"' not in text and text]


def title(found: Found, coding: Coding) -> str:
    """An object as `the name of it` reads, on a terminal."""
    kind = "bkgnd" if found.kind == "background" else found.kind
    if found.thing.name or isinstance(found.thing, Stack):
        return '%s "%s"' % (kind, shown(spell(found.thing.name), coding))
    return "%s id %d" % (kind, found.id)
