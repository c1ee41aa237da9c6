"""The objects of a stack by their ids, their names and references, and what a page shows of each.

An id stands for one object of the whole stack; 0 stands for the stack itself. What comes out is made of strings,
numbers, truth values, lists and dictionaries with strings as keys, as JSON has them.
"""

from dataclasses import dataclass
from functools import cached_property
from typing import Dict, List, Optional, Union

from front.handlers import handlers
from front.hypertalk_text import background_reference, card_reference, part_reference
from front.server_words import shown
from front.stack_text import BUTTON, FIELD, Background, Card, Part, Stack
from front.terminal_text import Coding

Json = Union[None, bool, int, float, str, List["Json"], Dict[str, "Json"]]
Thing = Union[Stack, Background, Card, Part]

STACK_ID = 0
# The properties of each kind of object that an inspector shows beside name, id, number and script.
FLAGS: Dict[str, List[str]] = {
    "stack": [],
    "background": ["cantDelete"],
    "card": ["cantDelete"],
    "card button": ["visible", "hilite"],
    "card field": ["visible", "lockText"],
    "bkgnd button": ["visible", "sharedHilite", "hilite"],
    "bkgnd field": ["visible", "lockText", "sharedText"],
}
# How the model of the stack's text calls them.
ATTRIBUTES = {
    "cantDelete": "cant_delete", "visible": "visible", "hilite": "hilite", "sharedHilite": "shared_hilite",
    "lockText": "lock_text", "sharedText": "shared_text",
}


@dataclass
class Found:
    """An object with its place. `kind` is a key of FLAGS; `number` counts from 1 in its order; `owner` is the card or
    the background of a part."""

    thing: Thing
    kind: str
    number: int
    owner: Union[None, Background, Card] = None

    @property
    def id(self) -> int:
        """The id of the object, 0 for the stack."""
        return STACK_ID if isinstance(self.thing, Stack) else self.thing.id

    @property
    def of_background(self) -> bool:
        """Whether it is a part of a background."""
        return self.kind.startswith("bkgnd")


class Objects:
    """The objects of a stack, and which card is current.

    Raises KeyError where the current card isn't one of the stack."""

    def __init__(self, stack: Stack, current: int) -> None:
        self.stack = stack
        self.found: Dict[int, Found] = {STACK_ID: Found(stack, "stack", 1)}
        for number, background in enumerate(stack.backgrounds, 1):
            self.found[background.id] = Found(background, "background", number)
            self._take(background, "bkgnd ")
        for number, card in enumerate(stack.cards, 1):
            self.found[card.id] = Found(card, "card", number)
            self._take(card, "card ")
        here = self.found[current].thing
        if not isinstance(here, Card):
            raise KeyError(current)
        self.card: Card = here
        self.background = stack.background_of(here)

    def _take(self, owner: Union[Background, Card], layer: str) -> None:
        """Takes the parts of a layer. Buttons and fields count apart."""
        counts = {BUTTON: 0, FIELD: 0}
        for part in owner.parts:
            counts[part.kind] += 1
            self.found[part.id] = Found(part, layer + part.kind, counts[part.kind], owner)

    def get(self, number: int) -> Optional[Found]:
        """The object with this id."""
        return self.found.get(number)

    def is_here(self, found: Found) -> bool:
        """Whether it is the stack, the current card or its background, or a part of one of these two."""
        here = (self.stack, self.card, self.background)
        return any(each is found.thing or each is found.owner for each in here)

    @cached_property
    def handler_names(self) -> List[bytes]:
        """The names of the handlers that a message on the current card can meet, each as it is written first."""
        things = (*self.card.parts, *self.background.parts, self.card, self.background, self.stack)
        return list(dict.fromkeys(each.name for thing in things for each in handlers(thing.script)))

    def text(self, part: Part) -> bytes:
        """The text of a field of the current card or of its background, as it stands on the current card."""
        if not self.found[part.id].of_background or part.shared_text:
            return part.text
        return self.card.texts.get(part.id, b"")

    def hilite(self, part: Part) -> bool:
        """The hilite of a button, as it is on the current card."""
        if not self.found[part.id].of_background or part.shared_hilite:
            return part.hilite
        return self.card.hilites.get(part.id, False)


def title(found: Found, coding: Coding) -> str:
    """The object as `the name of it` reads: `card "A"`, `bkgnd field id 7`, `stack "Home"`."""
    name = found.thing.name
    kind = "bkgnd" if found.kind == "background" else found.kind
    if name or isinstance(found.thing, Stack):
        return '%s "%s"' % (kind, shown(name, coding))
    return "%s id %d" % (kind, found.thing.id)


def reference(found: Found, here: bool = False) -> bytes:
    """HyperTalk for the object. With `here` a part is named without its owner, as one of the current card."""
    if isinstance(found.thing, Stack):
        return b"this stack"
    if isinstance(found.thing, Card):
        return card_reference(found.thing.id)
    if isinstance(found.thing, Background):
        return background_reference(found.thing.id)
    owner = b""
    if not here and found.owner is not None:
        owner = background_reference(found.owner.id) if found.of_background else card_reference(found.owner.id)
    return part_reference(found.thing.kind, found.thing.id, owner, found.of_background)
