"""The text of a stack, read and written.

Texts are bytes: each byte is a character, of Mac Roman where it is no ASCII. `"Café".encode("mac_roman")` makes one of
a string, and `.decode("mac_roman")` a string of one. The lines of a script or a field stand between returns (byte 13).

`read` takes a text of version 1 or 2, whole, and no other bytes. `write` gives version 2.
"""

from dataclasses import dataclass, field
from typing import Dict, List, Union

from front.stack_lines import MOST_OBJECTS, Fault, Lines, spell, unspell

__all__ = ["BUTTON", "FIELD", "Background", "Card", "Fault", "Part", "Stack", "read", "spell", "unspell", "write"]

BUTTON, FIELD = "button", "field"
LEAST_NEXT, MOST_NEXT = 3, 1_000_001


@dataclass
class Part:
    """A button or a field, of a background or of a card.

    `lock_text` and `text` are of fields alone, `hilite` of buttons alone; on a background `text` and `hilite` are those
    that all cards share. `shared_text` is of the fields of a background alone, `shared_hilite` of its buttons alone.
    What doesn't belong to the kind of part stays as it is here, and isn't written.
    """

    kind: str
    id: int
    name: bytes = b""
    visible: bool = True
    script: bytes = b""
    lock_text: bool = False
    shared_text: bool = False
    text: bytes = b""
    shared_hilite: bool = True
    hilite: bool = False


@dataclass
class Background:
    """A background. Its parts stand in the order of their making."""

    id: int
    name: bytes = b""
    cant_delete: bool = False
    script: bytes = b""
    parts: List[Part] = field(default_factory=list)


@dataclass
class Card:
    """A card of the background with the id `background`.

    `texts` has the card's own text for each field of the background, by the field's id, and `hilites` its own hilite
    for each button. One that is missing is empty, or false.
    """

    id: int
    background: int
    name: bytes = b""
    cant_delete: bool = False
    script: bytes = b""
    parts: List[Part] = field(default_factory=list)
    texts: Dict[int, bytes] = field(default_factory=dict)
    hilites: Dict[int, bool] = field(default_factory=dict)


@dataclass
class Stack:
    """A stack, with its backgrounds and its cards in their order. `next_id` is the id that the next object gets."""

    next_id: int
    name: bytes = b""
    script: bytes = b""
    backgrounds: List[Background] = field(default_factory=list)
    cards: List[Card] = field(default_factory=list)

    def background_of(self, card: Card) -> Background:
        """The background of a card. Raises KeyError where it isn't there."""
        for background in self.backgrounds:
            if background.id == card.background:
                return background
        raise KeyError(card.background)


def read(data: bytes) -> Stack:
    """The stack of a text. Raises Fault, with the number and the line that the program gives for these bytes."""
    return _Reader(data).stack()


class _Reader:
    """What is read of a text so far."""

    def __init__(self, data: bytes) -> None:
        self.lines = Lines(data)
        self.version = self.lines.version()
        self.next_id = 0
        self.backgrounds: Dict[int, Background] = {}

    def stack(self) -> Stack:
        lines = self.lines
        self.next_id = lines.count(b"next", LEAST_NEXT, MOST_NEXT)
        stack = Stack(self.next_id, lines.name(), lines.block(b"script"))
        for _ in range(lines.count(b"backgrounds", 1, MOST_OBJECTS)):
            self.background()
        stack.backgrounds = list(self.backgrounds.values())
        stack.cards = [self.card() for _ in range(lines.count(b"cards", 1, MOST_OBJECTS))]
        lines.end(set(self.backgrounds) == {card.background for card in stack.cards})
        return stack

    def background(self) -> None:
        lines = self.lines
        number = lines.new_id(self.next_id, lines.number_after(b"background"))
        background = Background(number, lines.name(), lines.flag(b"cantDelete"), lines.block(b"script"))
        background.parts = self.parts(True)
        self.backgrounds[number] = background

    def card(self) -> Card:
        lines = self.lines
        head = lines.card_head()
        number = lines.new_id(self.next_id, head.id, head.value in self.backgrounds)
        card = Card(number, head.value, lines.name(), lines.flag(b"cantDelete"), lines.block(b"script"))
        card.parts = self.parts(False)
        for part in self.backgrounds[card.background].parts:
            self.keeping(card, part)
        return card

    def keeping(self, card: Card, part: Part) -> None:
        """What a card keeps for a part of its background. In version 1 it lights no button by itself."""
        if part.kind == BUTTON and self.version == 1:
            card.hilites[part.id] = False
            return
        head = self.lines.text_head() if part.kind == FIELD else self.lines.hilite_head()
        if head.id != part.id:
            self.lines.bad_id()
        if part.kind == FIELD:
            card.texts[part.id] = self.lines.pieces(head.value)
        else:
            card.hilites[part.id] = bool(head.value)

    def parts(self, shared: bool) -> List[Part]:
        return [self.part(shared) for _ in range(self.lines.count(b"parts", 0, MOST_OBJECTS))]

    def part(self, shared: bool) -> Part:
        """A part; whether it stands on a background."""
        kind, number = self.lines.part_head()
        self.lines.new_id(self.next_id, number)
        part = Part(kind, number, self.lines.name(), self.lines.flag(b"visible"))
        if kind == BUTTON:
            self.button(part, shared)
        else:
            self.field(part, shared)
        return part

    def button(self, part: Part, shared: bool) -> None:
        if shared and self.version == 2:
            part.shared_hilite = self.lines.flag(b"sharedHilite")
        part.hilite = self.lines.flag(b"hilite")
        part.script = self.lines.block(b"script")

    def field(self, part: Part, shared: bool) -> None:
        part.lock_text = self.lines.flag(b"lockText")
        if shared:
            part.shared_text = self.lines.flag(b"sharedText")
        part.script = self.lines.block(b"script")
        part.text = self.lines.block(b"shared" if shared else b"text")


def write(stack: Stack) -> bytes:
    """The text of a stack, in version 2.

    Raises Fault where that is no text of a stack, with the number and the line at which the program would refuse it: an
    id that is used twice, a name over 30,000 bytes, a background without a card and so on. Raises ValueError where a
    card keeps something for what is no part of its background, or a part is of no kind: nothing is left out unasked.
    """
    lines = [b"htstack 2", b"next %d" % stack.next_id, *_named(stack), *_block(b"script", stack.script)]
    lines.append(b"backgrounds %d" % len(stack.backgrounds))
    parts: Dict[int, List[Part]] = {}
    for background in stack.backgrounds:
        parts[background.id] = background.parts
        lines += [b"background %d" % background.id, *_layer(background, True)]
    lines.append(b"cards %d" % len(stack.cards))
    for card in stack.cards:
        lines += [b"card %d %d" % (card.id, card.background), *_layer(card, False)]
        lines += _keepings(card, parts.get(card.background, []))
    lines += [b"end", b""]
    data = b"\n".join(lines)
    read(data)
    return data


def _named(thing: Union[Part, Background, Card, Stack]) -> List[bytes]:
    return [b"name |" + spell(thing.name)]


def _flag(key: bytes, value: bool) -> bytes:
    return key + (b" true" if value else b" false")


def _block(head: bytes, text: bytes) -> List[bytes]:
    """A text of many lines: the key and the number of its pieces, and then the pieces."""
    pieces = text.split(b"\r") if text else []
    return [b"%b %d" % (head, len(pieces)), *(b"|" + spell(piece) for piece in pieces)]


def _layer(layer: Union[Background, Card], shared: bool) -> List[bytes]:
    """The lines of a background or a card behind its first."""
    lines = _named(layer) + [_flag(b"cantDelete", layer.cant_delete), *_block(b"script", layer.script)]
    lines.append(b"parts %d" % len(layer.parts))
    for part in layer.parts:
        lines += _part(part, shared)
    return lines


def _part(part: Part, shared: bool) -> List[bytes]:
    """The lines of a part; whether it stands on a background."""
    lines = [b"%b %d" % (part.kind.encode(), part.id), *_named(part), _flag(b"visible", part.visible)]
    if part.kind == BUTTON:
        lines += [_flag(b"sharedHilite", part.shared_hilite)] if shared else []
        return lines + [_flag(b"hilite", part.hilite), *_block(b"script", part.script)]
    if part.kind != FIELD:
        raise ValueError("part %d is neither a button nor a field: %r" % (part.id, part.kind))
    lines.append(_flag(b"lockText", part.lock_text))
    lines += [_flag(b"sharedText", part.shared_text)] if shared else []
    return lines + _block(b"script", part.script) + _block(b"shared" if shared else b"text", part.text)


def _keepings(card: Card, parts: List[Part]) -> List[bytes]:
    """What a card keeps for the parts of its background."""
    fields = {part.id for part in parts if part.kind == FIELD}
    buttons = {part.id for part in parts if part.kind == BUTTON}
    for kind, kept, known in ((FIELD, set(card.texts), fields), (BUTTON, set(card.hilites), buttons)):
        if kept - known:
            raise ValueError("card %d keeps something for %d, which is no %s of its background"
                             % (card.id, min(kept - known), kind))
    lines: List[bytes] = []
    for part in parts:
        if part.kind == FIELD:
            lines += _block(b"text %d" % part.id, card.texts.get(part.id, b""))
        else:
            lines.append(_flag(b"hilite %d" % part.id, card.hilites.get(part.id, False)))
    return lines
