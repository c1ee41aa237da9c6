"""Makes a stack of this program from an old one: numbers, texts and hilites get their places here.

One counter serves all objects here. Where all ids of a stack are different they stay. Else cards keep theirs where they
can, and so do backgrounds; the parts, which each layer counts by itself in HyperCard, get the least numbers that are
free. `Converted` says what became of each id.
"""

from dataclasses import dataclass, field
from itertools import count
from typing import Dict, Iterator, List, Sequence, Set, Tuple, Union

from front.stack_lines import MOST_OBJECTS
from front.stack_text import BUTTON, FIELD, Background, Card, Part, Stack
from migrate.old import BadSource, OldBackground, OldCard, OldContent, OldLayer, OldPart, OldStack
from migrate.texts import show

MOST_TEXT = 30_000
# An id above this isn't kept: new objects need numbers above the greatest, and 1,000,000 is the last there is.
MOST_KEPT_ID = 900_000
_TOLD = 20
_NO_TEXT = "a button holds no text here; these %d bytes are left out: %s"
_SWITCHES = ("checkbox", "radiobutton", "check box", "radio button")

# What an id was: "card", "background", or the part of a layer with the layer's old id.
PartKey = Tuple[str, int, int]


@dataclass
class Converted:
    """The new stack, and what became of the old one.

    `cards` and `backgrounds` have the new id of each old one, `parts` that of each part by its layer ("card" or
    "background"), the layer's old id and its own. `names` has what each new id is called in the report; 0 is the stack.
    `places` has the same by where the object stands in the source.
    """

    stack: Stack
    old: OldStack
    cards: Dict[int, int] = field(default_factory=dict)
    backgrounds: Dict[int, int] = field(default_factory=dict)
    parts: Dict[PartKey, int] = field(default_factory=dict)
    names: Dict[int, str] = field(default_factory=dict)
    places: Dict[str, str] = field(default_factory=dict)


class _Texts:
    """Sees that no text is too long: cuts it where that was asked for, else keeps it for the error."""

    def __init__(self, old: OldStack, cut: bool) -> None:
        self.old, self.cut = old, cut
        self.too_long: List[str] = []

    def fit(self, text: bytes, what: str, where: str) -> bytes:
        if len(text) <= MOST_TEXT:
            return text
        told = "the %s has %d bytes, and a text has at most %d" % (what, len(text), MOST_TEXT)
        if self.cut:
            self.old.note(where, told + "; what is past them is left out")
        else:
            self.too_long.append("%s: %s" % (where, told))
        return text[:MOST_TEXT]

    def check(self) -> None:
        """Raises BadSource where a text is too long and may not be cut."""
        if self.too_long:
            more = len(self.too_long) - _TOLD
            lines = self.too_long[:_TOLD] + (["and %d more" % more] if more > 0 else [])
            raise BadSource("\n".join(lines + ["make them shorter in the source, or say --cut to cut them"]))


def called(kind: str, name: bytes, number: int) -> str:
    """What an object is called in the report, as `card "Index" (id 7)`."""
    return "%s \"%s\" (id %d)" % (kind, show(name), number) if name else "%s id %d" % (kind, number)


def _check_ids(old: OldStack) -> None:
    """Sees that ids are used once in their lists, that cards have backgrounds, and that all fit."""
    kinds: List[Tuple[str, Sequence[OldLayer]]] = [("background", old.backgrounds), ("card", old.cards)]
    for kind, layers in kinds:
        seen: Set[int] = set()
        for layer in layers:
            if layer.id in seen:
                raise BadSource("two %ss have the id %d" % (kind, layer.id))
            seen.add(layer.id)
            ids = [part.id for part in layer.parts]
            double = [each for each in ids if ids.count(each) > 1] if len(set(ids)) < len(ids) else []
            if double:
                raise BadSource("%s id %d: two parts have the id %d" % (kind, layer.id, double[0]))
    known = {each.id for each in old.backgrounds}
    for card in old.cards:
        if card.background not in known:
            raise BadSource("card id %d: there is no background with the id %d" % (card.id, card.background))
    if not old.cards:
        raise BadSource("there is no card, and a stack has at least one")


def _check_count(old: OldStack) -> None:
    layers: List[OldLayer] = [*old.backgrounds, *old.cards]
    objects = len(layers) + sum(len(layer.parts) for layer in layers)
    if objects > MOST_OBJECTS:
        raise BadSource("there are %d backgrounds, cards, buttons and fields, and a stack has at most %d of them"
                        % (objects, MOST_OBJECTS))


def _without_empty(old: OldStack) -> None:
    """Leaves out each background without a card: here each has one."""
    used = {card.background for card in old.cards}
    for background in old.backgrounds:
        if background.id not in used:
            old.note(called("background", background.name, background.id),
                     "it has no card, and is left out with its %d parts" % len(background.parts))
    old.backgrounds = [each for each in old.backgrounds if each.id in used]


def _all_different(ids: List[int]) -> bool:
    """Whether all ids may stay as they are."""
    return len(set(ids)) == len(ids) and all(1 <= each <= MOST_KEPT_ID for each in ids)


def _number(converted: Converted) -> Iterator[int]:
    """Gives cards and backgrounds their new ids, and answers the numbers that are free."""
    old = converted.old
    kinds: List[Tuple[str, Sequence[OldLayer], Dict[int, int]]] = [
        ("card", old.cards, converted.cards), ("background", old.backgrounds, converted.backgrounds)]
    taken: Set[int] = set()
    for _, layers, new in kinds:
        for layer in layers:
            if 1 <= layer.id <= MOST_KEPT_ID and layer.id not in taken:
                new[layer.id] = layer.id
                taken.add(layer.id)
    own = [part.id for layer in [*old.backgrounds, *old.cards] for part in layer.parts]
    if _all_different([*taken, *own]) and len(taken) == len(old.cards) + len(old.backgrounds):
        return iter(own)
    free = (number for number in count(1) if number not in taken)
    for kind, layers, new in kinds:
        for layer in layers:
            if layer.id not in new:
                new[layer.id] = next(free)
                old.note(called(kind, layer.name, layer.id), "its id is %d now" % new[layer.id])
    return free


class _Converter:
    """Makes the layers of the new stack."""

    def __init__(self, old: OldStack, cut: bool) -> None:
        self.old = old
        self.texts = _Texts(old, cut)
        self.converted = Converted(Stack(0), old)
        self.free = _number(self.converted)

    def stack(self) -> Converted:
        old, new = self.old, self.converted.stack
        new.name = self.texts.fit(old.name, "name", "the stack")
        new.script = self.texts.fit(old.script, "script", "the stack")
        self.converted.names[0] = "the stack"
        new.backgrounds = [self.background(each) for each in old.backgrounds]
        of_id = {each.id: each for each in old.backgrounds}
        new.cards = [self.card(each, of_id[each.background]) for each in old.cards]
        self.texts.check()
        ids = [*self.converted.cards.values(), *self.converted.backgrounds.values(), *self.converted.parts.values()]
        new.next_id = max(max(ids) + 1, 3)
        return self.converted

    def layer(self, kind: str, old: OldLayer, new: Union[Background, Card]) -> str:
        """What backgrounds and cards have in common; answers what the layer is called."""
        where = called(kind, old.name, new.id)
        self.converted.names[new.id] = self.converted.places[old.where or where] = where
        new.name = self.texts.fit(old.name, "name", where)
        new.script = self.texts.fit(old.script, "script", where)
        new.cant_delete = old.cant_delete
        if old.marked:
            self.old.drop(old.where or where, "marks of cards")
        for part in old.parts:
            new.parts.append(self.part(kind, old, part, where))
        return where

    def part(self, layer: str, owner: OldLayer, old: OldPart, place: str) -> Part:
        number = next(self.free)
        self.converted.parts[layer, owner.id, old.id] = number
        kind = "%s %s" % ("bkgnd" if layer == "background" else "card", old.kind)
        where = "%s, %s" % (called(kind, old.name, number), place)
        self.converted.names[number] = self.converted.places[old.where or where] = where
        new = Part(old.kind, number, self.texts.fit(old.name, "name", where), old.visible)
        new.script = self.texts.fit(old.script, "script", where)
        if old.kind == FIELD:
            new.lock_text, new.shared_text = old.lock_text, old.shared_text and layer == "background"
            new.text = self.texts.fit(old.text, "text", where)
        else:
            new.shared_hilite, new.hilite = old.shared_hilite, old.hilite
            self.button_lost(old, old.text, where)
        if old.style and old.style.lower() not in _SWITCHES:
            self.old.drop(old.where or where, "looks of parts")
        return new

    def button_lost(self, old: OldPart, text: bytes, where: str) -> None:
        """What a button has in HyperCard and not here."""
        if text:
            self.old.note(where, _NO_TEXT % (len(text), show(text)))
        if not old.enabled:
            self.old.note(where, "it was disabled; here a click sends it its messages")

    def background(self, old: OldBackground) -> Background:
        new = Background(self.converted.backgrounds[old.id])
        where = self.layer("background", old, new)
        for content in old.contents:
            part = self.part_of(content, old, new.parts, where)
            if part and part.kind == FIELD and content.text is not None:
                part.text = self.texts.fit(content.text, "shared text", where)
            elif part and part.kind == BUTTON:
                part.hilite = self.lit(content, part, where)
        return new

    def part_of(self, content: OldContent, old: OldLayer, parts: List[Part], where: str) -> Union[Part, None]:
        """The new part of which a content speaks; None, and a note, where there is none."""
        for before, part in zip(old.parts, parts):
            if before.id == content.part:
                return part
        self.old.note(where, "something is kept for the part %d, which isn't there: %s"
                      % (content.part, show(content.text or b"a hilite")))
        return None

    def lit(self, content: OldContent, part: Part, where: str) -> bool:
        """The hilite that a content keeps for a button: a text `1` is one too."""
        if content.hilite is None and content.text not in (None, b"", b"0", b"1"):
            text = content.text or b""
            self.old.note(where, "%s: %s" % (self.converted.names[part.id], _NO_TEXT % (len(text), show(text))))
        return content.hilite if content.hilite is not None else content.text == b"1"

    def card(self, old: OldCard, background: OldBackground) -> Card:
        new = Card(self.converted.cards[old.id], self.converted.backgrounds[background.id])
        where = self.layer("card", old, new)
        behind = next(each for each in self.converted.stack.backgrounds if each.id == new.background)
        for content in old.contents:
            if content.layer == "card":
                self.own_content(content, old, new, where)
            else:
                self.content(content, background, behind, new, where)
        return new

    def own_content(self, content: OldContent, old: OldCard, new: Card, where: str) -> None:
        """A text or a hilite of the card's own part."""
        part = self.part_of(content, old, new.parts, where)
        if part and part.kind == FIELD and content.text is not None:
            part.text = self.texts.fit(content.text, "text", self.converted.names[part.id])
        elif part and part.kind == BUTTON and content.hilite is not None:
            part.hilite = content.hilite
        elif part and part.kind == BUTTON and content.text:
            self.old.note(self.converted.names[part.id], _NO_TEXT % (len(content.text), show(content.text)))

    def content(self, content: OldContent, background: OldBackground, behind: Background, new: Card,
                where: str) -> None:
        """A text or a hilite that the card keeps for a part of its background."""
        part = self.part_of(content, background, behind.parts, where)
        if part is None:
            return
        if part.kind == FIELD:
            if content.text is not None:
                new.texts[part.id] = self.texts.fit(content.text, "text of %s" % show(part.name), where)
        else:
            new.hilites[part.id] = self.lit(content, part, where)


def convert(old: OldStack, cut: bool = False) -> Converted:
    """The stack that an old one becomes. Raises BadSource where it doesn't fit: too many objects, no card, an id that
    is used twice, and texts over 30,000 bytes unless they may be cut."""
    _check_ids(old)
    _without_empty(old)
    _check_count(old)
    return _Converter(old, cut).stack()
