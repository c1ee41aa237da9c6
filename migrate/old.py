"""An old stack as its source describes it, before anything is renumbered, and the errors of reading one.

All texts are bytes of Mac Roman with returns (byte 13) between their lines. Parts have the ids of their layer: in
HyperCard each card and each background counts its own parts.
"""

import collections
from dataclasses import dataclass, field
from typing import Counter, Dict, List, Optional, Tuple


class BadSource(Exception):
    """The source can't be read as a stack. The text says what is wrong, and where."""


@dataclass
class OldPart:
    """A button or a field, and where it stands in the source. `text` is the text of a card's field, the shared text of
    a background's field, or what a button holds (the lines of a popup menu). `hilite` is a button's own or shared
    hilite."""

    kind: str  # "button" or "field"
    id: int
    name: bytes = b""
    script: bytes = b""
    visible: bool = True
    lock_text: bool = False
    shared_text: bool = False
    shared_hilite: bool = True
    hilite: bool = False
    auto_hilite: bool = False
    enabled: bool = True
    style: str = ""
    family: int = 0
    text: bytes = b""
    where: str = ""


@dataclass
class OldContent:
    """What a card keeps for a part: a text, or a hilite, or both. The layer is "card" or "background"."""

    layer: str
    part: int
    text: Optional[bytes] = None
    hilite: Optional[bool] = None


@dataclass
class OldLayer:
    """What backgrounds and cards have in common. `where` says where it stands in the source."""

    id: int
    name: bytes = b""
    cant_delete: bool = False
    script: bytes = b""
    parts: List[OldPart] = field(default_factory=list)
    contents: List[OldContent] = field(default_factory=list)
    marked: bool = False
    where: str = ""


@dataclass
class OldBackground(OldLayer):
    """A background. Its contents are the shared texts and hilites of its parts."""


@dataclass
class OldCard(OldLayer):
    """A card, of the background with the id `background`."""

    background: int = 0


@dataclass
class OldStack:
    """A whole stack, its cards in their order, and what the reader left aside.

    `dropped` counts, for each kind of thing that has no place here (geometry, pictures, fonts, ..), how many there
    were for each object. `unknown` has what the reader doesn't know, with each place. `notes` are sentences about what
    was changed on the way, each with its place. `source` says what was read.
    """

    source: str
    name: bytes = b""
    script: bytes = b""
    backgrounds: List[OldBackground] = field(default_factory=list)
    cards: List[OldCard] = field(default_factory=list)
    dropped: Dict[str, Counter[str]] = field(default_factory=dict)
    unknown: Dict[str, List[str]] = field(default_factory=dict)
    notes: List[Tuple[str, str]] = field(default_factory=list)

    def drop(self, where: str, kind: str, count: int = 1) -> None:
        """Counts something of this kind that has no place here."""
        self.dropped.setdefault(where, collections.Counter())[kind] += count

    def dont_know(self, what: str, where: str) -> None:
        """Keeps the name of an element or a key that the reader doesn't know."""
        self.unknown.setdefault(what, []).append(where)

    def note(self, where: str, text: str) -> None:
        """Keeps a sentence about what was changed while reading."""
        self.notes.append((where, text))
