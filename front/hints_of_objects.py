"""The object that is meant by a name which no object has where it was sought: a button or a field of the other layer,
or one whose name is alike.
"""

import re
from typing import Callable, List, NamedTuple, Optional, Sequence

from front.hints_of_spelling import SHORTEST_NAME, alike
from front.server_objects import Objects
from front.stack_lines import spell
from front.stack_text import BUTTON, FIELD
from front.terminal_text import Coding, shown

CARD, BACKGROUND = "card", "background"
# The layer of a part where none is named, and the words of each kind of object.
_UNNAMED = {BUTTON: CARD, FIELD: BACKGROUND}
_WORDS = {BUTTON: "button|btn", FIELD: "field|fld", CARD: "card|cd", BACKGROUND: "background|bkgnd|bg"}
# An object by its name, without an owner.
_REFERENCE = r'(?:\b(?:(card|cd)|(background|bkgnd|bg)) +)?\b(?:%s) +"%s"(?! +of\b)'


class Sought(NamedTuple):
    """What wasn't there: its kind, the layer in which a part was sought, and whether the statement names the layer."""

    kind: str
    layer: str
    is_named: bool


def meant(name: str, statements: Sequence[str], objects: Callable[[], Optional[Objects]], coding: Coding) -> List[str]:
    """The object that is meant by a name, as it is spelled in an explanation, with the statements that sought it."""
    sought = _sought(name, statements)
    here = objects() if sought else None
    if not sought or not here:
        return []
    if sought.kind in (CARD, BACKGROUND):
        things = here.stack.cards if sought.kind == CARD else here.stack.backgrounds
        return _alike(name, sought.kind, [spell(each.name).decode("ascii") for each in things], coding)
    layers = {CARD: _names(here, CARD, sought.kind), BACKGROUND: _names(here, BACKGROUND, sought.kind)}
    other = BACKGROUND if sought.layer == CARD else CARD
    for each in layers[other]:
        if each.lower() == name.lower():
            return [_of_other_layer(sought, other, shown(each.encode("ascii"), coding))]
    for layer in (sought.layer, other):
        found = _alike(name, "%s %s" % (layer, sought.kind), layers[layer], coding)
        if found:
            return found
    return []


def _sought(name: str, statements: Sequence[str]) -> Optional[Sought]:
    """What a statement seeks by this name, without an owner."""
    for kind, words in _WORDS.items():
        reference = re.compile(_REFERENCE % (words, re.escape(name)), re.IGNORECASE)
        for found in filter(None, map(reference.search, statements)):
            layer = CARD if found.group(1) else BACKGROUND if found.group(2) else _UNNAMED.get(kind, "")
            return Sought(kind, layer, bool(found.group(1) or found.group(2)))
    return None


def _names(here: Objects, layer: str, kind: str) -> List[str]:
    """The names of the parts of a kind on a layer of the current card, spelled."""
    parts = here.card.parts if layer == CARD else here.background.parts
    return [spell(part.name).decode("ascii") for part in parts if part.kind == kind]


def _of_other_layer(sought: Sought, other: str, name: str) -> str:
    why = "" if sought.is_named else " A %s is one of the %s where nothing else is said." % (sought.kind, sought.layer)
    return '  did you mean %s %s "%s"?%s' % (other, sought.kind, name, why)


def _alike(name: str, what: str, names: Sequence[str], coding: Coding) -> List[str]:
    """The object of those names whose name is most like this one."""
    found = alike(name, names, SHORTEST_NAME)
    return ['  did you mean %s "%s"?' % (what, shown(found.encode("ascii"), coding))] if found else []
