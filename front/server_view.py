"""What a page is told of a stack: the current card, lists of cards and backgrounds, and an object with its properties.

Only what is looked at is told, in windows: at most so many parts or cards at once, and not much more than so many
characters of texts. Each function gives what JSON can hold.
"""

from typing import Dict, Iterable, List, Sequence, Union

from front.server_objects import ATTRIBUTES, FLAGS, Found, Json, Objects, title
from front.server_words import shown
from front.stack_text import FIELD, Background, Card, Part
from front.terminal_text import Coding

Layer = Union[Background, Card]

MOST_PARTS = 200
MOST_CARDS = 100
MOST_CHARACTERS = 1_000_000


def card_view(objects: Objects, start: int, coding: Coding) -> Dict[str, Json]:
    """The current card with a window of the parts that it shows, from this one on: those of its background, then its
    own. A start past the last one is the last window."""
    card, background = objects.card, objects.background
    everything = background.parts + card.parts
    start = max(0, min(start, (len(everything) - 1) // MOST_PARTS * MOST_PARTS))
    parts = _window(part_view(objects, part, coding) for part in everything[start:start + MOST_PARTS])
    here, below = objects.found[card.id], objects.found[background.id]
    return {
        "id": card.id, "name": shown(card.name, coding), "title": title(here, coding), "number": here.number,
        "background": {"id": background.id, "title": title(below, coding), "number": below.number},
        "parts": parts, "start": start, "all": len(everything), "hidden": sum(not part.visible for part in everything),
    }


def part_view(objects: Objects, part: Part, coding: Coding) -> Dict[str, Json]:
    """A button or a field of the current card or of its background, as it is on the current card."""
    found = objects.found[part.id]
    told: Dict[str, Json] = {
        "id": part.id, "kind": part.kind, "number": found.number, "name": shown(part.name, coding),
        "title": title(found, coding), "background": found.of_background, "visible": part.visible,
        "script": bool(part.script),
    }
    if part.kind == FIELD:
        return {**told, "text": shown(objects.text(part), coding), "locked": part.lock_text, "shared": part.shared_text}
    return {**told, "hilite": objects.hilite(part)}


def _window(views: Iterable[Dict[str, Json]]) -> List[Json]:
    """As many of the first views as stay within the characters, and one always. At most one beyond them is made."""
    kept: List[Json] = []
    used = 0
    for view in views:
        used += len(str(view.get("text", "")))
        if kept and used > MOST_CHARACTERS:
            break
        kept.append(view)
    return kept


def cards_view(objects: Objects, start: int, find: str, coding: Coding) -> Dict[str, Json]:
    """A window of the cards whose name, number or id has the text in it, case ignored; of all where it is empty."""
    return _listed(objects.stack.cards, objects, start, find, coding)


def backgrounds_view(objects: Objects, start: int, find: str, coding: Coding) -> Dict[str, Json]:
    """The same of the backgrounds."""
    return _listed(objects.stack.backgrounds, objects, start, find, coding)


def _listed(layers: Sequence[Layer], objects: Objects, start: int, find: str, coding: Coding) -> Dict[str, Json]:
    """A window of cards or backgrounds."""
    here = (objects.card.id, objects.background.id)
    wanted = find.strip().lower()
    rows: List[Json] = []
    count = 0
    for number, layer in enumerate(layers, 1):
        name = shown(layer.name, coding)
        if wanted and wanted not in name.lower() and wanted not in (str(number), "id %d" % layer.id):
            continue
        if start <= count < start + MOST_CARDS:
            rows.append({"id": layer.id, "number": number, "name": name, "here": layer.id in here})
        count += 1
    return {"rows": rows, "start": start, "all": count, "window": MOST_CARDS}


def object_view(objects: Objects, found: Found, coding: Coding) -> Dict[str, Json]:
    """An object with its properties and its script, for an inspector."""
    thing = found.thing
    told: Dict[str, Json] = {
        "id": found.id, "kind": found.kind, "title": title(found, coding), "name": shown(thing.name, coding),
        "number": found.number, "script": shown(thing.script, coding), "here": objects.is_here(found),
        "flags": {name: _flag(objects, found, name) for name in FLAGS[found.kind]},
    }
    if found.owner is not None:
        owner = objects.found[found.owner.id]
        told["owner"] = {"id": owner.id, "title": title(owner, coding), "number": owner.number}
    return told


def _flag(objects: Objects, found: Found, name: str) -> bool:
    """A property that is true or false, as it is on the current card."""
    if name == "hilite" and isinstance(found.thing, Part):
        return objects.hilite(found.thing)
    return bool(getattr(found.thing, ATTRIBUTES[name]))
