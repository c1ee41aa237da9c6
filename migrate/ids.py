"""The ids that stand in scripts as numbers: where they name a part or a card that has another id now."""

import re
from dataclasses import dataclass
from typing import Dict, Iterator, List, Optional, Tuple, Union

from front.stack_text import Background, Card
from migrate.convert import Converted
from migrate.hyper_text import bare
from migrate.old import OldLayer
from migrate.reading import holders

_REFERENCE = re.compile(
    r"\b(?:(?P<layer>card|cd|bg|bkgnd|background)\s+)?(?P<part>button|btn|field|fld)\s+id\s+(?P<part_id>\d{1,9})\b"
    r"|\b(?P<object>card|cd|bg|bkgnd|background)\s+id\s+(?P<id>\d{1,9})\b")


@dataclass(frozen=True)
class Reference:
    """An id in a script: of which object the script is, the line from 1, the words as they stand, the new id where it
    is known and another one, and where in the script its digits stand."""

    holder: int
    line: int
    words: str
    new: Optional[int]
    start: int
    end: int


def _scripts(converted: Converted) -> Iterator[Tuple[int, bytes, str, Optional[int], List[int]]]:
    """Each script: its object's id, the script, the layer kind, the layer's old id, and the old ids of the
    backgrounds that are meant in it."""
    stack = converted.stack
    yield 0, stack.script, "stack", None, [each.id for each in converted.old.backgrounds]
    pairs: List[Tuple[str, Iterator[Tuple[OldLayer, Union[Background, Card]]]]] = [
        ("background", zip(converted.old.backgrounds, stack.backgrounds)),
        ("card", zip(converted.old.cards, stack.cards))]
    for kind, layers in pairs:
        for old, new in layers:
            behind = [old.id] if kind == "background" else [getattr(old, "background")]
            yield new.id, new.script, kind, old.id, behind
            for part in new.parts:
                yield part.id, part.script, kind, old.id, behind


def _new_part(converted: Converted, layer: str, old: int, kind: str, owner: Optional[int],
              behind: List[int]) -> Optional[int]:
    """The new id of a part; None where it isn't sure which one is meant."""
    if layer == "background":
        owners = [("background", each) for each in behind]
    elif kind == "card" and owner is not None:
        owners = [("card", owner)]
    else:
        owners = [("card", each.id) for each in converted.old.cards if each.background in behind]
    found = {converted.parts[key, each, old] for key, each in owners if (key, each, old) in converted.parts}
    return found.pop() if len(found) == 1 else None


def _layer_of(words: Dict[str, Optional[str]]) -> str:
    """The layer that a reference means: fields without one are the background's, buttons the card's."""
    if words["layer"]:
        return "card" if words["layer"] in ("card", "cd") else "background"
    return "background" if words["part"] in ("field", "fld") else "card"


def references(converted: Converted) -> List[Reference]:
    """All references by a number that is another one now, or isn't known."""
    found: List[Reference] = []
    for holder, script, kind, owner, behind in _scripts(converted):
        start = 0
        for number, line in enumerate(script.split(b"\r"), 1):
            for each in _REFERENCE.finditer(bare(line)):
                words = each.groupdict()
                if words["part"]:
                    old = int(words["part_id"])
                    new = _new_part(converted, _layer_of(words), old, kind, owner, behind)
                else:
                    old = int(words["id"])
                    table = converted.cards if words["object"] in ("card", "cd") else converted.backgrounds
                    new = table.get(old)
                if new != old:
                    spans = each.span("part_id" if words["part"] else "id")
                    found.append(Reference(holder, number, each.group(0), new, start + spans[0], start + spans[1]))
            start += len(line) + 1
    return found


def rewrite(converted: Converted, found: List[Reference]) -> List[Reference]:
    """Writes the new ids into the scripts, where they are known. Answers those that were written."""
    done = [each for each in found if each.new is not None]
    by_holder: Dict[int, List[Reference]] = {}
    for each in done:
        by_holder.setdefault(each.holder, []).append(each)
    for holder, object_ in holders(converted.stack):
        for each in reversed(by_holder.get(holder, [])):
            assert each.new is not None
            object_.script = object_.script[: each.start] + b"%d" % each.new + object_.script[each.end :]
    return done
