"""Puts stand-ins for what HyperCard has into the script of a stack, and the lighting of switches into their scripts.

The stand-ins are the handlers of stacks/compat.stack. A stack gets those whose names its scripts have, and those that
these call; one that the stack's script has already stays its own.
"""

import os
import re
from typing import Dict, List, Set, Tuple

from front.handlers import handlers
from front.program import HERE
from front.stack_text import BUTTON, Part, Stack, read
from migrate.convert import MOST_TEXT, Converted
from migrate.old import OldLayer, OldPart
from migrate.reading import holders

PATH = os.path.join(HERE, "stacks", "compat.stack")
HEADING = b"-- Stand-ins for words of HyperCard, put here by ./import"
_WORD = re.compile(rb"[A-Za-z_][A-Za-z0-9_]*")
_CHECK_BOX, _RADIO = ("checkbox", "check box"), ("radiobutton", "radio button")


def stand_ins() -> Dict[str, bytes]:
    """Each stand-in by its name in lower case: the lines of its handler."""
    with open(PATH, "rb") as file:
        script = read(file.read()).script
    lines = script.split(b"\r")
    return {each.name.decode().lower(): b"\r".join(lines[each.first : each.after]) for each in handlers(script)}


def _words(text: bytes) -> Set[str]:
    return {each.group(0).decode().lower() for each in _WORD.finditer(text)}


def needed(stack: Stack) -> List[str]:
    """The names of the stand-ins that the scripts of a stack have, and of those that these call, in their order."""
    known = stand_ins()
    own = {each.name.decode().lower() for each in handlers(stack.script)}
    found = set().union(*(_words(each.script) for _, each in holders(stack))) & set(known)
    while True:
        more = {name for each in found - own for name in _words(known[each]) if name in known} - found
        if not more:
            return [name for name in known if name in found and name not in own]
        found |= more


def put(stack: Stack) -> Tuple[List[str], str]:
    """Puts the stand-ins that are needed behind the stack's script. Answers their names, and why none were put."""
    names = needed(stack)
    if not names:
        return [], ""
    known = stand_ins()
    pieces = [stack.script] if stack.script else []
    script = b"\r".join(pieces + [HEADING] + [known[name] for name in names])
    if len(script) > MOST_TEXT:
        return [], "the script of the stack would have %d bytes with the stand-ins, and at most %d fit" % (
            len(script), MOST_TEXT)
    stack.script = script
    return [handlers(known[name])[0].name.decode() for name in names], ""


def light_switches(converted: Converted) -> List[str]:
    """Lets check boxes and radio buttons that HyperCard lights by itself be lit by a handler of their own. Answers
    what each is called."""
    told: List[str] = []
    stack, old = converted.stack, converted.old
    pairs: List[Tuple[str, OldLayer, List[Part]]] = [
        *(("background", before, new.parts) for before, new in zip(old.backgrounds, stack.backgrounds)),
        *(("card", before, new.parts) for before, new in zip(old.cards, stack.cards))]
    for layer, before, parts in pairs:
        for one, part in zip(before.parts, parts):
            lines = _lighting(layer, one, part, before.parts, parts)
            if lines and len(part.script) + sum(map(len, lines)) + 100 <= MOST_TEXT:
                part.script = _with_lines(part.script, lines)
                told.append(converted.names[part.id])
    return told


def _lighting(layer: str, one: OldPart, part: Part, olds: List[OldPart], parts: List[Part]) -> List[bytes]:
    """The statements that light a switch; none where it isn't one, or isn't lit by itself."""
    if part.kind != BUTTON or not (one.auto_hilite or one.family):
        return []
    if one.family or one.style.lower() in _RADIO:
        word = b"bg" if layer == "background" else b"card"
        others = [new.id for old, new in zip(olds, parts)
                  if old.family == one.family and one.family and new.id != part.id and new.kind == BUTTON]
        return [b"set the hilite of me to true"] + [
            b"set the hilite of %b button id %d to false" % (word, number) for number in others]
    return [b"set the hilite of me to not the hilite of me"] if one.style.lower() in _CHECK_BOX else []


def _with_lines(script: bytes, lines: List[bytes]) -> bytes:
    """The script whose handler for mouseDown does these lines first; one is made where there is none."""
    lines = [b"  " + each for each in lines]
    pieces = script.split(b"\r") if script else []
    for each in handlers(script):
        if each.kind == b"on" and each.name.lower() == b"mousedown":
            return b"\r".join(pieces[: each.first + 1] + lines + pieces[each.first + 1 :])
    return b"\r".join(pieces + [b"on mouseDown"] + lines + [b"  pass mouseDown", b"end mouseDown"])
