"""What a page may do to the stack, each as lines of the program: the lines for an act, from what the page asks.

An act names objects by their ids, as the page was told them. Each function gives the lines, and raises NotDone with
words for people where the act can't be made into lines; nothing was sent then.
"""

from typing import List

from front.hypertalk_text import TEXT_LIMIT, set_lines, type_lines, unused_name
from front.server_objects import FLAGS, Found, Objects, reference
from front.server_play import Known, NotDone
from front.server_words import NotInStack, shown, typed
from front.stack_text import BUTTON, FIELD, Background, Card, Part
from front.terminal_text import Coding

MENU = ("New Card", "New Background", "New Button", "New Field", "Delete Card")
ON_BACKGROUND = ("New Button", "New Field")
# The externals of the program, and the lines that show their cells.
CELLS = {name: b".cells " + name.encode("ascii") for name in ("Count", "Bins", "Relay", "Gate")}
WAYS = {"first": b"go first card", "previous": b"go previous card", "next": b"go next card", "last": b"go last card"}


def found_in(objects: Objects, number: int) -> Found:
    """The object with this id."""
    found = objects.get(number)
    if found is None:
        raise NotDone("there is no object with the id %d any more" % number)
    return found


def part_here(objects: Objects, number: int, kind: str = "") -> Found:
    """The part with this id, which has to be on the current card or its background, and of the kind, if one is said."""
    found = found_in(objects, number)
    if not isinstance(found.thing, Part) or not objects.is_here(found):
        raise NotDone("that isn't on the current card")
    if kind and found.thing.kind != kind:
        raise NotDone("that is no " + kind)
    return found


def bytes_typed(text: str, coding: Coding) -> bytes:
    """The bytes of a text that was typed."""
    try:
        data = typed(text, coding)
    except NotInStack as wrong:
        raise NotDone(str(wrong)) from None
    if len(data) > TEXT_LIMIT:
        raise NotDone("a text has at most %d bytes, and this one has %d" % (TEXT_LIMIT, len(data)))
    return data


def line_of(text: str, coding: Coding) -> List[bytes]:
    """The line of a message box. Line ends in it stand between statements; those at its end are dropped."""
    try:
        line = typed(text.rstrip("\r\n"), coding)
    except NotInStack as wrong:
        raise NotDone(str(wrong)) from None
    if b"\n" in line:
        raise NotDone("a line can't hold a line feed, which is shown as \u240a: write lineFeed")
    return [line]


def click(objects: Objects, number: int) -> List[bytes]:
    """A click on a button or a field."""
    return [b".click " + reference(part_here(objects, number), here=True)]


def type_into(known: Known, number: int, text: str, was: str, coding: Coding) -> List[bytes]:
    """A text that was typed into a field, in place of the one that was shown there.

    The line is `.type` where that can hold the text. With a quote, a return or a line feed it can't: then a line of
    HyperTalk sends openField, puts the text, and sends closeField, as `.type` does; and a text that is too long for a
    line is built in a variable first. No line where the text is the one that stands there.
    """
    found = part_here(known.objects, number, FIELD)
    field = found.thing
    assert isinstance(field, Part)
    if field.lock_text:
        raise NotDone("the text of this field is locked")
    data, there = bytes_typed(text, coding), known.objects.text(field)
    if shown(there, coding) != was:
        raise NotDone("the text of this field was changed meanwhile; yours wasn't sent")
    if data == there:
        return []
    return type_lines(reference(found, here=True), data, True, unused_name([known.text]))


def set_name(known: Known, number: int, name: str, coding: Coding) -> List[bytes]:
    """A new name for an object."""
    data = bytes_typed(name, coding)
    return set_lines(reference(found_in(known.objects, number)), b"name", data, unused_name([known.text]))


def set_flag(objects: Objects, number: int, flag: str, value: bool) -> List[bytes]:
    """A property that is true or false. A hilite is that on the current card."""
    found = found_in(objects, number)
    if flag not in FLAGS[found.kind]:
        raise NotDone("a %s has no %s" % (found.kind, flag))
    here = flag == "hilite" and found.of_background
    if here:
        part_here(objects, number, BUTTON)
    words = (flag.encode("ascii"), reference(found, here), b"true" if value else b"false")
    return [b"set the %s of %s to %s" % words]


def set_script(known: Known, number: int, script: str, was: str, coding: Coding) -> List[bytes]:
    """A new script for an object, in place of the one that was shown: one line where it fits."""
    found = found_in(known.objects, number)
    if shown(found.thing.script, coding) != was:
        raise NotDone("the script was changed meanwhile; yours wasn't sent")
    data = bytes_typed(script, coding)
    return set_lines(reference(found), b"script", data, unused_name([known.text]))


def go(objects: Objects, number: int) -> List[bytes]:
    """To a card, or to the first card of a background."""
    found = found_in(objects, number)
    if not isinstance(found.thing, (Card, Background)):
        raise NotDone("only a card or a background can be gone to")
    return [b"go " + reference(found)]


def go_way(way: str) -> List[bytes]:
    """To the first, previous, next or last card."""
    if way not in WAYS:
        raise NotDone("there is no such way: " + way)
    return [WAYS[way]]


def menu(item: str, on_background: bool) -> List[bytes]:
    """An item of the menu; a new button or field on the background where that is asked."""
    if item not in MENU:
        raise NotDone("the menu has no such item: " + item)
    line = b'doMenu "' + item.encode("ascii") + b'"'
    return [b"set the editBkgnd to true\r" + line if on_background and item in ON_BACKGROUND else line]
