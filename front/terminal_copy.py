"""Finds the object that a person names in HyperTalk, by asking a second run of the program, on a copy of the stack as
it is now. So the session itself isn't asked: its history stays as it is, and so does what can be redone.
"""

import os
import re
import tempfile
from typing import Dict

from front.answers import NOT_IN_GRAMMAR, OK, Answer
from front.hypertalk_text import put_lines
from front.server_objects import STACK_ID, Found, reference
from front.session import Session
from front.stack_lines import spell
from front.terminal_state import State
from front.terminal_text import shown

# References of one word.
SHORT = {b"stack": b"this stack", b"card": b"this card", b"cd": b"this card", b"background": b"this background",
         b"bkgnd": b"this background", b"bg": b"this background"}
# Words and literals that mean the same whatever the variables hold, and whichever functions there are.
PLAIN = re.compile(rb'(?:"[^"]*"|[0-9]+|\b(?:this|next|previous|prev|card|cd|background|bkgnd|bg|button|btn|field|fld|'
                   rb'stack|id|of|in|first|second|third|fourth|fifth|sixth|seventh|eighth|ninth|tenth|last)\b| )+',
                   re.IGNORECASE)
NO_SUCH_PROPERTY = 10
EXAMPLES = 'an object is named as in HyperTalk, such as: button "Go", card field 1, this card, this stack'


class NotFound(Exception):
    """The words name no object; the text says why."""


class Named:
    """An object that was named: what it is, and HyperTalk that means it in the session too."""

    def __init__(self, found: Found, reference: bytes) -> None:
        self.found, self.reference = found, reference


def find(state: State, words: bytes) -> Named:
    """The object that these words of HyperTalk mean on the current card, such as `button "Go"` or `this stack`.

    The variables of the session count, its externals don't. Raises NotFound where there is none, and what Session
    raises where the copy can't be run."""
    words = SHORT.get(words.strip().lower(), words.strip())
    if not words:
        raise NotFound(EXAMPLES)
    objects = state.objects
    here = {b"this card": objects.card.id, b"this background": objects.background.id, b"this stack": STACK_ID}
    if words in here:
        return Named(objects.found[here[words]], words)
    with tempfile.TemporaryDirectory(prefix="yarvekko-") as folder:
        path = os.path.join(folder, "copy.stack")
        with open(path, "wb") as file:
            file.write(state.text)
        with Session(path, watch=False) as copy:
            number = _id_of(copy, state, words)
    found = objects.get(number)
    if found is None:
        raise NotFound("%s is no object" % shown(spell(words), state.coding))
    return Named(found, words if PLAIN.fullmatch(words) else reference(found))


def _id_of(copy: Session, state: State, words: bytes) -> int:
    """Asks the copy for the id. The stack has none."""
    copy.send(b"set the lockMessages to true\rgo card id %d" % state.card)
    if not PLAIN.fullmatch(words):
        for name, value in _globals(state).items():
            for line in put_lines(name, value):
                copy.send(line)
    answer = copy.send(b"put the short id of " + words)
    if answer.ending == OK and len(answer.shown) == 1 and answer.shown[0].isdigit():
        return int(answer.shown[0])
    if answer.number == NO_SUCH_PROPERTY:
        answer = copy.send(b"put the name of " + words)
        if answer.ending == OK and answer.shown[0].startswith(b"stack "):
            return STACK_ID
    raise NotFound("%s: %s" % (shown(spell(words), state.coding), _reason(answer)))


def _globals(state: State) -> Dict[bytes, bytes]:
    """The variables of the session with their values."""
    answer = state.session.send(b".globals", own=True)
    pairs = [text.partition(b" ") for text in answer.texts()]
    return {name: value for name, _, value in pairs}


def _reason(answer: Answer) -> str:
    """Why there is no object."""
    if answer.is_refused(NOT_IN_GRAMMAR):
        return EXAMPLES
    return answer.explained[0] if answer.explained else answer.verdict
