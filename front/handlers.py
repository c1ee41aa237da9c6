"""The handlers in a script: where each stands, and a script in which one is replaced.

A script is bytes whose lines stand between returns (byte 13). A handler begins with a line `on NAME` or
`function NAME` and ends with the first line `end NAME` after it. That is all that is read of it: a script that isn't in
the grammar has its handlers too, and whether it is in the grammar the program says.
"""

from dataclasses import dataclass
from typing import List, Optional, Tuple

from front.terminal_input import ends, handler_name, tokens


@dataclass(frozen=True)
class Handler:
    """A handler: `on` or `function`, its name as written, its first line from 0, and the line behind its last."""

    kind: bytes
    name: bytes
    first: int
    after: int


def handlers(script: bytes) -> List[Handler]:
    """The handlers of a script, in their order. One without an end is none."""
    lines = script.split(b"\r")
    found: List[Handler] = []
    place = 0
    while place < len(lines):
        handler = _at(lines, place)
        if handler:
            found.append(handler)
        place = handler.after if handler else place + 1
    return found


def with_handler(script: bytes, handler: bytes) -> Tuple[bytes, bool]:
    """The script with this handler in place of the first one of its kind and name, case ignored, or else behind all
    that stands in it; and whether one was replaced. The handler is its lines, joined by returns."""
    new = handler.split(b"\r")
    lines = script.split(b"\r") if script else []
    kind, name = tokens(new[0])[0], handler_name(new[0]).lower()
    for old in handlers(script):
        if (old.kind, old.name.lower()) == (kind, name):
            return b"\r".join(lines[: old.first] + new + lines[old.after :]), True
    if lines and not lines[-1]:
        lines.pop()
    return b"\r".join(lines + new), False


def _at(lines: List[bytes], first: int) -> Optional[Handler]:
    """The handler that begins in this line."""
    name = handler_name(lines[first])
    if not name:
        return None
    for place in range(first + 1, len(lines)):
        if ends(lines[place], name):
            return Handler(tokens(lines[first])[0], name, first, place + 1)
    return None
