"""Sets handlers aside that aren't in the grammar, so that the others of their scripts run.

Each line of such a handler becomes a comment. What stands outside of handlers and isn't in the grammar does too.
"""

from dataclasses import dataclass
from typing import Dict, List, Set, Tuple

from front.handlers import handlers
from front.stack_text import Stack
from migrate.convert import MOST_TEXT
from migrate.reading import Blocker, holders

MARK = b"--| "


@dataclass(frozen=True)
class Aside:
    """What was set aside: of which object, its first line from 1, and how the handler begins."""

    id: int
    line: int
    head: bytes


def _spans(script: bytes, lines: Set[int]) -> List[Tuple[int, int]]:
    """From which line, and up to the one behind, a script has to be set aside for these lines, which count from 0."""
    known = [(each.first, each.after) for each in handlers(script)]
    found = {next(((first, after) for first, after in known if first <= line < after), (line, line + 1))
             for line in lines}
    return sorted(found)


def set_aside(stack: Stack, blockers: List[Blocker]) -> Tuple[List[Aside], List[int]]:
    """Sets aside all in which a blocker stands. Answers what, and the objects whose scripts have no room for it."""
    places: Dict[int, Set[int]] = {}
    for each in blockers:
        places.setdefault(each.id, set()).add(each.line - 1)
    done: List[Aside] = []
    full: List[int] = []
    for number, holder in holders(stack):
        if number not in places:
            continue
        lines = holder.script.split(b"\r")
        spans = _spans(holder.script, places[number])
        for first, after in spans:
            lines[first:after] = [MARK + line for line in lines[first:after]]
        script = b"\r".join(lines)
        if len(script) > MOST_TEXT:
            full.append(number)
            continue
        done += [Aside(number, first + 1, holder.script.split(b"\r")[first]) for first, _ in spans]
        holder.script = script
    return done, full
