"""The places of the history as a page shows them: which line made each, and where the program stands.

The program counts how many places can be undone and how many redone (`.history`). Which line made which place follows
from the lines that were answered: a command that ended with `ok` or `fault` adds a place behind the cursor and drops
what came after it; `.undo` and `.redo` only move the cursor. The counts of the program decide wherever they and this
list could part: past the depth of the history the oldest places fall away.
"""

from dataclasses import dataclass, field
from typing import List, Optional

# Dot lines that add a place; every other dot line looks, saves or moves.
COMMANDS = (b".open", b".click", b".type")
# What is told of a place whose line isn't known.
UNKNOWN = b"(a line that isn't known)"


@dataclass
class Place:
    """A place of the history: the line that made it, its number in the session, and how it ended."""

    line: bytes
    number: int
    ending: str


@dataclass
class Places:
    """The places that can be gone to. Place 0 is the stack as it was opened, or, once the oldest places fell away, the
    oldest state that is left. `cursor` is the place where the program stands."""

    made: List[Place] = field(default_factory=list)
    cursor: int = 0
    dropped: int = 0

    def last(self) -> int:
        """The greatest place that can be gone to."""
        return len(self.made)

    def at(self, place: int) -> Optional[Place]:
        """What made a place; None for place 0."""
        return self.made[place - 1] if 0 < place <= len(self.made) else None

    def answered(self, line: bytes, number: int, ending: str) -> None:
        """A line was answered. `ending` is `ok`, `fault 4` or `refused 2`."""
        if ending.startswith("refused") or not adds_place(line):
            return
        del self.made[self.cursor:]
        self.made.append(Place(line, number, ending))
        self.cursor += 1

    def counted(self, undoable: int, redoable: int) -> None:
        """What the program answers to `.history` now. Where it has more places than the list, the first ones are of
        lines that aren't known."""
        surplus = len(self.made) - (undoable + redoable)
        if surplus > 0:
            del self.made[:surplus]
            self.dropped += surplus
        self.made[:0] = [Place(UNKNOWN, 0, "ok")] * -surplus
        self.cursor = undoable


def adds_place(line: bytes) -> bool:
    """Whether a line is a command, which adds a place unless it is refused. The program drops a return at its end."""
    line = line[:-1] if line.endswith(b"\r") else line
    return not line.startswith(b".") or any(line == word or line.startswith(word + b" ") for word in COMMANDS)


def move(cursor: int, place: int) -> Optional[bytes]:
    """The line that goes from one place to another; None where they are the same."""
    if place == cursor:
        return None
    return b".undo %d" % (cursor - place) if place < cursor else b".redo %d" % (place - cursor)
