"""What the terminal shows of a stack and a session: the cards, a card, a script, what was changed, the help, a log.

Each view is lines without their ends.
"""

import re
from typing import Iterable, List

from front.server_objects import Found, Objects
from front.session import Entry
from front.stack_lines import spell
from front.stack_text import FIELD, Part
from front.terminal_state import title
from front.terminal_text import Coding, shown
from front.text_diff import changes

# How many lines of a field's text, and how many characters of each, a card shows.
MOST_LINES = 12
MOST_CHARACTERS = 100
UNDO_TO = re.compile(rb"(\.undo +to +)(0|[1-9][0-9]*) *")

HELP = """\
A line that begins with no dot is HyperTalk. What begins with "on" or "function" is a handler up to its "end", and you
are asked for which object it is. "repeat", and an "if" whose line ends with "then", go on up to their "end".

  .open              sends openStack, openBackground, openCard
  .click PART        clicks a button or a field:  .click button "Go"
  .type "T" into F   types into a field:          .type "milk" into field "Note"
  .undo [K], .redo [K]  goes one command back or forth, or K;   .undo to N  to the state after your line N
  .show              the stack as text            .history     how many commands can be undone, and redone
  .globals           the global variables         .where       the id of the current card
  .cells NAME        the cells of an external     .save        keeps the stack in its file
  .quit              ends, and so does Control-D; asks where changes aren't saved

  .cards             all cards                    .card        the current card with its fields and buttons
  .script OBJECT     a script with line numbers:  .script this card
  .edit OBJECT       a script in your editor:     .edit button "Go"
  .diff              what the last command changed in the stack's text
  .log FILE          keeps your lines with their answers in a file
  .help              this page

Tab completes. Control-C breaks a command off: then all is as before it. docs/LANGUAGE.md has the whole language."""


def cards(objects: Objects, coding: Coding) -> List[str]:
    """A line for each card, in the order of the stack; a star marks the current one."""
    lines = []
    width = len(str(len(objects.stack.cards)))
    for number, card in enumerate(objects.stack.cards, 1):
        mark = "*" if card is objects.card else " "
        names = title(objects.found[card.id], coding), title(objects.found[card.background], coding)
        lines.append("%s %*d  %s (id %d), %s" % (mark, width, number, names[0], card.id, names[1]))
    return lines


def card(objects: Objects, coding: Coding) -> List[str]:
    """The current card: its fields with their texts, and its buttons, as they can be seen."""
    here = objects.found[objects.card.id]
    below = title(objects.found[objects.background.id], coding)
    count = len(objects.stack.cards)
    lines = ["%s (id %d), card %d of %d, %s" % (title(here, coding), here.id, here.number, count, below)]
    hidden = 0
    for part in objects.background.parts + objects.card.parts:
        hidden += not part.visible
        if part.visible:
            lines += _part(objects, part, coding)
    return lines + (["  and %d hidden" % hidden] if hidden else [])


def _part(objects: Objects, part: Part, coding: Coding) -> List[str]:
    """A button with its hilite, or a field with its text."""
    name = "%s (id %d)" % (title(objects.found[part.id], coding), part.id)
    if part.kind != FIELD:
        return ["  [%s] %s" % ("x" if objects.hilite(part) else " ", name)]
    notes = [word for word, holds in (("locked", part.lock_text), ("shared", part.shared_text)) if holds]
    pieces = objects.text(part).split(b"\r") if objects.text(part) else []
    lines = ["  %s%s:%s" % (name, ", " + ", ".join(notes) if notes else "", "" if pieces else " empty")]
    lines += ["    | " + _cut(shown(spell(piece), coding)) for piece in pieces[:MOST_LINES]]
    rest = len(pieces) - MOST_LINES
    return lines + (["    and %d more line%s" % (rest, "s" if rest > 1 else "")] if rest > 0 else [])


def _cut(text: str) -> str:
    return text if len(text) <= MOST_CHARACTERS else text[:MOST_CHARACTERS] + ".."


def script(found: Found, coding: Coding) -> List[str]:
    """A script with line numbers, below a line that says of which object it is."""
    head = "%s (id %d)" % (title(found, coding), found.id)
    if not found.thing.script:
        return [head + " has no script"]
    pieces = found.thing.script.split(b"\r")
    width = len(str(len(pieces)))
    return [head] + ["%*d  %s" % (width, at, shown(spell(piece), coding)) for at, piece in enumerate(pieces, 1)]


def diff(before: bytes, after: bytes, coding: Coding) -> List[str]:
    """What differs between two texts of a stack, with the object that each difference belongs to."""
    lines: List[str] = []
    for change in changes(before.rstrip(b"\n"), after.rstrip(b"\n")):
        lines.append("@ " + change.where.decode("ascii", "backslashreplace"))
        lines += ["%s %s" % (sign, shown(line, coding)) for sign, line in change.lines]
    return lines or ["The last command changed nothing in the stack's text."]


def log(entries: Iterable[Entry]) -> bytes:
    """The user's lines with their answers, as a session is stored. Lines are counted as the user counts them."""
    lines: List[bytes] = []
    mine = [0]
    for entry in entries:
        mine.append(mine[-1] + (not entry.own))
        if not entry.own:
            lines += [_counted(entry.line, mine)] + entry.answer.lines()
    return b"".join((line if line != b"> " else b">") + b"\n" for line in lines)


def _counted(line: bytes, mine: List[int]) -> bytes:
    """The line, where it is `.undo to N` with the number that the user typed. The list has, for each number of a line
    of the program up to this one, how many of the lines up to it are the user's. A number of no line was sent as one
    that is greater by the lines before this one, so that it stands for none there either."""
    found = UNDO_TO.fullmatch(line)
    if not found:
        return line
    number = int(found.group(2))
    before = len(mine) - 2
    return found.group(1) + b"%d" % (mine[number] if number <= before else number - before)
