"""What a person may have meant by a line that wasn't done: a dot line, another object, another word, or what HyperCard
knows and this program doesn't. A hint stands behind the program's explanation, and only where there is one.
"""

import re
from typing import Callable, List, Optional, Sequence

from front import hints_of_dot_lines as of_dot_lines
from front import hints_of_hypercard as of_hypercard
from front import hints_of_objects as of_objects
from front import hints_of_spelling as of_spelling
from front.answers import FAULT, NOT_IN_GRAMMAR, Answer
from front.hints_of_dot_lines import DotLines
from front.server_objects import Objects
from front.terminal_text import Coding

SYNTAX, CANT_UNDERSTAND, NO_SUCH_OBJECT, BAD_ARGUMENT = 1, 2, 3, 16

_CARET = re.compile(r" *\^")
_SENT = re.compile('  sent: "(.+)"')
_SOUGHT = re.compile('  sought: "(.+)"')
_STATEMENT = "    "


def hints(line: bytes, answer: Answer, objects: Callable[[], Optional[Objects]], coding: Coding,
          known: DotLines) -> List[str]:
    """The hints for a line and its answer. `known` has the dot lines that there are; `objects` gives the objects of the
    stack, where they are known."""
    told, typed = answer.explained, line.decode("ascii", "replace")
    fault = answer.number if answer.ending == FAULT and told else 0
    if answer.is_refused(NOT_IN_GRAMMAR) and told:
        meant = of_dot_lines.with_dot if typed.lstrip().startswith(".") else of_dot_lines.without_dot
        return meant(typed, known) or _unread(told)
    if fault == SYNTAX:
        return _unread(told)
    if fault == CANT_UNDERSTAND:
        return _unhandled(typed, told, objects, known)
    if fault == NO_SUCH_OBJECT:
        return _not_found(told, objects, coding)
    return of_spelling.menu_item(_statements(told)) if fault == BAD_ARGUMENT else []


def _unread(explained: Sequence[str]) -> List[str]:
    """What is meant where a text isn't in the grammar: above the first caret of an explanation."""
    for above, line in zip(explained, explained[1:]):
        if _CARET.fullmatch(line) and above.startswith(_STATEMENT):
            text, column = above[len(_STATEMENT):], line.index("^") - len(_STATEMENT) + 1
            return of_hypercard.unread(text, column) or of_spelling.word_of_language(text, column)
    return []


def _unhandled(typed: str, explained: Sequence[str], objects: Callable[[], Optional[Objects]],
               known: DotLines) -> List[str]:
    """What is meant by a message that nobody handles: where it is that of the line itself, a dot line."""
    names = [found.group(1) for found in map(_SENT.fullmatch, explained) if found]
    if not names:
        return []
    is_line = names[0] == typed.strip().partition(" ")[0]
    meant = of_dot_lines.without_dot(typed, known) if is_line else []
    meant = meant or of_hypercard.unhandled(names[0], _statements(explained))
    here = None if meant else objects()
    return of_spelling.message(names[0], here) if here else meant


def _not_found(explained: Sequence[str], objects: Callable[[], Optional[Objects]], coding: Coding) -> List[str]:
    """The object that is meant by the name which was sought."""
    names = [found.group(1) for found in map(_SOUGHT.fullmatch, explained) if found]
    return of_objects.meant(names[0], _statements(explained), objects, coding) if names else []


def _statements(explained: Sequence[str]) -> List[str]:
    """The statements that an explanation shows."""
    return [line[len(_STATEMENT):] for line in explained if line.startswith(_STATEMENT)]
