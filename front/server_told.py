"""What a page is told of the lines that were answered: the transcript, with the places of scripts that it names.

A long answer is cut: the page asks for the whole one where it wants it.
"""

import re
from typing import Dict, List, Optional, Sequence, Tuple

from front.answers import OK, Answer
from front.hints import hints
from front.hints_of_dot_lines import OF_PROGRAM
from front.server_objects import Json, Objects, title
from front.server_words import shown
from front.session import SHOW, Entry
from front.stack_lines import unspell
from front.stored import Step, is_answer, lines_of, step_of
from front.terminal_text import Coding

# How many lines of an answer, and how many messages, the transcript has, and how long such a line is at most.
MOST_LINES = 100
LONGEST_LINE = 2_000
MOST_ENTRIES = 100

UNDO_TO = re.compile(rb"\.undo to ([0-9]+)")
# A line of an explanation that names a script: the line in it and the column, where they are told, and the object's id.
PLACE = re.compile(r"\s+(?:at|called from) (?:line ([0-9]+)(?:, column ([0-9]+))? of )?the script of .*"
                   r"\(id ([0-9]+)\)(?:, in (?:on|function) [A-Za-z0-9_]+)?(?::|;.*)?")


def entry_view(number: int, line: bytes, answer: Answer, own: bool, objects: Optional[Objects],
               coding: Coding) -> Dict[str, Json]:
    """A line with its answer. The number is that of the line in the session; `own` says that the page asked only to
    look. The messages carry the names that their objects have now, and hints are of the card that is current now."""
    meant = hints(line, answer, lambda: objects, coding, OF_PROGRAM)
    texts = [text.decode("ascii", "backslashreplace") for text in answer.shown[:MOST_LINES]]
    return {
        "number": number, "line": shown(line, coding), "own": own,
        "shown": [text[:LONGEST_LINE] for text in texts],
        "more": len(answer.shown) - len(texts) + sum(len(text) > LONGEST_LINE for text in texts),
        "verdict": answer.verdict, "seconds": round(answer.seconds, 3),
        "explained": [explained_view(each) for each in [*answer.explained, *meant]],
        "told": list(answer.told),
        "messages": messages_view(answer.watched[:MOST_LINES], objects, coding),
        "moreMessages": max(0, len(answer.watched) - MOST_LINES),
    }


def texts_view(entry: Entry, coding: Coding) -> List[Json]:
    """The texts that an answer shows, for people: as they are, not as the program spells them. The text of the stack
    stays as it is written."""
    if entry.line.rstrip(b" ") == SHOW:
        return [text.decode("ascii", "backslashreplace") for text in entry.answer.shown[:MOST_LINES]]
    return [shown(unspell(text), coding) for text in entry.answer.shown[:MOST_LINES]]


def explained_view(line: str) -> Dict[str, Json]:
    """A line of an explanation; where it names a script, with the object's id, and the line and the column if any."""
    found = PLACE.fullmatch(line)
    if not found:
        return {"text": line}
    at, column, number = found.groups()
    return {"text": line, "id": int(number), "line": int(at) if at else None, "column": int(column) if column else None}


def messages_view(watched: Sequence[Tuple[str, int]], objects: Optional[Objects], coding: Coding) -> List[Json]:
    """The messages that were sent: each with its name, and the id and the name of its object."""
    told: List[Json] = []
    for name, number in watched:
        found = objects.get(number) if objects else None
        words = title(found, coding) if found else "id %d, which is gone" % number
        told.append({"name": name, "id": number, "title": words})
    return told


def users_line(lines: Sequence[Entry], entry: Entry) -> bytes:
    """The line as the user typed it: in `.undo to N` the user's lines count alone."""
    found = UNDO_TO.fullmatch(entry.line)
    if not found or entry.own or entry.answer.ending != OK:
        return entry.line
    return b".undo to %d" % sum(not each.own for each in lines[:int(found.group(1))])


def log_of(lines: Sequence[Entry]) -> bytes:
    """The user's lines with their answers, as a session is stored. A line that reads as an answer has a space before
    it, which means the same."""
    steps: List[Step] = []
    for entry in list(lines):
        if not entry.own:
            line = users_line(lines, entry)
            steps.append(step_of(b" " + line if is_answer(line) else line, entry.answer))
    return b"".join(line + b"\n" for line in lines_of(steps))
