"""The dot line that is meant by a line without its dot, and by one that is misspelt or says too much or too little."""

import re
from typing import Callable, Dict, List, Optional, Pattern

from front.hints_of_spelling import alike

DotLines = Dict[str, Pattern[str]]

_NOTHING, _SOMETHING = re.compile(""), re.compile(".+")
# What may stand behind the word of a dot line: of the program's, and with those of the terminal alone.
OF_PROGRAM: DotLines = {
    "open": _NOTHING, "show": _NOTHING, "save": _NOTHING, "history": _NOTHING, "globals": _NOTHING, "where": _NOTHING,
    "quit": _NOTHING, "cells": re.compile(r"\w+"),
    "undo": re.compile("(?:(?:to +)?[0-9]+)?"), "redo": re.compile("[0-9]*"),
    "click": re.compile(r"(?:(?:card|cd|background|bkgnd|bg) +)?(?:button|btn|field|fld)\b.+", re.IGNORECASE),
    "type": re.compile('".*" into .+', re.IGNORECASE),
}
OF_TERMINAL: DotLines = {
    **OF_PROGRAM, "help": _NOTHING, "cards": _NOTHING, "card": _NOTHING, "diff": _NOTHING, "log": _SOMETHING,
    "script": _SOMETHING, "edit": _SOMETHING,
}
OTHER_WORDS = {"?": "help", "h": "help", "q": "quit", "exit": "quit", "bye": "quit"}
# How long a word is that may be misspelt.
SHORTEST_WORD = 3

_NAME_ALONE = re.compile('"[^"]*"')
_UNQUOTED = re.compile('([^"]+?) +into +(.+)', re.IGNORECASE)
_OPENS_NONE = "  .open sends openStack and the like, and opens no other stack: start ./card %s for that"


def without_dot(line: str, known: DotLines) -> List[str]:
    """What is meant by a line that begins with no dot, if it is a dot line."""
    word, _, rest = line.strip().partition(" ")
    name = OTHER_WORDS.get(word.lower(), word.lower())
    behind = _behind(name, rest.strip(), known) if name in known else None
    return [] if behind is None else [
        "  did you mean .%s? A line that begins with no dot is HyperTalk." % (name + " " + behind).strip()]


def with_dot(line: str, known: DotLines) -> List[str]:
    """What is meant by a line that begins with a dot and says nothing."""
    typed = line.strip()[1:]
    word, _, rest = typed.partition(" ")
    name = word.lower() if word.lower() in known else OTHER_WORDS.get(word.lower()) or alike(word, known, SHORTEST_WORD)
    if not name or name not in known:
        return []
    if name == "open" and rest.strip():
        return [_OPENS_NONE % rest.strip()]
    behind = "" if known[name] is _NOTHING else _behind(name, rest.strip(), known)
    meant = typed if behind is None else (name + " " + behind).strip()
    return [] if meant == typed else ["  did you mean .%s?" % meant]


def _button(rest: str) -> Optional[str]:
    """A name alone is mostly that of a button."""
    return "button " + rest if _NAME_ALONE.fullmatch(rest) else None


def _quoted(rest: str) -> Optional[str]:
    """A text that is typed stands in quotes."""
    found = _UNQUOTED.fullmatch(rest)
    return '"%s" into %s' % found.groups() if found else None


_MENDED: Dict[str, Callable[[str], Optional[str]]] = {"click": _button, "type": _quoted}


def _behind(name: str, rest: str, known: DotLines) -> Optional[str]:
    """What is meant to stand behind the word of a dot line."""
    if known[name].fullmatch(rest):
        return rest
    return _MENDED[name](rest) if name in _MENDED else None
