"""The word that is meant by one that isn't known: a word of the language, or a handler that a message could have met.
"""

import difflib
import re
from typing import Iterable, List, Optional, Sequence

from front.server_objects import Objects
from front.terminal_completion import AFTER_THE, KINDS, MENU, STATEMENTS, WORDS

# How much of two words has to be the same, as difflib counts it, and how long a word or a name is that may be misspelt.
ALIKE, SHORTEST, SHORTEST_NAME = 0.75, 4, 3
# Among more words none is sought, since a page may ask for a hundred lines at a time.
MOST_KNOWN = 1_000
FUNCTIONS = ("abs", "max", "min", "length", "charToNum", "numToChar", "offset", "value")
# What of the language completion doesn't offer.
MORE_STATEMENTS = ("return", "exit", "next", "pass")
MORE_WORDS = (
    "char", "character", "chars", "characters", "word", "words", "item", "items", "line", "lines", "then", "else",
    "end", "while", "until", "with", "forever", "from", "contains", "first", "last", "comma", "space", "tab", "cards",
    "buttons", "fields", "backgrounds", "there", "target", "result")
LANGUAGE = sorted({word for words in (AFTER_THE, KINDS, STATEMENTS, MORE_STATEMENTS, WORDS, MORE_WORDS, FUNCTIONS)
                   for each in words for word in each.split()})
_WORD = re.compile(r"[A-Za-z_][A-Za-z0-9_]*")
_MEANT = "  did you mean `%s`? There stands `%s`."
_MENU = re.compile(r'\bdoMenu +"([^"]*)"', re.IGNORECASE)


def word_of_language(text: str, column: int) -> List[str]:
    """The word of the language that is meant where a text isn't in the grammar, from a column on, counted from 1: by
    the word there, or by the one before it."""
    words = [found for found in _WORD.finditer(text) if found.start() < column]
    for found in reversed(words[-2:]):
        meant = alike(found.group(), LANGUAGE)
        if meant:
            return [_MEANT % (meant, found.group())]
    return []


def message(name: str, objects: Objects) -> List[str]:
    """The handler, the function or the statement that is meant by a message which nobody handles."""
    known = [each.decode("ascii", "replace") for each in objects.handler_names]
    meant = alike(name, (*known, *FUNCTIONS, *STATEMENTS, *MORE_STATEMENTS))
    return [_MEANT % (meant, name)] if meant else []


def menu_item(statements: Sequence[str]) -> List[str]:
    """The item that is meant where a statement chooses one from the menu that it doesn't have, or else those it has."""
    chosen = [found.group(1) for found in map(_MENU.search, statements) if found]
    if not chosen or chosen[0].lower() in map(str.lower, MENU):
        return []
    meant = alike(chosen[0], MENU)
    return ['  did you mean doMenu "%s"?' % meant if meant else "  the menu has " + ", ".join(MENU)]


def alike(word: str, known: Iterable[str], shortest: int = SHORTEST) -> Optional[str]:
    """The known word that is most like this one, which is none of them; capitals don't count."""
    spelled = {each.lower(): each for each in known}
    if len(word) < shortest or len(spelled) > MOST_KNOWN or word.lower() in spelled:
        return None
    found = difflib.get_close_matches(word.lower(), spelled, 1, ALIKE)
    return spelled[found[0]] if found else None
