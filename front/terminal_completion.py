"""What a line can go on with: dot lines, objects by their names, properties, and the names of handlers and messages."""

import re
from dataclasses import dataclass, field
from typing import Dict, Iterable, List

LOOKS_AT_OBJECT = (".click", ".edit", ".script")
PROPERTIES = ("name", "short name", "id", "short id", "number", "script", "visible", "hilite", "sharedHilite",
              "lockText", "sharedText", "cantDelete")
RUN_PROPERTIES = ("itemDelimiter", "lockMessages", "editBkgnd")
AFTER_THE = PROPERTIES + RUN_PROPERTIES + ("number of", "result", "target", "length of", "abs of", "value of",
                                           "charToNum of", "numToChar of")
STATEMENTS = ("put", "get", "set", "add", "subtract", "multiply", "divide", "delete", "go", "do", "send", "global",
              "if", "repeat", "on", "function", "doMenu")
WORDS = ("this card", "this stack", "this background", "next card", "previous card", "background", "card", "button",
         "field", "bkgnd", "into", "before", "after", "empty", "return", "quote", "true", "false")
MENU = ("New Card", "New Background", "New Button", "New Field", "Delete Card")
# The words that stand before the name of an object, and its kind.
KINDS = {"card": "card", "cd": "card", "background": "background", "bkgnd": "background", "bg": "background",
         "button": "button", "btn": "button", "field": "field", "fld": "field"}
LAST_WORD = re.compile(r"([A-Za-z_]+)\s*$")


@dataclass
class Names:
    """The names that a stack has: of its cards and backgrounds, of the buttons and fields that can be named from the
    current card, and of the handlers; each as it is typed, without quotation marks."""

    objects: Dict[str, List[str]] = field(default_factory=dict)
    handlers: List[str] = field(default_factory=list)

    def of(self, kind: str) -> List[str]:
        """The names of the objects of a kind, a value of KINDS."""
        return self.objects.get(kind, [])


def candidates(before: str, word: str, names: Names, dot_lines: Iterable[str]) -> List[str]:
    """What can stand in place of the word, behind what stands before it in the line."""
    if (before + word).count('"') % 2:
        return _in_quotes(before, word, names)
    if not before.strip():
        first = list(dot_lines) if word.startswith(".") else list(STATEMENTS) + names.handlers
        return _beginning(word, first)
    last = LAST_WORD.search(before.lower())
    kind = KINDS.get(last.group(1)) if last else None
    if kind:
        quoted = _beginning(word, ['"%s"' % name for name in names.of(kind)])
        return quoted + _beginning(word, ["id"] + [each for each in KINDS if kind in ("card", "background")])
    if last and last.group(1) in ("the", "short"):
        return _tails(word, AFTER_THE, "short " if last.group(1) == "short" else "")
    if before.split()[0] in LOOKS_AT_OBJECT:
        return _beginning(word, list(WORDS[:3]) + _objects(names))
    return _beginning(word, list(WORDS) + ["the"] + names.handlers)


def _objects(names: Names) -> List[str]:
    """The references of the objects that can be named."""
    return ['%s "%s"' % (kind, name) for kind in ("button", "field", "card", "background") for name in names.of(kind)]


def _in_quotes(before: str, word: str, names: Names) -> List[str]:
    """The names that go on what stands in the quotes that are open; and the items of the menu."""
    line = before + word
    start = line.rindex('"')
    last = LAST_WORD.search(line[:start].lower())
    kind = KINDS.get(last.group(1)) if last else None
    if last and last.group(1) == "domenu":
        known: List[str] = list(MENU)
    else:
        known = names.of(kind) if kind else sorted({name for each in names.objects.values() for name in each})
    typed = line[start + 1 :]
    taken = len(line) - len(word)
    whole = [line[: start + 1] + name + '"' for name in known if name.lower().startswith(typed.lower())]
    return [each[taken:] for each in whole if len(each) >= taken]


def _beginning(word: str, known: Iterable[str]) -> List[str]:
    """Those that begin with the word, case ignored, each once and in their order."""
    found = [each for each in known if each.lower().startswith(word.lower())]
    return list(dict.fromkeys(found))


def _tails(word: str, known: Iterable[str], head: str) -> List[str]:
    """Those that begin with the head and then the word, without the head."""
    return _beginning(word, [each[len(head) :] for each in known if each.startswith(head)])
