"""Rewrites the statements that HyperCard has and the grammar here hasn't, where the meaning stays the same.

A rewriting answers the statements that stand in place of one, and its name, which the report gives. What only draws,
sounds or waits becomes a command with the rest of the line in a comment, which the stand-ins of stacks/compat.stack
answer by doing nothing.
"""

import re
from typing import Callable, Dict, List, Optional, Tuple

from migrate.hyper_text import Token, bare, first_word, tokens
from migrate.hyper_words import LOOKS

Made = Optional[Tuple[List[bytes], str]]

_LAYERS = ("card", "cd", "bg", "bkgnd", "background")
_PARTS = ("button", "btn", "field", "fld")
_ORDINALS = ("first", "second", "third", "fourth", "fifth", "sixth", "seventh", "eighth", "ninth", "tenth", "last")
_UNITS = ("tick", "ticks", "second", "seconds", "sec", "secs")
_SHOWN = ("menubar", "titlebar", "msg", "message", "tool", "pattern", "scroll", "window", "groups", "picture",
          "variable", "card", "background", "bg", "bkgnd", "cd")


def _lows(found: List[Token]) -> List[str]:
    return [each.low for each in found]


def _split(text: bytes, words: Tuple[str, ...]) -> List[Tuple[str, bytes]]:
    """The text cut at these words, outside of strings and parentheses: each word with what follows it. The first piece
    has the empty word."""
    pieces: List[Tuple[str, bytes]] = []
    deep, word, start = 0, "", 0
    for each in tokens(text):
        deep += (each.text == b"(") - (each.text == b")")
        if each.low in words and not deep:
            pieces.append((word, text[start : each.start].strip()))
            word, start = each.low, each.end
    return pieces + [(word, text[start:].strip())]


def _noted(name: bytes, text: bytes, skip: int) -> List[bytes]:
    """A command without arguments, with the rest of the statement as its comment."""
    rest = text[skip:].strip()
    return [name + b" -- " + rest if rest else name]


def _visual(text: bytes, found: List[Token]) -> Made:
    return (_noted(b"visual", text, found[0].end), "visual effect by a stand-in") if len(found) > 1 else None


def _play(text: bytes, found: List[Token]) -> Made:
    return (_noted(b"play", text, found[0].end), "play by a stand-in") if len(found) > 2 else None


def _choose(text: bytes, found: List[Token]) -> Made:
    return (_noted(b"choose", text, found[0].end), "choose by a stand-in") if len(found) > 1 else None


def _lock(text: bytes, found: List[Token]) -> Made:
    """`unlock screen with ..` and `lock error dialogs`; `lock screen` itself is a command with one argument."""
    if len(found) <= 2:
        return None
    if _lows(found)[1] == "screen":
        return [text[: found[1].end] + b" -- " + text[found[1].end :].strip()], "unlock screen with an effect"
    return _noted(found[0].text, text, found[0].end), "lock by a stand-in"


def _wait(text: bytes, found: List[Token]) -> Made:
    """A time to wait as arguments; a condition as a loop that tests it."""
    lows = _lows(found)
    if len(lows) > 2 and lows[1] in ("until", "while"):
        return [b"repeat " + text[found[1].start :], b"end repeat"], "wait until or while, as a loop"
    first = 2 if len(lows) > 1 and lows[1] == "for" else 1
    if len(lows) > first + 1 and lows[-1] in _UNITS:
        time = text[found[first].start : found[-1].start].strip()
        return [b'wait %b,"%b"' % (time, found[-1].text)], "wait by a stand-in"
    return ([b"wait " + text[found[2].start :]], "wait by a stand-in") if first == 2 and len(lows) > 2 else None


def _answer(text: bytes, found: List[Token]) -> Made:
    """A question: its texts as arguments of a stand-in, and the reply put into `it`, as HyperCard does."""
    if len(found) < 2 or _lows(found)[1] in ("file", "program", "list", "password"):
        return None
    pieces = _split(text[found[0].end :], ("with", "or"))
    if [word for word, _ in pieces] != ["", "with", "or", "or"][: len(pieces)] or not all(each for _, each in pieces):
        return None
    said = b",".join(each for _, each in pieces)
    name = b"askFor " if found[0].low == "ask" else b"answerWith "
    return [name + said, b"get theReply()"], "%s by a stand-in" % found[0].low


def _push(text: bytes, found: List[Token]) -> Made:
    lows = _lows(found)
    card = [word for word in lows[1:] if word not in ("this", "the")]
    if card in (["card"], ["cd"]):
        return [b"pushCard"], "push card by a stand-in"
    if len(lows) > 2 and (lows[1] in ("card", "cd") or lows[2] in ("card", "cd")) and "stack" not in lows:
        return [b"pushCard the short id of " + text[found[1].start :]], "push card by a stand-in"
    return None


def _pop(text: bytes, found: List[Token]) -> Made:
    return ([b"popCard"], "pop card by a stand-in") if _lows(found)[1:] in (["card"], ["cd"]) else None


def _show(text: bytes, found: List[Token]) -> Made:
    """`hide button "A"`, `show me at 10,20`; windows and menus become stand-ins."""
    if len(found) < 2:
        return None
    lows = _lows(found)
    if _is_part(lows[1:]):
        (_, part), *place = _split(text[found[0].end :], ("at",))
        value = b"true" if lows[0] == "show" else b"false"
        name = "show, without its place" if place else "hide or show"
        return [b"set the visible of %b to %b" % (part, value)], name
    if lows[1] in _SHOWN and not any(word in lows for word in ("cards", "cds")):
        return _noted(b"decorate", text, 0), "hide or show of a window by a stand-in"
    return None


def _is_part(lows: List[str]) -> bool:
    """Whether the words begin with a reference to a button or a field."""
    if lows[:1] == ["me"] or lows[:2] == ["the", "target"]:
        return True
    lows = lows[lows[:1] == ["the"] :]
    lows = lows[bool(lows) and lows[0] in _ORDINALS :]
    lows = lows[bool(lows) and lows[0] in _LAYERS :]
    return bool(lows) and lows[0] in _PARTS


def _message_box(text: bytes, found: List[Token]) -> Made:
    """`put E into the message box` as `put E`."""
    box = re.search(r"\binto\s+(?:the\s+)?(?:msg|message)(?:\s+(?:box|window))?\s*$", bare(text))
    return ([text[: box.start()].rstrip()], "put into the message box") if box else None


def _menu(text: bytes, found: List[Token]) -> Made:
    """`doMenu E without dialog` as `doMenu E`."""
    pieces = _split(text, ("without",))
    if len(pieces) == 2 and pieces[1][1].lower() == b"dialog":
        return [pieces[0][1]], "doMenu without dialog"
    return None


def _find(text: bytes, found: List[Token]) -> Made:
    """`find chars E` as `find E`: the stand-in looks for characters anywhere."""
    lows = _lows(found)
    if len(lows) > 2 and lows[1] in ("chars", "char", "characters", "string") and "in" not in lows:
        return [b"find " + text[found[2].start :]], "find by a stand-in"
    return None


def _sort(text: bytes, found: List[Token]) -> Made:
    """`sort lines of C` as a put of what the stand-in gives."""
    lows = _lows(found)
    lows = lows[:1] + lows[1 + (lows[1:2] == ["the"]) :]
    if len(lows) < 4 or lows[1] != "lines" or lows[2] not in ("of", "in") or "by" in lows:
        return None
    words = [word for word in ("descending", "numeric") if word in lows[3:]]
    last = len(found)
    while _lows(found)[last - 1] in ("ascending", "descending", "text", "numeric", "international", "datetime"):
        last -= 1
    if {"datetime", "international"} & set(lows[3:]):
        return None
    first = next(place for place, each in enumerate(found) if each.low in ("of", "in")) + 1
    box = text[found[first].start : found[last - 1].end]
    made = b'put sortedLines(%b,"%b") into %b' % (box, " ".join(words).encode(), box)
    return [made], "sort of lines by a stand-in"


def _looks(text: bytes, found: List[Token]) -> Made:
    """A property that only decorates."""
    lows = _lows(found)
    name = next((word for word in lows[1:3] if word != "the"), "")
    return (_noted(b"decorate", text, 0), "a property of looks by a stand-in") if name in LOOKS else None


_BY_WORD: Dict[str, List[Callable[[bytes, List[Token]], Made]]] = {
    "visual": [_visual], "play": [_play], "choose": [_choose], "lock": [_lock], "unlock": [_lock], "wait": [_wait],
    "answer": [_answer], "ask": [_answer], "push": [_push], "pop": [_pop], "show": [_show], "hide": [_show],
    "put": [_message_box], "domenu": [_menu], "find": [_find], "sort": [_sort], "set": [_looks],
}


def statement(text: bytes) -> Made:
    """The statements in place of one, and the name of the rewriting; None where it stays as it is."""
    for each in _BY_WORD.get(first_word(text), []):
        made = each(text, tokens(text))
        if made:
            return made
    return None
