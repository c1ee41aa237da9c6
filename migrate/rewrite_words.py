"""Rewrites the words of expressions that HyperCard has and the grammar here hasn't, where the meaning stays the same.

Each rewriting has a name, which the report gives. Those that call a stand-in need the handlers of stacks/compat.stack.
"""

from typing import Callable, List, Optional, Set, Tuple

from migrate.hyper_text import Token, tokens

# A rewriting takes the tokens of a statement and a place in them. Where it applies it answers up to which token it
# goes, what stands there instead, and its name.
Found = Optional[Tuple[int, bytes, str]]

_KEPT = {"name", "id", "script", "visible", "hilite", "locktext", "sharedtext", "sharedhilite", "cantdelete"}
_SPELLINGS = {"highlite": b"hilite", "highlight": b"hilite", "hilight": b"hilite", "sharedhighlite": b"sharedHilite",
              "sharedhighlight": b"sharedHilite", "sharedhilight": b"sharedHilite"}
_CLOCK = {"date": b"date", "time": b"time", "ticks": b"ticks", "seconds": b"seconds", "secs": b"seconds"}
_DEVICES = {"mouse": b"mouse", "mouseclick": b"mouseClick", "mouseh": b"mouseH", "mousev": b"mouseV",
            "mouseloc": b"mouseLoc", "optionkey": b"optionKey", "shiftkey": b"shiftKey", "commandkey": b"commandKey",
            "cmdkey": b"commandKey", "controlkey": b"controlKey"}
_OF_ONE = {"random": b"random", "round": b"round", "trunc": b"trunc"}
MOST_NESTED = 20
_KINDS = ("long", "short", "abbr", "abbrev", "abbreviated", "english")


def _low(found: List[Token], place: int) -> str:
    return found[place].low if 0 <= place < len(found) else ""


def _clock(found: List[Token], place: int) -> Found:
    """`the long date` as `date("long")`."""
    if _low(found, place) != "the":
        return None
    kind = _low(found, place + 1) if _low(found, place + 1) in _KINDS else ""
    at = place + 1 + bool(kind)
    name = _CLOCK.get(_low(found, at))
    if name is None or _low(found, at + 1) in ("of", "in"):
        return None
    return at + 1, b"%b(%b)" % (name, b'"%b"' % kind.encode() if kind else b""), "date and time by a stand-in"


def _device(found: List[Token], place: int) -> Found:
    """`the shiftKey` as `shiftKey()`."""
    name = _DEVICES.get(_low(found, place + 1)) if _low(found, place) == "the" else None
    return (place + 2, name + b"()", "mouse and keys by a stand-in") if name else None


def _closing(found: List[Token], place: int) -> Optional[int]:
    """The place behind the parenthesis that closes the one at this place."""
    deep = 0
    for at in range(place, len(found)):
        deep += (found[at].text == b"(") - (found[at].text == b")")
        if not deep:
            return at + 1
    return None


def _of_one(found: List[Token], place: int) -> Found:
    """`the random of 6` as `random(6)`, for an operand that is a number, a name or in parentheses."""
    name = _OF_ONE.get(_low(found, place + 1)) if _low(found, place) == "the" else None
    if name is None or _low(found, place + 2) != "of" or place + 3 >= len(found):
        return None
    first = found[place + 3]
    if first.text == b"(":
        after = _closing(found, place + 3)
        return (after, name, "a function by a stand-in") if after else None
    plain = first.kind == "number" or first.kind == "word" and _low(found, place + 4) not in ("of", "in", "(")
    if not plain or first.low in ("the", "field", "fld", "card", "cd", "bg", "bkgnd", "background", "first", "last"):
        return None
    return place + 4, b"%b(%b)" % (name, first.text), "a function by a stand-in"


def _abbreviated(found: List[Token], place: int) -> Found:
    """`the abbreviated name of` as `the name of`, which is the same."""
    named = _low(found, place) in ("abbr", "abbrev", "abbreviated") and _low(found, place + 1) == "name"
    if not named or _low(found, place + 2) != "of":
        return None
    return place + 2, b"name" if _low(found, place - 1) == "the" else b"the name", "the abbreviated name"


def _spelling(found: List[Token], place: int) -> Found:
    """`highlight` as `hilite`, where it is a property."""
    new = _SPELLINGS.get(_low(found, place))
    if new is None or _low(found, place + 1) != "of":
        return None
    bare = _low(found, place - 1) not in ("the", "set")
    return place + 1, (b"the " if bare else b"") + new, "another spelling of hilite"


def _without_the(found: List[Token], place: int) -> Found:
    """`name of me` as `the name of me`."""
    at = place + (_low(found, place) == "short")
    if _low(found, at) not in _KEPT or _low(found, at + 1) != "of":
        return None
    before = _low(found, place - 1)
    if place == 0 or before in ("the", "set", "short", "long", "global", "on", "function", "edit") or before in _KINDS:
        return None
    return place, b"", "a property without `the`"


def _any_card(found: List[Token], place: int) -> Found:
    """`any card` as the card of a random number."""
    if _low(found, place) != "any" or _low(found, place + 1) not in ("card", "cd"):
        return None
    if _low(found, place + 2) in ("of", "in"):
        return None
    return place + 2, b"card (random(the number of cards))", "any card by a stand-in"


_ALL: List[Callable[[List[Token], int], Found]] = [
    _clock, _device, _of_one, _abbreviated, _spelling, _without_the, _any_card,
]


def words(text: bytes, deep: int = 0) -> Tuple[bytes, Set[str]]:
    """The text with its words rewritten, and the names of the rewritings that applied. Operands that nest deeper than
    anyone writes them stay as they are."""
    if deep > MOST_NESTED:
        return text, set()
    found = tokens(text)
    pieces: List[bytes] = []
    names: Set[str] = set()
    place, end = 0, 0
    while place < len(found):
        made = next((made for made in (each(found, place) for each in _ALL) if made), None)
        if made is None:
            pieces.append(text[end : found[place].end])
            end = found[place].end
            place += 1
            continue
        after, new, name = made
        names.add(name)
        pieces.append(text[end : found[place].start] + new)
        end = found[after - 1].end if after > place else found[place].start
        if after == place:  # a word that only needs `the` before it
            pieces[-1] += b"the " + text[end : found[place].end]
            end = found[place].end
            after = place + 1
        elif new in _OF_ONE.values():  # a function whose operand, in parentheses, is rewritten too
            pieces[-1] += words(text[found[place + 3].start : end], deep + 1)[0]
        place = after
    return b"".join(pieces) + text[end:], names
