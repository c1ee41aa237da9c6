"""Names what stands at a place that isn't in the grammar: a table of HyperCard's constructs, with what to do."""

import re
from dataclasses import dataclass
from typing import List, Tuple

from migrate.hyper_text import bare, statement_starts
from migrate.hyper_words import LOOKS


@dataclass(frozen=True)
class Construct:
    """A construct: its name, what it looks like, whether it has to begin a statement, and what to do by hand."""

    name: str
    pattern: "re.Pattern[str]"
    at_start: bool
    advice: str


def _command(name: str, pattern: str, advice: str) -> Construct:
    return Construct(name, re.compile(pattern), True, advice)


def _within(name: str, pattern: str, advice: str) -> Construct:
    return Construct(name, re.compile(pattern), False, advice)


# Of a long line no more than so many bytes before and behind the place are looked at.
WINDOW = 1000
_DRAWN = "nothing is drawn here; remove it"
_FILES = "files can't be read or written by a script; put the text into a field before"
_DECOR = "|".join(sorted(LOOKS))

# Those further up go first where two of them stand at the same place.
TABLE: List[Construct] = [
    _command("visual effect", r"visual\b", _DRAWN),
    _command("answer .. with", r"answer\b(?!\s+(?:file|program|list)\b)",
             "the reply comes from the stand-ins' global `replies`"),
    _command("answer file", r"answer\s+(?:file|program|list)\b", _FILES),
    _command("ask .. with", r"ask\b(?!\s+(?:file|password)\b)", "the reply comes from the stand-ins' global `replies`"),
    _command("ask file", r"ask\s+file\b", _FILES),
    _command("ask password", r"ask\s+password\b", "there are no passwords; remove the question"),
    _command("wait", r"wait\b", "nothing waits here; remove it"),
    _command("lock screen", r"(?:un)?lock\s+screen\b", _DRAWN),
    _command("lock", r"(?:un)?lock\b", _DRAWN),
    _command("play", r"play\b", "nothing is heard here; remove it"),
    _command("beep", r"beep\b", "nothing is heard here; remove it"),
    _command("dial", r"dial\b", "there is no telephone; remove it"),
    _command("push card", r"push\b", "keep `the short id of this card` in a global"),
    _command("pop card", r"pop\b", "`go to card id ..` with the id that was kept"),
    _command("hide or show", r"(?:hide|show)\b", "`set the visible of .. to ..`"),
    _command("find", r"find\b", "a `repeat` over the cards with `contains`"),
    _command("sort of cards", r"sort\b(?!\s+(?:the\s+)?(?:lines|items)\b)",
             "cards can't be reordered by a handler; sort them in the text of the stack, or keep a sorted index"),
    _command("sort of lines", r"sort\s+(?:the\s+)?lines\b", "write a handler that builds the sorted text"),
    _command("sort of items", r"sort\s+(?:the\s+)?items\b", "write a handler that builds the sorted text"),
    _command("mark", r"(?:un)?mark\b", "keep the short ids of the cards in a global or a field"),
    _command("go back", r"go\s+(?:to\s+)?(?:back|forth|recent|home|help)\b",
             "keep where the user was in a global, and `go to card id ..`"),
    _command("go to a stack", r"go\s+(?:to\s+)?(?:stack\b|\"|.*\bof stack\b|.*\bin a new window\b)",
             "one stack is open at a time; remove it"),
    _command("go to a card of a background",
             r"go\s+.*\b(?:card|cd)\b.*\b(?:of|in)\s+(?:this\s+|next\s+)?(?:bg|bkgnd|background)\b",
             "cards aren't counted within a background; loop over the cards"),
    _command("go to a marked card", r"go\s+.*\bmarked\b", "keep the short ids of the cards in a global"),
    _command("open, close, read or write", r"(?:open|close|read|write)\b", _FILES),
    _command("print", r"print\b", "./export writes a page that can be printed"),
    _command("select", r"select\b", "there is no selection; use the text itself"),
    _command("click, drag or type", r"(?:click|drag|type)\b",
             "`send \"mouseUp\" to ..`, or put the text into the field"),
    _command("choose a tool", r"choose\b", _DRAWN),
    _command("convert a date", r"convert\b", "there is no clock; remove it"),
    _command("enable or disable", r"(?:enable|disable)\b", "nothing is disabled here; test a global in the handler"),
    _command("menus", r"(?:create|delete|reset|put\s+.*\binto)\s+(?:menu|menubar)\b",
             "there are no menus of your own; call the handler"),
    _command("start using", r"(?:start|stop)\s+using\b", "put the handlers into this stack's script"),
    _command("edit script", r"edit\b", "`set the script of .. to ..`"),
    _command("import or export paint", r"(?:import|export)\s+paint\b", _DRAWN),
    _command("doMenu without dialog", r"domenu\b", "`doMenu` takes the item alone"),
    _command("reply or request", r"(?:reply|request)\b", "there are no other programs; remove it"),
    _command("do as another language", r"do\b.*\bas\b", "only HyperTalk is run"),
    _command("send to a program", r"send\b.*\bto\s+(?:program|stack|hypercard)\b", "`send .. to this stack`"),
    _command("put into the message box", r"put\b.*\b(?:into|before|after)\s+(?:the\s+)?(?:msg|message)\b",
             "`put ..` alone shows a line"),
    _command("a property of looks", r"set\s+(?:the\s+)?(?:%s)\b" % _DECOR, _DRAWN),
    _command("numberFormat", r"set\s+(?:the\s+)?numberformat\b", "numbers are whole; remove it"),
    _command("another property", r"set\b", "the property isn't here; see LANGUAGE.md"),
    _within("a decimal number", r"\d+\.\d*|\.\d+", "numbers are whole: count in hundredths, or in cents"),
    _within("date and time", r"\bthe\s+(?:(?:long|short|abbr\w*|english)\s+)?(?:date|time|ticks|seconds|secs)\b",
            "there is no clock; the stand-ins give what a test sets"),
    _within("random", r"\bthe\s+random\s+of\b", "the stand-in `random(n)` counts from a seed"),
    _within("mouse and keys", r"\bthe\s+(?:mouse\w*|(?:option|shift|command|cmd|control)key)\b",
            "nothing is pressed here; the stand-ins say so"),
    _within("the selection", r"\b(?:the\s+)?(?:selection|selected\w+|click(?:text|line|chunk)|found\w+)\b",
            "there is no selection; use the text itself"),
    _within("the params", r"\bthe\s+(?:params|paramcount|param)\b|\bparam\s*\(", "name the parameters of the handler"),
    _within("is within", r"\bis\s+(?:not\s+)?within\b", "there are no places; remove it"),
    _within("is a date or a point", r"\bis\s+(?:not\s+)?an?\s+(?:date|point|rect)\b",
            "`is a` knows number, integer and logical"),
    _within("any card", r"\bany\s+(?:card|cd)\b", "`card (random(the number of cards))`"),
    _within("any piece", r"\bany\s+(?:item|line|word|char)\b", "`item (random(the number of items of x)) of x`"),
    _within("middle", r"\bmid(?:dle)?\s+\w+\b", "compute the number, and use it"),
    _within("a property without `the`", r"(?<!the )(?<!edit )\b(?:short\s+)?(?:name|id|script|visible|hilite)\s+of\b",
            "write `the` before it"),
    _within("a long or abbreviated name", r"\b(?:long|abbr\w*)\s+(?:name|id)\b",
            "`the name of ..` is the abbreviated one; there is no long one"),
    _within("another spelling of hilite", r"\b(?:shared)?(?:highlite|highlight|hilight)\b", "`hilite`"),
    _within("a property of looks", r"\bthe\s+(?:short\s+)?(?:%s)\b" % _DECOR, "nothing is drawn here"),
    _within("cards of a background", r"\bnumber\s+of\s+(?:marked\s+)?(?:cards|cds)\s+(?:of|in)\b",
            "cards aren't counted within a background; loop over the cards"),
    _within("marked cards", r"\bmarked\b", "keep the short ids of the cards in a global"),
    _within("a window or a menu", r"\b(?:window|windows|menu|menus|menuitem|menubar|titlebar)\b",
            "there are no windows and no menus of your own"),
    _within("the message box", r"\b(?:the\s+)?(?:msg|message)\s+(?:box|window)\b",
            "`put ..` alone shows a line; keep the text in a global"),
    _within("another stack", r"(?<!using )(?<!go )(?<!to )\bstack\s+\"", "one stack is open at a time"),
    _within("part", r"\b(?:card|cd|bg|bkgnd|background)?\s*parts?\s+\w", "name buttons and fields"),
    _within("a property of HyperCard",
            r"\bthe\s+(?:\w+)\s+of\s+(?:me|this|the|card|cd|bg|bkgnd|button|btn|field|fld)\b",
            "the property isn't here; see LANGUAGE.md"),
    _within("a function of HyperCard", r"\bthe\s+(?!number\b|numberformat\b|result\b|target\b|first\b|last\b)\w+",
            "the function isn't here; write a handler for it"),
]
_MIXED_IF = Construct("an `if` of two forms", re.compile(""), True,
                      "put `then` and `else` at the ends of their lines, and close with `end if`")
_OTHER = Construct("something else", re.compile(""), False, "LANGUAGE.md has the forms that are here")


def _found(text: str) -> List[Tuple[int, int, Construct]]:
    """All constructs of the table in a bare line: where each begins and ends."""
    starts = statement_starts(text)
    found = []
    for each in TABLE:
        if each.at_start:
            places = [each.pattern.match(text, start) for start in starts]
        else:
            places = list(each.pattern.finditer(text))
        found += [(place.start(), place.end(), each) for place in places if place]
    return found


def construct_at(line: bytes, column: int) -> Construct:
    """What stands at a column, from 1, of a line (with those that it goes on from): the construct that covers the
    place, or else the last one that begins before it, or else an `if` of mixed forms, or the first one behind it."""
    start = max(0, column - WINDOW)
    text = bare(line[start : start + 2 * WINDOW])
    place = column - 1 - start
    found = _found(text)
    covering = [each for each in found if each[0] <= place < each[1] and not each[2].at_start]
    if covering:
        return min(covering, key=lambda each: TABLE.index(each[2]))[2]
    before = [each for each in found if each[0] <= place]
    # A statement goes on to its end, so the last one that began is meant; within it, what stands nearest to the place.
    if before:
        return max(before, key=lambda each: (each[2].at_start, each[0], -TABLE.index(each[2])))[2]
    first = text.split(None, 1)[0] if text.split() else ""
    if first in ("if", "else", "then", "end"):
        return _MIXED_IF
    return min(found, key=lambda each: each[0])[2] if found else _OTHER
