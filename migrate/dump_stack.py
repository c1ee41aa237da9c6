"""Reads the text that the handlers of stacks/export.txt write when they run in HyperCard.

The text is lines. A line `KEY` opens a text, whose lines follow it, each behind a bar; the last one has a dot at its
end, which isn't part of the text. Any other line is a key and its value. The first line is `yarvekko export 1`, the
last one `end`. Lines may end with a return, as HyperCard writes them, with a line feed, or with both.
"""

import re
from typing import Callable, List, Optional, Tuple

from migrate.old import BadSource, OldBackground, OldCard, OldContent, OldLayer, OldPart, OldStack
from migrate.texts import mac_roman

FIRST_LINE = b"yarvekko export 1"
MOST_BYTES = 256_000_000
_ENDS = (b"\r\n", b"\r", b"\n")
_NAMELESS = re.compile(rb"(?:card|cd|bkgnd|background|bg)(?: (?:field|button))? id (-?[0-9]{1,10})", re.IGNORECASE)
TEXTS = ("name", "script", "text")
FLAGS = {"visible": "visible", "lockText": "lock_text", "sharedText": "shared_text", "sharedHilite": "shared_hilite",
         "hilite": "hilite", "autoHilite": "auto_hilite", "enabled": "enabled"}


def _lines(data: bytes, encoding: str, note: Callable[[str, str], None]) -> List[bytes]:
    """The lines of the text, in Mac Roman."""
    if encoding == "utf-8" or (encoding == "auto" and not data.isascii()):
        try:
            text, lost = mac_roman(data.decode("utf-8-sig"))
        except UnicodeDecodeError as wrong:
            if encoding == "utf-8":
                raise BadSource("no UTF-8 at byte %d" % wrong.start) from None
        else:
            note("the file", "it is in UTF-8, and was turned into Mac Roman")
            if lost:
                note("the file", "%d characters aren't in Mac Roman; each is a ? now" % lost)
            return text.split(b"\r")
    end = next((each for each in _ENDS if data.startswith(FIRST_LINE + each)), b"\r")
    return data.split(end)


class _DumpReader:
    """Goes through the lines, from the first one behind the heading."""

    def __init__(self, source: str) -> None:
        self.stack = OldStack(source)
        self.lines: List[bytes] = []
        self.at = 0
        self.layer: Optional[OldLayer] = None
        self.part: Optional[OldPart] = None
        self.content: Optional[OldContent] = None

    def wrong(self, text: str) -> BadSource:
        return BadSource("line %d: %s" % (self.at, text))

    def line(self) -> bytes:
        """The next line."""
        if self.at >= len(self.lines):
            raise BadSource("the text ends before the line `end`")
        self.at += 1
        return self.lines[self.at - 1]

    def text(self) -> bytes:
        """The lines behind bars that follow. The line behind the last of them isn't read."""
        pieces = []
        while self.at < len(self.lines) and self.lines[self.at].startswith(b"|"):
            pieces.append(self.line()[1:])
        if not pieces or not pieces[-1].endswith(b"."):
            self.at += not pieces
            raise self.wrong("a text ends with a dot behind its last line")
        return b"\r".join(pieces)[:-1]

    def number(self, word: bytes) -> int:
        if not re.fullmatch(rb"-?[0-9]{1,10}", word):
            raise self.wrong("%r isn't a whole number" % word.decode("mac_roman"))
        return int(word)

    def flag(self, word: bytes) -> bool:
        if word not in (b"true", b"false"):
            raise self.wrong("%r is neither true nor false" % word.decode("mac_roman"))
        return word == b"true"

    def object(self, key: str, words: List[bytes]) -> bool:
        """Whether the line begins an object, which then is begun."""
        counts = {"background": 1, "card": 2, "field": 1, "button": 1, "content": 1}
        if counts.get(key) != len(words):
            return False
        ids = [self.number(word) for word in words]
        self.content = None
        if key in ("background", "card"):
            self.part = None
            self.begin_layer(OldBackground(ids[0]) if key == "background" else OldCard(ids[0], background=ids[1]))
        elif self.layer is None:
            raise self.wrong("a %s stands before the first background" % key)
        elif key == "content":
            self.part = None
            self.content = OldContent("background", ids[0])
            self.layer.contents.append(self.content)
        else:
            self.part = OldPart(key, ids[0])
            self.layer.parts.append(self.part)
        return True

    def begin_layer(self, layer: OldLayer) -> None:
        self.layer = layer
        if isinstance(layer, OldCard):
            self.stack.cards.append(layer)
        elif isinstance(layer, OldBackground):
            if self.stack.cards:
                raise self.wrong("a background stands behind a card")
            self.stack.backgrounds.append(layer)

    def take_text(self, key: str) -> None:
        """A text of what was begun last."""
        text = self.text()
        owner = self.content or self.part or self.layer or self.stack
        if key == "text" and not isinstance(owner, (OldContent, OldPart)) or key != "text" and owner is self.content:
            raise self.wrong("a %s isn't due here" % key)
        if key == "name" and _NAMELESS.fullmatch(text) and not isinstance(owner, OldStack):
            number = _NAMELESS.fullmatch(text)
            text = b"" if number and int(number.group(1)) == getattr(owner, "id") else text
        setattr(owner, key, text)

    def take_value(self, key: str, value: bytes) -> None:
        """A flag or a word of what was begun last."""
        if key == "hilite" and self.content is not None:
            self.content.hilite = self.flag(value)
        elif key in FLAGS and self.part is not None:
            setattr(self.part, FLAGS[key], self.flag(value))
        elif key == "style" and self.part is not None:
            self.part.style = value.decode("mac_roman")
        elif key == "family" and self.part is not None:
            self.part.family = self.number(value)
        elif key in ("cantDelete", "marked") and self.layer is not None and self.part is None:
            setattr(self.layer, "cant_delete" if key == "cantDelete" else "marked", self.flag(value))
        else:
            self.stack.dont_know(key, "line %d" % self.at)

    def whole(self, lines: List[bytes]) -> OldStack:
        self.lines = lines[:-1] if not lines[-1] else lines
        if lines[0].rstrip() != FIRST_LINE:
            raise BadSource("line 1: it isn't `%s`" % FIRST_LINE.decode())
        self.at = 1
        if self.line().rstrip() != b"stack":
            raise self.wrong("`stack` is due")
        while True:
            line = self.line()
            if line.rstrip() == b"end":
                return self.stack
            key, words = self.key_of(line)
            if key in TEXTS and not words:
                self.take_text(key)
            elif not self.object(key, words):
                self.take_value(key, line.partition(b" ")[2].strip())

    def key_of(self, line: bytes) -> Tuple[str, List[bytes]]:
        """The key of a line, and the words behind it."""
        found = re.fullmatch(rb"([A-Za-z]{1,40})((?: .*)?)", line)
        if not found:
            raise self.wrong("it is neither a key nor a line of a text")
        return found.group(1).decode(), found.group(2).split()


def read_dump(data: bytes, path: str, encoding: str = "auto") -> OldStack:
    """The stack of a text of the exporter. `encoding` is "mac_roman", "utf-8" or "auto": UTF-8 where the bytes are.

    Raises BadSource, with the line.
    """
    if len(data) > MOST_BYTES:
        raise BadSource("%s: %d bytes, and at most %d are read" % (path, len(data), MOST_BYTES))
    reader = _DumpReader("text of export.txt, %s" % path)
    try:
        stack = reader.whole(_lines(data, encoding, reader.stack.note))
    except BadSource as wrong:
        raise BadSource("%s: %s" % (path, wrong)) from None
    if b"".join(reader.lines[reader.at:]).strip():
        raise BadSource("%s: line %d: something stands behind `end`" % (path, reader.at + 1))
    return stack
