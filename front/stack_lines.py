"""Lines of the text of a stack, read one after the other, each by its form, and how texts are spelled in them."""

import re
from typing import Callable, List, Match, NamedTuple, NoReturn, Optional, Set, Tuple, TypeVar

T = TypeVar("T")

BAD_LINE, BAD_ID, TRUNCATED, TOO_MANY = 1, 2, 3, 4
NAMES = {BAD_LINE: "BadLine", BAD_ID: "BadId", TRUNCATED: "Truncated", TOO_MANY: "TooMany"}

# The most objects of a stack, itself not counted; the most bytes of a text; the most pieces of one.
MOST_OBJECTS = 10_000
LONGEST = 30_000
MOST_PIECES = LONGEST + 1

_NOT_PLAIN = re.compile(rb"[^ -\[\]-~]")
# The escapes, of bytes that don't stand for themselves.
_ESCAPE = re.compile(rb"\\([01][0-9a-f]|5c|7f|[89a-f][0-9a-f])")
_NUMBER = re.compile(rb"0|[1-9][0-9]{0,6}")
_PART = re.compile(rb"(button|field) (0|[1-9][0-9]{0,6})")
_FLAGS = {b"true": True, b"false": False}
_VERSIONS = {b"1": 1, b"2": 2}


class Fault(Exception):
    """Bytes that are no text of a stack: the first line at fault decides.

    `number` is 1 to 4, `name` says what it means. `line` counts from 1; it is None for 3 and 4.
    """

    def __init__(self, number: int, line: Optional[int] = None) -> None:
        self.number, self.name, self.line = number, NAMES[number], line
        place = "" if line is None else " at line %d" % line
        super().__init__("stack refused %d%s" % (number, place))


def spell(text: bytes) -> bytes:
    """How a text is spelled: bytes 32 to 126 but the backslash as they are, others as a backslash and two digits."""
    return _NOT_PLAIN.sub(_escaped, text)


def _escaped(found: "Match[bytes]") -> bytes:
    return b"\\%02x" % found.group()[0]


def unspell(spelling: bytes) -> bytes:
    """The text that is spelled so. Raises ValueError where the bytes spell none: each text has one spelling."""
    if _NOT_PLAIN.search(_ESCAPE.sub(b"", spelling)):
        raise ValueError("these bytes spell no text: %r" % spelling[:80])
    return _ESCAPE.sub(lambda found: bytes([int(found.group(1), 16)]), spelling)


def number_of(word: bytes) -> Optional[int]:
    """The number that is spelled so: 0, or a digit from 1 to 9 and at most six digits more."""
    return int(word) if _NUMBER.fullmatch(word) else None


def count_of(word: bytes) -> Optional[int]:
    """The number of pieces that is spelled so."""
    number = number_of(word)
    return number if number is not None and number <= MOST_PIECES else None


def text_of(spelling: bytes) -> Optional[bytes]:
    """The text that is spelled so, where it isn't too long."""
    try:
        text = unspell(spelling)
    except ValueError:
        return None
    return text if len(text) <= LONGEST else None


class Head(NamedTuple):
    """A line with an id and a value behind it."""

    id: int
    value: int


class Lines:
    """The lines of a text, and the ids that were taken so far. Each call reads one line, or raises its Fault."""

    def __init__(self, data: bytes) -> None:
        self._lines = data.split(b"\n")
        self._rest = self._lines.pop()
        self.number = 0
        self._used: Set[int] = set()

    def next(self) -> bytes:
        """The next line, whatever it says."""
        if self.number == len(self._lines):
            raise Fault(TRUNCATED)
        self.number += 1
        return self._lines[self.number - 1]

    def bad_line(self) -> NoReturn:
        raise Fault(BAD_LINE, self.number)

    def bad_id(self) -> NoReturn:
        raise Fault(BAD_ID, self.number)

    def after(self, prefix: bytes, value_of: Callable[[bytes], Optional[T]]) -> T:
        """The value of what stands behind the prefix of the next line."""
        line = self.next()
        value = value_of(line[len(prefix):]) if line.startswith(prefix) else None
        return self.bad_line() if value is None else value

    def version(self) -> int:
        return self.after(b"htstack ", _VERSIONS.get)

    def name(self) -> bytes:
        return self.after(b"name |", text_of)

    def flag(self, key: bytes) -> bool:
        return self.after(key + b" ", _FLAGS.get)

    def count(self, key: bytes, least: int, most: int) -> int:
        """A number from the least on. One over the most is too many."""
        number = self.after(key + b" ", number_of)
        if number < least:
            self.bad_line()
        if number > most:
            raise Fault(TOO_MANY)
        return number

    def number_after(self, key: bytes) -> int:
        return self.after(key + b" ", number_of)

    def part_head(self) -> Tuple[str, int]:
        """The kind and the id of a part."""
        found = _PART.fullmatch(self.next())
        return (found.group(1).decode(), int(found.group(2))) if found else self.bad_line()

    def card_head(self) -> Head:
        """The ids of a card and of its background."""
        return self.after(b"card ", lambda rest: _head(rest, number_of))

    def text_head(self) -> Head:
        """The id of a field, and the number of its text's pieces."""
        return self.after(b"text ", lambda rest: _head(rest, count_of))

    def hilite_head(self) -> Head:
        """The id of a button, and 1 where it is lit, else 0."""
        return self.after(b"hilite ", lambda rest: _head(rest, _FLAGS.get))

    def new_id(self, limit: int, number: int, else_right: bool = True) -> int:
        """Takes the id of the next object: a new one below the limit; whether nothing else in the line is wrong."""
        if len(self._used) >= MOST_OBJECTS:
            raise Fault(TOO_MANY)
        if not else_right or number == 0 or number >= limit or number in self._used:
            self.bad_id()
        self._used.add(number)
        return number

    def block(self, key: bytes) -> bytes:
        """A text of many lines, behind a key and the number of its pieces."""
        return self.pieces(self.after(key + b" ", count_of))

    def pieces(self, count: int) -> bytes:
        """A text of so many pieces."""
        pieces: List[bytes] = []
        room = LONGEST
        for _ in range(count):
            piece = self.after(b"|", text_of)
            if b"\r" in piece or len(piece) > room or (count == 1 and not piece):
                self.bad_line()
            room -= len(piece) + 1
            pieces.append(piece)
        return b"\r".join(pieces)

    def end(self, is_whole: bool) -> None:
        """The last line, behind which nothing stands; whether each background has a card."""
        if self.next() != b"end":
            self.bad_line()
        if not is_whole:
            self.bad_id()
        if self._rest or self.number < len(self._lines):
            raise Fault(BAD_LINE, self.number + 1)


def _head(rest: bytes, value_of: Callable[[bytes], Optional[int]]) -> Optional[Head]:
    """An id and a value around the first space."""
    word, space, behind = rest.partition(b" ")
    number, value = number_of(word), value_of(behind) if space else None
    return None if number is None or value is None else Head(number, int(value))
