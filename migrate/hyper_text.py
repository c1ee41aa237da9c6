"""How a line of HyperTalk as HyperCard writes it is cut into words, and a script into its lines.

This is knowledge of HyperCard's language, for naming and rewriting what isn't in the grammar here. Whether a script is
in the grammar is the program's to say. Scripts are bytes; a return (byte 13) ends a line, and the byte C2 at the end of
a line means that the next one goes on with it.
"""

import re
from dataclasses import dataclass
from itertools import islice
from typing import Iterator, List, Tuple

CONTINUED = b"\xc2"
_TOKEN = re.compile(rb"""
    (?P<comment>--.*)
  | (?P<string>"[^"]*"?)
  | (?P<number>[0-9]+(?:\.[0-9]*)?|\.[0-9]+)
  | (?P<word>[A-Za-z_][A-Za-z0-9_]*)
  | (?P<blank>[ \t\xc2\r]+)
  | (?P<symbol>&&|<=|>=|<>|.)
""", re.VERBOSE | re.DOTALL)


@dataclass(frozen=True)
class Token:
    """A piece of a line: its kind (word, number, string, symbol, blank or comment), its bytes, and where it begins."""

    kind: str
    text: bytes
    start: int

    @property
    def end(self) -> int:
        """The place behind it."""
        return self.start + len(self.text)

    @property
    def low(self) -> str:
        """A word in lower case, or a symbol; empty for all else."""
        return self.text.decode("latin-1").lower() if self.kind in ("word", "symbol") else ""


def each_token(line: bytes) -> Iterator[Token]:
    """The tokens of a line one by one, its blanks and its comment left out."""
    for each in _TOKEN.finditer(line):
        if each.lastgroup not in ("blank", "comment"):
            yield Token(str(each.lastgroup), each.group(0), each.start())


def tokens(line: bytes) -> List[Token]:
    """The tokens of a line, its blanks and its comment left out."""
    return list(each_token(line))


def first_word(line: bytes) -> str:
    """The first word of a line in lower case; empty where it begins with something else."""
    return next((each.low for each in each_token(line)), "")


def split_comment(line: bytes) -> Tuple[bytes, bytes]:
    """A line as what stands before its comment, without blanks at the end, and the comment with its two hyphens."""
    for each in _TOKEN.finditer(line):
        if each.lastgroup == "comment":
            return line[: each.start()].rstrip(b" \t"), each.group(0)
    return line.rstrip(b" \t"), b""


def bare(line: bytes) -> str:
    """The line in lower case with its comment and the insides of its strings blanked, so that places stay."""
    text = list(line.decode("latin-1").lower())
    for each in _TOKEN.finditer(line):
        if each.lastgroup == "comment":
            text[each.start():] = " " * (len(text) - each.start())
        elif each.lastgroup == "string":
            inside = range(each.start() + 1, each.end() - each.group(0).endswith(b"\""))
            for place in inside:
                text[place] = "_"
    return "".join(text)


@dataclass
class Line:
    """A line of a script with those that go on with it: its first line from 0, how many there are, its blanks at the
    left, what stands in it (in one line), its comment, and its bytes as they stood."""

    first: int
    count: int
    indent: bytes
    body: bytes
    comment: bytes
    raw: bytes

    def begins(self, *words: str) -> bool:
        """Whether the body begins with these words."""
        return tuple(each.low for each in islice(each_token(self.body), len(words))) == words


def _continues(line: bytes) -> bool:
    body, comment = split_comment(line)
    return not comment and body.endswith(CONTINUED)


def lines_of(script: bytes) -> List[Line]:
    """The lines of a script, each joined with those that go on with it."""
    pieces = script.split(b"\r")
    found: List[Line] = []
    place = 0
    while place < len(pieces):
        after = place + 1
        while after < len(pieces) and _continues(pieces[after - 1]):
            after += 1
        found.append(_line(pieces[place:after], place))
        place = after
    return found


def _line(pieces: List[bytes], first: int) -> Line:
    """One line of these pieces."""
    joined = b" ".join([each.rstrip(b" \t").rstrip(CONTINUED).strip(b" \t") for each in pieces[:-1]]
                       + [pieces[-1].strip(b" \t")])
    body, comment = split_comment(joined)
    indent = pieces[0][: len(pieces[0]) - len(pieces[0].lstrip(b" \t"))]
    return Line(first, len(pieces), indent, body, comment, b"\r".join(pieces))


def statement_starts(line: str) -> List[int]:
    """Where statements begin in a bare line: at its first word, and behind `then` and `else`."""
    first = len(line) - len(line.lstrip())
    return [first] + [each.end() for each in re.finditer(r"\b(?:then|else)\b\s*", line)]
