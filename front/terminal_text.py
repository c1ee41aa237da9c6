"""Texts on a terminal: the bytes that a line of characters stands for, and the characters that an answer is shown as.

The program takes and keeps bytes, and spells each byte that isn't printable ASCII as a backslash and two hexadecimal
digits. On a terminal the bytes 128 to 255 are characters, in one of two ways: as UTF-8, so that `é` is two bytes, or
as Mac Roman, so that `é` is the one byte 8e. What can't be shown as a printable character stays spelled; a return, a
backslash and all other control bytes stay spelled always, so what is shown can't move the cursor.
"""

import re
import unicodedata
from enum import Enum
from typing import List, Tuple

from front.stack_lines import unspell

SPELLED = re.compile(rb"(?:\\[89a-f][0-9a-f])+")
CARET = re.compile(r" *\^")


class Coding(Enum):
    """How the bytes 128 to 255 are read from the terminal and shown on it, by the name of Python's codec."""

    UTF_8 = "utf-8"
    MAC_ROMAN = "mac_roman"


class NoSuchCharacter(Exception):
    """A line has a character that the coding doesn't have. Its text says which, for people."""


def coding_of(stack: bytes) -> Coding:
    """How the texts of a stack are read where nothing else was said: as UTF-8, unless one of them has bytes that aren't
    UTF-8; then as Mac Roman. What is given is the stack's own text."""
    try:
        for line in stack.split(b"\n"):
            if b"\\" in line:
                unspell(line.partition(b"|")[2]).decode("utf-8")
    except UnicodeDecodeError:
        return Coding.MAC_ROMAN
    return Coding.UTF_8


def to_bytes(text: str, coding: Coding) -> bytes:
    """The bytes of what was typed. Bytes that weren't UTF-8 stand in the text as Python's lone surrogates: as UTF-8
    they are the bytes that they were. For Mac Roman a letter and its accent that came apart are joined.

    Raises NoSuchCharacter for one that Mac Roman doesn't have."""
    if coding is Coding.UTF_8:
        return text.encode("utf-8", "surrogateescape")
    text = unicodedata.normalize("NFC", text)
    try:
        return text.encode("mac_roman")
    except UnicodeEncodeError as error:
        character = text[error.start]
        what = "a byte that isn't UTF-8" if 0xDC80 <= ord(character) <= 0xDCFF else "the character " + character
        raise NoSuchCharacter("the line has %s, which Mac Roman doesn't have" % what) from None


def shown(spelled: bytes, coding: Coding) -> str:
    """What people see of a text that is spelled as the program spells it."""
    return SPELLED.sub(lambda found: _characters(found.group(), coding), spelled).decode("utf-8", "backslashreplace")


def explained(lines: List[str], coding: Coding) -> List[str]:
    """The lines of an explanation as people see them; a caret stays under the column of the line above it."""
    found: List[str] = []
    for number, line in enumerate(lines):
        if number and CARET.fullmatch(line):
            above = lines[number - 1][: line.index("^")]
            line = " " * len(_shown_line(above, coding)) + "^"
        else:
            line = _shown_line(line, coding)
        found.append(line)
    return found


def _shown_line(line: str, coding: Coding) -> str:
    return shown(line.encode("utf-8", "replace"), coding)


def _characters(spelled: bytes, coding: Coding) -> bytes:
    """The characters of a run of spelled bytes, as UTF-8; where there is none, the spelling."""
    raw = bytes(int(spelled[place + 1 : place + 3], 16) for place in range(0, len(spelled), 3))
    found: List[str] = []
    while raw:
        size, text = _first(raw, coding)
        found.append(text)
        raw = raw[size:]
    return "".join(found).encode("utf-8")


def _first(raw: bytes, coding: Coding) -> Tuple[int, str]:
    """How many bytes the first character takes, and what is shown for it."""
    for size in range(1, 5 if coding is Coding.UTF_8 else 2):
        try:
            text = raw[:size].decode(coding.value)
        except UnicodeDecodeError:
            continue
        if text.isprintable():
            return size, text
        break
    return 1, "\\%02x" % raw[0]
