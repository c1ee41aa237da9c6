"""Texts between what people's files have and what a stack keeps: bytes of Mac Roman, with returns between lines."""

import unicodedata
from typing import Tuple

from migrate.xml_tree import CONTROLS_AT

# Characters that tools write in place of those that Mac Roman's table has today: the ohm sign, and the currency sign
# where the euro stands now.
_OLD_FORMS = {0x2126: 0x03A9, 0x00A4: 0x20AC}
_BACK = {**_OLD_FORMS, **{CONTROLS_AT + code: code for code in range(32)}}


def mac_roman(text: str) -> Tuple[bytes, int]:
    """The text in Mac Roman, each line end (CR, LF or both) as a return; and how many characters Mac Roman doesn't
    have. Each of these is a question mark in the bytes."""
    text = text.replace("\r\n", "\r").replace("\n", "\r")
    if text.isascii():
        return text.encode("ascii"), 0
    text = unicodedata.normalize("NFC", text).translate(_BACK)
    data = text.encode("mac_roman", errors="replace")
    return data, data.count(b"?") - text.count("?")


def unicode_of(text: bytes) -> str:
    """The text as Unicode, its returns as line feeds. A line feed of its own is the private character U+E00A, so that
    `mac_roman` gives the same bytes again."""
    return text.decode("mac_roman").replace("\n", chr(CONTROLS_AT + 10)).replace("\r", "\n")


def counted(number: int, word: str) -> str:
    """A number with its word, as `1 card` and `2 cards`."""
    return "%d %s%s" % (number, word, "" if number == 1 else "s")


def show(text: bytes, most: int = 60) -> str:
    """A text for people: Mac Roman as Unicode, cut with dots where it has more than `most` characters."""
    shown = text.decode("mac_roman").replace("\r", " / ")
    shown = "".join(each if each.isprintable() else "." for each in shown)
    return shown if len(shown) <= most else shown[: most - 2] + ".."
