"""Texts of a stack as a page shows them, and what is typed into a page as texts of a stack.

A text of a stack is bytes. On a page it is Unicode: each byte is its character of Mac Roman, or the bytes are read as
UTF-8. `shown` and `typed` are inverse to each other, so a text that is only looked at comes back byte for byte:

- a return (byte 13) is a line feed on the page, as text areas have it;
- a tab is a tab;
- each other control character has its picture: byte 10 is U+240A, byte 0 is U+2400, byte 127 is U+2421;
- a byte that isn't UTF-8 where that is read is a lone surrogate, U+DC80 to U+DCFF, which is drawn as an empty box.
"""

import unicodedata
from typing import Dict

from front.terminal_text import Coding

PICTURES = 0x2400
DELETE = 0x7F
PICTURE_OF_DELETE = 0x2421


class NotInStack(Exception):
    """A character that a stack can't hold. Its text says which, for people."""

    def __init__(self, character: str, why: str) -> None:
        super().__init__("%s (U+%04X) %s, so the stack can't hold it" % (character, ord(character), why))


def _picture(byte: int) -> str:
    """What is shown for a byte below 128."""
    if byte == 0x0D:
        return "\n"
    if byte == 0x09:
        return "\t"
    if byte < 0x20:
        return chr(PICTURES + byte)
    return chr(PICTURE_OF_DELETE) if byte == DELETE else chr(byte)


_ASCII: Dict[int, str] = {byte: _picture(byte) for byte in range(128)}
_BACK: Dict[int, int] = {ord(shown): byte for byte, shown in _ASCII.items()}
# Pictures that stand in a text of UTF-8 as themselves are shown byte by byte, so that each picture is a control byte.
_THEMSELVES = {code: code_point.encode("utf-8").decode("ascii", "surrogateescape")
               for code, code_point in ((code, chr(code)) for code in _BACK if code >= 128)}


def shown(text: bytes, coding: Coding) -> str:
    """The text as the page shows it."""
    if coding is Coding.MAC_ROMAN:
        return text.decode(coding.value).translate(_ASCII)
    return text.decode(coding.value, "surrogateescape").translate(_THEMSELVES).translate(_ASCII)


def typed(text: str, coding: Coding) -> bytes:
    """The bytes of what was typed into the page. A return counts as a line feed does. For Mac Roman a letter and its
    accent that came apart are joined.

    Raises NotInStack for the first character that has no bytes."""
    plain = text.replace("\r\n", "\n").replace("\r", "\n")
    errors, why = "surrogateescape", "isn't text"
    if coding is Coding.MAC_ROMAN:
        plain = unicodedata.normalize("NFC", plain)
        errors, why = "strict", "isn't a character of Mac Roman"
    try:
        return plain.translate(_BACK).encode(coding.value, errors)
    except UnicodeEncodeError as error:
        raise NotInStack(plain[error.start], why) from None
