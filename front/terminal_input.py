"""What is typed in several lines: lines come in one by one, and whole entries come out.

- What begins with `on NAME` or `function NAME` is a handler, up to the line `end NAME`.
- A line that begins with `repeat`, or an `if` whose line ends with `then`, goes on up to its `end`; and so does a line
  at whose end the byte C2 stands, which is `¬` in Mac Roman, in the next line.
- Each other line is an entry by itself.

Lines are bytes without their ends. The lines of an entry are joined by returns (byte 13), which are what stands
between statements within a typed line of the program. What an entry means is the program's to judge: here it is only
asked where it ends.
"""

import re
from dataclasses import dataclass
from typing import List, Optional

TOKEN = re.compile(rb'--.*|"[^"]*"|[A-Za-z_][A-Za-z0-9_]*|[0-9]+|[^ \t]')
HEADS = (b"on", b"function")
CONTINUED = b"\xc2"


@dataclass(frozen=True)
class Entry:
    """What was typed: its lines, joined by returns, and for a handler its name as it stands in its first line."""

    text: bytes
    handler: bytes = b""


def tokens(line: bytes) -> List[bytes]:
    """The words and signs of a line without its comment, in lower case but for literals."""
    found = [token for token in TOKEN.findall(line) if not token.startswith(b"--")]
    return [token if token.startswith(b'"') else token.lower() for token in found]


def handler_name(line: bytes) -> bytes:
    """The name of the handler that begins in this line, as it is written there; empty where none begins."""
    found: List[bytes] = [token for token in TOKEN.findall(line) if not token.startswith(b"--")]
    begins = len(found) > 1 and found[0].lower() in HEADS and (found[1][:1].isalpha() or found[1][:1] == b"_")
    return found[1] if begins else b""


def ends(line: bytes, name: bytes) -> bool:
    """Whether this line ends the handler of this name."""
    return tokens(line)[:2] == [b"end", name.lower()]


class Joiner:
    """Joins lines to entries. `give` takes a line, and answers with an entry if it ends one."""

    def __init__(self) -> None:
        self._lines: List[bytes] = []
        self._handler = b""
        self._blocks: List[bytes] = []
        self._lacks_then = False

    @property
    def is_open(self) -> bool:
        """Whether an entry has begun and not ended."""
        return bool(self._lines)

    @property
    def waits_for(self) -> bytes:
        """The line that would end what is open, such as `end repeat`; empty where any line does, or nothing is open."""
        if self._handler:
            return b"end " + self._handler
        return b"end " + self._blocks[-1] if self._blocks else b""

    def drop(self) -> None:
        """Forgets the entry that is open."""
        self._lines, self._handler = [], b""
        self._blocks, self._lacks_then = [], False

    def give(self, line: bytes) -> Optional[Entry]:
        """The entry that this line ends, if it ends one."""
        first = not self._lines
        self._lines.append(line)
        if first:
            self._handler = handler_name(line)
        if not (self._handler and not self._is_ended_handler(line)) and not self._goes_on(line):
            entry = Entry(b"\r".join(self._lines), self._handler)
            self.drop()
            return entry
        return None

    def _is_ended_handler(self, line: bytes) -> bool:
        return len(self._lines) > 1 and ends(line, self._handler)

    def _goes_on(self, line: bytes) -> bool:
        """Whether the statement of this line goes on in the next one."""
        if self._handler:
            return False
        found = tokens(line)
        self._read_blocks(found)
        continued = TOKEN.findall(line)[-1:] == [CONTINUED]
        return bool(self._blocks) or self._lacks_then or continued

    def _read_blocks(self, found: List[bytes]) -> None:
        """Opens and closes the blocks that the words of a line open and close."""
        head = found[:1]
        if self._lacks_then and head == [b"then"]:
            self._lacks_then = False
            if len(found) == 1:
                self._blocks.append(b"if")
        elif head == [b"repeat"]:
            self._blocks.append(b"repeat")
        elif head == [b"if"]:
            if found[-1] == b"then":
                self._blocks.append(b"if")
            self._lacks_then = b"then" not in found
        elif head == [b"end"] and self._blocks and found[1:2] == self._blocks[-1:]:
            self._blocks.pop()
