"""What differs between two texts of a stack, in lines, with the object that each difference belongs to.

The texts are those that the program shows. Lines at the beginning and the end that are the same are set aside first, so
a small change in a large stack is found at once.
"""

import difflib
import re
from dataclasses import dataclass
from typing import List, Tuple

# How many lines that are the same are shown around a difference.
AROUND = 2
# Past so many lines on one side between the first difference and the last one, the sides aren't compared further.
MOST_TO_COMPARE = 4_000

OBJECT = re.compile(rb"(?:background|card|button|field) [0-9]+(?: [0-9]+)?")
PLACE = re.compile(rb"(?:text|hilite) [0-9]+ ")


@dataclass
class Change:
    """A run of lines that differ. `where` is the object, such as `card 5, field 7`; `lines` are pairs of a sign, one of
    a space, `-` and `+`, and the line as it stands in the text."""

    where: bytes
    lines: List[Tuple[str, bytes]]


def changes(old: bytes, new: bytes) -> List[Change]:
    """The changes that make the new text of the old one, in their order; none where they are the same."""
    if old == new:
        return []
    before, after = old.split(b"\n"), new.split(b"\n")
    start, end = _same_ends(before, after)
    middle = (before[start:len(before) - end], after[start:len(after) - end])
    if max(map(len, middle)) > MOST_TO_COMPARE:
        blocks = [(0, len(middle[0]), 0, len(middle[1]))]
    else:
        codes = difflib.SequenceMatcher(None, middle[0], middle[1], autojunk=False).get_opcodes()
        blocks = [code[1:] for code in codes if code[0] != "equal"]
    moved = [(a + start, b + start, c + start, d + start) for a, b, c, d in blocks]
    return [_change(before, after, group) for group in _groups(moved)]


def _same_ends(before: List[bytes], after: List[bytes]) -> Tuple[int, int]:
    """How many lines are the same at the beginning, and how many behind these at the end."""
    least = min(len(before), len(after))
    start = next((at for at in range(least) if before[at] != after[at]), least)
    rest = least - start
    end = next((at for at in range(rest) if before[-1 - at] != after[-1 - at]), rest)
    return start, end


def _groups(blocks: List[Tuple[int, int, int, int]]) -> List[List[Tuple[int, int, int, int]]]:
    """The blocks, those together whose lines around them meet."""
    groups: List[List[Tuple[int, int, int, int]]] = []
    for block in blocks:
        if groups and block[0] - groups[-1][-1][1] <= 2 * AROUND:
            groups[-1].append(block)
        else:
            groups.append([block])
    return groups


def _change(before: List[bytes], after: List[bytes], group: List[Tuple[int, int, int, int]]) -> Change:
    """The change of a group of blocks, with the lines around it."""
    first, last = group[0], group[-1]
    lines: List[Tuple[str, bytes]] = [(" ", line) for line in before[max(0, first[0] - AROUND):first[0]]]
    at = first[0]
    for a, b, c, d in group:
        lines += [(" ", line) for line in before[at:a]]
        lines += [("-", line) for line in before[a:b]] + [("+", line) for line in after[c:d]]
        at = b
    lines += [(" ", line) for line in before[at:last[1] + AROUND]]
    made = first[0] == first[1]
    return Change(_where(after, first[2]) if made else _where(before, first[0]), lines)


def _where(lines: List[bytes], at: int) -> bytes:
    """The object to which a line belongs: the nearest one above, with its card or background."""
    part = b""
    for number in range(min(at, len(lines) - 1), -1, -1):
        line = lines[number]
        if not part and PLACE.match(line) and not line.startswith(b"|"):
            part = line.rsplit(b" ", 1)[0]
        elif OBJECT.fullmatch(line):
            if line.startswith((b"card ", b"background ")):
                owner = b" ".join(line.split()[:2])
                return owner + b", " + part if part else owner
            part = part or line
    return part or b"stack"
