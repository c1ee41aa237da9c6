"""Breaks the lines of a text of definitions that are over 120 columns.

A line is broken at a space where the fewest brackets are open, before an arrow if there is one there, and goes on with
four more columns in front. Where the longer part is what stands behind a sign of equality, it is broken there.
"""

from typing import Iterator, List, NamedTuple, Optional

MOST = 120
DEEPER = 4
OPEN, CLOSE = "([{", ")]}"
BEFORE = (("→",), ("×", "⊎", "|"), ("≡", "∙", "++", "↔", "≢", "∷", "≤", "<"))
# No line ends with one of these, or begins with one of those.
NEVER_LAST = ("×", "⊎", "λ", "let", "by", "pub", "rw", "elim", "record", "if", "as", ":")
NEVER_FIRST = ("=", ":", "in", ";")


class Place(NamedTuple):
    """A space where a line may be broken: how many brackets are open there, and how good a place it is."""

    depth: int
    kind: int
    column: int


def places(line: str, least: int) -> Iterator[Place]:
    """The places of a line, from a column on."""
    depth = 0
    for column, letter in enumerate(line[:MOST + 1]):
        depth += (letter in OPEN) - (letter in CLOSE)
        if letter != " " or column < least:
            continue
        behind, before = line[column + 1:].split(" ")[0], line[:column].split(" ")[-1]
        if before in NEVER_LAST or behind in NEVER_FIRST:
            continue
        kind = next((kind for kind, words in enumerate(BEFORE) if behind in words), len(BEFORE))
        yield Place(depth, -1 if before == "=" and depth == 0 else kind, column)


def best(line: str, indent: int) -> Optional[int]:
    """The column where a line is broken, if it can be."""
    found = list(places(line, indent + 10))
    ends = [place for place in found if place.kind < 0]
    if ends and len(line) - ends[0].column + indent + DEEPER <= MOST:
        return ends[0].column
    found = [place for place in found if place.kind >= 0 and place.column > indent + 30] or found
    if not found:
        return None
    depth = min(place.depth for place in found)
    shallow = [place for place in found if place.depth == depth]
    kind = min(place.kind for place in shallow)
    return max(place.column for place in shallow if place.kind == kind)


def broken(line: str) -> List[str]:
    """The lines that a line becomes."""
    indent = len(line) - len(line.lstrip(" "))
    found: List[str] = []
    while len(line) > MOST:
        column = best(line, len(line) - len(line.lstrip(" ")))
        if column is None:
            break
        found.append(line[:column].rstrip())
        line = " " * (indent + DEEPER) + line[column:].lstrip()
    return found + [line]


def imports(line: str) -> List[str]:
    """The imports that a long one becomes."""
    head, _, names = line.partition("{")
    found: List[str] = []
    taken: List[str] = []
    for name in names.rstrip("}").split(", "):
        if taken and len("%s{%s}" % (head, ", ".join(taken + [name]))) > MOST:
            found.append("%s{%s}" % (head, ", ".join(taken)))
            taken = []
        taken.append(name)
    return found + ["%s{%s}" % (head, ", ".join(taken))]


def comment(line: str) -> List[str]:
    """The lines of a comment that a long one becomes."""
    head = line[:line.index("--")] + "-- "
    found, words = [], line[len(head):].split(" ")
    while words:
        taken = head + words.pop(0)
        while words and len(taken) + 1 + len(words[0]) <= MOST:
            taken += " " + words.pop(0)
        found.append(taken)
    return found


def fitted(text: str) -> str:
    """A text, none of whose lines is over 120 columns if it can be broken."""
    found: List[str] = []
    for line in text.split("\n"):
        if len(line) <= MOST:
            found.append(line)
        elif line.lstrip().startswith("--"):
            found.extend(comment(line))
        elif line.startswith(("use ", "pub use ")):
            found.extend(imports(line))
        else:
            found.extend(broken(line))
    return "\n".join(found)
