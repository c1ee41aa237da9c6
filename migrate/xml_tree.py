"""Reads one XML file into a small tree, and refuses what could harm: entities, files that are too large or too deep.

Nothing outside the file is ever read. A document type may be named, as `stackimport` does, but may declare nothing. A
control byte, which XML doesn't allow, is kept: it stands as a private character, and `migrate.texts` turns it back.
"""

import re
from dataclasses import dataclass, field
from typing import Dict, List, Optional
from xml.parsers import expat

from migrate.old import BadSource

MOST_BYTES = 64_000_000
MOST_DEPTH = 40
MOST_ELEMENTS = 500_000

# Where control characters stand while a file is read as XML.
CONTROLS_AT = 0xE000
_RAW_CONTROL = re.compile(rb"[\x00-\x08\x0b\x0c\x0e-\x1f]")
_CONTROL_REFERENCE = re.compile(rb"&#(?:x0*([0-9a-fA-F]{1,2})|0*([0-9]{1,2}));")
_DECLARED = re.compile(rb"<\?xml[^>]*encoding\s*=\s*[\"']([A-Za-z0-9_.-]+)[\"']")


@dataclass
class Element:
    """An element: its name, attributes, children, the text that stands in it directly, and the line where it begins."""

    tag: str
    line: int
    attributes: Dict[str, str] = field(default_factory=dict)
    children: List["Element"] = field(default_factory=list)
    pieces: List[str] = field(default_factory=list)

    @property
    def text(self) -> str:
        """The text of the element itself, without that of its children."""
        return "".join(self.pieces)

    def first(self, tag: str) -> Optional["Element"]:
        """The first child of this name."""
        return next((each for each in self.children if each.tag == tag), None)


class _Reader:
    """Builds the tree from what expat finds."""

    def __init__(self, where: str) -> None:
        self.where = where
        self.parser = expat.ParserCreate()
        self.parser.buffer_text = True
        self.parser.StartElementHandler = self.start
        self.parser.EndElementHandler = self.end
        self.parser.CharacterDataHandler = self.characters
        self.parser.EntityDeclHandler = self.entity
        self.parser.SkippedEntityHandler = self.skipped
        self.root: Optional[Element] = None
        self.open: List[Element] = []
        self.count = 0

    def wrong(self, text: str) -> BadSource:
        return BadSource("%s, line %d: %s" % (self.where, self.parser.CurrentLineNumber, text))

    def start(self, tag: str, attributes: Dict[str, str]) -> None:
        self.count += 1
        if self.count > MOST_ELEMENTS:
            raise self.wrong("more than %d elements" % MOST_ELEMENTS)
        if len(self.open) >= MOST_DEPTH:
            raise self.wrong("elements nest more than %d deep" % MOST_DEPTH)
        element = Element(tag, self.parser.CurrentLineNumber, attributes)
        if self.open:
            self.open[-1].children.append(element)
        else:
            self.root = element
        self.open.append(element)

    def end(self, _tag: str) -> None:
        self.open.pop()

    def characters(self, text: str) -> None:
        self.open[-1].pieces.append(text)

    def entity(self, name: str, *_rest: object) -> None:
        raise self.wrong("an entity is declared (%s), which isn't taken" % name)

    def skipped(self, name: str, _is_parameter: bool) -> None:
        raise self.wrong("the entity &%s; isn't known" % name)


def _private(code: int) -> bytes:
    return chr(CONTROLS_AT + code).encode("utf-8")


def _keep_reference(found: "re.Match[bytes]") -> bytes:
    code = int(found.group(1), 16) if found.group(1) else int(found.group(2))
    return _private(code) if code < 32 and code not in (9, 10, 13) else found.group(0)


def keep_controls(data: bytes) -> bytes:
    """The bytes of a file with each control character, raw or as `&#1;`, as a private one. Only files in UTF-8."""
    declared = _DECLARED.match(data[:200])
    if declared and declared.group(1).lower() not in (b"utf-8", b"utf8", b"us-ascii", b"ascii"):
        return data
    if data[:2] in (b"\xff\xfe", b"\xfe\xff"):
        return data
    data = _RAW_CONTROL.sub(lambda found: _private(found.group(0)[0]), data)
    return _CONTROL_REFERENCE.sub(_keep_reference, data)


def read(data: bytes, where: str) -> Element:
    """The tree of a file. Raises BadSource, with the place, for what isn't XML or isn't taken."""
    if len(data) > MOST_BYTES:
        raise BadSource("%s: %d bytes, and at most %d are read" % (where, len(data), MOST_BYTES))
    reader = _Reader(where)
    try:
        reader.parser.Parse(keep_controls(data), True)
    except expat.ExpatError as wrong:
        raise BadSource("%s, line %d: no XML: %s" % (where, wrong.lineno, expat.ErrorString(wrong.code))) from None
    except (LookupError, ValueError) as wrong:
        raise BadSource("%s: no XML: %s" % (where, wrong)) from None
    if reader.root is None:
        raise BadSource("%s: there is no element" % where)
    return reader.root
