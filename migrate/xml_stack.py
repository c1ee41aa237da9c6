"""Reads a stack from the XML files that the public tool `stackimport` writes from a binary stack.

The source is the folder that the tool makes, or its stack file. The stack file (`stack_-1.xml`, `toc.xml` or
`project.xml`, known by its root element) lists the cards in their order; `card_N.xml` and `background_N.xml` stand
beside it. docs/MIGRATING.md says which description of the files this follows.
"""

import os
from typing import Dict, List, Optional, Tuple

from migrate import xml_words
from migrate.old import BadSource, OldBackground, OldCard, OldContent, OldLayer, OldPart, OldStack
from migrate.texts import mac_roman
from migrate.xml_tree import MOST_BYTES, Element, read

MOST_FILES = 20_000
MOST_BYTES_IN_ALL = 256_000_000
_TRUE = ("true", "1", "yes")
_FALSE = ("false", "0", "no", "")
# Cards or backgrounds by id: the element of each, and its file.
_Found = Dict[str, Tuple[Element, str]]


class _XmlReader:
    """Turns elements into the parts of an old stack, and keeps what was left aside."""

    def __init__(self, source: str) -> None:
        self.stack = OldStack(source)

    def bytes_of(self, element: Optional[Element], where: str) -> bytes:
        """The text of an element in Mac Roman; empty where there is none."""
        if element is None:
            return b""
        for child in element.children:
            self.stack.dont_know("<%s> in <%s>" % (child.tag, element.tag), where)
        text, lost = mac_roman(element.text)
        if lost:
            self.stack.note(where, "%d characters of <%s> aren't in Mac Roman; each is a ? now" % (lost, element.tag))
        return text

    def name_of(self, element: Element, where: str) -> bytes:
        """The name of an object. A name is one line, so a line end at its end is the file's."""
        return self.bytes_of(element.first("name"), where).strip(b"\r")

    def flag(self, element: Optional[Element], default: bool, where: str) -> bool:
        """A logical value: `<true />` or `<false />` within, or the word itself."""
        if element is None:
            return default
        word = next((each.tag for each in element.children), element.text.strip()).lower()
        if word in _TRUE:
            return True
        if word in _FALSE:
            return False
        raise BadSource("%s, line %d: <%s> is neither true nor false" % (where, element.line, element.tag))

    def number(self, element: Optional[Element], default: Optional[int], where: str, tag: str) -> int:
        """A whole number, as an id; `default` where the element isn't there."""
        if element is None:
            if default is None:
                raise BadSource("%s: there is no <%s>" % (where, tag))
            return default
        text = next((each.text for each in element.children if each.tag == "integer"), element.text).strip()
        if len(text) > 11 or not text.lstrip("-").isdecimal() or not text.isascii():
            raise BadSource("%s, line %d: <%s> isn't a whole number" % (where, element.line, tag))
        return int(text)

    def look_over(self, element: Element, words: Dict[str, str], where: str) -> None:
        """Counts what has no place here, and keeps what isn't known: elements, attributes, and text between them."""
        if element.text.strip():
            self.stack.dont_know("text in <%s>" % element.tag, where)
        seen = set()
        for child in element.children:
            kind = words.get(child.tag)
            if kind == "=":
                if child.tag not in xml_words.EXTERNALS:
                    self.look_at(child, where)
                if child.tag in seen and child.tag not in xml_words.MANY:
                    self.stack.dont_know("a second <%s> in <%s>" % (child.tag, element.tag), where)
                seen.add(child.tag)
            if kind is None and child.tag not in xml_words.SILENT:
                self.stack.dont_know("<%s> in <%s>" % (child.tag, element.tag), where)
            elif kind is not None and kind != "=" and _says_something(child):
                self.stack.drop(where, kind)

    def look_at(self, element: Element, where: str) -> None:
        """Keeps the attributes that aren't known."""
        for name in element.attributes:
            if name not in xml_words.ATTRIBUTES:
                self.stack.dont_know("the attribute %s of <%s>" % (name, element.tag), where)

    def part(self, element: Element, owner: str) -> OldPart:
        """A button or a field."""
        number = self.number(element.first("id"), None, "%s, line %d" % (owner, element.line), "id")
        where = "%s, part %d" % (owner, number)
        said = element.first("type")
        kind = said.text.strip().lower() if said else ""
        if kind not in ("button", "field"):
            raise BadSource("%s: <type> is neither button nor field" % where)
        self.look_over(element, xml_words.PART, where)
        style = element.first("style")
        return OldPart(
            kind, number, self.name_of(element, where), self.bytes_of(element.first("script"), where),
            visible=self.flag(element.first("visible"), True, where),
            lock_text=self.flag(element.first("lockText"), False, where),
            shared_text=self.flag(element.first("sharedText"), False, where),
            shared_hilite=self.flag(_either(element, "sharedHighlight", "sharedHilite"), True, where),
            hilite=self.flag(_either(element, "highlight", "hilite"), False, where),
            auto_hilite=self.flag(_either(element, "autoHighlight", "autoHilite"), False, where),
            enabled=self.flag(element.first("enabled"), True, where),
            style=style.text.strip() if style else "",
            family=self.number(element.first("family"), 0, where, "family"),
            text=self.bytes_of(element.first("text"), where), where=where)

    def content(self, element: Element, where: str) -> OldContent:
        """What a card keeps for a part."""
        layer = element.first("layer")
        word = layer.text.strip().lower() if layer else ""
        if word not in ("card", "background"):
            raise BadSource("%s, line %d: <layer> is neither card nor background" % (where, element.line))
        self.look_over(element, xml_words.CONTENT, where)
        lit = _either(element, "highlight", "hilite")
        text = element.first("text")
        return OldContent(
            word, self.number(element.first("id"), None, where, "id"),
            self.bytes_of(text, where) if text is not None else None,
            self.flag(lit, False, where) if lit is not None else None)

    def layer(self, element: Element, layer: OldLayer, where: str) -> None:
        """What backgrounds and cards have in common."""
        self.look_over(element, xml_words.LAYER, where)
        layer.where = where
        layer.name = self.name_of(element, where)
        layer.script = self.bytes_of(element.first("script"), where)
        layer.cant_delete = self.flag(element.first("cantDelete"), False, where)
        layer.marked = self.flag(element.first("marked"), False, where)
        for child in element.children:
            if child.tag == "part":
                layer.parts.append(self.part(child, where))
            elif child.tag == "content":
                layer.contents.append(self.content(child, where))

    def background(self, element: Element, where: str) -> OldBackground:
        background = OldBackground(self.number(element.first("id"), None, where, "id"))
        self.layer(element, background, where)
        return background

    def card(self, element: Element, listed: Optional[Element], where: str) -> OldCard:
        card = OldCard(self.number(element.first("id"), None, where, "id"))
        self.layer(element, card, where)
        owner = element.first("owner")
        if owner is None and listed is not None and listed.attributes.get("owner"):
            owner = Element("owner", listed.line, pieces=[listed.attributes["owner"]])
        card.background = self.number(owner, None, where, "owner")
        if listed is not None:
            card.marked = card.marked or listed.attributes.get("marked", "").lower() in _TRUE
        return card


def _either(element: Element, one: str, other: str) -> Optional[Element]:
    """The first child of either name."""
    found = element.first(one)
    return element.first(other) if found is None else found


def _says_something(element: Element) -> bool:
    """Whether an element holds more than a false, a zero or nothing."""
    if element.children:
        return element.children[0].tag.lower() not in _FALSE
    return bool(element.attributes) or element.text.strip().lower() not in _FALSE


def _files(folder: str, also: str) -> List[str]:
    """The names of the XML files of a folder, and of the file that was named."""
    names = sorted({name for name in os.listdir(folder) if name.lower().endswith(".xml")} | ({also} - {""}))
    if not names:
        raise BadSource("%s: there is no XML file in it" % folder)
    if len(names) > MOST_FILES:
        raise BadSource("%s: more than %d XML files" % (folder, MOST_FILES))
    if sum(os.path.getsize(os.path.join(folder, name)) for name in names) > MOST_BYTES_IN_ALL:
        raise BadSource("%s: the files have more than %d bytes" % (folder, MOST_BYTES_IN_ALL))
    return names


def _roots(folder: str, also: str = "") -> List[Tuple[str, Element]]:
    """The root element of each XML file of the folder, with the file's name."""
    roots = []
    for name in _files(folder, also):
        with open(os.path.join(folder, name), "rb") as file:
            roots.append((name, read(file.read(), name)))
    return roots


def _stack_element(roots: List[Tuple[str, Element]], folder: str) -> List[Tuple[str, Element]]:
    """The elements that speak of the stack itself: the roots of the stack files, and `<stack>` within them."""
    found = [(name, root) for name, root in roots if root.tag in ("stack", "stackfile", "project")]
    if not found:
        raise BadSource("%s: no file has the root <stack>, <stackfile> or <project>" % folder)
    inner = [(name, child) for name, root in found for child in root.children if child.tag == "stack"]
    return found + [each for each in inner if each not in found]


def _take_stack(reader: _XmlReader, elements: List[Tuple[str, Element]]) -> None:
    """The name and the script of the stack, from the file that has them."""
    for name, element in elements:
        reader.look_over(element, xml_words.STACK, name)
        for child in element.children:
            if child.tag in xml_words.EXTERNALS:
                named = child.first("name")
                called = child.attributes.get("name", "") or (named.text.strip() if named else "")
                reader.stack.note(name, "the %s %s isn't brought; write a handler or an external of that name"
                                  % (child.tag, called))
        reader.stack.name = reader.stack.name or reader.name_of(element, name)
        reader.stack.script = reader.stack.script or reader.bytes_of(element.first("script"), name)


def _listed(elements: List[Tuple[str, Element]], tag: str) -> Dict[str, Element]:
    """The entries of the stack file for cards or backgrounds, by id, in their order."""
    return {child.attributes["id"]: child
            for _, element in elements for child in element.children if child.tag == tag and "id" in child.attributes}


def _whole(elements: List[Tuple[str, Element]], roots: List[Tuple[str, Element]], tag: str) -> _Found:
    """Each card or background, by id: its element and its file. It is a file of its own, or stands whole within the
    stack file."""
    inside = [("%s, %s of line %d" % (name, tag, child.line), child) for name, element in elements
              for child in element.children if child.tag == tag and child.first("id") is not None]
    found: _Found = {}
    for name, element in [(name, root) for name, root in roots if root.tag == tag] + inside:
        number = element.first("id")
        key = number.text.strip() if number else ""
        if key in found:
            raise BadSource("%s: the id %s of a %s stands in %s too" % (name, key, tag, found[key][1]))
        found[key] = (element, name)
    return found


def _in_order(reader: _XmlReader, listed: Dict[str, Element], found: _Found, tag: str) -> List[str]:
    """The ids in the order of the stack file; what it doesn't list comes behind, and is told."""
    missing = [key for key in listed if key not in found]
    if missing:
        raise BadSource("there is no file for %s %s, which the stack file lists" % (tag, missing[0]))
    others = [key for key in found if key not in listed]
    others.sort(key=lambda key: (int(key) if key.lstrip("-").isdecimal() and key.isascii() else 0, key))
    for key in others if listed else []:
        reader.stack.note(found[key][1], "the stack file doesn't list this %s; it stands behind the others" % tag)
    if others and not listed and tag == "card":
        reader.stack.note(found[others[0]][1], "the stack file lists no cards; they stand in the order of their ids")
    return list(listed) + others


def _sources(path: str) -> Tuple[str, List[Tuple[str, Element]]]:
    """The folder of a source, and its roots. A stack file that has its cards whole within it stands alone."""
    if os.path.isdir(path):
        return path, _roots(path)
    name, folder = os.path.basename(path), os.path.dirname(path) or "."
    if os.path.getsize(path) > MOST_BYTES:
        raise BadSource("%s: more than %d bytes" % (path, MOST_BYTES))
    with open(path, "rb") as file:
        root = read(file.read(), name)
    inside = [root, *(child for child in root.children if child.tag == "stack")]
    whole = any(child.tag == "card" and child.first("id") is not None for each in inside for child in each.children)
    return folder, [(name, root)] if whole else _roots(folder, name)


def read_folder(path: str) -> OldStack:
    """The stack of a folder, or of a stack file. Raises BadSource, and OSError where it can't be read."""
    folder, roots = _sources(path)
    return of_roots(roots, folder, "XML of stackimport, %s" % path)


def of_roots(roots: List[Tuple[str, Element]], folder: str, source: str) -> OldStack:
    """The stack of the root elements of files, each with the file's name. Raises BadSource."""
    reader = _XmlReader(source)
    elements = _stack_element(roots, folder)
    _take_stack(reader, elements)
    for name, root in roots:
        reader.look_at(root, name)
        if root.tag not in ("stack", "stackfile", "project", "card", "background"):
            reader.stack.dont_know("<%s>" % root.tag, name)
    for tag in ("background", "card"):
        listed, found = _listed(elements, tag), _whole(elements, roots, tag)
        for key in _in_order(reader, listed, found, tag):
            element, name = found[key]
            if tag == "card":
                reader.stack.cards.append(reader.card(element, listed.get(key), name))
            else:
                reader.stack.backgrounds.append(reader.background(element, name))
    return reader.stack
