"""Reads a stack from the JSON form, which docs/MIGRATING.md and migrate/stack.schema.json describe.

Texts are Unicode here, with a line feed, a return or both between lines.
"""

import json
from typing import Any, Dict, List, Optional, Tuple

from migrate import json_words
from migrate.old import BadSource, OldBackground, OldCard, OldContent, OldLayer, OldPart, OldStack
from migrate.texts import mac_roman

MOST_BYTES = 256_000_000
_KINDS = {str: "a text", bool: "true or false", int: "a whole number", list: "a list", dict: "an object"}


def _no_double(pairs: List[Tuple[str, Any]]) -> Dict[str, Any]:
    """An object of JSON, in which no key stands twice."""
    found: Dict[str, Any] = {}
    for key, value in pairs:
        if key in found:
            raise BadSource("the key %s stands twice in one object" % json.dumps(key))
        found[key] = value
    return found


class _JsonReader:
    """Turns objects of JSON into the parts of an old stack."""

    def __init__(self, source: str) -> None:
        self.stack = OldStack(source)

    def get(self, thing: Dict[str, Any], key: str, kind: type, default: Any, where: str) -> Any:
        """The value of a key, of this kind; `default` where it isn't there. None as a default: it has to be there."""
        if key not in thing:
            if default is None:
                raise BadSource("%s: there is no \"%s\"" % (where, key))
            return default
        value = thing[key]
        if type(value) is not kind:
            raise BadSource("%s: \"%s\" isn't %s" % (where, key, _KINDS[kind]))
        return value

    def text(self, thing: Dict[str, Any], key: str, where: str) -> bytes:
        """A text in Mac Roman."""
        text, lost = mac_roman(self.get(thing, key, str, "", where))
        if lost:
            self.stack.note(where, "%d characters of \"%s\" aren't in Mac Roman; each is a ? now" % (lost, key))
        return text

    def objects(self, thing: Dict[str, Any], key: str, where: str) -> List[Dict[str, Any]]:
        """A list of objects."""
        found: List[Dict[str, Any]] = self.get(thing, key, list, [], where)
        for number, each in enumerate(found, 1):
            if type(each) is not dict:
                raise BadSource("%s: number %d of \"%s\" isn't an object" % (where, number, key))
        return found

    def look_over(self, thing: Dict[str, Any], words: Dict[str, Optional[str]], where: str) -> None:
        """Counts what has no place here, and keeps what isn't known."""
        for key, value in thing.items():
            if key not in words:
                self.stack.dont_know("\"%s\"" % key, where)
            elif words[key] is not None and value:
                self.stack.drop(where, str(words[key]))

    def part(self, thing: Dict[str, Any], owner: str, number: int) -> OldPart:
        """A button or a field."""
        where = "%s, part %s" % (owner, self.get(thing, "id", int, None, "%s, part number %d" % (owner, number)))
        kind = self.get(thing, "kind", str, None, where)
        if kind not in ("button", "field"):
            raise BadSource("%s: \"kind\" is neither button nor field" % where)
        self.look_over(thing, json_words.PART, where)

        def flag(key: str, default: bool) -> bool:
            return bool(self.get(thing, key, bool, default, where))

        return OldPart(
            kind, thing["id"], self.text(thing, "name", where), self.text(thing, "script", where),
            visible=flag("visible", True), lock_text=flag("lockText", False), shared_text=flag("sharedText", False),
            shared_hilite=flag("sharedHilite", True), hilite=flag("hilite", False),
            auto_hilite=flag("autoHilite", False), enabled=flag("enabled", True),
            style=self.get(thing, "style", str, "", where), family=self.get(thing, "family", int, 0, where),
            text=self.text(thing, "text", where), where=where)

    def content(self, thing: Dict[str, Any], where: str) -> OldContent:
        """What a card keeps for a part."""
        self.look_over(thing, json_words.CONTENT, where)
        layer = self.get(thing, "layer", str, "background", where)
        if layer not in ("card", "background"):
            raise BadSource("%s: \"layer\" is neither card nor background" % where)
        return OldContent(
            layer, self.get(thing, "part", int, None, where),
            self.text(thing, "text", where) if "text" in thing else None,
            self.get(thing, "hilite", bool, False, where) if "hilite" in thing else None)

    def layer(self, thing: Dict[str, Any], layer: OldLayer, words: Dict[str, Optional[str]], where: str) -> None:
        """What backgrounds and cards have in common."""
        self.look_over(thing, words, where)
        layer.where = where
        layer.name = self.text(thing, "name", where)
        layer.script = self.text(thing, "script", where)
        layer.cant_delete = self.get(thing, "cantDelete", bool, False, where)
        layer.marked = self.get(thing, "marked", bool, False, where)
        layer.parts = [self.part(each, where, number)
                       for number, each in enumerate(self.objects(thing, "parts", where), 1)]
        layer.contents = [self.content(each, "%s, content %d" % (where, number))
                          for number, each in enumerate(self.objects(thing, "contents", where), 1)]

    def whole(self, top: Dict[str, Any]) -> OldStack:
        """The stack."""
        if top.get("format") != json_words.FORMAT:
            raise BadSource("the stack: \"format\" isn't \"%s\"" % json_words.FORMAT)
        if type(top.get("version")) is not int or top["version"] != json_words.VERSION:
            raise BadSource("the stack: \"version\" isn't %d" % json_words.VERSION)
        self.look_over(top, json_words.TOP, "the stack")
        self.stack.name = self.text(top, "name", "the stack")
        self.stack.script = self.text(top, "script", "the stack")
        for number, each in enumerate(self.objects(top, "backgrounds", "the stack"), 1):
            where = "background number %d" % number
            background = OldBackground(self.get(each, "id", int, None, where))
            self.layer(each, background, json_words.BACKGROUND, "background id %d" % background.id)
            self.stack.backgrounds.append(background)
        for number, each in enumerate(self.objects(top, "cards", "the stack"), 1):
            where = "card number %d" % number
            card = OldCard(self.get(each, "id", int, None, where))
            card.background = self.get(each, "background", int, None, where)
            self.layer(each, card, json_words.CARD, "card id %d" % card.id)
            self.stack.cards.append(card)
        return self.stack


def _not_a_number(word: str) -> Any:
    raise BadSource("%s is no value of JSON" % word)


def read_json(data: bytes, path: str) -> OldStack:
    """The stack of a JSON text, in UTF-8. Raises BadSource."""
    if len(data) > MOST_BYTES:
        raise BadSource("%s: %d bytes, and at most %d are read" % (path, len(data), MOST_BYTES))
    try:
        top = json.loads(data.decode("utf-8-sig"), object_pairs_hook=_no_double, parse_constant=_not_a_number)
    except UnicodeDecodeError as wrong:
        raise BadSource("%s: no UTF-8 at byte %d" % (path, wrong.start)) from None
    except json.JSONDecodeError as wrong:
        raise BadSource("%s, line %d, column %d: no JSON: %s" % (path, wrong.lineno, wrong.colno, wrong.msg)) from None
    except RecursionError:
        raise BadSource("%s: no stack: it nests too deep" % path) from None
    except ValueError as wrong:
        raise BadSource("%s: no JSON: %s" % (path, wrong)) from None
    except BadSource as wrong:
        raise BadSource("%s: %s" % (path, wrong)) from None
    if type(top) is not dict:
        raise BadSource("%s: the whole isn't an object of JSON" % path)
    try:
        return _JsonReader("JSON, %s" % path).whole(top)
    except BadSource as wrong:
        raise BadSource("%s: %s" % (path, wrong)) from None
