"""Writes a stack in the JSON form that ./import reads: migrate/stack.schema.json describes it."""

import json
from typing import Any, Dict, List

from front.stack_text import BUTTON, Background, Card, Part, Stack
from migrate.json_words import FORMAT, VERSION
from migrate.texts import unicode_of


def _part(part: Part, shared: bool) -> Dict[str, Any]:
    """A button or a field; whether it stands on a background."""
    thing: Dict[str, Any] = {"kind": part.kind, "id": part.id, "name": unicode_of(part.name), "visible": part.visible}
    if part.kind == BUTTON:
        thing.update({"sharedHilite": part.shared_hilite} if shared else {}, hilite=part.hilite)
    else:
        thing.update(lockText=part.lock_text, text=unicode_of(part.text))
        thing.update({"sharedText": part.shared_text} if shared else {})
    thing["script"] = unicode_of(part.script)
    return thing


def _contents(card: Card) -> List[Dict[str, Any]]:
    """What a card keeps for the parts of its background."""
    texts = [{"layer": "background", "part": number, "text": unicode_of(text)} for number, text in card.texts.items()]
    return texts + [{"layer": "background", "part": number, "hilite": lit} for number, lit in card.hilites.items()]


def _background(background: Background) -> Dict[str, Any]:
    return {"id": background.id, "name": unicode_of(background.name), "cantDelete": background.cant_delete,
            "script": unicode_of(background.script), "parts": [_part(part, True) for part in background.parts]}


def _card(card: Card) -> Dict[str, Any]:
    return {"id": card.id, "background": card.background, "name": unicode_of(card.name),
            "cantDelete": card.cant_delete, "script": unicode_of(card.script),
            "parts": [_part(part, False) for part in card.parts], "contents": _contents(card)}


def json_of(stack: Stack) -> str:
    """The stack as a text of JSON. Texts are Unicode, with line feeds between their lines."""
    thing = {"format": FORMAT, "version": VERSION, "name": unicode_of(stack.name), "script": unicode_of(stack.script),
             "backgrounds": [_background(each) for each in stack.backgrounds],
             "cards": [_card(each) for each in stack.cards]}
    return json.dumps(thing, ensure_ascii=False, indent=1) + "\n"
