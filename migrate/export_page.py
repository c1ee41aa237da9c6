"""Writes a stack as one page of HTML to read and to print: all cards with their texts and buttons, and all scripts."""

import html
from typing import List, Union

from front.stack_text import BUTTON, Background, Card, Part, Stack
from migrate.texts import counted, unicode_of
from migrate.xml_tree import CONTROLS_AT

_HEAD = """<!DOCTYPE html>
<html lang="en"><head><meta charset="utf-8"><title>%s</title><style>
body { font: 15px/1.4 sans-serif; max-width: 50em; margin: 2em auto; padding: 0 1em }
section { border-top: 2px solid #444; margin-top: 1.5em; break-inside: avoid }
dt { font-weight: bold; margin-top: .5em } dd { margin: 0 0 0 1.5em; white-space: pre-wrap }
pre { background: #f2f2f2; padding: .5em; white-space: pre-wrap; break-inside: auto }
small { color: #555; font-weight: normal } ul { list-style: none; margin: .3em 0; padding-left: 1.5em }
</style></head><body>
"""


def _text(text: bytes) -> str:
    """A text for a page; control characters, which a page can't have, are shown as their codes."""
    shown = unicode_of(text).replace(chr(CONTROLS_AT + 10), "\\0a")
    return html.escape("".join(each if each in "\n\t" or ord(each) >= 32 else "\\%02x" % ord(each) for each in shown))


def _named(thing: Union[Part, Background, Card], kind: str) -> str:
    """An object's name with its kind and id."""
    name = _text(thing.name) or "%s id %d" % (kind, thing.id)
    return "%s <small>%s, id %d</small>" % (name, kind, thing.id)


def _script(of: str, script: bytes) -> str:
    return "<h4>Script of %s</h4>\n<pre>%s</pre>\n" % (of, _text(script)) if script else ""


def _flags(part: Part, shared: bool) -> str:
    """What a reader should know of a part beside its text."""
    said = [] if part.visible else ["hidden"]
    if part.kind == BUTTON:
        said += ["shared hilite"] if shared and part.shared_hilite else []
    else:
        said += (["locked"] if part.lock_text else []) + (["shared text"] if shared and part.shared_text else [])
    return " <small>(%s)</small>" % ", ".join(said) if said else ""


def _field(part: Part, kind: str, text: bytes, shared: bool) -> str:
    return "<dt>%s%s</dt><dd>%s</dd>\n" % (_named(part, kind), _flags(part, shared), _text(text))


def _button(part: Part, kind: str, lit: bool, shared: bool) -> str:
    return "<li>%s %s%s</li>\n" % ("☑" if lit else "☐", _named(part, kind), _flags(part, shared))


def _card(card: Card, background: Background, number: int) -> str:
    """A card with all that is seen on it."""
    fields = [_field(part, "bkgnd field", part.text if part.shared_text else card.texts.get(part.id, b""), True)
              for part in background.parts if part.kind != BUTTON]
    fields += [_field(part, "card field", part.text, False) for part in card.parts if part.kind != BUTTON]
    buttons = [_button(part, "bkgnd button", part.hilite if part.shared_hilite else card.hilites.get(part.id, False),
                       True) for part in background.parts if part.kind == BUTTON]
    buttons += [_button(part, "card button", part.hilite, False) for part in card.parts if part.kind == BUTTON]
    pieces = ["<section>\n<h3>%d. %s</h3>\n<p><small>of %s</small></p>\n" % (
        number, _named(card, "card"), _named(background, "background"))]
    pieces += ["<dl>\n", *fields, "</dl>\n"] if fields else []
    pieces += ["<ul>\n", *buttons, "</ul>\n"] if buttons else []
    return "".join(pieces + _scripts(card, "card") + ["</section>\n"])


def _scripts(layer: Union[Background, Card], kind: str) -> List[str]:
    """The scripts of a layer and of its parts."""
    short = "bkgnd" if kind == "background" else kind
    return [_script(_named(layer, kind), layer.script),
            *(_script(_named(part, "%s %s" % (short, part.kind)), part.script) for part in layer.parts)]


def page_of(stack: Stack) -> str:
    """The page of a stack."""
    name = _text(stack.name) or "A stack"
    behind = {each.id: each for each in stack.backgrounds}
    pieces = [_HEAD % name, "<h1>%s</h1>\n" % name,
              "<p>%s, %s</p>\n" % (counted(len(stack.cards), "card"), counted(len(stack.backgrounds), "background")),
              "<h2>Cards</h2>\n",
              *(_card(card, behind[card.background], number) for number, card in enumerate(stack.cards, 1))]
    scripts = [_script("the stack", stack.script),
               *(each for background in stack.backgrounds for each in _scripts(background, "background"))]
    pieces += ["<h2>Scripts of the stack and the backgrounds</h2>\n", *scripts] if any(scripts) else []
    return "".join(pieces) + "</body></html>\n"
