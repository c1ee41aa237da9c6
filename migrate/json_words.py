"""The keys of the JSON form of a stack, and what becomes of each.

A key with a kind names what has no place here: it is counted under this heading of the report. What is in no table is
told as unknown. migrate/stack.schema.json says the same for other tools, and a test holds the two together.
"""

from typing import Dict, Optional

from migrate.xml_words import FONTS, GEOMETRY, LOOK, PICTURES, PROTECTION, SEARCH

FORMAT = "yarvekko-stack"
VERSION = 1

# For each kind of object the keys: None for what is taken.
TOP: Dict[str, Optional[str]] = {
    "format": None, "version": None, "name": None, "script": None, "backgrounds": None, "cards": None,
    "size": GEOMETRY, "protection": PROTECTION, "pictures": PICTURES, "fonts": FONTS,
    "media": "media (icons, cursors, sounds)",
}
_LAYER: Dict[str, Optional[str]] = {
    "id": None, "name": None, "cantDelete": None, "script": None, "parts": None, "contents": None, "marked": None,
    "picture": PICTURES, "dontSearch": SEARCH,
}
BACKGROUND = dict(_LAYER)
CARD: Dict[str, Optional[str]] = dict(_LAYER, background=None)
PART: Dict[str, Optional[str]] = {
    "kind": None, "id": None, "name": None, "script": None, "visible": None, "lockText": None, "sharedText": None,
    "sharedHilite": None, "hilite": None, "autoHilite": None, "enabled": None, "style": None, "family": None,
    "text": None,
    "rect": GEOMETRY, "scroll": GEOMETRY, "icon": PICTURES, "font": FONTS, "textFont": FONTS, "textSize": FONTS,
    "textStyle": FONTS, "textHeight": FONTS, "textAlign": FONTS, "dontWrap": LOOK, "showName": LOOK,
    "showLines": LOOK, "wideMargins": LOOK, "fixedLineHeight": LOOK, "autoTab": LOOK, "multipleLines": LOOK,
    "autoSelect": LOOK, "titleWidth": LOOK, "dontSearch": SEARCH, "selectedLine": "lines that were selected",
}
CONTENT: Dict[str, Optional[str]] = {"layer": None, "part": None, "text": None, "hilite": None, "styles": FONTS}
