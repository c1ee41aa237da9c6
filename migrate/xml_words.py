"""The elements of the XML that `stackimport` writes, and what becomes of each.

A kind that begins with `=` names what the reader takes. Any other kind is a heading of the report, under which what
has no place here is counted; an element of SILENT is bookkeeping of the file. What is in no table is told as unknown.
"""

from typing import Dict

GEOMETRY = "places and sizes"
PICTURES = "pictures and icons"
FONTS = "fonts and text styles"
LOOK = "looks of parts"
PROTECTION = "protection of the stack"
SEARCH = "marks and search flags"

SILENT = frozenset((
    "id", "cardCount", "backgroundCount", "cardID", "firstCardID", "firstBackgroundID", "backgroundID", "listID",
    "filler1", "reserved1", "reserved2", "reserved3", "reserved4", "reserved5", "format", "checksum", "totalSize",
    "stackSize", "createdByVersion", "lastCompactedVersion", "lastEditedVersion", "firstEditedVersion", "version",
    "showPict", "nextPartID", "partCount", "contentCount", "pageID", "nextBackgroundID", "previousBackgroundID",
))

# Those that stand in a list of their kind, and the attributes that are read.
MANY = frozenset(("part", "content", "card", "background", "stack", "xcmd", "xfcn", "externalcommand",
                  "externalfunction"))
ATTRIBUTES = frozenset(("id", "file", "name", "owner", "marked"))

STACK: Dict[str, str] = {
    "name": "=", "script": "=", "card": "=", "background": "=", "stack": "=",
    "cardSize": GEOMETRY, "size": GEOMETRY, "windowRect": GEOMETRY, "screenRect": GEOMETRY, "scroll": GEOMETRY,
    "rect": GEOMETRY,
    "patterns": PICTURES, "pattern": PICTURES, "picture": PICTURES, "icon": PICTURES,
    "font": FONTS, "styleentry": FONTS, "styleEntry": FONTS, "styles": FONTS, "fonts": FONTS, "fontTable": FONTS,
    "password": PROTECTION, "userLevel": PROTECTION, "cantModify": PROTECTION, "cantDelete": PROTECTION,
    "privateAccess": PROTECTION, "cantAbort": PROTECTION, "cantPeek": PROTECTION,
    "media": "media (icons, cursors, sounds)",
    "xcmd": "=", "xfcn": "=", "externalcommand": "=", "externalfunction": "=",
}
EXTERNALS = ("xcmd", "xfcn", "externalcommand", "externalfunction")

LAYER: Dict[str, str] = {
    "name": "=", "script": "=", "part": "=", "content": "=", "cantDelete": "=", "owner": "=", "marked": "=",
    "bitmap": PICTURES, "picture": PICTURES, "dontSearch": SEARCH, "addcolorobject": PICTURES,
    "addcolorbackground": PICTURES,
}

PART: Dict[str, str] = {
    "type": "=", "name": "=", "script": "=", "visible": "=", "lockText": "=", "sharedText": "=", "style": "=",
    "sharedHighlight": "=", "sharedHilite": "=", "highlight": "=", "hilite": "=", "autoHighlight": "=",
    "autoHilite": "=", "family": "=", "enabled": "=", "text": "=",
    "rect": GEOMETRY, "scroll": GEOMETRY,
    "icon": PICTURES, "iconID": PICTURES,
    "font": FONTS, "textFont": FONTS, "textFontID": FONTS, "textSize": FONTS, "textStyle": FONTS,
    "textHeight": FONTS, "textAlign": FONTS,
    "dontWrap": LOOK, "showName": LOOK, "showLines": LOOK, "wideMargins": LOOK, "fixedLineHeight": LOOK,
    "autoTab": LOOK, "multipleLines": LOOK, "autoSelect": LOOK, "titleWidth": LOOK, "dontSearch": SEARCH,
    "selectedLine": "lines that were selected", "selectedLines": "lines that were selected",
    "firstSelectedLine": "lines that were selected", "lastSelectedLine": "lines that were selected",
}

CONTENT: Dict[str, str] = {
    "layer": "=", "text": "=", "highlight": "=", "hilite": "=",
    "stylerun": FONTS, "styleRun": FONTS, "style": FONTS,
}
