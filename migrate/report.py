"""The report of an import: what was left out, what was changed, which scripts read, and what keeps the others.

It is made of sections, each a heading, a sentence and a table; `text` writes them as text and `page` as HTML.
"""

import collections
import html
from dataclasses import dataclass, field
from typing import Counter, Dict, List, Optional, Tuple, Union

from front.handlers import handlers
from front.stack_text import BUTTON, FIELD, Background, Card
from migrate.convert import Converted
from migrate.hyper_words import COMMANDS, FUNCTIONS, NEVER_SENT
from migrate.ids import Reference
from migrate.reading import Reading, holders
from migrate.rewrite import Rewriting
from migrate.set_aside import Aside
from migrate.texts import counted, show, unicode_of

MOST_NAMED = 8
_HELPED = "--rewrite rewrites %s"


@dataclass
class Section:
    """A heading, a sentence below it, and a table: its heads and rows."""

    title: str
    said: str
    heads: List[str] = field(default_factory=list)
    rows: List[List[str]] = field(default_factory=list)


@dataclass
class Done:
    """All that an import did: what it made, and what was asked of the scripts. `reading` is None where the scripts
    weren't checked; `unchecked` says why."""

    converted: Converted
    reading: Optional[Reading] = None
    unchecked: str = ""
    ids: List[Reference] = field(default_factory=list)
    ids_written: bool = False
    rewritings: List[Tuple[int, Rewriting]] = field(default_factory=list)
    left: List[Tuple[int, int, bytes]] = field(default_factory=list)
    stand_ins: List[str] = field(default_factory=list)
    no_stand_ins: str = ""
    lit: List[str] = field(default_factory=list)
    aside: List[Aside] = field(default_factory=list)


def _summary(done: Done) -> Section:
    stack = done.converted.stack
    layers: List[Union[Background, Card]] = [*stack.backgrounds, *stack.cards]
    parts = [part for layer in layers for part in layer.parts]
    rows = [["read", done.converted.old.source],
            ["objects", ", ".join((counted(len(stack.backgrounds), "background"), counted(len(stack.cards), "card"),
                                   counted(sum(part.kind == BUTTON for part in parts), "button"),
                                   counted(sum(part.kind == FIELD for part in parts), "field")))]]
    if done.reading is None:
        return Section("Summary", done.unchecked, [], rows + [["scripts", "not checked"]])
    reading = done.reading
    blocking = collections.Counter(each.construct.name for each in reading.blockers)
    rows += [["scripts that read", "%d of %d" % (len(reading.scripts) - len(reading.unread), len(reading.scripts))],
             ["handlers that would run", "%d of %d" % (reading.running, reading.handlers)],
             ["what blocks most", ", ".join("%s (%d)" % each for each in blocking.most_common(MOST_NAMED))
              or "nothing"]]
    helped = sum(each.helped for each in reading.blockers)
    if reading.blockers:
        rows.append(["what helps", "%s of %d places" % (_HELPED % helped, len(reading.blockers))])
    return Section("Summary", "", [], rows)


def _dropped(done: Done) -> Section:
    old, places = done.converted.old, done.converted.places
    rows = [[places.get(where, where), ", ".join("%s %d" % each for each in sorted(kinds.items()))]
            for where, kinds in old.dropped.items()]
    whole: Counter[str] = sum(old.dropped.values(), collections.Counter())
    said = ", ".join("%s %d" % each for each in whole.most_common()) or "Nothing was left out that the source names."
    return Section("What has no place here", said, ["where", "how many"] if rows else [], rows)


def _notes(done: Done) -> List[Section]:
    old, places = done.converted.old, done.converted.places
    sections = []
    if old.notes:
        sections.append(Section("What was changed or left out", "", ["where", "what"],
                                [[places.get(where, where), what] for where, what in old.notes]))
    if old.unknown:
        rows = [[what, str(len(where)), "; ".join(places.get(each, each) for each in where[:MOST_NAMED])
                 + ("; .." if len(where) > MOST_NAMED else "")] for what, where in sorted(old.unknown.items())]
        sections.append(Section("What the reader doesn't know", "It was left out.", ["what", "times", "where"], rows))
    return sections


def _line(text: bytes) -> str:
    return show(text.strip(b" \t"), 100)


def _unread(done: Done, reading: Reading) -> Section:
    names = done.converted.names
    rows = [[names[each.id], "%d, %d" % (each.line, each.column), each.construct.name, _line(each.text),
             (_HELPED % "this" if each.helped else "by hand: " + each.construct.advice)
             + (". The rest of the handler wasn't looked at" if each.last else "")]
            for each in reading.blockers]
    said = "No handler of a script runs until all of the script reads." if rows else "Each script reads."
    if done.aside:
        said = "These handlers were set aside: each of their lines is a comment now."
    elif 0 in reading.unread:
        said += (" The script of the stack doesn't read, so no message that comes to it is answered, and no stand-in"
                 " runs.")
    return Section("Scripts that don't read", said,
                   ["script", "line, column", "what", "the line", "what to do"] if rows else [], rows)


def _unanswered(done: Done, reading: Reading) -> List[Section]:
    names = done.converted.names
    own: Dict[str, List[str]] = {}
    foreign: Dict[str, List[str]] = {}
    for each in reading.unanswered:
        low = each.name.lower()
        table = own if low in COMMANDS or low in FUNCTIONS else foreign
        table.setdefault(each.name, []).append("%s, line %d" % (names[each.id], each.line))
    sections = []
    for title, said, table in (
            ("Commands and functions of HyperCard that nothing answers",
             "Each ends its command with fault 2. --compat puts the stand-ins that there are.", own),
            ("XCMDs, XFCNs and handlers of other stacks that are called",
             "Each ends its command with fault 2. Write a handler of that name, or an external.", foreign)):
        if table:
            sections.append(Section(title, said, ["name", "where"],
                                    [[name, "; ".join(where)] for name, where in sorted(table.items())]))
    return sections


def _never_sent(done: Done) -> List[Section]:
    rows = [[each.name.decode("mac_roman"), "%s, line %d" % (done.converted.names[number], each.first + 1)]
            for number, holder in holders(done.converted.stack) for each in handlers(holder.script)
            if each.name.decode("mac_roman").lower() in NEVER_SENT]
    return [Section("Handlers for messages that are never sent here", "A script or a typed line may call them.",
                    ["message", "where"], rows)] if rows else []


def _ids(done: Done) -> List[Section]:
    names = done.converted.names
    rows = [["%s, line %d" % (names[each.holder], each.line), each.words,
             str(each.new) if each.new is not None else "it isn't sure which one is meant, or there is none"]
            for each in done.ids]
    said = "They were written into the scripts." if done.ids_written else "--ids writes them into the scripts."
    return [Section("Ids in scripts that are others now", said, ["where", "words", "the id now"], rows)] if rows else []


def _rewritings(done: Done) -> List[Section]:
    names = done.converted.names
    sections = []
    if done.rewritings:
        rows = [["%s, line %d" % (names[number], each.line), each.name, unicode_of(each.before), unicode_of(each.after)]
                for number, each in done.rewritings]
        sections.append(Section("Rewritings", "The lines are those of the script before.",
                                ["where", "what", "before", "after"], rows))
    if done.left:
        rows = [["%s, line %d" % (names[number], line), _line(text)] for number, line, text in done.left]
        sections.append(Section("Handlers that weren't rewritten", "An `if` in them can't be followed.",
                                ["where", "at"], rows))
    return sections


def _stand_ins(done: Done) -> List[Section]:
    sections = []
    if done.stand_ins or done.no_stand_ins:
        sections.append(Section("Stand-ins", done.no_stand_ins or "They stand behind the stack's script.", ["name"],
                                [[each] for each in done.stand_ins]))
    if done.lit:
        sections.append(Section("Switches that light by a handler", "HyperCard lights them by itself.", ["button"],
                                [[each] for each in done.lit]))
    return sections


def sections(done: Done) -> List[Section]:
    """The sections of the report."""
    found = [_summary(done), _dropped(done), *_notes(done)]
    if done.reading is not None:
        found += [_unread(done, done.reading), *_unanswered(done, done.reading)]
    return found + _never_sent(done) + _ids(done) + _rewritings(done) + _stand_ins(done)


def text(found: List[Section]) -> str:
    """The report as text. A cell of several lines is indented below its row."""
    lines: List[str] = []
    for section in found:
        lines += [section.title, "=" * len(section.title)] + ([section.said] if section.said else [])
        for row in section.rows:
            plain = [cell for cell in row if "\n" not in cell]
            lines.append("  " + (": " if len(row) < 3 else " | ").join(plain))
            for cell, head in zip(row, section.heads or [""] * len(row)):
                lines += ["    %s:" % head] + ["      " + each for each in cell.split("\n")] if "\n" in cell else []
        lines.append("")
    return "\n".join(lines)


_HEAD = """<!DOCTYPE html>
<html lang="en"><head><meta charset="utf-8"><title>Import report</title><style>
body { font: 15px/1.4 sans-serif; max-width: 70em; margin: 2em auto; padding: 0 1em }
table { border-collapse: collapse } td, th { border: 1px solid #bbb; padding: .2em .5em; text-align: left;
vertical-align: top; white-space: pre-wrap } h2 { margin-top: 1.6em }
</style></head><body><h1>Import report</h1>
"""


def page(found: List[Section]) -> str:
    """The report as a page of HTML."""
    pieces = [_HEAD]
    for section in found:
        pieces.append("<h2>%s</h2>\n" % html.escape(section.title))
        pieces.append("<p>%s</p>\n" % html.escape(section.said) if section.said else "")
        if section.rows:
            heads = "".join("<th>%s</th>" % html.escape(each) for each in section.heads)
            rows = ["<tr>%s</tr>\n" % "".join("<td>%s</td>" % html.escape(cell) for cell in row)
                    for row in section.rows]
            pieces.append("<table>\n%s%s</table>\n" % ("<tr>%s</tr>\n" % heads if heads else "", "".join(rows)))
    return "".join(pieces) + "</body></html>\n"
