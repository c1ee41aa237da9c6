"""What stands behind the door: the page's files, what it is told, and what it does, by name."""

import os
from http import HTTPStatus
from typing import Any, Callable, Dict, List, Optional

from front import server_acts as acts
from front import server_view as views
from front.checks import NotChecked, check
from front.program import ProgramMissing
from front.server_door import Asked, Reply, TurnedAway, json_reply
from front.server_objects import Json, Objects
from front.server_play import QUIT, Known, NotDone, Play, Stale, Standing
from front.server_told import MOST_ENTRIES, entry_view, log_of, texts_view, users_line
from front.server_words import shown
from front.session import Entry
from front.stack_text import Fault, read, write
from front.text_diff import changes

FOLDER = os.path.join(os.path.dirname(os.path.realpath(__file__)), "page")
FILES = {
    "": ("index.html", "text/html"), "style.css": ("style.css", "text/css"), "page.js": ("page.js", "text/javascript"),
}

SECONDS_FOR_NEWS = 20.0
MOST_DIFFERENT_LINES = 2_000
MOST_PLACES = 60
LONGEST_LABEL = 200
LONGEST_NAME = 200
MOST_OF_ANSWER = 4_000_000


class Fields:
    """The values that a page sends, by name, each of the type that is wanted. All raise TurnedAway where it isn't."""

    def __init__(self, values: Dict[str, Any], of_query: bool) -> None:
        """`of_query` says that numbers are spelled in digits."""
        self._values, self._of_query = values, of_query

    def number(self, name: str, default: Optional[int] = None) -> int:
        value = self._values.get(name, default)
        if self._of_query and isinstance(value, str) and value.isascii() and value.isdigit() and len(value) < 10:
            value = int(value)
        if not isinstance(value, int) or isinstance(value, bool) or not 0 <= value < 1_000_000_000:
            raise TurnedAway(HTTPStatus.BAD_REQUEST, "the request has no number " + name)
        return value

    def text(self, name: str, default: Optional[str] = None) -> str:
        value = self._values.get(name, default)
        if not isinstance(value, str):
            raise TurnedAway(HTTPStatus.BAD_REQUEST, "the request has no text " + name)
        return value

    def flag(self, name: str) -> bool:
        value = self._values.get(name, False)
        if not isinstance(value, bool):
            raise TurnedAway(HTTPStatus.BAD_REQUEST, "the request has no truth value " + name)
        return value

    def has(self, name: str) -> bool:
        return name in self._values


class PageDesk:
    """Answers the requests of a page."""

    def __init__(self, play: Play) -> None:
        """Raises OSError where the page's files can't be read."""
        self.play = play
        self.files: Dict[str, Reply] = {}
        for name, (file, kind) in FILES.items():
            with open(os.path.join(FOLDER, file), "rb") as opened:
                self.files[name] = Reply(opened.read(), kind)
        self.looks: Dict[str, Callable[[Fields], Reply]] = {
            "state": self._state, "news": self._news, "cards": self._cards, "backgrounds": self._backgrounds,
            "object": self._object, "transcript": self._transcript, "answer": self._answer, "places": self._places,
            "stack": self._stack, "session": self._session,
        }
        self.posts: Dict[str, Callable[[Fields], Reply]] = {
            "line": self._line, "click": self._click, "type": self._type, "set": self._set, "script": self._script,
            "check": self._check, "go": self._go, "menu": self._menu, "place": self._place, "stop": self._stop,
            "globals": self._globals, "cells": self._cells, "diff": self._diff,
        }

    def takes_stack(self, name: str) -> bool:
        return name == "open"

    def answer(self, asked: Asked) -> Reply:
        try:
            return self._answered(asked)
        except Stale as stale:
            return json_reply({"error": str(stale), "stale": True}, HTTPStatus.CONFLICT)
        except NotDone as wrong:
            return json_reply({"error": str(wrong)}, HTTPStatus.CONFLICT)

    def _answered(self, asked: Asked) -> Reply:
        if not asked.posted and asked.name in self.files:
            return self.files[asked.name]
        if asked.posted and asked.name == "open":
            return self._open(Fields(dict(asked.query), True), asked.body)
        found = (self.posts if asked.posted else self.looks).get(asked.name)
        if found is None:
            raise TurnedAway(HTTPStatus.NOT_FOUND, "there is nothing of that name here")
        return found(Fields(asked.object(), not asked.posted))

    # What the page is told.

    def _state(self, asked: Fields) -> Reply:
        play, known = self.play, self.play.known
        standing = play.standing()
        stack = known.objects.stack
        lines = len(play.session.lines)
        seen = asked.number("lines", 0) if asked.number("session", 0) == standing.session else 0
        start = max(min(seen, lines), lines - MOST_ENTRIES)
        return json_reply({
            "session": standing.session, "revision": known.revision, "busy": standing.busy, "ended": play.ended,
            "working": shown(play.working[:LONGEST_LABEL], play.coding),
            "notices": list(play.notices[asked.number("notices", 0):]), "noticed": standing.notices,
            "stack": {
                "name": shown(stack.name, play.coding), "path": play.path, "dropped": play.dropped,
                "unsaved": play.unsaved, "cards": len(stack.cards), "backgrounds": len(stack.backgrounds),
                "objects": len(known.objects.found) - 1, "coding": play.coding.value,
            },
            "card": views.card_view(known.objects, asked.number("start", 0), play.coding),
            "history": self._history(), "lines": lines, "entries": self._entries(start, lines), "from": start,
        })

    def _history(self) -> Dict[str, Json]:
        places = self.play.places
        return {"cursor": places.cursor, "last": places.last(), "dropped": places.dropped,
                "undo": self._label(places.cursor), "redo": self._label(places.cursor + 1)}

    def _label(self, place: int) -> Optional[str]:
        """The line that made a place, cut; None for the first place, and past the last."""
        made = self.play.places.at(place)
        return shown(made.line[:LONGEST_LABEL], self.play.coding) if made else None

    def _entries(self, start: int, end: int) -> List[Json]:
        """The lines from one to another, counted from 0, with the numbers that the user's lines have."""
        play = self.play
        lines = play.session.lines
        number = sum(not entry.own for entry in lines[:start])
        told: List[Json] = []
        for at, entry in enumerate(lines[start:end], start):
            number += not entry.own
            line = users_line(lines, entry)
            view = entry_view(number, line, entry.answer, entry.own, play.known.objects, play.coding)
            told.append({**view, "at": at})
        return told

    def _news(self, asked: Fields) -> Reply:
        """Waits until something differs from what the page has seen."""
        numbers = [asked.number(name) for name in ("session", "revision", "notices", "busy")]
        seen = Standing(numbers[0], numbers[1], numbers[2], numbers[3] == 1)
        self.play.wait_for_news(seen, SECONDS_FOR_NEWS)
        now = self.play.standing()
        return json_reply({"session": now.session, "revision": now.revision, "noticed": now.notices, "busy": now.busy,
                           "ended": self.play.ended})

    def _cards(self, asked: Fields) -> Reply:
        objects, coding = self.play.known.objects, self.play.coding
        return json_reply(views.cards_view(objects, asked.number("start", 0), asked.text("find", ""), coding))

    def _backgrounds(self, asked: Fields) -> Reply:
        objects, coding = self.play.known.objects, self.play.coding
        return json_reply(views.backgrounds_view(objects, asked.number("start", 0), asked.text("find", ""), coding))

    def _object(self, asked: Fields) -> Reply:
        objects = self.play.known.objects
        return json_reply(views.object_view(objects, acts.found_in(objects, asked.number("id")), self.play.coding))

    def _transcript(self, asked: Fields) -> Reply:
        """Lines before the one of this place, counted from 0."""
        end = min(asked.number("before"), len(self.play.session.lines))
        start = max(0, end - MOST_ENTRIES)
        return json_reply({"entries": self._entries(start, end), "from": start})

    def _answer(self, asked: Fields) -> Reply:
        """All lines of an answer."""
        at, lines = asked.number("at"), self.play.session.lines
        if at >= len(lines):
            raise NotDone("there is no such line")
        text = b"\n".join(lines[at].answer.lines())[:MOST_OF_ANSWER]
        return json_reply({"text": text.decode("ascii", "backslashreplace")})

    def _places(self, asked: Fields) -> Reply:
        """The places around one, with the lines that made them."""
        places = self.play.places
        around = min(asked.number("around"), places.last())
        start = max(0, min(around - MOST_PLACES // 2, places.last() + 1 - MOST_PLACES))
        rows: List[Json] = []
        for place in range(start, min(start + MOST_PLACES, places.last() + 1)):
            made = places.at(place)
            rows.append({"place": place, "line": self._label(place), "ending": made.ending if made else "ok"})
        return json_reply({"rows": rows, "cursor": places.cursor, "last": places.last(), "dropped": places.dropped})

    def _stack(self, asked: Fields) -> Reply:
        """The stack's text, as a file."""
        return Reply(self.play.known.text, "text/plain", file=os.path.basename(self.play.path))

    def _session(self, asked: Fields) -> Reply:
        """The user's lines with their answers, as a stored session."""
        name = os.path.splitext(os.path.basename(self.play.path))[0]
        return Reply(log_of(self.play.session.lines), "text/plain", file=name + ".session")

    # What the page does.

    def _done(self, entries: List[Entry]) -> Reply:
        """What was answered, and whether all was `ok`."""
        play = self.play
        told: List[Dict[str, Json]] = [
            {**entry_view(0, entry.line, entry.answer, entry.own, play.known.objects, play.coding),
             "texts": texts_view(entry, play.coding)} for entry in entries]
        ok = all(entry.answer.verdict == "ok" for entry in entries)
        return json_reply({"done": told, "ok": ok, "ended": play.ended})

    def _run(self, asked: Fields, lines_of: Callable[[Known], List[bytes]]) -> Reply:
        """Runs the lines of an act. What is known is that of the revision which the page saw, or nothing is sent."""
        seen, known = asked.number("seen"), self.play.known
        if seen != known.revision:
            raise Stale("the stack was changed meanwhile, in another tab: look, and do it again; nothing was sent")
        lines = lines_of(known)
        return self._done(self.play.run(seen, lines) if lines else [])

    def _line(self, asked: Fields) -> Reply:
        lines = acts.line_of(asked.text("line"), self.play.coding)
        if lines[0].rstrip(b" ") == QUIT and self.play.unsaved and not asked.flag("unsaved"):
            return json_reply({"error": "there are changes that aren't saved", "unsaved": True}, HTTPStatus.CONFLICT)
        return self._run(asked, lambda known: lines)

    def _click(self, asked: Fields) -> Reply:
        return self._run(asked, lambda known: acts.click(known.objects, asked.number("id")))

    def _type(self, asked: Fields) -> Reply:
        number, text, was = asked.number("id"), asked.text("text"), asked.text("was")
        return self._run(asked, lambda known: acts.type_into(known, number, text, was, self.play.coding))

    def _set(self, asked: Fields) -> Reply:
        number, name = asked.number("id"), asked.text("property")
        if name == "name":
            return self._run(asked, lambda known: acts.set_name(known, number, asked.text("value"), self.play.coding))
        return self._run(asked, lambda known: acts.set_flag(known.objects, number, name, asked.flag("value")))

    def _script(self, asked: Fields) -> Reply:
        number, text, was = asked.number("id"), asked.text("text"), asked.text("was")
        return self._run(asked, lambda known: acts.set_script(known, number, text, was, self.play.coding))

    def _go(self, asked: Fields) -> Reply:
        if asked.has("way"):
            return self._run(asked, lambda known: acts.go_way(asked.text("way")))
        return self._run(asked, lambda known: acts.go(known.objects, asked.number("id")))

    def _menu(self, asked: Fields) -> Reply:
        return self._run(asked, lambda known: acts.menu(asked.text("item"), asked.flag("background")))

    def _place(self, asked: Fields) -> Reply:
        return self._done(self.play.go_to(asked.number("seen"), asked.number("place")))

    def _stop(self, asked: Fields) -> Reply:
        return json_reply({"stopped": self.play.stop()})

    def _check(self, asked: Fields) -> Reply:
        """What the program says of the stack with this script in place of an object's."""
        number, coding = asked.number("id"), self.play.coding
        script = acts.bytes_typed(asked.text("text"), coding)
        known = self.play.known
        stack = read(known.text)
        acts.found_in(Objects(stack, known.objects.card.id), number).thing.script = script
        try:
            remarks = check(write(stack))
        except (NotChecked, ProgramMissing, OSError, Fault) as wrong:
            return json_reply({"checked": False, "why": str(wrong), "remarks": []})
        mine: List[Json] = [
            {"line": each.line, "column": each.column, "words": each.words, "shown": list(each.shown)}
            for each in remarks if each.id == number]
        return json_reply({"checked": True, "remarks": mine})

    def _globals(self, asked: Fields) -> Reply:
        entry = self.play.look([b".globals"])[0]
        rows: List[Json] = []
        for text in entry.answer.texts():
            name, _, value = text.partition(b" ")
            rows.append({"name": shown(name, self.play.coding), "value": shown(value, self.play.coding)})
        return json_reply({"rows": rows})

    def _cells(self, asked: Fields) -> Reply:
        rows: List[Json] = []
        for name, entry in zip(acts.CELLS, self.play.look(list(acts.CELLS.values()))):
            rows.append({"name": name, "cells": [shown(text, self.play.coding) for text in entry.answer.texts()]})
        return json_reply({"rows": rows})

    def _diff(self, asked: Fields) -> Reply:
        """What differs between the texts of two places."""
        old, new = self.play.texts_at(asked.number("seen"), [asked.number("from"), asked.number("to")])
        found: List[Json] = []
        room = MOST_DIFFERENT_LINES
        for change in changes(old, new):
            lines: List[Json] = [[sign, line.decode("ascii", "replace")] for sign, line in change.lines[:room]]
            found.append({"where": change.where.decode("ascii"), "lines": lines})
            room -= len(change.lines)
            if room <= 0:
                break
        return json_reply({"changes": found, "cut": room < 0})

    def _open(self, asked: Fields, body: bytes) -> Reply:
        """Opens a stack that was dropped. Changes that aren't saved are given up only where that is said."""
        seen = asked.number("seen")
        if seen == self.play.known.revision and self.play.unsaved and asked.text("unsaved", "") != "drop":
            return json_reply({"error": "there are changes that aren't saved", "unsaved": True}, HTTPStatus.CONFLICT)
        self.play.open(seen, file_name(asked.text("name", "")), body)
        return json_reply({"ok": True})


def file_name(said: str) -> str:
    """A plain name of a file, near to the one that a page said: no folder, no control character, not hidden."""
    last = said.replace("\\", "/").rpartition("/")[2]
    plain = "".join(each for each in last if each.isprintable() and each not in '<>:"|?*').strip(". ")
    return plain.encode("utf-8", "ignore")[:LONGEST_NAME].decode("utf-8", "ignore") or "dropped.stack"
