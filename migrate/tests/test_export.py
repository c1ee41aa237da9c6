"""What ./export writes: JSON that gives the same stack again, a page with all texts, and the schema of the JSON."""

import json
import os
import unittest
from html.parser import HTMLParser
from pathlib import Path
from typing import Dict, List, Optional, Tuple

from front.program import HERE
from front.stack_text import BUTTON, FIELD, Background, Card, Part, Stack, read, write
from migrate import export_tool, json_words
from migrate.convert import convert
from migrate.export_json import json_of
from migrate.export_page import page_of
from migrate.json_stack import read_json
from migrate.tests.helpers import Folder

ODD = bytes(range(256))


def odd_stack() -> Stack:
    """A stack with each kind of object and each byte that a text of JSON gives back."""
    background = Background(1, ODD, True, b"on a\rend a", [
        Part(FIELD, 2, b"F", False, b"s", True, True, b"shared\r\rtext\r"), Part(BUTTON, 3, b"B", hilite=True),
        Part(BUTTON, 4, shared_hilite=False)])
    card = Card(5, 1, b"<&>", False, b"", [Part(FIELD, 6, b"", text=b"\r"), Part(BUTTON, 7, hilite=True)],
                {2: ODD}, {3: False, 4: True})
    return Stack(9, b"Odd", b"--", [background], [card])


class Reader(HTMLParser):
    """Reads a page, and sees that each tag is closed."""

    def __init__(self) -> None:
        super().__init__()
        self.open: List[str] = []
        self.texts: List[str] = []

    def handle_starttag(self, tag: str, attrs: List[Tuple[str, Optional[str]]]) -> None:
        if tag != "meta":
            self.open.append(tag)

    def handle_endtag(self, tag: str) -> None:
        if self.open.pop() != tag:
            raise AssertionError("<%s> isn't closed" % tag)

    def handle_data(self, data: str) -> None:
        self.texts.append(data)


class Export(Folder):
    """The tool's two forms."""

    def test_json_gives_the_same_stack(self) -> None:
        stacks = [read(path.read_bytes()) for path in sorted(Path(HERE, "stacks").glob("*.stack"))]
        self.assertGreater(len(stacks), 4)
        for stack in [*stacks, odd_stack()]:
            again = convert(read_json(json_of(stack).encode(), "a")).stack
            again.next_id = stack.next_id
            self.assertEqual(write(again), write(stack))

    def test_page(self) -> None:
        reader = Reader()
        reader.feed(page_of(odd_stack()))
        reader.close()
        self.assertEqual(reader.open, [])
        text = "".join(reader.texts)
        for each in ("shared\n\ntext\n", "<&>", "on a\nend a", "bkgnd field, id 2", "(hidden, locked, shared text)",
                     "☑ B", "☑ bkgnd button id 4", "card field id 6", "☑ card button id 7"):
            self.assertIn(each, text)

    def test_page_of_a_text_of_its_card(self) -> None:
        stack = odd_stack()
        stack.backgrounds[0].parts[0].shared_text = False
        stack.cards[0].texts[2] = b"own text"
        self.assertIn("own text", page_of(stack))
        self.assertNotIn("shared\n", page_of(stack))

    def test_tool(self) -> None:
        source = self.put("a.stack", write(odd_stack()))
        self.assertEqual(export_tool.main([source, "--json", self.at("a.json"), "--page", self.at("a.html")]), 0)
        self.assertEqual(self.get("a.json").decode(), json_of(odd_stack()))
        self.assertEqual(self.get("a.html").decode(), page_of(odd_stack()))
        self.assertEqual(self.get("a.stack"), write(odd_stack()))
        self.assertEqual(export_tool.main([self.put("b.stack", b"htstack 3\n")]), 1)
        self.assertEqual(export_tool.main([self.at("missing")]), 1)


class Schema(unittest.TestCase):
    """The schema says what the reader takes."""

    def test_keys(self) -> None:
        with open(os.path.join(HERE, "migrate", "stack.schema.json"), encoding="utf-8") as file:
            schema = json.load(file)
        parts = schema["definitions"]
        tables: List[Tuple[Dict[str, Optional[str]], Dict]] = [
            (json_words.TOP, schema), (json_words.BACKGROUND, parts["background"]), (json_words.CARD, parts["card"]),
            (json_words.PART, parts["part"]), (json_words.CONTENT, parts["content"])]
        for words, said in tables:
            self.assertEqual({key for key, kind in words.items() if kind is None}, set(said["properties"]))
            self.assertEqual({key for key, kind in words.items() if kind is not None}, set(said["dropped"]))


if __name__ == "__main__":
    unittest.main()
