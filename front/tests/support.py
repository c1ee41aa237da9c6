"""What tests of the front share: folders, stacks of the repository, and stacks that are made by chance."""

import glob
import os
import re
import tempfile
import unittest
from random import Random
from typing import Dict, List

from front import program
from front.stack_text import BUTTON, FIELD, Background, Card, Part, Stack

DEMO = os.path.join("crates", "card_cli", "data", "demo.stack")
# A loop that takes about a minute until it has no step left, where it has the most: each turn computes with many numbers.
ENDLESS = ("repeat", "put max(%s) into g" % ",".join(["1"] * 2_000), "end repeat")


def there(path: str) -> str:
    """A path of the repository."""
    return os.path.join(program.HERE, path)


def bytes_of(path: str) -> bytes:
    with open(path, "rb") as file:
        return file.read()


class FolderTest(unittest.TestCase):
    """A test with a folder of its own."""

    def setUp(self) -> None:
        folder = tempfile.TemporaryDirectory(prefix="yarvekko-test-")
        self.addCleanup(folder.cleanup)
        self.folder = folder.name

    def put(self, name: str, data: bytes) -> str:
        """Writes a file in the folder, and gives its path."""
        path = os.path.join(self.folder, name)
        with open(path, "wb") as file:
            file.write(data)
        return path

    def put_demo(self, name: str = "demo.stack") -> str:
        """A copy of the demo stack."""
        return self.put(name, bytes_of(there(DEMO)))


def texts() -> Dict[str, bytes]:
    """The texts of stacks in the repository, whole ones and others: files, and blocks of the pages."""
    found = {}
    for pattern in ("stacks/*.stack", "crates/*/data/*.stack"):
        for path in sorted(glob.glob(there(pattern))):
            found[os.path.relpath(path, program.HERE)] = bytes_of(path)
    for path in sorted(glob.glob(there("docs/*.md"))):
        for block in re.finditer(rb"^```stack (\w+)\n(.*?)^```$", bytes_of(path), re.MULTILINE | re.DOTALL):
            found["%s#%s" % (os.path.basename(path), block.group(1).decode())] = block.group(2)
    return found


class Chance:
    """Stacks that are made by chance, the same each time for a seed."""

    def __init__(self, seed: int) -> None:
        self.random = Random(seed)
        self.ids: List[int] = []

    def stack(self, most: int = 4) -> Stack:
        """A whole stack, of so many backgrounds, cards and parts of each at most."""
        count = self.random.randint
        backgrounds, cards = count(1, most), count(0, most)
        next_id = count(3, 40) + (backgrounds + cards + backgrounds) * (most + 1)
        self.ids = self.random.sample(range(1, next_id), next_id - 1)
        stack = Stack(next_id, self.name(), self.text())
        stack.backgrounds = [self.background(most) for _ in range(backgrounds)]
        chosen = [each.id for each in stack.backgrounds]
        chosen += [self.random.choice(chosen) for _ in range(cards)]
        self.random.shuffle(chosen)
        by_id = {each.id: each for each in stack.backgrounds}
        stack.cards = [self.card(by_id[number], most) for number in chosen]
        return stack

    def background(self, most: int) -> Background:
        return Background(self.ids.pop(), self.name(), self.flag(), self.text(), self.parts(most))

    def card(self, background: Background, most: int) -> Card:
        card = Card(self.ids.pop(), background.id, self.name(), self.flag(), self.text(), self.own_parts(most))
        for part in background.parts:
            if part.kind == FIELD:
                card.texts[part.id] = self.text()
            else:
                card.hilites[part.id] = self.flag()
        return card

    def parts(self, most: int) -> List[Part]:
        """Parts of a background."""
        return [self.part(True) for _ in range(self.random.randint(0, most))]

    def own_parts(self, most: int) -> List[Part]:
        """Parts of a card."""
        return [self.part(False) for _ in range(self.random.randint(0, most))]

    def part(self, shared: bool) -> Part:
        part = Part(self.random.choice((BUTTON, FIELD)), self.ids.pop(), self.name(), self.flag(), self.text())
        if part.kind == FIELD:
            part.lock_text, part.shared_text, part.text = self.flag(), shared and self.flag(), self.text()
        else:
            part.shared_hilite, part.hilite = not shared or self.flag(), self.flag()
        return part

    def flag(self) -> bool:
        return self.random.random() < 0.5

    def name(self) -> bytes:
        """A text of a few bytes, any of them."""
        return bytes(self.random.randrange(256) for _ in range(self.random.choice((0, 1, 3, 8))))

    def text(self) -> bytes:
        """A text of some lines, of any bytes."""
        lines = [self.name().replace(b"\r", b"") for _ in range(self.random.choice((0, 1, 1, 2, 5)))]
        return b"\r".join(lines)
