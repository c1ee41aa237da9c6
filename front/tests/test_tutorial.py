"""Walks through docs/TUTORIAL.md at a pseudo-terminal: pastes its boxes, and waits for the answers that it shows."""

import os
import re
import sys
import unittest
from dataclasses import dataclass
from typing import Iterator, List

from front import program
from front.tests.at_terminal import TERMINAL, pasted
from front.tests.screen import Screen
from front.tests.support import DEMO, FolderTest, bytes_of, there

TUTORIAL = there(os.path.join("docs", "TUTORIAL.md"))
BOX = re.compile(r"^```(\w+) ?([^\n]*)\n(.*?)\n```$", re.MULTILINE | re.DOTALL)
SETS = re.compile(r"set the script of (.*?) to .*")
KINDS = ("lines", "answers", "hypertalk")


@dataclass
class Box:
    """A box of the page: its kind, what stands behind the kind, and its lines."""

    kind: str
    info: str
    lines: List[str]


def boxes() -> Iterator[Box]:
    """The boxes that a reader pastes, and those with their answers."""
    for kind, info, text in BOX.findall(bytes_of(TUTORIAL).decode("utf-8")):
        if kind in KINDS:
            yield Box(kind, info, text.split("\n"))


class Tutorial(FolderTest):
    def open(self, original: str, name: str, prompt: str) -> Screen:
        self.put(name, bytes_of(there(original)))
        environment = {**os.environ, "HOME": self.folder, "TERM": "xterm", "LC_ALL": "C.UTF-8", "INPUTRC": os.devnull,
                       program.VARIABLE: program.path()}
        screen = Screen([sys.executable, "-B", TERMINAL, name], environment, self.folder)
        self.addCleanup(screen.close)
        screen.wait(prompt)
        return screen

    def paste_handler(self, screen: Screen, handler: Box, line: str) -> None:
        """Pastes a handler, says for which object it is, and sees that the terminal sends the line of the page."""
        screen.type(pasted("\r".join(handler.lines)))
        screen.wait("For which object? [this card] ")
        reference = SETS.fullmatch(line)
        self.assertIsNotNone(reference, line)
        words = reference.group(1) if reference else ""
        screen.enter("" if words == "this card" else words)
        screen.wait("\r\n  " + line)

    def test_each_box_answers_as_it_says(self) -> None:
        screen = self.open(DEMO, "demo.stack", "A> ")
        handlers: List[Box] = []
        count = 0
        for box in boxes():
            if box.kind == "hypertalk":
                handlers.append(box)
            elif box.kind == "lines" and "stack=" in box.info:
                self.assertEqual(screen.status(), 0)
                name = box.info.partition("stack=")[2]
                screen = self.open("stacks/%s.stack" % name, name + ".stack", "> ")
                screen.type(pasted("\r".join(box.lines)))
            elif box.kind == "lines" and handlers:
                self.paste_handler(screen, handlers.pop(), box.lines[0])
            elif box.kind == "lines":
                screen.type(pasted("\r".join(box.lines)))
            else:
                self.has_answers(screen, box)
                count += 1
        self.assertEqual(handlers, [])
        self.assertGreater(count, 20)
        screen.enter(".quit")
        self.assertEqual(screen.status(), 0)

    @staticmethod
    def has_answers(screen: Screen, box: Box) -> None:
        """Waits for the answers."""
        for line in box.lines:
            screen.wait("\r\n" + line if line != ">" else "\r\n> ")


if __name__ == "__main__":
    unittest.main()
