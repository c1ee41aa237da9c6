"""What the tests at a pseudo-terminal share: the terminal on a copy of a stack, in a folder of its own."""

import os
import sys
from typing import Optional

from front import program
from front.tests.screen import END_OF_PASTE, PASTE, Screen
from front.tests.support import DEMO, FolderTest, bytes_of, there

MOST_STEPS = "10000000"
TERMINAL = there(os.path.join("front", "terminal.py"))


def pasted(text: str) -> str:
    """A text as a terminal pastes it, and the Return behind it."""
    return PASTE + text + END_OF_PASTE + "\r"


class AtATerminal(FolderTest):
    """A terminal on a copy of a stack, in a folder of its own."""

    ORIGINAL = DEMO

    def setUp(self) -> None:
        super().setUp()
        self.stack = self.put("my.stack", bytes_of(there(self.ORIGINAL)))

    def open(self, *words: str, editor: str = "false", stack: Optional[str] = None, locale: str = "C.UTF-8") -> Screen:
        """Starts the terminal, and waits for its prompt."""
        environment = {"PATH": os.environ["PATH"], "HOME": self.folder, "TERM": "xterm", "LC_ALL": locale,
                       "INPUTRC": os.devnull, "EDITOR": editor, program.VARIABLE: program.path()}
        words = (sys.executable, "-B", TERMINAL, stack or "my.stack", *words)
        screen = Screen(list(words), environment, self.folder)
        self.addCleanup(screen.close)
        screen.wait("card" if stack else "A> ")
        return screen

    def saved(self) -> str:
        with open(self.stack, encoding="ascii") as file:
            return file.read()
