"""How long a stack takes to open: from the start of the program to its first answer."""

import os
import subprocess
import tempfile
import time
from typing import Callable, List, NamedTuple

from front import stack_text
from front.stack_text import FIELD, Background, Card, Part, Stack

TURNS = 20
# A program that answers at once.
NOTHING = ["/bin/sh", "-c", "read line; echo ok"]
# Cards with a text each, which make a stack of 4,000,000 bytes.
CARDS, TEXT = 1_000, 3_940


class Opening(NamedTuple):
    """A stack that is opened, and the most milliseconds that its first answer may take."""

    name: str
    text: Callable[[], bytes]
    most: float


def large() -> bytes:
    """The text of a stack of four megabytes."""
    ids = range(4, 4 + CARDS)
    cards = [Card(at, 1, texts={3: (b"%d " % at * TEXT)[:TEXT]}) for at in ids]
    return stack_text.write(Stack(4 + CARDS, b"Large", b"", [Background(1, parts=[Part(FIELD, 3)])], cards))


def of_file(path: str) -> Callable[[], bytes]:
    """The text in a file."""

    def text() -> bytes:
        with open(path, "rb") as file:
            return file.read()

    return text


def once(words: List[str]) -> float:
    """The milliseconds to the first answer."""
    start = time.perf_counter()
    with subprocess.Popen(words, stdin=subprocess.PIPE, stdout=subprocess.PIPE, bufsize=0) as process:
        assert process.stdin is not None and process.stdout is not None
        process.stdin.write(b"get 1\n")
        answer = process.stdout.readline()
        taken = time.perf_counter() - start
        process.stdin.close()
        process.stdout.read()
    if answer != b"ok\n":
        raise ValueError("the first answer is %r" % answer)
    return 1000 * taken


def row(name: str, program: float, nothing: float, most: float) -> str:
    """A row of the table: what the program takes beside what a program takes that answers at once."""
    taken = max(0.0, program - nothing)
    return "%-34s%10.1f ms, at most %.1f%s" % (name, taken, most, " *" if taken > most else "")


def table(program: str, openings: List[Opening]) -> None:
    """Prints a row for each stack; each time is the least of some. The time of a program that only answers is taken off,
    since starting any takes longer than a small stack does."""
    with tempfile.TemporaryDirectory() as folder:
        path = os.path.join(folder, "opened.stack")
        nothing = min(once(NOTHING) for _ in range(TURNS))
        for opening in openings:
            with open(path, "wb") as file:
                file.write(opening.text())
            print(row("first answer, " + opening.name, min(once([program, path]) for _ in range(TURNS)), nothing, opening.most))
