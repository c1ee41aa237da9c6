"""Work on more and more of the same: the processor time of each byte or change, at several sizes.

A byte of a long script or a large stack, and a change in a long command, should take as long as one of a short or small
one. Caches make the largest somewhat dearer; a time that grows with the size shows as a ratio far past that.
"""

import functools
import os
import tempfile
from typing import Callable, List, NamedTuple, Sequence

from front.stack_text import FIELD, Background, Card, Part, Stack

from .asked import Asked
from .rounds import Row, tell
from .runs import used, written

# How much longer a byte or a change may take at the dearest size than at the cheapest. A card goes into the list of all
# cards, so it takes longer where there are more.
MOST, MOST_OF_CARDS = 3.0, 10.0
# A figure is the least of so many rounds over all rows.
ROUNDS = 5
# How many bytes a measure reads at least, and how many changes it undoes.
BYTES, CHANGES = 4_000_000, 100_000
# A stack has at most 10,000 cards.
MOST_CARDS, BYTES_OF_A_CARD = 9_000, 500


class Taken(NamedTuple):
    """Processor seconds, and how many bytes or changes took them."""

    seconds: float
    units: int


# It gets the program, a file for a stack, and a size.
Measure = Callable[[str, str, int], Taken]


class Work(NamedTuple):
    """Work that can be of several sizes, each in bytes or in changes, and how it is measured."""

    name: str
    sizes: Sequence[int]
    measure: Measure
    most: float = MOST


def with_scripts(script: bytes, count: int) -> Stack:
    """A stack with so many cards that have this script."""
    cards = [Card(at, 1, script=script) for at in range(2, 2 + count)]
    return Stack(2 + count, b"Scripts", b"", [Background(1)], cards)


def with_texts(size: int) -> Stack:
    """A stack of about so many bytes: cards with a text each."""
    ids = range(4, 5 + size // BYTES_OF_A_CARD)
    cards = [Card(at, 1, texts={3: (b"%d " % at * 200)[:450]}) for at in ids]
    return Stack(ids.stop, b"Texts", b"", [Background(1, parts=[Part(FIELD, 3)])], cards)


def parsed(line: str) -> Measure:
    """Scripts that repeat a line are parsed, beside the start on as many empty ones."""

    def measure(program: str, path: str, size: int) -> Taken:
        script = b"on hear\r" + line.encode() * max(1, size // len(line)) + b"end hear"
        count = min(MOST_CARDS, BYTES // len(script))
        seconds = []
        for each in (b"", script):
            written(path, with_scripts(each, count))
            seconds.append(used([program, path, "--check"]).seconds)
        return Taken(seconds[1] - seconds[0], len(script) * count)

    return measure


def opened(program: str, path: str, size: int) -> Taken:
    """A stack is opened, beside the start on a small one."""
    turns = max(1, BYTES // size)
    written(path, with_texts(1))
    start = sum(used([program, path]).seconds for _ in range(turns))
    units = written(path, with_texts(size))
    return Taken(sum(used([program, path]).seconds for _ in range(turns)) - start, units * turns)


def saved(program: str, path: str, size: int) -> Taken:
    """A stack is saved."""
    turns = max(1, BYTES // size)
    units = written(path, with_texts(size))
    with Asked(program, path) as asked:
        return Taken(sum(asked.seconds(".save") for _ in range(turns)), units * turns)


def command_of(statement: str, size: int) -> str:
    """A line that makes so many changes by a statement."""
    return "repeat with i = 1 to %d\r%s\rend repeat" % (size, statement)


def made(statement: str) -> Measure:
    """One command makes changes."""

    def measure(program: str, path: str, size: int) -> Taken:
        written(path, with_texts(1))
        with Asked(program, path) as asked:
            return Taken(asked.seconds(command_of(statement, size)), size)

    return measure


def moved(statement: str, line: str) -> Measure:
    """The changes of one command are undone and done again, of which one line is measured."""

    def measure(program: str, path: str, size: int) -> Taken:
        written(path, with_texts(1))
        turns = max(1, CHANGES // size)
        with Asked(program, path) as asked:
            asked.seconds(command_of(statement, size))
            seconds = {".undo": 0.0, ".redo": 0.0}
            for _ in range(turns):
                for each in seconds:
                    seconds[each] += asked.seconds(each)
            return Taken(seconds[line], size * turns)

    return measure


def changes(name: str, statement: str, sizes: Sequence[int], most: float = MOST) -> List[Work]:
    """Changes that are made by a statement, undone and redone."""
    return [Work(name + " made", sizes, made(statement), most),
            Work("the same, undone", sizes, moved(statement, ".undo"), most),
            Work("the same, redone", sizes, moved(statement, ".redo"), most)]


SCRIPTS, STACKS = (300, 3_000, 29_000), (400_000, 1_300_000, 4_000_000)
WORKS: Sequence[Work] = (
    Work("scripts of short lines parsed", SCRIPTS, parsed('put item i of x & "abc" into field "name" of card 3\r')),
    Work("sums of 96 numbers parsed", SCRIPTS, parsed("get 1" + "+1" * 95 + "\r")),
    Work("95 parentheses parsed", SCRIPTS, parsed("get " + "(" * 95 + "1" + ")" * 95 + "\r")),
    Work("a stack opened", STACKS, opened),
    Work("a stack saved", STACKS, saved),
    *changes("globals", 'do "put 1 into v" & i', (3_000, 30_000, 100_000)),
    *changes("cards", 'doMenu "New Card"', (100, 1_000, 9_000), MOST_OF_CARDS),
    *changes("turns of Count", "get Count()", (3_000, 30_000, 300_000)),
)


def nanoseconds(program: str, path: str, work: Work) -> List[float]:
    """The nanoseconds of a byte or a change at each size."""
    taken = [work.measure(program, path, size) for size in work.sizes]
    return [1e9 * max(0.0, it.seconds) / it.units for it in taken]


def least(one_of_them: List[float], other: List[float]) -> List[float]:
    """The least at each size."""
    return list(map(min, one_of_them, other))


def text(work: Work, found: Sequence[float]) -> str:
    """A row of the table, with a star where the dearest size is too dear."""
    ratio = max(found) / max(min(found), 1e-3)
    columns = "".join("%18s" % ("%.1f at %s" % (each, format(size, ","))) for each, size in zip(found, work.sizes))
    return "%-34s%s   %.1f, at most %.1f%s" % (work.name, columns, ratio, work.most, " *" if ratio > work.most else "")


def table(program: str, after_a_round: Callable[[], None] = lambda: None) -> None:
    """Prints the table, in which each figure is the least of the rounds."""
    heads = "ns for a byte or a change", "small", "larger", "largest"
    print("%-34s%18s%18s%18s   dearest to cheapest" % heads, flush=True)
    with tempfile.TemporaryDirectory() as folder:
        path = os.path.join(folder, "growing.stack")
        tell([Row(work.name, functools.partial(nanoseconds, program, path, work), least, functools.partial(text, work))
              for work in WORKS], ROUNDS, after_a_round)
