"""Ratios within the program: messages along long scripts to those along short ones, calls of an external to those of an
empty handler, and the memory of an external's turns beside their weight."""

from typing import Iterator, List, Sequence

from .runs import Runs, memory_at_rest

MILLION, MANY = 1_000_000, 200_000
# Each time is the least of so many, taken in turn.
ROUNDS = 5
# Messages to a field, whose handler is the stack's: they pass the field, the card and the background.
MESSAGES = ["on measure", "repeat 1000000", 'send "step" to field 1', "end repeat", "end measure", "on step", "end step"]
LONG = ["on other", *["put 1 into x -- " + "." * 83] * 298, "end other"]
MOST_FOR_LONG_SCRIPTS = 1.5
CALLS = ["on measure", "repeat 1000000", "get %s()", "end repeat", "end measure", "function nothing", "end nothing"]
MOST_FOR_AN_EXTERNAL = 20.0
# What a turn may take beside its weight, which is 32 bytes for a cell and the bytes that it had.
WEIGHT_OF_A_CELL, MOST_BESIDE_THE_WEIGHT = 32, 64


def calls_of(name: str) -> List[str]:
    """The handlers that call a function a million times."""
    return [line.replace("%s", name) for line in CALLS]


def row(name: str, less: float, more: float, most: float) -> str:
    """A row: two times, and their ratio."""
    return "%-34s%10.2f%10.2f   %.1f of the first, at most %.1f%s" % (
        name, less, more, more / less, most, " *" if more > most * less else "")


def row_of_memory(name: str, taken: float, weight: float, is_bound: bool) -> str:
    """A row: the bytes of memory of a turn, and its weight."""
    most = weight + MOST_BESIDE_THE_WEIGHT
    bound = ", at most %.0f%s" % (most, " *" if taken > most else "") if is_bound else ""
    return "%-34s%10.0f bytes of memory, %.0f of weight%s" % ("a turn, " + name, taken, weight, bound)


def messages(runs: Runs) -> str:
    """Messages along a path of four objects with scripts of 30,000 bytes, and with short ones."""
    both: Sequence[Sequence[Sequence[str]]] = ((MESSAGES,), (MESSAGES + LONG, LONG, LONG, LONG))
    times = [[runs.here(*scripts).seconds - runs.here(*scripts, lines="").seconds for scripts in both] for _ in range(ROUNDS)]
    short, long = map(min, zip(*times))
    return row("1,000,000 messages, long scripts", short, long, MOST_FOR_LONG_SCRIPTS)


def externals(runs: Runs) -> str:
    """A million calls of Count beside as many of an empty handler."""
    times = [[runs.here(calls_of(name)).seconds for name in ("nothing", "Count")] for _ in range(ROUNDS)]
    empty, count = map(min, zip(*times))
    return row("1,000,000 calls: a handler, Count", empty, count, MOST_FOR_AN_EXTERNAL)


def memory(runs: Runs) -> Iterator[str]:
    """What a turn of Count takes in the history. A call of an empty handler takes the same beside it, and leaves nothing there.
    A turn that is a line of its own also takes the command."""
    ways = ("in one command", MILLION, "measure\n", True), ("a line each", MANY, "get %s()\n" * MANY, False)
    for name, count, text, is_bound in ways:
        empty, kept = (memory_at_rest(runs.words(calls_of(called)), text.replace("%s", called))
                       for called in ("nothing", "Count"))
        weight = WEIGHT_OF_A_CELL + sum(len(str(number)) for number in range(count)) / count
        yield row_of_memory(name, (kept - empty) / count, weight, is_bound)


def table(runs: Runs) -> None:
    """Prints the rows."""
    print(messages(runs), flush=True)
    print(externals(runs), flush=True)
    for line in memory(runs):
        print(line, flush=True)
