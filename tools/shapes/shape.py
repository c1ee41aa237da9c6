"""A shape: scripts that nest calls under trees, the lines that run them, and what each line has to answer.

Each handler of a shape takes 1 from the global `k` as it begins, and calls the next one while `k` isn't 0. So the value
that `k` gets first is how many are to be nested; where one is too deep, that one doesn't begin, and `k` keeps 1.
"""

from typing import Callable, List, NamedTuple, Sequence, Tuple

from .nests import DEEPEST
from .stack import Scripts, stack_text

# How many calls, texts of `do` and `value`, and conversations may be nested.
MOST_CALLS = 100
# The globals into which the texts of a shape are put first.
TEXTS = ("t", "u", "v")
# What each handler sets for its nest, and lines for theirs, whose variables are globals.
SET = ("put true into c", "put false into d", "put 1 into x")

Lines = List[str]


class Depths(NamedTuple):
    """How deep the trees of the scripts are, and those of the texts that they run."""

    scripts: int = DEEPEST
    texts: int = DEEPEST


class Shape(NamedTuple):
    """A shape by its name."""

    name: str
    # The scripts and the texts, by the depths of their trees.
    scripts: Callable[[int], Scripts]
    texts: Callable[[int], Sequence[str]]
    # The line that begins; its tree is as deep as may be too, and counts no call.
    start: str
    shown: Tuple[str, ...]
    # How many handlers may be nested.
    most: int = MOST_CALLS
    cards: int = 2

    def stack(self, depths: Depths = Depths()) -> str:
        """The text of the stack."""
        return stack_text(self.scripts(depths.scripts), self.texts(depths.texts), self.cards)

    def prepared(self) -> Lines:
        """The lines that read the texts, and set what a nest in a line asks; each answers `ok`."""
        texts = ["put card field %d into %s" % (2 + at, TEXTS[at]) for at in range(len(self.texts(DEEPEST)))]
        return texts + list(SET)

    def lines(self) -> Lines:
        """The lines: as many calls as may be nested, and one more."""
        return self.prepared() + ["put %d into k" % self.most, self.start, "put k",
                                  "put %d into k" % (self.most + 1), self.start, "put k"]

    def answers(self) -> Lines:
        """What those lines answer."""
        shown = ["> " + text for text in self.shown]
        return (["ok"] * len(self.prepared()) + ["ok", *shown, "ok", "> 0", "ok"] + ["ok", "fault 12", "> 1", "ok"])

    def deeper(self) -> List[Depths]:
        """The depths of which one is past what the grammar allows."""
        too_deep = DEEPEST + 1
        return [Depths(scripts=too_deep)] + [Depths(texts=too_deep)] * bool(self.texts(DEEPEST))

    def lines_of_deeper(self) -> Lines:
        """The lines for a shape that is too deep."""
        return self.prepared() + ["put %d into k" % self.most, self.start]

    def answers_of_deeper(self) -> Lines:
        """What those answer."""
        return ["ok"] * len(self.prepared()) + ["ok", "fault 1"]


def no_texts(_: int) -> Sequence[str]:
    """A shape without texts."""
    return ()


def most_of(costs: Sequence[int], first: int = 1) -> int:
    """How many handlers may be nested, where the first one is on this level, and these are in turn the levels that the
    next one needs."""
    level, count = first, 0
    while level <= MOST_CALLS:
        level += costs[count % len(costs)]
        count += 1
    return count
