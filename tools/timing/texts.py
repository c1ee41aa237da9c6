"""Texts that `value` reads, of many kinds, each full of what it is a kind of, and another text each time: how long one takes,
a statement that is full of such texts, and a command that does nothing else until no step is left.
"""

import functools
import os
import tempfile
from typing import Callable, Dict, List

from . import slow
from .rounds import Row, tell

ROUNDS = 3
# Levels of what takes one for each operator, and of what takes two, three or four.
DEEP, HALF, THIRD, QUARTER = 90, 45, 30, 22
DIGITS = 8  # joins of `a` that are still a number
ROW = 80  # operators of a chain between operands that take a level more
BEFORE = ["put true into b", "put 1 into abc", "put 0 into o"]
# What a text is full of, by the name of the kind. The variable `a` is 1, and `o` is 0, which can be joined without end.
KINDS: Dict[str, str] = {
    "a long list of numbers": "1",
    "sums": "+".join("a" * DEEP),
    "products": "*".join("a" * DEEP),
    "sums of products": "+".join(["a*a"] * ROW),
    "powers": "^".join("a" * DEEP),
    "joins": "&".join("o" * DEEP),
    "joins with a space": "length(%s)" % "&&".join("a" * DEEP),
    "sums, each with a -": "+-".join("a" * DEEP),
    "sums of parentheses": "+".join(["(a)"] * DEEP),
    "sums and products, half in them": "+(a)*".join("a" * HALF),
    "sums of -(..)": "+".join(["-(a)"] * ROW),
    "powers of parentheses": "^".join(["(a)"] * HALF),
    "sums of length(..)": "+".join(["length(a)"] * ROW),
    "sums of names of three": "+".join(["abc"] * DEEP),
    "sums of a capital": "+".join("A" * DEEP),
    "sums of three capitals": "+".join(["ABC"] * DEEP),
    "(..) in one another": "(" * DEEP + "a" + ")" * DEEP,
    "-(..) in one another": "-(" * HALF + "a" + ")" * HALF,
    "a^(..) in one another": "a^(" * HALF + "a" + ")" * HALF,
    "a+(a*(..)) in one another": "a+(a*(" * QUARTER + "a" + "))" * QUARTER,
    "a*-(..) in one another": "a*-(" * THIRD + "a" + ")" * THIRD,
    "-(a+(..)) in one another": "-(a+(" * QUARTER + "a" + "))" * QUARTER,
    "a&(..) in one another": "a&(" * DIGITS + "a" + ")" * DIGITS,
    "length(..) in one another": "length(" * HALF + "a" + ")" * HALF,
    "the length of, in one another": "the length of " * (ROW // 2) + "a",
    "char 1 of, in one another": "length(" + "char 1 of " * DEEP + "a)",
    "-a alone": "-a",
    "a sum alone": "a+a",
    "a sum of three alone": "a+a+a",
    "a sum and a product alone": "a+a*a",
    "two products and a sum alone": "a*a+a*a",
    "a power alone": "a^a",
    "a join alone": "a&a",
    "a join of numerals alone": "1&1",
    "a join of three alone": "a&a&a",
    "a join of five alone": "a&a&a&a&a",
    "a join and a sum alone": "a&a+a",
    "a sum and a join alone": "a+a&a",
    "a sum of joins alone": "(a&a)+(a&a)",
    "parentheses alone": "(a)",
    "two alone": "((a))",
    "a sum in them alone": "(a+a)",
    "abs(a) alone": "abs(a)",
    "is a alone": "length(a is a number)",
    "a comparison alone": "length(a=a)",
    "and alone": "length(b and b)",
    "contains alone": "length(a contains a)",
    "is in alone": "length(a is in a)",
}

# A text isn't computed as it is read where such words are in it: it gets a tree.
WORDS_FOR_A_TREE = "0&the result,"
TREES: Dict[str, str] = {
    "with a tree: a sum": "a+a",
    "with a tree: a power": "a^a",
    "with a tree: a join of numerals": "1&1",
    "with a tree: a join of five": "a&a&a&a&a",
    "with a tree: a join and a sum": "a&a+a",
    "with a tree: three capitals": "+".join(["ABC"] * DEEP),
}


def calls_in(piece: str) -> int:
    """How many calls of functions, each of which takes a step, are in a text that is full of a piece."""
    return (piece.count("length(") + piece.count("abs(")) * (slow.MOST_OF_PIECES // (len(piece) + 1))


def operation(name: str, piece: str, first: str = "") -> slow.Operation:
    """The `value` of a new text that is full of a piece, behind the first words."""
    statement, steps, expression = slow.OF_A_NEW_TEXT
    before = BEFORE + slow.of_pieces(piece, first)
    return slow.Operation(name, slow.with_hear, before, statement, steps + calls_in(piece), expression)


def rows_of(program: str, path: str) -> List[Row[slow.Figures]]:
    """The rows, with the file in which each writes its stack."""
    operations = [operation(name, piece) for name, piece in KINDS.items()]
    operations += [operation(name, piece, WORDS_FOR_A_TREE) for name, piece in TREES.items()]
    measures = {each.name: functools.partial(slow.measured, program, path, each) for each in operations}
    return [Row(name, measure, slow.least, functools.partial(slow.row, name)) for name, measure in measures.items()]


def table(program: str, after_a_round: Callable[[], None] = lambda: None) -> None:
    """Prints the table, in which each figure is the least of the rounds."""
    slow.print_head()
    with tempfile.TemporaryDirectory() as folder:
        tell(rows_of(program, os.path.join(folder, "texts.stack")), ROUNDS, after_a_round)
