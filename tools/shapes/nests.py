"""Texts that nest one form in another until a tree is as deep as it may be.

A node of a tree is a statement, an operator, a parenthesis, a call, a chunk, a form with `the`, `number` or `there is`, a
name, a literal, a constant or a reference; its owner is one more.
"""

import itertools
from typing import List, NamedTuple, Sequence, Tuple

# The greatest depth of a tree that is in the grammar.
DEEPEST = 100


class Wrap(NamedTuple):
    """What stands round a form to make it deeper: the text before it and behind it, and by how many nodes."""

    before: str
    behind: str
    nodes: int = 1


PAREN = Wrap("(", ")")
# What stands round lines. `c` is true there and `d` is false.
FOREVER = Wrap("repeat forever\r", "\rexit repeat\rend repeat")
TIMES = Wrap("repeat 1 times\r", "\rend repeat")
WHILE = Wrap("repeat while c\r", "\rexit repeat\rend repeat")
UNTIL = Wrap("repeat until d\r", "\rexit repeat\rend repeat")
UP = Wrap("repeat with i = 1 to 1\r", "\rend repeat")
DOWN = Wrap("repeat with i = 1 down to 1\r", "\rend repeat")
IF = Wrap("if c then\r", "\rend if")
ELSE = Wrap("if d then\relse\r", "\rend if")
BLOCKS = (FOREVER, TIMES, WHILE, UNTIL, UP, DOWN, IF, ELSE)
# What leaves the value 1 as it is, and is no operand that needs a parenthesis. `same` is a handler.
OF_TEXTS = (
    PAREN, Wrap("(- - ", ")", 3), Wrap("(", " + 0)", 2), Wrap("(1 * ", ")", 2), Wrap("(1 ^ ", ")", 2),
    Wrap("(", " & empty)", 2), Wrap("char 1 of ", ""), Wrap("word 1 to 2 of ", ""), Wrap("char ", ' of "1"'),
    Wrap("the length of ", ""), Wrap("the abs of ", ""), Wrap("the value of ", ""), Wrap("same(", ")"),
    Wrap("max(0, ", ")"), Wrap("value(", ")"), Wrap("(the number of chars of ", ")", 2))
# The same on the first card, whose first field has the text 1.
LEAVES_ONE = OF_TEXTS + (Wrap("card field (", ")", 2), Wrap("(the number of card field (", "))", 4))


def wraps_for(wraps: Sequence[Wrap], room: int) -> Tuple[List[Wrap], int]:
    """As many of the wraps, in turn, as have room, the outermost first; and the room that is left."""
    taken: List[Wrap] = []
    for wrap in itertools.cycle(wraps):
        if wrap.nodes > room:
            return taken, room
        taken.append(wrap)
        room -= wrap.nodes
    return taken, room


def nested(wraps: Sequence[Wrap], room: int, core: str) -> str:
    """A form with the wraps, in turn, round it, so that it stands deeper by this many nodes; what is left over is made up
    by parentheses next to it."""
    taken, left = wraps_for(wraps, room)
    before = "".join(wrap.before for wrap in taken)
    behind = "".join(wrap.behind for wrap in reversed(taken))
    return before + "(" * left + core + ")" * left + behind


def else_ifs(room: int, core: str) -> str:
    """A statement that stands deeper by this many nodes, each an `else if` but for the first."""
    return "if d then\r" + "else if d then\r" * (room - 1) + "else\r" + core + "\rend if"
