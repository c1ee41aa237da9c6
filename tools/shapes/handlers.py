"""Handlers that count down and call the next one under a nest."""

from typing import Sequence

from .nests import Wrap, nested
from .shape import SET

# Helpers that a nest may call.
SAME = "function same n\rreturn n\rend same"
HEAR = "on hear\rend hear"
HELPERS = "\r".join((SAME, HEAR, ""))
# `c` is true and `d` is false in each handler, and `x` has one char.
BEGUN = "global k, t, u, v\rsubtract 1 from k\r"
LOCALS = "".join(line + "\r" for line in SET)


def command(name: str, lines: str) -> str:
    """A handler of a message."""
    return "on %s\r%sif k = 0 then exit %s\r%s%s\rend %s" % (name, BEGUN, name, LOCALS, lines, name)


def function(lines: str, base: str = "1", name: str = "f") -> str:
    """A handler of a function, which gives a value."""
    return "function %s\r%sif k = 0 then return %s\r%s%s\rreturn %s\rend %s" % (name, BEGUN, base, LOCALS, lines, base, name)


def under(blocks: Sequence[Wrap], depth: int, statement: str, nodes: int) -> str:
    """A statement of as many nodes, under blocks that make its tree as deep."""
    return nested(blocks, depth - nodes, statement)
