"""What of HyperCard a line or a script has that this program doesn't: by the place at which a text isn't in the
grammar, or by the message that nobody handles.
"""

from typing import List, Sequence

from migrate.constructs import TABLE, Construct, construct_at
from migrate.hyper_words import COMMANDS, FUNCTIONS

# These names say no more than that something isn't here.
_GENERAL = ("another property", "a property of HyperCard", "a function of HyperCard", "part", "another stack")
_NAMED = "  HyperCard knows this (%s), and this program doesn't: %s"
_BUILT_IN = "  HyperCard has %s built in, and this program doesn't: docs/MIGRATING.md says what stands in for it"
_STAND_INS = " (docs/MIGRATING.md)"


def unread(text: str, column: int) -> List[str]:
    """What stands where a text isn't in the grammar, from a column on, counted from 1, if HyperCard has that."""
    return _told(construct_at(text.encode("ascii", "replace"), column))


def unhandled(name: str, statements: Sequence[str]) -> List[str]:
    """What of HyperCard the message is that nobody handles, if it is; with the statements that led to it."""
    if name.lower() not in COMMANDS | FUNCTIONS:
        return []
    for statement in statements:
        at = statement.lower().find(name.lower())
        told = unread(statement, at + 1) if at >= 0 else []
        if told:
            return told
    return [_BUILT_IN % name]


def _told(construct: Construct) -> List[str]:
    if construct not in TABLE or construct.name in _GENERAL:
        return []
    return [_NAMED % (construct.name, construct.advice) + (_STAND_INS if "stand-in" in construct.advice else "")]
