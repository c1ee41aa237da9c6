"""Lines of HyperTalk that carry texts: how any bytes are written as an expression, and set as a property or put into a
field through typed lines of the program.

Texts, references and lines are bytes; a byte is one character. No line that comes out has a line feed at its end, and
none has one in it. A line may have returns (byte 13) in it: these stand between its statements.

A literal of HyperTalk can't hold a quotation mark or a return, and a line of input can't hold a line feed; so these
are written by their constants, and joined by `&`. A text that doesn't fit one line goes over several, each a command
of its own: they build it in a global variable, and the last one uses it and empties the variable. Until that last line
nothing but the variable has changed, so one `.undo` takes back what was done with the text, and as many as there are
lines take back all.
"""

from typing import Callable, Iterable, List

# The most bytes of a typed line, and of a text.
LINE_LIMIT = 30_000
TEXT_LIMIT = 30_000

# A global that stacks aren't likely to use.
BUILT_IN = b"text_being_built"

# What stands for a byte that a literal can't hold.
CONSTANTS = {0x22: b"quote", 0x0D: b"return", 0x0A: b"lineFeed"}

# How many atoms are joined in one chain. With three levels of chains the tree is at most 76 levels deep, and the
# program takes 100; a line has room for fewer atoms than three levels hold.
CHAIN = 25
# A literal is no longer than this, so that lines that are cut between atoms are nearly full.
LONGEST_ATOM = 5_000
# What an atom costs beside its own bytes, at most: ` & `, and its share of the parentheses around its chain.
COST_OF_AN_ATOM = 4


def literal(text: bytes) -> bytes:
    """An expression that gives the text, of any bytes and any length. It fits a line only if the text isn't too long
    or too rich in quotes and returns: set_lines, put_lines and type_lines see to that.

    `literal(b'a"b')` is `b'"a" & quote & "b"'`; the empty text is `empty`.
    """
    return _joined(_atoms(text))


def set_lines(reference: bytes, prop: bytes, text: bytes, variable: bytes = BUILT_IN) -> List[bytes]:
    """The lines that set a property of an object to the text, such as the script: one line where it fits. The
    reference is HyperTalk, such as `card button id 5 of card id 2`.

    Raises ValueError for a text of more than 30,000 bytes, which no property can hold."""
    return _lines(text, lambda value: b"set the " + prop + b" of " + reference + b" to " + value, variable)


def put_lines(container: bytes, text: bytes, variable: bytes = BUILT_IN) -> List[bytes]:
    """The lines that put the text into a container, such as `card field id 3` or a variable: one line where it fits.

    Raises ValueError for a text of more than 30,000 bytes."""
    return _lines(text, lambda value: b"put " + value + b" into " + container, variable)


def type_lines(field: bytes, text: bytes, changed: bool, variable: bytes = BUILT_IN) -> List[bytes]:
    """The lines that type the text into a field of the current card, as a user does; the reference has no owner.

    Where the line `.type` can hold the text, that is the line. It can't hold a quote, a return or a line feed: then
    the messages that it sends are sent by a line of HyperTalk, openField before the text is put into the field, and
    after it closeField, or exitField where `changed` says that the text is the one that stood there. That line writes
    into a locked field too, so ask before whether the field is locked; and where a handler of openField goes to another
    card, the text goes there, while `.type` stays on the card where it began.

    Raises ValueError for a text of more than 30,000 bytes."""
    typed = b'.type "' + text + b'" into ' + field
    if not any(byte in CONSTANTS for byte in text) and len(typed) <= LINE_LIMIT:
        return [typed]
    after = b"closeField" if changed else b"exitField"

    def statements(value: bytes) -> bytes:
        return (
            b'send "openField" to ' + field + b"\rput " + value + b" into " + field
            + b'\rsend "' + after + b'" to ' + field
        )

    return _lines(text, statements, variable)


def unused_name(texts: Iterable[bytes], name: bytes = BUILT_IN) -> bytes:
    """The name, or the name with a number behind it, such that it stands in none of the texts, whatever its case: for
    the variable in which a long text is built."""
    folded = [text.lower() for text in texts]
    found, number = name, 1
    while any(found.lower() in text for text in folded):
        number += 1
        found = name + b"%d" % number
    return found


def card_reference(card: int) -> bytes:
    """The reference of a card by its id."""
    return b"card id %d" % card


def background_reference(background: int) -> bytes:
    """The reference of a background by its id."""
    return b"bkgnd id %d" % background


def part_reference(kind: str, part: int, owner: bytes, of_background: bool) -> bytes:
    """The reference of a button or a field by its id. The kind is `button` or `field`; the owner is the reference of
    its card or its background, or empty for a part of the current card or of its background."""
    layer = b"bkgnd " if of_background else b"card "
    found = layer + kind.encode("ascii") + b" id %d" % part
    return found + b" of " + owner if owner else found


def _lines(text: bytes, use: Callable[[bytes], bytes], variable: bytes) -> List[bytes]:
    """The lines that do with the text what `use` says of an expression."""
    if len(text) > TEXT_LIMIT:
        raise ValueError("a text of %d bytes is too long: %d is the most" % (len(text), TEXT_LIMIT))
    whole = use(literal(text))
    if len(whole) <= LINE_LIMIT:
        return [whole]
    pieces = _pieces(_atoms(text), LINE_LIMIT - len(b"put  before " + variable))
    words = [b"into"] + [b"after"] * (len(pieces) - 1)
    built = [b"put %s %s %s" % (piece, word, variable) for piece, word in zip(pieces, words)]
    return built + [use(variable) + b"\rput empty into " + variable]


def _atoms(text: bytes) -> List[bytes]:
    """The literals and the constants that make the text when they are joined in their order."""
    atoms: List[bytes] = []
    start = 0
    for place in range(len(text) + 1):
        ends = place == len(text) or text[place] in CONSTANTS
        if start < place and (ends or place - start == LONGEST_ATOM):
            atoms.append(b'"' + text[start:place] + b'"')
            start = place
        if ends and place < len(text):
            atoms.append(CONSTANTS[text[place]])
            start = place + 1
    return atoms or [b"empty"]


def _pieces(atoms: List[bytes], room: int) -> List[bytes]:
    """Expressions of at most this many bytes, each of as many of the atoms as fit, in their order."""
    groups: List[List[bytes]] = [[]]
    used = 0
    for atom in atoms:
        cost = len(atom) + COST_OF_AN_ATOM
        if groups[-1] and used + cost > room:
            groups.append([])
            used = 0
        groups[-1].append(atom)
        used += cost
    return [_joined(group) for group in groups]


def _joined(atoms: List[bytes]) -> bytes:
    """The atoms joined by `&`, in chains in parentheses where there are many, since a long chain is a deep tree."""
    while len(atoms) > CHAIN:
        chains = [atoms[first:first + CHAIN] for first in range(0, len(atoms), CHAIN)]
        atoms = [b"(" + b" & ".join(chain) + b")" if len(chain) > 1 else chain[0] for chain in chains]
    return b" & ".join(atoms)
