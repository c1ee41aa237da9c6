"""The text of a stack for a shape: two cards or more, a button, and fields with texts."""

from typing import NamedTuple, Sequence

# The id of the first field with a text of the shape; those after it follow.
FIRST_TEXT = 6


class Scripts(NamedTuple):
    """The scripts of the stack, its background, its first card and the button of that, lines with a return between."""

    stack: str
    background: str = ""
    card: str = ""
    button: str = ""


def block(key: str, text: str) -> str:
    """A text in the file: how many lines it has, and each."""
    lines = text.split("\r") if text else []
    return "%s %d\n" % (key, len(lines)) + "".join("|%s\n" % line for line in lines)


def card_field(number: int, text: str) -> str:
    """A field on the card."""
    return "field %d\nname |\nvisible true\nlockText false\nscript 0\n" % number + block("text", text)


def first_card(scripts: Scripts, texts: Sequence[str]) -> str:
    """The card with the name `true`, a button, and fields: the first, whose id is 1 too, has the text 1, and the others
    have these texts."""
    fields = card_field(1, "1") + "".join(card_field(FIRST_TEXT + at, text) for at, text in enumerate(texts))
    button = "button 5\nname |\nvisible true\nhilite false\n" + block("script", scripts.button)
    head = "card 3 2\nname |true\ncantDelete false\n" + block("script", scripts.card)
    return head + "parts %d\n" % (2 + len(texts)) + button + fields + "text 4 0\n"


def further_card(number: int) -> str:
    """A card with nothing on it."""
    return "card %d 2\nname |\ncantDelete false\nscript 0\nparts 0\ntext 4 0\n" % number


def stack_text(scripts: Scripts, texts: Sequence[str] = (), cards: int = 2) -> str:
    """A stack with these scripts, these texts in the fields of its first card after the first one, and as many cards."""
    background = ("background 2\nname |\ncantDelete false\n" + block("script", scripts.background) +
                  "parts 1\nfield 4\nname |Note\nvisible true\nlockText false\nsharedText false\nscript 0\nshared 0\n")
    following = FIRST_TEXT + len(texts)
    more = "".join(further_card(following + at) for at in range(cards - 1))
    return ("htstack 1\nnext %d\nname |Deep\n" % (following + cards - 1) + block("script", scripts.stack) +
            "backgrounds 1\n" + background + "cards %d\n" % cards + first_card(scripts, texts) + more + "end\n")
