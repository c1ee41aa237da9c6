"""Operations that one step can make slow, each on what is largest for it: how long one takes, a statement that is full of
them, and a command that does nothing else until no step is left.

None should take more than 2 milliseconds, no statement more than 3 seconds, and no 100,000 steps more than 20.
"""

import functools
import itertools
import os
import tempfile
from typing import Callable, List, NamedTuple, Optional, Sequence

from front.stack_text import BUTTON, FIELD, Background, Card, Part, Stack
from trials.place import Refusal

from . import alike
from .asked import Asked
from .rounds import Row, tell
from .runs import written

MOST_MILLISECONDS, MOST_OF_A_STATEMENT, MOST_OF_ALL_STEPS = 2.0, 3.0, 20.0
ALL_STEPS = 100_000
MOST_BYTES = 30_000
# The least that a measure takes, in processor seconds, unless it is told how often to do what it measures.
LEAST = 0.02
# A figure is the least of so many short measures, in each of so many rounds over all rows.
MEASURES, ROUNDS = 5, 10
NAMES, PARTS, CARDS, FIELDS, PARAMETERS, ARGUMENTS = 3_000, 9_990, 9_990, 9_900, 7_400, 14_900
RESERVED = ("bgs",)
# Names of globals that one hash has, and how many a line gives numbers.
ALIKE, ALIKE_IN_A_LINE = 4_600, 2_000
# A chain of operators may have 90 operands where it is an argument, and the pieces of a text may have so many bytes, since a
# number stands behind them.
OPERANDS, MOST_OF_PIECES = 90, 29_900
# How many cards may be made beside the fields.
TURNS_OF_CARDS = 50


class Operation(NamedTuple):
    """An operation: a stack and lines before it, the statement that does it, and how many steps a turn of a repeat with
    that takes, its test too."""

    name: str
    stack: Callable[[], Stack]
    before: Sequence[str]
    statement: str
    steps: int
    # The expression of it, where it is one: a statement can be full of these.
    expression: str = ""
    # How many turns are measured in all, where not as many as are wanted can be done; else 0.
    turns: int = 0


class Figures(NamedTuple):
    """The milliseconds of one operation, the seconds of a statement that is full of them, and those of all steps."""

    milliseconds: float
    statement: Optional[float]
    all_steps: float


def stack_of(script: str = "", cards: Sequence[Card] = (), parts: Sequence[Part] = ()) -> Stack:
    """A stack with a background of these parts, a first card, and these cards behind it."""
    ids = [part.id for card in cards for part in [card, *card.parts]] + [part.id for part in parts]
    return Stack(max([2, *ids]) + 1, b"Large", script.encode(), [Background(1, parts=list(parts))], [Card(2, 1), *cards])


def with_names() -> Stack:
    """Cards whose names are as long as may be, and differ in their last bytes."""
    names = (b"n" * (MOST_BYTES - 4) + b"%04d" % at for at in range(NAMES))
    return stack_of(cards=[Card(3 + at, 1, name) for at, name in enumerate(names)])


def with_buttons() -> Stack:
    """A card with buttons, the second one."""
    return stack_of(cards=[Card(3, 1, parts=[Part(BUTTON, 4 + at) for at in range(PARTS)])])


def with_cards() -> Stack:
    """Cards without a name."""
    return stack_of(cards=[Card(3 + at, 1) for at in range(CARDS)])


def with_fields() -> Stack:
    """A background with fields."""
    return stack_of(parts=[Part(FIELD, 3 + at) for at in range(FIELDS)])


def names_of_three(count: int) -> str:
    """As many names of three letters, with commas between."""
    letters = "bcghjklmnpqrsvwxyz"
    words = map("".join, itertools.product(letters + "aeiou", letters, letters))
    return ",".join(itertools.islice((word for word in words if word not in RESERVED), count))


def with_parameters() -> Stack:
    """A handler with parameters, each by a name of its own."""
    return stack_of("on hear %s\rend hear" % names_of_three(PARAMETERS))


def with_hear() -> Stack:
    """A handler that does nothing."""
    return stack_of("on hear\rend hear")


def with_variables() -> Stack:
    """A handler that makes variables as long as there is a step."""
    return stack_of("on measure\rput 0 into i\rrepeat forever\radd 1 to i\rdo \"put 1 into v\" & i\rend repeat\rend measure")


def long_text(byte: str, count: int, name: str) -> List[str]:
    """The lines that put a text of as many bytes into a global."""
    half = byte * (MOST_BYTES // 2 - 100)
    lines, left = ["put empty into " + name], count
    while left > 0:
        lines.append('put "%s" after %s' % (half[:left], name))
        left -= len(half)
    return lines


def pieces_of(text: str, name: str) -> List[str]:
    """The lines that put a text after what stands in a global."""
    size = MOST_BYTES - 100
    return ['put "%s" after %s' % (text[at:at + size], name) for at in range(0, len(text), size)]


def repeated(piece: str, count: int, name: str) -> List[str]:
    """The lines that put a piece as often after what stands in a global."""
    return ['repeat %d\rput "%s" after %s\rend repeat' % (count, piece, name)]


def with_items() -> List[str]:
    """The lines that put 1,000 items of 29 bytes into a global."""
    return ["put empty into g", *repeated("a" * 29 + ",", 999, "g"), 'put "%s" after g' % ("a" * 29)]


def of_pieces(piece: str, first: str = "") -> List[str]:
    """The lines that put a text into a global that is full of a piece, behind the first words, and that a number behind it
    makes another text."""
    count = (MOST_OF_PIECES - len(first)) // (len(piece) + 1)
    return ["put 1 into a", 'put "max(%s" into t' % first, *repeated(piece + ",", count, "t"), 'put "1)+" after t',
            "put 0 into n"]


def of_chains(operator: str) -> List[str]:
    """The same of chains of an operator between variables, each as deep as may be."""
    return of_pieces(operator.join("a" * OPERANDS))


def of_statements(statement: str) -> List[str]:
    """The lines that put a script into a global that is full of a statement in a handler which nobody calls, and that a number
    behind it makes another script."""
    lines = ['put "on other" & return into t', 'put "%s" & return into s' % statement]
    count = (MOST_OF_PIECES - 100) // (len(statement) + 1)
    return [*lines, "repeat %d\rput s after t\rend repeat" % count,
            'put "end other" & return & "on hear" & return & "end hear" & return & "--" after t', "put 0 into n"]


# The value of a text that is another one each turn, with one call in it. `the value of` takes a step less than a call, and a
# call is shorter, so that a statement can hold more; there each has a number of its own.
OF_A_NEW_TEXT = ("add 1 to n\rget the value of (t & n)", 5, "value(t&1000)")
OPERATIONS: Sequence[Operation] = (
    Operation("15,000 bytes in 30,000: contains", with_hear,
              [*long_text("a", MOST_BYTES, "g"), *long_text("a", MOST_BYTES // 2 - 1, "h"), 'put "b" after h'],
              "get g contains h", 2, "g contains h"),
    Operation("the same, in the middle another", with_hear,
              [*long_text("a", MOST_BYTES, "g"), *long_text("a", MOST_BYTES // 2, "h"), 'put "b" into char 7500 of h'],
              "get g contains h", 2, "g contains h"),
    Operation("a name of 30,000 among 3,000", with_names,
              ["put the short name of card 2 into g", 'put "none" into char 29997 to 30000 of g'],
              "get there is a cd g", 2, "there is a cd g"),
    Operation("item 1,000 of 30,000 bytes", with_hear, with_items(), "get item 1000 of g", 2, "item 1000 of g"),
    Operation("put into item 1,000 of them", with_hear, with_items(), 'put "new" into item 1000 of g', 2),
    Operation("a message with 7,400 parameters", with_parameters, [], "hear", 3),
    Operation("the number of last btn of 9,990", with_buttons, ["go card 2"], "get the number of last btn", 2,
              "the number of last btn"),
    Operation("a name among 9,990 cards", with_cards, [], 'get there is a cd "x"', 2, 'there is a cd "x"'),
    Operation("New Card with 9,900 fields", with_fields, [], 'doMenu "New Card"', 6, turns=TURNS_OF_CARDS),
    Operation("Delete Card with 9,900 fields", with_fields, ['repeat %d\rdoMenu "New Card"\rend repeat' % TURNS_OF_CARDS],
              'doMenu "Delete Card"', 4, turns=TURNS_OF_CARDS),
    Operation("value of 28,000 bytes", with_hear, ['put "max(1" into t', *repeated(",1", 13_995, "t"), 'put ")" after t'],
              "get the value of t", 4, "value(t)"),
    # A run keeps the trees of the texts that it read last, so here each text is another one.
    Operation("value of a new text full of sums", with_hear, of_chains("+"), *OF_A_NEW_TEXT),
    Operation("the same, of joins", with_hear, ["put 0 into o", *of_pieces("&".join("o" * OPERANDS))], *OF_A_NEW_TEXT),
    Operation("the same, of powers", with_hear, of_chains("^"), *OF_A_NEW_TEXT),
    Operation("the same, of joins of five", with_hear, of_pieces("a&a&a&a&a"), *OF_A_NEW_TEXT),
    # Of the kinds of such texts that `./speed texts` has these take longest.
    Operation("the same, of a power alone", with_hear, of_pieces("a^a"), *OF_A_NEW_TEXT),
    Operation("the same, of a join and a sum", with_hear, of_pieces("a&a+a"), *OF_A_NEW_TEXT),
    Operation("send with 14,900 arguments", with_hear, ['put "hear 1" into t', *repeated(",1", ARGUMENTS - 1, "t")],
              "send t to this stack", 3),
    Operation("the same, each a name", with_hear, ['put "hear a" into t', *repeated(",a", ARGUMENTS - 1, "t")],
              "send t to this stack", 3),
    Operation("the same, a new text each time", with_hear,
              ['put "hear a" into t', *repeated(",a", ARGUMENTS - 1, "t"), "put 0 into n"],
              "add 1 to n\rsend t & n to this stack", 4),
    Operation("the same, of names of three letters", with_hear,
              ['put "hear " into t', *pieces_of(names_of_three(PARAMETERS) + ",x", "t"), "put 0 into n"],
              "add 1 to n\rsend t & n to this stack", 4),
    # It is read, and not run.
    Operation("a message to a new script of joins", with_hear, of_statements("get a&a&a&a&a"),
              "add 1 to n\rset the script of this stack to t & n\rhear", 5),
)


def of_alike() -> List[Operation]:
    """A global among those that one hash has, if the kit is there."""
    try:
        names = alike.names(ALIKE)
    except Refusal:
        return []
    lines = ["global " + ",".join(names[at:at + ALIKE_IN_A_LINE]) for at in range(0, ALIKE, ALIKE_IN_A_LINE)]
    # The one that was written last is remembered, so another one is read.
    read, written_last = names[-2:]
    lines += ["put 1 into " + read, "put 1 into " + written_last]
    return [Operation("a global among %d of one hash" % ALIKE, with_hear, lines, "get " + read, 2, read)]


def turns(count: int, statement: str) -> str:
    """A line that does a statement as often."""
    return "repeat %d\r%s\rend repeat" % (count, statement)


def most_in_a_statement(expression: str) -> int:
    """How many of an expression a statement can hold, as long as a line may be."""
    return (MOST_BYTES - len("hear ") + 1) // (len(expression) + 1)


def turns_for(program: Asked, statement: str) -> int:
    """How many turns of a statement a measure takes, so that it takes long enough."""
    count, taken = 1, program.seconds(statement)
    while taken < LEAST and count < 1_000_000:
        count = max(2 * count, min(1_000_000, int(1.2 * LEAST * count / max(taken, 1e-5))))
        taken = program.seconds(turns(count, statement))
    return count


def one(program: Asked, operation: Operation) -> float:
    """The seconds of one: of so many turns that they take long enough, the least of some measures."""
    count = operation.turns // MEASURES or turns_for(program, operation.statement)
    return min(program.seconds(turns(count, operation.statement)) for _ in range(MEASURES)) / count


def figures(program: Asked, operation: Operation) -> Figures:
    """The figures of an operation on a program that is ready for it."""
    for line in operation.before:
        program.seconds(line)
    each = one(program, operation)
    # A statement does no more than there are steps.
    most = min(most_in_a_statement(operation.expression), ALL_STEPS // operation.steps)
    full = each * most if operation.expression else None
    return Figures(1000 * each, full, each * ALL_STEPS / operation.steps)


def starred(figure: Optional[float], most: float, spelled: str) -> str:
    """A figure with a star where it is past its bound."""
    return "-  " if figure is None else spelled % figure + (" *" if figure > most else "  ")


def row(name: str, found: Figures) -> str:
    """A row of the table."""
    return "%-34s%12s%12s%12s" % (name, starred(found.milliseconds, MOST_MILLISECONDS, "%.4f"),
                                  starred(found.statement, MOST_OF_A_STATEMENT, "%.2f"),
                                  starred(found.all_steps, MOST_OF_ALL_STEPS, "%.2f"))


def measured(program: str, path: str, operation: Operation) -> Figures:
    """The figures of an operation."""
    written(path, operation.stack())
    with Asked(program, path) as asked:
        return figures(asked, operation)


def of_variables(program: str, path: str) -> Figures:
    """A handler that makes variables by `do` until no step is left: for one, and for all."""
    written(path, with_variables())
    with Asked(program, path, ALL_STEPS) as asked:
        taken = asked.seconds("measure", "fault 11")
    # A turn has two statements, and `do` runs a third.
    return Figures(1000 * taken / (ALL_STEPS / 3), None, taken)


def least(one_of_them: Figures, other: Figures) -> Figures:
    """Which of two figures is less."""
    return min(one_of_them, other, key=lambda it: it.milliseconds)


def rows_of(program: str, path: str) -> List[Row[Figures]]:
    """The rows, with the file in which each writes its stack."""
    measures = {each.name: functools.partial(measured, program, path, each) for each in [*OPERATIONS, *of_alike()]}
    measures["variables made by do"] = functools.partial(of_variables, program, path)
    return [Row(name, measure, least, functools.partial(row, name)) for name, measure in measures.items()]


def print_head() -> None:
    """Prints the head of a table."""
    print("%-34s%12s%12s%12s" % ("processor time", "ms for one  ", "s, if full  ", "s for all  "), flush=True)


def table(program: str, after_a_round: Callable[[], None] = lambda: None) -> None:
    """Prints the table, in which each figure is the least of the rounds."""
    print_head()
    with tempfile.TemporaryDirectory() as folder:
        tell(rows_of(program, os.path.join(folder, "large.stack")), ROUNDS, after_a_round)
