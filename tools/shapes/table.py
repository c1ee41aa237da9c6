"""The shapes, each a way to nest that the language has."""

from typing import Callable, Sequence, Tuple

from . import nests
from .handlers import HELPERS, command, function, under
from .nests import BLOCKS, DEEPEST, LEAVES_ONE, OF_TEXTS, PAREN, Wrap, else_ifs, nested
from .shape import Shape, most_of, no_texts
from .stack import Scripts

# Blocks that ask no variable: in call-backs every variable is a global.
PLAIN_BLOCKS = (nests.FOREVER, nests.TIMES, nests.UP, nests.DOWN)
CHUNKS = tuple(Wrap("%s 1 of " % kind, "") for kind in ("char", "word", "item", "line"))
TO_THE_BUTTON = 'send "g" to card button 1'
INDEX = Wrap("char ", ' of "1"')
MANY = 13_000  # parameters
REPEATS = 96
IN_A_LIST = 10  # operators that join from the left, so many that they stand in a list of the tree


def of_blocks(name: str, *blocks: Wrap) -> Shape:
    """A command that calls itself under blocks."""
    def lines(deep: int) -> str:
        return under(blocks, deep, "g", 1)
    return Shape(name, lambda deep: Scripts(command("g", lines(deep))), no_texts, lines(DEEPEST), ())


def of_values(name: str, *wraps: Wrap, base: str = "1", core: str = "f()", nodes: int = 1) -> Shape:
    """A function that calls itself in an expression, which is its value: in a core of so many nodes."""
    def value(deep: int) -> str:
        return nested(wraps, deep - 1 - nodes, core)
    return Shape(name, lambda deep: Scripts(HELPERS + function("return " + value(deep), base)), no_texts,
                 "put " + value(DEEPEST), (base,))


def of_statement(name: str, statement: str, nodes: int, wraps: Sequence[Wrap] = (PAREN,)) -> Shape:
    """A function that calls itself in an expression of a statement, which stands below as many nodes."""
    def lines(deep: int) -> str:
        return statement % nested(wraps, deep - nodes - 1, "f()")
    return Shape(name, lambda deep: Scripts(HELPERS + function(lines(deep))), no_texts, lines(DEEPEST), ())


def of_container(name: str, statement: str) -> Shape:
    """A function that calls itself in the index of the chunk nearest to a variable."""
    def lines(deep: int) -> str:
        return statement % nested(CHUNKS, deep - 3, "char f() of x")
    return Shape(name, lambda deep: Scripts(function(lines(deep))), no_texts, lines(DEEPEST), ())


def of_message(name: str, handler: str, statement: str, nodes: int, cards: int = 2) -> Shape:
    """A handler in which a statement has the system send the next message, under blocks."""
    def lines(deep: int) -> str:
        return under(BLOCKS, deep, statement, nodes)
    return Shape(name, lambda deep: Scripts(command(handler, lines(deep))), no_texts, lines(DEEPEST), (), cards=cards)


def of_text(name: str, text: Callable[[int], str], statement: str, nodes: int, levels: int,
            blocks: Sequence[Wrap] = BLOCKS) -> Shape:
    """Handlers in which a statement under blocks runs the text `t`, which calls the next one so many levels below."""
    def lines(deep: int) -> str:
        return under(blocks, deep, statement, nodes)

    def scripts(deep: int) -> Scripts:
        return Scripts(HELPERS + command("g", lines(deep)) + "\r" + function(lines(deep)))
    return Shape(name, scripts, lambda deep: (text(deep),), lines(DEEPEST), (), most_of((levels,), levels))


def calling_f(deep: int) -> str:
    """An expression as deep that calls `f`."""
    return nested(LEAVES_ONE, deep - 1, "f()")


def sending_f(deep: int) -> str:
    """A message whose argument, a tree as deep, calls `f`."""
    return "hear " + calling_f(deep)


def sending_by_index(deep: int) -> str:
    """The same, with the call in an index of an index."""
    return "hear " + nested((INDEX,), deep - 1, "f()")


def calling_g(deep: int) -> str:
    """Lines as deep that send `g`."""
    return under(PLAIN_BLOCKS, deep, "g", 1)


def else_if_scripts(deep: int) -> Scripts:
    """A command that calls itself behind a chain of `else if`."""
    return Scripts(command("g", else_ifs(deep - 1, "g")))


def passing_scripts(deep: int) -> Scripts:
    """Handlers of the button, its card and the background, each of which passes the message on under blocks; that of the
    stack sends it to the button again."""
    passing = "on g\rput true into c\rput false into d\r%s\rend g" % under(BLOCKS, deep, "pass g", 1)
    last = command("g", under(BLOCKS, deep, TO_THE_BUTTON, 3))
    return Scripts(last, passing, passing, passing)


def clicked_scripts(deep: int) -> Scripts:
    """A button's mouseUp that begins the nest."""
    clicked = "on mouseUp\rput true into c\rput false into d\r%s\rend mouseUp" % under(BLOCKS, deep, "g", 1)
    return Scripts(command("g", under(BLOCKS, deep, "g", 1)), button=clicked)


def parameter_scripts(_: int) -> Scripts:
    """A command with thousands of parameters that calls itself under repeats."""
    names = ",".join("abcdefghijlmnopqrs"[at % 18] for at in range(MANY))
    inner = nested((Wrap("repeat 1\r", "\rend repeat"),), REPEATS, "g")
    return Scripts("on g %s\rglobal k\rsubtract 1 from k\rif k = 0 then exit g\r%s\rend g" % (names, inner))


def mixed_scripts(deep: int) -> Scripts:
    """Handlers that call each other by a command, `send`, `do`, `value`, a call-back and a message of the system."""
    return Scripts("\r".join((
        HELPERS + command("g", under(BLOCKS, deep, "h", 1)),
        command("h", under(BLOCKS, deep, 'send "e" to me', 2)),
        command("e", under(BLOCKS, deep, "do t", 2)),
        function(under(BLOCKS, deep, "put value(u) into x", 3)),
        function(under(BLOCKS, deep, "Relay y, Note, 0, v", 2), name="m"),
        command("closeCard", under(BLOCKS, deep, "g", 1)))))


def mixed(name: str, statement: str) -> Shape:
    """Handlers that call each other in each way, with this statement in the call-back."""
    def texts(deep: int) -> Sequence[str]:
        return (under(BLOCKS, deep, "put f() into x", 2), nested(OF_TEXTS, deep - 1, "m()"),
                under(PLAIN_BLOCKS, deep, statement, 2))
    return Shape(name, mixed_scripts, texts, under(BLOCKS, DEEPEST, "g", 1), (), most_of((1, 1, 2, 2, 2, 1)))


BLOCK_SHAPES = (
    of_blocks("repeat forever", nests.FOREVER),
    of_blocks("repeat N times", nests.TIMES),
    of_blocks("repeat while", nests.WHILE),
    of_blocks("repeat until", nests.UNTIL),
    of_blocks("repeat with, up", nests.UP),
    of_blocks("repeat with, down", nests.DOWN),
    of_blocks("if", nests.IF),
    of_blocks("else", nests.ELSE),
    Shape("else if", else_if_scripts, no_texts, else_ifs(DEEPEST - 1, "g"), ()),
    of_blocks("mixed blocks", *BLOCKS),
)
VALUE_SHAPES = (
    of_values("parentheses", PAREN),
    of_values("unary minus", Wrap("- ", ""), base="0"),
    of_values("not", Wrap("not ", ""), base="true"),
    of_values("sums to the left", Wrap("", " + 0")),
    of_values("sums to the right", Wrap("0 + (", ")", 2)),
    of_values("powers", Wrap("1 ^ ", "")),
    of_values("joins to the left", Wrap("", " & empty")),
    of_values("joins in lists, and to the right", Wrap("empty & " * IN_A_LIST + "(", ")", 2),
              core="f()" + " & empty" * IN_A_LIST, nodes=IN_A_LIST + 1),
    of_values("or to the left, and to the right", Wrap("(", " or false)", 2), Wrap("(true and ", ")", 2), base="true"),
    of_values("comparisons to the left", Wrap("", " = true"), base="true"),
    of_values("contains and is a", Wrap("(", " contains empty)", 2), Wrap("(", " is a logical)", 2), base="true"),
    of_values("char 1 of", CHUNKS[0]),
    of_values("chunks of each kind", *CHUNKS),
    of_values("the index of a chunk", INDEX),
    of_values("the second index of a chunk", Wrap("char 1 to ", ' of "1"')),
    of_values("the length of", Wrap("the length of ", "")),
    of_values("the abs of", Wrap("the abs of ", "")),
    of_values("the charToNum of the numToChar of", Wrap("the charToNum of ", ""), Wrap("the numToChar of ", ""), base="65"),
    of_values("the value of", Wrap("the value of ", "")),
    of_values("the number of chars of", Wrap("the number of chars of ", "")),
    of_values("value()", Wrap("value(", ")")),
    of_values("arguments of a handler", Wrap("same(", ")")),
    of_values("arguments of a function", Wrap("max(0, ", ")")),
    of_values("fields by number", Wrap("card field (", ")", 2)),
    of_values("fields by id", Wrap("card field id (", ")", 2)),
    of_values("owners", Wrap("card field 1 of card (", ")", 3)),
    of_values("there is a", Wrap("there is a card (", ")", 3), base="true"),
    of_values("the name and the number of", Wrap("the short name of card (", ")", 3), Wrap("(the number of card (", "))", 4),
              base="true"),
    of_values("mixed values", *LEAVES_ONE),
)
STATEMENT_SHAPES = (
    of_container("put", "put 1 into %s"),
    of_statement("put into a field", "put 1 into card field (%s)", 3),
    of_container("delete", "delete %s"),
    of_container("add", "add 0 to %s"),
    of_statement("set", "set the name of card field (%s) to empty", 3),
    of_statement("get", "get %s", 1, wraps=LEAVES_ONE),
    of_statement("heads of blocks", "repeat with i = %s to 1\rend repeat", 1),
    of_statement("arguments of a command", "hear %s", 1),
)
MESSAGE_SHAPES = (
    of_text("do", calling_g, "do t", 2, 2),
    of_text("value with text", calling_f, "put value(t) into x", 3, 2),
    of_text("send with arguments", sending_f, "send t to me", 2, 1),
    of_text("send with an index", sending_by_index, "send t to me", 2, 1, (nests.WHILE,)),
    of_message("go under closeCard", "closeCard", "go next", 2),
    of_message("doMenu under closeCard", "closeCard", 'doMenu "New Card"', 2),
    of_message("doMenu under openCard", "openCard", 'doMenu "Delete Card"', 2, cards=220),
    of_text("message of an external", calling_g, "Relay y, Note, 0, t", 2, 2),
    of_text("expression of an external", calling_f, "Relay y, Note, t, empty", 2, 2),
    Shape("pass", passing_scripts, no_texts, under(BLOCKS, DEEPEST, TO_THE_BUTTON, 3), ()),
    Shape("click", clicked_scripts, no_texts, ".click card button 1", (), most_of((1,), 2)),
    Shape("reference of a dot line", lambda deep: Scripts(HELPERS + function("return " + nested(LEAVES_ONE, deep - 2, "f()"))),
          no_texts, ".click card button (%s)" % nested(LEAVES_ONE, DEEPEST - 3, "f()"), ()),
    mixed("mixed messages, go", "go next"),
    mixed("mixed messages, doMenu", 'doMenu "New Card"'),
)
# Its tree is less deep than the grammar allows.
MANY_PARAMETERS = Shape("many parameters", parameter_scripts, no_texts, under((nests.TIMES,), DEEPEST, "g", 1), ())
SHAPES: Tuple[Shape, ...] = BLOCK_SHAPES + VALUE_SHAPES + STATEMENT_SHAPES + MESSAGE_SHAPES
