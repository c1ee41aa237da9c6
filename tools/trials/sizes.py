"""The cases of ./trial that are large: long lines and texts, many answers, many places, and stacks of megabytes."""

import string
import sys
from typing import Callable, Dict, List, Set, Tuple

from .place import HERE, OLD, Pairs, Place, put_text, text_of, with_memory

sys.path.insert(0, HERE)

from front import stack_text  # noqa: E402

MOST_TEXT = 30_000  # bytes of a line and of a text
CARDS = 50
LITTLE_ROOM = 1 << 20  # bytes
ROOM_OF_NAMES = 4 << 20  # bytes, more than names of globals take that nothing needs
ROUNDS, CARDS_OF_A_ROUND, FIELDS = 60, 100, 1_000
ROOM_OF_CARDS = 100 << 20  # bytes, for the program and the cards of some rounds
EVERY_BYTE = bytes(range(256))
SCRIPTS = 60
LINES_OF_A_SCRIPT = [b"put 1 into x", b"add 1 to x", b'get "a"', b"put a + b into c", b"if a then b"]
KEPT_SCRIPTS = 1_000_000  # bytes at most, of the scripts whose trees are kept
LONG_SCRIPT = 28_000  # bytes
MOST_OF_A_TREE = 20  # bytes for each byte of its script
ROUNDING = 2  # what lies between the parts of a tree and on its last page, and gaps that the next trees fill
MANY_WORDS = 1_100  # of two bytes at most, more than a text has before it shares all of these
HANDLERS_OF_WORDS = ["function f p", "return p & p", "end f", "on m p", "put p & p", "end m", "on k p,Q", "put P & q", "end k"]
WORDS = {"put -a": "-2", "put -3": "-3", "put not b": "false", 'put "" & "," & 00 & "x1"': ",00x1", "put f(a)": "22",
         "put f(-A)": "-2-2", "m 4": "44", "m -a": "-2-2", "k 1,zz": "1zz", "k -a": "-2", "put A + a": "4"}
OPERANDS = 90  # of a sum, which may have a hundred levels
SENDS, ARGUMENTS = 100, 14_900
FEW_PAGES = 10 * SENDS  # each send of so many arguments fills some two hundred
TEXTS, JOINS = 2_000, 12  # so many joins stand in a list
# Beside the length of a text in bytes, how much those that grew may take of what copies take. They lie less close, and short
# ones leave gaps that don't fit others. With the room in which they grew, texts of 500 bytes take 2.4 times as much.
MOST_OF_GROWN = {500: 2.0, 1_100: 1.5, 5_000: 1.5}
# Each byte, and then as often as a text has room for it.
MANY_BYTES = ["repeat with i = 0 to 255\rput numToChar(i) after u\rend repeat", "repeat 117\rput u after t\rend repeat"]
MORE_CARDS = 'repeat with i = 1 to %d\rdoMenu "New Card"\rput i & t into field 1\rend repeat' % CARDS
TWENTY = "\r".join(["repeat with i = 1 to 5", "go next", 'send "mouseUp" to field 1', "get abs(i)", "end repeat"])


def many_answers_to_a_line(place: Place) -> Pairs:
    count = 5_000
    answers, status, told = place.run(["repeat with i = 1 to %d\rput i\rend repeat" % count])
    yield (answers, status, told), (["> %d" % at for at in range(1, count + 1)] + ["ok"], 0, "")


def many_messages_of_a_line(place: Place) -> Pairs:
    """Each is watched once, in its order."""
    sent = []
    for here, there in ((2, 4), (4, 2), (2, 4), (4, 2), (2, 4)):
        sent += ["closeCard %d" % here, "openCard %d" % there, "mouseUp 3", "abs 2"]
    answers, status, told = place.run([TWENTY, ".undo", ".redo"], ["--watch"])
    yield (answers, status, told.split("\n")), (["ok"] * 3, 0, sent + [""])


def long_lines(place: Place) -> Pairs:
    """A line that types is as long as may be, and then too long by a byte."""
    ends = '.type "', '" into field 1'
    text = "y" * (MOST_TEXT - sum(map(len, ends)))
    lines = [text.join(ends), "put the length of field 1", (text + "y").join(ends), "put last char of field 1", ".undo",
             "put the length of field 1"]
    answers = ["ok", "> %d" % len(text), "ok", "refused 5", "> y", "ok", "ok", "> %d" % len(text), "ok"]
    yield place.run(lines), (answers, 0, "")


def longest_text_of_two_lines(place: Place) -> Pairs:
    """A text of 30,000 bytes comes into a field by two lines, since one has no room for its words too."""
    half = "y" * (MOST_TEXT // 2)
    lines = ['put "%s" into field 1' % half, 'put "%s" after field 1' % half, 'put "y" after field 1',
             "put the length of field 1"]
    yield place.run(lines), (["ok", "ok", "fault 8", "> %d" % MOST_TEXT, "ok"], 0, "")


def many_places(place: Place) -> Pairs:
    """Ten thousand commands are undone, redone, and gone back to."""
    count = 10_000
    lines = ["put %d into g" % at for at in range(1, count + 1)]
    asked = [".history", ".undo %d" % count, ".globals", ".history", ".redo %d" % (count // 2), ".globals",
             ".undo to %d" % (count // 4), ".globals", ".redo %d" % count, ".redo %d" % (count - count // 4), ".globals",
             ".history"]
    answers = ["> %d 0" % count, "ok", "ok", "ok", "> 0 %d" % count, "ok", "ok", "> g %d" % (count // 2), "ok",
               "ok", "> g %d" % (count // 4), "ok", "refused 2", "ok", "> g %d" % count, "ok", "> %d 0" % count, "ok"]
    yield place.run(lines + asked), (["ok"] * count + answers, 0, "")


def large_stack_that_is_saved(place: Place) -> Pairs:
    """A stack of more than 3 MB is what the second run shows, and what the other reader reads."""
    yield place.run([*MANY_BYTES, MORE_CARDS, ".save"])[:2], (["ok"] * 4, 0)
    kept = text_of(place.stack)
    yield len(kept) > 3_000_000, True
    answers, status, told = place.run([".show"])
    yield (status, told, answers == ["> " + line for line in kept.split("\n")[:-1]] + ["ok"]), (0, "", True)
    stack = stack_text.read(kept.encode("latin-1"))
    yield [card.texts[3] for card in stack.cards] == wanted_texts(), True
    yield stack_text.write(stack) == kept.encode("latin-1"), True


def wanted_texts() -> List[bytes]:
    """The texts of the cards of the large stack, in their order: each new card stands after the one before it."""
    made = [b"%d" % at + EVERY_BYTE * 117 for at in range(1, CARDS + 1)]
    return [b"", *made, b""]


def large_stack_of_another_writer(place: Place) -> Pairs:
    """A stack of a megabyte that the other writer spelled is shown as it stands, and saved so."""
    stack = stack_text.read(OLD.encode("latin-1"))
    stack.script = b"\r".join([b"on big", b"put 7", b"end big", b"-- " + b"s" * (MOST_TEXT - 24)])
    for at in range(CARDS):
        text = (b"%d\r" % at + EVERY_BYTE * 117)[:MOST_TEXT // 2]
        stack.cards.append(stack_text.Card(stack.next_id + at, 1, b"card %d" % at, texts={3: text}))
    stack.next_id += CARDS
    spelled = stack_text.write(stack).decode("latin-1")
    yield len(spelled) > 1_000_000, True
    put_text(place.stack, spelled)
    answers, status, told = place.run([".show", "big", ".save"])
    wanted = ["> " + line for line in spelled.split("\n")[:-1]] + ["ok", "> 7", "ok", "ok"]
    yield (status, told, answers == wanted), (0, "", True)
    yield text_of(place.stack) == spelled, True


def save_without_room_for_the_text(place: Place) -> Pairs:
    """A stack of megabytes is saved where there is memory for a small part of its text, and then it can't be shown."""
    place.run([*MANY_BYTES, MORE_CARDS, ".save"])
    saved = text_of(place.stack)
    measured = place.talk()
    most = measured.most_memory() + LITTLE_ROOM
    measured.kill()
    talk = place.talk(with_memory(most))
    yield [talk.ask(line) for line in (".show", ".save")], ["refused 4", "ok"]
    yield text_of(place.stack) == saved.replace("\nname |A\n", "\nname |Renamed\n", 1), True
    yield [talk.ask(line) for line in (".undo", ".save")], ["ok", "ok"]
    yield talk.end(), (0, "")
    yield text_of(place.stack) == saved, True


def names_of_undone_globals(place: Place) -> Pairs:
    """Names of globals go that no undo and no redo needs, so hundreds of long ones take no more memory than some."""
    talk = place.talk()
    names = ["n" * (MOST_TEXT - 1_000) + "%d" % at for at in range(1_000, 1_400)]
    memory = []
    for at, name in enumerate(names):
        yield [talk.ask(line) for line in ("put %d into %s" % (at, name), ".undo")], ["ok", "ok"]
        memory.append(talk.most_memory())
    yield memory[-1] - memory[99] < ROOM_OF_NAMES, True
    yield [talk.ask(".redo"), talk.ask(".globals"), talk.heard()], ["ok", "> %s %d" % (names[-1], len(names) - 1), "ok"]
    yield talk.end(), (0, "")


def cards_that_went(place: Place) -> Pairs:
    """Room goes of cards that no undo brings back, so thousands with many fields take no more memory than some."""
    stack = stack_text.read(OLD.encode("latin-1"))
    stack.backgrounds[0].parts += [stack_text.Part(stack_text.FIELD, stack.next_id + at) for at in range(FIELDS)]
    stack.next_id += FIELDS
    put_text(place.stack, stack_text.write(stack).decode("latin-1"))
    made = 'repeat %d\rdoMenu "New Card"\rdoMenu "Delete Card"\rend repeat' % CARDS_OF_A_ROUND
    yield place.run([made] * ROUNDS, ["--depth", "1"], with_memory(ROOM_OF_CARDS)), (["ok"] * ROUNDS, 0, "")


def trees_of_many_scripts(place: Place) -> Pairs:
    """Trees take at most 20 times the memory of their scripts, and of large scripts only some are kept."""
    stack = stack_text.read(OLD.encode("latin-1"))
    lines = LINES_OF_A_SCRIPT * (28_000 // len(b"\r".join(LINES_OF_A_SCRIPT)))
    script = b"\r".join([b"on hear", b"end hear", b"on other", *lines, b"end other"])
    cards = [stack_text.Card(stack.next_id + at, 1, script=script) for at in range(SCRIPTS)]
    stack.cards, stack.next_id = stack.cards + cards, stack.next_id + SCRIPTS
    put_text(place.stack, stack_text.write(stack).decode("latin-1"))
    talk = place.talk()
    before = talk.most_memory()
    yield [talk.ask('send "hear" to card id %d' % card.id) for card in cards], ["ok"] * SCRIPTS
    yield talk.most_memory() - before < 20 * KEPT_SCRIPTS, True
    yield talk.end(), (0, "")


def words_that_a_text_shares(place: Place) -> Pairs:
    """Short words are worth the same where a text has so many of them that it keeps each once."""
    script = " & return & ".join('"%s"' % line for line in HANDLERS_OF_WORDS)
    yield place.run(["set the script of this stack to " + script, ".save"]), (["ok"] * 2, 0, "")
    for statement, worth in WORDS.items():
        for filling in (0, MANY_WORDS):
            line = "\r".join(["put 2 into a", "put true into b"] + ["get c"] * filling + [statement])
            yield place.run([line]), (["> " + worth, "ok"], 0, "")


def lines_of(line: str) -> str:
    """Such lines as a long script has room for."""
    return "\r".join([line] * (LONG_SCRIPT // (len(line) + 1)))


def list_of(item: str) -> str:
    """A command with such arguments as a long script has room for."""
    return "x " + ",".join([item] * (LONG_SCRIPT // (len(item) + 1)))


def sums_of(operand: str, operator: str = "+") -> str:
    """A command whose arguments are sums, each of many such operands."""
    return list_of(operator.join([operand] * OPERANDS))


def handlers_with(parameters: List[str]) -> str:
    """Between the lines of a handler, such others with these parameters as a long script has room for."""
    handler = "on x %s\rend x" % ",".join(parameters)
    return "\r".join(["end other", *[handler] * (LONG_SCRIPT // (len(handler) + 1)), "on other"])


LETTERS = list(string.ascii_lowercase)
# No word of the language ends so.
NAMES_OF_TWO = [first + last for first in LETTERS for last in "jqz"]
NAMES_OF_THREE = [first + second for first in LETTERS for second in NAMES_OF_TWO]

# Bodies of handlers whose words, names and operands are as short as they can be: as large groups as are kept together.
DENSE_EXPRESSIONS = [
    sums_of("1"), sums_of("a"), sums_of("(a)"), sums_of("abc"), sums_of("f()"), sums_of("a", "^"), list_of("1*1+1*1"),
    list_of("(" * OPERANDS + "1" + ")" * OPERANDS), list_of("a"), list_of("1"), list_of("pi"), list_of("abc"),
    list_of('""'), list_of('"a"'), list_of("f()"), list_of("f(a)")]
DENSER_EXPRESSIONS = [
    sums_of("f(a)"), sums_of("-a"), sums_of("-1"), sums_of("ABC"), sums_of("aBc"), sums_of('""'), sums_of("00"),
    sums_of('-""'), list_of("-a"), list_of("-00"), list_of("F(A)"), "x " + ",".join(NAMES_OF_THREE * 3).upper()]
DENSE_LINES = [
    lines_of("x " + ",".join("a" * OPERANDS)), lines_of("a"), lines_of("a b"), lines_of("a 1"), lines_of("abc"),
    lines_of("if a then b"), lines_of("global a,b,c"), lines_of("put 1 into x"), lines_of('get ""'), lines_of("a 1,2"),
    lines_of("a b,c,d"), lines_of("a f(a)"), lines_of("a -a")]
DENSER_LINES = [
    lines_of('a "",""'), lines_of("a -b,-c"), lines_of("do -1"), lines_of("add 1 to A"), lines_of("global A"),
    lines_of("global " + ",".join(LETTERS)), lines_of("global " + ",".join(LETTERS).upper())]
HANDLERS = [handlers_with(names) for names in (
    ["a"], ["A"], ["a", "b"], ["a"] * 1_000, ["A"] * 1_000, LETTERS[:16], LETTERS, list(map(str.upper, LETTERS)),
    NAMES_OF_TWO, NAMES_OF_THREE)]
GROUPS_OF_BODIES = [DENSE_EXPRESSIONS, DENSER_EXPRESSIONS, DENSE_LINES, DENSER_LINES, HANDLERS]


def sizes_of_trees(place: Place, bodies: List[str]) -> Dict[str, float]:
    """The bytes of memory that each handler's tree takes for each byte of its script, where it is read."""
    stack = stack_text.read(OLD.encode("latin-1"))
    scripts = ["on hear\rend hear\ron other\r%s\rend other" % body for body in bodies]
    cards = [stack_text.Card(stack.next_id + at, 1, script=script.encode()) for at, script in enumerate(scripts)]
    stack.cards, stack.next_id = stack.cards + cards, stack.next_id + len(cards)
    put_text(place.stack, stack_text.write(stack).decode("latin-1"))
    talk, sizes = place.talk(), {}
    for body, card in zip(bodies, cards):
        before = talk.memory()
        if talk.ask('send "hear" to card id %d' % card.id) == "ok":
            sizes[body] = (talk.memory() - before) / len(card.script)
    talk.end()
    return sizes


def trees_of_dense_texts(place: Place) -> Pairs:
    """A tree takes at most 20 times the memory of its script, however short the words of that are."""
    # The first ones take the room for tokens too, and for lists while they grow, which the others have then.
    first = [list_of("(" * OPERANDS + "2" + ")" * OPERANDS), sums_of("2"), list_of("2"),
             handlers_with(NAMES_OF_THREE[::-1]), handlers_with(LETTERS[::-1]),
             lines_of("global " + ",".join(LETTERS[::-1])), lines_of("a 2,1")]
    most = MOST_OF_A_TREE + ROUNDING
    for bodies in GROUPS_OF_BODIES:
        sizes = sizes_of_trees(place, first + bodies)
        yield len(sizes), len(first + bodies)
        large = [body for body in bodies if sizes[body] > most]
        # Room for tokens is taken anew where parts of other trees stand in it, so these are measured by themselves too.
        alone = sizes_of_trees(place, first + large) if large else {}
        yield [(body[:40], alone[body]) for body in large if alone[body] > most], []


def memory_of_texts(place: Place, length: int, expression: str) -> Tuple[Set[str], int]:
    """The answers to lines that put texts into globals which an expression makes of one as long, and what memory they take."""
    talk = place.talk()
    answers = {talk.ask('put "%s" into t' % ("y" * length))}
    before = talk.memory()
    answers |= {talk.ask("put %s into v%d" % (expression, at)) for at in range(TEXTS)}
    taken = talk.memory() - before
    talk.end()
    return answers, taken


def texts_that_grew(place: Place) -> Pairs:
    """Texts that many joins made are kept without the room behind them in which they grew, and the rooms that they outgrew
    serve the next ones."""
    for length, most in MOST_OF_GROWN.items():
        answers, copies = memory_of_texts(place, length, "t")
        others, grown = memory_of_texts(place, length, "t" + "&1" * JOINS)
        yield answers | others, {"ok"}
        yield grown < most * copies, True


def long_lists_one_after_the_other(place: Place) -> Pairs:
    """A list of thousands of arguments stands in the memory of the one before it."""
    talk = place.talk()
    lines = ['set the script of this stack to "on hear" & return & "end hear"', 'put "hear a" into t',
             "repeat %d\rput \",a\" after t\rend repeat" % (ARGUMENTS - 1)]
    yield [talk.ask(line) for line in lines], ["ok"] * len(lines)
    sends = "repeat with i = 1 to %d\rsend t & i to this stack\rend repeat" % SENDS
    first, before, again = talk.ask(sends), talk.page_faults(), talk.ask(sends)
    yield (first, again, talk.page_faults() - before < FEW_PAGES), ("ok", "ok", True)
    yield talk.end(), (0, "")


CASES: List[Callable[[Place], Pairs]] = [
    many_answers_to_a_line, many_messages_of_a_line, long_lines, longest_text_of_two_lines, many_places,
    large_stack_that_is_saved, large_stack_of_another_writer, save_without_room_for_the_text, names_of_undone_globals,
    cards_that_went, trees_of_many_scripts, words_that_a_text_shares, trees_of_dense_texts,
    texts_that_grew, long_lists_one_after_the_other,
]
