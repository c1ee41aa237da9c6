"""The parts of the page's server that need no program: texts, places of the history, differences, views, lines."""

import random
import unittest

from front import server_acts as acts
from front.answers import Answer
from front.server_desk import LONGEST_NAME, file_name
from front.server_objects import Objects, reference, title
from front.server_places import UNKNOWN, Places, move
from front.server_play import Known, NotDone
from front.server_told import entry_view, log_of, users_line
from front.server_view import MOST_CARDS, MOST_PARTS, card_view, cards_view, object_view, part_view
from front.server_words import NotInStack, shown, typed
from front.session import Entry
from front.stack_text import BUTTON, FIELD, Background, Card, Part, Stack, read, write
from front.terminal_text import Coding, coding_of
from front.tests.support import bytes_of, texts, there
from front.text_diff import changes

MAC, UTF = Coding.MAC_ROMAN, Coding.UTF_8


class TestWords(unittest.TestCase):
    """Texts on the page."""

    def test_every_byte_comes_back(self) -> None:
        every = bytes(range(256))
        for coding in Coding:
            self.assertEqual(typed(shown(every, coding), coding), every)
            self.assertNotIn("\r", shown(every, coding))

    def test_texts_by_chance_come_back(self) -> None:
        chance = random.Random(7)
        pieces = ["\u240a".encode(), "\u2421".encode(), "é漢😀".encode(), b"\xed\xa0\x80", b"\xc3", b"\r", b"\n",
                  b"\t", b"a", b"\x8e"]
        for _ in range(3_000):
            text = b"".join(chance.choice(pieces) for _ in range(chance.randrange(8)))
            for coding in Coding:
                self.assertEqual(typed(shown(text, coding), coding), text)

    def test_what_is_shown(self) -> None:
        self.assertEqual(shown(b"Caf\x8e\rin\ta\ntin\x00", MAC), "Café\nin\ta\u240atin\u2400")
        self.assertEqual(shown(b"Caf\xc3\xa9 \x8e", UTF), "Café \udc8e")

    def test_what_is_typed(self) -> None:
        self.assertEqual(typed("Cafe\u0301\r\nx\ry\nz", MAC), b"Caf\x8e\rx\ry\rz")
        self.assertEqual(typed("漢", UTF), b"\xe6\xbc\xa2")
        with self.assertRaisesRegex(NotInStack, r"漢 \(U\+6F22\) isn't a character of Mac Roman"):
            typed("a漢", MAC)
        with self.assertRaises(NotInStack):
            typed("\ud800", UTF)

    def test_coding_of_a_stack(self) -> None:
        self.assertIs(coding_of(b"name |Caf\\8e\n"), MAC)
        self.assertIs(coding_of(b"name |Caf\\c3\\a9\n"), UTF)
        self.assertIs(coding_of(b"name |Plain \\5c\n"), UTF)


class TestPlaces(unittest.TestCase):
    """The places of the history."""

    def test_commands_add_places_and_looks_do_not(self) -> None:
        places = Places()
        lines = [(b"put 1", "ok"), (b".show", "ok"), (b".click x", "fault 3"), (b"", "ok"), (b".type", "refused 3"),
                 (b".open", "ok"), (b".clicks", "refused 3"), (b"x", "refused 3"), (b".undo", "ok")]
        for number, (line, ending) in enumerate(lines, 1):
            places.answered(line, number, ending)
        self.assertEqual([(place.line, place.number) for place in places.made],
                         [(b"put 1", 1), (b".click x", 3), (b"", 4), (b".open", 6)])

    def test_counts_of_the_program_decide(self) -> None:
        places = Places()
        for number in range(5):
            places.answered(b"put %d" % number, number, "ok")
        places.counted(3, 2)
        self.assertEqual((places.cursor, places.last(), places.dropped), (3, 5, 0))
        places.answered(b"put 9", 9, "ok")
        places.counted(4, 0)
        self.assertEqual([place.line for place in places.made], [b"put 0", b"put 1", b"put 2", b"put 9"])
        places.counted(2, 0)
        self.assertEqual([place.line for place in places.made], [b"put 2", b"put 9"])
        self.assertEqual((places.cursor, places.dropped), (2, 2))
        self.assertIsNone(places.at(0))
        self.assertIsNone(places.at(3))
        places.answered(b".open\r", 10, "ok")
        places.counted(3, 1)
        self.assertEqual([place.line for place in places.made], [UNKNOWN, b"put 2", b"put 9", b".open\r"])
        self.assertEqual(places.cursor, 3)

    def test_moves(self) -> None:
        self.assertEqual([move(3, place) for place in (1, 3, 7)], [b".undo 2", None, b".redo 4"])


class TestDiff(unittest.TestCase):
    """What differs."""

    def test_the_object_is_named(self) -> None:
        before = bytes_of(there("stacks/quiz.stack"))
        stack = read(before)
        stack.cards[1].texts[3] = b"C"
        stack.cards[2].hilites[6] = True
        stack.backgrounds[0].parts[5].script = b"on mouseUp\rbeep\rend mouseUp"
        stack.name = b"Test"
        found = changes(before, write(stack))
        self.assertEqual([change.where for change in found],
                         [b"stack", b"background 1, button 7", b"card 11, text 3", b"card 12, hilite 6"])
        self.assertEqual([line for line in found[2].lines if line[0] != " "], [("-", b"|A"), ("+", b"|C")])

    def test_a_difference_can_be_put_back_together(self) -> None:
        chance = random.Random(3)
        for _ in range(300):
            old = [b"%d" % chance.randrange(5) for _ in range(chance.randrange(30))]
            new = [line for line in old if chance.random() < 0.8] + [b"x"] * chance.randrange(3)
            chance.shuffle(new) if chance.random() < 0.1 else None
            found = changes(b"\n".join(old), b"\n".join(new))
            gone = sum(sign == "-" for change in found for sign, _ in change.lines)
            come = sum(sign == "+" for change in found for sign, _ in change.lines)
            self.assertEqual(come - gone, len(b"\n".join(new).split(b"\n")) - len(b"\n".join(old).split(b"\n")))
            self.assertEqual(bool(found), old != new and b"\n".join(old) != b"\n".join(new))

    def test_every_stack_beside_itself(self) -> None:
        for name, text in texts().items():
            self.assertEqual(changes(text, text), [], name)


def large() -> Stack:
    """A stack of 10,000 objects: one card with many parts, one of them full, and many cards."""
    background = Background(1, b"All", parts=[Part(FIELD, 2, b"Note"), Part(BUTTON, 3, b"Go")])
    stack = Stack(1_000_000, b"Large", backgrounds=[background])
    stack.cards = [Card(number, 1, b"Card %d" % number, texts={2: b"%d" % number}) for number in range(10, 5_010)]
    stack.cards[0].parts = [Part(FIELD, number, text=b"x" * 30_000) for number in range(6_000, 7_000)]
    stack.cards[1].parts = [Part(BUTTON, number, b"B") for number in range(7_000, 10_996)]
    stack.cards[0].texts[2] = b"a line\r" * 4_285
    return stack


class TestViews(unittest.TestCase):
    """What a page is told."""

    def test_a_part_as_it_is_on_the_card(self) -> None:
        stack = read(bytes_of(there("stacks/quiz.stack")))
        stack.cards[1].hilites[6] = True
        objects = Objects(stack, 11)
        parts = {part["name"]: part for part in card_view(objects, 0, UTF)["parts"]}
        self.assertEqual((parts["Key"]["text"], parts["Key"]["visible"], parts["Key"]["locked"]), ("A", False, True))
        self.assertEqual((parts["Score"]["text"], parts["Score"]["shared"]), ("0 of 0", True))
        self.assertEqual([parts[name]["hilite"] for name in "ABC"], [False, True, False])
        self.assertEqual(parts["B"]["title"], 'bkgnd button "B"')

    def test_titles_and_references(self) -> None:
        stack = read(bytes_of(there("crates/rows/data/every_kind_and_text.stack")))
        objects = Objects(stack, stack.cards[0].id)
        for number, found in objects.found.items():
            self.assertTrue(title(found, MAC))
            self.assertIn(b"id %d" % number if number else b"this stack", reference(found))
            self.assertEqual(object_view(objects, found, MAC)["id"], number)
        with self.assertRaises(KeyError):
            Objects(stack, 0)

    def test_only_a_window_of_a_large_stack(self) -> None:
        stack = large()
        objects = Objects(stack, 10)
        view = card_view(objects, 0, UTF)
        self.assertEqual(view["all"], 1_002)
        self.assertLess(sum(len(part.get("text", "")) for part in view["parts"]), 1_100_000)
        other = Objects(stack, 11)
        self.assertEqual(len(card_view(other, 0, UTF)["parts"]), MOST_PARTS)
        last = card_view(other, 10 ** 8, UTF)
        self.assertEqual((last["start"], len(last["parts"])), (3_800, 198))
        cards = cards_view(objects, 4_950, "", UTF)
        self.assertEqual((len(cards["rows"]), cards["all"]), (50, 5_000))
        self.assertEqual([row["id"] for row in cards_view(objects, 0, "card 501", UTF)["rows"]][:2], [501])
        self.assertEqual(len(cards_view(objects, 0, "CARD", UTF)["rows"]), MOST_CARDS)

    def test_part_view_of_a_field_without_a_text(self) -> None:
        stack = large()
        del stack.cards[5].texts[2]
        objects = Objects(stack, stack.cards[5].id)
        self.assertEqual(part_view(objects, stack.backgrounds[0].parts[0], UTF)["text"], "")


class TestTold(unittest.TestCase):
    """The transcript."""

    def test_places_in_scripts_are_links(self) -> None:
        said = ["fault 4, NotANumber: a number is needed, and the text isn't one",
                '  at line 2 of the script of card button "at line 9 (id 3)" (id 7), in on mouseUp:', "    put 1 + x",
                '  at line 3, column 14 of the script of stack "Home" (id 0):', "    put (", "         ^",
                '  called from line 12 of the script of bkgnd field "a\\0db" (id 12), in function f:',
                '  called from the script of card "A" (id 5), in on x; that script was replaced meanwhile',
                "  at line 1, column 3 of the typed line:", "  called from the typed line:",
                '    put "the script of card (id 5):"', '  meant: "at line 1 of the script of x (id 5):"']
        view = entry_view(1, b"x", Answer([], "fault", 4, said), False, None, UTF)
        found = [(each["id"], each["line"], each["column"]) for each in view["explained"] if "id" in each]
        self.assertEqual(found, [(7, 2, None), (0, 3, 14), (12, 12, None), (5, None, None)])

    def test_long_answers_are_cut(self) -> None:
        answer = Answer([b"x" * 9_000] + [b"y"] * 999, "ok", 0, [], [("mouseUp", 4)] * 500)
        view = entry_view(1, b".show", answer, False, None, UTF)
        self.assertEqual((len(view["shown"]), len(view["shown"][0]), view["more"]), (100, 2_000, 901))
        self.assertEqual((len(view["messages"]), view["moreMessages"]), (100, 400))

    def test_log_counts_the_users_lines_alone(self) -> None:
        ok = Answer([])
        lines = [Entry(b".where", ok, True), Entry(b"put 1", Answer([b"1"]), False), Entry(b".show", ok, True),
                 Entry(b'put ""', Answer([b""]), False), Entry(b"ok", Answer([], "fault", 2), False),
                 Entry(b".undo to 3", ok, False)]
        self.assertEqual(users_line(lines, lines[-1]), b".undo to 1")
        self.assertEqual(log_of(lines), b'put 1\n> 1\nok\nput ""\n>\nok\n ok\nfault 2\n.undo to 1\nok\n')


class TestActs(unittest.TestCase):
    """The lines for what a page asks."""

    def setUp(self) -> None:
        text = bytes_of(there("stacks/address_book.stack"))
        self.known = Known(1, text, Objects(read(text), 12))

    def test_typing(self) -> None:
        field = (self.known, 6)
        self.assertEqual(acts.type_into(*field, "Paris", "London", UTF), [b'.type "Paris" into bkgnd field id 6'])
        self.assertEqual(acts.type_into(*field, "London", "London", UTF), [])
        lines = acts.type_into(*field, 'a "b"\nc', "London", UTF)
        self.assertEqual(lines, [
            b'send "openField" to bkgnd field id 6\r'
            b'put "a " & quote & "b" & quote & return & "c" into bkgnd field id 6\r'
            b'send "closeField" to bkgnd field id 6'])
        self.assertGreater(len(acts.type_into(*field, "\n" * 9_000, "London", UTF)), 2)
        for wrong in (("x", "Rome"), ("x" * 30_001, "London")):
            with self.assertRaises(NotDone):
                acts.type_into(*field, *wrong, UTF)
        with self.assertRaisesRegex(NotDone, "isn't on the current card"):
            acts.type_into(self.known, 2, "x", "", UTF)

    def test_other_acts(self) -> None:
        objects = self.known.objects
        self.assertEqual(acts.click(objects, 8), [b".click bkgnd button id 8"])
        self.assertEqual(acts.go(objects, 14), [b"go card id 14"])
        self.assertEqual(acts.go(objects, 1), [b"go bkgnd id 1"])
        self.assertEqual(acts.set_flag(objects, 4, "lockText", True),
                         [b"set the lockText of bkgnd field id 4 of bkgnd id 3 to true"])
        self.assertEqual(acts.set_flag(objects, 8, "hilite", False), [b"set the hilite of bkgnd button id 8 to false"])
        self.assertEqual(acts.set_name(self.known, 0, 'My "book"', UTF),
                         [b'set the name of this stack to "My " & quote & "book" & quote'])
        self.assertEqual(acts.menu("New Field", True), [b'set the editBkgnd to true\rdoMenu "New Field"'])
        self.assertEqual(acts.menu("New Card", True), [b'doMenu "New Card"'])
        for wrong in (lambda: acts.click(objects, 12), lambda: acts.click(objects, 99), lambda: acts.go(objects, 8),
                      lambda: acts.menu("Find...", False), lambda: acts.set_flag(objects, 4, "hilite", True),
                      lambda: acts.go_way("up"), lambda: acts.set_flag(objects, 4, "script", True)):
            with self.assertRaises(NotDone):
                wrong()

    def test_names_of_files(self) -> None:
        for said, name in (("a.stack", "a.stack"), ("../../etc/passwd", "passwd"), ("c:\\x\\y.stack", "y.stack"),
                           ("", "dropped.stack"), ("..", "dropped.stack"), (".hidden", "hidden"), ("a\nb\0c", "abc"),
                           ("x" * 300, "x" * LONGEST_NAME), ("é" * 300, "é" * (LONGEST_NAME // 2))):
            self.assertEqual(file_name(said), name)


if __name__ == "__main__":
    unittest.main()
