"""What a page does to a session of the program, without a browser: lines, places, texts of places, logs."""

import unittest
from typing import List

from front import server_acts as acts
from front.answers import OK
from front.server_play import NotDone, Options, Play, Stale
from front.server_told import log_of
from front.server_words import shown
from front.session import Entry, Session
from front.stack_text import BUTTON, FIELD, read
from front.stored import steps_of
from front.terminal_text import Coding
from front.tests.support import ENDLESS, FolderTest, bytes_of, there
from front.text_diff import changes

MAC, UTF = Coding.MAC_ROMAN, Coding.UTF_8


class PlayTest(FolderTest):
    """A session on a copy of a stack."""

    def open(self, name: str, options: Options = Options()) -> Play:
        self.path = self.put(name + ".stack", bytes_of(there("stacks/%s.stack" % name)))
        self.play = Play(self.path, options)
        self.addCleanup(self.play.close)
        return self.play

    def run_lines(self, *lines: bytes) -> List[Entry]:
        return self.play.run(self.play.known.revision, lines)

    def act(self, lines: List[bytes]) -> None:
        """Lines of an act, each of which has to end with ok."""
        done = self.run_lines(*lines)
        self.assertEqual([(entry.line, entry.answer.verdict) for entry in done], [(line, OK) for line in lines])


class TestPlaces(PlayTest):
    """The history."""

    def test_places_are_those_of_the_program(self) -> None:
        play = self.open("to_do")
        for line in (b'newTask "Wash"', b"put 1 div 0", b"put (", b".click button 9", b".history", b"hideDone",
                     b".undo 2"):
            self.run_lines(line)
        self.assertEqual([place.line for place in play.places.made],
                         [b'newTask "Wash"', b"put 1 div 0", b".click button 9", b"hideDone"])
        self.assertEqual((play.places.cursor, play.session.history()), (2, (2, 2)))
        play.go_to(play.known.revision, 3)
        self.run_lines(b"put 5")
        self.assertEqual((play.places.cursor, play.places.last(), play.session.history()), (4, 4, (4, 0)))
        with self.assertRaisesRegex(NotDone, "there is no place 5"):
            play.go_to(play.known.revision, 5)

    def test_a_line_that_takes_too_long_is_taken_back(self) -> None:
        play = self.open("to_do", Options(steps=10_000_000, minutes=0.02))
        self.run_lines(b"put 5 into g")
        with self.assertRaisesRegex(NotDone, "broken off, since it took longer than 0.02 minutes: all is as it was before"):
            self.run_lines("\r".join(ENDLESS).encode())
        (entry,) = self.run_lines(b"put g")
        self.assertEqual((entry.answer.shown, play.places.cursor), ([b"5"], 2))

    def test_the_oldest_places_fall_away(self) -> None:
        play = self.open("to_do", Options(depth=2))
        for number in range(5):
            self.run_lines(b"put %d" % number)
        self.assertEqual([place.line for place in play.places.made], [b"put 3", b"put 4"])
        self.assertEqual((play.places.dropped, play.places.cursor), (3, 2))
        play.go_to(play.known.revision, 0)
        self.assertEqual(play.session.history(), (0, 2))

    def test_undo_to_a_line_counts_the_users_lines(self) -> None:
        play = self.open("to_do")
        texts = [play.known.text]
        for name in (b"one", b"two", b"three"):
            self.run_lines(b'newTask "' + name + b'"')
            texts.append(play.known.text)
        self.run_lines(b".undo to 1")
        self.assertEqual(play.known.text, texts[1])
        self.assertTrue(log_of(play.session.lines).endswith(b".undo to 1\nok\n"))
        with self.assertRaisesRegex(NotDone, "there is no line 5"):
            self.run_lines(b".undo to 5")
        self.run_lines(b".undo  to  0 ")
        self.assertEqual(play.known.text, texts[0])

    def test_texts_of_places(self) -> None:
        play = self.open("quiz")
        texts = [play.known.text]
        for line in (b'.click bg button "B"', b"go next card", b'.click bg button "C"'):
            self.run_lines(line)
            texts.append(play.known.text)
        play.go_to(play.known.revision, 1)
        before = play.known
        self.assertEqual(play.texts_at(before.revision, [3, 0, 2, 1]), [texts[3], texts[0], texts[2], texts[1]])
        self.assertEqual((play.known, play.places.cursor, play.session.history()), (before, 1, (1, 2)))
        self.assertEqual(play.session.text(), texts[1])
        self.assertEqual([each.where for each in changes(texts[0], texts[1])],
                         [b"background 1, field 4", b"card 10, hilite 6"])
        self.assertNotIn(b".redo 2", log_of(play.session.lines))

    def test_the_list_of_lines_does_not_grow_by_the_text(self) -> None:
        play = self.open("quiz")
        for _ in range(3):
            self.run_lines(b"put 1")
        self.assertEqual([len(entry.answer.shown) for entry in play.session.lines if entry.line == b".show"], [0] * 4)


class TestActs(PlayTest):
    """Acts as lines that the program takes."""

    def test_properties_of_every_object(self) -> None:
        path = self.put("all.stack", bytes_of(there("crates/rows/data/every_kind_and_text.stack")))
        self.play = Play(path, Options())
        self.addCleanup(self.play.close)
        for number, found in sorted(self.play.known.objects.found.items()):
            self.act(acts.set_name(self.play.known, number, 'A "name"\n%d' % number, UTF))
            was = shown(self.play.known.objects.found[number].thing.script, UTF)
            self.act(acts.set_script(self.play.known, number, "-- %d\n" % number, was, UTF))
            for flag in ("visible", "lockText", "sharedText", "sharedHilite", "cantDelete"):
                for value in (True, False):
                    try:
                        lines = acts.set_flag(self.play.known.objects, number, flag, value)
                    except NotDone:
                        continue
                    self.act(lines)
            now = self.play.known.objects.found[number].thing
            self.assertEqual((now.name, now.script), (b'A "name"\r%d' % number, b"-- %d\r" % number))

    def test_the_menu(self) -> None:
        play = self.open("to_do")
        for item in ("New Card", "New Background", "New Button", "New Field"):
            self.act(acts.menu(item, True))
        self.assertEqual([part.kind for part in play.known.objects.background.parts], [BUTTON, FIELD])
        self.assertEqual(play.known.objects.card.parts, [])
        self.act(acts.menu("New Button", False))
        button = play.known.objects.card.parts[0]
        self.act(acts.set_flag(play.known.objects, button.id, "hilite", True))
        self.act(acts.click(play.known.objects, button.id))
        self.assertTrue(play.known.objects.card.parts[0].hilite)
        self.act(acts.menu("Delete Card", False))
        self.assertEqual((len(play.known.objects.stack.backgrounds), len(play.known.objects.stack.cards)), (1, 3))

    def test_going(self) -> None:
        play = self.open("address_book")
        for lines, card in ((acts.go(play.known.objects, 14), 14), (acts.go(play.known.objects, 3), 11),
                            (acts.go_way("last"), 14), (acts.go_way("next"), 10), (acts.go_way("previous"), 14),
                            (acts.go_way("first"), 10)):
            self.act(lines)
            self.assertEqual(play.known.objects.card.id, card)

    def test_any_text_is_typed(self) -> None:
        play = self.open("to_do")
        self.act(acts.menu("New Field", False))
        number = play.known.objects.card.parts[-1].id
        texts = (b"plain", b'with "quotes"\rand lines', bytes(range(256)), b"x" * 30_000, b"\r" * 30_000, b'"' * 9_000,
                 b"")
        for text in texts:
            known = self.play.known
            was = shown(known.objects.card.parts[-1].text, MAC)
            self.act(acts.type_into(known, number, shown(text, MAC), was, MAC))
            self.assertEqual(play.known.objects.card.parts[-1].text, text)

    def test_a_text_is_typed_as_the_program_types(self) -> None:
        """The line of HyperTalk that stands in for `.type` sends the same messages to the same object."""
        play = self.open("to_do")
        self.act(acts.menu("New Field", False))
        number = play.known.objects.card.parts[-1].id
        sent = []
        for text, was in (("plain", ""), ('with a "quote"', "plain")):
            done = self.run_lines(*acts.type_into(play.known, number, text, was, UTF))
            sent.append(done[-1].answer.watched)
        self.assertEqual(sent[0], [("openField", number), ("closeField", number)])
        self.assertEqual(sent[0], sent[1])

    def test_locked_fields_are_not_typed_into(self) -> None:
        play = self.open("to_do")
        was = shown(play.known.objects.text(play.known.objects.background.parts[0]), UTF)
        with self.assertRaisesRegex(NotDone, "locked"):
            acts.type_into(play.known, 2, 'a "quote"', was, UTF)

    def test_what_the_lines_of_a_page_make_is_saved(self) -> None:
        play = self.open("calculator")
        for entry in (("Entry", "12"), ("Entry", "30")):
            self.act(acts.type_into(play.known, 3, entry[1], shown(play.known.objects.card.parts[0].text, UTF), UTF))
            self.act(acts.click(play.known.objects, 6))
        self.act([b".save"])
        self.assertFalse(play.unsaved)
        copy = self.put("copy.stack", bytes_of(there("stacks/calculator.stack")))
        with Session(copy) as session:
            for step in steps_of(log_of(play.session.lines)):
                self.assertEqual(session.send(step.line).lines(), step.answers)
        self.assertEqual(bytes_of(copy), bytes_of(self.path))
        self.assertEqual(read(bytes_of(copy)).cards[0].parts[1].text, b"42")

    def test_an_act_on_what_was_seen_before(self) -> None:
        play = self.open("to_do")
        seen = play.known.revision
        self.run_lines(b"put 1")
        with self.assertRaises(Stale):
            play.run(seen, [b"put 2"])
        play.look([b".globals"])
        self.run_lines(b"put 3")


class TestStacks(PlayTest):
    """How stacks are opened."""

    def test_a_stack_of_version_1_is_not_changed_by_opening(self) -> None:
        self.path = self.put("demo.stack", bytes_of(there("crates/card_cli/data/demo.stack")))
        self.play = Play(self.path, Options())
        self.addCleanup(self.play.close)
        self.assertFalse(self.play.unsaved)
        self.run_lines(b'put "x" into field 1')
        self.assertTrue(self.play.unsaved)
        self.run_lines(b".undo")
        self.assertFalse(self.play.unsaved)

    def test_how_texts_are_read(self) -> None:
        stack = bytes_of(there("stacks/quiz.stack"))
        for text, chosen, coding in ((stack, None, UTF), (stack.replace(b"|Quiz", b"|Caf\\8e"), None, MAC),
                                     (stack.replace(b"|Quiz", b"|Caf\\8e"), UTF, UTF), (stack, MAC, MAC)):
            play = Play(self.put("quiz.stack", text), Options(coding=chosen))
            self.addCleanup(play.close)
            self.assertIs(play.coding, coding)


if __name__ == "__main__":
    unittest.main()
