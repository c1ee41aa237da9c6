"""Tests of the lines that carry texts: the program has to get each text back, byte for byte."""

import unittest
from random import Random
from typing import List

from front.hypertalk_text import (LINE_LIMIT, background_reference, card_reference, literal, part_reference, put_lines,
                                  set_lines, type_lines, unused_name)
from front.session import Session
from front.stack_text import Part, read, write
from front.tests.support import DEMO, FolderTest, bytes_of, there

ALL_BYTES = bytes(range(256))
# The richest texts: those that take the most room in a line, and the deepest trees.
LONG = [b"x" * 30_000, b'"' * 30_000, b"\r" * 30_000, b"\n" * 30_000, b'a"' * 15_000, b"\r\n" * 15_000,
        (ALL_BYTES * 120)[:30_000]]


class Literals(unittest.TestCase):
    def test_a_text_is_readable(self) -> None:
        self.assertEqual(literal(b'on a\rput "b"\rend a'),
                         b'"on a" & return & "put " & quote & "b" & quote & return & "end a"')
        self.assertEqual(literal(b""), b"empty")

    def test_a_text_that_is_too_long_is_refused(self) -> None:
        for make in (lambda text: set_lines(b"me", b"script", text), lambda text: put_lines(b"it", text),
                     lambda text: type_lines(b"field 1", text, True)):
            self.assertRaises(ValueError, make, b"x" * 30_001)

    def test_each_line_fits(self) -> None:
        for text in LONG:
            for lines in (set_lines(b"card id 2", b"script", text), put_lines(b"field 1", text),
                          type_lines(b"bkgnd field id 3", text, False)):
                self.assertLessEqual(max(map(len, lines)), LINE_LIMIT)
                self.assertFalse(any(b"\n" in line for line in lines))

    def test_a_name_that_nobody_uses(self) -> None:
        self.assertEqual(unused_name([b"nothing", b""]), b"text_being_built")
        self.assertEqual(unused_name([b"put Text_Being_Built", b"text_being_built2"]), b"text_being_built3")

    def test_references(self) -> None:
        self.assertEqual((card_reference(5), background_reference(1)), (b"card id 5", b"bkgnd id 1"))
        self.assertEqual(part_reference("button", 7, b"card id 5", False), b"card button id 7 of card id 5")
        self.assertEqual(part_reference("field", 3, b"", True), b"bkgnd field id 3")


class AtTheProgram(FolderTest):
    """What the program has after the lines."""

    def setUp(self) -> None:
        super().setUp()
        self.session = Session(self.put_demo())
        self.addCleanup(self.session.close)

    def give(self, lines: List[bytes]) -> None:
        for line in lines:
            self.assertEqual(self.session.send(line).verdict, "ok", line[:200])

    def test_every_byte_arrives(self) -> None:
        self.give(set_lines(b"this card", b"script", ALL_BYTES))
        self.give(put_lines(b"field 1", ALL_BYTES[::-1]))
        stack = read(self.session.text())
        self.assertEqual(stack.cards[0].script, ALL_BYTES)
        self.assertEqual(stack.cards[0].texts[3], ALL_BYTES[::-1])

    def test_the_longest_texts_arrive(self) -> None:
        for text in LONG:
            self.give(set_lines(b"card 2", b"script", text))
            self.assertEqual(read(self.session.text()).cards[1].script, text)

    def test_texts_of_all_kinds_arrive(self) -> None:
        chance = Random(5)
        for _ in range(60):
            pool = chance.choice([b'"\r', b'a"\r\n', ALL_BYTES, b"ab\\ -"])
            text = bytes(chance.choice(pool) for _ in range(chance.choice([1, 7, 80, 900])))
            self.give(put_lines(b"field 1", text))
            self.assertEqual(read(self.session.text()).cards[0].texts[3], text)

    def test_lines_of_a_long_text_are_undone_as_is_said(self) -> None:
        before = self.session.text()
        lines = set_lines(b"this card", b"script", b'"' * 9_000)
        self.assertGreater(len(lines), 2)
        self.give(lines)
        self.assertEqual(self.session.send(b".globals").shown, [b"text_being_built "])
        self.give([b".undo"])
        self.assertEqual(self.session.text(), before)
        self.give([b".undo %d" % (len(lines) - 1)])
        self.assertEqual(self.session.send(b".globals").shown, [])

    def test_typing_sends_the_same_messages_however_the_text_is(self) -> None:
        for text, changed, last in ((b"plain", True, "closeField"), (b"plain", False, "exitField"),
                                    (b'a "b"\rc', True, "closeField"), (b'a "b"\rc', False, "exitField"),
                                    (b'"' * 9_000, True, "closeField")):
            lines = type_lines(b"bkgnd field id 3", text, changed)
            self.give(lines[:-1])
            answer = self.session.send(lines[-1])
            self.assertEqual((answer.verdict, answer.watched), ("ok", [("openField", 3), (last, 3)]))
            self.assertEqual(read(self.session.text()).cards[0].texts[3], text)

    def test_references_find_their_objects(self) -> None:
        stack = read(bytes_of(there(DEMO)))
        stack.next_id = 9
        stack.backgrounds[0].parts.append(Part("button", 5))
        stack.cards[1].parts += [Part("button", 6), Part("field", 7)]
        self.session.close()
        self.session = Session(self.put("more.stack", write(stack)))
        self.addCleanup(self.session.close)
        card, background = card_reference(4), background_reference(1)
        for reference, number in ((card, 4), (background, 1), (part_reference("button", 5, background, True), 5),
                                  (part_reference("field", 3, background, True), 3),
                                  (part_reference("button", 6, card, False), 6),
                                  (part_reference("field", 7, card, False), 7)):
            self.assertEqual(self.session.send(b"put the short id of " + reference).shown, [b"%d" % number])


if __name__ == "__main__":
    unittest.main()
