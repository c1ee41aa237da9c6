"""Tests of what is shown on a terminal, of completion, and of the words of the command line."""

import unittest
from typing import List

from front.terminal import options_of
from front.terminal_completion import Names, candidates
from front.terminal_text import Coding, NoSuchCharacter, explained, shown, to_bytes
from front.terminal_views import diff, log
from front.answers import Answer
from front.session import Entry

UTF_8, MAC_ROMAN = Coding.UTF_8, Coding.MAC_ROMAN


class Texts(unittest.TestCase):
    def test_utf_8_is_shown_where_it_is_whole(self) -> None:
        self.assertEqual(shown(b"a\\c3\\a9\\5c\\0d", UTF_8), "aé\\5c\\0d")
        self.assertEqual(shown(b"\\c3", UTF_8), "\\c3")
        self.assertEqual(shown(b"\\c3\\c3\\a9\\ff", UTF_8), "\\c3é\\ff")
        self.assertEqual(shown(b"\\f0\\9f\\8c\\b3", UTF_8), "🌳")
        self.assertEqual(shown(b"\\5c\\c3\\a9", UTF_8), "\\5cé")

    def test_what_moves_the_cursor_stays_spelled(self) -> None:
        self.assertEqual(shown(b"\\1b[2J\\c2\\9b2J\\e2\\80\\ae", UTF_8), "\\1b[2J\\c2\\9b2J\\e2\\80\\ae")
        self.assertEqual(shown(b"\\ca\\f0", MAC_ROMAN), "\\ca\\f0")

    def test_mac_roman_has_a_character_for_each_byte(self) -> None:
        self.assertEqual(shown(b"\\8e\\a5", MAC_ROMAN), "é•")
        self.assertEqual(to_bytes("é•", MAC_ROMAN), b"\x8e\xa5")
        self.assertEqual(to_bytes("e\u0301", MAC_ROMAN), b"\x8e")
        with self.assertRaisesRegex(NoSuchCharacter, "the character 語"):
            to_bytes("a語", MAC_ROMAN)
        with self.assertRaisesRegex(NoSuchCharacter, "a byte that isn't UTF-8"):
            to_bytes("\udcff", MAC_ROMAN)

    def test_bytes_that_are_not_utf_8_stay_what_they_are(self) -> None:
        self.assertEqual(to_bytes("é\udcff", UTF_8), b"\xc3\xa9\xff")

    def test_a_caret_stays_under_its_column(self) -> None:
        lines = ["  at line 1, column 3 of the typed line:", "    \\8e\\8e)", "          ^"]
        self.assertEqual(explained(lines, MAC_ROMAN)[1:], ["    éé)", "      ^"])


class Completion(unittest.TestCase):
    NAMES = Names({"button": ["Go", "Call Ada", "Call Bob"], "field": ["Note"], "card": ["Today", "A & B"],
                   "background": ["List"]}, ["greet", "mouseUp"])

    def found(self, line: str) -> List[str]:
        """What a line becomes by each candidate; a word begins behind the last delimiter, as for the terminal."""
        start = max(line.rfind(sign) for sign in " &(") + 1
        before, word = line[:start], line[start:]
        return [before + each for each in candidates(before, word, self.NAMES, [".cards", ".card", ".click"])]

    def test_lines(self) -> None:
        for line, wanted in (
            (".ca", [".cards", ".card"]),
            ("gre", ["greet"]),
            ("rep", ["repeat"]),
            (".click b", ["button \"Go\"", "button \"Call Ada\"", "button \"Call Bob\"", 'background "List"']),
            ('.click button "C', ['.click button "Call Ada"', '.click button "Call Bob"']),
            ('.click button "Call B', ['.click button "Call Bob"']),
            ('go card "A & ', ['go card "A & B"']),
            ('put "x" & field "', ['put "x" & field "Note"']),
            ("put btn ", ['put btn "Go"', 'put btn "Call Ada"', 'put btn "Call Bob"', "put btn id"]),
            ("put the hi", ["put the hilite"]),
            ("put the short n", ["put the short name"]),
            ('doMenu "New F', ['doMenu "New Field"']),
            ("put 1 in", ["put 1 into"]),
            ("put zzz", []),
        ):
            with self.subTest(line):
                found = self.found(line)
                if line.startswith(".click b") and '"' not in line:
                    wanted = [".click " + each for each in wanted]
                    self.assertLessEqual(set(wanted), set(found))
                else:
                    self.assertEqual(found, wanted)


class Words(unittest.TestCase):
    def test_the_options(self) -> None:
        found = options_of(["--steps=7", "a.stack", "--depth", "3", "--watch", "--quiet", "--mac-roman", "--explain"])
        assert found is not None
        self.assertEqual((found.stack, found.steps, found.depth, found.watch, found.explain, found.coding),
                         ("a.stack", 7, 3, True, False, MAC_ROMAN))
        for words, coding in ((["a"], None), (["a", "--utf-8"], Coding.UTF_8)):
            plain = options_of(words)
            self.assertIs(plain and plain.coding, coding)

    def test_the_minutes(self) -> None:
        found = [options_of(["a", *words]) for words in ([], ["--minutes=0.5"])]
        self.assertEqual([each and each.minutes for each in found], [60.0, 0.5])
        for word in ("--minutes=", "--minutes=0", "--minutes=an hour"):
            self.assertRaises(ValueError, options_of, ["a", word])

    def test_wrong_words_are_left_to_the_program(self) -> None:
        for words in ([], ["--watch"], ["a", "b"], ["a", "--steps"], ["a", "--steps", "x"], ["a", "--nonsense"],
                      ["--watch=a"], ["--version"], ["--check", "a"]):
            self.assertIsNone(options_of(words), words)


class Views(unittest.TestCase):
    def test_a_difference_says_where_it_is(self) -> None:
        before = b"htstack 2\nbackground 1\nname |\ncard 2 1\nname |A\n"
        lines = diff(before, before.replace(b"|A", b"|\\8e"), MAC_ROMAN)
        self.assertEqual([lines[0], *lines[-2:]], ["@ card 2", "- name |A", "+ name |é"])

    def test_a_log_counts_the_lines_of_the_user(self) -> None:
        own = Entry(b".where", Answer([b"2"]), True)
        entries = [own, Entry(b"put 1", Answer([b"1"]), False), own, own,
                   Entry(b"put 2", Answer([b"", b"2"]), False),
                   Entry(b".undo to 2", Answer([]), False), Entry(b".undo to 105", Answer([], "refused", 1), False)]
        wanted = b"put 1\n> 1\nok\nput 2\n>\n> 2\nok\n.undo to 1\nok\n.undo to 99\nrefused 1\n"
        self.assertEqual(log(entries), wanted)


if __name__ == "__main__":
    unittest.main()
