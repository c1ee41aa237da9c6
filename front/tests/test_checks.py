"""Tests of what is read of `--check`, and of the check itself."""

import unittest

from front.checks import NotChecked, check, remarks
from front.stack_text import read, write
from front.tests.support import DEMO, bytes_of, there

SAID = """\
card button "Go, (id 9), line 2" (id 5), line 3, column 7: not in the grammar
    put ( 3
          ^
  there stands `3`
stack "Home" (id 0), line 1: nothing handles beeep
""".splitlines()


class Checks(unittest.TestCase):
    def test_remarks_are_read_with_what_stands_below_them(self) -> None:
        error, hint = remarks(SAID)
        self.assertEqual(error.object, 'card button "Go, (id 9), line 2"')
        self.assertEqual((error.id, error.line, error.column), (5, 3, 7))
        self.assertEqual((error.words, error.is_error, len(error.shown)), ("not in the grammar", True, 3))
        self.assertEqual((hint.object, hint.id, hint.line, hint.is_error), ('stack "Home"', 0, 1, False))
        self.assertEqual(error.text() + hint.text(), SAID)

    def test_a_stack_whose_scripts_read_has_no_errors(self) -> None:
        self.assertEqual(check(bytes_of(there(DEMO))), [])

    def test_the_program_tells_of_scripts_that_do_not_read(self) -> None:
        stack = read(bytes_of(there(DEMO)))
        stack.script = b"on a\r  put 1\rend a\ron b\r  nothingDoesThis\rend b"
        stack.cards[1].script = b"on c\r  put (\rend c"
        found = {(each.id, each.line, each.is_error) for each in check(write(stack))}
        self.assertEqual(found, {(4, 2, True), (0, 5, False)})

    def test_a_text_that_is_no_stack_is_not_checked(self) -> None:
        self.assertRaises(NotChecked, check, b"htstack 3\n")


if __name__ == "__main__":
    unittest.main()
