"""How lines that are too long are broken."""

import os
import sys
import unittest

from tree import HERE

sys.path.insert(0, os.path.join(HERE, "tools", "meaning"))

from lines import MOST, fitted  # noqa: E402


class Lines(unittest.TestCase):
    """Lines of each kind."""

    def broken(self, line: str) -> str:
        """What a line becomes: none is too long, and the words are the same."""
        found = fitted(line)
        self.assertEqual([each for each in found.split("\n") if len(each) > MOST], [])
        self.assertEqual(found.split(), line.split())
        return found

    def test_a_short_line_stays(self) -> None:
        line = "x" * MOST
        self.assertEqual(fitted(line), line)

    def test_before_an_arrow_outside_of_brackets(self) -> None:
        first, last = "  law : " + "a b (c → d) " * 6, "→ " + "e f " * 12 + "g"
        self.assertEqual(self.broken(first + last), first.rstrip() + "\n      " + last)

    def test_behind_a_sign_of_equality(self) -> None:
        self.assertEqual(self.broken("a_longer_name x y = " + "a " * 55 + "b"), "a_longer_name x y =\n    " + "a " * 55 + "b")

    def test_where_few_brackets_are_open(self) -> None:
        self.assertEqual(self.broken("head " * 12 + "(" + "aa " * 30 + "a)"), "head " * 11 + "head\n    (" + "aa " * 30 + "a)")

    def test_imports(self) -> None:
        names = ["name_%d" % n for n in range(20)]
        found = fitted("use A.B.{%s}" % ", ".join(names)).split("\n")
        self.assertTrue(all(line.startswith("use A.B.{") and line.endswith("}") for line in found))
        self.assertEqual([name for line in found for name in line[9:-1].split(", ")], names)

    def test_comments(self) -> None:
        line = "  -- " + "word " * 40 + "end"
        found = fitted(line).split("\n")
        self.assertEqual(" ".join(each[5:] for each in found), line[5:])
        self.assertTrue(all(each.startswith("  -- ") and len(each) <= MOST for each in found))


if __name__ == "__main__":
    unittest.main()
