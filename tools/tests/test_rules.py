"""What the table of rules leaves out, and what is wrong with a line of it."""

import os
import sys
import unittest
from typing import List, Tuple

from tree import HERE

sys.path.insert(0, os.path.join(HERE, "tools", "meaning"))

from rules import BadTable, Reader, Table  # noqa: E402
from table import TYPES, table, variables  # noqa: E402

PUT = """# Form w r f d s oh w r f | form_memory | How a statement ends.
put: Val w r f d e (Ok v) w1 r1 ! put_stops ; Edits w1 f v (Ok tt) w2 f1 ! put_fails => Form w r f d s (Ok Next) w2 r1 f1
"""
CHOICE = """# Form w r f d s oh w r f | How a statement ends.
s ≡ stm.when e ss ss1 ; TruthVal w r f d e (Ok b) w1 r1 ! if_stops ..
  b ≡ true ..
    if_true: Block w1 r1 f d ss oh w2 r2 f1 => Form w r f d s oh w2 r2 f1
  if_false: b ≡ false => Form w r f d s (Ok Next) w1 r1 f
exit: => Form w r f d s (Ok Exit) w r f
"""


def read(text: str) -> Table:
    """The table of a text."""
    return Reader(TYPES, variables).read(text)


def rules(text: str) -> List[Tuple[str, List[str], str]]:
    """The rules of a text's first family."""
    return [tuple(rule) for rule in read(text).families[0].rules]  # type: ignore[misc]


class WrittenOut(unittest.TestCase):
    """What is written out."""

    def test_each_stop_of_a_part(self) -> None:
        value, edit = "Val w r f d e (Ok v) w1 r1", "Edits w1 f v (Ok tt) w2 f1"
        self.assertEqual(rules(PUT), [
            ("form_memory", [], "Form w r f d s (Err Memory) w1 r1 f1"),
            ("put_stops", ["Val w r f d e (Err z) w1 r1"], "Form w r f d s (Err z) w1 r1 f"),
            ("put_fails", [value, "Edits w1 f v (Err z) w2 f1"], "Form w r f d s (Err z) w2 r1 f1"),
            ("put", [value, edit], "Form w r f d s (Ok Next) w2 r1 f1")])

    def test_parts_that_rules_share(self) -> None:
        form, test = "s ≡ stm.when e ss ss1", "TruthVal w r f d e (Ok b) w1 r1"
        self.assertEqual(rules(CHOICE), [
            ("if_stops", [form, "TruthVal w r f d e (Err z) w1 r1"], "Form w r f d s (Err z) w1 r1 f"),
            ("if_true", [form, test, "b ≡ true", "Block w1 r1 f d ss oh w2 r2 f1"], "Form w r f d s oh w2 r2 f1"),
            ("if_false", [form, test, "b ≡ false"], "Form w r f d s (Ok Next) w1 r1 f"),
            ("exit", [], "Form w r f d s (Ok Exit) w r f")])

    def test_a_letter_that_comes_twice(self) -> None:
        found = rules("# Bounds w r f d e e b oco w r | bounds_memory | The bounds.\n")
        self.assertEqual(found, [("bounds_memory", [], "Bounds w r f d e e1 b (Err Memory) w1 r1")])

    def test_heads_letters_and_lines_of_the_grammar(self) -> None:
        found = read("-- words\n@ w: the history\n== statements\n> put: put Expr\n" + PUT)
        self.assertEqual((found.letters, found.grammar), ([("w", "the history")], {"put": ["put Expr"]}))
        self.assertEqual([(each.section, each.block, each.words) for each in found.families],
                         [("statements", 1, "How a statement ends.")])

    def test_the_whole_table(self) -> None:
        found = [rule for family in table().families for rule in family.rules]
        self.assertEqual(len({rule.name for rule in found}), len(found))
        with open(os.path.join(HERE, "tools", "meaning", "meaning.rules"), encoding="utf-8") as file:
            stand = [line for line in file if " => " in line and not line.startswith("--")]
        self.assertLess(len(stand), 180)
        self.assertGreater(len(found), 300)


class Refused(unittest.TestCase):
    """What is wrong with a line."""

    def test_lines(self) -> None:
        for line, told in (
                ("Form w r f d s\n", "line 3: this is no rule"),
                ("exit: => Val w r f d e o w r\n", "line 3: it is a rule of another family"),
                ("put: => Form w r f d s (Ok Next) w r f\n", "line 3: two rules are called put"),
                ("go: w ≡ w1 ! go_stops => Form w r f d s (Ok Next) w r f\n", "line 3: no one end of this part stops"),
                ("# Form w r f d s oh\n", "line 3: this is no head of a family"),
                ("# None w r | none_memory | Nothing.\n", "line 3: None has no outcome")):
            with self.assertRaises(BadTable) as wrong:
                read(PUT + line)
            self.assertIn(told, str(wrong.exception))


if __name__ == "__main__":
    unittest.main()
