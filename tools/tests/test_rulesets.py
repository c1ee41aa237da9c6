"""Which rulesets are written: those that a file of the crates names."""

import glob
import os
import re
import sys
import unittest
from typing import Set

from tree import HERE

sys.path.insert(0, os.path.join(HERE, "tools", "meaning"))

from gen import named, named_in, rulesets  # noqa: E402
from table import families  # noqa: E402


def text_of(path: str) -> str:
    """The text of a file."""
    with open(path, encoding="utf-8") as file:
        return file.read()


class Named(unittest.TestCase):
    """Which rulesets a text names."""

    def test_in_a_program(self) -> None:
        text = "#[tactic(auto, using(meaning::proofs::Rules::val_rules, crate::proofs::Rules::step_rules))]\n"
        self.assertEqual(named_in(text), {"val_rules", "step_rules"})

    def test_in_an_import(self) -> None:
        text = "use Rattle.meaning.proofs.Rules.{val_rules,\n    step_rules}\n"
        self.assertEqual(named_in(text), {"val_rules", "step_rules"})

    def test_of_another_module(self) -> None:
        text = "using(crate::proofs::Blocks::while_rules)\npub ruleset val_rules = (Val.call)\n"
        self.assertEqual(named_in(text), set())


class Rulesets(unittest.TestCase):
    """The file of rulesets."""

    def test_only_those_named(self) -> None:
        head, *sets = rulesets(families(), {"step_rules", "val_paren_rules", "none_rules"}).split("\n\n")
        uses = ["use Rattle.meaning.specs.State.{Step}", "use Rattle.meaning.specs.Meaning.{Val}"]
        self.assertEqual(head.split("\n")[1:], uses)
        self.assertEqual(sets, ["pub ruleset step_rules = (Step.taken, Step.none_left)",
                                "pub ruleset val_paren_rules = (Val.memory, Val.paren)\n"])

    def test_the_crates(self) -> None:
        stand = set(re.findall(r"^pub ruleset (\w+) ", rulesets(families(), named()), flags=re.M))
        asked: Set[str] = set()
        for path in glob.glob(os.path.join(HERE, "crates", "*", "src", "**", "*.rt"), recursive=True):
            asked.update(re.findall(r"meaning::proofs::Rules::(\w+)", text_of(path)))
        self.assertGreater(len(asked), 50)
        self.assertEqual(asked - stand, set())
        self.assertIn("step_rules", stand)


if __name__ == "__main__":
    unittest.main()
