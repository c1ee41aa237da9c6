"""What the page of rules shows, folds and refuses."""

import os
import re
import sys
import unittest

from tree import HERE

sys.path.insert(0, os.path.join(HERE, "tools", "meaning"))

import manual  # noqa: E402
from rules import Reader  # noqa: E402
from table import TYPES, read, table, variables  # noqa: E402

ALL = read("manual.md")
RULES = read("meaning.rules")


class Folded(unittest.TestCase):
    """Which rules are only named."""

    @classmethod
    def setUpClass(cls) -> None:
        cls.folded = {rule.name: manual.is_folded(rule, family) for family in manual.by_name(table()).values()
                      for rule in family.rules}

    def test_out_of_memory(self) -> None:
        self.assertTrue(self.folded["memory"])
        self.assertTrue(self.folded["counts_memory"])

    def test_a_part_that_stops(self) -> None:
        for name in ("up_stops", "put_fails", "along_stops", "block_no_step", "do_syntax"):
            self.assertTrue(self.folded[name], name)

    def test_what_says_more(self) -> None:
        for name in ("there_stops", "set_run_fails", "go_gone", "delete_refused", "paren", "exit_to_hypercard"):
            self.assertFalse(self.folded[name], name)

    def test_another_state_is_no_handing_on(self) -> None:
        part, end = "Val w r f d e (Ok v) w1 r1", "=> Form w r f d s (Ok Next) w1 r1 f"
        whole = manual.Rule("whole", [part], end)
        for state, is_folded in (("w1 r1", True), ("w r1", False), ("w1 r", False)):
            cut = manual.Rule("cut", ["Val w r f d e (Err z) w1 r1"], "Form w r f d s (Err z) %s f" % state)
            family = manual.Family("Form", [], "", [whole, cut], {})
            self.assertEqual(manual.is_folded(cut, family), is_folded, state)

    def test_a_stop_that_no_other_rule_has_is_shown(self) -> None:
        cut = manual.Rule("cut", ["Val w r f d e (Err z) w1 r1"], "Form w r f d s (Err z) w1 r1 f")
        self.assertFalse(manual.is_folded(cut, manual.Family("Form", [], "", [cut], {})))


class Pages(unittest.TestCase):
    """The page, and what it refuses."""

    def refused(self, old: str, new: str) -> str:
        """What is wrong with the page where its words are changed so."""
        self.assertIn(old, ALL)
        with self.assertRaises(manual.Wrong) as wrong:
            manual.Manual(ALL.replace(old, new, 1), table()).page()
        return str(wrong.exception)

    def refused_by_rules(self, old: str, new: str) -> str:
        """What is wrong with the page where the table of rules is changed so."""
        self.assertIn(old, RULES)
        with self.assertRaises(manual.Wrong) as wrong:
            manual.Manual(ALL, Reader(TYPES, variables).read(RULES.replace(old, new, 1))).page()
        return str(wrong.exception)

    def test_a_form_has_all_of_its_parts(self) -> None:
        page = manual.Manual(ALL, table()).page()
        part = page[page.index("### repeat with\n"):page.index("### exit repeat")]
        for each in ("`with NAME = Expr [down] to Expr`", "Bounds w r f d e e1 false (Ok co) w1 r1",
                     "Folded: `up_stops`, `down_stops`.", "`stepped`: ", "Row: [numbers_of_repeats](../crates/rows/data/numbers_of_repeats.row)"):
            self.assertIn(each, part)

    def test_each_link_leads_somewhere(self) -> None:
        page = manual.Manual(ALL, table()).page()
        anchors = [manual.anchor(heading) for _, heading in manual.HEADING.findall(page)]
        self.assertEqual(len(set(anchors)), len(anchors))
        self.assertLessEqual(set(re.findall(r"\(#([^)]*)\)", page)), set(anchors))
        self.assertEqual(manual.lost_links(page), [])

    def test_each_statement_has_a_link(self) -> None:
        language = manual.text_of(manual.LANGUAGE)
        part = language[language.index("## Statements\n"):language.index("## Handlers\n")]
        forms = [line for line in part.splitlines() if line.startswith("| ") and not line.startswith("| Statement ")]
        self.assertGreaterEqual(len(forms), 20)
        for form in forms:
            self.assertRegex(form, r"^\| \[`[^`]*`\]\(MEANING\.md#[a-z-]+\)")

    def test_each_rule_is_told_once(self) -> None:
        self.assertIn("the rule get_stops is told 0 times", self.refused("@ rules Form: get\n", ""))
        self.assertIn("the rule get_stops is told 2 times", self.refused("@ rules Form: get\n", 2 * "@ rules Form: get\n"))

    def test_what_is_named_has_to_be_there(self) -> None:
        self.assertIn("no row nowhere", self.refused("@ row numbers_of_repeats ", "@ row nowhere "))
        self.assertIn("hasn't the text", self.refused("| get say(6)", "| get say(66)"))
        self.assertIn("no line get Exp", self.refused_by_rules("> get: get Expr", "> get: get Exp"))
        self.assertIn("no line of the grammar for get", self.refused_by_rules("> get: ", "> gets: "))
        self.assertIn("no heading has the lines of the grammar for get", self.refused("### get\n\n@ grammar\n", "### get\n\n"))
        self.assertIn("has no form gets", self.refused("@ rules Form: get", "@ rules Form: gets"))
        self.assertIn("missing: Bound, Bounds", self.refused("@ rules Bounds", "@ rules Bound"))
        self.assertIn("no lines of the kind row_", self.refused("@ row constants", "@ row_ constants"))

    def test_the_legend_is_whole(self) -> None:
        self.assertIn("the legend lacks d", self.refused_by_rules("@ d: ", "@ k: "))
        self.assertIn("no variable is called dd", self.refused_by_rules("@ d: ", "@ d dd: "))
        self.assertIn("words are wanted of stepped", self.refused("@ word stepped: ", "Stepped: "))


class Grammar(unittest.TestCase):
    """Lines of the printed grammar."""

    def test_alternatives(self) -> None:
        self.assertEqual(manual.alternatives("a (b | c) | d, e"), ["a (b | c) | d, e", "a (b | c)", "d", "e"])

    def test_anchors(self) -> None:
        self.assertEqual([manual.anchor(each) for each in (".open", "exit, pass, return", "the f of E")],
                         ["open", "exit-pass-return", "the-f-of-e"])


if __name__ == "__main__":
    unittest.main()
