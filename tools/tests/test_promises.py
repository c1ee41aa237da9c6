"""How what a crate promises is read from its root file and written into the page."""

import importlib.machinery
import importlib.util
import os
import unittest

from tree import HERE

PATH = os.path.join(HERE, "tools", "promises")
LOADER = importlib.machinery.SourceFileLoader("promises", PATH)
SPEC = importlib.util.spec_from_loader("promises", LOADER)
assert SPEC is not None
promises = importlib.util.module_from_spec(SPEC)
LOADER.exec_module(promises)

TEXT = """//! Words of a line,
//! and no more.
//!
//! - They are cut exactly
//!   (`cut_words`).
//! - Only tested: the rest.
#![tactic(auto)]
"""
ROOT = promises.Root("words", "Words of a line, and no more.",
                     ["They are cut exactly (`cut_words`).", "Only tested: the rest."])


class Promises(unittest.TestCase):
    """Root files and the page."""

    def test_a_root_file_is_read(self) -> None:
        self.assertEqual(promises.root_of("words", TEXT), ROOT)

    def test_the_page_has_a_crate_below_its_layer(self) -> None:
        lines = promises.written([("Low", [ROOT])]).split("\n")
        self.assertEqual(lines[-7:], ["", "### Low", "", "- **`words`.** Words of a line, and no more.",
                                     "  - They are cut exactly (`cut_words`).", "  - Only tested: the rest.", ""])

    def test_layers_are_those_of_the_list(self) -> None:
        self.assertEqual(promises.layers("# About.\n\n# low\na:\nb: a\n\n# high\nc: a\n"), [("Low", ["a", "b"]), ("High", ["c"])])

    def test_what_is_wrong_is_told(self) -> None:
        self.assertEqual(promises.faults_of(ROOT, {"cut_words"}), [])
        self.assertEqual(promises.faults_of(ROOT, set()), ["words names cut_words, which no source has"])
        empty = promises.root_of("words", "//! Words.\n")
        self.assertEqual(promises.faults_of(empty, set()), ["words doesn't say what it is and what it promises"])
        long = ROOT._replace(promises=["a" * 401])
        self.assertEqual(len(promises.faults_of(long, set())), 1)


if __name__ == "__main__":
    unittest.main()
