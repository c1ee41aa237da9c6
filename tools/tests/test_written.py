"""That each file which a tool writes says so in its first line."""

import glob
import os
import re
import unittest
from typing import List

from tree import HERE

WRITTEN = re.compile(r"(?:-- |<!-- )Written by (tools/\S+) from (\S+?)[.,]?\s")
PAGES = ("DEFINITIONS", "INVARIANTS", "MEANING")
RULES = ("meaning/specs/Meaning", "meaning/proofs/Rules", "preservation/specs/Replaced", "preservation/proofs/Bases",
         "preservation/proofs/Rises", "preservation/proofs/Runs", "preservation/proofs/Wholes",
         "whole_states/proofs/Sound", "definitional_interpreter/specs/Families",
         "definitional_interpreter/specs/Meanings", "definitional_interpreter/proofs/Outcomes")


def first_line(path: str) -> str:
    """The first line of a file of the repository."""
    with open(os.path.join(HERE, path), encoding="utf-8") as file:
        return file.readline()


class Written(unittest.TestCase):
    """First lines."""

    def check(self, paths: List[str]) -> None:
        """Sees that the first line of each names a tool that there is, and what it reads."""
        for path in paths:
            with self.subTest(path=path):
                found = WRITTEN.match(first_line(path))
                self.assertIsNotNone(found)
                assert found is not None
                self.assertTrue(os.path.exists(os.path.join(HERE, found[1])))
                self.assertTrue(glob.glob(os.path.join(HERE, found[2])))

    def test_pages(self) -> None:
        self.check(["docs/%s.md" % name for name in PAGES])

    def test_rules_and_laws(self) -> None:
        self.check(["crates/%s.antt" % name for name in RULES])

    def test_rows_of_pages(self) -> None:
        rows = glob.glob(os.path.join(HERE, "crates", "rows", "data", "page_*.row"))
        self.assertTrue(rows)
        for row in rows:
            self.assertRegex(first_line(row), r"^page: \S+(?:, run \d+)?; tools/pages writes this row from it$")

    def test_no_definition_says_it(self) -> None:
        with open(os.path.join(HERE, "docs", "DEFINITIONS.md"), encoding="utf-8") as page:
            page.readline()
            self.assertNotIn("Written by tools/", page.read())


if __name__ == "__main__":
    unittest.main()
