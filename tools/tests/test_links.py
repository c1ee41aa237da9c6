"""That the links of the pages lead somewhere, and what CONTRIBUTING.md says of files and crates is so."""

import glob
import os
import re
import sys
import unittest
from typing import Dict, List, Set

from tree import HERE

sys.path[:0] = [os.path.join(HERE, "tools"), os.path.join(HERE, "tools", "meaning")]

from making import sums  # noqa: E402
from manual import anchor  # noqa: E402

LINK = re.compile(r"\]\(([^)\s]+)\)")
FENCED = re.compile(r"^(`{3,}|~{3,}).*?^\1$", re.MULTILINE | re.DOTALL)
FOLDERS = ("crates/", "tools/", "front/", "docs/", "migrate/")
ABOVE = re.compile(r"`(\w+)` and above, (\d+) crates")


def pages() -> List[str]:
    """The pages, by their paths in the repository."""
    found = glob.glob(os.path.join(HERE, "*.md")) + glob.glob(os.path.join(HERE, "docs", "*.md"))
    return sorted(os.path.relpath(path, HERE) for path in found)


def text_of(path: str) -> str:
    """The text of a page, without what stands in fenced blocks."""
    with open(os.path.join(HERE, path), encoding="utf-8", newline="") as file:
        return FENCED.sub("", file.read())


def anchors(path: str) -> Set[str]:
    """The anchors of a page's headings."""
    headings = re.findall(r"^#+ (.+)$", text_of(path), re.MULTILINE)
    return {anchor(re.sub(r"\[([^]]*)\]\([^)]*\)", r"\1", heading)) for heading in headings}


def above(uses: Dict[str, List[str]], crate: str) -> Set[str]:
    """A crate and all that stand on it."""
    found = {crate}
    while True:
        more = {each for each in uses if each not in found and found & set(uses[each])}
        if not more:
            return found
        found |= more


class Links(unittest.TestCase):
    """Links of pages."""

    def test_each_leads_somewhere(self) -> None:
        for page in pages():
            for link in LINK.findall(text_of(page)):
                if "://" in link:
                    continue
                path, _, part = link.partition("#")
                path = os.path.normpath(os.path.join(os.path.dirname(page), path)) if path else page
                with self.subTest(page=page, link=link):
                    self.assertTrue(os.path.exists(os.path.join(HERE, path)))
                    if part:
                        self.assertIn(part, anchors(path))


class Recipes(unittest.TestCase):
    """CONTRIBUTING.md."""

    def setUp(self) -> None:
        self.text = text_of("CONTRIBUTING.md")

    def test_each_path_is_there(self) -> None:
        for path in re.findall(r"`([^`\s]+)`", self.text):
            if path.startswith(FOLDERS) and "NAME" not in path:
                with self.subTest(path=path):
                    self.assertTrue(glob.glob(os.path.join(HERE, path)))

    def test_crates_that_are_proved_again(self) -> None:
        uses = sums.dependencies(HERE)
        told = ABOVE.findall(self.text)
        self.assertGreaterEqual(len(told), 4)
        for crate, count in told:
            self.assertEqual(len(above(uses, crate)), int(count), crate)
        self.assertIn("the number of crates of %d" % len(uses), self.text)
        self.assertIn("all %d crates" % len(uses), self.text)


if __name__ == "__main__":
    unittest.main()
