"""What ./trial and ./stress do where there is no program, and the parts of ./trial that need none."""

import os
import subprocess
import sys
import unittest
from typing import List

from tree import HERE

sys.path[:0] = [HERE, os.path.join(HERE, "tools")]
from trials import saving, sizes, statuses  # noqa: E402
from trials.place import OLD  # noqa: E402


class WithoutAProgram(unittest.TestCase):
    """Nothing is skipped."""

    def run_with(self, tool: str, *words: str) -> "subprocess.CompletedProcess[str]":
        """A run of a tool with a program that isn't there."""
        env = dict(os.environ, CARD_CLI=os.path.join(HERE, "no program"))
        return subprocess.run([os.path.join(HERE, tool), *words], env=env, stdin=subprocess.DEVNULL,
                              stdout=subprocess.PIPE, stderr=subprocess.PIPE, universal_newlines=True, check=False)

    def test_a_tool_fails(self) -> None:
        for tool in ("trial", "stress", "speed"):
            with self.subTest(tool):
                ran = self.run_with(tool)
                self.assertEqual((ran.returncode, ran.stdout), (1, ""))
                self.assertEqual(ran.stderr, "%s: there is no program %s/no program\n" % (tool, HERE))

    def test_words(self) -> None:
        for tool in ("trial", "stress", "speed", "tools/needs"):
            self.assertEqual(self.run_with(tool, "more").returncode, 2)


class Cases(unittest.TestCase):
    """The cases, and what they compare."""

    def test_each_case_has_a_name_of_its_own(self) -> None:
        # Each has a folder of that name.
        names: List[str] = [case.__name__ for case in saving.CASES + sizes.CASES + statuses.CASES]
        self.assertEqual(len(names), len(set(names)))

    def test_the_first_line_counts(self) -> None:
        self.assertEqual(statuses.first_line((1, "", "a\n  b\n    c\n")), (1, "", "a\n"))
        self.assertEqual(statuses.first_line((1, "", "a\nb\n")), (1, "", "a\nb\n"))
        self.assertEqual(statuses.first_line((0, "x", "")), (0, "x", ""))

    def test_each_edit_of_a_stack_changes_it(self) -> None:
        for edit, _ in statuses.WRONG_STACKS:
            self.assertNotEqual(edit(OLD), OLD)

    def test_texts_of_the_large_stack(self) -> None:
        texts = sizes.wanted_texts()
        self.assertEqual((len(texts), texts[0], texts[2][:2], texts[-1]), (sizes.CARDS + 2, b"", b"2\0", b""))
        self.assertLessEqual(max(map(len, texts)), sizes.MOST_TEXT)


if __name__ == "__main__":
    unittest.main()
