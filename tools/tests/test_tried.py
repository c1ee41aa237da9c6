"""Trials and measures run the program that ./card would."""

import os
import subprocess
import sys
import unittest
from typing import List, Sequence
from unittest import mock

from tree import HERE

sys.path[:0] = [HERE, os.path.join(HERE, "tools")]

from front.program import KEPT_MEMORY, TUNABLES  # noqa: E402
from making import tried  # noqa: E402


class Tried(unittest.TestCase):
    """Which program is run, and what is built for it, where tools/release or tools/build end with a status."""

    def setUp(self) -> None:
        self.started: List[str] = []
        self.status = 0
        patched = mock.patch.object(subprocess, "run", self.start)
        patched.start()
        self.addCleanup(patched.stop)

    def start(self, words: Sequence[str], **_: object) -> "subprocess.CompletedProcess[bytes]":
        """Notes what is started, and ends it with the status that is due."""
        self.started.append(" ".join([os.path.basename(words[0]), *words[1:]]))
        return subprocess.CompletedProcess(words, self.status)

    def chosen(self, **variables: str) -> str:
        """The program, with these variables and no other."""
        with mock.patch.dict(os.environ, variables, clear=True):
            return tried.program()

    def test_it_is_started_as_card_starts_it(self) -> None:
        with mock.patch.dict(os.environ, {"CARD_CLI": "/x"}, clear=True):
            tried.made_ready("/x")
            self.assertEqual(os.environ[TUNABLES], KEPT_MEMORY)

    def built(self, path: str, **variables: str) -> int:
        """The status of making it ready."""
        with mock.patch.dict(os.environ, variables, clear=True):
            return tried.made_ready(path)

    def test_the_named_one_is_run_as_it_is(self) -> None:
        self.assertEqual(self.chosen(CARD_CLI="/else/card_cli"), "/else/card_cli")
        self.assertEqual(self.built("/else/card_cli", CARD_CLI="/else/card_cli"), 0)
        self.assertEqual(self.built(tried.BUILT, CARD_CLI=tried.BUILT), 0)
        self.assertEqual(self.started, [])

    def test_the_released_one_needs_no_build_where_it_is_of_the_sources(self) -> None:
        self.assertEqual(self.chosen(), tried.RELEASED)
        self.assertEqual(self.built(tried.RELEASED), 0)
        self.assertEqual(self.started, ["release --check"])

    def test_another_is_built_first(self) -> None:
        self.status = 1
        self.assertEqual(self.chosen(), tried.BUILT)
        self.assertEqual(self.built(tried.BUILT), 1)
        self.assertEqual(self.started, ["release --check", "build"])


if __name__ == "__main__":
    unittest.main()
