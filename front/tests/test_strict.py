"""The status by which `--strict` tells whether each line ended well."""

import os
import subprocess
import sys
import unittest
from typing import Tuple

from front import program
from front.tests.support import FolderTest, there


class Strict(FolderTest):
    def ran(self, given: bytes, *words: str) -> Tuple[int, bytes]:
        """The status and the answers of a run on the demo stack."""
        said = [sys.executable, "-B", there(os.path.join("front", "strict.py")), program.path(), self.put_demo(), *words]
        done = subprocess.run(said, input=given, stdout=subprocess.PIPE, stderr=subprocess.PIPE, timeout=60, check=False)
        return done.returncode, done.stdout

    def test_each_line_ends_well(self) -> None:
        self.assertEqual(self.ran(b'put "fault 4"\nput 2\n.quit\nput (\n'), (0, b"> fault 4\nok\n> 2\nok\nok\n"))

    def test_a_line_faults(self) -> None:
        self.assertEqual(self.ran(b'put 1\nput "x" + 1\nput 2\n'), (3, b"> 1\nok\nfault 4\n> 2\nok\n"))

    def test_a_line_is_refused(self) -> None:
        self.assertEqual(self.ran(b".undo\n"), (3, b"refused 1\n"))

    def test_a_long_answer(self) -> None:
        shows = b'do "repeat 9000" & return & "put 1234567890" & return & "end repeat"\n'
        self.assertEqual(self.ran(shows), (0, b"> 1234567890\n" * 9000 + b"ok\n"))
        self.assertEqual(self.ran(shows + b"beep\n")[0], 3)

    def test_words_that_are_wrong(self) -> None:
        self.assertEqual(self.ran(b"beep\n", "--steps", "0"), (2, b""))

    def test_a_program_that_is_missing(self) -> None:
        said = [sys.executable, "-B", there(os.path.join("front", "strict.py")), os.path.join(self.folder, "none")]
        done = subprocess.run(said, stdin=subprocess.DEVNULL, stderr=subprocess.PIPE, timeout=60, check=False)
        self.assertEqual((done.returncode, done.stderr[:8]), (127, b"strict: "))


if __name__ == "__main__":
    unittest.main()
