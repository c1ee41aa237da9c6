"""What ./test counts, when it goes on, and which record it leaves."""

import json
import os
import unittest
from typing import List

from tree import CHECKS, KIT, LATER, TreeTest

GATE = "out/gate.json"


class Gates(TreeTest):
    """Runs of ./test in a tree."""

    def setUp(self) -> None:
        super().setUp()
        self.put_gate()
        # The cheap steps, as ./test has them, without the tests of this folder.
        self.steps = len(CHECKS) + 1

    def gate(self, status: int, **more: str) -> List[str]:
        """Runs ./test, sees the status, and gives the lines."""
        ran = self.run_in(["./test"], **more)
        self.assertEqual(ran.returncode, status, ran.stdout + ran.stderr)
        return ran.stdout.splitlines()

    def test_a_first_run_lacks_only_the_release(self) -> None:
        lines = self.gate(1)
        self.assertEqual(lines[-1], "%d passed, 1 failed" % (self.steps + 2 + LATER))
        self.assertIn("FAILED: tools/release --compare ended with 1", lines)
        self.assertEqual(json.loads(self.text(GATE))["kit"], KIT)

    def test_a_run_over_a_release_passes(self) -> None:
        self.gate(1)
        self.run_in(["tools/release"])
        lines = self.gate(0)
        self.assertEqual(lines[-1], "%d passed, 0 failed" % (self.steps + 3 + LATER))
        self.assertTrue(any("byte for byte" in line for line in lines))
        self.assertIn("rt: low is kept: an earlier run", lines)

    def test_a_stale_release_fails(self) -> None:
        self.release()
        self.add("crates/low/src/lib.rt", "// more\n")
        self.assertEqual(self.gate(1)[-1], "%d passed, 1 failed" % (self.steps + 2 + LATER))

    def test_another_kit_passes_with_a_line(self) -> None:
        self.release()
        lines = self.gate(0, KIT="another kit")
        self.assertTrue(any("here is another kit: nothing was compared" in line for line in lines))
        self.assertEqual(json.loads(self.text(GATE))["kit"], "another kit")

    def test_a_cheap_check_that_fails_ends_the_run(self) -> None:
        self.put("tools/pages", "#!/bin/sh\necho wrong page\nexit 1\n", 0o755)
        lines = self.gate(1)
        self.assertEqual(lines[-1], "%d passed, 1 failed" % (self.steps - 1))
        self.assertIn("wrong page", lines)
        self.assertEqual(self.called(), [])

    def test_a_check_that_is_not_there_fails(self) -> None:
        os.remove(self.at("tools/definitions"))
        self.assertEqual(self.gate(1)[-1], "%d passed, 1 failed" % (self.steps - 1))

    def test_a_failed_proof_leaves_no_record(self) -> None:
        self.release()
        lines = self.gate(1, FAILS="yes")
        self.assertEqual(lines[-1], "%d passed, 1 failed" % (self.steps + 1))
        self.assertIn("rt: FAILED: low", lines)
        self.assertFalse(os.path.exists(self.at(GATE)))
        self.assertNotIn("== tools/release --compare", lines)

    def test_what_rt_says_last_is_believed_only_as_counts(self) -> None:
        for says in ("2 passed, 1 failed", "all is well", "2 passed, 0 failed, or so"):
            with self.subTest(says=says):
                self.assertRegex(self.gate(1, SAYS=says)[-1], r"^\d+ passed, 1 failed$")
                self.assertFalse(os.path.exists(self.at(GATE)))

    def test_a_source_that_changes_meanwhile_fails(self) -> None:
        lines = self.gate(1, EDIT=self.at("crates/middle/src/lib.rt"))
        self.assertEqual(lines[-1], "%d passed, 2 failed" % (self.steps + 2 + LATER))
        self.assertFalse(os.path.exists(self.at(GATE)))

    def test_no_kit(self) -> None:
        os.remove(self.at("../bin/rt"))
        self.put("../bin/rt", "#!/bin/sh\nexit 127\n", 0o755)
        self.assertEqual(self.gate(1)[-1], "%d passed, 1 failed" % self.steps)

    def test_the_steps_get_the_program(self) -> None:
        self.put("tools/release", '#!/bin/sh\necho "program $CARD_CLI"\n', 0o755)
        self.assertIn("program " + self.at("crates/card_cli/out/card_cli"), self.gate(0))

    def test_words(self) -> None:
        self.assertEqual(self.run_in(["./test", "more"]).returncode, 2)


if __name__ == "__main__":
    unittest.main()
