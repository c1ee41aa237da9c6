"""Nothing is released but what was proved, and what is released is seen through where it isn't that."""

import hashlib
import json
import os
import unittest

from tree import ReleasedTest, TreeTest

PROGRAM = "release/card_cli"
RECORD = "release/card_cli.json"
BUILT = "crates/card_cli/out/card_cli"


class Releasing(TreeTest):
    """Who may release what."""

    def refused(self, why: str) -> None:
        """Sees that nothing is released, and for what reason."""
        made = self.run_in(["tools/release"])
        self.assertEqual(made.returncode, 1)
        self.assertIn(why, made.stdout)
        self.assertFalse(os.path.exists(self.at(PROGRAM)))

    def test_a_proved_program_is_released_as_it_is(self) -> None:
        self.release()
        self.assertEqual(self.text(PROGRAM), self.text(BUILT))
        self.assertEqual(self.text(RECORD), self.text("out/gate.json"))
        self.assertEqual(sorted(os.listdir(self.at("release"))), ["card_cli", "card_cli.json"])
        self.assertEqual(os.stat(self.at(PROGRAM)).st_mode & 0o777, 0o755)

    def test_nothing_is_released_before_a_proof(self) -> None:
        self.refused("there is no out/gate.json")
        self.run_in(["tools/build"])
        self.refused("there is no out/gate.json")

    def test_nothing_is_released_after_an_edit(self) -> None:
        self.prove()
        self.add("crates/low/src/lib.rt", " ")
        self.refused("out/gate.json is of others")

    def test_nothing_is_released_that_was_built_since(self) -> None:
        self.prove()
        self.add(BUILT, "#\n")
        self.refused("isn't the program that ./test has built")
        os.remove(self.at(BUILT))
        self.refused("can't be read")

    def test_words_that_it_does_not_know(self) -> None:
        self.assertEqual(self.run_in(["tools/release", "--all"]).returncode, 2)


class Looking(ReleasedTest):
    """What is seen of a release that isn't what it says."""

    def looks(self, check: int, compare: int, why: str = "") -> None:
        """Sees the statuses of both looks, and the reason that is told where one refuses."""
        for word, wanted in (("--check", check), ("--compare", compare)):
            looked = self.run_in(["tools/release", word])
            self.assertEqual((looked.returncode, looked.stderr), (wanted, ""), word + ": " + looked.stdout)
            self.assertEqual(looked.stdout.count("\n"), 1)
            if wanted:
                self.assertIn(why, looked.stdout)

    def forge(self, **more: str) -> None:
        """Changes what the record says."""
        self.put(RECORD, json.dumps({**json.loads(self.text(RECORD)), **more}))

    def test_a_release_as_it_was_made(self) -> None:
        self.looks(0, 0)
        self.assertIn("byte for byte", self.run_in(["tools/release", "--compare"]).stdout)

    def test_a_changed_byte(self) -> None:
        with open(self.at(PROGRAM), "r+b") as file:
            file.seek(12)
            file.write(b"~")
        self.looks(1, 1, "isn't the program that release/card_cli.json names")

    def test_a_changed_source(self) -> None:
        self.add("crates/low/src/lib.rt", " ")
        self.looks(1, 1, "other sources")

    def test_a_changed_source_with_a_new_proof(self) -> None:
        self.add("crates/low/src/lib.rt", " ")
        self.add("crates/card_cli/src/main.rt", "// more\n")
        tested = self.run_in(["./test"])
        self.assertEqual(tested.returncode, 1)
        self.assertIn("FAILED: tools/release --compare", tested.stdout)
        self.looks(1, 1, "other sources")

    def test_forged_sums(self) -> None:
        good = self.text(RECORD)
        for name in ("program", "sources"):
            with self.subTest(name=name):
                self.forge(**{name: "0" * 64})
                self.looks(1, 1)
                self.put(RECORD, good)
        self.looks(0, 0)

    def test_another_program_with_its_own_sum(self) -> None:
        self.add(PROGRAM, "# more\n")
        self.forge(program=hashlib.sha256(self.text(PROGRAM).encode()).hexdigest())
        # Only who has proved the sources sees this one.
        self.looks(0, 1, "isn't the program that was proved and built here")

    def test_a_release_of_old_sources_is_stale(self) -> None:
        old, record = self.text(PROGRAM), self.text(RECORD)
        self.add("crates/card_cli/src/main.rt", "// more\n")
        self.prove()
        self.looks(1, 1, "other sources")
        self.release()
        self.looks(0, 0)
        self.put(PROGRAM, old, 0o755)
        self.put(RECORD, record)
        self.looks(1, 1, "other sources")

    def test_another_kit_compares_nothing(self) -> None:
        looked = self.run_in(["tools/release", "--compare"], KIT="another kit")
        self.assertEqual((looked.returncode, looked.stdout.count("\n")), (0, 1))
        self.assertIn("nothing was compared", looked.stdout)

    def test_a_foreign_file(self) -> None:
        self.put("release/more", "x")
        self.looks(0, 1, "release/ holds what tools/release didn't put there: more")
        self.assertEqual(self.run_in(["tools/release"]).returncode, 1)

    def test_a_program_that_may_not_be_run(self) -> None:
        os.chmod(self.at(PROGRAM), 0o644)
        self.looks(1, 1)

    def test_a_program_of_another_system(self) -> None:
        with open(self.at(PROGRAM), "wb") as file:
            file.write(b"\x7fELF of another machine\n\0")
        with open(self.at(PROGRAM), "rb") as file:
            self.forge(program=hashlib.sha256(file.read()).hexdigest())
        self.looks(1, 1, "")
        self.assertIn("this system can't run", self.run_in(["tools/release", "--check"]).stdout)

    def test_no_release(self) -> None:
        os.remove(self.at(RECORD))
        self.looks(1, 1, "there is no release/card_cli.json")
        self.run_in(["tools/release"])
        os.remove(self.at(PROGRAM))
        self.looks(1, 1, "release/card_cli can't be read")


if __name__ == "__main__":
    unittest.main()
