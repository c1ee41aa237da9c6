"""What tools/build does where the program stands, where nothing is kept, and where earlier work is."""

import json
import os
import signal
import subprocess
import sys
import time
import unittest
from typing import List

from tree import HERE, KIT, TreeTest

sys.path.insert(0, os.path.join(HERE, "tools"))

from making import anew, lanes  # noqa: E402
from making.progress import slots  # noqa: E402

BUILT = "crates/card_cli/out/card_cli"
RECORD = BUILT + ".json"
# All crates stand on the longest way, so one call proves them.
ALL = ["tree ci"]
# With some cores the lowest crate, which has nothing beside it, is asked for alone, and so is a crate off the way.
BESIDE = ["tree ci low", "tree ci middle", "tree ci side", "tree ci"] if slots() >= lanes.LEAST_CORES else ALL


class Building(TreeTest):
    """Builds in a tree."""

    def build(self, wanted: int = 0, *words: str, **more: str) -> str:
        """Builds, sees the status, and gives what was said."""
        made = self.run_in(["tools/build", *words], **more)
        self.assertEqual((made.returncode, made.stdout), (wanted, ""), made.stderr)
        return made.stderr

    def test_from_nothing_by_the_gate(self) -> None:
        said = self.build()
        self.assertEqual(self.called(), ALL)
        self.assertIn("from nothing, 3 crates", said)
        self.assertIn("card_cli is proved and built", said)
        self.assertIn("fn main", self.text(BUILT))
        self.assertEqual(json.loads(self.text(RECORD))["kit"], KIT)

    def test_crates_off_the_way_are_proved_beside_it(self) -> None:
        self.put("crates.txt", "low: itoa\nmiddle: low\nside: low\ncard_cli: middle side clap\n")
        self.put("crates/side/src/lib.rt", "//\n")
        self.assertIn("from nothing, 4 crates", self.build(UNTIL="ci middle"))
        called = self.called()
        self.assertEqual((called[0], sorted(called)), (BESIDE[0], sorted(BESIDE)))

    def test_a_gate_that_takes_no_name_proves_all_at_once(self) -> None:
        self.put("crates.txt", "low: itoa\nmiddle: low\nside: low\ncard_cli: middle side clap\n")
        self.put("crates/side/src/lib.rt", "//\n")
        self.assertIn("card_cli is proved and built", self.build(NAMELESS="yes"))
        called = self.called()
        self.assertEqual((called[0], called[-1]), (BESIDE[0], "tree ci"))
        self.assertNotIn("usage", self.text("out/build/gate.log"))

    def test_the_gate_sees_the_programs_crates_alone(self) -> None:
        self.build()
        with open(self.calls + ".tree", encoding="utf-8") as file:
            seen = sorted(file.read().split())
        self.assertEqual(seen, sorted("./" + path for path in (
            "HANDLES", "crates.txt", "crates/card_cli/args", "crates/card_cli/data/demo.stack",
            "crates/card_cli/src/main.rt", "crates/low/specs/Lib.antt", "crates/low/src/lib.rt",
            "crates/middle/specs/Lib.antt", "crates/middle/src/lib.rt")))

    def test_what_rt_says_of_crates(self) -> None:
        said = (b"fn low::f: proved\nrt: low proved\nrt: middle is kept: an earlier run\nrt: top NOT PROVED\n"
                b"rt: low: its tests are proved\n")
        self.assertEqual(anew.PROVED.findall(said), [(b"low", b""), (b"middle", b"kept")])

    def test_nothing_is_done_where_it_stands(self) -> None:
        self.build()
        os.utime(self.at("crates/low/src/lib.rt"))
        self.assertEqual(self.build(0, "--why", "a reason"), "")
        self.assertEqual(self.called(), ALL)

    def test_nothing_is_done_where_the_gate_built_it(self) -> None:
        self.prove()
        before = self.called()
        self.assertEqual(self.build(), "")
        self.assertEqual(self.called(), before)

    def test_an_edit_or_another_program_is_seen(self) -> None:
        self.build()
        self.add("crates/middle/src/lib.rt", "// more\n")
        self.assertIn("build: a reason\n", self.build(0, "--why", "a reason"))
        self.assertEqual(self.called(), ALL * 2)
        self.add(BUILT, "# more\n")
        self.build()
        self.assertEqual(self.called(), ALL * 3)
        self.put(RECORD, "{}")
        self.build()
        self.assertEqual(self.called(), ALL * 4)

    def test_over_kept_work(self) -> None:
        for crate in ("low", "middle"):
            self.put("crates/%s/out/rlib/stamp" % crate, "old")
        said = self.build()
        self.assertIn("over what is kept", said)
        self.assertEqual(self.called(), ["low lib --jobs %s" % jobs for jobs in self.jobs("low")]
                         + ["middle lib --jobs %s" % jobs for jobs in self.jobs("middle")]
                         + ["card_cli run --jobs %s -- %s" % (jobs, self.at("crates/card_cli/data/demo.stack"))
                            for jobs in self.jobs("card_cli")])
        self.assertEqual(self.build(), "")
        self.assertFalse(os.path.exists(self.at("out/build/trees/low")))
        self.assertEqual(self.text("crates/low/out/rlib/stamp"), "x\n")

    def jobs(self, crate: str) -> List[str]:
        """The jobs that rt was told for a crate, of each of its calls: they depend on the machine."""
        calls = [call.split() for call in self.called()]
        return [words[words.index("--jobs") + 1] for words in calls if words[0] == crate]

    def test_a_proof_that_fails(self) -> None:
        said = self.build(1, FAILS="yes")
        self.assertIn("card_cli was not built; what rt says stands in out/build/gate.log", said)
        self.assertIn("rt: FAILED: low", self.text("out/build/gate.log"))
        self.assertFalse(os.path.exists(self.at(BUILT)))

    def test_a_failed_proof_leaves_the_old_program_unknown(self) -> None:
        self.build()
        self.add("crates/low/src/lib.rt", "// wrong\n")
        self.build(1, FAILS="yes")
        self.build(1, FAILS="yes")

    def test_no_kit(self) -> None:
        os.remove(self.at("../bin/rt"))
        self.assertIn("there is no command rt", self.build(127, PATH=self.at("../bin")))

    def test_it_says_whether_it_is_the_released_program(self) -> None:
        self.release()
        os.remove(self.at("out/gate.json"))
        self.assertIn("it is, byte for byte, release/card_cli", self.build())
        os.remove(self.at(RECORD))
        self.add("release/card_cli", "# more\n")
        self.assertIn("it isn't the same as release/card_cli", self.build())

    def test_an_interrupted_build_leaves_nothing_behind(self) -> None:
        room = os.path.join(self.top, "room")
        os.mkdir(room)
        process = subprocess.Popen([self.at("tools/build")], cwd=self.root, stderr=subprocess.PIPE,
                                   env=self.environment(SLOW="30", TMPDIR=room), universal_newlines=True)
        until = time.time() + 20
        while not self.called() and time.time() < until:
            time.sleep(0.02)
        self.assertEqual(self.called(), ALL[:1])
        self.assertEqual(len(os.listdir(room)), 1)
        process.send_signal(signal.SIGTERM)
        _, said = process.communicate(timeout=20)
        self.assertEqual(process.returncode, 130)
        self.assertIn("interrupted", said)
        self.assertEqual(os.listdir(room), [])
        self.assertFalse(os.path.exists(self.at(BUILT)))


if __name__ == "__main__":
    unittest.main()
