"""What ./card starts: which program, with which words, and what it says before."""

import os
import pty
import resource
import shutil
import subprocess
import sys
import unittest
from typing import List, Tuple

from tree import HERE, ReleasedTest

sys.path.insert(0, HERE)
from front.program import KEPT_MEMORY  # noqa: E402

RELEASED = "release/card_cli"
BUILT = "crates/card_cli/out/card_cli"


class Cards(ReleasedTest):
    """Starts of ./card in a tree whose program is released. The pretended program prints its path and its words."""

    def setUp(self) -> None:
        super().setUp()
        # The gate's own program is out of the way, so that only a build makes one.
        shutil.rmtree(self.at("crates/card_cli/out"))
        if os.path.exists(self.calls):
            os.remove(self.calls)
        self.folder = os.path.join(self.top, "a folder")
        os.mkdir(self.folder)

    def card(self, *words: str, status: int = 0) -> Tuple[str, str]:
        """Runs ./card from another folder through pipes, and gives the first line of its output, and its errors."""
        ran = self.run_in(["card", *words], folder=self.folder)
        self.assertEqual(ran.returncode, status, ran.stderr)
        return ran.stdout.split("\n")[0], ran.stderr

    def at_terminal(self, *words: str, errors_too: bool = False) -> List[str]:
        """The lines of ./card at a terminal; its standard error is one too where that is told, else it goes nowhere."""
        ours, theirs = pty.openpty()
        errors = theirs if errors_too else subprocess.DEVNULL
        process = subprocess.Popen([self.at("card"), *words], cwd=self.folder, env=self.environment(),
                                   stdin=theirs, stdout=theirs, stderr=errors)
        os.close(theirs)
        said = b""
        try:
            while True:
                more = os.read(ours, 4096)
                if not more:
                    break
                said += more
        except OSError:
            # The last process at the terminal has ended.
            pass
        os.close(ours)
        self.assertEqual(process.wait(timeout=20), 0)
        return said.decode().replace("\r\n", "\n").splitlines()

    def program(self, *words: str, path: str = RELEASED) -> str:
        """What the pretended program prints."""
        return "%s|%s" % (self.at(path), " ".join(words))

    def test_the_released_program_starts_at_once(self) -> None:
        self.assertEqual(self.card("x.stack", "--steps", "5"), (self.program("x.stack", "--steps", "5"), ""))
        self.assertEqual(self.called(), [])

    def test_options_alone_open_a_copy_of_the_demo(self) -> None:
        self.assertEqual(self.card("--depth=3"), (self.program("demo.stack", "--depth=3"), ""))
        with open(os.path.join(self.folder, "demo.stack"), "a", encoding="utf-8") as file:
            file.write("kept")
        self.assertEqual(self.card(), (self.program("demo.stack"), ""))
        with open(os.path.join(self.folder, "demo.stack"), encoding="utf-8") as file:
            self.assertEqual(file.read(), "htstack 2\nkept")

    def test_through_a_link(self) -> None:
        os.symlink(self.at("card"), os.path.join(self.folder, "link"))
        ran = subprocess.run([os.path.join(self.folder, "link"), "x y"], cwd="/", env=self.environment(),
                             stdin=subprocess.DEVNULL, stdout=subprocess.PIPE, check=True, universal_newlines=True)
        self.assertEqual(ran.stdout.split("\n")[0], self.program("x y"))

    def test_a_changed_source_builds_first_and_says_why(self) -> None:
        self.add("crates/low/src/lib.rt", "// more\n")
        said, errors = self.card("x.stack")
        self.assertEqual(said, self.program("x.stack", path=BUILT))
        self.assertIn("build: release/card_cli was built from other sources than those that stand here\n", errors)
        self.assertEqual(self.called()[-1:], ["tree ci"])
        self.assertEqual(self.card("x.stack"), (self.program("x.stack", path=BUILT), ""))

    def test_a_changed_byte_builds_first(self) -> None:
        self.add(RELEASED, "# more\n")
        said, errors = self.card("x.stack")
        self.assertEqual(said, self.program("x.stack", path=BUILT))
        self.assertIn("isn't the program that release/card_cli.json names", errors)

    def test_no_release_builds_first(self) -> None:
        shutil.rmtree(self.at("release"))
        said, errors = self.card("x.stack")
        self.assertEqual(said, self.program("x.stack", path=BUILT))
        self.assertIn("there is no release/card_cli.json", errors)

    def test_a_build_that_fails_opens_nothing(self) -> None:
        self.put("../bin/rt", "#!/bin/sh\nexit 3\n", 0o755)
        self.assertEqual(self.card("x.stack", "--build", status=3)[0], "")

    def test_build_is_asked_for(self) -> None:
        said, errors = self.card("--build", "x.stack")
        self.assertEqual(said, self.program("x.stack", path=BUILT))
        self.assertEqual(self.called()[-1:], ["tree ci"])
        self.assertIn("it is, byte for byte, release/card_cli", errors)

    def test_words_that_open_no_stack_build_nothing(self) -> None:
        self.add("crates/low/src/lib.rt", "// more\n")
        for words in (["--help"], ["--version"], ["--wrong"], ["one", "two"], ["--steps"], ["x.stack", "--depth"]):
            with self.subTest(words=words):
                said, errors = self.card(*words)
                self.assertEqual(said, self.program(*words))
                self.assertEqual("--build" in errors, words == ["--help"])
        self.assertEqual(self.called(), [])
        self.assertEqual(os.listdir(self.folder), [])

    def test_words_that_open_no_stack_where_no_program_is(self) -> None:
        shutil.rmtree(self.at("release"))
        self.assertIn("there is no program yet", self.card("--help", status=127)[1])

    def test_a_look_at_a_stack_is_by_the_program_of_these_sources(self) -> None:
        self.assertEqual(self.card("--check", "x.stack"), (self.program("--check", "x.stack"), ""))
        self.assertEqual(self.at_terminal("--check", "x.stack")[0], self.program("--check", "x.stack"))
        self.add("crates/low/src/lib.rt", "// more\n")
        self.assertEqual(self.card("--check", "x.stack")[0], self.program("--check", "x.stack", path=BUILT))

    def test_the_front_at_a_terminal(self) -> None:
        front = "front " + self.at(RELEASED)
        self.assertEqual(self.at_terminal("x.stack", "--watch"), [front + " x.stack --watch"])
        self.assertEqual(self.at_terminal("--quiet", "x.stack"), [front + " x.stack --quiet"])
        for coding in ("--mac-roman", "--utf-8"):
            self.assertEqual(self.at_terminal(coding), [front + " demo.stack " + coding])
        for minutes in (["--minutes", "5"], ["--minutes=5"]):
            self.assertEqual(self.at_terminal("minutes", *minutes), [front + " minutes --minutes=5"])
        self.assertEqual(self.at_terminal("x.stack", "--minutes"), [front + " x.stack --minutes="])

    def test_strict(self) -> None:
        self.put("front/strict.py", self.text("front/terminal.py").replace("os.environ['CARD_CLI']", "'strict'"))
        strict = "front strict " + self.at(RELEASED)
        self.assertEqual(self.card("--strict", "x.stack", "--steps", "5"), (strict + " x.stack --steps 5", ""))
        self.assertEqual(self.at_terminal("x.stack", "--strict"), [strict + " x.stack"])
        self.assertEqual(self.card("--strict", "x.stack", "--check"), (self.program("x.stack", "--check"), ""))

    def test_plain_at_a_terminal(self) -> None:
        self.assertEqual(self.at_terminal("--plain", "x.stack")[0], self.program("x.stack"))
        self.assertEqual(self.at_terminal("--plain", "x.stack", errors_too=True)[0],
                         self.program("--explain", "x.stack"))
        self.assertEqual(self.at_terminal("x.stack", "--plain", "--quiet", errors_too=True)[0], self.program("x.stack"))
        self.assertEqual(self.at_terminal("x.stack", "--plain", "--explain", errors_too=True)[0],
                         self.program("x.stack", "--explain"))

    def test_a_name_that_looks_like_an_option(self) -> None:
        self.assertEqual(self.card("--", "--plain"), (self.program("--", "--plain"), ""))
        self.assertEqual(self.at_terminal("--", "--plain", errors_too=True)[0], self.program("--", "--plain"))

    def test_wrong_words_at_a_terminal(self) -> None:
        self.assertEqual(self.at_terminal("one", "two", errors_too=True)[0], self.program("one", "two"))

    def test_a_pipe_gets_no_words_of_this_script(self) -> None:
        for words in (["--quiet", "--mac-roman"], ["--minutes", "5"]):
            self.assertEqual(self.card("x.stack", "--plain", *words), (self.program("x.stack"), ""))

    def test_no_python(self) -> None:
        folder = os.path.join(self.top, "tools")
        os.mkdir(folder)
        for tool in ("sh", "readlink", "dirname", "cp"):
            os.symlink(shutil.which(tool) or "", os.path.join(folder, tool))
        ran = self.run_in(["card", "x.stack"], PATH=folder)
        self.assertEqual(ran.stdout.split("\n")[0], self.program("x.stack"))
        self.assertIn("there is no python3", ran.stderr)
        ran = self.run_in(["card", "x.stack", "--build"], PATH=folder)
        self.assertEqual((ran.returncode, ran.stdout), (127, ""))

    def test_the_stack_has_room(self) -> None:
        soft, hard = resource.getrlimit(resource.RLIMIT_STACK)
        for wanted, given in ((8 << 20, 64 << 20), (128 << 20, 128 << 20)):
            if hard != resource.RLIM_INFINITY and hard < given:
                given = max(hard, wanted)
            ran = subprocess.run([self.at("card"), "x.stack"], env=self.environment(), stdin=subprocess.DEVNULL,
                                 stdout=subprocess.PIPE, check=True, universal_newlines=True,
                                 preexec_fn=lambda it=wanted: resource.setrlimit(resource.RLIMIT_STACK, (it, hard)))
            self.assertEqual(ran.stdout.split("\n")[1], str(given >> 10))

    def test_the_library_is_told_what_memory_to_keep(self) -> None:
        for told, given in ({}, "%s"), ({"GLIBC_TUNABLES": "glibc.malloc.check=1"}, "%s:glibc.malloc.check=1"):
            ran = self.run_in(["card", "x.stack"], **told)
            self.assertEqual(ran.stdout.split("\n")[2], given % KEPT_MEMORY)

    def test_a_low_hard_limit_of_the_stack_is_taken(self) -> None:
        most = 16 << 20
        ran = subprocess.run([self.at("card"), "x.stack"], env=self.environment(), stdin=subprocess.DEVNULL,
                             stdout=subprocess.PIPE, stderr=subprocess.PIPE, check=True, universal_newlines=True,
                             preexec_fn=lambda: resource.setrlimit(resource.RLIMIT_STACK, (8 << 20, most)))
        self.assertEqual((ran.stdout.split("\n")[1], ran.stderr), (str(most >> 10), ""))


if __name__ == "__main__":
    unittest.main()
