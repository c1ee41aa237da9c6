"""A small repository of the same form in a temporary folder, with a command rt that only pretends."""

import os
import shutil
import subprocess
import sys
import tempfile
import unittest
from typing import Dict, List, Optional, Sequence

HERE = os.path.dirname(os.path.dirname(os.path.dirname(os.path.realpath(__file__))))
KIT = "pretended-kit 1"
# The tests that need no program are left out of the copy of ./test: it would run these tests themselves.
CHECKS = ("dependencies", "definitions", "pages", "faults", "promises", "meaning/gen.py", "meaning/laws.py", "meaning/whole.py",
          "meaning/outcomes.py", "meaning/manual.py")
# The steps of the gate that need the program, beside the comparison: commands, and the tests of two folders.
TRIALS = ("trial", "stress", "session")
LATER = len(TRIALS) + 2

# It tells its calls in $CALLS. A program that it builds is of its sources, and prints its words. With UNTIL the crate
# `side` isn't proved before such a call was made.
RT = r"""#!/bin/sh
echo "$(basename "$PWD") $*" >> "$CALLS"
program() {
    mkdir -p "$1/out"
    {
        printf '%s\n' '#!/bin/sh' '[ $# -gt 0 ] || exit 2' 'echo "$0|$*"' 'ulimit -S -s' 'echo "$GLIBC_TUNABLES"'
        cat "$1"/src/* | sed 's/^/# /'
    } > "$1/out/card_cli"
    chmod 755 "$1/out/card_cli"
}
case $1 in
    version) echo "${KIT-KIT_ID}" ;;
    ci)
        [ -z "${NAMELESS-}" ] || [ $# -eq 1 ] || { echo "usage: rt new FOLDER"; exit 2; }
        [ -z "${SLOW-}" ] || sleep "$SLOW"
        if [ "${2-}" = side ] && [ -n "${UNTIL-}" ]; then
            for _ in $(seq 100); do
                ! grep -qs "$UNTIL" "$CALLS" || break
                sleep 0.1
            done
        fi
        if [ -n "${EDIT-}" ]; then echo changed >> "$EDIT"; fi
        [ -z "${FAILS-}" ] || { echo "rt: FAILED: low"; echo "1 passed, 1 failed"; exit 1; }
        find . -type f > "$CALLS.tree"
        shift
        for name in ${*:+low} ${*:-$(ls crates)}; do
            grep -qs "^$name$" "$CALLS.proved" && echo "rt: $name is kept: an earlier run" || echo "rt: $name proved"
            echo "$name" >> "$CALLS.proved"
        done
        [ $# -gt 0 ] || program crates/card_cli
        echo "${SAYS-2 passed, 0 failed}" ;;
    lib) mkdir -p out/rlib; echo x > out/rlib/stamp; echo "so far: 1 of 1 functions" ;;
    run) program . ;;
    *) exit 2 ;;
esac
""".replace("KIT_ID", KIT)
FRONT = "import os, sys\nprint('front', os.environ['CARD_CLI'], *sys.argv[1:])\n"
NONE = "import unittest\nclass None_(unittest.TestCase):\n    def test(self): pass\n"
CRATES = "# the lowest first\nlow: itoa\nmiddle: low\ncard_cli: middle clap\nother: low\n"


class TreeTest(unittest.TestCase):
    """A test with a tree of its own."""

    def setUp(self) -> None:
        self.top = os.path.realpath(tempfile.mkdtemp(prefix="card-tree-"))
        self.addCleanup(shutil.rmtree, self.top, ignore_errors=True)
        self.root = os.path.join(self.top, "here")
        self.calls = os.path.join(self.top, "calls")
        for tool in ("card", "tools/build", "tools/release"):
            self.put(tool, self.own(tool), 0o755)
        for module in sorted(os.listdir(os.path.join(HERE, "tools", "making"))):
            if module.endswith(".py"):
                self.put("tools/making/" + module, self.own("tools/making/" + module))
        self.put("crates.txt", CRATES)
        self.put("HANDLES", "Handles allowed: none.\n")
        for crate in ("low", "middle", "other"):
            self.put("crates/%s/src/lib.rt" % crate, "// %s\n" % crate)
            self.put("crates/%s/specs/Lib.antt" % crate, "-- %s\n" % crate)
            self.put("crates/%s/must-fail/wrong.edit" % crate, "file: src/lib.rt\n")
        self.put("crates/card_cli/src/main.rt", "fn main() {}\n")
        self.put("crates/card_cli/data/demo.stack", "htstack 2\n")
        self.put("crates/card_cli/args", "demo.stack\n")
        self.put("front/terminal.py", FRONT)
        self.put("../bin/rt", RT, 0o755)
        # A python3 that a version manager starts takes long.
        os.symlink(os.path.realpath(sys.executable), self.at("../bin/python3"))

    @staticmethod
    def own(path: str) -> str:
        """The text of a file of the real repository."""
        with open(os.path.join(HERE, path), encoding="utf-8") as file:
            return file.read()

    def at(self, path: str) -> str:
        """A path of the tree."""
        return os.path.normpath(os.path.join(self.root, path))

    def put(self, path: str, text: str, mode: int = 0o644) -> None:
        """Writes a file of the tree."""
        os.makedirs(os.path.dirname(self.at(path)), exist_ok=True)
        with open(self.at(path), "w", encoding="utf-8") as file:
            file.write(text)
        os.chmod(self.at(path), mode)

    def add(self, path: str, text: str) -> None:
        """Adds to the end of a file of the tree."""
        with open(self.at(path), "a", encoding="utf-8") as file:
            file.write(text)

    def text(self, path: str) -> str:
        """The text of a file of the tree."""
        with open(self.at(path), encoding="utf-8") as file:
            return file.read()

    def environment(self, **more: str) -> Dict[str, str]:
        """The environment of a command: the pretended rt comes first."""
        path = os.path.join(self.top, "bin") + os.pathsep + os.environ["PATH"]
        return {**os.environ, "PATH": path, "CALLS": self.calls, **more}

    def run_in(self, words: Sequence[str], folder: Optional[str] = None,
               **more: str) -> "subprocess.CompletedProcess[str]":
        """Runs a command of the tree, in its top folder unless told, with more variables in its environment."""
        return subprocess.run([self.at(words[0]), *words[1:]], cwd=folder or self.root, env=self.environment(**more),
                              stdin=subprocess.DEVNULL, stdout=subprocess.PIPE, stderr=subprocess.PIPE,
                              universal_newlines=True, timeout=60, check=False)

    def called(self) -> List[str]:
        """The calls of rt so far, each with the folder's name before it, without those that ask for the version."""
        if not os.path.exists(self.calls):
            return []
        with open(self.calls, encoding="utf-8") as file:
            return [line.strip() for line in file if not line.endswith(" version\n")]

    def put_gate(self) -> None:
        """Puts the gate into the tree, with steps that pass."""
        self.put("test", self.own("test"), 0o755)
        for step in [*("tools/" + tool for tool in CHECKS), *TRIALS]:
            self.put(step, "#!/bin/sh\nexit 0\n", 0o755)
        self.put("front/tests/__main__.py", "")
        self.put("tools/tests/test_none.py", NONE)

    def prove(self) -> None:
        """Does what the gate does: builds the program, and writes its record."""
        self.put_gate()
        self.run_in(["./test"])

    def release(self) -> None:
        """Proves the program, and releases it."""
        self.prove()
        made = self.run_in(["tools/release"])
        self.assertEqual((made.returncode, made.stderr), (0, ""), made.stdout)


class ReleasedTest(TreeTest):
    """A test with a tree whose program is released. It is proved once, and copied for each test."""

    kept: str

    @classmethod
    def setUpClass(cls) -> None:
        cls.kept = tempfile.mkdtemp(prefix="card-kept-")
        cls.addClassCleanup(shutil.rmtree, cls.kept, ignore_errors=True)

    def setUp(self) -> None:
        super().setUp()
        copy = os.path.join(self.kept, "here")
        if not os.path.isdir(copy):
            self.release()
            shutil.copytree(self.root, copy)
        shutil.rmtree(self.root)
        shutil.copytree(copy, self.root)
