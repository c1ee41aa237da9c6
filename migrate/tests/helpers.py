"""What the tests of imports share: running the tools and the program."""

import contextlib
import io
import os
import shutil
import tempfile
import unittest
from typing import List, Tuple

from front import program
from front.program import HERE
from migrate import import_tool

DATA = os.path.join(HERE, "migrate", "tests", "data")


class Folder(unittest.TestCase):
    """A test with a folder of its own."""

    def setUp(self) -> None:
        self.folder = tempfile.mkdtemp(prefix="migrate-")
        self.addCleanup(shutil.rmtree, self.folder)

    def at(self, name: str) -> str:
        """The path of a file in the folder."""
        return os.path.join(self.folder, name)

    def put(self, name: str, data: bytes) -> str:
        """Writes a file in the folder, and answers its path."""
        path = self.at(name)
        os.makedirs(os.path.dirname(path), exist_ok=True)
        with open(path, "wb") as file:
            file.write(data)
        return path

    def get(self, name: str) -> bytes:
        """The bytes of a file of the folder."""
        with open(self.at(name), "rb") as file:
            return file.read()

    def run_stack(self, stack: bytes, lines: List[str]) -> List[str]:
        """What the program answers to these lines on this stack."""
        path = self.put("run.stack", stack)
        done = program.run(program.words(path), "".join(line + "\n" for line in lines).encode("mac_roman"))
        self.assertEqual(done.returncode, 0, done.stderr.decode())
        return done.stdout.decode().splitlines()


def bring(*words: str) -> Tuple[int, str, str]:
    """Runs the import with these words: its status, its standard output and its standard error."""
    out, err = io.StringIO(), io.StringIO()
    with contextlib.redirect_stdout(out), contextlib.redirect_stderr(err):
        status = import_tool.main(list(words))
    return status, out.getvalue(), err.getvalue()
