"""Where the program is found, and how it is started."""

import os
import resource
import subprocess
from unittest import mock

from front import program
from front.tests.support import FolderTest


class Paths(FolderTest):
    def put_program(self, name: str, mode: int = 0o755) -> str:
        path = os.path.join(self.folder, name)
        os.makedirs(os.path.dirname(path), exist_ok=True)
        self.put(name, b"#!/bin/sh\n")
        os.chmod(path, mode)
        return path

    def path(self, named: str = "") -> str:
        """Where the program is found in the folder, with this value of the variable."""
        with mock.patch.object(program, "HERE", self.folder), mock.patch.dict(os.environ, {program.VARIABLE: named}):
            return program.path()

    def test_the_release_goes_before_what_was_built(self) -> None:
        self.assertRaisesRegex(program.ProgramMissing, "release/card_cli nor crates/card_cli/out/card_cli", self.path)
        built = self.put_program("crates/card_cli/out/card_cli")
        self.assertEqual(self.path(), built)
        release = self.put_program("release/card_cli", 0o644)
        self.assertEqual(self.path(), built)
        os.chmod(release, 0o755)
        self.assertEqual(self.path(), release)

    def test_the_variable_goes_before_all(self) -> None:
        self.put_program("release/card_cli")
        other = self.put_program("other")
        self.assertEqual(self.path(other), other)
        os.chmod(other, 0o644)
        for wrong in (other, self.folder, other + "2"):
            self.assertRaisesRegex(program.ProgramMissing, "which can't be run", self.path, wrong)


class Starts(FolderTest):
    def shell(self, script: str) -> "subprocess.CompletedProcess[bytes]":
        return program.run(["-c", script], b"given\n", "/bin/sh")

    def test_status_and_streams(self) -> None:
        done = self.shell("cat; echo told >&2; exit 3")
        self.assertEqual((done.returncode, done.stdout, done.stderr), (3, b"given\n", b"told\n"))
        self.assertRaises(subprocess.TimeoutExpired, program.run, ["-c", "sleep 60"], b"", "/bin/sh", 0.1)
        self.assertRaises(OSError, program.run, [], b"", os.path.join(self.folder, "none"))

    def test_the_stack_is_raised_for_the_program_alone(self) -> None:
        before = soft, hard = resource.getrlimit(resource.RLIMIT_STACK)
        top = program.MOST_STACK if hard == resource.RLIM_INFINITY else hard
        for most in (top, top // 2):
            with mock.patch.object(program, "MOST_STACK", most):
                limit = self.shell("ulimit -S -s").stdout
            wanted = b"unlimited" if soft == resource.RLIM_INFINITY else b"%d" % (max(most, soft) >> 10)
            self.assertEqual(limit, wanted + b"\n")
            self.assertEqual(resource.getrlimit(resource.RLIMIT_STACK), before)

    def test_the_library_is_told_what_memory_to_keep(self) -> None:
        for told, given in ((None, b"%s"), ("glibc.malloc.check=1", b"%s:glibc.malloc.check=1"), (program.KEPT_MEMORY, b"%s")):
            with mock.patch.dict(os.environ, {program.TUNABLES: told} if told else {}):
                if not told:
                    os.environ.pop(program.TUNABLES, None)
                said = self.shell("echo $GLIBC_TUNABLES").stdout
            self.assertEqual(said, given % program.KEPT_MEMORY.encode() + b"\n")

    def test_words(self) -> None:
        self.assertEqual(program.words("--watch"), [os.path.abspath("--watch")])
        self.assertEqual(program.words("/a", 5, 6, True, True),
                         ["/a", "--steps", "5", "--depth", "6", "--watch", "--explain"])
