"""Stored sessions: those that pass, those that differ, and files that are none."""

import glob
import os
import signal
import subprocess
import sys
import time
from typing import List, NamedTuple

from front import program
from front.tests.support import DEMO, FolderTest, bytes_of, there

STORED = b"""put 1 + 1
> 2
ok
put empty
>
ok

ok
doMenu "New Card"
ok
.save
ok
put 1 div 0
fault 6
put (
refused 3
"""


class Done(NamedTuple):
    """How the tool ended, and the lines that it printed."""

    status: int
    lines: List[str]
    said: str


class StoredTest(FolderTest):
    def run_tool(self, *words: str, **environment: str) -> Done:
        done = subprocess.run([sys.executable, there("session"), *words], cwd=self.folder, text=True, check=False,
                              env={**os.environ, **environment}, stdout=subprocess.PIPE, stderr=subprocess.PIPE)
        return Done(done.returncode, done.stdout.splitlines(), done.stderr)

    def put_session(self, data: bytes) -> str:
        self.put_demo()
        return self.put("demo.session", data)


class Passing(StoredTest):
    def test_sessions_of_the_repository(self) -> None:
        sessions = sorted(glob.glob(there("stacks/*.session")))
        before = [bytes_of(path) for path in sorted(glob.glob(there("stacks/*")))]
        self.assertGreater(len(sessions), 3)
        self.assertEqual(self.run_tool(*sessions), (0, ["%d passed, 0 failed" % len(sessions)], ""))
        self.assertEqual([bytes_of(path) for path in sorted(glob.glob(there("stacks/*")))], before)

    def test_a_session_passes_and_its_stack_stays(self) -> None:
        self.put_session(STORED)
        self.assertEqual(self.run_tool("demo.session"), (0, ["1 passed, 0 failed"], ""))
        self.assertEqual(bytes_of(os.path.join(self.folder, "demo.stack")), bytes_of(there(DEMO)))
        self.assertEqual(sorted(os.listdir(self.folder)), ["demo.session", "demo.stack"])

    def test_an_empty_text_may_be_stored_with_its_blank(self) -> None:
        self.put_session(STORED.replace(b"\n>\n", b"\n> \n"))
        self.assertEqual(self.run_tool("demo.session").status, 0)

    def test_options_go_to_the_program(self) -> None:
        self.put_session(b"put 1\n> 1\nok\nput 2\n> 2\nok\n.history\n> 1 0\nok\n"
                         b"repeat 9\rput 1 into g\rend repeat\nfault 11\n")
        self.assertEqual(self.run_tool("--depth", "1", "--steps", "5", "demo.session").lines[-1], "1 passed, 0 failed")
        self.assertEqual(self.run_tool("demo.session").lines[-1], "0 passed, 1 failed")

    def test_another_stack_can_be_named(self) -> None:
        path = self.put("other.session", b"put the name of this card\n> card \"A\"\nok\n")
        self.assertEqual(self.run_tool("--stack", there(DEMO), path).lines, ["1 passed, 0 failed"])

    def test_it_ends_where_a_session_quits(self) -> None:
        self.put_session(b"put 1\n> 1\nok\n.quit\nok\n")
        self.assertEqual(self.run_tool("demo.session").lines, ["1 passed, 0 failed"])


class Differing(StoredTest):
    def test_what_differs_is_printed(self) -> None:
        path = self.put_session(STORED.replace(b"> 2\n", b"> 3\n"))
        done = self.run_tool("demo.session", "demo.session")
        self.assertEqual((done.status, done.lines[-1]), (1, "0 passed, 2 failed"))
        self.assertEqual(done.lines[:7], ["--- demo.session (wanted)", "+++ demo.session (answered)", "@@ -1,5 +1,5 @@",
                                          " put 1 + 1", "-> 3", "+> 2", " ok"])
        self.assertEqual(bytes_of(path), STORED.replace(b"> 2\n", b"> 3\n"))

    def test_answers_that_are_missing_or_too_many_differ(self) -> None:
        for data in (STORED.replace(b"> 2\nok\n", b""), STORED.replace(b"> 2\nok\n", b"> 2\nok\nok\n"),
                     STORED.replace(b"> 2\nok\n", b"> 2\n"), STORED + b"put 1\n"):
            self.put_session(data)
            self.assertEqual(self.run_tool("demo.session").lines[-1], "0 passed, 1 failed")

    def test_faults_that_were_not_wanted_are_explained(self) -> None:
        self.put_session(b"put 1 div 0\nok\n")
        self.assertIn("    fault 6, DivideByZero: ", "\n".join(self.run_tool("demo.session").lines))

    def test_answers_are_written_anew(self) -> None:
        path = self.put_session(STORED.replace(b"> 2\n", b"> 3\n").replace(b"fault 6\n", b"").replace(b">\n", b"> x\n"))
        os.chmod(path, 0o640)
        done = self.run_tool("--update", "demo.session")
        self.assertEqual(done, (0, ["demo.session is updated", "1 passed, 0 failed"], ""))
        self.assertEqual((bytes_of(path), os.stat(path).st_mode & 0o777), (STORED, 0o640))
        self.assertEqual(self.run_tool("--update", "demo.session").lines, ["1 passed, 0 failed"])
        self.assertEqual(bytes_of(os.path.join(self.folder, "demo.stack")), bytes_of(there(DEMO)))


def heeding_interrupts() -> None:
    """A shell has what it starts in the background ignore interrupts; what is started from there doesn't."""
    signal.signal(signal.SIGINT, signal.SIG_DFL)


class Broken(StoredTest):
    def test_it_can_be_interrupted(self) -> None:
        self.put_session(b"repeat\rput 1 into g\rend repeat\n" * 100)
        words = [sys.executable, "-u", there("session"), "--steps", "10000000", "none.session", "demo.session"]
        with subprocess.Popen(words, cwd=self.folder, stdout=subprocess.PIPE, stderr=subprocess.PIPE,
                              preexec_fn=heeding_interrupts) as process:
            assert process.stdout is not None
            self.assertIn(b"none.session", process.stdout.readline())
            time.sleep(0.2)
            start = time.monotonic()
            process.send_signal(signal.SIGINT)
            written, said = process.communicate()
        self.assertEqual((process.returncode, written, said), (130, b"", b"session: interrupted\n"))
        self.assertLess(time.monotonic() - start, 5.0)

    def test_files_that_are_none(self) -> None:
        self.put_session(b"ok\nput 1\n")
        self.put("alone.session", b"put 1\n> 1\nok\n")
        self.put("bad.session", b"put 1\n> 1\nok\n")
        self.put("bad.stack", b"htstack 2\n")
        done = self.run_tool("none.session", "demo.session", "alone.session", "bad.session", self.folder)
        self.assertEqual((done.status, done.lines[-1]), (1, "0 passed, 5 failed"))
        self.assertIn("none.session: [Errno 2]", done.lines[0])
        self.assertIn("demo.session: the first line is an answer", done.lines[1])
        self.assertIn("alone.session: there is no stack alone.stack", done.lines[2])
        self.assertIn("bad.session: no answer to the line put 1: the program ended with status 2: "
                      "card_cli: stack refused 3", done.lines[3])

    def test_lines_behind_the_end_have_no_answer(self) -> None:
        path = self.put_session(b".quit\nok\nput 1\n> 1\nok\n")
        sayings: List[List[str]] = [[], ["--update"]]
        for words in sayings:
            done = self.run_tool(*words, "demo.session")
            self.assertEqual(done.lines[-1], "0 passed, 1 failed")
            self.assertIn("no answer to the line put 1", done.lines[0])
        self.assertEqual(bytes_of(path), b".quit\nok\nput 1\n> 1\nok\n")

    def test_words_that_are_wrong(self) -> None:
        self.assertEqual(self.run_tool().status, 2)
        self.assertEqual(self.run_tool("--nothing", "demo.session").status, 2)
        done = self.run_tool("demo.session", **{program.VARIABLE: os.path.join(self.folder, "none")})
        self.assertEqual((done.status, done.lines), (2, []))
        self.assertIn("can't be run", done.said)
