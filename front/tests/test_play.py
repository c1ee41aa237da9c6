"""The script ./play as people start it: its address, its words, its end."""

import http.client
import json
import os
import select
import signal
import socket
import subprocess
import sys
import unittest
from typing import Any, Tuple
from urllib.parse import urlsplit

from front.stack_text import read
from front.tests.support import FolderTest, bytes_of, there

SECONDS = 20


class TestPlay(FolderTest):
    """./play, run in a folder of its own."""

    def start(self, *words: str) -> "subprocess.Popen[str]":
        play = subprocess.Popen([sys.executable, there("play"), *words], cwd=self.folder, text=True,
                                stdin=subprocess.DEVNULL, stdout=subprocess.PIPE, stderr=subprocess.PIPE)
        self.addCleanup(self.end, play)
        return play

    def end(self, play: "subprocess.Popen[str]") -> None:
        play.kill()
        play.communicate()

    def address(self, play: "subprocess.Popen[str]") -> str:
        assert play.stdout is not None
        self.assertTrue(select.select([play.stdout], [], [], SECONDS)[0])
        return play.stdout.readline().strip()

    def post(self, address: str, name: str, **values: object) -> Tuple[int, Any]:
        parts = urlsplit(address)
        connection = http.client.HTTPConnection(parts.netloc, timeout=SECONDS)
        connection.request("POST", parts.path + name, json.dumps(values), {"Content-Type": "application/json"})
        reply = connection.getresponse()
        answer = reply.status, json.loads(reply.read())
        connection.close()
        return answer

    def words_of(self, *words: str) -> Tuple[int, str]:
        """The status and what is said of a start that fails."""
        play = self.start(*words)
        said = play.communicate(timeout=SECONDS)[1]
        return play.returncode, said

    def test_address(self) -> None:
        address = urlsplit(self.address(self.start()))
        self.assertEqual((address.scheme, address.hostname), ("http", "127.0.0.1"))
        self.assertGreaterEqual(len(address.path.strip("/")), 32)
        other = urlsplit(self.address(self.start()))
        self.assertNotEqual((address.path, address.port), (other.path, other.port))
        with self.assertRaises(OSError):
            socket.create_connection(("127.0.0.2", address.port or 0), timeout=2)

    def test_demo_stack(self) -> None:
        self.address(self.start())
        demo = os.path.join(self.folder, "demo.stack")
        self.assertEqual(bytes_of(demo), bytes_of(there("crates/card_cli/data/demo.stack")))
        self.put("demo.stack", bytes_of(there("stacks/quiz.stack")))
        address = self.address(self.start())
        self.assertEqual(self.post(address, "line", seen=1, line="put the name of this stack")[1]["done"][0]["texts"],
                         ['stack "Quiz"'])

    def test_wrong_words(self) -> None:
        broken = self.put("broken.stack", b"htstack 9\n")
        cases = (((broken,), 2, "stack refused 1 at line 1"), (("missing.stack",), 2, "missing.stack"),
                 (("--steps", "0"), 2, "steps"), (("--port", "x"), 2, "--port"), ((".",), 2, ""))
        for words, status, said in cases:
            found = self.words_of(*words)
            self.assertEqual(found[0], status, (words, found))
            self.assertIn(said, found[1])
            self.assertNotIn("Traceback", found[1])

    def test_port_that_is_taken(self) -> None:
        with socket.socket() as taken:
            taken.bind(("127.0.0.1", 0))
            taken.listen()
            status, said = self.words_of("--port", str(taken.getsockname()[1]))
        self.assertEqual(status, 1)
        self.assertIn("can't listen at port", said)

    def test_ends_with_the_program(self) -> None:
        play = self.start()
        address = self.address(play)
        self.assertEqual(self.post(address, "line", seen=1, line=".quit")[0], 200)
        self.assertEqual(play.wait(SECONDS), 0)

    def test_control_c_asks_once(self) -> None:
        play = self.start()
        address = self.address(play)
        self.assertEqual(self.post(address, "menu", seen=1, item="New Card")[0], 200)
        play.send_signal(signal.SIGINT)
        self.assertIn("aren't saved", self.said_until(play, "aren't saved"))
        self.assertIsNone(play.poll())
        self.assertEqual(self.post(address, "line", seen=2, line=".save")[0], 200)
        play.send_signal(signal.SIGINT)
        self.assertEqual(play.wait(SECONDS), 0)
        self.assertEqual(len(read(bytes_of(os.path.join(self.folder, "demo.stack"))).cards), 3)

    def said_until(self, play: "subprocess.Popen[str]", words: str) -> str:
        """What is said on standard error, up to a line with these words."""
        assert play.stderr is not None
        said = b""
        while words.encode() not in said:
            self.assertTrue(select.select([play.stderr], [], [], SECONDS)[0], said)
            block = os.read(play.stderr.fileno(), 4096)
            self.assertTrue(block, said)
            said += block
        return said.decode()

    def test_leaves_no_program_behind(self) -> None:
        for number in (signal.SIGTERM, signal.SIGKILL):
            play = self.start()
            self.address(play)
            with open("/proc/%d/task/%d/children" % (play.pid, play.pid)) as file:
                children = [int(word) for word in file.read().split()]
            self.assertEqual(len(children), 1)
            play.send_signal(number)
            play.wait(SECONDS)
            for _ in range(SECONDS * 50):
                if not os.path.exists("/proc/%d" % children[0]):
                    break
                select.select([], [], [], 0.02)
            self.assertFalse(os.path.exists("/proc/%d" % children[0]))


if __name__ == "__main__":
    unittest.main()
