"""Attacks on the page's server, by requests: each gets a clear answer, and nothing of the stack is lost."""

import http.client
import json
import os
import signal
import socket
import threading
import time
import unittest
from typing import Any, Tuple

from front.server_door import HOST, MOST_CONNECTIONS
from front.stack_text import read
from front.tests.serving import KEY, ServerTest
from front.tests.support import ENDLESS, bytes_of, there

LOOP = "\n".join(ENDLESS)


class TestDoor(ServerTest):
    """Who is let in."""

    def test_page_and_its_headers(self) -> None:
        status, body, headers = self.request("GET", "/%s/" % KEY)
        self.assertEqual(status, 200)
        self.assertIn(b"<title>", body)
        self.assertIn("default-src 'none'", headers["Content-Security-Policy"])
        self.assertEqual(headers["Cache-Control"], "no-store")
        self.assertEqual(headers["Referrer-Policy"], "same-origin")
        self.assertNotIn("Access-Control-Allow-Origin", headers)
        for name, kind in (("style.css", "text/css"), ("page.js", "text/javascript")):
            self.assertEqual(self.request("GET", "/%s/%s" % (KEY, name))[2].get_content_type(), kind)

    def test_wrong_key(self) -> None:
        before = self.state()
        for path in ("/", "/state", "/wrong/", "/%s/state" % KEY[:-1], "/%sx/state" % KEY, "/%s/state" % KEY.upper(),
                     "//%s/state" % "x", "/favicon.ico", "/%ff/"):
            self.assert_turned_away(self.request("GET", path), 403, "key")
        sent = {"Content-Type": "application/json"}
        reply = self.request("POST", "/wrong/line", b'{"seen":1,"line":"doMenu \\"New Card\\""}', sent)
        self.assert_turned_away(reply, 403, "key")
        self.assertEqual(self.state(), before)

    def test_key_is_in_no_answer(self) -> None:
        for name in ("", "page.js", "style.css", "state", "cards", "object?id=0", "stack", "session", "nothing"):
            status, body, headers = self.request("GET", "/%s/%s" % (KEY, name))
            self.assertNotIn(KEY.encode(), body)
            self.assertNotIn(KEY, str(headers))
        self.assertNotIn(KEY.encode(), self.request("GET", "/wrong/")[1])

    def test_wrong_host(self) -> None:
        path = "/%s/state" % KEY
        for host in ("evil.example", "evil.example:%d" % self.port, "localhost:%d" % self.port, "127.0.0.1",
                     "127.0.0.1:1", "127.0.0.1:%d@evil.example" % self.port, ""):
            self.assert_turned_away(self.request("GET", path, headers={"Host": host}), 403, "answers to 127.0.0.1")
        right = b"Host: 127.0.0.1:%d\r\n" % self.port
        head = b"GET /%s/state HTTP/1.1\r\n" % KEY.encode()
        for hosts in (b"", right + b"Host: evil.example\r\n", right + right):
            self.assertIn(b" 403 ", self.raw(head + hosts + b"\r\n").split(b"\r\n")[0])
        self.assertIn(b" 403 ", self.raw(b"GET /%s/state HTTP/1.0\r\n\r\n" % KEY.encode()).split(b"\r\n")[0])

    def test_other_origin(self) -> None:
        before = self.state()
        body = b'{"seen":1,"line":"doMenu \\"New Card\\""}'
        for origin in ("http://evil.example", "null", "http://127.0.0.1", "https://127.0.0.1:%d" % self.port,
                       "http://localhost:%d" % self.port, "http://127.0.0.1:%d.evil.example" % self.port):
            sent = {"Content-Type": "application/json", "Origin": origin}
            self.assert_turned_away(self.request("POST", "/%s/line" % KEY, body, sent), 403, "another origin")
            looked = self.request("GET", "/%s/state" % KEY, headers={"Origin": origin})
            self.assert_turned_away(looked, 403, "another origin")
        for site in ("cross-site", "same-site"):
            reply = self.request("GET", "/%s/state" % KEY, headers={"Sec-Fetch-Site": site})
            self.assert_turned_away(reply, 403, "another origin")
        self.assertEqual(self.state(), before)

    def test_body_of_a_form(self) -> None:
        """A page of another origin can send these without asking; without an Origin too they do nothing."""
        before = self.state()
        body = b'{"seen":1,"line":"doMenu \\"New Card\\""}'
        for kind in ("text/plain", "application/x-www-form-urlencoded", "multipart/form-data",
                     "application/octet-stream"):
            reply = self.request("POST", "/%s/line" % KEY, body, {"Content-Type": kind})
            self.assert_turned_away(reply, 415, "application/json")
        self.assertEqual(self.state(), before)

    def test_path_outside(self) -> None:
        for name in ("../server.py", "..%2fserver.py", "%2e%2e/server.py", "page.js/../../server.py", "/etc/passwd",
                     "page/index.html", "index.html", "page.js/", "Page.js", "\\..\\server.py", "state/", "page.js%00"):
            reply = self.request("GET", "/%s/%s" % (KEY, name))
            self.assert_turned_away(reply, 404, "there is nothing of that name here")
        self.assertEqual(self.request("GET", "/%s" % KEY)[0], 200)

    def test_other_methods(self) -> None:
        for method in ("PUT", "DELETE", "OPTIONS", "HEAD", "PATCH", "TRACE", "CONNECT"):
            self.assertEqual(self.request(method, "/%s/state" % KEY)[0], 501)
        self.assertEqual(self.get("line")[0], 404)
        self.assertEqual(self.post("state")[0], 404)


class TestBodies(ServerTest):
    """What is sent."""

    def test_a_hundred_megabytes(self) -> None:
        for name, kind in (("line", "application/json"), ("open?seen=1", "application/octet-stream")):
            before, start = self.state(), time.monotonic()
            head = "POST /%s/%s HTTP/1.1\r\nHost: %s:%d\r\nContent-Type: %s\r\nContent-Length: 100000000\r\n\r\n"
            taken, answer = self.pour(head % (KEY, name, HOST, self.port, kind), 100_000_000)
            self.assertTrue(answer.startswith(b"HTTP/1.1 413 "), answer[:200])
            self.assertIn(b"the request has 100000000 bytes, and ", answer)
            self.assertLess(taken, 20_000_000)
            self.assertLess(time.monotonic() - start, 30)
            self.assertEqual(self.state(), before)

    def pour(self, head: str, size: int) -> Tuple[int, bytes]:
        """Sends a head and then bytes, as many as are taken; gives their number, and the answer."""
        with socket.create_connection((HOST, self.port), timeout=20) as connection:
            connection.sendall(head.encode())
            block, taken = b" " * 65536, 0
            try:
                while taken < size:
                    taken += connection.send(block)
            except (BrokenPipeError, ConnectionResetError):
                pass
            return taken, connection.recv(65536)

    def test_a_client_that_asks_first(self) -> None:
        head = "POST /%s/line HTTP/1.1\r\nHost: %s:%d\r\nExpect: 100-continue\r\nContent-Length: %d\r\n\r\n"
        answer = self.raw((head % (KEY, HOST, self.port, 100_000_000)).encode())
        self.assertTrue(answer.startswith(b"HTTP/1.1 413 "), answer[:200])
        answer = self.raw((head % ("wrong", HOST, self.port, 10)).encode())
        self.assertTrue(answer.startswith(b"HTTP/1.1 403 "), answer[:200])

    def test_no_length_or_a_wrong_one(self) -> None:
        head = b"POST /%s/line HTTP/1.1\r\nHost: 127.0.0.1:%d\r\nContent-Type: application/json\r\n"
        for said in (b"", b"Content-Length: -1\r\n", b"Content-Length: x\r\n", b"Content-Length: \xb2\r\n",
                     b"Content-Length: 2\r\nContent-Length: 3\r\n", b"Transfer-Encoding: chunked\r\n"):
            answer = self.raw(head % (KEY.encode(), self.port) + said + b"\r\n{}")
            self.assertTrue(answer.startswith(b"HTTP/1.1 411 "), (said, answer[:200]))
        answer = self.raw(head % (KEY.encode(), self.port) + b"Content-Length: 20\r\n\r\n{}")
        self.assertTrue(answer.startswith(b"HTTP/1.1 400 "), answer[:200])

    def test_values_of_other_types(self) -> None:
        before = self.state()
        sent = {"Content-Type": "application/json"}
        for body in (b"", b"[]", b"null", b"{", b"\xff", b"[" * 100_000, b'{"seen":"x","line":"put 1"}',
                     b'{"seen":1}', b'{"seen":1,"line":7}', b'{"seen":true,"line":"put 1"}',
                     b'{"seen":-1,"line":"put 1"}'):
            status, answer, _ = self.request("POST", "/%s/line" % KEY, body, sent)
            self.assertEqual(status, 400, (body[:40], answer))
        for values in ({"id": 10 ** 9}, {"id": "5"}, {}, {"id": [5]}):
            self.assertIn(self.post("click", seen=1, **values)[0], (400, 409))
        self.assertEqual(self.state(), before)

    def test_line_with_any_characters(self) -> None:
        """No text that a page sends is more than one line of the program."""
        self.say('put "a" into x\nput "b" into y\r\nput x & y')
        self.assertEqual([entry.line for entry in self.play.session.lines if not entry.own],
                         [b'put "a" into x\rput "b" into y\rput x & y'])
        self.say("put \"\u2400\u2421\"")
        status, answer = self.post("line", seen=self.state()["revision"], line="put 1\u240a.quit")
        self.assertEqual(status, 409)
        self.assertIn("can't hold a line feed", answer["error"])
        self.assertFalse(self.play.ended)


class TestAlone(ServerTest):
    """What else may happen to a session."""

    def test_two_tabs(self) -> None:
        one = two = self.state()
        self.assertEqual(self.post("menu", seen=one["revision"], item="New Card")[0], 200)
        lines = len(self.play.session.lines)
        acts = (("click", {"id": 5}), ("line", {"line": "put 1"}), ("menu", {"item": "Delete Card"}),
                ("place", {"place": 0}), ("go", {"way": "next"}), ("set", {"id": 0, "property": "name", "value": "x"}))
        for name, values in acts:
            status, answer = self.post(name, seen=two["revision"], **values)
            self.assertEqual((status, answer["stale"]), (409, True))
            self.assertIn("another tab", answer["error"])
        self.assertEqual(len(self.play.session.lines), lines)
        self.assertEqual(self.post("line", seen=self.state()["revision"], line="put 1")[0], 200)

    def test_two_tabs_at_the_same_time(self) -> None:
        seen, answers = self.state()["revision"], []
        acts = [threading.Thread(target=lambda: answers.append(self.post("menu", seen=seen, item="New Card")[0]))
                for _ in range(8)]
        for each in acts:
            each.start()
        for each in acts:
            each.join()
        self.assertEqual(sorted(answers), [200] + [409] * 7)
        self.assertEqual(self.state()["stack"]["cards"], 3)

    def test_text_of_a_field_that_another_tab_changed(self) -> None:
        self.say('doMenu "New Field"')
        parts = self.state()["card"]["parts"]
        field = next(part for part in parts if not part["background"] and part["kind"] == "field")
        self.say('put "theirs" into card field 1')
        values = {"id": field["id"], "text": "mine", "was": field["text"]}
        status, answer = self.post("type", seen=self.state()["revision"], **values)
        self.assertEqual(status, 409)
        self.assertIn("changed meanwhile", answer["error"])
        values["was"] = "theirs"
        self.assertEqual(self.post("type", seen=self.state()["revision"], **values)[0], 200)

    def test_program_is_killed_while_it_rests(self) -> None:
        self.say('doMenu "New Card"')
        before = self.play.known.text
        os.kill(self.pid(), signal.SIGKILL)
        status, answer = self.post("line", seen=self.state()["revision"], line='doMenu "New Button"')
        self.assertEqual(status, 409)
        self.assertIn("signal 9, SIGKILL) and was started again", answer["error"])
        self.assertEqual(self.play.known.text, before)
        self.say(".undo")
        self.assertEqual(self.play.known.text, self.first_text())
        self.say(".redo")
        self.say(".save")
        self.assertEqual(bytes_of(self.path), before)

    def test_program_is_killed_at_work(self) -> None:
        self.say('doMenu "New Card"')
        before, answers = self.state(), []
        act = threading.Thread(target=lambda: answers.append(self.post("line", seen=before["revision"], line=LOOP)))
        act.start()
        self.wait_for_work()
        os.kill(self.pid(), signal.SIGKILL)
        act.join()
        self.assertEqual(answers[0][0], 409)
        self.assertIn("all is as it was before", answers[0][1]["error"])
        self.assert_same(before, self.state())

    def test_program_is_killed_after_its_answer(self) -> None:
        """The command was done, and isn't to be done again."""
        ask = self.play.session.text

        def text() -> bytes:
            self.play.session.text = ask  # type: ignore[method-assign]
            os.kill(self.pid(), signal.SIGKILL)
            return ask()

        self.play.session.text = text  # type: ignore[method-assign]
        status, answer = self.post("menu", seen=self.state()["revision"], item="New Card")
        self.assertEqual(status, 409)
        self.assertIn("the command had ended before that, and stands", answer["error"])
        self.assertEqual(self.state()["stack"]["cards"], 3)

    def test_program_is_gone(self) -> None:
        """It can't be started again for a while: the text can be had, and the next act after that goes on."""
        self.say('doMenu "New Card"')
        before, named = self.play.known.text, self.play.session._program
        self.play.session._program = os.path.join(self.folder, "gone")
        os.kill(self.pid(), signal.SIGKILL)
        for _ in range(2):
            status, answer = self.post("line", seen=self.state()["revision"], line="put 1")
            self.assertEqual(status, 409)
            self.assertIn("couldn't be started again", answer["error"])
            self.assertEqual(self.request("GET", "/%s/stack" % KEY)[1], before)
        self.play.session._program = named
        self.assertEqual(self.post("line", seen=self.state()["revision"], line="put 1")[1].get("stale"), True)
        self.say("put 1")
        self.assertEqual(self.play.known.text, before)

    def test_program_is_killed_on_a_way_there_and_back(self) -> None:
        for item in ("New Card", "New Button"):
            self.say('doMenu "%s"' % item)
        before = self.state()
        ask, killed = self.play.session.text, []

        def text() -> bytes:
            found = ask()
            if not killed:
                killed.append(True)
                os.kill(self.pid(), signal.SIGKILL)
            return found

        self.play.session.text = text  # type: ignore[method-assign]
        status, answer = self.post("diff", **{"seen": before["revision"], "from": 0, "to": 1})
        self.assertEqual((status, killed), (409, [True]), answer)
        self.assert_same(before, self.state())
        self.assertEqual(self.state()["history"]["last"], 2)

    def test_stop(self) -> None:
        self.say('doMenu "New Card"')
        before, answers = self.state(), []
        self.assertEqual(self.post("stop"), (200, {"stopped": False}))
        act = threading.Thread(target=lambda: answers.append(self.post("line", seen=before["revision"], line=LOOP)))
        act.start()
        self.wait_for_work()
        self.assertTrue(self.state()["busy"])
        start = time.monotonic()
        self.assertEqual(self.post("stop"), (200, {"stopped": True}))
        act.join()
        self.assertLess(time.monotonic() - start, 10)
        self.assertEqual(answers[0], (409, {"error": "stopped: all is as it was before the command"}))
        self.assert_same(before, self.state())
        self.say("put 1")

    def wait_for_work(self) -> None:
        end = time.monotonic() + 10
        while not self.state()["busy"]:
            self.assertLess(time.monotonic(), end)
            time.sleep(0.02)
        time.sleep(0.1)

    def assert_same(self, before: Any, after: Any) -> None:
        """The same stack, card and history, whatever the revision."""
        for name in ("stack", "card", "history"):
            self.assertEqual(after[name], before[name])

    def test_many_connections(self) -> None:
        held = [socket.create_connection((HOST, self.port), timeout=20) for _ in range(MOST_CONNECTIONS + 20)]
        for each in held:
            each.close()
        end = time.monotonic() + 10
        while True:
            try:
                self.assertEqual(self.get("state")[0], 200)
                return
            except (OSError, http.client.HTTPException):
                self.assertLess(time.monotonic(), end)

    def test_other_stacks(self) -> None:
        self.say('doMenu "New Card"')
        kind = {"Content-Type": "application/octet-stream"}
        quiz = bytes_of(there("stacks/quiz.stack"))
        seen = self.state()["revision"]
        status, body, _ = self.request("POST", "/%s/open?seen=%d&name=quiz.stack" % (KEY, seen), quiz, kind)
        self.assertEqual((status, json.loads(body)["unsaved"]), (409, True))
        place = "/%s/open?seen=%d&unsaved=drop&name=" % (KEY, seen)
        reply = self.request("POST", place + "bad", b"htstack 2\nnext 3\nname |\\4a\n", kind)
        self.assert_turned_away(reply, 409, "stack refused 1 at line 3")
        self.assertEqual(self.state()["stack"]["cards"], 3)
        self.assertEqual(self.request("POST", place + "..%2F..%2Fquiz.stack", quiz, kind)[0], 200)
        after = self.state()
        self.assertEqual((after["stack"]["name"], after["stack"]["dropped"], after["session"]), ("Quiz", True, 2))
        self.assertEqual(self.request("GET", "/%s/stack" % KEY)[1], quiz)
        self.assertEqual(bytes_of(self.path), self.first_text())
        self.assertEqual(os.path.basename(self.play.path), "quiz.stack")

    def test_quit(self) -> None:
        self.say('doMenu "New Card"')
        seen = self.state()["revision"]
        status, answer = self.post("line", seen=seen, line=".quit")
        self.assertEqual((status, answer["unsaved"]), (409, True))
        status, answer = self.post("line", seen=seen, line=".quit", unsaved=True)
        self.assertEqual((status, answer["ended"]), (200, True))
        status, answer = self.post("line", seen=seen, line="put 1")
        self.assertEqual((status, answer["error"]), (409, "the session has ended"))
        self.assertEqual(self.request("GET", "/%s/stack" % KEY)[0], 200)
        self.assertEqual(len(read(self.play.known.text).cards), 3)


if __name__ == "__main__":
    unittest.main()
