"""What tests of the page's server share: a server on a copy of a stack, and requests to it."""

import http.client
import json
import socket
import threading
from typing import Any, Dict, Optional, Tuple

from front.server_desk import PageDesk
from front.server_door import HOST, Door
from front.server_play import Options, Play
from front.tests.support import FolderTest, bytes_of, there

KEY = "the-key-of-this-test"
MOST_STEPS = 10_000_000


class ServerTest(FolderTest):
    """A server on a copy of the to-do stack."""

    stack = "stacks/to_do.stack"

    def setUp(self) -> None:
        super().setUp()
        self.path = self.put("to_do.stack", self.first_text())
        self.play = Play(self.path, Options(steps=MOST_STEPS))
        self.addCleanup(self.play.close)
        self.door = Door(PageDesk(self.play), KEY)
        self.addCleanup(self.door.server_close)
        threading.Thread(target=self.door.serve_forever, kwargs={"poll_interval": 0.01}, daemon=True).start()
        self.addCleanup(self.door.shutdown)
        self.port = self.door.server_address[1]

    def first_text(self) -> bytes:
        return bytes_of(there(self.stack))

    def request(self, method: str, path: str, body: Optional[bytes] = None,
                headers: Optional[Dict[str, str]] = None) -> Tuple[int, bytes, http.client.HTTPMessage]:
        """Sends a request as a browser would, and gives the status, the body and the headers of the answer."""
        connection = http.client.HTTPConnection(HOST, self.port, timeout=20)
        self.addCleanup(connection.close)
        connection.request(method, path, body, headers or {})
        reply = connection.getresponse()
        return reply.status, reply.read(), reply.headers

    def get(self, name: str, headers: Optional[Dict[str, str]] = None) -> Tuple[int, Any]:
        status, body, _ = self.request("GET", "/%s/%s" % (KEY, name), headers=headers)
        return status, json.loads(body)

    def post(self, name: str, **values: object) -> Tuple[int, Any]:
        """Posts values as the page does."""
        sent = {"Content-Type": "application/json", "Origin": "http://%s:%d" % (HOST, self.port)}
        status, body, _ = self.request("POST", "/%s/%s" % (KEY, name), json.dumps(values).encode(), sent)
        return status, json.loads(body)

    def say(self, line: str) -> Any:
        """Sends a line from a page that has seen the last revision."""
        status, answer = self.post("line", seen=self.state()["revision"], line=line)
        self.assertEqual(status, 200, answer)
        return answer

    def state(self) -> Any:
        return self.get("state")[1]

    def raw(self, sent: bytes) -> bytes:
        """All that is answered to these bytes, up to the end of the connection."""
        with socket.create_connection((HOST, self.port), timeout=20) as connection:
            connection.sendall(sent)
            connection.shutdown(socket.SHUT_WR)
            answer = b""
            while True:
                block = connection.recv(65536)
                if not block:
                    return answer
                answer += block

    def pid(self) -> int:
        return self.play.session.pid

    def assert_turned_away(self, reply: Tuple[int, bytes, http.client.HTTPMessage], status: int, words: str) -> None:
        self.assertEqual(reply[0], status, reply[1])
        self.assertIn(words, json.loads(reply[1])["error"])
