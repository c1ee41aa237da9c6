"""The door of the page's server: HTTP on 127.0.0.1, and who is let in.

Each request has to name the very host and port that the server listens on, and begin its path with the key; a request
that comes from a page of another origin is turned away, also with the right key. A body has to say its length, and one
that is too long is turned away before it is read. Only what the desk behind the door knows by name is answered.
"""

import hmac
import json
import socket
import threading
import traceback
import urllib.parse
from dataclasses import dataclass, field
from http import HTTPStatus
from http.server import BaseHTTPRequestHandler, ThreadingHTTPServer
from typing import Any, Dict, Optional, Protocol

HOST = "127.0.0.1"
# The most bytes of a body: a line or a script with all that JSON adds; and a stack's text.
MOST_OF_REQUEST = 1_000_000
MOST_OF_STACK = 64_000_000
# A client that was turned away is still read this far, so that it finds the answer before the connection ends.
MOST_TO_DRAIN = 4_000_000
SECONDS_TO_DRAIN = 1.0
SECONDS_OF_SILENCE = 60.0
MOST_CONNECTIONS = 64
# What a browser says of a request that the page makes itself, and of an address that is typed or pasted.
OWN_SITES = {"same-origin", "none"}

POLICY = ("default-src 'none'; script-src 'self'; style-src 'self'; connect-src 'self'; img-src data:; "
          "base-uri 'none'; form-action 'none'; frame-ancestors 'none'")
HEADERS = {
    "Cache-Control": "no-store",
    "Referrer-Policy": "same-origin",
    "X-Content-Type-Options": "nosniff",
    "X-Frame-Options": "DENY",
    "Cross-Origin-Resource-Policy": "same-origin",
    "Cross-Origin-Opener-Policy": "same-origin",
    "Content-Security-Policy": POLICY,
}


class TurnedAway(Exception):
    """A request that isn't answered as it wishes: the status, and words for people."""

    def __init__(self, status: HTTPStatus, words: str) -> None:
        super().__init__(words)
        self.status, self.words = status, words


@dataclass
class Reply:
    """An answer: its bytes, their type, the status, and the name of the file under which it is to be kept, if any."""

    body: bytes
    type: str = "application/json"
    status: HTTPStatus = HTTPStatus.OK
    file: str = ""


@dataclass
class Asked:
    """A request that was let in: the name behind the key, the words of its query, and the body of a post."""

    name: str
    query: Dict[str, str] = field(default_factory=dict)
    body: bytes = b""
    posted: bool = False

    def object(self) -> Dict[str, Any]:
        """The body as an object of JSON; the words of the query where nothing was posted."""
        if not self.posted:
            return dict(self.query)
        try:
            found = json.loads(self.body.decode("utf-8")) if self.body else {}
        except (ValueError, RecursionError):
            raise TurnedAway(HTTPStatus.BAD_REQUEST, "the request isn't JSON") from None
        if not isinstance(found, dict):
            raise TurnedAway(HTTPStatus.BAD_REQUEST, "the request isn't an object of JSON")
        return found


class Desk(Protocol):
    """What stands behind the door."""

    def takes_stack(self, name: str) -> bool:
        """Whether the body of such a post is a stack's text."""

    def answer(self, asked: Asked) -> Reply:
        """Answers a request that was let in; raises TurnedAway."""


def json_reply(value: object, status: HTTPStatus = HTTPStatus.OK) -> Reply:
    """An answer in JSON; every character outside ASCII is written as an escape."""
    return Reply(json.dumps(value, separators=(",", ":")).encode("ascii"), status=status)


class Door(ThreadingHTTPServer):
    """The server. `address` is what people open."""

    daemon_threads = True
    request_queue_size = 32

    def __init__(self, desk: Desk, key: str, port: int = 0) -> None:
        """Listens at the port, or at a free one for 0. Raises OSError where it can't."""
        super().__init__((HOST, port), Guard)
        self.desk, self.key = desk, key
        self.authority = "%s:%d" % (HOST, self.server_address[1])
        self.address = "http://%s/%s/" % (self.authority, key)
        self._room = threading.BoundedSemaphore(MOST_CONNECTIONS)

    def process_request(self, request: Any, client_address: Any) -> None:
        if not self._room.acquire(blocking=False):
            self.shutdown_request(request)
            return
        super().process_request(request, client_address)

    def process_request_thread(self, request: Any, client_address: Any) -> None:
        try:
            super().process_request_thread(request, client_address)
        finally:
            self._room.release()

    def handle_error(self, request: Any, client_address: Any) -> None:
        """A connection that broke is nobody's fault here; all else is answered by the guard."""


class Guard(BaseHTTPRequestHandler):
    """One connection."""

    protocol_version = "HTTP/1.1"
    server_version = "play"
    sys_version = ""
    timeout = SECONDS_OF_SILENCE
    server: Door

    def do_GET(self) -> None:
        self._serve(posted=False)

    def do_POST(self) -> None:
        self._serve(posted=True)

    def handle_expect_100(self) -> bool:
        """Says `go on` only to a body that will be taken."""
        try:
            self._length(self._name_let_in())
        except TurnedAway as away:
            self._turn_away(away)
            return False
        return super().handle_expect_100()

    def log_message(self, format: str, *args: object) -> None:
        """Nothing is logged: the address has the key."""

    def send_error(self, code: int, message: Optional[str] = None, explain: Optional[str] = None) -> None:
        """What the library turns away by itself, such as a method that isn't known."""
        status = HTTPStatus(code)
        self._turn_away(TurnedAway(status, message or status.phrase))

    def _serve(self, posted: bool) -> None:
        try:
            name = self._name_let_in()
            body = self._body(name) if posted else self._no_body()
            reply = self._answered(Asked(name, self._query(), body, posted))
        except TurnedAway as away:
            self._turn_away(away)
            return
        self._send(reply)

    def _answered(self, asked: Asked) -> Reply:
        """What the desk answers. An error of its own is told too, and stands on standard error."""
        try:
            return self.server.desk.answer(asked)
        except TurnedAway:
            raise
        except Exception as error:
            traceback.print_exc()
            words = "the page's server met an error of its own: %s: %s" % (type(error).__name__, error)
            raise TurnedAway(HTTPStatus.INTERNAL_SERVER_ERROR, words) from None

    def _name_let_in(self) -> str:
        """What stands behind the key in the path. Raises TurnedAway where the request isn't let in."""
        if self.headers.get_all("Host") != [self.server.authority]:
            raise TurnedAway(HTTPStatus.FORBIDDEN, "this server answers to %s alone" % self.server.authority)
        origins = self.headers.get_all("Origin") or []
        sites = self.headers.get_all("Sec-Fetch-Site") or []
        if any(each != "http://" + self.server.authority for each in origins) or not set(sites) <= OWN_SITES:
            raise TurnedAway(HTTPStatus.FORBIDDEN, "a page of another origin is turned away: type or paste the address")
        key, _, name = self.path.partition("?")[0][1:].partition("/")
        if not hmac.compare_digest(key.encode("utf-8", "replace"), self.server.key.encode("ascii")):
            raise TurnedAway(HTTPStatus.FORBIDDEN, "the key is missing or wrong: open the address that ./play printed")
        return name

    def _query(self) -> Dict[str, str]:
        pairs = urllib.parse.parse_qsl(self.path.partition("?")[2], keep_blank_values=True)
        return dict(pairs)

    def _length(self, name: str) -> int:
        """The length of the body. Raises TurnedAway where it isn't said or too great."""
        if self.headers.get("Transfer-Encoding") is not None:
            raise TurnedAway(HTTPStatus.LENGTH_REQUIRED, "a body has to say its length")
        said = self.headers.get_all("Content-Length") or []
        if len(said) != 1 or not said[0].isascii() or not said[0].isdigit():
            raise TurnedAway(HTTPStatus.LENGTH_REQUIRED, "a body has to say its length")
        most = MOST_OF_STACK if self.server.desk.takes_stack(name) else MOST_OF_REQUEST
        if len(said[0]) > 12 or int(said[0]) > most:
            raise TurnedAway(HTTPStatus.REQUEST_ENTITY_TOO_LARGE,
                             "the request has %s bytes, and %d are the most here" % (said[0][:20], most))
        return int(said[0])

    def _body(self, name: str) -> bytes:
        length = self._length(name)
        kind = self.headers.get_content_type()
        wanted = "application/octet-stream" if self.server.desk.takes_stack(name) else "application/json"
        if kind != wanted:
            raise TurnedAway(HTTPStatus.UNSUPPORTED_MEDIA_TYPE, "the body has to be of the type " + wanted)
        body = self.rfile.read(length)
        if len(body) < length:
            raise TurnedAway(HTTPStatus.BAD_REQUEST, "the request ended too early")
        return body

    def _no_body(self) -> bytes:
        if self.headers.get("Content-Length", "0") != "0" or self.headers.get("Transfer-Encoding") is not None:
            raise TurnedAway(HTTPStatus.BAD_REQUEST, "a request that only looks has no body")
        return b""

    def _turn_away(self, away: TurnedAway) -> None:
        """Answers with the words, ends the connection, and drops what still comes in, up to a limit."""
        self.close_connection = True
        in_json = json.dumps({"error": away.words}).encode("ascii")
        self._send(Reply(in_json, "application/json", away.status))
        self._drain()

    def _send(self, reply: Reply) -> None:
        self.send_response(reply.status)
        for name, value in HEADERS.items():
            self.send_header(name, value)
        self.send_header("Content-Type", reply.type + "; charset=utf-8")
        self.send_header("Content-Length", str(len(reply.body)))
        if reply.file:
            name = urllib.parse.quote(reply.file, safe="")
            self.send_header("Content-Disposition", "attachment; filename*=UTF-8''" + name)
        if self.close_connection:
            self.send_header("Connection", "close")
        self.end_headers()
        self.wfile.write(reply.body)
        self.wfile.flush()

    def _drain(self) -> None:
        connection: socket.socket = self.connection
        try:
            connection.shutdown(socket.SHUT_WR)
            connection.settimeout(SECONDS_TO_DRAIN)
            for _ in range(MOST_TO_DRAIN // 65536):
                if not connection.recv(65536):
                    return
        except OSError:
            pass

