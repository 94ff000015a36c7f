"""The application of the tests: it keeps each request that arrives, and answers as the query asks."""
from __future__ import annotations

import contextlib
import hashlib
import http.server
import socket
import threading
import time
import urllib.parse
from typing import Iterator, NamedTuple

LARGE = 32 * 1024 * 1024
# The system keeps few bytes of an answer that nginx does not take.
SEND_BUFFER = 16 * 1024
ETAG = '"one"'
CONTENT = b"0123456789"


class Arrived(NamedTuple):
    """A request that arrived at the application."""

    method: str
    target: str
    fields: dict[str, str]
    length: int
    digest: str


class Recorder(http.server.ThreadingHTTPServer):
    """A server that keeps the requests that arrive."""

    daemon_threads = True
    # Room for the connections of a load.
    request_queue_size = 512

    def __init__(self) -> None:
        super().__init__(("127.0.0.1", 0), _Handler)
        self.arrived: list[Arrived] = []
        # Set when a large answer has been sent.
        self.sent = threading.Event()

    @property
    def port(self) -> int:
        return self.server_address[1]

    def get_request(self) -> tuple[socket.socket, tuple[str, int]]:
        peer, address = super().get_request()
        peer.setsockopt(socket.SOL_SOCKET, socket.SO_SNDBUF, SEND_BUFFER)
        return peer, address

    def handle_error(self, *_where: object) -> None:
        """Takes the end of a connection for no fault: clients of the tests go away early."""

    def taken(self) -> list[Arrived]:
        """The requests that arrived since the last call."""
        taken, self.arrived = self.arrived, []
        return taken


class _Handler(http.server.BaseHTTPRequestHandler):
    protocol_version = "HTTP/1.1"
    server: Recorder

    def _answer(self) -> None:
        body = self.rfile.read(int(self.headers.get("Content-Length") or 0))
        fields: dict[str, str] = {"version": self.request_version}
        for name, value in self.headers.items():
            key = name.lower()
            fields[key] = f"{fields[key]}, {value}" if key in fields else value
        digest = hashlib.sha256(body).hexdigest()
        self.server.arrived.append(Arrived(self.command, self.path, fields, len(body), digest))
        query = dict(urllib.parse.parse_qsl(self.path.partition("?")[2]))
        kind = query.pop("answer", "plain")
        getattr(self, f"_answer_{kind}")(query)

    def _send(self, status: int, fields: dict[str, str], body: bytes) -> None:
        self.send_response(status)
        for name, value in fields.items():
            self.send_header(name, value)
        if "Transfer-Encoding" not in fields and status != 304:
            self.send_header("Content-Length", str(len(body)))
        self.end_headers()
        if self.command != "HEAD":
            self.wfile.write(body)

    def _answer_plain(self, query: dict[str, str]) -> None:
        """Answers with the status and the fields of the query, and the number of requests so far."""
        status = int(query.pop("status", "200"))
        self._send(status, {"Content-Type": "text/plain", **query}, f"{time.time_ns()}\n".encode())

    def _answer_pieces(self, query: dict[str, str]) -> None:
        """Answers in two chunks."""
        chunked = {"Content-Type": "text/plain", "Transfer-Encoding": "chunked", **query}
        self._send(200, chunked, b"3\r\none\r\n")
        if self.command != "HEAD":
            self.wfile.write(b"3\r\ntwo\r\n0\r\n\r\n")

    def _answer_large(self, query: dict[str, str]) -> None:
        """Answers with so many bytes, by default more than the buffers of two connections hold."""
        length = int(query.pop("length", LARGE))
        self._send(200, query, bytes(length))
        self.server.sent.set()

    def _answer_part(self, _query: dict[str, str]) -> None:
        """Answers with ten bytes, the range that the client requests, or 304 if it has them (RFC 9110, sections 13 and 14)."""
        if self.headers.get("If-None-Match") == ETAG:
            self._send(304, {"ETag": ETAG}, b"")
        elif self.headers.get("Range") == "bytes=2-4":
            field = f"bytes 2-4/{len(CONTENT)}"
            self._send(206, {"ETag": ETAG, "Content-Range": field}, CONTENT[2:5])
        else:
            self._send(200, {"ETag": ETAG, "Accept-Ranges": "bytes"}, CONTENT)

    do_GET = do_HEAD = do_POST = do_PUT = do_DELETE = do_OPTIONS = do_PATCH = _answer

    def log_message(self, *_words: object) -> None:
        """Writes no log."""


@contextlib.contextmanager
def recorder() -> Iterator[Recorder]:
    """A running recorder."""
    with Recorder() as server:
        threading.Thread(target=server.serve_forever, daemon=True).start()
        yield server
        server.shutdown()
