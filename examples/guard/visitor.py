"""A client with cookies, and raw requests."""
from __future__ import annotations

import contextlib
import http.client
import http.cookies
import socket
import ssl
import urllib.parse
from typing import Iterator, NamedTuple, Optional, Union

# A machine under load takes long to answer.
SECONDS = 90
# After its last answer, a server has no more to say if it is silent for so long.
SILENT_SECONDS = 0.3
HTML = {"Accept": "text/html,application/xhtml+xml,*/*;q=0.8"}
PASSWORDS = {
    "ann": "violet",
    "ben": "harbor",
    "eve": "lantern",
    "zoé tan": "linden",
    "max": "maple",
}
COOKIE = "GUARDSESSION"


class Answer(NamedTuple):
    """What a client receives."""

    status: int
    fields: http.client.HTTPMessage
    text: str

    def field(self, name: str) -> str:
        """All values of a field, joined by commas."""
        return ", ".join(self.fields.get_all(name) or [])


class Visitor:
    """A client at a port. It keeps the cookies that it receives, and sends them to the paths that they are for (RFC 6265, section 5.1.4)."""

    def __init__(self, port: int, address: str = "127.0.0.1") -> None:
        self.port, self.address, self.seconds = port, address, SECONDS
        self.certificate: Optional[str] = None
        self.jar: dict[tuple[str, str], str] = {}

    def cookies(self, target: str) -> str:
        """The value of the field Cookie for a target."""
        return "; ".join(
            f"{name}={value}"
            for (name, path), value in self.jar.items()
            if f"{target.partition('?')[0]}/".startswith(f"{path.rstrip('/')}/")
        )

    def connection(self) -> http.client.HTTPConnection:
        """A new connection: over TLS if there is a certificate to trust."""
        source = (self.address, 0)
        if self.certificate is None:
            return http.client.HTTPConnection("127.0.0.1", self.port, self.seconds, source)
        context = ssl.create_default_context(cafile=self.certificate)
        return http.client.HTTPSConnection(
            "localhost", self.port, timeout=self.seconds, source_address=source, context=context
        )

    def ask(
        self,
        method: str,
        target: str,
        fields: Optional[dict[str, str]] = None,
        body: Union[bytes, Iterator[bytes], None] = None,
    ) -> Answer:
        """Sends a request on a connection of its own. A body in pieces is sent as chunks."""
        peer = self.connection()
        cookies = self.cookies(target)
        sent = {**({"Cookie": cookies} if cookies else {}), **(HTML if fields is None else fields)}
        is_in_pieces = body is not None and not isinstance(body, bytes)
        if is_in_pieces:
            sent["Transfer-Encoding"] = "chunked"
        with contextlib.closing(peer):
            peer.request(method, target, body, sent, encode_chunked=is_in_pieces)
            answer = peer.getresponse()
            text = answer.read().decode("latin-1")
        self._keep(answer.headers.get_all("Set-Cookie") or [])
        return Answer(answer.status, answer.headers, text)

    def get(self, target: str, **fields: str) -> Answer:
        """Asks as a browser does, with further fields whose names have `_` in place of `-`."""
        named = {name.replace("_", "-"): value for name, value in fields.items()}
        return self.ask("GET", target, {**HTML, **named})

    def log_in(self, name: str, target: str = "/members/", password: str = "") -> Answer:
        """Asks for a protected page, and answers its form, which is relative to it."""
        self.get(target)
        names = {"j_username": name, "j_password": password or PASSWORDS[name]}
        form = urllib.parse.urlencode(names).encode()
        place = f"{target.rpartition('/')[0]}/j_security_check"
        fields = {**HTML, "Content-Type": "application/x-www-form-urlencoded"}
        return self.ask("POST", place, fields, form)

    def _keep(self, values: list[str]) -> None:
        for value in values:
            for name, it in http.cookies.SimpleCookie(value).items():
                self.jar[name, it["path"] or "/"] = it.value


def raw(port: int, text: bytes, answers: int = 0) -> bytes:
    """What a server sends for these bytes until it closes the connection. After so many answers, if not 0, it is until the server is silent."""
    came = b""
    with socket.create_connection(("127.0.0.1", port), timeout=SECONDS) as peer:
        peer.sendall(text)
        with contextlib.suppress(TimeoutError, ConnectionResetError):
            while piece := peer.recv(65536):
                came += piece
                if answers and came.count(b"HTTP/1.1 ") >= answers:
                    peer.settimeout(SILENT_SECONDS)
    return came


def raw_status(port: int, request_line: str, *fields: str) -> int:
    """The status of the answer to a request whose head has just these lines."""
    lines = [request_line, "Host: localhost", "Connection: close", *fields, "", ""]
    return int(raw(port, "\r\n".join(lines).encode("latin-1")).split(b" ", 2)[1])
