"""Visitors of the servers behind HAProxy: each logs in, asks on, and notes what comes."""
import contextlib
import http.client
import re
import ssl
import threading
import time
import typing

from sites import FORM, LOGIN, LOGIN_PAGE, PAGE, SECONDS

# A visitor that has waited this long has sent its request to the server that is stopped.
WAITED_SECONDS = 0.3
# The seconds between two requests of a visitor.
PAUSE = 0.01


class Turn(typing.NamedTuple):
    """A request: when it began and ended, the server of the cookie that it brought, its path, and the status that came, if one did, and the text."""

    begun: float
    ended: float
    server: str
    path: str
    status: typing.Optional[int]
    text: str


class Visitor(threading.Thread):
    """Logs in over a connection of its own, from an address of its own, and asks on until it is over."""

    def __init__(self, site, over, address):
        super().__init__(daemon=True)
        self.over, self.cookie, self.turns = over, "", []
        self.logins = self.counted = self.miscounted = 0
        self.since = None
        trusted = ssl.create_default_context(cafile=f"{site.folder}/certificate.pem")
        self.peer = http.client.HTTPSConnection(
            "localhost", site.port, timeout=SECONDS, source_address=(address, 0), context=trusted
        )

    def server(self):
        return self.cookie.partition("~")[0]

    def waits(self):
        """Whether it has waited for an answer for a while."""
        since = self.since
        return since is not None and time.monotonic() - since > WAITED_SECONDS

    def take_cookie(self, fields):
        """Takes the session's cookie, if one is set. What it counted was in the session of the server that it leaves."""
        came = re.match("JSESSIONID=([^;]*)", fields or "")
        if came:
            before, self.cookie = self.server(), came[1]
            self.counted = self.counted if self.server() == before else 0

    def ask(self, path, method="GET", body=None):
        """The text that comes, empty where none does."""
        fields = {"Cookie": f"JSESSIONID={self.cookie}"} if self.cookie else {}
        if body:
            fields["Content-Type"] = "application/x-www-form-urlencoded"
        begun, server, status, text = time.monotonic(), self.server(), None, ""
        self.since = begun
        try:
            self.peer.request(method, path, body, fields)
            answer = self.peer.getresponse()
            status, text = answer.status, answer.read().decode()
            self.take_cookie(answer.headers["set-cookie"])
        except (OSError, http.client.HTTPException):
            self.peer.close()
        self.since = None
        self.turns.append(Turn(begun, time.monotonic(), server, path, status, text))
        time.sleep(PAUSE)
        return text

    def turn(self):
        """The protected page, the count of its session, and the file that names the server."""
        page = self.ask(PAGE)
        if page == LOGIN_PAGE:
            self.ask(LOGIN, "POST", FORM)
            self.logins += 1
            return
        count = self.ask("/keep")
        if count.startswith("n="):
            self.counted += 1
            self.miscounted += count != f"n={self.counted}\n"
        self.ask("/server.txt")

    def run(self):
        with contextlib.closing(self.peer):
            while not self.over.is_set():
                self.turn()


@contextlib.contextmanager
def visited(site, count):
    """So many visitors, as long as their user is there."""
    over = threading.Event()
    visitors = [Visitor(site, over, f"127.0.1.{place}") for place in range(1, count + 1)]
    try:
        for visitor in visitors:
            visitor.start()
        yield visitors
    finally:
        over.set()
        for visitor in visitors:
            visitor.join(2 * SECONDS)
