"""The load that bench/speed puts on servers, and its tables: medians, quartiles, ratios and bounds."""
import collections
import os
import re
import select
import socket
import statistics
import subprocess
import sys
import time
from typing import Callable, NamedTuple

from servers import TOP, memory, missed
from sides import CLIENT_CORES, pinned

TICKS_A_SECOND = os.sysconf("SC_CLK_TCK")
PATIENCE = 30
LAST_CHUNK = b"0\r\n\r\n"
# Lines of wrk about missing or wrong answers.
WRONG = re.compile(r"Socket errors.*|Non-2xx.*|wrong answers: [1-9].*")


class Reading(NamedTuple):
    """How connections read: their number, the bytes of each read, the seconds between two reads, and the size of the receive buffer, 0 for the default."""

    count: int
    sip: int
    pause: float = 0
    buffer: int = 0

    def read(self, port, path, content):
        """Reads a file over all connections at once, and ends the script unless each of them gets it."""
        peers = [socket.socket() for _ in range(self.count)]
        for peer in peers:
            if self.buffer:
                peer.setsockopt(socket.SOL_SOCKET, socket.SO_RCVBUF, self.buffer)
            peer.connect(("127.0.0.1", port))
            peer.sendall(Load(path, None).request())
        came = {peer: bytearray() for peer in peers}
        reading = [*peers]
        while reading:
            for peer in select.select(reading, [], [])[0]:
                more = peer.recv(self.sip)
                came[peer] += more
                if not more or len(came[peer]) >= came[peer].find(b"\r\n\r\n") + 4 + len(content):
                    reading.remove(peer)
            time.sleep(self.pause)
        for peer in peers:
            peer.close()
            if came[peer].partition(b"\r\n\r\n")[2] != content:
                sys.exit(f"bench: another answer than {path} was read, of {len(came[peer])} bytes")


class Load(NamedTuple):
    """Requests for wrk: their path, a check of the body as received, chunks included, the number of connections, header fields, and a form to post. With several
    steps, they are the logins of bench/login.lua, which begin at the path and post the form later.
    """

    path: str
    is_right: Callable
    connections: int = 64
    fields: tuple = ()
    form: str = ""
    steps: int = 1

    def is_post(self):
        return bool(self.form) and self.steps == 1

    def request(self):
        """The bytes of one request."""
        fields = [*self.fields]
        if self.is_post():
            fields.append("Content-Type: application/x-www-form-urlencoded")
            fields.append(f"Content-Length: {len(self.form)}")
        if not any(it.startswith("Host: ") for it in fields):
            fields.insert(0, "Host: localhost")
        line = f"{'POST' if self.is_post() else 'GET'} {self.path} HTTP/1.1"
        return "\r\n".join([line, *fields, "", self.form * self.is_post()]).encode()

    def words(self, port, seconds):
        """The command that sends the requests."""
        threads = self.connections if self.steps > 1 else len(CLIENT_CORES)
        words = ["wrk", f"-t{min(self.connections, threads)}", f"-c{self.connections}"]
        words += [
            f"-d{seconds}s",
            f"--timeout={PATIENCE}s",
            *(word for it in self.fields for word in ("-H", it)),
        ]
        if self.form:
            words += ["-s", f"{TOP}/bench/{'form' if self.is_post() else 'login'}.lua"]
        words.append(f"http://127.0.0.1:{port}{self.path}")
        return [*pinned(CLIENT_CORES), *words, *(["--", self.form] if self.form else [])]


def whole_answer(port, request):
    """Sends a request over a new connection. Returns the head of the answer, and the body as received."""
    with socket.create_connection(("127.0.0.1", port), PATIENCE) as peer:
        peer.sendall(request)
        came, is_whole = bytearray(), False
        while not is_whole and (more := peer.recv(1 << 20)):
            came += more
            head, end, body = came.partition(b"\r\n\r\n")
            length = re.search(rb"(?i)\ncontent-length: (\d+)", head)
            is_whole = end and (
                len(body) >= int(length[1]) if length else body.endswith(LAST_CHUNK)
            )
    if not came.startswith(b"HTTP/1.1 200"):
        sys.exit(f"bench: {request[:100]!r} is answered by {bytes(came[:200])!r}")
    return bytes(head + end), bytes(body)


def check(port, load):
    """Ends the script unless the answer is complete and correct."""
    body = whole_answer(port, load.request())[1]
    if not load.is_right(body):
        sys.exit(f"bench: {load.path} is answered by {len(body)} bytes that begin {body[:100]!r}")


def requests_of_wrk(port, load, seconds, front=()):
    """The requests, or logins, that wrk counts within these seconds. `front` precedes its command."""
    words = [*front, *load.words(port, seconds)]
    ran = subprocess.run(
        words, stdin=subprocess.DEVNULL, stdout=subprocess.PIPE, text=True, check=True
    )
    counted = re.search(r"(\d+) requests in", ran.stdout)
    if WRONG.search(ran.stdout) or not int(counted[1]):
        sys.exit(f"bench: {' '.join(words)}\n{ran.stdout}")
    return int(counted[1]) / load.steps


def processor_seconds(number):
    """The processor time of all threads of a process: utime and stime in proc(5)."""
    with open(f"/proc/{number}/stat") as file:
        fields = file.read().rpartition(")")[2].split()
    return (int(fields[11]) + int(fields[12])) / TICKS_A_SECOND


def microseconds(side, number, port, load, seconds):
    """The processor time of the server for each request, in microseconds."""
    check(port, load)
    while processor_seconds(number) < side.warm_up:
        requests_of_wrk(port, load, seconds)
    before = processor_seconds(number)
    count = requests_of_wrk(port, load, seconds)
    return (processor_seconds(number) - before) / count * 1e6


def growth(number, work):
    """The growth of a server's resident memory during some work, at its peak, in KiB."""
    before = memory(number)[1]
    with open(f"/proc/{number}/clear_refs", "w") as file:
        # Resets the peak to the current size (proc(5)).
        file.write("5")
    work()
    return memory(number)[0] - before


def interleaved(sides, starts, measure):
    """Starts each side so many times, in turns, and collects the figures of `measure(side, number, port)`: a list for each row and name of a side."""
    figures = collections.defaultdict(lambda: collections.defaultdict(list))
    for start in range(starts):
        for side in sides[:: -1 if start % 2 else 1]:
            with side.serving() as (number, port):
                for row, figure in measure(side, number, port).items():
                    figures[row][side.name].append(figure)
    return figures


def spread(figures):
    """The median of figures, with their quartiles in parentheses."""
    if len(figures) < 2:
        return text_of(figures[0])
    first, median, third = statistics.quantiles(figures, n=4, method="inclusive")
    return f"{text_of(median)} ({text_of(first)} to {text_of(third)})"


def text_of(figure):
    """A figure with at least three significant digits."""
    return f"{figure:,.0f}" if figure >= 100 else f"{figure:.3g}"


def bounded(figure, most, row):
    """The text of a bound, which notes a figure that misses it; empty if there is no bound."""
    if most is None:
        return ""
    if figure > most:
        missed.append(f"{row}: {text_of(figure)}, at most {text_of(most)}")
    return f"{text_of(most)}{' MISSED' if figure > most else ''}"


def print_head(title, *columns):
    print(f"\n{title}\n\n| {' | '.join(columns)} |\n|{'---|' * len(columns)}")


def print_line(*cells):
    print(f"| {' | '.join(cells)} |", flush=True)


def print_figure(row, figures, most=None):
    """Prints a row of one server: the median, and the greatest figure with its bound."""
    print_line(row, spread(figures), text_of(max(figures)), bounded(max(figures), most, row))


def print_comparison(title, figures, bounds):
    """Prints a table that compares the first side with each other one. `bounds` has those of ratios, by row and name of the side."""
    print_head(title, "Work", "`run`", "Compared with", "Its figure", "Ratio", "Bound")
    for row, (ours, *others) in ((row, by_side.items()) for row, by_side in figures.items()):
        for name, theirs in others:
            ratios = [one / other for one, other in zip(ours[1], theirs, strict=True)]
            most = bounded(statistics.median(ratios), bounds.get((row, name)), f"{row}, {name}")
            print_line(row, spread(ours[1]), name, spread(theirs), spread(ratios), most)
