"""Takes a program that serves many connections through the steps of a case.

cases/README.md describes the steps."""

import contextlib
import os
import re
import socket
import struct
import subprocess
import threading
import time

# The value of SO_LINGER with which a close resets a connection.
RESETS = struct.pack("ii", 1, 0)
ID = re.compile(rb"ID[1-9]")
# The number of events varies, since a tick is one.
EVENTS = re.compile(rb" events \d+ ")
# The digits of a session id.
DIGITS = 48
# How often `holds` reads a file before it fails, ten times a second.
WAITS = 30
# How often `replaced` looks for a new file before it fails, ten times a second.
LOOKS = 100


# What differs from run to run in a journal or an access log, and the words that stand for it in a case.
VARYING = (
    (re.compile(rb"(?m)^\d+ "), b"MOMENT "),
    (re.compile(rb"\[\d\d/[A-Z][a-z][a-z]/\d{4}:\d\d:\d\d:\d\d \+0000\]"), b"[TIME]"),
    (re.compile(rb'"\d{4}-\d\d-\d\dT\d\d:\d\d:\d\dZ"'), b'"TIME"'),
    (re.compile(rb'"micros":\d+'), b'"micros":MICROS'),
)


def varying(text):
    """The text of a file with words for what differs from run to run."""
    for pattern, word in VARYING:
        text = pattern.sub(word, text)
    return text


class Fault(Exception):
    """Says why a step failed."""


class Peer:
    """A connection, and the bytes received that no step has expected yet."""

    def __init__(self, stream):
        self.stream, self.received = stream, b""

    def read(self):
        """Reads once, and returns whether there were any bytes."""
        more = self.stream.recv(65_536)
        dated = re.sub(rb"(?m)^date: [^\r\n]*\r", b"date: DATE\r", self.received + more)
        self.received = EVENTS.sub(b" events EVENTS ", dated)
        return bool(more)

    def reset(self):
        self.stream.setsockopt(socket.SOL_SOCKET, socket.SO_LINGER, RESETS)
        self.stream.close()


class Program:
    """The program, and what it has printed."""

    def __init__(self, command, room, seconds):
        self.command, self.room, self.seconds = command, room, seconds
        self.stdout, self.stderr = b"", b""
        self.start()

    def start(self, more=()):
        """Starts the program, with more arguments."""
        self.status = None
        self.running = subprocess.Popen(
            [*self.command, *more],
            cwd=self.room,
            stdin=subprocess.DEVNULL,
            stdout=subprocess.PIPE,
            stderr=subprocess.PIPE,
        )
        self.stop = threading.Timer(self.seconds, self.running.kill)
        self.stop.start()
        line = self.running.stdout.readline()
        place = re.fullmatch(rb"listening (?:(.+):)?(\d+)\n", line)
        self.stdout += line[: place.start(2)] + b"PORT\n" if place else line
        self.address = (
            ((place[1] or b"127.0.0.1").decode().strip("[]"), int(place[2])) if place else None
        )

    def kill(self):
        """Kills the program if it still runs; then its status is `killed`."""
        runs = self.running.poll() is None
        self.running.kill()
        self.wait("killed" if runs else None)

    def wait(self, status=None):
        """Waits until the program has ended."""
        stdout, stderr = self.running.communicate()
        self.stop.cancel()
        self.stdout += stdout
        self.stderr += stderr
        self.status = b"%s\n" % (status or str(self.running.returncode)).encode()


class Steps:
    """The steps, and the connections that they have opened: a method for each step."""

    def __init__(self, program):
        self.program, self.peers, self.ids = program, {}, {}

    def open(self, name):
        if not self.program.address:
            raise Fault("the program does not listen")
        self.peers[name] = Peer(
            socket.create_connection(self.program.address, self.program.seconds)
        )

    def connect(self, name, file):
        stream = socket.socket(socket.AF_UNIX)
        stream.settimeout(self.program.seconds)
        self.peers[name] = Peer(stream)
        stream.connect(f"{self.program.room}/{file.decode()}")

    def send(self, name, text):
        with contextlib.suppress(ConnectionError):
            self.put(name, text)

    def put(self, name, text):
        self.peers[name].stream.sendall(self.with_ids(text))

    def expect(self, name, text):
        peer = self.peers[name]
        while len(peer.received) < len(self.with_ids(text)):
            if not peer.read():
                raise Fault(f"the connection ended after {peer.received!r}")
        self.learn_ids(text, peer.received)
        expected = self.with_ids(text)
        if not peer.received.startswith(expected):
            raise Fault(f"received {peer.received!r}")
        peer.received = peer.received[len(expected) :]

    def with_ids(self, text):
        """A text with the digits of each ID, or question marks for those that are not known."""
        return ID.sub(lambda it: self.ids.get(it[0], b"?" * DIGITS), text)

    def learn_ids(self, text, received):
        """Gives each new ID of a text the digits received in its place, unless another has them."""
        for it in ID.finditer(text):
            start = len(self.with_ids(text[: it.start()]))
            digits = received[start : start + DIGITS]
            if (
                it[0] not in self.ids
                and digits not in self.ids.values()
                and not digits.strip(b"0123456789abcdef")
            ):
                self.ids[it[0]] = digits

    def holds(self, name, text):
        expected, held = self.with_ids(text), None
        for _ in range(WAITS):
            with contextlib.suppress(FileNotFoundError), open(self.path(name), "rb") as file:
                held = varying(file.read())
            if held == expected:
                return
            time.sleep(0.1)
        raise Fault(f"the file holds {held!r}")

    def replaced(self, name):
        """Waits until the program has given a file its name twice: the second one was begun after this step."""
        last = self.version(name)
        left = 2
        for _ in range(LOOKS):
            found = self.version(name)
            if found not in (None, last):
                last, left = found, left - 1
            if not left:
                return
            time.sleep(0.1)
        raise Fault("the file was not replaced twice")

    def version(self, name):
        """What tells a file from a later one of the same name; None if there is none."""
        with contextlib.suppress(FileNotFoundError):
            found = os.stat(self.path(name))
            return found.st_ino, found.st_mtime_ns
        return None

    def end(self, name):
        self.peers[name].stream.shutdown(socket.SHUT_WR)

    def ended(self, name):
        while self.peers[name].read():
            pass
        if self.peers[name].received:
            raise Fault(f"received {self.peers[name].received!r}")

    def gone(self, name):
        with contextlib.suppress(ConnectionError):
            self.ended(name)

    def reset(self, name):
        self.peers.pop(name).reset()

    def wait(self, seconds):
        time.sleep(float(seconds))

    def restart(self):
        self.program.kill()
        self.program.start()

    def over(self):
        self.program.wait()

    def again(self, first="", rest=b""):
        if not self.program.status:
            self.program.wait()
        if self.program.status != b"0\n":
            raise Fault(f"the program ended with status {self.program.status.decode().strip()}")
        self.program.start([*first.encode().split(), *rest.split()])

    def write(self, name, text):
        with open(self.path(name), "wb") as file:
            file.write(self.with_ids(text))

    def cut(self, name, count):
        path = self.path(name)
        os.truncate(path, os.path.getsize(path) - int(count))

    def turn(self, name, place):
        with open(self.path(name), "r+b") as file:
            file.seek(int(place), os.SEEK_SET if int(place) >= 0 else os.SEEK_END)
            byte = file.read(1)
            file.seek(-1, os.SEEK_CUR)
            file.write(bytes([byte[0] ^ 1]))

    def move(self, name, other):
        os.rename(self.path(name), self.path(other.decode()))

    def modes(self, folder, text):
        path = self.path(folder)
        found = [f"{os.stat(path).st_mode & 0o7777:o} {folder}"]
        for name in sorted(os.listdir(path)):
            found.append(f"{os.stat(f'{path}/{name}').st_mode & 0o7777:o} {folder}/{name}")
        if "".join(f"{line}\n" for line in found).encode() != text:
            raise Fault(f"the modes are {found}")

    def path(self, name):
        """The path of a file of the folder that the program runs in."""
        return f"{self.program.room}/{name}"


def run_steps(command, room, steps, seconds):
    """What the program gives when it is taken through the steps, and why a step failed, if any."""
    program = Program(command, room, seconds)
    walk = Steps(program)
    fault = b""
    try:
        for place, (word, *rest) in enumerate(steps, 1):
            getattr(walk, word)(*rest)
    except (Fault, OSError) as error:
        fault = f"{place}, {word} {rest}: {error}".encode()
    finally:
        if not program.status:
            program.kill()
        for peer in walk.peers.values():
            peer.stream.close()
    return {
        "stdout": program.stdout,
        "stderr": program.stderr,
        "status": program.status,
        "step": fault,
    }
