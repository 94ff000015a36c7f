"""Connections to the attacked server, and the counts of an attack."""
import asyncio
import collections
import dataclasses
import os
import socket
import struct

# How long an answer that is due may take under attack.
PATIENCE = 5


@dataclasses.dataclass
class Tally:
    """The counts of an attack and of its results, and a line for each miss."""

    name: str
    expected: str
    sent: int = 0
    closed: int = 0
    back: collections.Counter = dataclasses.field(default_factory=collections.Counter)
    misses: list = dataclasses.field(default_factory=list)

    def miss(self, text):
        self.misses.append(f"{self.name}: {text}")

    def hold(self, good, text):
        if not good:
            self.miss(text)

    def count(self, answers):
        self.back.update(str(it.status) for it in answers)
        if not answers:
            self.back["nothing"] += 1


class Peer:
    """A connection of a client with addresses of its own, so that ports are not used up."""

    def __init__(self, port, room=None):
        self.socket = socket.socket()
        self.socket.setblocking(False)
        self.socket.setsockopt(socket.IPPROTO_TCP, socket.TCP_NODELAY, 1)
        if room is not None:
            self.socket.setsockopt(socket.SOL_SOCKET, socket.SO_RCVBUF, room)
        one, two, three = (1 + it % 254 for it in os.urandom(3))
        self.socket.bind((f"127.{one}.{two}.{three}", 0))
        self.port = port

    async def __aenter__(self):
        await asyncio.wait_for(
            asyncio.get_running_loop().sock_connect(self.socket, ("127.0.0.1", self.port)), 15
        )
        return self

    async def __aexit__(self, *_):
        self.socket.close()

    async def send(self, text):
        """Whether the peer took it all."""
        try:
            await asyncio.get_running_loop().sock_sendall(self.socket, text)
        except (ConnectionResetError, BrokenPipeError):
            return False
        return True

    def end_writing(self):
        try:
            self.socket.shutdown(socket.SHUT_WR)
        except OSError:
            pass  # The server has ended the connection already.

    def reset(self):
        self.socket.setsockopt(socket.SOL_SOCKET, socket.SO_LINGER, struct.pack("ii", 1, 0))
        self.socket.close()

    async def read(self, patience, most=65536):
        """The next bytes; none at the end, or if the connection was reset."""
        try:
            return await asyncio.wait_for(
                asyncio.get_running_loop().sock_recv(self.socket, most), patience
            )
        except ConnectionResetError:
            return b""

    async def read_to_end(self, patience):
        """All that comes, and whether the server ended the connection within that time of its last bytes."""
        text = bytearray()
        try:
            while part := await self.read(patience):
                text += part
        except asyncio.TimeoutError:
            return bytes(text), False
        return bytes(text), True


async def asked_once(port, text, patience=PATIENCE):
    """The response to these bytes. Writing ends after them."""
    async with Peer(port) as peer:
        await peer.send(text)
        peer.end_writing()
        return await peer.read_to_end(patience)


async def together(count, attack):
    """Runs an attack so many times at once; it gets its number."""
    await asyncio.gather(*(attack(it) for it in range(count)))
