"""Peers that are slow: with heads, with bodies, with reading."""
import asyncio
import time

from attacking.messages import asked
from attacking.peers import Peer, Tally, together
from attacking.site import LARGE

HEADS = 200
BODIES = 100
BRISK = 20
STOPPED = 100
# docs/LIMITS.md: 10 seconds; the clock counts whole ones, and looks once a second.
GIVEN_UP = (9, 12.5)
# The system accepts the rest of the buffer when the first window of 10 seconds ends, so a second one follows.
STOPPED_SECONDS = 24
PIPELINED = 24


async def drip(peer, parts, pause):
    """Sends the parts one by one, until they end or the connection does."""
    for part in parts:
        if not await peer.send(part):
            return
        await asyncio.sleep(pause)


async def given_up(port, tally, parts, pause):
    """Sends this slowly, and must be closed in time without a response."""
    async with Peer(port) as peer:
        begun = time.monotonic()
        tally.sent += 1
        sending = asyncio.create_task(drip(peer, parts, pause))
        try:
            text, ended = await peer.read_to_end(2 * GIVEN_UP[1])
        finally:
            sending.cancel()
        seconds = time.monotonic() - begun
    tally.closed += ended
    tally.back["bytes" if text else "nothing"] += 1
    tally.hold(
        ended and not text and GIVEN_UP[0] <= seconds <= GIVEN_UP[1],
        f"not given up in time; ended {ended} after {seconds:.1f} s with {text[:60]!r}",
    )


async def slow_heads(port):
    tally = Tally("slow heads", f"given up {GIVEN_UP[0]} to {GIVEN_UP[1]} s behind the first byte")
    head = asked(b"GET", b"/who", b"X: " + b"y" * 100 + b"\r\n")
    parts = [head[it : it + 1] for it in range(len(head))]
    await together(HEADS, lambda number: given_up(port, tally, parts, 1 + number % 4))
    return tally


async def slow_bodies(port):
    tally = Tally(
        "slow bodies, 800 bytes a second",
        f"given up {GIVEN_UP[0]} to {GIVEN_UP[1]} s behind the first byte",
    )
    sized = [asked(b"POST", b"/who", b"Content-Length: 100000\r\n")] + [b"x" * 800] * 100
    chunked = [asked(b"POST", b"/who", b"Transfer-Encoding: chunked\r\n")] + [
        b"31b\r\n" + b"x" * 795 + b"\r\n"
    ] * 100
    await together(
        BODIES, lambda number: given_up(port, tally, chunked if number % 2 else sized, 1)
    )
    return tally


async def brisk_bodies(port):
    """Peers that are slow, but quick enough: they are served."""
    tally = Tally("bodies, 2,000 bytes a second", "answered 200 behind 15 s")

    async def attack(_):
        async with Peer(port) as peer:
            tally.sent += 1
            await drip(
                peer,
                [asked(b"POST", b"/who", b"Content-Length: 30000\r\nConnection: close\r\n")]
                + [b"x" * 2000] * 15,
                1,
            )
            text, ended = await peer.read_to_end(3)
        tally.closed += ended
        tally.back[text[9:12].decode() or "nothing"] += 1
        tally.hold(
            ended and text.startswith(b"HTTP/1.1 200 ") and text.endswith(b"\r\n\r\ncaller -\n"),
            f"not answered; came {text[:60]!r}",
        )

    await together(BRISK, attack)
    return tally


async def stopped_readers(port):
    tally = Tally(
        f"readers that stop before {PIPELINED} MiB",
        f"given up within {STOPPED_SECONDS} s, the answers cut",
    )

    async def attack(_):
        async with Peer(port, 4096) as peer:
            tally.sent += 1
            await peer.send(asked(b"GET", b"/large.bin") * PIPELINED)
            await asyncio.sleep(STOPPED_SECONDS)
            text, ended = await peer.read_to_end(3)
        tally.closed += ended
        tally.back[text[9:12].decode() or "nothing"] += 1
        first = text.partition(b"\r\n\r\n")[2][: len(LARGE)]
        cut = first and LARGE.startswith(first) and len(text) < PIPELINED * len(LARGE)
        tally.hold(
            ended and cut,
            f"not given up with a part; ended {ended} with {len(text)} bytes, {text[:60]!r}",
        )

    await together(STOPPED, attack)
    return tally


async def all_slow(port, _seed, _seconds, _cookie):
    return await asyncio.gather(slow_heads(port), slow_bodies(port), brisk_bodies(port))


async def readers(port, _seed, _seconds, _cookie):
    """Their answers are more than all connections may hold: slower peers beside them would be closed for room."""
    return [await stopped_readers(port)]
