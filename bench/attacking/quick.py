"""Peers that are quick: pipelines, ends of writing, resets, connections without a byte, first bytes of other protocols."""
import asyncio
import contextlib
import ssl

from attacking.messages import asked, chunked, corpus, sized
from attacking.peers import PATIENCE, Peer, Tally, asked_once, together
from attacking.responses import Answers, Wrong, judged
from attacking.requests import readings
from attacking.site import LARGE, PAGES, page

PIPELINE = 10_000
CONNECTS = 2000
LINES = 100_000
FLOODS = 64
# docs/LIMITS.md
ROOM = 1024
AGAIN = 20
# The server closes a connection whose head has no end after this many seconds.
GIVEN_UP = 12.5


def pipelined(number):
    """A request of a pipeline, its method, and the body of its answer."""
    pick = number * 7 % PAGES
    path = b"/pages/%d.txt" % pick
    kinds = [
        (asked(b"GET", path), b"GET", page(pick)),
        (asked(b"HEAD", path), b"HEAD", b""),
        (sized(b"/who?%d" % number, path), b"POST", b"caller -\n"),
        (chunked(b"/who", path, path), b"POST", b"caller -\n"),
        (asked(b"GET", path), b"GET", page(pick)),
    ]
    return kinds[number % len(kinds)]


async def pipelines(port):
    tally = Tally(
        f"pipelines of {PIPELINE:,} requests",
        "each answered 200, in order, with its bytes, and nothing else",
    )
    wanted = [pipelined(it) for it in range(PIPELINE)]

    async def attack(_):
        async with Peer(port) as peer:
            sending = asyncio.create_task(peer.send(b"".join(it[0] for it in wanted)))
            data, ended = await read_answers(peer, sending)
        tally.sent += PIPELINE
        tally.closed += ended
        check_pipeline(tally, wanted, data)

    await together(4, attack)
    return tally


async def read_answers(peer, sending):
    """The response, if writing ends after all is sent."""
    sending.add_done_callback(lambda _: peer.end_writing())
    return await peer.read_to_end(PATIENCE)


def check_pipeline(tally, wanted, data):
    source = Answers(data)
    try:
        for number, (_, method, body) in enumerate(wanted):
            answer = source.answer(method)
            tally.back[str(answer.status)] += 1
            if (answer.status, answer.body) != (200, body):
                raise Wrong(f"answer {number} is {answer.status} {answer.body[:60]!r}")
    except Wrong as wrong:
        tally.miss(str(wrong))
    tally.hold(not source.more(), f"{len(data) - source.place} bytes more than the answers")


async def empty_lines(port):
    """Each line is an event of the container's."""
    tally = Tally(f"{LINES:,} empty lines before a request, {FLOODS} times at once", "200")
    text = b"\n" * LINES + asked(b"GET", b"/who")

    async def attack(_):
        data, ended = await asked_once(port, text, FLOODS)
        tally.sent += 1
        tally.closed += ended
        tally.back[data[9:12].decode() or "nothing"] += 1
        tally.hold(data.startswith(b"HTTP/1.1 200 "), f"{data[:60]!r}")

    await together(FLOODS, attack)
    return tally


async def half_closed(port, cookie):
    tally = Tally("messages in form, and the end of writing", "each answered as without that end")
    messages = corpus(cookie)

    async def attack(number):
        text, statuses = messages[number % len(messages)]
        data, ended = await asked_once(port, text)
        tally.sent += 1
        tally.closed += ended
        answers, wrong = judged(readings(text), data)
        tally.count(answers)
        found = [it.status for it in answers]
        tally.hold(
            ended and not wrong and found == statuses,
            f"{text!r} gives {found} for {statuses}, ended {ended}, {wrong or ''} {data[:300]!r}",
        )

    for _ in range(AGAIN):
        await together(len(messages), attack)
    return tally


# The bytes sent before a reset, and the least number of bytes read before it.
PHASES = [
    (b"", 0),
    (b"G", 0),
    (asked(b"GET", b"/who")[:30], 0),
    (asked(b"POST", b"/who", b"Content-Length: 100000\r\n"), 0),
    (asked(b"POST", b"/who", b"Content-Length: 100000\r\n", body=b"x" * 50000), 0),
    (asked(b"POST", b"/who", b"Transfer-Encoding: chunked\r\n", body=b"5\r\nab"), 0),
    (asked(b"POST", b"/who", b"Expect: 100-continue\r\nContent-Length: 5\r\n"), 25),
    (asked(b"GET", b"/who"), 0),
    (asked(b"GET", b"/who"), 1),
    (asked(b"GET", b"/large.bin"), 0),
    (asked(b"GET", b"/large.bin"), 1000),
    (asked(b"GET", b"/large.bin") * 100, 300_000),
    (asked(b"GET", b"/who") * 1000, 1000),
    (b"no request\r\n\r\n" + b"x" * 5000, 0),
    (b"no request\r\n\r\n" + b"x" * 5000, 1),
    (asked(b"POST", b"/who", b"Content-Length: 5000000\r\n", body=b"x" * 500_000), 1),
]


async def resets(port):
    tally = Tally("resets at every phase", "the server goes on")

    async def attack(number):
        text, least = PHASES[number % len(PHASES)]
        peer, came = Peer(port), 0
        try:
            await peer.__aenter__()
            sending = asyncio.create_task(peer.send(text))
            while came < least and (part := await peer.read(PATIENCE)):
                came += len(part)
            sending.cancel() if least else await asyncio.wait_for(sending, PATIENCE)
        finally:
            peer.reset()
        tally.sent += 1
        tally.back["some bytes" if came else "nothing"] += 1
        tally.hold(came >= least, f"only {came} of {least} bytes for {text[:40]!r}")

    for _ in range(AGAIN):
        await together(3 * len(PHASES), attack)
    return tally


async def quick_connects(port):
    tally = Tally("connections without a byte", "the server goes on")
    for number in range(CONNECTS):
        async with Peer(port) as peer:
            tally.sent += 1
            if number % 2:
                peer.reset()
    tally.back["nothing"] = tally.sent
    return tally


async def beyond_room(port, _seed, _seconds, _cookie):
    """More connections without a byte than there is room for, all of them held: the one that has waited longest goes for each new one."""
    tally = Tally(
        "connections beyond the room",
        f"all but {ROOM:,} are closed, those that came first before those that came later",
    )
    async with contextlib.AsyncExitStack() as stack:
        held = [await stack.enter_async_context(Peer(port)) for _ in range(CONNECTS)]
        await asyncio.sleep(2)
        ended = [it for it, peer in enumerate(held) if is_ended(peer)]
    tally.sent, tally.closed, tally.back["nothing"] = CONNECTS, len(ended), CONNECTS
    tally.hold(len(ended) >= CONNECTS - ROOM, f"{CONNECTS - len(ended)} are held at once")
    early = sum(it >= len(ended) for it in ended)
    tally.hold(
        not early,
        f"{early} of the {len(ended)} that were closed came later than others that were kept",
    )
    return [tally]


def is_ended(peer):
    try:
        return peer.socket.recv(1) == b""
    except BlockingIOError:
        return False
    except ConnectionResetError:
        return True


def client_hello():
    """What a client of TLS sends first."""
    context, sent = ssl.create_default_context(), ssl.MemoryBIO()
    client = context.wrap_bio(ssl.MemoryBIO(), sent, server_hostname="localhost")
    try:
        client.do_handshake()
    except ssl.SSLWantReadError:
        pass
    return sent.read()


def first_bytes():
    return [
        client_hello(),
        client_hello() + b"\r\n\r\n",
        b"\x80\x2e\x01\x00\x02\x00\x15\x00\x00\x00\x10" + bytes(range(32)),
        b"PRI * HTTP/2.0\r\n\r\nSM\r\n\r\n" + b"\0\0\0\x04\0\0\0\0\0",
        b"\0\0\0\x04\0\0\0\0\0",
        b"SSH-2.0-OpenSSH_9.2\r\n",
        b"EHLO localhost\r\n\r\n",
        b"PROXY TCP4 127.0.0.1 127.0.0.1 1 2\r\n" + asked(b"GET", b"/who"),
        b"\0" * 70_000,
        b"\r\n" * 50_000,
    ]


async def other_protocols(port):
    tally = Tally(
        "first bytes of TLS, HTTP/2 and others", "400 or 431 and the end, or the end alone"
    )
    texts = first_bytes()

    async def attack(number):
        text, ends = texts[number // 2 % len(texts)], number % 2 == 1
        async with Peer(port) as peer:
            await peer.send(text)
            if ends:
                peer.end_writing()
            data, ended = await peer.read_to_end(
                PATIENCE if ends or not text.strip(b"\r\n") else GIVEN_UP
            )
        tally.sent += 1
        tally.closed += ended
        answers, wrong = judged(readings(text), data)
        tally.count(answers)
        found = [it.status for it in answers]
        due = ended or not text.strip(b"\r\n") and not ends
        tally.hold(
            due and not wrong and found in ([], [400], [431]),
            f"{text[:60]!r} gives {found}, ended {ended}, {wrong or ''}",
        )

    await together(2 * len(texts) * AGAIN // 2, attack)
    return tally


# Bytes after whose response the server closes, the status of that response, and the least length of its body.
CLOSING = [
    (asked(b"POST", b"/who", b"Content-Length: 1100000\r\n", body=b"x" * 1_100_000), 413, 1),
    (asked(b"POST", b"/who", b"Content-Length: 5000000\r\n", body=b"x" * 5_000_000), 413, 1),
    (chunked(b"/who", *[b"x" * 100_000] * 20), 413, 1),
    (asked(b"GET", b"/who", *[b"X: y\r\n"] * 30_000), 431, 1),
    (asked(b"GET", b"/large.bin", b"Connection: close\r\n", body=b"\r\n"), 200, len(LARGE)),
    (asked(b"GET", b"/large.bin", version=b"HTTP/1.0", body=b"x" * 10_000), 200, len(LARGE)),
]


async def closing(port):
    """Where more comes than the server reads before it closes; the peer sends as much as it can, and then reads."""
    tally = Tally("answers before all was sent", "413, 431 or 200, with its whole body")

    async def attack(number):
        text, status, least = CLOSING[number % len(CLOSING)]
        async with Peer(port) as peer:
            await asyncio.wait_for(peer.send(text), PATIENCE)
            await asyncio.sleep(0.2)
            data, ended = await peer.read_to_end(PATIENCE)
        tally.sent += 1
        tally.closed += ended
        answers, wrong = judged(readings(text), data)
        tally.count(answers)
        found = [(it.status, len(it.body) >= least) for it in answers]
        tally.hold(
            ended and not wrong and found == [(status, True)],
            f"{text[:60]!r} gives {found}, ended {ended}, {wrong or ''}",
        )

    await together(AGAIN * len(CLOSING), attack)
    return tally


async def all_quick(port, _seed, _seconds, cookie):
    attacks = [
        pipelines(port),
        empty_lines(port),
        half_closed(port, cookie),
        resets(port),
        closing(port),
        quick_connects(port),
        other_protocols(port),
    ]
    return [await it for it in attacks]
