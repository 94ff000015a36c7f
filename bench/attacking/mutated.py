"""Random bytes and mutated messages, each on a connection of its own."""
import asyncio
import itertools
import random
import re
import time

from attacking.messages import corpus, mutated, noise, pieces
from attacking.peers import PATIENCE, Peer, Tally
from attacking.requests import readings
from attacking.responses import judged
from attacking.site import HIDDEN, MARK

AT_ONCE = 12
# The server closes a connection whose head takes 10 seconds. If our own process pauses for half of that between two parts, the response proves nothing.
MOST_HELD_UP = 5
# For this share of all messages, writing ends a second late.
LATE = 0.02
DIFFERS = "whole it is answered"
REPEATED = re.compile(r"(.{1,60}?)\1{9,}")


class HeldUp(Exception):
    """Our own process paused for so long that the server may have closed the connection."""


async def exchange(port, chance, parts):
    """The response to these parts. Writing ends after them, sometimes a second later."""
    async with Peer(port) as peer:
        slept = 0
        for part in parts:
            if not await peer.send(part):
                break
            if len(parts) > 1:
                begun = time.monotonic()
                await asyncio.sleep(chance.choice([0, 0.001, 0.01]))
                slept += time.monotonic() - begun
        if slept > MOST_HELD_UP:
            raise HeldUp
        first, ended = await peer.read_to_end(1) if chance.random() < LATE else (b"", False)
        if ended:
            return first, True
        peer.end_writing()
        more, ended = await peer.read_to_end(PATIENCE)
        return first + more, ended


async def judged_once(port, chance, tally, parts):
    """The statuses of the responses to these parts, and their faults."""
    data, ended = await exchange(port, chance, parts)
    tally.sent += 1
    tally.closed += ended
    answers, wrong = judged(readings(b"".join(parts)), data)
    tally.count(answers)
    if HIDDEN in data or MARK in data:
        wrong = "what is protected was answered"
    if not ended:
        wrong = "not ended in time"
    return [it.status for it in answers], wrong and f"{wrong}; came {shown(data)}"


async def judged_both(port, chance, tally, text, cuts):
    """The faults of the responses to the text, whole and in pieces. Both must have the same statuses."""
    whole, wrong = await judged_once(port, chance, tally, [text])
    if wrong:
        return wrong
    parts, wrong = await judged_once(port, chance, tally, cuts)
    if wrong:
        return f"in pieces of {[len(it) for it in cuts]}: {wrong}"
    return whole != parts and f"{DIFFERS} {whole}, in pieces of {[len(it) for it in cuts]} {parts}"


async def attacked(port, seed, tally, made, until):
    """Sends messages until that time, one after another. Where sessions come to be as many as there may be, answers change: so what differs is tried again."""
    for number in itertools.count():
        if time.monotonic() >= until:
            return
        # The random choices for a message do not depend on the responses to earlier ones.
        chance = random.Random(f"{seed} {number}")
        text, names = made(chance)
        cuts = pieces(chance, text)
        try:
            wrong = await judged_both(port, chance, tally, text, cuts)
            if wrong and wrong.startswith(DIFFERS):
                wrong = await judged_both(port, chance, tally, text, cuts)
        except HeldUp:
            tally.back["held up ourselves"] += 1
            continue
        if wrong:
            tally.miss(f"{wrong}; by {', '.join(names)}; sent {shown(text)}")


def shown(text):
    """Bytes as a line of Python, in which `<COUNT*PART>` stands for a part that is repeated."""
    return REPEATED.sub(lambda it: f"<{len(it[0]) // len(it[1])}*{it[1]}>", repr(text))


async def attack(port, seed, seconds, tally, made):
    """Attacks over some connections at once."""
    until = time.monotonic() + seconds
    await asyncio.gather(
        *(attacked(port, f"{seed} {it}", tally, made, until) for it in range(AT_ONCE))
    )
    return [tally]


async def random_bytes(port, seed, seconds, _cookie):
    tally = Tally(
        "random bytes",
        "answers in form to what the RFC finds there, or the end; nothing that is protected",
    )
    return await attack(port, seed, seconds, tally, lambda it: (noise(it), ["noise"]))


async def mutated_messages(port, seed, seconds, cookie):
    tally = Tally(
        "mutated messages",
        "answers in form to what the RFC finds there, or the end; nothing that is protected",
    )
    messages = [text for text, _ in corpus(cookie)]
    return await attack(port, seed, seconds, tally, lambda it: mutated(it, messages))
