"""A probe that requests a page over a new connection every tenth of a second, during all attacks."""
import contextlib
import multiprocessing
import os
import signal
import socket
import time

PAUSE_SECONDS = 0.1
BEGINS, ENDS = b"HTTP/1.1 200 OK\r\n", b"\r\n\r\ncaller -\n"


def answer(port, request):
    """The response to a request, up to its expected end."""
    try:
        with socket.create_connection(("127.0.0.1", port), 15) as peer:
            peer.sendall(request)
            text = b""
            while not text.endswith(ENDS) and (part := peer.recv(65536)):
                text += part
            return text
    except OSError as fault:
        return repr(fault).encode()


def probe(port, request, over, found):
    """Sends requests until the end, and returns the seconds of each response, and the wrong responses."""
    signal.signal(signal.SIGTERM, signal.SIG_DFL)
    seconds, wrong, begun = [], [], time.monotonic()
    parent = os.getppid()
    while not over.wait(PAUSE_SECONDS) and os.getppid() == parent:
        start = time.monotonic()
        text = answer(port, request)
        seconds.append(time.monotonic() - start)
        if not (text.startswith(BEGINS) and text.endswith(ENDS)):
            wrong.append(f"the probe got {text[:200]!r}; at second {start - begun:.1f}")
    found.put((seconds, wrong))


@contextlib.contextmanager
def probing(port, request):
    """Probes in a process of its own meanwhile. The call that it gives ends the process, and returns its results."""
    over, found = multiprocessing.Event(), multiprocessing.Queue()
    asking = multiprocessing.Process(target=probe, args=(port, request, over, found), daemon=True)
    asking.start()

    def ended():
        over.set()
        return found.get(timeout=60)

    try:
        yield ended
    finally:
        asking.kill()
