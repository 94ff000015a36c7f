"""The guestbook as bench/guestbook and bench/browser start it."""
import contextlib
import os
import re
import select
import signal
import subprocess
import sys

from servers import TOP

# The users of the example.
PASSWORDS = {"ann": "violet", "ben": "harbor", "eve": "lantern"}
# Within so many seconds the program serves.
PATIENCE = 30
# How many checks held, and how many did not.
counts = {True: 0, False: 0}


def hold(holds, what):
    """Prints a check, and counts it."""
    counts[bool(holds)] += 1
    print(f"seen: {what}" if holds else f"MISSED: {what}", flush=True)


def built():
    """The program's words, once it is proved and built: without a port it only tells how it is called."""
    words = [f"{TOP}/guestbook"]
    made = subprocess.run(
        words,
        stdin=subprocess.DEVNULL,
        stdout=subprocess.DEVNULL,
        stderr=subprocess.PIPE,
        text=True,
    )
    if "usage: guestbook" not in made.stderr:
        sys.exit(f"{words[0]} cannot be built:\n{made.stderr[-2000:]}")
    return words


def first_line(program):
    """The first line that a program writes within the time that it has."""
    if not select.select([program.stdout], [], [], PATIENCE)[0]:
        sys.exit("the guestbook does not serve")
    return program.stdout.readline().strip()


@contextlib.contextmanager
def serving(words, file):
    """The program at a free port, with its entries in that file: the port, and the process, the first of a group of its own."""
    program = subprocess.Popen(
        [*words, "0", file],
        stdin=subprocess.DEVNULL,
        stdout=subprocess.PIPE,
        text=True,
        start_new_session=True,
    )
    try:
        line = first_line(program)
        found = re.fullmatch(r"listening 127\.0\.0\.1:(\d+)", line)
        if not found:
            sys.exit(f"the guestbook says {line!r} in place of its port")
        yield int(found[1]), program
    finally:
        with contextlib.suppress(ProcessLookupError):
            os.killpg(program.pid, signal.SIGKILL)
        program.wait()
        program.stdout.close()
