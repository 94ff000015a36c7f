"""Events of a container that scripts of `replay` time from outside, for bench/growth and bench/dispatches."""
import os
import re
import resource
import subprocess
import sys
import tempfile
from dataclasses import dataclass

RUNS = 5


@dataclass
class Events:
    """A server with one descriptor for all its contexts, the lines of a script, and the events behind them that are timed."""

    name: str
    contexts: list[str]
    descriptor: str
    front: str
    timed: str
    count: int
    # in the timed events ID is replaced by the id of the session that was opened last
    names_a_session: bool = False
    # the static file /page.html of each context, if it has one
    page: str = ""
    # the number of its other static files /fN.html
    files: int = 0


def get(path: str, fields: str = "", connection: int = 1) -> str:
    return f"send {connection} GET {path} HTTP/1.1\\r\\nHost: h\\r\\n{fields}\\r\\n\n"


def last_id(program: str, room: str, script: str) -> str:
    """The id of the session that the script opens last."""
    done = subprocess.run(
        [program, "replay", f"{room}/server.toml"],
        input=script.encode(),
        stdout=subprocess.PIPE,
        timeout=120,
        check=True,
    )
    return re.findall(rb"JSESSIONID=([0-9a-f]{48})", done.stdout)[-1].decode()


def processor_seconds(program: str, room: str, script: str) -> float:
    before = resource.getrusage(resource.RUSAGE_CHILDREN)
    command = [program, "replay", f"{room}/server.toml"]
    done = subprocess.run(command, input=script.encode(), stdout=subprocess.DEVNULL, timeout=120)
    after = resource.getrusage(resource.RUSAGE_CHILDREN)
    if done.returncode != 0:
        sys.exit(f"bench: replay ended with {done.returncode}")
    return after.ru_utime + after.ru_stime - before.ru_utime - before.ru_stime


def nanoseconds(program: str, events: Events) -> float:
    """What one of the timed events takes."""
    folder = "files" if events.page else ""
    listed = "".join(
        f'[[context]]\npath = "{it}"\ndescriptor = "d.toml"\nfiles = "{folder}"\n'
        for it in events.contexts
    )
    with tempfile.TemporaryDirectory(prefix="sv-bench-") as room:
        os.mkdir(f"{room}/files")
        written = {
            "server.toml": f'port = 0\nseed = "{"0" * 64}"\n{listed}',
            "d.toml": events.descriptor,
        }
        if events.page:
            written |= {
                f"files/{it}.html": events.page
                for it in ("page", *(f"f{it}" for it in range(events.files)))
            }
        for name, text in written.items():
            with open(f"{room}/{name}", "w") as file:
                file.write(text)
        timed = (
            events.timed.replace("ID\\r", last_id(program, room, events.front) + "\\r")
            if events.names_a_session
            else events.timed
        )
        scripts = (events.front, events.front + timed)
        without, whole = (
            min(processor_seconds(program, room, it) for _ in range(RUNS)) for it in scripts
        )
    each = max(whole - without, 1e-6) / events.count * 1e9
    print(f"{events.name}: {each:.0f} ns")
    return each
