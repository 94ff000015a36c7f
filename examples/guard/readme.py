"""What is tried of README.md: its commands that guard an application without a `web.xml`, in folders and at ports of their own."""
from __future__ import annotations

import contextlib
import os
import re
import shlex
import shutil
import subprocess
from pathlib import Path
from typing import Iterator

from parts import HERE, accepts, program_at, replaced, see
from servers import TOP, wait_until
from sites import free_ports
from trials import see_page
from visitor import SECONDS, Visitor

# The ports of nginx, of the container and of the application in Python, and the folders.
GUARD_PORT, PORT, PYTHON_PORT = "8000", "8001", "8080"
SITE, SOCKETS = "/srv/guard", "/run/application"
NODE, PYTHON = f"unix:{SOCKETS}/socket", f"127.0.0.1:{PYTHON_PORT}"


def commands_of(heading: str) -> list[str]:
    """The commands of a section, each with all its lines."""
    page = (HERE / "README.md").read_text()
    section = page.partition(f"\n## {heading}\n")[2].split("\n## ")[0]
    blocks = re.findall(r"(?m)^    \$ (.*\n(?:    .*\n)*)", section)
    return [
        it.strip().replace("\n    ", "\n")
        for block in blocks
        for it in re.split(r"(?m)^    \$ ", block)
    ]


class Place:
    """The folders and ports of this trial."""

    def __init__(self, program: str, folder: str) -> None:
        names = (GUARD_PORT, PORT, PYTHON_PORT)
        self.changes = dict(zip(names, map(str, free_ports(len(names)))))
        self.changes[SITE], self.changes[SOCKETS] = f"{folder}/readme", f"{folder}/readme-sockets"
        self.changes["release/sv"] = program

    def own(self, text: str) -> str:
        """A text of the page with the folders and ports of this trial."""
        names = "|".join(map(re.escape, self.changes))
        return re.sub(rf"(?:{names})\b", lambda it: self.changes[it[0]], text)

    def run(self, *commands: str) -> None:
        """Runs commands in one shell, to their end."""
        text = "\n".join(["set -e -o pipefail", *map(self.own, commands)])
        subprocess.run(["bash", "-c", text], cwd=TOP, check=True)

    def change_port(self) -> None:
        """Gives the copied server file the port of this trial."""
        file = Path(self.changes[SITE], "server.toml")
        file.write_text(
            replaced(file.read_text(), f"port = {PORT}", f"port = {self.changes[PORT]}")
        )

    def started(self, command: str, address: str) -> contextlib.AbstractContextManager[None]:
        """A program that a command starts, once it accepts connections."""
        words = shlex.split(self.own(command.removesuffix("&")))
        return program_at(
            [f"{TOP}/{it}" if it.startswith("examples/") else it for it in words], self.own(address)
        )

    @contextlib.contextmanager
    def nginx(self, command: str) -> Iterator[Visitor]:
        """nginx by its command: a client of it."""
        visitor = Visitor(int(self.changes[GUARD_PORT]))
        with subprocess.Popen(shlex.split(self.own(command)), stdin=subprocess.DEVNULL) as process:
            try:
                wait_until("nginx listens", lambda: accepts(f"127.0.0.1:{visitor.port}"))
                yield visitor
            finally:
                process.terminate()
                process.wait(SECONDS)


def see_guarded(place: Place, what: str) -> None:
    """Sees that a caller reaches an application by the commands that start the container and nginx."""
    run, nginx = commands_of("From nothing to a guarded Tomcat")
    with place.started(run, f"127.0.0.1:{PORT}"), place.nginx(nginx) as ann:
        see_page(f"{what}, the page for the login", ann.get("/members/"), 200, "<h1>Log in</h1>")
        see(f"{what}, the login", ann.log_in("ann").status, 303)
        see(f"{what}, its caller", "caller=ann" in ann.get("/members/").text, True)


def try_readme(program: str, folder: str) -> None:
    if os.geteuid() or not shutil.which("node"):
        print("README: its commands need root and Node, so they were not tried")
        return
    place = Place(program, folder)
    commands = commands_of("Other applications")
    node, python = (
        next(number for number, it in enumerate(commands) if it.startswith(f"{name} "))
        for name in ("node", "python3")
    )
    place.run(*commands[:node])
    place.change_port()
    with place.started(commands[node], NODE):
        place.run(commands[node + 1])
        see_guarded(place, "README, Node")
    configuration = next(it for it in commands if NODE in it).replace(NODE, PYTHON)
    place.run("umask 077", configuration, *commands[node + 2 : python])
    with place.started(commands[python], PYTHON):
        see_guarded(place, "README, Python")
    print("README: its commands guard the applications in Node and in Python")
