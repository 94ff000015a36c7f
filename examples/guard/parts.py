"""The parts of a guarded site, each started on loopback: the container, nginx, and an application."""
from __future__ import annotations

import contextlib
import os
import re
import shutil
import socket
import subprocess
import sys
from pathlib import Path
from typing import Iterator

HERE = Path(__file__).resolve().parent
sys.path.insert(0, str(HERE.parent))

from sites import configured, free_ports, started  # noqa: E402
from servers import running, wait_until  # noqa: E402

SECRET = "0123456789abcdef"
CONFIGURATION = HERE / "nginx.conf"
SITE = HERE / "site"


class Failure(Exception):
    """A result that differs from the expected one."""


def see(what: str, came: object, wanted: object) -> None:
    """Raises a failure if a result differs from the expected one."""
    if came != wanted:
        raise Failure(f"{what}: {came!r} and not {wanted!r}")


@contextlib.contextmanager
def container(program: str, site: str, *more: str) -> Iterator[int]:
    """The container with a site: its port."""
    words = [program, "run", "server.toml", "--listen", "127.0.0.1:0", *more]
    with running(words, site) as (_, port):
        yield port


@contextlib.contextmanager
def guard(text: str, room: str, container_port: int, application: str) -> Iterator[int]:
    """nginx by the text of a configuration, in front of a container and of an application: its port."""
    (port,) = free_ports(1)
    # The workers of nginx may not be able to read the original.
    pages = f"{room}/pages"
    shutil.copytree(SITE / "pages", pages, dirs_exist_ok=True)
    os.chmod(pages, 0o755)
    source = f"{room}/source"
    Path(source).write_text(text)
    configured(
        source,
        room,
        PORT=container_port,
        GUARD_PORT=port,
        APPLICATION=application,
        SECRET=SECRET,
        PAGES=pages,
    )
    with started("nginx", room, port):
        yield port


@contextlib.contextmanager
def program_at(words: list[str], address: str) -> Iterator[None]:
    """An application, once it accepts connections at an address."""
    nothing = subprocess.DEVNULL
    with subprocess.Popen(words, stdin=nothing, stdout=nothing, stderr=nothing) as process:
        try:
            wait_until(f"{words} listens", lambda: process.poll() is not None or accepts(address))
            if process.poll() is not None:
                sys.exit(f"{words} ends with {process.returncode}")
            yield
        finally:
            process.kill()


def accepts(address: str) -> bool:
    """Whether a program listens at `unix:PATH` or `HOST:PORT`."""
    if address.startswith("unix:"):
        with socket.socket(socket.AF_UNIX) as peer:
            return peer.connect_ex(address.removeprefix("unix:")) == 0
    host, _, port = address.rpartition(":")
    with socket.socket() as peer:
        return peer.connect_ex((host, int(port))) == 0


def replaced(text: str, old: str, new: str) -> str:
    """A configuration with one line in place of another."""
    if len(re.findall(rf"(?m)^ *{re.escape(old)}$", text)) != 1:
        sys.exit(f"not one line is {old!r}")
    return text.replace(old, new)
