"""Runs the cases that are folders: a tool works in a temporary folder, its room, and is judged by the files that it leaves there."""
from __future__ import annotations

import contextlib
import errno
import io
import os
import re
import resource
import shutil
import signal
import struct
import sys
import tempfile
import zipfile
from pathlib import Path
from types import FrameType, ModuleType
from typing import Callable, Iterator
from unittest import mock

from library import load_script

SEED = "0" * 64
WRITTEN = ("web.toml", "web.lines", "server.toml", "users.toml", "nginx.conf")
# The configuration that the importer completes.
EXAMPLE = Path(__file__).resolve().parents[2] / "examples/guard/nginx.conf"
# The words in it that the importer replaces.
WORDS = re.compile(r"\b(PORT|GUARD_PORT|APPLICATION|SECRET|FOLDER|PAGES)\b")
# The folder of the pages that nginx shows. A case has the expected ones in a folder of this name.
PAGES = "pages"
MAX_SECONDS = 10
# The places in the header of an entry, within an archive's directory, that are made odd (APPNOTE.TXT, section 4.3.12).
DIRECTORY_HEADER = b"PK\x01\x02"
VERSION_OFFSET, NAME_OFFSET = 6, 46
ODD_VERSION, ODD_BYTE = 990, b"\xff"


class TooLong(BaseException):
    """A tool that took more than its time. No tool catches it."""


def tried_folder(folder: Path, tools: Path) -> tuple[dict[str, str], list[str], Path]:
    """Runs the case of a folder. Returns what is expected, what differs, and the room, which the caller removes."""
    expected = {
        path.name: path.read_text(encoding="utf-8")
        for path in folder.iterdir()
        if path.is_file() and path.suffix in ("", ".toml", ".lines")
    }
    room = Path(tempfile.mkdtemp(prefix="sv-import-"))
    furnish(room, folder, expected)
    before = contents(room)
    tool, *arguments = expected["args"].splitlines()
    came = ran(tools / tool, arguments, room, expected)
    for name in WRITTEN:
        text = (room / name).read_text(encoding="utf-8") if (room / name).is_file() else ""
        came[name] = re.sub(r'(?m)^seed = "[0-9a-f]{64}"$', f'seed = "{SEED}"', text)
    came["nginx.lines"] = lines_of_its_own(came.pop("nginx.conf"))
    came |= pages_of(room)
    expected |= pages_of(folder)
    defaults = {"status": "0\n"}
    faults = [
        f"{name} is\n{text}"
        for name, text in {**dict.fromkeys(pages_of(folder), ""), **came}.items()
        if text != expected.get(name, defaults.get(name, ""))
    ]
    faults += [
        f"the mode of {name} is {mode_of(room / name)}"
        for name, mode in map(str.split, expected.get("modes", "").splitlines())
        if mode_of(room / name) != mode
    ]
    after = contents(room)
    faults += [
        f"{path} is left changed, added or removed"
        for path in sorted(before.keys() | after.keys())
        if before.get(path) != after.get(path)
    ]
    return expected, faults, room


def lines_of_its_own(configuration: str) -> str:
    """The lines of a configuration of nginx that the one in examples/guard lacks, with a secret of zeros. The others must be all those of the example without a word in capitals."""
    known = directives(EXAMPLE.read_text(encoding="utf-8"))
    lines = directives(configuration)
    kept = [it for it in known if not WORDS.search(it)]
    if lines and [it for it in lines if it in known] != kept:
        return "a line of the example is missing, or in another place\n"
    own = "".join(f"{it}\n" for it in lines if it not in known)
    return re.sub("[0-9a-f]{64}", SEED, own)


def directives(configuration: str) -> list[str]:
    """The lines of a configuration of nginx without comments, ends of blocks and indentation."""
    lines = [it.strip() for it in configuration.splitlines()]
    return [it for it in lines if it not in ("", "}") and not it.startswith("#")]


def pages_of(folder: Path) -> dict[str, str]:
    """The pages in a folder, by their names."""
    return {
        f"{PAGES}/{it.name}": it.read_text(encoding="utf-8")
        for it in folder.glob(f"{PAGES}/*")
        if not (folder / PAGES).is_symlink() and not it.name.startswith(".")
    }


def furnish(room: Path, folder: Path, expected: dict[str, str]) -> None:
    """Puts into a room what exists before the run."""
    shutil.copytree(
        folder, room, dirs_exist_ok=True, ignore=shutil.ignore_patterns(*WRITTEN, PAGES)
    )
    if (folder / "before").exists():
        shutil.copytree(folder / "before", room, dirs_exist_ok=True)
    for line in expected.get("jars", "").splitlines():
        make_library(room, *line.split())
    for line in expected.get("nodes", "").splitlines():
        make_node(room, *line.split())


def make_library(room: Path, name: str, entry: str = "", oddity: str = "") -> None:
    """Makes a library with one entry, or a file that is no archive."""
    path = room / name
    path.parent.mkdir(exist_ok=True)
    if not entry:
        path.write_text("no archive", encoding="utf-8")
        return
    with zipfile.ZipFile(path, "w") as library:
        # A name outside of ASCII is marked as UTF-8.
        library.writestr("é" if oddity == "encoding" else entry, "")
    if oddity:
        path.write_bytes(made_odd(path.read_bytes(), oddity))


def made_odd(archive: bytes, oddity: str) -> bytes:
    """An archive whose directory requires an unknown version, or has a name that is no UTF-8."""
    at = archive.index(DIRECTORY_HEADER)
    start, new = {
        "version": (at + VERSION_OFFSET, struct.pack("<H", ODD_VERSION)),
        "encoding": (at + NAME_OFFSET, ODD_BYTE),
    }[oddity]
    return archive[:start] + new + archive[start + len(new) :]


def make_node(room: Path, kind: str, name: str, value: str = "") -> None:
    """Makes a link, a FIFO or a folder, or sets a mode."""
    path = room / name
    path.parent.mkdir(exist_ok=True)
    if kind == "link":
        path.symlink_to(value)
    elif kind == "fifo":
        os.mkfifo(path)
    elif kind == "folder":
        path.mkdir()
    else:
        assert kind == "mode", kind
        path.chmod(int(value, 8))


def mode_of(path: Path) -> str:
    """The mode of a regular file in octal digits, or the kind of any other file."""
    if path.is_symlink():
        return f"link:{os.readlink(path)}"
    return f"{path.stat().st_mode & 0o7777:o}" if path.is_file() else "none"


def contents(room: Path) -> dict[str, bytes | str]:
    """The files of a room, without those that tools write: the bytes of a regular file, or a text for any other."""
    found: dict[str, bytes | str] = {}
    for path in room.rglob("*"):
        name = str(path.relative_to(room))
        if path.is_file() and not path.is_symlink():
            found[name] = path.read_bytes()
        else:
            found[name] = mode_of(path)
    is_page = re.compile(f"{PAGES}(/[^.][^/]*)?").fullmatch
    return {name: it for name, it in found.items() if name not in WRITTEN and not is_page(name)}


def ran(script: Path, arguments: list[str], room: Path, given: dict[str, str]) -> dict[str, str]:
    """What a tool prints in a room, and its status. A fault that a tool does not catch is its status."""
    stdout, stderr = io.StringIO(), io.StringIO()
    typed = given.get("stdin", "").encode().decode("unicode_escape").encode("latin-1")
    with contextlib.ExitStack() as stack:
        for context in (
            mock.patch.object(sys, "stdin", io.TextIOWrapper(io.BytesIO(typed))),
            mock.patch("secrets.token_bytes", bytes),
            contextlib.chdir(room),
            contextlib.redirect_stdout(stdout),
            contextlib.redirect_stderr(stderr),
            masked(0o022),
            limited(int(given.get("file-limit", "0"))),
            refused(given.get("refused-name", "").strip()),
            timed(MAX_SECONDS),
        ):
            stack.enter_context(context)
        status = status_of(load_script(script), arguments)
    return {"told": stderr.getvalue(), "stdout": stdout.getvalue(), "status": f"{status}\n"}


def status_of(tool: ModuleType, arguments: list[str]) -> object:
    """The status with which a tool ends, or the fault that it does not catch."""
    try:
        return tool.main(arguments)
    except SystemExit as end:
        return end.code
    except (Exception, TooLong) as fault:
        return f"{type(fault).__name__} {fault}"


@contextlib.contextmanager
def masked(mask: int) -> Iterator[None]:
    """Sets the mask of the modes of new files."""
    old = os.umask(mask)
    yield
    os.umask(old)


@contextlib.contextmanager
def limited(size: int) -> Iterator[None]:
    """Limits the bytes of each file that is written, if a limit is given."""
    old = resource.getrlimit(resource.RLIMIT_FSIZE)
    if size:
        resource.setrlimit(resource.RLIMIT_FSIZE, (size, old[1]))
    yield
    resource.setrlimit(resource.RLIMIT_FSIZE, old)


@contextlib.contextmanager
def refused(name: str) -> Iterator[None]:
    """Lets the system refuse to give a file this name, if one is given, and to list a folder of this name."""

    def listed(path: Path) -> list[str]:
        if name and Path(path).name == name:
            raise OSError(errno.EACCES, os.strerror(errno.EACCES), path)
        return names(path)

    names = os.listdir

    def unless_refused(call: Callable[..., None]) -> Callable[..., None]:
        def give(source: str, target: str, **options: object) -> None:
            if name and target == name:
                raise OSError(errno.EIO, os.strerror(errno.EIO), target)
            call(source, target, **options)

        return give

    with mock.patch("os.link", unless_refused(os.link)), mock.patch(
        "os.replace", unless_refused(os.replace)
    ), mock.patch("os.listdir", listed):
        yield


@contextlib.contextmanager
def timed(seconds: float) -> Iterator[None]:
    """Interrupts what takes longer."""

    def interrupt(_signal: int, _frame: FrameType | None) -> None:
        raise TooLong

    old = signal.signal(signal.SIGALRM, interrupt)
    signal.setitimer(signal.ITIMER_REAL, seconds)
    yield
    signal.setitimer(signal.ITIMER_REAL, 0)
    signal.signal(signal.SIGALRM, old)


def tried_notation() -> list[str]:
    """Checks that a case fails for a tool that misbehaves in each way that a case can see."""
    tools = {
        "good": ("", True),
        "adds a file": ("open('.web.toml.tmp', 'w')", False),
        "writes through a link": ("open('link', 'w').write('x')", False),
        "removes a file": ("import os; os.remove('other')", False),
        "leaves a wrong mode": ("import os; os.chmod('users.toml', 0o644)", False),
        "raises": ("1 / 0", False),
        "exits": ("raise SystemExit(1)", False),
        "exceeds the limit": ("open('web.toml', 'w').write(5000 * 'x')", False),
        "waits": ("open('pipe')", False),
        "is refused a name": ("import os; os.replace('users.toml', 'web.lines')", False),
    }
    faults = []
    with tempfile.TemporaryDirectory(prefix="sv-import-") as name, mock.patch(
        f"{__name__}.MAX_SECONDS", 0.2
    ):
        folder = Path(name, "case")
        (folder / "before").mkdir(parents=True)
        for file, text in {
            "args": "tool\n",
            "modes": "users.toml 600\nlink link:other\n",
            "nodes": "link link other\nfifo pipe\nmode users.toml 600\n",
            "file-limit": "4096\n",
            "refused-name": "web.lines\n",
            "users.toml": "u",
            "before/users.toml": "u",
            "before/other": "o",
        }.items():
            (folder / file).write_text(text, encoding="utf-8")
        for what, (body, is_good) in tools.items():
            Path(name, "tool").write_text(f"def main(_):\n    {body}\n    return 0\n")
            _, found, room = tried_folder(folder, Path(name))
            shutil.rmtree(room)
            if (not found) != is_good:
                faults.append(f"a tool that {what} gives {found}")
    return faults
