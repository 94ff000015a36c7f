"""Reads regular files, and writes whole ones: a file appears under its name only when all of it is on the disk."""
from __future__ import annotations

import contextlib
import dataclasses
import errno
import fcntl
import os
import secrets
import stat
from pathlib import Path
from typing import BinaryIO, Iterator

# Only the owner can read the file: a seed or the digests of passwords are in it.
PRIVATE = 0o600
# The mask of the process applies.
PUBLIC = 0o666

# Only Linux opens a folder that cannot be read.
_FOLDER = getattr(os, "O_PATH", os.O_RDONLY) | os.O_DIRECTORY
_IS_A_LINK = "is a link, which is not followed"
_IS_NOT_REGULAR = "is not a regular file"


@dataclasses.dataclass(frozen=True)
class NewFile:
    """A file to write into a folder: its name, its text and its mode, and whether it may replace a file.

    If it is like another file, it has the mode and the owner of that one."""

    name: str
    text: str
    mode: int = PUBLIC
    may_replace: bool = False
    like: os.stat_result | None = None


def open_regular(path: Path) -> BinaryIO:
    """Opens a regular file to read it. Follows no link to it, waits for no FIFO and opens no device."""
    _check_regular(path, path.lstat())
    file = os.fdopen(os.open(path, os.O_RDONLY | os.O_NONBLOCK | os.O_NOFOLLOW), "rb")
    if not stat.S_ISREG(os.fstat(file.fileno()).st_mode):
        file.close()
        raise _refusal(path, _IS_NOT_REGULAR)
    return file


def read_regular(path: Path) -> bytes:
    """Reads a regular file."""
    with open_regular(path) as file:
        return file.read()


def write_files(folder: Path, files: list[NewFile]) -> None:
    """Writes files into a folder, which it makes if there is none. If one of them is refused or cannot be written, no file is changed.

    Each file is on the disk under a temporary name before the first one gets its own. Links are not followed, neither that of a file nor that of a
    folder in the path."""
    write_into([(folder, files)])


def write_into(folders: list[tuple[Path, list[NewFile]]]) -> None:
    """Writes files into several folders, all or none of them, as `write_files` does."""
    with contextlib.ExitStack() as opened:
        places: list[_Place] = []
        for path, files in folders:
            number = opened.enter_context(_opened_folder(path))
            places += [_Place(path, number, file) for file in files]
        for place in places:
            with _named(place.path):
                _check_target(place.folder, place.file)
        temporaries: list[tuple[_Place, str]] = []
        try:
            for place in places:
                with _named(place.path):
                    temporaries.append((place, _hidden(place.file.name, "new")))
                    _write(place.folder, temporaries[-1][1], place.file)
            with _Names() as names:
                for place, temporary in temporaries:
                    with _named(place.path):
                        names.give(place, temporary)
                for place in places:
                    with _named(place.within):
                        _sync(place.folder)
        finally:
            for place, temporary in temporaries:
                with contextlib.suppress(FileNotFoundError):
                    os.unlink(temporary, dir_fd=place.folder)


@dataclasses.dataclass(frozen=True)
class _Place:
    """A file that is written, and the folder that it is written into, with its descriptor."""

    within: Path
    folder: int
    file: NewFile

    @property
    def path(self) -> Path:
        return self.within / self.file.name


class _Names:
    """Gives files their names. If that ends with a fault, each name has again what had it."""

    def __init__(self) -> None:
        # The folders and names, each with the name of a copy of the file that had it.
        self._given: list[tuple[int, str, str | None]] = []

    def __enter__(self) -> _Names:
        return self

    def __exit__(self, kind: type[BaseException] | None, *_rest: object) -> None:
        for folder, name, old in reversed(self._given):
            if kind is None and old is not None:
                os.unlink(old, dir_fd=folder)
            elif kind is not None and old is not None:
                _rename(folder, old, name)
            elif kind is not None:
                os.unlink(name, dir_fd=folder)
        for folder in dict.fromkeys(folder for folder, _, _ in self._given):
            _sync(folder)

    def give(self, place: _Place, temporary: str) -> None:
        """Gives a file, which has a temporary name, its own."""
        folder, name = place.folder, place.file.name
        if not place.file.may_replace:
            # A link, unlike a rename, fails if a file of that name appeared meanwhile.
            _link(folder, temporary, name)
            self._given.append((folder, name, None))
            return
        old: str | None = _hidden(name, "old")
        try:
            _link(folder, name, old)
        except FileNotFoundError:
            old = None
        try:
            _rename(folder, temporary, name)
        except BaseException:
            if old is not None:
                os.unlink(old, dir_fd=folder)
            raise
        self._given.append((folder, name, old))


def _link(folder: int, name: str, other: str) -> None:
    os.link(name, other, src_dir_fd=folder, dst_dir_fd=folder, follow_symlinks=False)


def _rename(folder: int, name: str, other: str) -> None:
    os.replace(name, other, src_dir_fd=folder, dst_dir_fd=folder)


@contextlib.contextmanager
def locked(folder: Path) -> Iterator[None]:
    """Holds the lock of a folder, which it makes if there is none. Another process that asks for the lock waits."""
    with _opened_folder(folder) as number:
        with _named(folder):
            fcntl.flock(number, fcntl.LOCK_EX)
        yield


@contextlib.contextmanager
def _opened_folder(path: Path) -> Iterator[int]:
    """Opens a folder, and makes each folder of its path that there is not."""
    with contextlib.ExitStack() as opened:
        parts = path.parts[1:] if path.is_absolute() else path.parts
        number = os.open("/" if path.is_absolute() else ".", _FOLDER)
        opened.callback(os.close, number)
        for place, part in enumerate(parts, len(path.parts) - len(parts) + 1):
            with _named(Path(*path.parts[:place])):
                number = _opened_inner(number, part)
                opened.callback(os.close, number)
        with _named(path):
            last = os.open(".", os.O_RDONLY | os.O_DIRECTORY, dir_fd=number)
            opened.callback(os.close, last)
        yield last


def _opened_inner(outer: int, name: str) -> int:
    """Opens a folder in another one, and makes it if there is none."""
    with contextlib.suppress(FileExistsError):
        os.mkdir(name, dir_fd=outer)
    if stat.S_ISLNK(os.stat(name, dir_fd=outer, follow_symlinks=False).st_mode):
        raise _refusal(Path(name), _IS_A_LINK)
    return os.open(name, _FOLDER | os.O_NOFOLLOW, dir_fd=outer)


def _check_regular(path: Path, status: os.stat_result) -> None:
    if stat.S_ISLNK(status.st_mode):
        raise _refusal(path, _IS_A_LINK)
    if not stat.S_ISREG(status.st_mode):
        raise _refusal(path, _IS_NOT_REGULAR)


def _check_target(folder: int, file: NewFile) -> None:
    try:
        status = os.stat(file.name, dir_fd=folder, follow_symlinks=False)
    except FileNotFoundError:
        return
    _check_regular(Path(file.name), status)
    if not file.may_replace:
        raise _refusal(Path(file.name), "exists; --force replaces it")


def _hidden(name: str, kind: str) -> str:
    """A name that a file has for a while. A program that is killed may leave the file."""
    return f".{name}.{secrets.token_hex(8)}.{kind}"


def _sync(folder: int) -> None:
    """Waits until the names in a folder are on the disk, if its file system can say so."""
    try:
        os.fsync(folder)
    except OSError as error:
        if error.errno != errno.EINVAL:
            raise


def _write(folder: int, name: str, new: NewFile) -> None:
    flags = os.O_WRONLY | os.O_CREAT | os.O_EXCL | os.O_NOFOLLOW
    with open(os.open(name, flags, new.mode, dir_fd=folder), "w", encoding="utf-8") as file:
        if new.like is not None:
            os.fchown(file.fileno(), new.like.st_uid, new.like.st_gid)
            os.fchmod(file.fileno(), stat.S_IMODE(new.like.st_mode))
        file.write(new.text)
        file.flush()
        os.fsync(file.fileno())


@contextlib.contextmanager
def _named(path: Path) -> Iterator[None]:
    """Lets an error of the system name a file by its path."""
    try:
        yield
    except OSError as error:
        raise OSError(error.errno, error.strerror, str(path)) from error


def _refusal(path: Path, why: str) -> OSError:
    return OSError(errno.EINVAL, why, str(path))
