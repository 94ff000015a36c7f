"""Adds users to a users file."""
from __future__ import annotations

import errno
import os
import re
from pathlib import Path

from .files import PRIVATE, NewFile, locked, open_regular, write_files
from .limits import MAX_LIST_ITEMS
from .told import on_one_line
from .users import User

# The line of a file that has no user yet. A table of a user cannot follow it.
_EMPTY_LIST = re.compile(r"^user = \[\]\n?", re.MULTILINE)


def check_new(path: Path, name: str) -> None:
    """Checks that a user of a name can be added to a file. A file that cannot be used, or has the name, is an `OSError`."""
    _read(path, name)


def append(path: Path, user: User) -> None:
    """Appends a user to a users file, which keeps its mode and owner. Creates the file, readable by its owner only, if there is none. The user replaces a line `user = []`.

    Of several processes that append users at once, each appends its own."""
    with locked(path.parent):
        text, status = _read(path, user.name)
        if not _users(path, text):
            text = _EMPTY_LIST.sub("", text)
        gap = "\n" if text.strip() else ""
        end = "\n" if text and not text.endswith("\n") else ""
        new = text + end + gap + user.text()
        if text:
            # The old text may not go on with a further user.
            _users(path, new)
        file = NewFile(path.name, new, PRIVATE, may_replace=status is not None, like=status)
        write_files(path.parent, [file])


def _read(path: Path, name: str) -> tuple[str, os.stat_result | None]:
    """The text and the status of a users file to which a user of a name can be added. A file that does not exist has an empty text."""
    if not os.path.lexists(path):
        return "", None
    with open_regular(path) as file:
        status = os.fstat(file.fileno())
        try:
            text = file.read().decode()
        except UnicodeDecodeError as error:
            raise _refusal(path, "is not UTF-8") from error
    names = _users(path, text)
    if name in names:
        raise _refusal(path, f"has a user {name} already")
    if len(names) >= MAX_LIST_ITEMS:
        raise _refusal(path, f"has {len(names)} users, and may have {MAX_LIST_ITEMS}")
    return text, status


def _users(path: Path, text: str) -> list[str]:
    """The names in the text of a users file."""
    if not text:
        return []
    try:
        import tomllib
    except ModuleNotFoundError as error:
        raise _refusal(path, "exists, and is read only by Python 3.11 or later") from error
    try:
        return [user["name"] for user in tomllib.loads(text).get("user", [])]
    except tomllib.TOMLDecodeError as error:
        # The error ends in its place: "(at line 1, column 5)".
        place = str(error).rpartition("(")[2].rstrip(")")
        raise _refusal(path, f"is no users file: no TOML {place}") from error
    except (KeyError, TypeError) as error:
        raise _refusal(path, "is no users file: a user has no name") from error


def _refusal(path: Path, why: str) -> OSError:
    return OSError(errno.EINVAL, on_one_line(why), str(path))
