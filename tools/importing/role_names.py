"""Names of roles. A role whose name a descriptor cannot have gets a new one. It depends only on the old name, so it is the same in every file."""
from __future__ import annotations

import hashlib
import re

from .elements import shortened
from .limits import MAX_NAME_BYTES, is_name

# The most characters of a name that a line shows: names of a directory may differ only near their ends.
_MOST_SHOWN = 200
_PREFIX = "renamed-role-"
# Half of the digits of SHA-256.
_DIGITS = 32
_NEW_NAME = re.compile(rf"{_PREFIX}[0-9a-f]{{{_DIGITS}}}")


def imported_role(name: str) -> str:
    """The name that a role is imported under. An old name of the form of the new ones is replaced too, so different roles keep different names."""
    if is_name(name) and not _NEW_NAME.fullmatch(name):
        return name
    return _PREFIX + hashlib.sha256(name.encode()).hexdigest()[:_DIGITS]


def shown_role(name: str) -> str:
    """The name of a role in quotes, on one line."""
    return shortened(name, _MOST_SHOWN)


def renaming(name: str) -> str:
    """Why a role gets a new name, and which: the end of a sentence about it. Empty for a role that keeps its name."""
    new_name = imported_role(name)
    if new_name == name:
        return ""
    why = f"has more than {MAX_NAME_BYTES} bytes"
    if is_name(name):
        why = "has the form of a new name"
    elif not name:
        why = "is empty"
    return f"{why}: it is imported as {new_name}"
