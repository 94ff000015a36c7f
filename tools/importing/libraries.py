"""The libraries of an application. Only the names of their entries are read."""
from __future__ import annotations

import posixpath
import re
import zipfile
from pathlib import Path

from .elements import shortened
from .files import open_regular
from .told import Rank, Told

_FRAGMENT = "META-INF/web-fragment.xml"
_DRIVE = re.compile("[A-Za-z]:")
# An archive that is damaged, of an unknown version, or with a name that is not in the encoding that it declares.
_UNREADABLE = (OSError, zipfile.BadZipFile, NotImplementedError, ValueError)


def tell_fragments(web_xml: Path, told: Told) -> None:
    """Reports the libraries next to a web.xml that have a fragment, that are suspicious, and that cannot be read."""
    for path in _libraries(web_xml.parent / "lib", told):
        if path.is_symlink():
            told.tell(
                Rank.SECURITY,
                1,
                f"lib/{path.name} is a link, which is not followed: whether it has a web-fragment.xml is not known",
            )
            continue
        try:
            with open_regular(path) as file, zipfile.ZipFile(file) as library:
                names = library.namelist()
        except _UNREADABLE:
            told.tell(
                Rank.SECURITY,
                1,
                f"lib/{path.name} cannot be read: whether it has a web-fragment.xml is not known",
            )
            continue
        if _FRAGMENT in names:
            told.tell(
                Rank.SECURITY, 1, f"lib/{path.name} has a web-fragment.xml, which is not read"
            )
        outside = next(filter(_leads_out, names), None)
        if outside is not None:
            told.tell(
                Rank.SECURITY,
                1,
                f"lib/{path.name} has the entry {shortened(outside)}, which leads out of the folder it is unpacked to",
            )


def _libraries(folder: Path, told: Told) -> list[Path]:
    """The libraries in a folder, none if there is no folder of this name. Reports a folder that is a link, or cannot be read."""
    if folder.is_symlink():
        told.tell(
            Rank.SECURITY,
            1,
            f"{folder.name} is a link, which is not followed: whether a library has a web-fragment.xml is not known",
        )
        return []
    try:
        return sorted(path for path in folder.iterdir() if path.suffix == ".jar")
    except (FileNotFoundError, NotADirectoryError):
        return []
    except OSError as error:
        told.tell(
            Rank.SECURITY,
            1,
            f"{folder.name} cannot be read ({error.strerror}): whether a library has a web-fragment.xml is not known",
        )
        return []


def _leads_out(name: str) -> bool:
    """Whether an archiver may write the entry of a name outside of the folder into which it unpacks."""
    path = name.replace("\\", "/")
    return (
        path.startswith("/")
        or _DRIVE.match(path) is not None
        or posixpath.normpath(path).split("/")[0] == ".."
    )
