"""What a descriptor of this program can hold (docs/COMMANDS.md, "The files, key by key")."""
from __future__ import annotations

import re
from urllib.parse import unquote_to_bytes

MAX_LIST_ITEMS = 1000
MAX_NAME_BYTES = 64
MAX_METHOD_BYTES = 15
MAX_PATTERN_BYTES = 1024
MAX_PATTERNS_OF_CONSTRAINT = 64
MAX_SESSION_TIMEOUT = 525_600
MAX_COOKIE_PATH_BYTES = 1024
MAX_COOKIE_AGE = 2_147_483_647
ERROR_CODES = range(400, 600)

SERVLET_CLASSES = frozenset(
    "Who Paths Nest Go Fail Err Gone Keep Bye Out Stream Application".split()
)
FILTER_CLASSES = frozenset("Mark Halt Bad".split())
LISTENER_CLASSES = frozenset(["Log"])

_TOKEN = re.compile(r"[!#$%&'*+.^_`|~0-9A-Za-z-]+")


def size(text: str) -> int:
    """How many bytes a text has."""
    return len(text.encode())


def is_name(text: str) -> bool:
    """Whether a text is a name of a component, a class, a role or a kind of fault."""
    is_utf8 = not any("\ud800" <= letter <= "\udfff" for letter in text)
    return is_utf8 and 1 <= size(text) <= MAX_NAME_BYTES


def is_token(text: str) -> bool:
    """Whether a text is a token (RFC 9110, section 5.6.2), as a method and the name of a cookie are."""
    return _TOKEN.fullmatch(text) is not None


def is_path_value(text: str) -> bool:
    """Whether a text is the path of a cookie (RFC 6265, section 4.1.1): printable, without a semicolon, and not empty."""
    return re.fullmatch(r"[ -:<-~]+", text) is not None


def is_pattern(text: str) -> bool:
    """Whether a text is a URL pattern (Jakarta Servlet 6.0, section 12.2)."""
    is_path = text == "" or text.startswith("/")
    is_extension = text.startswith("*.") and "/" not in text
    return (is_path or is_extension) and size(text) <= MAX_PATTERN_BYTES


def is_location(text: str) -> bool:
    """Whether a text begins with `/` and has a canonical path, with or without a query (Jakarta Servlet 6.0, section 3.5.2)."""
    if "#" in text or not text.startswith("/"):
        return False
    segments = text.partition("?")[0].split("/")[1:]
    return all(_is_segment(segment) for segment in segments) and not _climbs(segments)


def _is_segment(segment: str) -> bool:
    name, parameter, _ = segment.partition(";")
    if re.search(r"%(?![0-9A-Fa-f]{2})", name):
        return False
    decoded = unquote_to_bytes(name)
    try:
        decoded.decode()
    except UnicodeDecodeError:
        return False
    is_disguised = decoded in (b".", b"..") and decoded != segment.encode()
    is_bare_parameter = decoded == b"" and parameter != ""
    has_forbidden_byte = any(byte < 32 or byte in b"\x7f/\\" for byte in decoded)
    return not (is_disguised or is_bare_parameter or has_forbidden_byte)


def _climbs(segments: list[str]) -> bool:
    depth = 0
    for segment in segments:
        name = segment.partition(";")[0]
        depth += {"": 0, ".": 0, "..": -1}.get(name, 1)
        if depth < 0:
            return True
    return False
