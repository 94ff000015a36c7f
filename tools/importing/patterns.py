"""URL patterns: which are read, and which paths they match (Jakarta Servlet 6.0, section 12)."""
from __future__ import annotations

from .elements import shortened
from .limits import MAX_PATTERN_BYTES, is_pattern, size
from .told import Rank, Told
from .tree import Element

# The kinds of patterns, in the order of precedence (Jakarta Servlet 6.0, section 12.1), the last one first.
_DEFAULT, _EXTENSION, _PREFIX, _EXACT = range(4)


def is_pattern_told(pattern: Element, rank: Rank, told: Told) -> bool:
    """Whether an element's text is a pattern. Reports one that is not, and one that Tomcat reads differently."""
    if size(pattern.text) > MAX_PATTERN_BYTES:
        told.tell(
            rank,
            pattern.line,
            f"url-pattern {shortened(pattern.text)} has more than {MAX_PATTERN_BYTES} bytes, and is not read",
        )
        return False
    if not is_pattern(pattern.text):
        told.tell(
            Rank.ERROR,
            pattern.line,
            f"url-pattern {shortened(pattern.text)} is no pattern; Tomcat does not start such an application",
        )
        return False
    if "%" in pattern.text:
        told.tell(
            rank,
            pattern.line,
            f"url-pattern {shortened(pattern.text)} is compared as it is written; Tomcat decodes it first",
        )
    if "*" in _without_wildcard(pattern.text):
        told.tell(
            rank,
            pattern.line,
            f'url-pattern {shortened(pattern.text)} matches only paths with this asterisk: wildcards are only those of "/x/*" and "*.x"',
        )
    return True


def _without_wildcard(pattern: str) -> str:
    return pattern[1:] if pattern.startswith("*.") else pattern.removesuffix("/*")


def can_match(pattern: str) -> bool:
    """Whether a text is a pattern that matches a path: the extension of a path has no dot (Jakarta Servlet 6.0, section 12.1)."""
    return is_pattern(pattern) and not (pattern.startswith("*.") and "." in pattern[2:])


def _kind(pattern: str) -> int:
    if pattern == "/":
        return _DEFAULT
    if pattern.startswith("*."):
        return _EXTENSION
    return _PREFIX if pattern.endswith("/*") else _EXACT


def precedence(pattern: str) -> tuple[int, int]:
    """Returns a value that is greater for a pattern that is preferred to another one for the same path."""
    return _kind(pattern), len(pattern) if _kind(pattern) == _PREFIX else 0


def covers(outer: str, inner: str) -> bool:
    """Whether each path that the inner pattern matches is matched by the outer one."""
    if outer in ("/", "/*") or outer == inner:
        return True
    if _kind(inner) == _EXACT:
        return _matches(outer, inner or "/")
    both_prefixes = _kind(outer) == _kind(inner) == _PREFIX
    return both_prefixes and inner.startswith(outer[:-1])


def _matches(pattern: str, path: str) -> bool:
    if _kind(pattern) == _PREFIX:
        return path == pattern[:-2] or path.startswith(pattern[:-1])
    if _kind(pattern) == _EXTENSION:
        _, dot, extension = path.rpartition("/")[2].rpartition(".")
        return dot + extension == pattern[1:]
    return pattern == "/" or (pattern or "/") == path


def meet(one: str, other: str) -> bool:
    """Whether a path is matched by both patterns."""
    if {_kind(one), _kind(other)} == {_PREFIX, _EXTENSION}:
        return True
    return covers(one, other) or covers(other, one)


def folder_of(pattern: str, name: str) -> str | None:
    """A pattern for the folders whose file of a name a pattern matches, and of which it matches no folder itself; `None` if there is no such folder."""
    if _kind(pattern) == _EXTENSION:
        return "/*" if _matches(pattern, f"/{name}") else None
    path = pattern.removesuffix("/*") if _kind(pattern) == _PREFIX else pattern
    segments = name.split("/")
    # A prefix may end within the name, if the name has slashes.
    first = 1 if _kind(pattern) == _PREFIX else len(segments)
    for count in range(first, len(segments) + 1):
        beginning = "/".join(segments[:count])
        if path.endswith(f"/{beginning}"):
            folder = path.removesuffix(beginning)
            return "" if folder == "/" else folder
    return None
