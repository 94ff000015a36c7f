"""Sets of HTTP methods, and what the constraints of a URL pattern decide for methods (Jakarta Servlet 6.0, section 13.8)."""
from __future__ import annotations

from typing import Iterable, NamedTuple

from .told import listed
from .words import Table

# The most methods that a line names.
_MOST_NAMED = 10


class Methods(NamedTuple):
    """These methods, or all but these."""

    names: frozenset[str]
    is_all_but: bool

    def __invert__(self) -> Methods:
        return Methods(self.names, not self.is_all_but)

    def __and__(self, other: Methods) -> Methods:
        return ~_union([~self, ~other])

    def meets(self, other: Methods) -> bool:
        """Whether a method is in both sets."""
        if self.is_all_but:
            return other.is_all_but or not other.names <= self.names
        if other.is_all_but:
            return not self.names <= other.names
        return not self.names.isdisjoint(other.names)

    def __str__(self) -> str:
        names = listed(sorted(self.names), len(self.names), _MOST_NAMED)
        return f"all methods but {names}" if self.is_all_but else names


def _union(sets: Iterable[Methods]) -> Methods:
    names: set[str] = set()
    excepted: frozenset[str] | None = None
    for part in sets:
        if not part.is_all_but:
            names |= part.names
        else:
            excepted = part.names if excepted is None else excepted & part.names
    return Methods(frozenset(names), False) if excepted is None else Methods(excepted - names, True)


class _Cover(NamedTuple):
    """The methods that a collection covers, and what its constraint asks of their requests."""

    methods: Methods
    # It has an authorization constraint without roles.
    precludes: bool
    # It has no authorization constraint.
    needs_no_caller: bool
    needs_no_transport: bool


class Coverage(NamedTuple):
    """The methods that the constraints of a pattern leave uncovered, and the covered ones with which a plain request without a caller is not let in."""

    uncovered: Methods
    refused: Methods


def coverages(constraints: list[Table]) -> dict[str, Coverage]:
    """What the constraints of each pattern decide. Patterns with the same collections share their sets."""
    covers: dict[str, list[_Cover]] = {}
    for constraint in constraints:
        collections = constraint["web-resource-collection"]
        assert isinstance(collections, list)
        for collection in collections:
            cover = _cover(constraint, collection)
            for pattern in collection["url-pattern"]:
                covers.setdefault(pattern, []).append(cover)
    listed_covers = {pattern: tuple(its_covers) for pattern, its_covers in covers.items()}
    known = {each: _coverage(each) for each in set(listed_covers.values())}
    return {pattern: known[each] for pattern, each in listed_covers.items()}


def _cover(constraint: Table, collection: Table) -> _Cover:
    authorization = constraint.get("auth-constraint")
    transport = constraint.get("user-data-constraint")
    guarantee = transport["transport-guarantee"] if isinstance(transport, dict) else "NONE"
    return _Cover(
        _methods_of(collection),
        precludes=isinstance(authorization, dict) and "role-name" not in authorization,
        needs_no_caller=authorization is None,
        needs_no_transport=guarantee == "NONE",
    )


def _methods_of(collection: Table) -> Methods:
    methods = collection.get("http-method")
    omitted = collection.get("http-method-omission")
    if isinstance(methods, list):
        return Methods(frozenset(map(str, methods)), False)
    return Methods(frozenset(map(str, omitted)) if isinstance(omitted, list) else frozenset(), True)


def _coverage(covers: tuple[_Cover, ...]) -> Coverage:
    """A method is open to everyone if no constraint precludes it, one needs no caller, and one needs no transport (sections 13.8.1, 13.8.2)."""
    covered = _union(it.methods for it in covers)
    precluded = _union(it.methods for it in covers if it.precludes)
    without_caller = _union(it.methods for it in covers if it.needs_no_caller)
    plain = _union(it.methods for it in covers if it.needs_no_transport)
    return Coverage(~covered, covered & ~(without_caller & plain & ~precluded))
