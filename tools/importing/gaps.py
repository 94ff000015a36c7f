"""The differences of Tomcat in the reading of constraints. It seeks an exact pattern, then the longest of a prefix, then an extension, then `/`, and goes
on from a prefix whose constraints leave the method uncovered. By the specification only the best pattern counts (Jakarta Servlet 6.0, section 13.8.3).
The two decide differently only if the constraints of such a later pattern refuse the method, or require a login. Tomcat also declares the roles that
constraints name. By the specification the role `*` is only for the roles of `security-role` (section 13.8)."""
from __future__ import annotations

import itertools
import re
from typing import Iterator

from .elements import shortened
from .methods import Coverage, Methods, coverages
from .role_names import imported_role
from .told import MOST_NAMED, Rank, Told, listed
from .tree import Element
from .words import Table

# An extension pattern that matches a path: in Tomcat an extension is not empty, and it has no dot.
_EXTENSION = re.compile(r"\*\.[^.]+")


def tell_readings(root: Element, constraints: list[Table], told: Told) -> None:
    """Reports the patterns and roles of constraints for which Tomcat decides differently."""
    _tell_undeclared_roles(root, told)
    lines: dict[str, int] = {}
    for pattern_element in _patterns_of(root):
        lines.setdefault(pattern_element.text, pattern_element.line)
    coverage = coverages(constraints)
    if "/" in coverage and ("/*" in coverage or "" in coverage):
        told.tell(
            Rank.SECURITY,
            lines["/"],
            'url-pattern "/" of a constraint is matched last for the path / too; Tomcat matches that path exactly',
        )
    if "*." in coverage:
        told.tell(
            Rank.SECURITY,
            lines["*."],
            'url-pattern "*." of a constraint is for paths that end in a dot; Tomcat matches nothing by it',
        )
    # Tomcat covers these methods itself, by constraints that deny them.
    if root.first("deny-uncovered-http-methods") is None:
        _tell_prefixes(coverage, lines, told)


def _tell_prefixes(coverage: dict[str, Coverage], lines: dict[str, int], told: Told) -> None:
    """Reports the prefixes with uncovered methods of which Tomcat refuses one by a later pattern."""
    later = _Later(coverage)
    prefixes = {
        pattern: its.uncovered for pattern, its in coverage.items() if pattern.endswith("/*")
    }
    sentences = {methods: later.sentence(methods) for methods in set(prefixes.values())}
    for pattern, methods in prefixes.items():
        if sentences[methods]:
            told.tell(
                Rank.SECURITY,
                lines[pattern],
                f"url-pattern {shortened(pattern)}: {sentences[methods]}",
            )


class _Later:
    """The extension patterns and `/`, which Tomcat tries after prefixes, in groups of those that refuse the same methods."""

    def __init__(self, coverage: dict[str, Coverage]) -> None:
        # The patterns of a group, each after its place among the patterns of all constraints.
        self._groups: dict[Methods, list[tuple[int, str]]] = {}
        for place, (pattern, its) in enumerate(coverage.items()):
            if pattern == "/" or _EXTENSION.fullmatch(pattern):
                self._groups.setdefault(its.refused, []).append((place, pattern))

    def sentence(self, uncovered: Methods) -> str:
        """What is reported of a prefix that leaves these methods uncovered: nothing if no later pattern refuses one of them."""
        groups = [group for refused, group in self._groups.items() if refused.meets(uncovered)]
        if not groups:
            return ""
        # The groups are in the order of their first patterns, so each of these has a pattern before all of the other groups.
        first = sorted(it for group in groups[:MOST_NAMED] for it in group[:MOST_NAMED])
        others = listed([shortened(pattern) for _, pattern in first], sum(map(len, groups)))
        return (
            f"its constraints leave {uncovered} uncovered, and so open; Tomcat goes on to {others}"
        )


def _tell_undeclared_roles(root: Element, told: Told) -> None:
    constraints = [element.first("auth-constraint") for element in root.all("security-constraint")]
    named = [_roles_of(element) for element in constraints if element is not None]
    declared = [_roles_of(element) for element in root.all("security-role")]
    undeclared = {role for lines in named for role in lines}.difference({"*", "**"}, *declared)
    in_order = sorted(undeclared)
    for lines in named:
        count = len(undeclared) - sum(role in undeclared for role in lines)
        if count and "*" in lines and "**" not in lines:
            others = (role for role in in_order if role not in lines)
            names = listed(list(itertools.islice(others, MOST_NAMED)), count)
            told.tell(
                Rank.SECURITY,
                lines["*"],
                f"role-name * is for the declared roles; Tomcat also admits {names}, which other constraints name",
            )


def _roles_of(element: Element) -> dict[str, int]:
    """The roles that an element names, each with a line."""
    return {imported_role(role.text): role.line for role in element.all("role-name")}


def _patterns_of(root: Element) -> Iterator[Element]:
    for constraint in root.all("security-constraint"):
        for collection in constraint.all("web-resource-collection"):
            yield from collection.all("url-pattern")
