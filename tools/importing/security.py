"""Security constraints, roles, login."""
from __future__ import annotations

import dataclasses

from .elements import shortened
from .gaps import tell_readings
from .limits import (
    MAX_METHOD_BYTES,
    MAX_PATTERNS_OF_CONSTRAINT,
    is_location,
    is_token,
    size,
)
from .patterns import is_pattern_told
from .role_names import imported_role, renaming, shown_role
from .told import Rank, Told
from .tree import Element
from .words import Table, words

RESERVED_ROLES = ("*", "**")
LOGIN_PAGE = "/login.html"
ERROR_PAGE = "/error.html"
# No canonical path has two slashes side by side, so no request is matched by it.
NO_PATH = "//nothing"
# A method that no client sends.
NO_METHOD = "-"

_GUARANTEES = ("NONE", "INTEGRAL", "CONFIDENTIAL")


@dataclasses.dataclass(frozen=True)
class Located:
    """The table of a constraint or role, and the line on which its element begins."""

    table: Table
    line: int


def constraints(root: Element, told: Told) -> list[Located]:
    """The constraints, each at its place. What does not fit into one is a constraint after all others, with the line of the same element."""
    found: list[Located] = []
    behind: list[tuple[int, Located]] = []
    for number, element in enumerate(root.all("security-constraint"), 1):
        rest = {**_authorization(element, told), **_transport(element, told), **words(element)}
        parts = _parts(_collections(element, told))
        if not parts:
            if any(it.first("url-pattern") for it in element.all("web-resource-collection")):
                told.tell(
                    Rank.SECURITY,
                    element.line,
                    f"constraint {number} has no pattern that could be read: it is imported as one that no request matches",
                )
            parts = [[{"url-pattern": [NO_PATH]}]]
        first, *others = [
            Located({"web-resource-collection": list(part), **rest}, element.line) for part in parts
        ]
        found.append(first)
        behind += [(number, other) for other in others]
    for number, other in behind:
        found.append(other)
        told.tell(
            Rank.SECURITY,
            other.line,
            f"constraint {number} has more than {MAX_PATTERNS_OF_CONSTRAINT} patterns: the others are imported as constraint {len(found)}",
        )
    tell_readings(root, [constraint.table for constraint in found], told)
    return found


def _collections(element: Element, told: Told) -> list[Table]:
    if element.first("web-resource-collection") is None:
        told.tell(
            Rank.ERROR,
            element.line,
            "a security-constraint has no web-resource-collection, and so covers nothing",
        )
    found = [_collection(child, told) for child in element.all("web-resource-collection")]
    return [table for table in found if table is not None]


def _collection(element: Element, told: Told) -> Table | None:
    """The table of a collection, `None` where it has no pattern."""
    texts = [
        child.text
        for child in element.all("url-pattern")
        if is_pattern_told(child, Rank.SECURITY, told)
    ]
    patterns = list(dict.fromkeys(texts))
    methods = _methods(element, told)
    if element.first("url-pattern") is None:
        told.tell(
            Rank.ERROR,
            element.line,
            "a web-resource-collection has no url-pattern, and so covers nothing",
        )
    if not patterns:
        return None
    name = element.text_of("web-resource-name")
    named: Table = {"web-resource-name": " ".join(name.split())} if name else {}
    return {**named, "url-pattern": list(patterns), **methods, **words(element)}


def _methods(element: Element, told: Told) -> Table:
    """The methods of a collection. Without a list it covers all."""
    listed, omitted = list(element.all("http-method")), list(element.all("http-method-omission"))
    if listed and omitted:
        told.tell(
            Rank.ERROR,
            omitted[0].line,
            "a collection has http-method or http-method-omission, not both; Tomcat does not start such an application",
        )
    key = "http-method" if listed else "http-method-omission"
    methods = [child.text for child in listed or omitted if _is_method_told(child, told)]
    if listed and not methods:
        told.tell(
            Rank.SECURITY,
            element.line,
            f"no method of this web-resource-collection can be written: it is imported with the method {NO_METHOD}, so its patterns stay",
        )
        methods = [NO_METHOD]
    return {key: list(dict.fromkeys(methods))} if methods else {}


def _is_method_told(element: Element, told: Told) -> bool:
    if not is_token(element.text):
        told.tell(
            Rank.ERROR, element.line, f"{element.name} {shortened(element.text)} is no method"
        )
        return False
    if size(element.text) > MAX_METHOD_BYTES:
        effect = "not covered" if element.name == "http-method" else "covered"
        told.tell(
            Rank.SECURITY,
            element.line,
            f"{element.name} {shortened(element.text)} has more than {MAX_METHOD_BYTES} bytes, and is not read: requests with it are {effect}",
        )
        return False
    return True


def _parts(collections: list[Table]) -> list[list[Table]]:
    """The collections in parts that each have no more patterns than a constraint may have."""
    parts: list[list[Table]] = []
    room = 0
    for collection in collections:
        patterns = collection["url-pattern"]
        assert isinstance(patterns, list)
        while patterns:
            if room == 0:
                parts.append([])
                room = MAX_PATTERNS_OF_CONSTRAINT
            parts[-1].append({**collection, "url-pattern": patterns[:room]})
            patterns, room = patterns[room:], max(0, room - len(patterns))
    return parts


def _authorization(element: Element, told: Told) -> Table:
    """Who may enter: nobody if no role is named, and everybody if there is no such element."""
    constraint = element.first("auth-constraint")
    if constraint is None:
        return {}
    roles = [_role_told(child, child.text, told) for child in constraint.all("role-name")]
    return {
        "auth-constraint": {**({"role-name": list(roles)} if roles else {}), **words(constraint)}
    }


def _role_told(element: Element, name: str, told: Told) -> str:
    """The name under which the role that an element names is imported. Reports a new name."""
    renamed = renaming(name)
    if renamed:
        told.tell(
            Rank.SECURITY,
            element.line,
            f"{element.name} {shown_role(name)} {renamed}, which tools/new-user can give to a user",
        )
    return imported_role(name)


def _transport(element: Element, told: Told) -> Table:
    constraint = element.first("user-data-constraint")
    if constraint is None:
        return {}
    guarantee = constraint.first("transport-guarantee")
    if guarantee is None:
        told.tell(
            Rank.ERROR,
            constraint.line,
            "a user-data-constraint has no transport-guarantee, and so requires nothing",
        )
        return {}
    asked = guarantee.text
    if asked not in _GUARANTEES:
        told.tell(
            Rank.ERROR,
            guarantee.line,
            f"transport-guarantee {shortened(asked)} is none of NONE, INTEGRAL and CONFIDENTIAL; Tomcat reads it as CONFIDENTIAL",
        )
        return {}
    if asked != "NONE":
        told.tell(
            Rank.SECURITY,
            guarantee.line,
            f"transport-guarantee {asked}: requests that it covers are denied with 403, also behind a proxy that provides TLS; Tomcat redirects to a secure port",
        )
    return {"user-data-constraint": {"transport-guarantee": asked, **words(constraint)}}


def roles(root: Element, told: Told) -> list[Located]:
    """The declared roles."""
    found: list[Located] = []
    seen: set[str] = set()
    for element in root.all("security-role"):
        named = element.first("role-name")
        if named is None:
            told.tell(
                Rank.SECURITY,
                element.line,
                "a security-role has no role-name, and so declares nothing",
            )
        elif named.text in RESERVED_ROLES:
            told.tell(
                Rank.SECURITY,
                element.line,
                f"security-role {named.text} has a meaning of its own in a constraint, and cannot be declared",
            )
        else:
            name = _role_told(element, named.text, told)
            if name in seen:
                told.tell(Rank.IGNORED, element.line, f"security-role {name} is declared again")
                continue
            seen.add(name)
            found.append(Located({"role-name": name, **words(element)}, element.line))
    return found


def login_config(root: Element, told: Told) -> Table | None:
    """The table of the login, `None` where callers cannot log in."""
    element = root.first("login-config")
    if element is None:
        return None
    method = element.text_of("auth-method")
    if method in ("", "NONE"):
        told.tell(
            Rank.SECURITY,
            element.line,
            "login-config has no method: callers cannot log in, and `login` means a denial with 403",
        )
        return None
    pages = {"form-login-page": LOGIN_PAGE, "form-error-page": ERROR_PAGE}
    form = element.first("form-login-config")
    if method == "FORM":
        pages = {key: _page(element, form, key, page, told) for key, page in pages.items()}
    else:
        told.tell(
            Rank.SECURITY,
            element.line,
            f"{method} login is imported as FORM with the page {LOGIN_PAGE}: policy prints `login` for a request that would be answered with 401",
        )
        if form is not None:
            told.tell(
                Rank.IGNORED,
                form.line,
                f"form-login-config is only for FORM, and not for {method}",
            )
    return {"auth-method": "FORM", "form-login-config": dict(pages)}


def _page(login: Element, form: Element | None, key: str, default: str, told: Told) -> str:
    page = None if form is None else form.first(key)
    if page is None:
        told.tell(
            Rank.SECURITY, login.line, f"FORM login without a {key}: it is imported as {default}"
        )
        return default
    if is_location(page.text):
        return page.text
    if not page.text.startswith("/"):
        told.tell(
            Rank.ERROR, page.line, f"{key} {shortened(page.text)} does not begin with a slash"
        )
        return default
    told.tell(
        Rank.SECURITY,
        page.line,
        f"{key} {shortened(page.text)} is no path within the context: it is imported as {default}",
    )
    return default
