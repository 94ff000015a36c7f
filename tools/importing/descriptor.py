"""A whole web.xml as a descriptor of this program."""
from __future__ import annotations

import dataclasses
from typing import Callable

from . import components, guarding, guards, pages, security, toml, tree
from .elements import shortened, taken, tell_what_is_not_taken
from .limits import MAX_LIST_ITEMS
from .toml import Value
from .told import Rank, Told
from .tree import Document, Element
from .words import Table, words

_NAMESPACES = frozenset(
    [
        "",
        "http://java.sun.com/xml/ns/j2ee",
        "http://java.sun.com/xml/ns/javaee",
        "http://xmlns.jcp.org/xml/ns/javaee",
        "https://jakarta.ee/xml/ns/jakartaee",
    ]
)
_VERSIONS = ("2.4", "2.5", "3.0", "3.1", "4.0", "5.0", "6.0", "6.1")
_PUBLIC_IDS = (
    "-//Sun Microsystems, Inc.//DTD Web Application 2.2//EN",
    "-//Sun Microsystems, Inc.//DTD Web Application 2.3//EN",
)


_CONSTRAINT, _ROLE = "[[security-constraint]]", "[[security-role]]"


@dataclasses.dataclass
class Part:
    """A table of a descriptor, its header, and the line of the web.xml on which its element begins, if it is of use."""

    header: str
    table: Table
    line: int | None = None


@dataclasses.dataclass
class Descriptor:
    """The tables of a descriptor, in the order of its format, whether no other file has to be read, and the pages that a proxy shows."""

    top: Table
    parts: list[Part]
    is_complete: bool
    shown: list[guarding.Page] = dataclasses.field(default_factory=list)

    def text(self) -> str:
        """The descriptor's TOML."""
        top = "".join(toml.pair(key, value) for key, value in self.top.items())
        texts = [top] if top else []
        return "\n".join(texts + [toml.table(part.header, part.table) for part in self.parts])

    def lines_text(self, file: str) -> str:
        """The file of lines: the name of the web.xml, the lines on which constraint 1, 2, .. begins, and after `role ` the lines on which the declared roles begin."""
        roles = [f"role {line}" for line in self._lines(_ROLE)]
        return "".join(f"{item}\n" for item in [file, *self._lines(_CONSTRAINT), *roles])

    def _lines(self, header: str) -> list[str]:
        """The lines of the tables with a header, each empty where there is none."""
        parts = [part for part in self.parts if part.header == header]
        return ["" if part.line is None else str(part.line) for part in parts]


def read(text: bytes, told: Told) -> Descriptor:
    """Reads the text of a web.xml, and reports the elements that have no place in a descriptor. A text that is no web.xml is a `Fault`."""
    root = _root(text, told, lambda root: root)
    _tell_encoding(root, told)
    top, constraints = _top(root, told), security.constraints(root, told)
    return _whole(root, top, _parts(root, constraints, told), told)


def read_for_application(text: bytes, told: Told) -> Descriptor:
    """Reads the text of a web.xml for a container that guards its application: what only the application needs is not reported."""
    root = _root(text, told, guarding.read_part)
    top, constraints = _top(root, told), security.constraints(root, told)
    login = security.login_config(root, told)
    shown = guarding.shown_pages(root, login, told)
    guarding.tell_welcome_files(root, told)
    parts = _guarded_parts(root, shown, constraints, told)
    descriptor = _whole(root, top, [*parts, *_of_tables({"login-config": login})], told)
    return dataclasses.replace(descriptor, shown=shown)


def _root(text: bytes, told: Told, part: Callable[[Element], Element]) -> Element:
    """The root of a web.xml, of which only a part is read."""
    document = tree.read(text, told)
    _check_root(document, told)
    root = part(document.root)
    tell_what_is_not_taken(root, told)
    root = taken(root)
    _check_completeness(root, told)
    return root


def _whole(root: Element, top: Table, parts: list[Part], told: Told) -> Descriptor:
    guards.tell_guards(root, told)
    descriptor = Descriptor({**_version(parts), **top}, parts, _is_complete(root))
    _check_lists(descriptor, told)
    return descriptor


def _check_root(document: Document, told: Told) -> None:
    root = document.root
    if root.name != "web-app":
        raise told.fault(root.line, f"{root.name} is no web-app")
    if root.namespace not in _NAMESPACES:
        told.tell(
            Rank.BEHAVIOR,
            root.line,
            f"the namespace {root.namespace} is none of web.xml: its elements are read as if it were",
        )
    version = root.attributes.get("version", "")
    if version and version not in _VERSIONS:
        told.tell(
            Rank.BEHAVIOR,
            root.line,
            f"version {shortened(version)} is none from 2.4 to 6.1: it is read as if it were 6.1",
        )
    if document.doctype_line and document.public_id not in _PUBLIC_IDS:
        told.tell(
            Rank.BEHAVIOR,
            document.doctype_line,
            "the DOCTYPE is none of Servlet 2.2 and 2.3: its declarations are not read",
        )


def _is_complete(root: Element) -> bool:
    return root.attributes.get("metadata-complete", "").strip() in ("true", "1")


def _check_completeness(root: Element, told: Told) -> None:
    text = root.attributes.get("metadata-complete", "false").strip()
    if text not in ("true", "false", "1", "0"):
        told.tell(
            Rank.ERROR,
            root.line,
            f"metadata-complete {shortened(text)} is none of true, false, 1 and 0",
        )


def _top(root: Element, told: Told) -> Table:
    deny = root.first("deny-uncovered-http-methods")
    top: Table = {} if deny is None else {"deny-uncovered-http-methods": True}
    if deny is not None and deny.text:
        told.tell(
            Rank.ERROR,
            deny.line,
            f"deny-uncovered-http-methods is not empty: {shortened(deny.text)} does not turn it off",
        )
    if not _is_complete(root):
        told.tell(
            Rank.SECURITY,
            root.line,
            "metadata-complete is not true: annotations of classes and web-fragment.xml files are not read",
        )
    return {**top, **words(root)}


def _version(parts: list[Part]) -> Table:
    """The version of a descriptor: the second where it sets the cookie of sessions, and else none, which is the first."""
    return {"version": 2} if any("cookie-config" in part.table for part in parts) else {}


def _tell_encoding(root: Element, told: Told) -> None:
    encoding = root.first("request-character-encoding")
    if encoding is not None and encoding.text.upper() != "UTF-8":
        told.tell(
            Rank.BEHAVIOR,
            encoding.line,
            f"request-character-encoding {shortened(encoding.text)}: parameters are read as UTF-8",
        )


def _parts(root: Element, constraints: list[security.Located], told: Told) -> list[Part]:
    servlet_names = components.Names("servlet", root)
    filter_names = components.Names("filter", root)
    lists = {
        "servlet": components.servlets(root, servlet_names, told),
        "servlet-mapping": components.servlet_mappings(root, servlet_names, told),
        "filter": components.filters(root, filter_names, told),
        "filter-mapping": components.filter_mappings(root, filter_names, servlet_names, told),
        "listener": components.listeners(root, told),
    }
    singles = {
        "session-config": pages.session_config(root, told),
        "welcome-file-list": pages.welcome_files(root, told),
    }
    error_pages = {"error-page": pages.error_pages(root, told)}
    roles = security.roles(root, told)
    login = {"login-config": security.login_config(root, told)}
    return [
        *_of_lists(lists),
        *_of_tables(singles),
        *_of_lists(error_pages),
        *_of_located(_CONSTRAINT, constraints),
        *_of_located(_ROLE, roles),
        *_of_tables(login),
    ]


def _guarded_parts(
    root: Element, shown: list[guarding.Page], constraints: list[security.Located], told: Told
) -> list[Part]:
    """The parts of a descriptor in front of an application, without its login."""
    whole = guarding.for_application(root)
    names = components.Names("servlet", whole)
    servlets = components.servlets(whole, names, told)
    tables = guarding.Tables(servlets, components.servlet_mappings(whole, names, told))
    guarding.tell_taken(tables.mappings, shown, told)
    guarding.add_answers(tables, shown)
    session = guarding.session_config(pages.session_config(root, told))
    return [
        *_of_lists({"servlet": tables.servlets, "servlet-mapping": tables.mappings}),
        *_of_tables({"session-config": session}),
        *_of_located(_CONSTRAINT, constraints),
        *[Part(_CONSTRAINT, table) for table in guarding.constraints(shown)],
        *_of_located(_ROLE, security.roles(root, told)),
    ]


def _of_located(header: str, found: list[security.Located]) -> list[Part]:
    return [Part(header, it.table, it.line) for it in found]


def _of_lists(lists: dict[str, list[Table]]) -> list[Part]:
    return [Part(f"[[{name}]]", table) for name, tables in lists.items() for table in tables]


def _of_tables(singles: dict[str, Table | None]) -> list[Part]:
    return [Part(f"[{name}]", table) for name, table in singles.items() if table is not None]


def _check_lists(descriptor: Descriptor, told: Told) -> None:
    """Sees that no list is longer than the format allows: one that is cut would be another configuration."""
    headers = [part.header for part in descriptor.parts]
    for header in dict.fromkeys(headers):
        _check_length(header.strip("[]"), headers.count(header), told)
    for part in descriptor.parts:
        _check_inner_lists(part.table, told)


def _check_inner_lists(table: Table, told: Told) -> None:
    for key, value in table.items():
        items: list[Value] = value if isinstance(value, list) else [value]
        if key not in ("description", "display-name", "init-param"):
            _check_length(key, len(items), told)
            for item in items:
                if isinstance(item, dict):
                    _check_inner_lists(item, told)


def _check_length(key: str, length: int, told: Told) -> None:
    if length > MAX_LIST_ITEMS:
        raise told.fault(
            1, f"{length} of {key} are more than {MAX_LIST_ITEMS}, which a descriptor may have"
        )


def server_text(seed: str, context: str, users: str, files: str = "", port: int = 0) -> str:
    """The server file for a descriptor `web.toml`, unless a port is named at one that is free when it is served."""
    server: dict[str, Value] = {"port": port, "seed": seed}
    table: dict[str, Value] = {
        "path": context,
        "descriptor": "web.toml",
        "files": files,
        **({"users": users} if users else {}),
    }
    return (
        "".join(toml.pair(key, value) for key, value in server.items())
        + "\n"
        + toml.table("[[context]]", table)
    )
