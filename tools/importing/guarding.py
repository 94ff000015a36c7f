"""A web.xml whose application is behind the container: every path goes to the class Application, and nginx shows the pages for logins and errors."""
from __future__ import annotations

import dataclasses
from typing import Iterable, Iterator
from urllib.parse import unquote

from . import components, pages
from .elements import CONTENT, shortened
from .guards import requires
from .limits import ERROR_CODES, is_location
from .patterns import can_match, covers, folder_of
from .told import Rank, Told
from .tree import Element
from .words import Table

# The classes of the program that answer: for the application, for a request that needs a login, and for the end of a session.
APPLICATION, ERROR, END_OF_SESSION = "Application", "Err", "Bye"
LOG_OUT = "/guard/log-out"
# The session of the container has a cookie of its own: the application may have one of the default name.
COOKIE = "GUARDSESSION"
EVERYTHING = "/"
# The code of nginx for a client that is gone, for which it shows no page.
CODE_OF_NGINX = 499
# The welcome files of an application without a list of its own (`web.xml` of Tomcat and `webdefault.xml` of Jetty).
_WELCOME_FILES = ("index.html", "index.htm", "index.jsp")

# What the container reads of a web-app, and of its elements. All else that is an element of web.xml is for the application.
_READ: dict[str, frozenset[str]] = {
    "description": frozenset(),
    "display-name": frozenset(),
    "servlet": frozenset(["servlet-name"]),
    "servlet-mapping": frozenset(["servlet-name", "url-pattern"]),
    "filter": frozenset(["filter-name", "filter-class"]),
    "filter-mapping": frozenset(CONTENT["filter-mapping"]),
    "session-config": frozenset(["session-timeout"]),
    "welcome-file-list": frozenset(["welcome-file"]),
    "error-page": frozenset(["error-code", "location"]),
    "security-constraint": frozenset(CONTENT["security-constraint"]),
    "security-role": frozenset(CONTENT["security-role"]),
    "login-config": frozenset(CONTENT["login-config"]),
    "deny-uncovered-http-methods": frozenset(),
}


@dataclasses.dataclass(frozen=True)
class Page:
    """A page that nginx shows: the name of its file, its location in the application, and the line of the web.xml that names it."""

    name: str
    location: str
    line: int

    @property
    def pattern(self) -> str:
        """The pattern that matches just the canonical path of the location (Jakarta Servlet 6.0, sections 3.5.2 and 12.2)."""
        names: list[str] = []
        segments = [unquote(it.partition(";")[0]) for it in self._path().split("/")[1:]]
        for name in segments[:-1]:
            names = names[:-1] if name == ".." else names + [name] * (name not in ("", "."))
        last = segments[-1]
        names = names[:-1] if last == ".." else names
        path = "/" + "/".join([*names, "" if last in (".", "..") else last])
        return "" if path == "/" else path

    def _path(self) -> str:
        return self.location.partition("?")[0]


def read_part(root: Element) -> Element:
    """The part of a web-app that the container reads. What is no element of web.xml is in it, too, since it is reported."""
    known = CONTENT["web-app"]
    kept = [
        _read_part_of(child) if child.name in known else child
        for child in root.children
        if child.name in _READ or child.name not in known
    ]
    is_of_code = [it.name != "error-page" or it.first("error-code") is not None for it in kept]
    children = [child for child, is_kept in zip(kept, is_of_code) if is_kept]
    return dataclasses.replace(root, children=children)


def _read_part_of(element: Element) -> Element:
    known = CONTENT.get(element.name, {})
    kept = [it for it in element.children if it.name in _READ[element.name] or it.name not in known]
    return dataclasses.replace(element, children=kept)


def for_application(root: Element) -> Element:
    """A web-app whose servlets all are of the class Application, and which has one more for the paths of no servlet. It has no filters."""
    declared = {it.text_of("servlet-name") for it in root.all("servlet")}
    own = _free_name("application", declared)
    children = [
        _with_class(child) if child.name == "servlet" else _mapped(child, declared, own)
        for child in root.children
        if child.name not in ("filter", "filter-mapping")
        and not (
            child.name == "servlet" and child.text_of("servlet-name") == components.FILE_SERVLET
        )
    ]
    named = _made(root, "servlet-name", own)
    patterns = [it.text for child in children for it in child.all("url-pattern")]
    is_mapped = any(child.text_of("servlet-name") == own for child in children)
    if EVERYTHING not in patterns:
        pattern = _made(root, "url-pattern", EVERYTHING)
        children.append(_made(root, "servlet-mapping", "", [named, pattern]))
        is_mapped = True
    if is_mapped:
        children.append(_with_class(_made(root, "servlet", "", [named])))
    return dataclasses.replace(root, children=children)


def _made(root: Element, name: str, text: str, children: list[Element] | None = None) -> Element:
    return Element(name, root.namespace, root.line, {}, [text], children or [])


def _with_class(servlet: Element) -> Element:
    return dataclasses.replace(
        servlet, children=[*servlet.children, _made(servlet, "servlet-class", APPLICATION)]
    )


def _mapped(child: Element, declared: set[str], own: str) -> Element:
    """A child of the web-app, whose patterns are for the servlet of a name if they are for one that Tomcat declares itself."""
    name = child.text_of("servlet-name")
    is_of_tomcat = name == components.FILE_SERVLET or (
        name == components.PAGE_SERVLET and name not in declared
    )
    if child.name != "servlet-mapping" or not is_of_tomcat:
        return child
    named = _made(child, "servlet-name", own)
    others = [it for it in child.children if it.name != "servlet-name"]
    return dataclasses.replace(child, children=[named, *others])


def _free_name(name: str, taken: set[str]) -> str:
    while name in taken:
        name += "-"
    return name


def shown_pages(root: Element, login: Table | None, told: Told) -> list[Page]:
    """The pages that nginx shows: two for the login, one for a caller without the role, and those for the other errors that have a code."""
    shown: dict[str, Page] = {}
    element = root.first("login-config")
    if login is not None and element is not None:
        form = login["form-login-config"]
        assert isinstance(form, dict)
        for name, key in (("login.html", "form-login-page"), ("failed.html", "form-error-page")):
            inner = element.first("form-login-config")
            line = (inner and inner.first(key) or element).line
            shown[name] = Page(name, str(form[key]), line)
    pages.error_pages(root, told)
    for element in root.all("error-page"):
        code, location = element.text_of("error-code"), element.text_of("location")
        name = {"403": "denied.html"}.get(code, f"{code}.html")
        if code == "401":
            told.tell(
                Rank.BEHAVIOR,
                element.line,
                "the error page for 401 is not read: the page for the login takes its place",
            )
        elif code == str(CODE_OF_NGINX):
            told.tell(
                Rank.BEHAVIOR,
                element.line,
                f"the error page for {code} is not read: nginx has a meaning of its own for this code",
            )
        elif code in map(str, ERROR_CODES) and is_location(location):
            shown.setdefault(name, Page(name, location, element.line))
    return list(shown.values())


def tell_welcome_files(root: Element, told: Told) -> None:
    """Reports the patterns that match a welcome file, and not its folder, at whose path an application shows the file, too."""
    lists = root.all("welcome-file-list")
    listed = [it.strip("/") for each in lists for it in each.texts("welcome-file")]
    names = list(filter(None, listed)) or _WELCOME_FILES
    for constraint in filter(requires, root.all("security-constraint")):
        collections = constraint.all("web-resource-collection")
        patterns = [it for each in collections for it in each.all("url-pattern")]
        others = [it.text for it in patterns if can_match(it.text)]
        for pattern in patterns:
            name = _welcome_file(pattern.text, names, others)
            if name is not None:
                told.tell(
                    Rank.SECURITY,
                    pattern.line,
                    f"url-pattern {shortened(pattern.text)} matches the welcome file {shortened(name)}, and not the path of its folder: there the application may show the file to others",
                )


def _welcome_file(pattern: str, names: Iterable[str], others: list[str]) -> str | None:
    """The welcome file that a pattern matches, if no pattern of its constraint matches the folder."""
    if pattern not in others:
        return None
    folders = ((name, folder_of(pattern, name)) for name in names)
    left = (
        name for name, it in folders if it is not None and not any(covers(o, it) for o in others)
    )
    return next(left, None)


@dataclasses.dataclass
class Tables:
    """The servlets and the mappings of a guarded application."""

    servlets: list[Table]
    mappings: list[Table]

    def answer(self, name: str, servlet: Table, paths: list[str]) -> None:
        """Adds a servlet that answers just these paths."""
        self._free(paths)
        name = _free_name(name, {str(it["servlet-name"]) for it in self.servlets})
        self.servlets.append({"servlet-name": name, **servlet})
        self.mappings.append({"servlet-name": name, "url-pattern": list(dict.fromkeys(paths))})

    def _free(self, paths: list[str]) -> None:
        """Takes exact patterns away from their servlets."""
        for table in self.mappings:
            patterns = table["url-pattern"]
            assert isinstance(patterns, list)
            table["url-pattern"] = [it for it in patterns if it not in paths]
        self.mappings = [it for it in self.mappings if it["url-pattern"]]


def tell_taken(mappings: list[Table], shown: list[Page], told: Told) -> None:
    """Reports the pages for the login that a servlet of the application makes by a pattern of its own."""
    owners = {str(it): table["servlet-name"] for table in mappings for it in _patterns(table)}
    for page in shown:
        if page.name in ("login.html", "failed.html") and page.pattern in owners:
            told.tell(
                Rank.BEHAVIOR,
                page.line,
                f"{page.location} is answered with the page {page.name}, and not by the servlet {shortened(str(owners[page.pattern]))}",
            )


def _patterns(table: Table) -> list[str]:
    patterns = table["url-pattern"]
    assert isinstance(patterns, list)
    return [str(it) for it in patterns]


def add_answers(tables: Tables, shown: list[Page]) -> None:
    """Adds the servlets that answer in place of the application: 401 where a login is needed, and the end of the session."""
    paths = [it.pattern for it in shown if it.name in ("login.html", "failed.html")]
    if paths:
        tables.answer("guard-login", _servlet(ERROR, code="401"), paths)
        tables.answer("guard-log-out", _servlet(END_OF_SESSION), [LOG_OUT])


def _servlet(name: str, **params: str) -> Table:
    return {"servlet-class": name, **({"init-param": dict(params)} if params else {})}


def constraints(shown: list[Page]) -> Iterator[Table]:
    """The constraints by which only a POST ends a session."""
    if any(it.name == "login.html" for it in shown):
        others = {"url-pattern": [LOG_OUT], "http-method-omission": ["POST"]}
        yield {"web-resource-collection": [others], "auth-constraint": {"role-name": []}}
        yield {"web-resource-collection": [{"url-pattern": [LOG_OUT], "http-method": ["POST"]}]}


def session_config(table: Table | None) -> Table:
    """The sessions of the container, with their cookie."""
    return {**(table or {}), "cookie-config": {"name": COOKIE}}
