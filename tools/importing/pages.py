"""Sessions, welcome files, error pages."""
from __future__ import annotations

import re

from .elements import shortened
from .limits import (
    ERROR_CODES,
    MAX_COOKIE_AGE,
    MAX_COOKIE_PATH_BYTES,
    MAX_NAME_BYTES,
    MAX_SESSION_TIMEOUT,
    is_location,
    is_name,
    is_path_value,
    is_token,
    size,
)
from .told import Rank, Told
from .tree import Element
from .words import Table, truth, whole

_COOKIE = "JSESSIONID"
_MODES = ("COOKIE", "URL", "SSL")
# A code in an error-page (error-codeType of the schemas).
_CODE = re.compile("[0-9]{3}")


def session_config(root: Element, told: Told) -> Table | None:
    """The table of the sessions, `None` where nothing is said of them. Where it sets their cookie, the descriptor is of version 2."""
    element = root.first("session-config")
    if element is None:
        return None
    cookie = element.first("cookie-config")
    settings = {} if cookie is None else _cookie_config(cookie, told)
    for mode in element.all("tracking-mode"):
        if mode.text not in _MODES:
            told.tell(
                Rank.ERROR,
                mode.line,
                f"tracking-mode {shortened(mode.text)} is none of COOKIE, URL and SSL",
            )
        elif mode.text != "COOKIE":
            told.tell(
                Rank.BEHAVIOR,
                mode.line,
                f"tracking-mode {shortened(mode.text)}: sessions are found only by their cookie",
            )
    timeout = element.first("session-timeout")
    table = {} if timeout is None else _timeout(timeout, told)
    return {**table, "cookie-config": settings} if settings else table


def _timeout(element: Element, told: Told) -> Table:
    minutes = whole(element, told)
    if minutes is None:
        return {}
    if minutes > MAX_SESSION_TIMEOUT:
        told.tell(
            Rank.BEHAVIOR,
            element.line,
            f"session-timeout {minutes} is more than a year: it is imported as {MAX_SESSION_TIMEOUT}",
        )
    return {"session-timeout": min(minutes, MAX_SESSION_TIMEOUT)}


def _cookie_config(cookie: Element, told: Told) -> Table:
    """The settings of the session cookie that differ from the defaults. Those that it cannot have are reported."""
    secure, http_only = cookie.first("secure"), cookie.first("http-only")
    settings = {
        **_cookie_name(cookie.first("name"), told),
        **_cookie_path(cookie.first("path"), told),
    }
    if http_only is not None and not truth(cookie, "http-only", True, told):
        settings["http-only"] = False
    if secure is not None and truth(cookie, "secure", False, told):
        told.tell(
            Rank.SECURITY,
            secure.line,
            "secure: the cookie of a session has no attribute Secure; a proxy that provides TLS may add it",
        )
    return {**settings, **_cookie_age(cookie.first("max-age"), told)}


def _cookie_name(name: Element | None, told: Told) -> Table:
    if name is None or name.text == _COOKIE:
        return {}
    if not is_token(name.text):
        told.tell(Rank.ERROR, name.line, f"name {shortened(name.text)} is no name of a cookie")
    elif size(name.text) > MAX_NAME_BYTES:
        told.tell(
            Rank.BEHAVIOR,
            name.line,
            f"name {shortened(name.text)} has more than {MAX_NAME_BYTES} bytes: the cookie of a session is {_COOKIE}",
        )
    else:
        return {"name": name.text}
    return {}


def _cookie_path(path: Element | None, told: Told) -> Table:
    if path is None:
        return {}
    if not is_path_value(path.text):
        told.tell(Rank.ERROR, path.line, f"path {shortened(path.text)} is no path of a cookie")
    elif not path.text.startswith("/") or size(path.text) > MAX_COOKIE_PATH_BYTES:
        told.tell(
            Rank.BEHAVIOR,
            path.line,
            f"path {shortened(path.text)} is not a slash and at most {MAX_COOKIE_PATH_BYTES - 1} bytes: the cookie of a session has the path of its context",
        )
    else:
        return {"path": path.text}
    return {}


def _cookie_age(age: Element | None, told: Told) -> Table:
    if age is None:
        return {}
    seconds = whole(age, told)
    if seconds is not None and seconds > MAX_COOKIE_AGE:
        told.tell(
            Rank.BEHAVIOR,
            age.line,
            f"max-age {seconds} is more than {MAX_COOKIE_AGE}, and is reduced to that",
        )
    return {} if seconds is None or seconds < 0 else {"max-age": min(seconds, MAX_COOKIE_AGE)}


def welcome_files(root: Element, told: Told) -> Table | None:
    """The table of the welcome files, of all lists together; `None` where there is none."""
    if root.first("welcome-file-list") is None:
        return None
    names: list[str] = []
    for element in root.all("welcome-file-list"):
        for child in element.all("welcome-file"):
            name = child.text.strip("/")
            if not name:
                told.tell(
                    Rank.BEHAVIOR,
                    child.line,
                    f"welcome-file {shortened(child.text)} names no file, and is not read",
                )
                continue
            if name != child.text:
                told.tell(
                    Rank.BEHAVIOR,
                    child.line,
                    f"welcome-file {shortened(child.text)} may not begin or end with a slash: it is imported as {name}",
                )
            names.append(name)
    return {"welcome-file": list(names)}


def error_pages(root: Element, told: Told) -> list[Table]:
    """The tables of the error pages."""
    tables: list[Table] = []
    seen: set[str] = set()
    for element in root.all("error-page"):
        location = _location(element, told)
        errors = _errors(element, told)
        if location is not None and errors is not None:
            kind = str(errors)
            if kind in seen:
                told.tell(
                    Rank.BEHAVIOR,
                    element.line,
                    "an earlier error page is for the same errors: the first one counts; in Tomcat the last one does",
                )
            seen.add(kind)
            tables.append({**errors, "location": location})
    return tables


def _location(page: Element, told: Told) -> str | None:
    """The location of an error page, `None` if it has none that can be read."""
    location = page.first("location")
    if location is None:
        told.tell(Rank.BEHAVIOR, page.line, "an error page without a location is not read")
    elif not location.text.startswith("/"):
        told.tell(
            Rank.ERROR,
            location.line,
            f"location {shortened(location.text)} does not begin with a slash",
        )
    elif not is_location(location.text):
        told.tell(
            Rank.BEHAVIOR,
            page.line,
            f"the location {shortened(location.text)} of an error page is no path within the context: the page is not read",
        )
    else:
        return location.text
    return None


def _errors(element: Element, told: Told) -> Table | None:
    """The errors that a page is for, `None` where there are no such errors. Without a code and a type it is for all that have no other page."""
    code, kind = element.first("error-code"), element.first("exception-type")
    if code is not None and kind is not None:
        told.tell(
            Rank.BEHAVIOR,
            kind.line,
            "an error page is for a code or for a type: exception-type is not read",
        )
    if code is not None:
        if not _CODE.fullmatch(code.text):
            told.tell(
                Rank.ERROR, code.line, f"error-code {shortened(code.text)} is no number of 3 digits"
            )
        elif int(code.text) in ERROR_CODES:
            return {"error-code": int(code.text)}
        else:
            told.tell(
                Rank.BEHAVIOR,
                code.line,
                f"error-code {shortened(code.text)} is no status of an error from 400 to 599: the page is not read",
            )
        return None
    if kind is None:
        return {}
    if not is_name(kind.text):
        told.tell(
            Rank.BEHAVIOR,
            kind.line,
            f"exception-type {shortened(kind.text)} is no name of 1 to 64 bytes: the page is not read",
        )
        return None
    told.tell(
        Rank.BEHAVIOR,
        kind.line,
        f"exception-type {kind.text} is compared only with the name of a fault: there are no classes below it",
    )
    return {"exception-type": kind.text}
