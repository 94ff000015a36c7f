"""The elements of web.xml, Servlet 2.3 to 6.1: which are taken, and what is said of the others."""
from __future__ import annotations

import dataclasses
import enum
from typing import Union

from .told import Rank, Told
from .tree import Element


class Taken(enum.Enum):
    """How often an element that is read may occur in its parent."""

    ONE = "once"
    MANY = "any number of times"


@dataclasses.dataclass(frozen=True)
class Says:
    """An element that has no place here: the meaning and the rank of that, and which of its children has its name."""

    meaning: str
    named_by: str = ""
    rank: Rank = Rank.BEHAVIOR


Content = dict[str, Union[Taken, Says]]
ONE, MANY = Taken.ONE, Taken.MANY

_WORDS: Content = {
    "description": MANY,
    "display-name": MANY,
    "icon": Says("no icon is shown", rank=Rank.IGNORED),
}
_NO_JSP = "JSP is not run by this program"
_NO_NAMES = "nothing is looked up by name here"
_NO_CALLBACKS = "no such method is called here"

# The children of each element that is read. An element that is no key here has only a text.
CONTENT: dict[str, Content] = {
    "web-app": {
        **_WORDS,
        "servlet": MANY,
        "servlet-mapping": MANY,
        "filter": MANY,
        "filter-mapping": MANY,
        "listener": MANY,
        "session-config": ONE,
        "welcome-file-list": MANY,
        "error-page": MANY,
        "security-constraint": MANY,
        "security-role": MANY,
        "login-config": ONE,
        "deny-uncovered-http-methods": ONE,
        "request-character-encoding": ONE,
        "response-character-encoding": Says(
            "components of this program set the type of their responses"
        ),
        "distributable": Says("sessions stay in the memory of one process"),
        "context-param": Says(
            "no component of this program reads the parameters of a context",
            "param-name",
            Rank.IGNORED,
        ),
        "mime-mapping": Says(
            "a file has the type that this program gives to its extension", "extension"
        ),
        "default-context-path": Says("the path of the context is that of --context"),
        "absolute-ordering": Says(
            "no fragment is read, so none is put in order", rank=Rank.IGNORED
        ),
        "module-name": Says("an application has no name here", rank=Rank.IGNORED),
        "locale-encoding-mapping-list": Says("no locale chooses the encoding of an answer"),
        "jsp-config": Says(_NO_JSP),
        "taglib": Says(_NO_JSP, "taglib-uri"),
        "env-entry": Says(_NO_NAMES, "env-entry-name", Rank.IGNORED),
        "ejb-ref": Says(_NO_NAMES, "ejb-ref-name", Rank.IGNORED),
        "ejb-local-ref": Says(_NO_NAMES, "ejb-ref-name", Rank.IGNORED),
        "service-ref": Says(_NO_NAMES, "service-ref-name", Rank.IGNORED),
        "resource-ref": Says(_NO_NAMES, "res-ref-name", Rank.IGNORED),
        "resource-env-ref": Says(_NO_NAMES, "resource-env-ref-name", Rank.IGNORED),
        "message-destination-ref": Says(_NO_NAMES, "message-destination-ref-name", Rank.IGNORED),
        "message-destination": Says(_NO_NAMES, "message-destination-name", Rank.IGNORED),
        "persistence-context-ref": Says(_NO_NAMES, "persistence-context-ref-name", Rank.IGNORED),
        "persistence-unit-ref": Says(_NO_NAMES, "persistence-unit-ref-name", Rank.IGNORED),
        "data-source": Says(_NO_NAMES, "name", Rank.IGNORED),
        "jms-connection-factory": Says(_NO_NAMES, "name", Rank.IGNORED),
        "jms-destination": Says(_NO_NAMES, "name", Rank.IGNORED),
        "mail-session": Says(_NO_NAMES, "name", Rank.IGNORED),
        "connection-factory": Says(_NO_NAMES, "name", Rank.IGNORED),
        "administered-object": Says(_NO_NAMES, "name", Rank.IGNORED),
        "context-service": Says(_NO_NAMES, "name", Rank.IGNORED),
        "managed-executor": Says(_NO_NAMES, "name", Rank.IGNORED),
        "managed-scheduled-executor": Says(_NO_NAMES, "name", Rank.IGNORED),
        "managed-thread-factory": Says(_NO_NAMES, "name", Rank.IGNORED),
        "post-construct": Says(_NO_CALLBACKS, "lifecycle-callback-method", Rank.IGNORED),
        "pre-destroy": Says(_NO_CALLBACKS, "lifecycle-callback-method", Rank.IGNORED),
    },
    "servlet": {
        **_WORDS,
        "servlet-name": ONE,
        "servlet-class": ONE,
        "jsp-file": ONE,
        "init-param": MANY,
        "load-on-startup": ONE,
        "enabled": ONE,
        "async-supported": ONE,
        "run-as": Says(
            "servlets do not run under a role of their own here", "role-name", Rank.SECURITY
        ),
        "security-role-ref": Says(
            "no component of this program asks for roles by another name",
            "role-name",
            Rank.SECURITY,
        ),
        "multipart-config": Says(
            "a body of several parts comes to the servlet as it is, within the limits of this program"
        ),
    },
    "servlet-mapping": {"servlet-name": ONE, "url-pattern": MANY},
    "filter": {
        **_WORDS,
        "filter-name": ONE,
        "filter-class": ONE,
        "init-param": MANY,
        "async-supported": ONE,
    },
    "filter-mapping": {
        "filter-name": ONE,
        "url-pattern": MANY,
        "servlet-name": MANY,
        "dispatcher": MANY,
    },
    "init-param": {"description": MANY, "param-name": ONE, "param-value": ONE},
    "listener": {**_WORDS, "listener-class": ONE},
    "session-config": {"session-timeout": ONE, "cookie-config": ONE, "tracking-mode": MANY},
    "cookie-config": {
        "name": ONE,
        "domain": Says("the cookie of a session names no domain"),
        "path": ONE,
        "comment": Says("the cookie of a session has no comment", rank=Rank.IGNORED),
        "http-only": ONE,
        "secure": ONE,
        "max-age": ONE,
        "attribute": Says(
            "the cookie of a session has no further attribute", "attribute-name", Rank.SECURITY
        ),
    },
    "welcome-file-list": {"welcome-file": MANY},
    "error-page": {"error-code": ONE, "exception-type": ONE, "location": ONE},
    "security-constraint": {
        **_WORDS,
        "web-resource-collection": MANY,
        "auth-constraint": ONE,
        "user-data-constraint": ONE,
    },
    "web-resource-collection": {
        "description": MANY,
        "web-resource-name": ONE,
        "url-pattern": MANY,
        "http-method": MANY,
        "http-method-omission": MANY,
    },
    "auth-constraint": {"description": MANY, "role-name": MANY},
    "user-data-constraint": {"description": MANY, "transport-guarantee": ONE},
    "security-role": {"description": MANY, "role-name": ONE},
    "login-config": {
        "auth-method": ONE,
        "realm-name": Says(
            "only BASIC and DIGEST show the name of a realm, and callers log in by a form here",
            rank=Rank.IGNORED,
        ),
        "form-login-config": ONE,
    },
    "form-login-config": {"form-login-page": ONE, "form-error-page": ONE},
}

# The attributes that say nothing of an answer, for every element; the root's own are read with the root.
_XSI = "http://www.w3.org/2001/XMLSchema-instance "
_IDLE_ATTRIBUTES = frozenset(
    [
        "id",
        "http://www.w3.org/XML/1998/namespace lang",
        f"{_XSI}schemaLocation",
        f"{_XSI}noNamespaceSchemaLocation",
    ]
)
ROOT_ATTRIBUTES = frozenset(["version", "metadata-complete"])

# The elements that decide access, with all that is in them, and one that is only in such an element.
_DECIDING = frozenset(
    [
        "security-constraint",
        "web-resource-collection",
        "auth-constraint",
        "user-data-constraint",
        "security-role",
        "login-config",
        "form-login-config",
        "auth-method",
        "deny-uncovered-http-methods",
    ]
)


def tell_what_is_not_taken(element: Element, told: Told) -> None:
    """Reports everything in an element that no reader takes: elements, attributes and texts."""
    _tell_attributes(element, told)
    content = CONTENT.get(element.name, {})
    if content and element.text:
        told.tell(
            _rank(element),
            element.line,
            f"the text {shortened(element.text)} within {element.name} means nothing",
        )
    seen: set[str] = set()
    for child in element.children:
        place = content.get(child.name)
        if child.namespace != element.namespace:
            told.tell(
                _rank(element, child),
                child.line,
                f"{child.name} within {element.name} is of another namespace, and is not read",
            )
        elif place is None:
            told.tell(
                _rank(element, child),
                child.line,
                f"{child.name} within {element.name} is no element of web.xml, and is not read",
            )
        elif isinstance(place, Says):
            told.tell(place.rank, child.line, f"{_named(child, place.named_by)}: {place.meaning}")
        elif place is ONE and child.name in seen:
            told.tell(
                _rank(element, child),
                child.line,
                f"{child.name} is repeated: the first one counts",
            )
        else:
            tell_what_is_not_taken(child, told)
        seen.add(child.name)


def _rank(element: Element, child: Element | None = None) -> Rank:
    """How much it matters that a child, or the text, of an element is not read. A child of an unknown name is judged by the elements in it."""
    if element.name in _DECIDING or (child is not None and _decides(child)):
        return Rank.SECURITY
    return Rank.IGNORED if child is None else Rank.BEHAVIOR


def _decides(element: Element) -> bool:
    """Whether an element, or one in it, decides access."""
    return element.name in _DECIDING or any(map(_decides, element.children))


def taken(element: Element) -> Element:
    """The element with only the children that are read, so that none is both reported and imported."""
    content = CONTENT.get(element.name, {})
    kept: list[Element] = []
    for child in element.children:
        place = content.get(child.name)
        is_second = place is ONE and any(child.name == other.name for other in kept)
        if isinstance(place, Taken) and child.namespace == element.namespace and not is_second:
            kept.append(taken(child))
    return dataclasses.replace(element, children=kept)


def shortened(text: str, most: int = 60) -> str:
    """A text in quotes, on one line and with at most this many characters between the quotes."""
    words = " ".join(text.split())
    return f'"{words}"' if len(words) <= most else f'"{words[: most - 3]}..."'


def _named(element: Element, named_by: str) -> str:
    name = element.text_of(named_by) if named_by else ""
    return f"{element.name} {name}" if name else element.name


def _tell_attributes(element: Element, told: Told) -> None:
    for attribute in element.attributes:
        is_of_root = element.name == "web-app" and attribute in ROOT_ATTRIBUTES
        if attribute not in _IDLE_ATTRIBUTES and not is_of_root:
            told.tell(
                Rank.IGNORED,
                element.line,
                f"the attribute {attribute.rpartition(' ')[2]} of {element.name} is none of web.xml",
            )
