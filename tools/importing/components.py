"""Servlets, filters and listeners, and what they are mapped to."""
from __future__ import annotations

from .elements import shortened
from .limits import (
    FILTER_CLASSES,
    LISTENER_CLASSES,
    MAX_NAME_BYTES,
    SERVLET_CLASSES,
    is_name,
)
from .patterns import is_pattern_told
from .told import Rank, Told
from .tree import Element
from .words import Table, init_params, truth, whole, words

FILE_SERVLET = "default"
EVERY_SERVLET = "*"
# A servlet that Tomcat and Jetty declare for every application.
PAGE_SERVLET = "jsp"
# The classes that are written for a class that is not in this program.
ANY_SERVLET = "Paths"
ANY_FILTER = "Mark"
ANY_LISTENER = "Log"
# The servlet that answers 404.
NO_SERVLET = "Gone"

_DISPATCHERS = ("REQUEST", "FORWARD", "INCLUDE", "ERROR")


class Names:
    """The components of one kind, with their names in the descriptor."""

    def __init__(self, kind: str, root: Element) -> None:
        self.kind = kind
        self._given = {element.text_of(f"{kind}-name") for element in root.all(kind)}
        self._written: dict[str, str] = {}

    def declare(self, element: Element, told: Told) -> str | None:
        """The name for a component that is declared, `None` where it cannot be declared."""
        name = element.text_of(f"{self.kind}-name")
        named = element.first(f"{self.kind}-name")
        if named is None:
            told.tell(Rank.ERROR, element.line, f"a {self.kind} has no {self.kind}-name")
        elif not name:
            told.tell(Rank.ERROR, named.line, f"{named.name} is empty")
        elif name in self._written:
            told.tell(
                Rank.BEHAVIOR,
                element.line,
                f"{self.kind} {shortened(name)} is declared again: the first one counts",
            )
        elif self.kind == "servlet" and name == FILE_SERVLET:
            told.tell(
                Rank.BEHAVIOR,
                element.line,
                "servlet default is the file servlet of this program: a declaration under its name is not read",
            )
        else:
            self._written[name] = self._name_for(element, name, told)
            return self._written[name]
        return None

    def find(self, name: str) -> str | None:
        """The name of a component in the descriptor, `None` if none of its name is declared."""
        return self._written.get(name)

    def _name_for(self, element: Element, name: str, told: Told) -> str:
        if is_name(name) and not (self.kind == "servlet" and name == EVERY_SERVLET):
            return name
        written = f"{self.kind}-{len(self._written) + 1}"
        while written in self._given:
            written += "-"
        why = (
            f"has more than {MAX_NAME_BYTES} bytes"
            if name != EVERY_SERVLET
            else "means every servlet"
        )
        told.tell(
            Rank.BEHAVIOR,
            element.line,
            f"the {self.kind}'s name {shortened(name)} {why}: it is imported as {written}",
        )
        return written


def servlets(root: Element, names: Names, told: Told) -> list[Table]:
    """The tables of the servlets."""
    tables: list[Table] = []
    for element in root.all("servlet"):
        name = names.declare(element, told)
        if name is not None:
            class_name = _servlet_class(element, told)
            order = _load_on_startup(element, told)
            tables.append(
                {
                    "servlet-name": name,
                    "servlet-class": class_name,
                    **order,
                    **init_params(element, told),
                    **words(element),
                }
            )
            _tell_async(element, told)
    return tables


def _servlet_class(element: Element, told: Told) -> str:
    name = element.text_of("servlet-name")
    page, class_element = element.first("jsp-file"), element.first("servlet-class")
    if not truth(element, "enabled", True, told):
        told.tell(
            Rank.BEHAVIOR,
            element.line,
            f"servlet {shortened(name)} is not enabled: imported as {NO_SERVLET}, which answers 404",
        )
        return NO_SERVLET
    if page is not None and class_element is not None:
        told.tell(
            Rank.BEHAVIOR,
            page.line,
            f"servlet {shortened(name)} has a class, too: jsp-file {page.text} is not read",
        )
    elif page is not None:
        told.tell(
            Rank.BEHAVIOR,
            page.line,
            f"jsp-file {page.text} is not run by this program: imported as {ANY_SERVLET}",
        )
        return ANY_SERVLET
    return _class_of(element, "servlet", SERVLET_CLASSES, ANY_SERVLET, told)


def _class_of(element: Element, kind: str, known: frozenset[str], stand_in: str, told: Told) -> str:
    """The class of a component, or the substitute for one that this program does not have."""
    class_element = element.first(f"{kind}-class")
    if class_element is None or not class_element.text:
        told.tell(
            Rank.BEHAVIOR, element.line, f"a {kind} without a class is imported as {stand_in}"
        )
        return stand_in
    if class_element.text in known:
        return class_element.text
    told.tell(
        Rank.BEHAVIOR,
        class_element.line,
        f"class {class_element.text} is not in this program: imported as {stand_in}",
    )
    return stand_in


def _load_on_startup(element: Element, told: Told) -> Table:
    order = element.first("load-on-startup")
    if order is None:
        return {}
    if not order.text:
        told.tell(
            Rank.BEHAVIOR,
            order.line,
            "load-on-startup is empty: the servlet asks for no place in the order of starts",
        )
        return {}
    number = whole(order, told)
    if number is not None and -(2**31) <= number < 2**31:
        return {"load-on-startup": number}
    if number is not None:
        told.tell(
            Rank.BEHAVIOR,
            order.line,
            f"load-on-startup {number} is no number of 32 bits: the servlet asks for no place in the order of starts",
        )
    return {}


def _tell_async(element: Element, told: Told) -> None:
    supported = element.first("async-supported")
    if supported is not None and truth(element, "async-supported", False, told):
        told.tell(
            Rank.BEHAVIOR,
            supported.line,
            "async-supported: a request ends when its servlet returns",
        )


def servlet_mappings(root: Element, names: Names, told: Told) -> list[Table]:
    """The tables of the servlet mappings. Each pattern is mapped to only one servlet."""
    tables: list[Table] = []
    owners: dict[str, str] = {}
    for element in root.all("servlet-mapping"):
        name = element.text_of("servlet-name")
        written = names.find(name)
        if name == FILE_SERVLET:
            _tell_patterns_of_files(element, told)
        elif written is None and name == PAGE_SERVLET:
            told.tell(
                Rank.BEHAVIOR,
                element.line,
                "servlet jsp, which Tomcat and Jetty declare themselves, is not in this program: its mapping is not read",
            )
        elif written is None:
            told.tell(
                Rank.ERROR,
                element.line,
                f"no servlet {shortened(name)} is declared; Tomcat does not start such an application",
            )
        else:
            patterns = [
                it.text for it in element.all("url-pattern") if _is_free(it, name, owners, told)
            ]
            if patterns:
                tables.append({"servlet-name": written, "url-pattern": list(patterns)})
            elif element.first("url-pattern") is None:
                told.tell(
                    Rank.ERROR,
                    element.line,
                    f"a mapping of servlet {shortened(name)} has no url-pattern; Tomcat does not start such an application",
                )
    return tables


def _tell_patterns_of_files(element: Element, told: Told) -> None:
    """Reports the patterns of the file servlet, except its default one."""
    for pattern in element.all("url-pattern"):
        if pattern.text != "/":
            told.tell(
                Rank.BEHAVIOR,
                pattern.line,
                f"the file servlet takes no pattern: {shortened(pattern.text)} goes to the servlet whose pattern is the next best",
            )


def _is_free(pattern: Element, name: str, owners: dict[str, str], told: Told) -> bool:
    """Whether a pattern can be given to a servlet; then it is its."""
    if not is_pattern_told(pattern, Rank.BEHAVIOR, told):
        return False
    owner = owners.setdefault(pattern.text, "")
    if owner:
        told.tell(
            Rank.BEHAVIOR,
            pattern.line,
            f"url-pattern {shortened(pattern.text)} is mapped to servlet {shortened(owner)} already: the first mapping counts",
        )
        return False
    owners[pattern.text] = name
    return True


def filters(root: Element, names: Names, told: Told) -> list[Table]:
    """The tables of the filters."""
    tables: list[Table] = []
    for element in root.all("filter"):
        name = names.declare(element, told)
        if name is not None:
            class_name = _class_of(element, "filter", FILTER_CLASSES, ANY_FILTER, told)
            tables.append(
                {
                    "filter-name": name,
                    "filter-class": class_name,
                    **init_params(element, told),
                    **words(element),
                }
            )
            _tell_async(element, told)
    return tables


def filter_mappings(
    root: Element, filter_names: Names, servlet_names: Names, told: Told
) -> list[Table]:
    """The tables of the filter mappings."""
    tables: list[Table] = []
    for element in root.all("filter-mapping"):
        name = element.text_of("filter-name")
        written = filter_names.find(name)
        if written is None:
            told.tell(
                Rank.ERROR,
                element.line,
                f"no filter {shortened(name)} is declared; Tomcat does not start such an application",
            )
            continue
        patterns = [
            it.text for it in element.all("url-pattern") if is_pattern_told(it, Rank.BEHAVIOR, told)
        ]
        servlet_list = _servlets_of(element, servlet_names, told)
        dispatchers = _dispatchers(element, told)
        if element.first("url-pattern") is None and element.first("servlet-name") is None:
            told.tell(
                Rank.ERROR,
                element.line,
                f"a mapping of filter {shortened(name)} has no url-pattern and no servlet-name; Tomcat does not start such an application",
            )
        elif not patterns and not servlet_list:
            told.tell(
                Rank.BEHAVIOR,
                element.line,
                f"a mapping of filter {shortened(name)} to nothing is not read",
            )
        elif dispatchers is not None:
            lists = {
                "url-pattern": patterns,
                "servlet-name": servlet_list,
                "dispatcher": dispatchers,
            }
            tables.append(
                {
                    "filter-name": written,
                    **{key: list(texts) for key, texts in lists.items() if texts},
                }
            )
    return tables


def _servlets_of(element: Element, names: Names, told: Told) -> list[str]:
    found: list[str] = []
    for child in element.all("servlet-name"):
        written = (
            child.text if child.text in (FILE_SERVLET, EVERY_SERVLET) else names.find(child.text)
        )
        if written is None:
            told.tell(
                Rank.BEHAVIOR,
                child.line,
                f"no servlet {shortened(child.text)} is declared: the filter is not mapped to it",
            )
        else:
            found.append(written)
    return found


def _dispatchers(element: Element, told: Told) -> list[str] | None:
    """The dispatches of a filter mapping, `None` where it is for none that there is."""
    found: list[str] = []
    for child in element.all("dispatcher"):
        if child.text in _DISPATCHERS:
            found += [child.text] if child.text not in found else []
        elif child.text == "ASYNC":
            told.tell(
                Rank.BEHAVIOR, child.line, "dispatcher ASYNC: there are no asynchronous dispatches"
            )
        else:
            told.tell(
                Rank.ERROR,
                child.line,
                f"dispatcher {shortened(child.text)} is none of REQUEST, FORWARD, INCLUDE, ERROR and ASYNC",
            )
    if found or element.first("dispatcher") is None:
        return found
    told.tell(
        Rank.BEHAVIOR, element.line, "a filter mapping for no dispatch that exists is not read"
    )
    return None


def listeners(root: Element, told: Told) -> list[Table]:
    """The tables of the listeners."""
    return [
        {
            "listener-class": _class_of(element, "listener", LISTENER_CLASSES, ANY_LISTENER, told),
            **words(element),
        }
        for element in root.all("listener")
    ]
