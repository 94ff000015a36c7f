"""Filters that may decide access in code: those of known products, and those that are mapped over constrained paths. No constraint shows what they decide."""
from __future__ import annotations

from typing import Iterator

from .components import EVERY_SERVLET, FILE_SERVLET
from .elements import shortened
from .patterns import can_match, covers, meet, precedence
from .told import Rank, Told, listed
from .tree import Element

# Products whose filters decide access, by the name of a class, or by a package with its dot.
_KNOWN = {
    "org.springframework.security.": "Spring Security",
    "org.acegisecurity.": "Acegi Security",
    "org.springframework.web.filter.DelegatingFilterProxy": "Spring, often for Spring Security",
    "com.google.inject.servlet.GuiceFilter": "Guice, for filters that code names",
    "org.apache.shiro.": "Apache Shiro",
    "org.jsecurity.": "JSecurity",
    "org.keycloak.": "Keycloak",
    "org.wildfly.security.": "WildFly Elytron",
    "org.picketlink.": "PicketLink",
    "org.pac4j.": "pac4j",
    "org.jasig.cas.client.": "the CAS client",
    "org.apereo.cas.client.": "the CAS client",
    "org.josso.": "JOSSO",
    "com.sun.identity.agents.filter.": "the OpenAM agent",
    "org.forgerock.openam.": "OpenAM",
    "oracle.security.": "Oracle Platform Security",
    "org.apache.hadoop.security.": "Hadoop",
    "hudson.security.": "Jenkins",
    "com.atlassian.seraph.": "Atlassian Seraph",
    "com.liferay.portal.servlet.filters.secure.": "Liferay",
    "com.stormpath.": "Stormpath",
    "com.auth0.": "Auth0",
    "com.okta.": "Okta",
    "waffle.servlet.": "Waffle",
    "jcifs.http.": "jCIFS",
    "net.sourceforge.spnego.": "SPNEGO",
    "org.securityfilter.filter.": "SecurityFilter",
    "org.owasp.csrfguard.": "OWASP CSRFGuard",
    "org.owasp.esapi.filters.": "OWASP ESAPI",
    "org.apache.catalina.filters.CorsFilter": "Tomcat",
    "org.apache.catalina.filters.CsrfPreventionFilter": "Tomcat",
    "org.apache.catalina.filters.RestCsrfPreventionFilter": "Tomcat",
    "org.apache.catalina.filters.RemoteAddrFilter": "Tomcat",
    "org.apache.catalina.filters.RemoteCIDRFilter": "Tomcat",
    "org.apache.catalina.filters.RemoteHostFilter": "Tomcat",
}
_UNKNOWN = "the policy does not show it"


def tell_guards(root: Element, told: Told) -> None:
    """Reports the filters that may decide access in code."""
    for element in root.all("filter"):
        class_element = element.first("filter-class")
        product = None if class_element is None else _product(class_element.text)
        if class_element is not None and product is not None:
            told.tell(
                Rank.SECURITY,
                class_element.line,
                f"class {class_element.text} decides access in code ({product}): {_UNKNOWN}",
            )
    areas = _Areas(root)
    declared = {element.text_of("filter-name") for element in root.all("filter")}
    for mapping in root.all("filter-mapping"):
        name = mapping.text_of("filter-name")
        covered = areas.constrained_in(set(_patterns_of(mapping, root)))
        if covered and name in declared:
            told.tell(
                Rank.SECURITY,
                mapping.line,
                f"filter {shortened(name)} is mapped over paths that are constrained by {listed(list(map(shortened, covered)), len(covered))}, and may refuse requests there: {_UNKNOWN}",
            )


def _product(class_name: str) -> str | None:
    """The product that a class belongs to, if it is known to decide access."""
    packages = [class_name[: place + 1] for place, it in enumerate(class_name) if it == "."]
    return next((_KNOWN[name] for name in [class_name, *packages] if name in _KNOWN), None)


def _patterns_of(mapping: Element, root: Element) -> Iterator[str]:
    """The patterns of a filter mapping, and those of the servlets that it names."""
    yield from filter(can_match, mapping.texts("url-pattern"))
    for servlet in mapping.texts("servlet-name"):
        if servlet in (EVERY_SERVLET, FILE_SERVLET):
            yield "/*"
        for other in root.all("servlet-mapping"):
            if other.text_of("servlet-name") == servlet:
                yield from filter(can_match, other.texts("url-pattern"))


class _Areas:
    """The patterns of constraints that require something, and the patterns of constraints that require nothing."""

    def __init__(self, root: Element) -> None:
        # Dictionaries keep the order of the file.
        constrained: dict[str, None] = {}
        opened: dict[str, None] = {}
        for constraint in root.all("security-constraint"):
            patterns = constrained if requires(constraint) else opened
            for collection in constraint.all("web-resource-collection"):
                patterns |= dict.fromkeys(filter(can_match, collection.texts("url-pattern")))
        self._constrained = list(constrained)
        self._open = [it for it in opened if it not in constrained]

    def constrained_in(self, patterns: set[str]) -> list[str]:
        """The patterns of constraints that may decide on a path that one of these patterns matches."""
        best_open = {it: self._best_open(it) for it in patterns}
        return [
            area
            for area in self._constrained
            if any(meet(area, it) and precedence(area) >= best_open[it] for it in patterns)
        ]

    def _best_open(self, pattern: str) -> tuple[int, int]:
        """The greatest precedence of an open pattern that matches each path of a pattern."""
        return max((precedence(it) for it in self._open if covers(it, pattern)), default=(0, 0))


def requires(constraint: Element) -> bool:
    """Whether a constraint requires a role, a login or a protected transport."""
    transport = constraint.first("user-data-constraint")
    guarantee = "" if transport is None else transport.text_of("transport-guarantee")
    return constraint.first("auth-constraint") is not None or guarantee not in ("", "NONE")
