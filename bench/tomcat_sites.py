"""What bench/tomcat, bench/tomcat_audit and bench/speed share: descriptors as both containers have them, and a Tomcat of their own."""
from __future__ import annotations

import base64
import collections
import contextlib
import http.client
import os
import shutil
import socket
import subprocess
import sys
import tempfile
import time
import urllib.parse
import xml.etree.ElementTree
from pathlib import Path
from typing import Callable, Iterator, NamedTuple, Optional
from xml.sax.saxutils import quoteattr

HERE = Path(__file__).resolve().parent
TOP = HERE.parent
sys.path.insert(0, str(TOP / "tools"))

from deciding import rank  # noqa: E402
from importing import descriptor, users  # noqa: E402
from importing.role_names import imported_role  # noqa: E402
from importing.toml import Value  # noqa: E402
from importing.told import Told  # noqa: E402

TOMCAT = Path("/usr/share/tomcat10")
SECONDS_TO_START = 60
# The last one is a method that no descriptor names.
METHODS = ["GET", "HEAD", "POST", "PUT", "DELETE", "OPTIONS", "ODD"]
PASSWORD = "secret"
COMPARED = ("security-constraint", "security-role", "login-config", "deny-uncovered-http-methods")
SERVER = """<Server port="-1"><Service name="Catalina">
<Connector port="{port}" address="127.0.0.1" allowTrace="true" redirectPort="443" maxKeepAliveRequests="-1"/>
<Engine name="Catalina" defaultHost="localhost"><Realm className="org.apache.catalina.realm.MemoryRealm">{credentials}</Realm>
<Host name="localhost" appBase="webapps" autoDeploy="false"/></Engine></Service></Server>
"""
CONTEXT = '<Context><JarScanner scanClassPath="false" scanManifest="false"/></Context>\n'
# The descriptor that two contexts of one server have, one of them within the other, and their paths.
TWO_CONTEXTS = "rules_two_contexts"
CONTEXTS = ["", "/two"]
JAVA = ["java", "-Xmx256m", "-XX:+UseSerialGC", "-XX:TieredStopAtLevel=1"]


class Request(NamedTuple):
    """A method, a path, and the name of the caller, if there is one. The path is written as in a request line, without the context path."""

    method: str
    path: str
    caller: Optional[str]


class Said(NamedTuple):
    """What the program says of a request: `open`, `login`, `denied`, `transport`, `hidden` or the context of another site that serves it, the line that says so,
    and whether the best pattern is a prefix whose constraints leave the method uncovered."""

    verdict: str
    line: str
    is_left_by_prefix: bool


class Difference(NamedTuple):
    """What the program says, what Tomcat does, and why, if docs/DIFFERENCES.md has the reason."""

    line: str
    theirs: str
    reason: str


class Site:
    """A descriptor, as both containers have it. If one of the two contexts is named, both have the same path in both containers. If none is, it is the root's
    descriptor in ours, and the site has a context of its own in Tomcat."""

    def __init__(self, path: Path, place: int, room: Path, context: Optional[str] = None) -> None:
        self.name = path.parent.name if path.name == "web.xml" else path.stem
        self.place = place
        self.our_context = context or ""
        self.context = f"/site{place}" if context is None else context
        self.room = room / self.name
        read = descriptor.read(path.read_bytes(), Told(str(path)))
        self.parts = read.parts
        self.room.mkdir(exist_ok=True)
        (self.room / "web.toml").write_text(read.text(), encoding="utf-8")
        self.callers = self._callers()
        contexts = [""] if context is None else CONTEXTS
        (self.room / "server.toml").write_text(self._server_text(contexts), encoding="utf-8")
        entries = [
            users.User(name, "", users.NO_DIGEST, roles).text()
            for name, roles in self.callers.items()
        ]
        (self.room / "users.toml").write_text("\n".join(entries), encoding="utf-8")
        self.web_xml = compared_part(path)
        # The importer replaces the names of some roles. Tomcat's callers have the old ones.
        self.old_roles = {imported_role(it): it for it in roles_in(self.web_xml)}
        self.uses_form = b"<auth-method>FORM" in self.web_xml

    def _server_text(self, contexts: list[str]) -> str:
        """The server file of contexts with this descriptor."""
        users_name = "users.toml" if self.callers else ""
        texts = [descriptor.server_text("0" * 64, it, users_name) for it in contexts]
        return texts[0] + "".join(f"\n{it[it.index('[[context]]'):]}" for it in texts[1:])

    def user(self, caller: str) -> str:
        """The name of a caller in Tomcat, whose users are those of all sites."""
        return f"site{self.place}-{caller}"

    def folder(self) -> str:
        """The name of the folder that Tomcat has for the context."""
        return self.context[1:] or "ROOT"

    def _named(self, header: str) -> list[dict[str, Value]]:
        return [part.table for part in self.parts if part.header == header]

    def _collections(self) -> Iterator[dict[str, Value]]:
        for table in self._named("[[security-constraint]]"):
            yield from table["web-resource-collection"]  # type: ignore[misc]

    def _callers(self) -> dict[str, list[str]]:
        """The callers: one of each role, one of all, one of none. Without a login nobody is one."""
        named = [table["role-name"] for table in self._named("[[security-role]]")]
        for table in self._named("[[security-constraint]]"):
            named += table.get("auth-constraint", {}).get("role-name", [])  # type: ignore[union-attr]
        roles = sorted({str(role) for role in named} - {"*", "**"})
        if not self._named("[login-config]"):
            return {}
        return {"nothing": [], "everything": roles, **{f"only-{role}": [role] for role in roles}}

    def methods(self) -> list[str]:
        """The methods that are tried."""
        named = [method for it in self._collections() for key in ("http-method", "http-method-omission") for method in it.get(key, [])]  # type: ignore[union-attr]
        return list(dict.fromkeys([*METHODS, *map(str, named)]))

    def patterns(self) -> list[str]:
        """The patterns of the constraints."""
        return [str(pattern) for it in self._collections() for pattern in it["url-pattern"]]  # type: ignore[union-attr]

    def patterns_of_declared_roles(self) -> list[str]:
        """The patterns of the constraints that name the role for all declared ones."""
        return [
            str(pattern)
            for table in self._named("[[security-constraint]]")
            if "*" in table.get("auth-constraint", {}).get("role-name", [])  # type: ignore[union-attr]
            for it in table["web-resource-collection"]  # type: ignore[union-attr]
            for pattern in it["url-pattern"]  # type: ignore[index, call-overload]
        ]

    def has_undeclared_role(self, caller: str) -> bool:
        """Whether a caller has a role that constraints name and the descriptor does not declare."""
        declared = {table["role-name"] for table in self._named("[[security-role]]")}
        return not declared.issuperset(self.callers[caller])

    def login_pages(self) -> list[str]:
        """The pages of a login by a form."""
        pages = [page for it in self._named("[login-config]") for page in it["form-login-config"].values()]  # type: ignore[union-attr]
        return list(map(str, pages)) if self.uses_form else []


def compared_part(path: Path) -> bytes:
    """A web.xml with the compared elements of another one, and the servlet that open requests reach."""
    parse = xml.etree.ElementTree
    root = parse.Element(
        "web-app",
        {
            "xmlns": "https://jakarta.ee/xml/ns/jakartaee",
            "version": "6.0",
            "metadata-complete": "true",
        },
    )
    root.append(
        parse.fromstring(
            "<servlet><servlet-name>reached</servlet-name><servlet-class>Reached</servlet-class></servlet>"
        )
    )
    root.append(
        parse.fromstring(
            "<servlet-mapping><servlet-name>reached</servlet-name><url-pattern>/*</url-pattern></servlet-mapping>"
        )
    )
    for element in parse.parse(path).getroot():
        for inner in element.iter():
            inner.tag = inner.tag.rpartition("}")[2] if isinstance(inner.tag, str) else inner.tag
        if element.tag in COMPARED:
            root.append(element)
    return parse.tostring(root)


def roles_in(web_xml: bytes) -> list[str]:
    """The names of roles in a web.xml, as Tomcat reads them."""
    root = xml.etree.ElementTree.fromstring(web_xml)
    return [(it.text or "").strip() for it in root.findall(".//{*}role-name")]


class Tomcat:
    """A Tomcat of its own, and the connection to it."""

    java = JAVA
    # The element inside the realm; empty for passwords in plain text.
    credentials = ""

    def __init__(self, base: Path, sites: list[Site]) -> None:
        with socket.socket() as free:
            free.bind(("127.0.0.1", 0))
            self.port = free.getsockname()[1]
        self.base = base
        self._write_configuration(sites)
        self._connection = http.client.HTTPConnection("127.0.0.1", self.port, timeout=30)

    def _write_base(self, source: str) -> Path:
        """Writes what every context needs. Returns the folder of the compiled servlet."""
        for folder in ("conf", "logs", "temp", "webapps", "work"):
            (self.base / folder).mkdir(parents=True)
        shutil.copy(TOMCAT / "etc/catalina.properties", self.base / "conf")
        classes = self.base / "classes"
        subprocess.run(
            ["javac", "-cp", TOMCAT / "lib/servlet-api.jar", "-d", classes, HERE / source],
            check=True,
        )
        server = SERVER.format(port=self.port, credentials=self.credentials)
        (self.base / "conf/server.xml").write_text(server)
        (self.base / "conf/context.xml").write_text(CONTEXT)
        (self.base / "conf/web.xml").write_text(
            '<web-app xmlns="https://jakarta.ee/xml/ns/jakartaee" version="6.0" metadata-complete="true"/>'
        )
        return classes

    def _write_configuration(self, sites: list[Site]) -> None:
        classes = self._write_base("Reached.java")
        names = {
            site.user(caller): [site.old_roles[it] for it in roles]
            for site in sites
            for caller, roles in site.callers.items()
        }
        entries = [
            f'<user username={quoteattr(name)} password="{PASSWORD}" roles={quoteattr(",".join(roles))}/>'
            for name, roles in names.items()
        ]
        (self.base / "conf/tomcat-users.xml").write_text(
            f"<tomcat-users>{''.join(entries)}</tomcat-users>"
        )
        for site in sites:
            folder = self.base / "webapps" / site.folder() / "WEB-INF"
            shutil.copytree(classes, folder / "classes")
            (folder / "web.xml").write_bytes(site.web_xml)

    @contextlib.contextmanager
    def running(self) -> Iterator[int]:
        """Runs Tomcat, and ends it: its process id."""
        libraries = f"{TOMCAT}/bin/bootstrap.jar:{TOMCAT}/bin/tomcat-juli.jar"
        places = [
            f"-Dcatalina.home={TOMCAT}",
            f"-Dcatalina.base={self.base}",
            f"-Djava.io.tmpdir={self.base}/temp",
        ]
        command = [
            *self.java,
            *places,
            "-cp",
            libraries,
            "org.apache.catalina.startup.Bootstrap",
            "start",
        ]
        with open(self.base / "logs/out", "wb") as log, subprocess.Popen(
            command, stdout=log, stderr=log
        ) as process:
            try:
                self._wait(process)
                yield process.pid
            finally:
                process.terminate()

    def _wait(self, process: subprocess.Popen[bytes]) -> None:
        end = time.monotonic() + SECONDS_TO_START
        while process.poll() is None and time.monotonic() < end:
            with contextlib.suppress(OSError), socket.create_connection(
                ("127.0.0.1", self.port), 1
            ):
                return
            time.sleep(0.1)
        sys.exit(f"bench: Tomcat did not start\n{self.log()}")

    def log(self) -> str:
        """What it wrote of its faults."""
        return "".join(
            line
            for line in (self.base / "logs/out").read_text().splitlines(keepends=True)
            if "SEVERE" in line or "Caused by" in line
        )

    def asked(
        self, method: str, target: str, fields: dict[str, str], body: str = ""
    ) -> http.client.HTTPResponse:
        """The answer to a request, read to its end."""
        self._connection.request(method, target, body or None, fields)
        answer = self._connection.getresponse()
        answer.read()
        return answer

    def logged_in(self, site: Site, caller: str, page: str) -> dict[str, str]:
        """The fields of a caller's requests: with a form, the cookie of a session that has gone through the login."""
        name = site.user(caller)
        if not site.uses_form:
            return {
                "Authorization": "Basic " + base64.b64encode(f"{name}:{PASSWORD}".encode()).decode()
            }
        cookie = cookie_of(self.asked("GET", site.context + page, {}))
        form = urllib.parse.urlencode({"j_username": name, "j_password": PASSWORD})
        fields = {"Cookie": cookie, "Content-Type": "application/x-www-form-urlencoded"}
        answer = self.asked("POST", f"{site.context}/j_security_check", fields, form)
        cookie = cookie_of(answer) or cookie
        self.asked("GET", site.context + page, {"Cookie": cookie})
        return {"Cookie": cookie}

    def verdict(self, site: Site, request: Request, fields: dict[str, str]) -> str:
        """What Tomcat does with a request, in the words of `Said`."""
        answer = self.asked(request.method, site.context + request.path, fields)
        reached = answer.getheader("X-Reached", "")
        if reached and (context := answer.getheader("X-Context", "")) != site.context:
            return f"context {context}"
        if answer.getheader("Location", "").startswith("https:"):
            return "transport"
        words = {
            (200, "REQUEST"): "open",
            (200, "FORWARD"): "login",
            (401, ""): "login",
            (403, ""): "denied",
            (404, ""): "hidden",
        }
        return words.get((answer.status, reached), f"{answer.status} {reached}".strip())


def known(site: Site, request: Request, said: Said, theirs: str) -> str:
    """Why a difference is one that docs/DIFFERENCES.md has, and nothing if it is none of those."""
    if said.verdict.startswith("no "):
        return ""
    if said.verdict == "hidden" and theirs in ("login", "denied"):
        return "Tomcat asks the constraints before it hides a folder"
    patterns = site.patterns()
    path = urllib.parse.unquote(request.path)
    escaped = [pattern for pattern in patterns if "%" in pattern]
    if any(rank(it, path) for it in [*escaped, *map(urllib.parse.unquote, escaped)]):
        return "Tomcat decodes a pattern"
    if path.endswith(".") and "*." in patterns:
        return "Tomcat matches nothing by the pattern *."
    if path == "/" and "/" in patterns:
        return "Tomcat takes the pattern / for an exact one"
    is_star = any(rank(pattern, path) for pattern in site.patterns_of_declared_roles())
    denied_caller = request.caller if said.verdict == "denied" else None
    if is_star and denied_caller and site.has_undeclared_role(denied_caller):
        return "Tomcat declares the roles that constraints name"
    ending = "*." + path.rpartition("/")[2].rpartition(".")[2]
    if said.is_left_by_prefix and ("/" in patterns or ending in patterns):
        return "Tomcat goes on to a lesser pattern where the best one's constraints leave the method uncovered"
    return ""


def cookie_of(answer: http.client.HTTPResponse) -> str:
    return answer.getheader("Set-Cookie", "").partition(";")[0]


def compare(site: Site, tomcat: Tomcat, ours: dict[Request, Said]) -> int:
    """Prints the comparison of a descriptor. Returns how many requests differ without a known reason."""
    if tomcat.asked("GET", site.context + "/", {}).status == 404:
        print(f"{site.name}: Tomcat does not start it\n{tomcat.log()}")
        return 1
    page = next(
        (
            it.path
            for it, said in ours.items()
            if it.method == "GET" and not it.caller and said.verdict == "login"
        ),
        "/",
    )
    fields = {caller: tomcat.logged_in(site, caller, page) for caller in site.callers}
    differ: dict[Difference, list[Request]] = collections.defaultdict(list)
    for request, said in ours.items():
        theirs = tomcat.verdict(site, request, fields[request.caller] if request.caller else {})
        if theirs != said.verdict:
            differ[Difference(said.line, theirs, known(site, request, said, theirs))].append(
                request
            )
    print_comparison(site, [said.verdict for said in ours.values()], differ)
    return sum(len(examples) for difference, examples in differ.items() if not difference.reason)


def print_comparison(
    site: Site, verdicts: list[str], differ: dict[Difference, list[Request]]
) -> None:
    """Prints how many requests were tried, and each kind of difference with the first request that has it."""
    counts = ", ".join(
        f"{word} {count}" for word, count in sorted(collections.Counter(verdicts).items())
    )
    print(
        f"{site.name}{site.our_context}: {len(verdicts)} requests ({counts}), {sum(map(len, differ.values()))} differ"
    )
    for (line, theirs, reason), examples in differ.items():
        method, path, caller = examples[0]
        print(
            f"  {len(examples)} times, as {method} {path} by {caller or 'nobody'}: `{line}`, and Tomcat {theirs}: {reason or 'NOT KNOWN'}"
        )


def descriptors() -> list[Path]:
    """The descriptors with constraints among the cases of the importer."""
    return [
        path
        for path in sorted((TOP / "tools/import_cases").glob("*/web.xml"))
        if b"<security-constraint>" in path.read_bytes()
    ]


def compare_sites(said_by: Callable[[str, Site], dict[Request, Said]], arguments: list[str]) -> int:
    """Compares what a program says of requests with what Tomcat does, for a program and descriptors. Returns the exit status."""
    named = [Path(name) for name in arguments[1:]]
    program = os.path.realpath(arguments[0] if arguments else f"{TOP}/release/sv")
    with tempfile.TemporaryDirectory(prefix="sv-tomcat-") as room:
        sites = [
            Site(path, place, Path(room), context)
            for place, path in enumerate(named or descriptors())
            for context in (CONTEXTS if path.parent.name == TWO_CONTEXTS else [None])
        ]
        tomcat = Tomcat(Path(room) / "tomcat", sites)
        with tomcat.running():
            unequal = sum(compare(site, tomcat, said_by(program, site)) for site in sites)
    return 1 if unequal else 0
