"""What is tried of a real Tomcat: its examples and its manager, guarded by sites that tools/import-web-xml makes, with the valve of the folder `tomcat`."""
from __future__ import annotations

import contextlib
import http.client
import re
import shutil
import subprocess
from pathlib import Path
from typing import Iterator

from importing.users import with_password
from lines import TLS
from parts import HERE, accepts, container, see
from servers import TOP, wait_until
from sites import free_ports
from trials import see_page
from visitor import PASSWORDS, SECONDS, Visitor, raw_status

TOMCAT = Path("/usr/share/tomcat10")
APPLICATION = Path("/usr/share/tomcat10-examples/examples")
PROTECTED = "/examples/jsp/security/protected/index.jsp"
ROLES = {"ann": ["tomcat"], "ben": ["tomcat", "role1"], "eve": ["other"]}
# An application whose own constraints ask by BASIC, and which works on Tomcat itself.
MANAGER = Path("/usr/share/tomcat10-admin/manager")
MANAGER_ROLES = {"ann": ["manager-gui"], "ben": ["manager-script"]}
SERVER = """<Server port="-1"><Service name="Catalina"><Connector port="{port}" address="127.0.0.1"/>
<Engine name="Catalina" defaultHost="localhost"><Valve className="GuardValve" secret="{secret}"/>
<Valve className="org.apache.catalina.valves.RemoteIpValve"/>
<Host name="localhost" appBase="none" autoDeploy="false"/></Engine></Service></Server>
"""
# The pages of the folder `tomcat/trial` are in the application, at `/trial`.
CONTEXT = """<Context docBase="{place}"><Resources allowLinking="true">
<PostResources className="org.apache.catalina.webresources.DirResourceSet" base="{here}/tomcat/trial" webAppMount="/trial"/>
</Resources></Context>
"""
MANAGER_CONTEXT = f'<Context docBase="{MANAGER}" privileged="true"/>\n'
# Paths that Tomcat takes for the protected page, and what a stranger gets at each: the page for the login, or a refusal.
READ_AS_PROTECTED = {
    "/examples/jsp/security;a=b/protected;c/index.jsp": 200,
    "/examples/jsp/%73ecurity/protected/index%2Ejsp": 200,
    "/examples/jsp//security/./x/../protected/index.jsp": 200,
    "/x/../examples/jsp/security/protected/index.jsp": 200,
    "/examples/jsp/x/..;/security/protected/index.jsp": 400,
    "/examples/jsp/x/%2e%2e/security/protected/index.jsp": 400,
}
TRIAL = "/examples/trial"
SHOWN = "user={} owner={} scheme={} address={}\n"
# A page of the trial that needs TLS, by the words of its descriptor.
CONFIDENTIAL = """
[[security-constraint]]
web-resource-collection = [{ url-pattern = ["/trial/shown.jsp"], http-method = ["PUT"] }]
user-data-constraint = { transport-guarantee = "CONFIDENTIAL" }
"""
# A machine under load is slow to start it.
SECONDS_TO_START = 300
JAVA = ["java", "-Xmx256m", "-XX:+UseSerialGC", "-XX:TieredStopAtLevel=1"]


def make_tomcat(base: Path, port: int, secret: str) -> None:
    """Makes the folder of a Tomcat with its examples, its manager and the valve."""
    for name in ("conf/Catalina/localhost", "lib", "logs", "temp", "work"):
        (base / name).mkdir(parents=True)
    subprocess.run([HERE / "tomcat/build", base / "lib"], check=True)
    shutil.copy(TOMCAT / "etc/catalina.properties", base / "conf")
    shutil.copy(TOMCAT / "etc/web.xml", base / "conf")
    (base / "conf/server.xml").write_text(SERVER.format(port=port, secret=secret))
    context = base / "conf/Catalina/localhost/examples.xml"
    context.write_text(CONTEXT.format(place=APPLICATION, here=HERE))
    if MANAGER.exists():
        context.with_name("manager.xml").write_text(MANAGER_CONTEXT)


@contextlib.contextmanager
def tomcat(base: Path, port: int) -> Iterator[None]:
    """The Tomcat of a folder, once it listens at its port."""
    places = [f"-Dcatalina.home={TOMCAT}", f"-Dcatalina.base={base}"]
    libraries = f"{TOMCAT}/bin/bootstrap.jar:{TOMCAT}/bin/tomcat-juli.jar"
    start = ["-cp", libraries, "org.apache.catalina.startup.Bootstrap", "start"]
    words = [*JAVA, *places, f"-Djava.io.tmpdir={base}/temp", *start]
    with open(base / "logs/out", "wb") as log, subprocess.Popen(
        words, stdin=subprocess.DEVNULL, stdout=log, stderr=log
    ) as process:
        try:
            wait_until(
                "Tomcat listens",
                lambda: process.poll() is not None or accepts(f"127.0.0.1:{port}"),
                SECONDS_TO_START,
            )
            yield
        finally:
            process.terminate()


def imported(folder: Path, port: int, application: Path, roles: dict[str, list[str]]) -> str:
    """Writes the site that guards an application, with users. Returns the secret."""
    words = [f"{TOP}/tools/import-web-xml", str(application / "WEB-INF/web.xml")]
    more = ["--guard", f"http://127.0.0.1:{port}", "--context", f"/{application.name}"]
    subprocess.run(
        [*words, *more, "--users", "users.toml", "-o", str(folder)],
        stderr=subprocess.DEVNULL,
        check=True,
    )
    users = [with_password(it, roles[it], b"salt", PASSWORDS[it].encode()) for it in roles]
    (folder / "users.toml").write_text("\n".join(it.text() for it in users))
    # Workers of nginx read the pages.
    folder.chmod(0o755)
    return found_in(folder, "X-Application-Secret ([0-9a-f]+);")


def found_in(folder: Path, pattern: str) -> str:
    """What the configuration of nginx has at a place."""
    text = (folder / "nginx.conf").read_text()
    found = re.search(pattern, text)
    assert found is not None, text
    return found[1]


@contextlib.contextmanager
def nginx(folder: Path, container_port: int, *more: str) -> Iterator[int]:
    """nginx by the configuration of a site, with ports that are free, and more lines for its port: the port."""
    (port,) = free_ports(1)
    text = (folder / "nginx.conf").read_text()
    listen = "\n".join([f"listen 127.0.0.1:{port}{' ssl' if more else ''};", *more])
    changes = {
        "listen 127.0.0.1:8000;": listen,
        "server 127.0.0.1:8001;": f"server 127.0.0.1:{container_port};",
    }
    for old, new in changes.items():
        assert old in text, old
        text = text.replace(old, new)
    (folder / "trial.conf").write_text(text)
    words = ["nginx", "-p", str(folder), "-c", "trial.conf", "-e", "nginx.log"]
    with subprocess.Popen(words, stdin=subprocess.DEVNULL) as process:
        try:
            wait_until("nginx listens", lambda: accepts(f"127.0.0.1:{port}"))
            yield port
        finally:
            process.terminate()
            process.wait(SECONDS)


class Direct:
    """Requests to Tomcat by one who knows the secret, as nginx does."""

    def __init__(self, port: int, secret: str) -> None:
        self.port, self.fields = port, {"X-Application-Secret": secret}

    @contextlib.contextmanager
    def asked(self, method: str, target: str, **fields: str) -> Iterator[http.client.HTTPResponse]:
        """The answer to a request, once its head is there. Names have `_` in place of `-`."""
        peer = http.client.HTTPConnection("127.0.0.1", self.port, timeout=SECONDS)
        named = {name.replace("_", "-"): value for name, value in fields.items()}
        with contextlib.closing(peer):
            peer.request(method, target, headers={**self.fields, **named})
            yield peer.getresponse()


def see_each_request(direct: Direct) -> None:
    """Sees that the secret of a request does not count for the next one on its connection."""
    peer = http.client.HTTPConnection("127.0.0.1", direct.port, timeout=SECONDS)
    ann = {"X-Application-Caller": "ann", "X-Application-Roles": "tomcat"}
    came = []
    with contextlib.closing(peer):
        for fields in ({**ann, **direct.fields}, ann):
            peer.request("GET", PROTECTED, headers=fields)
            answer = peer.getresponse()
            came.append((answer.status, answer.will_close, b"<b>ann</b>" in answer.read()))
    see("Tomcat, one connection", came, [(200, False, True), (403, False, False)])


def session_of(text: str) -> str:
    """The id of the application's session on its protected page."""
    found = re.search(r"in session <b>(\w+)</b>", text)
    return found[1] if found else ""


def see_callers(port: int) -> None:
    """Sees that the application knows its callers and their roles, and asks for no login of its own."""
    ann = Visitor(port)
    see_page("Tomcat, the page for the login", ann.get(PROTECTED), 200, "<h1>Log in</h1>")
    see("Tomcat, the login", ann.log_in("ann", PROTECTED).status, 303)
    page = ann.get(f"{PROTECTED}?role=tomcat").text
    see("Tomcat, getRemoteUser", re.findall(r"remote user\s*<b>(.*)</b>", page), ["ann"])
    see("Tomcat, getUserPrincipal", re.findall(r"principal name is\s*<b>(.*)</b>", page), ["ann"])
    see("Tomcat, isUserInRole", "You have been granted role" in page, True)
    page = ann.get(f"{PROTECTED}?role=role1").text
    see("Tomcat, a role of others", "You have <i>not</i> been granted role" in page, True)
    eve = Visitor(port, "127.0.0.2")
    see("Tomcat, another login", eve.log_in("eve", PROTECTED).status, 303)
    see_page("Tomcat, a caller without the role", eve.get(PROTECTED), 403, "<h1>Not for you</h1>")
    see("Tomcat, a method that is denied", ann.ask("PATCH", PROTECTED).status, 403)


def see_sessions(port: int) -> None:
    """Sees that a session of the application serves only one caller."""
    browser = Visitor(port, "127.0.0.3")
    browser.log_in("ann", PROTECTED)
    first = session_of(browser.get(PROTECTED).text)
    see("Tomcat, a session", (len(first), session_of(browser.get(PROTECTED).text)), (32, first))
    see("Tomcat, the end", browser.ask("POST", "/examples/guard/log-out").status, 200)
    see_page("Tomcat, after it", browser.get(PROTECTED), 200, "<h1>Log in</h1>")
    browser.log_in("ben", PROTECTED)
    see("Tomcat, its cookie", [it for it in browser.jar.values() if it == first], [first])
    page = browser.get(PROTECTED).text
    see("Tomcat, the next caller", re.findall(r"remote user\s*<b>(.*)</b>", page), ["ben"])
    see("Tomcat, another session", session_of(page) not in ("", first), True)


def see_threads(port: int) -> None:
    """Sees that a session that a thread of its own opens has no second caller, and that an asynchronous dispatch is answered."""
    browser = Visitor(port, "127.0.0.4")
    browser.log_in("ann", PROTECTED)
    see("Tomcat, a thread", browser.get(f"{TRIAL}/async.jsp").status, 200)
    see("Tomcat, its session", [it for it, _ in browser.jar if it == "JSESSIONID"], ["JSESSIONID"])
    browser.ask("POST", "/examples/guard/log-out")
    browser.log_in("ben", PROTECTED)
    page = browser.get(f"{TRIAL}/shown.jsp").text
    see("Tomcat, another caller", page, SHOWN.format("ben", "null", "http", browser.address))
    page = browser.get("/examples/async/async1").text
    see("Tomcat, an asynchronous dispatch", "Type is ASYNC" in page, True)


def see_early(direct: Direct) -> None:
    """Sees that a session goes on that its client uses before the request that opens it has ended."""
    ann = {"X_Application_Caller": "ann", "X_Forwarded_For": "127.0.0.5"}
    with direct.asked("GET", f"{TRIAL}/early.jsp", **ann) as first:
        cookie = first.headers["Set-Cookie"].partition(";")[0]
        with direct.asked("GET", f"{TRIAL}/shown.jsp", Cookie=cookie, **ann) as second:
            text = second.read().decode()
        see("Tomcat, meanwhile", text, SHOWN.format("ann", "ann", "http", "127.0.0.5"))
        see("Tomcat, at its end", first.read(), b"owner=ann\n")


def see_root(port: int, direct: Direct) -> None:
    """Sees that the path of the context without a slash is answered as by Tomcat."""
    for method in ("GET", "POST"):
        for target in ("/examples", "/examples?a=b&c"):
            with direct.asked(method, target) as answer:
                wanted = (answer.status, answer.headers["Location"])
            came = Visitor(port).ask(method, target)
            see(f"Tomcat, {method} {target}", (came.status, came.field("location")), wanted)


def see_paths(port: int, direct: Direct) -> None:
    """Sees that no path that Tomcat reads as that of the protected page is open."""
    ann = {"X_Application_Caller": "ann", "X_Application_Roles": "tomcat"}
    for target, status in READ_AS_PROTECTED.items():
        with direct.asked("GET", target, **ann) as it:
            see(f"Tomcat, {target} for ann", "<b>ann</b>" in it.read().decode(), True)
        came = Visitor(port, "127.0.0.8").get(target)
        see(f"Tomcat, {target} for a stranger", came.status, status)
        see("Tomcat, its page", "<h1>Log in</h1>" in came.text, status == 200)


def see_log_out(folder: Path, port: int) -> None:
    """Sees that a session ends at the path that nginx.conf names."""
    ann = Visitor(port, "127.0.0.6")
    ann.log_in("ann", PROTECTED)
    path = found_in(folder, r"\n# A POST to (\S+) ends the session")
    see("Tomcat, the end of the session", ann.ask("POST", path).status, 200)
    see_page("Tomcat, after it", ann.get(PROTECTED), 200, "<h1>Log in</h1>")


def see_tls(port: int, certificate: str) -> None:
    """Sees that the application knows of TLS, and that a constraint that requires it denies even so."""
    stranger = Visitor(port, "127.0.0.7")
    stranger.certificate = certificate
    page = stranger.get(f"{TRIAL}/shown.jsp").text
    see("Tomcat, over TLS", page, SHOWN.format("null", "null", "https", stranger.address))
    see("Tomcat, CONFIDENTIAL", stranger.ask("PUT", f"{TRIAL}/shown.jsp").status, 403)


def see_open(port: int, tomcat_port: int) -> None:
    """Sees that open pages are for everyone, and that nobody but nginx is answered by Tomcat."""
    stranger = Visitor(port)
    see("Tomcat, a file", "Apache Tomcat Examples" in stranger.get("/examples/").text, True)
    hello = "/examples/servlets/servlet/HelloWorldExample"
    see("Tomcat, a servlet", "<h1>Hello World!</h1>" in stranger.get(f"{hello};a=b").text, True)
    page = stranger.get("/examples/servlets/servlet/RequestHeaderExample").text
    shown = [name in page for name in ("x-forwarded-proto", "x-application-secret")]
    see("Tomcat, the fields that a page shows", shown, [True, False])
    see("Tomcat, elsewhere", stranger.get("/manager/html").status, 404)
    forged = ("X-Application-Caller: ann", "X-Application-Roles: tomcat")
    for more in ((), ("X-Application-Secret: x",), ("X-Application-Secret:",)):
        line = f"GET {PROTECTED} HTTP/1.1"
        see("Tomcat, without the secret", raw_status(tomcat_port, line, *forged, *more), 403)


def try_manager(program: str, folder: Path, port: int, secret: str) -> None:
    """Sees that the manager of a running Tomcat, whose own constraints ask by BASIC, takes the callers and roles of the guard."""
    if not MANAGER.exists():
        print("manager: tomcat10-admin is not installed, so it was not tried")
        return
    own = imported(folder, port, MANAGER, MANAGER_ROLES)
    configuration = folder / "nginx.conf"
    configuration.write_text(configuration.read_text().replace(own, secret))
    with container(program, str(folder)) as it, nginx(folder, it) as guard_port:
        see_manager(guard_port, port)
    print("manager: Tomcat's manager takes the callers and roles of the guard in place of BASIC")


def see_manager(port: int, tomcat_port: int) -> None:
    page, text = "/manager/html", "/manager/text/list"
    see("manager, past nginx", raw_status(tomcat_port, f"GET {page} HTTP/1.1"), 403)
    ann, ben = Visitor(port), Visitor(port, "127.0.0.2")
    see_page("manager, a stranger", ann.get(page), 200, "<h1>Log in</h1>")
    see("manager, the login", ann.log_in("ann", f"{page}/list").status, 303)
    shown = ann.get(page)
    see("manager, its challenge", (shown.status, shown.field("www-authenticate")), (200, ""))
    see("manager, its page", "Tomcat Web Application Manager" in shown.text, True)
    see_page("manager, the role of scripts", ann.get(text), 403, "<h1>Not for you</h1>")
    see("manager, a login of a script", ben.log_in("ben", text).status, 303)
    see("manager, the list", ben.get(text).text.partition("\n")[0][:4], "OK -")
    see_page("manager, the role of people", ben.get(page), 403, "<h1>Not for you</h1>")


def try_tomcat(program: str, room: str) -> None:
    if not (TOMCAT.exists() and APPLICATION.exists() and shutil.which("javac")):
        print("Tomcat: it is not installed with its examples and a compiler, so it was not tried")
        return
    folder, (port,) = Path(room, "tomcat-site"), free_ports(1)
    direct = Direct(port, imported(folder, port, APPLICATION, ROLES))
    with open(folder / "web.toml", "a") as file:
        file.write(CONFIDENTIAL)
    secret = direct.fields["X-Application-Secret"]
    base = Path(room, "tomcat")
    make_tomcat(base, port, secret)
    with tomcat(base, port), container(program, str(folder)) as it:
        with nginx(folder, it) as guard_port:
            see_open(guard_port, port)
            see_callers(guard_port)
            see_sessions(guard_port)
            see_threads(guard_port)
            see_early(direct)
            see_each_request(direct)
            see_root(guard_port, direct)
            see_paths(guard_port, direct)
            see_log_out(folder, guard_port)
        keys = f"{room}/keys"
        with nginx(folder, it, *[line.replace("KEYS", keys) for line in TLS]) as guard_port:
            see_tls(guard_port, f"{room}/certificate.pem")
        print(
            "Tomcat: its examples know the callers and roles of the guard, and a session is for one caller"
        )
        try_manager(program, Path(room, "manager-site"), port, secret)
