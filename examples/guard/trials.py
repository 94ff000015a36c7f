"""What is tried of a guarded site: the callers, and what arrives at the application."""
from __future__ import annotations

import contextlib
import hashlib
import os
import socket
import time
import urllib.parse
from pathlib import Path
from typing import Iterator, NamedTuple

from parts import SECRET, see
from recorder import CONTENT, ETAG, Arrived, Recorder
from visitor import COOKIE, HTML, SECONDS, Answer, Visitor, raw, raw_status

LOGIN, FAILED, DENIED = "<h1>Log in</h1>", "<h1>The login failed</h1>", "<h1>Not for you</h1>"
# A machine under load takes long for these.
SECONDS_TO_REFUSE, SECONDS_TO_SEND, SECONDS_TO_ANSWER = 15, 20, 15
JSON = {"Accept": "application/json"}
# What an answer may take on the disk: 1 MiB, and what nginx writes at once.
MOST_ON_DISK = 5 * 256 * 1024
# A length of an answer that fits into the buffers of nginx and its file, and not into those of the system.
OF_BUFFERS = 1024 * 1024
# A count of bytes that is the same so many times grows no more.
SAME_COUNTS = 20


class Trial(NamedTuple):
    """A guarded site that is tried: the port of nginx, the application, and the journal of the container."""

    port: int
    application: Recorder
    journal: Path

    def visitor(self, address: str = "127.0.0.1") -> Visitor:
        """A new client, after whose making nothing has arrived."""
        self.application.taken()
        return Visitor(self.port, address)

    def caller(self, name: str, target: str = "/members/") -> Visitor:
        """A client that has logged in. Each has an address of its own, since logins of an address are limited."""
        visitor = self.visitor(f"127.0.0.{10 + len(name) + ord(name[0])}")
        see(f"the login of {name}", visitor.log_in(name, target).status, 303)
        return visitor

    def arrived(self) -> Arrived:
        """The only request that has arrived since the last call."""
        taken = self.application.taken()
        see("how many requests arrived", len(taken), 1)
        return taken[0]

    def see_none(self, what: str) -> None:
        """Sees that no request has arrived since the last call."""
        see(what, [(it.method, it.target) for it in self.application.taken()], [])

    def decided(self) -> list[str]:
        """The paths of the requests that entered so far, as the journal of the container has them."""
        lines = self.journal.read_text().splitlines()
        entered = [line.split(" ", 4)[3:] for line in lines if line.split(" ")[2] == "entered"]
        paths = [context.rstrip("/") + path for context, path in entered]
        # The journal escapes the bytes of a letter that is not ASCII.
        return [it.encode().decode("unicode_escape").encode("latin-1").decode() for it in paths]


def see_page(what: str, answer: Answer, status: int, heading: str) -> None:
    """Sees that an answer is a page of the site, which no cache keeps."""
    see(what, (answer.status, heading in answer.text), (status, True))
    see(f"{what}, its type", answer.field("content-type"), "text/html")
    see(f"{what}, its field Cache-Control", answer.field("cache-control"), "no-store")


def try_strangers(trial: Trial) -> None:
    """A request of a stranger arrives if it may, and else a page for the login comes with the cookie of a session."""
    stranger = trial.visitor()
    see("an open path", stranger.get("/open").status, 200)
    fields = trial.arrived().fields
    named = [name for name in fields if name.startswith("x-application-")]
    see("the fields of a stranger", named, ["x-application-secret"])
    answer = stranger.get("/members/")
    see_page("the page for the login", answer, 200, LOGIN)
    see("whether the cookie comes", f"{COOKIE}=" in answer.field("set-cookie"), True)
    posted = stranger.ask("POST", "/members/", HTML, b"a=b")
    see_page("the page in place of a POST", posted, 200, LOGIN)
    see("the answer to HEAD", stranger.ask("HEAD", "/members/").status, 200)
    trial.see_none("requests of a stranger")


def try_json(trial: Trial) -> None:
    """A client that names no HTML gets a status in place of a page."""
    answer = trial.visitor().ask("GET", "/members/", JSON)
    see("without a caller", (answer.status, answer.text), (401, '{"status": 401}\n'))
    see("its type", answer.field("content-type"), "application/json")
    see("its challenge", answer.field("www-authenticate"), "Form")
    see("its field Cache-Control", answer.field("cache-control"), "no-store")
    see("whether the cookie comes", f"{COOKIE}=" in answer.field("set-cookie"), True)
    see("any type", trial.visitor().ask("GET", "/members/", {"Accept": "*/*"}).status, 401)
    answer = trial.caller("ann").ask("GET", "/admin/", JSON)
    see("without the role", (answer.status, answer.text), (403, '{"status": 403}\n'))
    see("its type", answer.field("content-type"), "application/json")
    see("its field Cache-Control", answer.field("cache-control"), "no-store")
    answer = trial.visitor().ask("POST", "/j_security_check", JSON, b"j_username=ann&j_password=x")
    see("a login that fails", (answer.status, answer.text), (401, '{"status": 401}\n'))
    trial.see_none("requests that did not enter")


def try_json_paths(trial: Trial) -> None:
    """At the paths of a line that README.md adds, a client that accepts HTML gets a status in place of a page, and at others a page."""
    refused = (401, '{"status": 401}\n')
    answer = trial.visitor().get("/members/api/x")
    see("without a caller", (answer.status, answer.text), refused)
    answer = trial.visitor("127.0.0.81").log_in("ann", "/members/api/x", "wrong")
    see("a login that fails", (answer.status, answer.text), refused)
    ann = trial.caller("ann", "/members/api/x")
    answer = ann.get("/admin/api/x")
    see("without the role", (answer.status, answer.text), (403, '{"status": 403}\n'))
    trial.see_none("requests that did not enter")
    see("a caller", ann.get("/members/api/x").status, 200)
    see("the path that arrives", trial.arrived().target, "/members/api/x")
    see_page("another path", trial.visitor().get("/members/apis/x"), 200, LOGIN)
    see_page("another path without the role", ann.get("/admin/x"), 403, DENIED)


def try_login(trial: Trial) -> None:
    """A login leads back, and its caller arrives with the roles, percent-encoded."""
    visitor = trial.visitor("127.0.0.2")
    answer = visitor.log_in("ann", "/members/x?y=1")
    see("the login", (answer.status, answer.field("location")), (303, "/members/x?y=1"))
    trial.see_none("the password")
    see("the page", visitor.get("/members/x?y=1").status, 200)
    it = trial.arrived()
    see("the target", (it.method, it.target), ("GET", "/members/x?y=1"))
    names = [it.fields.get(f"x-application-{key}") for key in ("secret", "caller", "roles")]
    see("the fields", names, [SECRET, "ann", "member"])
    several = trial.caller("zoé tan")
    see("the page", several.get("/members/").status, 200)
    fields = trial.arrived().fields
    names = [fields.get(f"x-application-{key}") for key in ("caller", "roles")]
    see("the fields of names that are no tokens", names, ["zo%C3%A9%20tan", "member,a%2Cb"])


def try_failed_login(trial: Trial) -> None:
    """A login with a wrong password is answered with a page of its own, and is not a login."""
    visitor = trial.visitor("127.0.0.3")
    see_page("the failed login", visitor.log_in("ann", "/members/", "wrong"), 200, FAILED)
    see_page("its location, by GET", visitor.get("/members/j_security_check"), 200, LOGIN)
    see_page("the page after it", visitor.get("/members/"), 200, LOGIN)
    trial.see_none("requests of a stranger")


def try_denied(trial: Trial) -> None:
    """A caller without the role, and a method that no constraint covers, are denied."""
    ann = trial.caller("ann")
    see_page("a page for another role", ann.get("/admin/"), 403, DENIED)
    see_page("a login's location for another role", ann.get("/admin/j_security_check"), 403, DENIED)
    ben = trial.caller("ben", "/editors/")
    see_page("a method that is uncovered", ben.ask("POST", "/editors/", HTML, b"x"), 403, DENIED)
    see("an unknown method", raw_status(trial.port, "BREW /editors/ HTTP/1.1"), 403)
    see("TRACE", raw_status(trial.port, "TRACE /open HTTP/1.1"), 405)
    trial.see_none("requests that are denied")
    see("a method that is covered", ben.get("/editors/").status, 200)
    see("its caller", trial.arrived().fields["x-application-caller"], "ben")


def try_contexts(trial: Trial) -> None:
    """A login works in a context below the root, with a path parameter, and with an escape."""
    for place, name in enumerate(
        ["j_security_check", "j_security_check;a=b", "%6a_security_check"]
    ):
        visitor = trial.visitor(f"127.0.0.{4 + place}")
        see_page("the page for the login", visitor.get("/two/members/"), 200, LOGIN)
        form = {**HTML, "Content-Type": "application/x-www-form-urlencoded"}
        content = b"j_username=ann&j_password=violet"
        see(name, visitor.ask("POST", f"/two/members/{name}", form, content).status, 303)
        trial.see_none("the password")
        see("the page", visitor.get("/two/members/").status, 200)
        it = trial.arrived()
        came = (it.target, it.fields.get("x-application-caller"))
        see("what arrives", came, ("/two/members/", "ann"))
        see_page("the root's page", visitor.get("/members/"), 200, LOGIN)


def try_log_out(trial: Trial) -> None:
    """A POST ends the session, a GET does not."""
    ann = trial.caller("ann")
    see("GET", ann.get("/guard/log-out").status, 403)
    see("the page after it", ann.get("/members/").status, 200)
    trial.arrived()
    see("POST", ann.ask("POST", "/guard/log-out").status, 200)
    see_page("the page after it", ann.get("/members/"), 200, LOGIN)
    trial.see_none("requests after the end of the session")


def try_cookies(trial: Trial) -> None:
    """The application receives all cookies but that of the container's session, which has a name of its own."""
    ann = trial.caller("ann")
    see("the names of the cookies", [name for name, _ in ann.jar], [COOKIE])
    # The second target is in another context, to which a browser sends the cookie of the root, too.
    for target in ("/members/", "/two/open"):
        ann.get(target)
        see(f"the field without others at {target}", trial.arrived().fields.get("cookie"), None)
    ann.jar = {("JSESSIONID", "/"): "own", **ann.jar, ("last", "/"): "1"}
    ann.get("/members/")
    see("the field with others", trial.arrived().fields.get("cookie"), "JSESSIONID=own; last=1")
    lines = ["GET /members/ HTTP/1.1", "Host: x", "Connection: close", "Cookie: one=1"]
    own = next(f"{name}={value}" for (name, _), value in ann.jar.items() if name == COOKIE)
    more = [f"cookie:two=2;{own}", f"COOKIE: {own}", "Cookie:  three=3 ;; four", "", ""]
    raw(trial.port, "\r\n".join([*lines, *more]).encode())
    fields = trial.arrived().fields
    cookies = (fields.get("x-application-caller"), COOKIE in fields["cookie"])
    see("the caller and its cookie in several fields", cookies, ("ann", False))
    names = [it.strip().partition("=")[0] for it in fields["cookie"].split(";")]
    see("the other cookies", [it for it in names if it], ["one", "two", "three", "four"])
    answer = ann.get("/members/?Set-Cookie=own=2")
    see("the application's cookie", answer.field("set-cookie"), "own=2")


# Conditions by which nginx would answer 304 or 412 in place of a page of its own, or which the page would meet.
CONDITIONS = [
    ("If-None-Match", "*"),
    ("If-Match", '"one"'),
    ("If-Match", "*"),
    ("If-Match", ""),
    ("If-Unmodified-Since", "Thu, 01 Jan 1970 00:00:00 GMT"),
    ("If-Unmodified-Since", "Thu, 31 Dec 2099 23:59:59 GMT"),
    ("If-Unmodified-Since", ""),
]
# Fields that an application may trust. Those with an empty text do not arrive.
REPLACED = {
    "X-Application-Secret": SECRET,
    "X-Application-Caller": "ann",
    "X-Application-Roles": "member",
    "X-Forwarded-Proto": "http",
}
CLEARED = """Authorization Proxy-Authorization Remote-User Remote-Groups Remote-Name Remote-Email X-Remote-User X-Remote-Group X-Remote-Groups X-User
    X-Caller X-WEBAUTH-USER X-Auth-Request-User X-Auth-Request-Groups X-Auth-Request-Email X-Auth-Request-Preferred-Username
    X-Auth-Request-Access-Token X-Forwarded-User X-Forwarded-Groups X-Forwarded-Email X-Forwarded-Preferred-Username X-Forwarded-Access-Token
    X-Forwarded-Client-Cert X-Forwarded-Tls-Client-Cert X-Forwarded-Tls-Client-Cert-Info X-Client-Cert X-SSL-Client-Cert X-Application-Target X-Application-Cookie X-Application-Context Proxy Forwarded
    X-Forwarded-Port X-Forwarded-Server X-Forwarded-Ssl X-Forwarded-Scheme X-Forwarded-Protocol X-Forwarded-By X-Real-IP X-Client-IP
    X-Cluster-Client-IP True-Client-IP X-Original-Host X-Host Front-End-Https X-Url-Scheme X-Scheme X-Forwarded-Prefix X-Forwarded-Path
    X-Forwarded-Uri X-Forwarded-Method X-Original-URL X-Original-URI X-Original-Method X-Rewrite-URL X-Script-Name X-Ms-Original-Url
    X-Waws-Unencoded-Url X-HTTP-Method-Override X-HTTP-Method X-Method-Override X-Accel-Redirect X-Accel-Expires X-Accel-Limit-Rate
    X-Accel-Buffering X-Accel-Charset X-Accel-Mapping X-Sendfile-Type""".split()


def try_fields_of_clients(trial: Trial) -> None:
    """Fields that an application may trust are nginx's own, or do not arrive, whatever the client sends."""
    forged = {
        name: "forged" for name in [*REPLACED, *CLEARED, "X-Forwarded-For", "X-Forwarded-Host"]
    }
    ann = trial.caller("ann")
    see("the page", ann.ask("GET", "/members/", forged).status, 200)
    fields = trial.arrived().fields
    for name in forged:
        wanted = REPLACED.get(name)
        wanted = ann.address if name == "X-Forwarded-For" else wanted
        wanted = f"127.0.0.1:{trial.port}" if name == "X-Forwarded-Host" else wanted
        see(f"the field {name}", fields.get(name.lower()), wanted)
    see("the field Host", fields["host"], f"127.0.0.1:{trial.port}")
    trial.visitor().ask("GET", "/open", forged)
    fields = trial.arrived().fields
    came = [fields.get(f"x-application-{key}") for key in ("caller", "roles")]
    see("the caller of a stranger who sends one", came, [None, None])


def host_of(trial: Trial, target: str, host: str) -> tuple[int, list[list[str]]]:
    """The status of the answer to a request with this field Host, and the hosts that arrive."""
    trial.visitor()
    text = f"GET {target} HTTP/1.1\r\nHost: {host}\r\nConnection: close\r\n\r\n"
    status = int(raw(trial.port, text.encode()).split(b" ", 2)[1])
    taken = [it.fields for it in trial.application.taken()]
    return status, [[it["host"], it["x-forwarded-host"]] for it in taken]


def try_hosts(trial: Trial) -> None:
    """The host of a target takes the place of the field Host."""
    for target in ("http://a.example:81/open", "HTTP://a.example:81?x", "x://a.example:81/open"):
        came = host_of(trial, target, "b.example")
        see(f"the hosts for {target}", came, (200, [["a.example:81"] * 2]))
    see("the hosts for a query", host_of(trial, "/open?x://a/", "b"), (200, [["b"] * 2]))


def try_names(trial: Trial) -> None:
    """With lines that README.md adds, a request for another host is refused, wherever it names the host."""
    own, other = "named.example", "b.example"
    see("the name", host_of(trial, "/open", f"{own}:80"), (200, [[f"{own}:80"] * 2]))
    see("the name in a target", host_of(trial, f"http://{own}/open", other), (200, [[own] * 2]))
    for target, host in (("/open", other), (f"http://{other}/open", own)):
        see(f"{target} with Host: {host}", host_of(trial, target, host), (421, []))


def try_prefixes(trial: Trial) -> None:
    """With a line that README.md adds, no field of a client arrives whose name begins like that of one that an application may trust."""
    forged = {f"{it}Other": "forged" for it in ("X-Application-", "X-Forwarded-", "Remote-")}
    trial.caller("ann").ask("GET", "/members/", {**forged, "X-Other": "own"})
    fields = trial.arrived().fields
    see("the fields of the client", [it for it in fields if it.endswith("other")], ["x-other"])
    see("the caller", fields["x-application-caller"], "ann")
    see("a field of nginx", fields["x-forwarded-proto"], "http")


def try_underscores(trial: Trial) -> None:
    """No name with an underscore arrives, even if nginx admits them elsewhere: a program by WSGI reads it as one with hyphens."""
    trial.visitor().ask("GET", "/open", {"X_Application_Caller": "eve", "x_forwarded_for": "y"})
    see("names with underscores", [it for it in trial.arrived().fields if "_" in it], [])


def try_others_fields(trial: Trial) -> None:
    """Other fields of a client arrive, and the container's fields are not for clients."""
    answer = trial.visitor().get("/open", X_CSRF_Token="1", Referer="x", If_Match="y")
    fields = trial.arrived().fields
    see(
        "other fields",
        [fields.get(it) for it in ("x-csrf-token", "referer", "if-match")],
        ["1", "x", "y"],
    )
    see("the container's fields", [it for it in answer.fields if it.lower().startswith("x-")], [])
    see("the field Vary", answer.field("vary"), "Cookie")
    see("connections stay open", (fields.get("connection"), fields["version"]), (None, "HTTP/1.1"))


def try_redirect(trial: Trial) -> None:
    """The application cannot send a request to another location of nginx."""
    for place in ("@application", "/.guard/401", "/other"):
        answer = trial.visitor().get(f"/open?X-Accel-Redirect={place}&X-Application-Target=/forged")
        see(f"the answer with X-Accel-Redirect: {place}", answer.status, 200)
        see("what arrives", trial.arrived().target.partition("?")[0], "/open")


def try_limit_rate(trial: Trial) -> None:
    """The application cannot slow its answer down by a field of nginx."""
    trial.visitor()
    head = b"GET /open?X-Accel-Limit-Rate=1 HTTP/1.1\r\nHost: x\r\nConnection: close\r\n\r\n"
    came, end = [b"-"], time.monotonic() + SECONDS_TO_ANSWER
    with socket.create_connection(("127.0.0.1", trial.port), SECONDS_TO_ANSWER) as peer:
        peer.sendall(head)
        with contextlib.suppress(TimeoutError):
            while came[-1] and time.monotonic() < end:
                came.append(peer.recv(4096))
    # At one byte a second it would take minutes.
    see("whether the answer has ended", came[-1], b"")


@contextlib.contextmanager
def reader_that_stops(trial: Trial, target: str) -> Iterator[None]:
    """A client that asks for a target and does not read the answer."""
    trial.visitor()
    trial.application.sent.clear()
    with socket.socket() as peer:
        peer.setsockopt(socket.SOL_SOCKET, socket.SO_RCVBUF, 4096)
        peer.connect(("127.0.0.1", trial.port))
        peer.sendall(f"GET {target} HTTP/1.1\r\nHost: x\r\n\r\n".encode())
        yield


def try_buffering(trial: Trial) -> None:
    """The application cannot turn the buffers off by a field of nginx: it has sent its answer before a slow client has read it."""
    target = f"/open?answer=large&length={OF_BUFFERS}&X-Accel-Buffering=no"
    with reader_that_stops(trial, target):
        see("whether the application is done", trial.application.sent.wait(SECONDS_TO_SEND), True)


def temporary_bytes(folder: Path) -> int:
    """The bytes on the disk that nginx keeps in its folder `temporary`, whose files it removes at once and holds open."""
    master = (folder / "proxy/nginx.pid").read_text().strip()
    workers = Path(f"/proc/{master}/task/{master}/children").read_text().split()
    held = 0
    for it in (it for worker in workers for it in Path(f"/proc/{worker}/fd").iterdir()):
        with contextlib.suppress(OSError):
            held += it.stat().st_size if "/temporary/" in os.readlink(it) else 0
    return held


def try_disk(trial: Trial) -> None:
    """An answer that its client does not read takes at most 1.25 MiB of the disk."""
    with reader_that_stops(trial, "/open?answer=large"):
        held, end = [0], time.monotonic() + SECONDS_TO_SEND
        while time.monotonic() < end and (held[-1] == 0 or len(set(held[-SAME_COUNTS:])) > 1):
            time.sleep(0.1)
            held.append(temporary_bytes(trial.journal.parent))
        see("whether the answer is on the disk", held[-1] > 0, True)
        see("whether it takes more", held[-1] > MOST_ON_DISK, False)


def try_charset(trial: Trial) -> None:
    """The application cannot set the charset by a field of nginx, which knows this one."""
    answer = trial.visitor().get("/open?X-Accel-Charset=koi8-r")
    see("the type", answer.field("content-type"), "text/plain")


def see_new(what: str, answers: list[Answer]) -> None:
    """Sees that no two answers are the same one: each has the time of its making."""
    see(what, len({it.text for it in answers}), len(answers))


def try_expires(trial: Trial) -> None:
    """The application cannot have its answer kept by a field of nginx, if there is a cache."""
    target = f"/open?X-Accel-Expires=60&x={time.time_ns()}"
    see_new("answers with X-Accel-Expires", [trial.visitor().get(target) for _ in range(2)])


def try_cache(trial: Trial) -> None:
    """A cache that is set up for all servers of nginx keeps no answer."""
    target = f"/members/?Cache-Control=max-age=60&x={time.time_ns()}"
    callers = [trial.caller("ann"), trial.caller("ben")]
    see_new("answers to two callers", [it.get(target) for it in callers])
    see_page("the answer to a stranger", trial.visitor().get(target), 200, LOGIN)


def try_tls(trial: Trial) -> None:
    """Over TLS each cookie of the session is Secure, and the application sees that."""
    visitor = trial.visitor()
    visitor.certificate = str(trial.journal.parent / "certificate.pem")
    page, login = visitor.get("/members/"), visitor.log_in("ann")
    see("the login", login.status, 303)
    for what, it in (("the page", page), ("the login", login)):
        see(f"{what}, Secure", "secure" in it.field("set-cookie").lower().split("; "), True)
    visitor.get("/members/")
    see("the field X-Forwarded-Proto", trial.arrived().fields["x-forwarded-proto"], "https")


def try_methods(trial: Trial) -> None:
    """HEAD, ranges, 304, chunked answers and uploads pass."""
    visitor = trial.caller("ann")
    head = visitor.ask("HEAD", "/members/?answer=part")
    see(
        "HEAD", (head.status, head.text, head.field("content-length")), (200, "", str(len(CONTENT)))
    )
    see("the method of HEAD", trial.arrived().method, "HEAD")
    part = visitor.get("/members/?answer=part", Range="bytes=2-4")
    see(
        "a range",
        (part.status, part.text, part.field("content-range")),
        (206, "234", "bytes 2-4/10"),
    )
    known = visitor.get("/members/?answer=part", If_None_Match=ETAG)
    see("a known entity", (known.status, known.text, known.field("etag")), (304, "", ETAG))
    see("chunks", visitor.get("/members/?answer=pieces").text, "onetwo")
    see("DELETE", visitor.ask("DELETE", "/members/").status, 200)
    see("OPTIONS", visitor.ask("OPTIONS", "/members/").status, 200)
    names = [it.method for it in trial.application.taken()]
    see("the methods", names, ["GET", "GET", "GET", "DELETE", "OPTIONS"])


def try_statuses(trial: Trial) -> None:
    """Errors of the application are its own answers, with its own bodies."""
    for status in (400, 401, 403, 404, 500, 503):
        answer = trial.visitor().get(f"/open?status={status}&WWW-Authenticate=Own")
        see(f"the answer {status}", (answer.status, answer.text[:1].isdigit()), (status, True))
        see("its challenge", answer.field("www-authenticate"), "Own")


def try_pages(trial: Trial) -> None:
    """The pages have no path of their own, and are whole and new in place of any document."""
    for path in ("/.guard/login.html", "/.guard/401", "/.guard/403", "/.guard/"):
        see(path, trial.visitor().get(path).status, 404)
    trial.see_none("requests for pages")
    page = trial.visitor().get("/members/")
    see_page("a part", trial.visitor().get("/members/", Range="bytes=0-2"), 200, LOGIN)
    see("its ETag", page.field("etag"), "")
    for condition in (
        {"If_Modified_Since": page.field("last-modified")},
        {"If_None_Match": '"one", W/"*"'},
    ):
        answer = trial.visitor().get("/members/", **condition)
        see_page(f"a page with the condition {condition}", answer, 200, LOGIN)
    see_conditions(trial)


def see_conditions(trial: Trial) -> None:
    """Sees that a condition about the document that a page would replace has no effect but that there is no page (RFC 9110, section 13.2.1)."""
    ann = trial.caller("ann")
    for name, value in CONDITIONS:
        fields = {**HTML, name: value}
        answer = trial.visitor().ask("GET", "/members/", fields)
        see(f"{name}, a stranger", (answer.status, answer.text), (401, '{"status": 401}\n'))
        answer = trial.visitor("127.0.0.9").ask("POST", "/j_security_check", fields, b"")
        see(f"{name}, a failed login", (answer.status, answer.text), (401, '{"status": 401}\n'))
        see_page(f"{name}, a denied caller", ann.ask("GET", "/admin/", fields), 403, DENIED)
    trial.see_none("requests with conditions")


def try_web_socket(trial: Trial) -> None:
    """No connection is upgraded (RFC 9110, section 7.8): the application sees a plain GET, without the key of a WebSocket (RFC 6455, section 4.2.1)."""
    key = "Sec-WebSocket-Key: dGhlIHNhbXBsZSBub25jZQ=="
    version = "Sec-WebSocket-Version: 13"
    head = ["GET /open HTTP/1.1", "Host: x", "Connection: Upgrade", "Upgrade: websocket"]
    text = "\r\n".join([*head, key, version, "", ""]).encode()
    see("the status", raw(trial.port, text, 1).split(b" ", 2)[1], b"200")
    it = trial.arrived()
    fields = [it.fields.get(name) for name in ("upgrade", "connection", "sec-websocket-key")]
    see("what arrives", (it.method, fields), ("GET", [None, None, None]))


def see_after_switch(trial: Trial, wanted: list[tuple[str, bool]]) -> None:
    """Sees what arrives of two requests on a connection, if the application answers the first one by 101: the paths, and whether each request has the secret."""
    end = "HTTP/1.1\r\nHost: x\r\n"
    for field in ("Connection: Upgrade\r\nUpgrade: websocket", "Upgrade: 0", "Upgrade:"):
        trial.visitor()
        text = f"GET /open?status=101 {end}{field}\r\n\r\nGET /admin/ {end}\r\n"
        raw(trial.port, text.encode(), 2)
        came = [
            (it.target.partition("?")[0], it.fields.get("x-application-secret") == SECRET)
            for it in trial.application.taken()
        ]
        see(f"what arrives, with {field!r}", came, wanted)


def try_switch(trial: Trial) -> None:
    """If the application answers 101, a client with a field Upgrade reaches it past the container, but without the secret."""
    see_after_switch(trial, [("/open", True), ("/admin/", False)])


def try_no_switch(trial: Trial) -> None:
    """With two lines that README.md adds, no field Upgrade of a client opens a connection to an application that answers 101."""
    see_after_switch(trial, [("/open", True)])


@contextlib.contextmanager
def uploads(trial: Trial, counts: dict[str, int], wanted: int) -> Iterator[list[int]]:
    """So many uploads of each address that do not end: the statuses of those that are refused, once there are as many as expected."""
    head = b"POST /open HTTP/1.1\r\nHost: x\r\nContent-Length: 100\r\n\r\nx"
    with contextlib.ExitStack() as stack:
        peers = []
        for address in (address for address, count in counts.items() for _ in range(count)):
            it = socket.create_connection(("127.0.0.1", trial.port), SECONDS, (address, 0))
            peers.append(stack.enter_context(it))
            it.sendall(head)
            it.setblocking(False)
        refused: list[int] = []
        end = time.monotonic() + SECONDS_TO_REFUSE
        while len(refused) < wanted and time.monotonic() < end:
            time.sleep(0.1)
            refused = [int(came.split(b" ", 2)[1]) for came in map(peeked, peers) if came]
        yield refused


def peeked(peer: socket.socket) -> bytes:
    """What a server has sent so far."""
    try:
        return peer.recv(4096, socket.MSG_PEEK)
    except BlockingIOError:
        return b""


def try_bodies(trial: Trial) -> None:
    """Uploads of 3 MB pass. The size of a body is bounded, and so is the number of bodies under way."""
    visitor = trial.caller("ann")
    content = bytes(range(250)) * 12_000
    wanted = (len(content), hashlib.sha256(content).hexdigest())
    for method, body in (("POST", content), ("PUT", content), ("POST", iter([content]))):
        see(method, visitor.ask(method, "/members/", HTML, body).status, 200)
        it = trial.arrived()
        see("what arrives", (it.method, it.length, it.digest), (method, *wanted))
    length = f"Content-Length: {8 * 1024 * 1024 + 1}"
    see("a body beyond 8 MiB", raw_status(trial.port, "POST /open HTTP/1.1", length), 413)
    trial.see_none("a body that is too large")


def try_bodies_of_address(trial: Trial) -> None:
    """An address may have 32 bodies under way, and can still ask without one."""
    visitor = trial.visitor("127.0.0.80")
    with uploads(trial, {visitor.address: 33}, 1) as refused:
        see("refused uploads of one address", refused, [429])
        see("a request without a body", visitor.get("/open").status, 200)
        see("an empty body", visitor.ask("POST", "/open", HTML, b"").status, 200)


def try_bodies_of_all(trial: Trial) -> None:
    """All addresses may have 256 bodies under way."""
    counts = {f"127.0.0.{90 + place}": 30 for place in range(9)}
    with uploads(trial, counts, 14) as refused:
        see("refused uploads", refused, [429] * 14)
        see("a request without a body", trial.visitor().get("/open").status, 200)


def try_guesses(trial: Trial) -> None:
    """An address may send 20 logins at once, and another one can still log in."""
    guesser = trial.visitor("127.0.0.70")
    statuses = [guesser.log_in("ann", "/members/", "wrong").status for _ in range(20)]
    see("the answers to logins", statuses, [200] * 20)
    # On a slow machine the next one is allowed meanwhile.
    others = {guesser.log_in("ann", "/members/", "wrong").status for _ in range(20)}
    see("whether others are refused", others | {200}, {200, 429})
    see("a login from elsewhere", trial.visitor("127.0.0.71").log_in("ann").status, 303)


def try_uncounted_logins(trial: Trial) -> None:
    """Where nginx reads another path than that of a login, and so does not count it, the right password is no login."""
    content = b"j_username=ann&j_password=violet"
    form = {**HTML, "Content-Type": "application/x-www-form-urlencoded"}
    for target in ("/j_security_check;x=%2f..%2fy", "/members/j_security_check;a%2fb"):
        visitor = trial.visitor("127.0.0.72")
        visitor.get("/members/")
        statuses = {visitor.ask("POST", target, form, content).status for _ in range(25)}
        see(f"the answers to {target}", statuses, {200})
        see_page("the page after it", visitor.get("/members/"), 200, LOGIN)
    trial.see_none("requests of a stranger")


def try_long_targets(trial: Trial) -> None:
    """The longest target that nginx takes arrives, and so do long cookies."""
    for piece in ("x", "%C3%A9", "%3B", "^"):
        target = "/open/" + piece * (8_000 // len(piece))
        answer = trial.visitor().get(target, Cookie=f"a={'b' * 7_900}")
        see(f"the answer to a target of {piece}", answer.status, 200)
        it = trial.arrived()
        see("what arrives", urllib.parse.unquote(it.target), urllib.parse.unquote(target))
        see("its cookies", len(it.fields["cookie"]), 7_902)
    many = trial.caller("max")
    see("the answer to a caller with 128,000 bytes of roles", many.get("/members/").status, 502)
    trial.see_none("a caller whose roles do not fit")
    see("the answer to one of 9,000", trial.visitor().get("/" + "x" * 9_000).status, 414)
