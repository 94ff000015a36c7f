"""What is tried of a guarded site: targets that a server may misread, and messages that two servers may divide differently."""
from __future__ import annotations

import urllib.parse
from typing import Union

from parts import see
from trials import LOGIN, Trial
from visitor import raw

# Targets, and the path that arrives (Jakarta Servlet 6.0, section 3.5.2), the status of a refusal, or the page for the login. The caller is a stranger.
TARGETS: list[tuple[str, Union[str, int]]] = [
    ("/a/./b/../c", "/a/c"),
    ("/a;x=1/b;y/c;", "/a/b/c"),
    ("/a%41b", "/aAb"),
    ("/a%3Bb", "/a%3Bb"),
    ("/a%3bb/c", "/a%3Bb/c"),
    ("/a%25b", "/a%25b"),
    ("/a%252fb", "/a%252fb"),
    ("/a%253Bb", "/a%253Bb"),
    ("/a%3Fb?c", "/a%3Fb?c"),
    ("/a%23b?c", "/a%23b?c"),
    ("/a%20b", "/a%20b"),
    ("/a%C3%A9", "/a%C3%A9"),
    ("/a?b=/../admin/", "/a?b=/../admin/"),
    ("/a?b;c=%2e%2e%2f", "/a?b;c=%2e%2e%2f"),
    ("http://localhost/a/b?c", "/a/b?c"),
    ("/ADMIN/", "/ADMIN/"),
    ("/admin.json", "/admin.json"),
    ("/admin/", LOGIN),
    ("/admin", LOGIN),
    ("/%61dmin/", LOGIN),
    ("/admin;x=1/", LOGIN),
    ("/admin;/page", LOGIN),
    ("/x/../admin/", LOGIN),
    ("/x;a/../admin/", LOGIN),
    ("/./admin/./page", LOGIN),
    ("//admin/", LOGIN),
    ("/x//..//admin/", LOGIN),
    ("/admin//page", LOGIN),
    ("http://localhost/admin/", LOGIN),
    ("/two/../admin/", LOGIN),
    ("/two/x/../../admin/", LOGIN),
    ("/x/%2e%2e/admin/", 400),
    ("/x/.%2e/admin/", 400),
    ("/x/..;a/admin/", 400),
    ("/x/%2e%2e;a/admin/", 400),
    ("/x%2f..%2fadmin/", 400),
    ("/admin%2fpage", 400),
    ("/x%5c..%5cadmin/", 400),
    ("/admin%00", 400),
    ("/%c0%ae%c0%ae/admin/", 400),
    ("/a%zz", 400),
    ("/a%ff", 400),
    ("/a#b", 400),
    ("/../admin/", 400),
    ("*", 400),
]

ADMIN = "GET /admin/ HTTP/1.1\r\nHost: x\r\n\r\n"
OPEN = "GET /open/smuggled HTTP/1.1\r\nHost: x\r\n\r\n"
HEAD = "POST /open HTTP/1.1\r\nHost: x\r\n"
CHUNKED = f"{HEAD}Transfer-Encoding: chunked\r\n"
# Messages, each with the statuses of its answers and the paths of the requests that arrive (RFC 9112, sections 2.2, 3, 5, 6 and 7).
MESSAGES: list[tuple[str, str, list[int], list[str]]] = [
    ("two requests", f"{HEAD}Content-Length: 0\r\n\r\n{ADMIN}", [200, 401], ["/open"]),
    ("a request in a body", f"{HEAD}Content-Length: {len(ADMIN)}\r\n\r\n{ADMIN}", [200], ["/open"]),
    (
        "an open request in a body",
        f"{HEAD}Content-Length: {len(OPEN)}\r\n\r\n{OPEN}",
        [200],
        ["/open"],
    ),
    (
        "a request in a chunk",
        f"{CHUNKED}\r\n{len(ADMIN):x}\r\n{ADMIN}\r\n0\r\n\r\n",
        [200],
        ["/open"],
    ),
    ("a request after the last chunk", f"{CHUNKED}\r\n0\r\n\r\n{ADMIN}", [200, 401], ["/open"]),
    ("a trailer section", f"{CHUNKED}\r\n0\r\nX-Application-Caller: eve\r\n\r\n", [200], ["/open"]),
    ("both lengths", f"{CHUNKED}Content-Length: 5\r\n\r\n0\r\n\r\n{ADMIN}", [400], []),
    (
        "both lengths, the other order",
        f"{HEAD}Content-Length: 5\r\nTransfer-Encoding: chunked\r\n\r\n0\r\n\r\n{ADMIN}",
        [400],
        [],
    ),
    (
        "two lengths",
        f"{HEAD}Content-Length: 0\r\nContent-Length: {len(ADMIN)}\r\n\r\n{ADMIN}",
        [400],
        [],
    ),
    ("a list of lengths", f"{HEAD}Content-Length: 0, 0\r\n\r\n{ADMIN}", [400], []),
    ("a length with a sign", f"{HEAD}Content-Length: +0\r\n\r\n{ADMIN}", [400], []),
    ("a length in hexadecimal digits", f"{HEAD}Content-Length: 0x2\r\n\r\n{ADMIN}", [400], []),
    (
        "a blank after a name",
        f"{HEAD}Transfer-Encoding : chunked\r\n\r\n0\r\n\r\n{ADMIN}",
        [400],
        [],
    ),
    ("an unknown coding", f"{HEAD}Transfer-Encoding: xchunked\r\n\r\n0\r\n\r\n{ADMIN}", [501], []),
    ("two codings", f"{HEAD}Transfer-Encoding: gzip, chunked\r\n\r\n0\r\n\r\n{ADMIN}", [501], []),
    (
        "a tab before the coding",
        f"{HEAD}Transfer-Encoding:\x0bchunked\r\n\r\n0\r\n\r\n{ADMIN}",
        [501],
        [],
    ),
    (
        "two fields of codings",
        f"{CHUNKED}Transfer-Encoding: identity\r\n\r\n0\r\n\r\n{ADMIN}",
        [400],
        [],
    ),
    ("a size that is no number", f"{CHUNKED}\r\n0x0\r\n\r\n{ADMIN}", [400], []),
    ("a size that is too large", f"{CHUNKED}\r\nffffffffffffffff\r\n\r\n{ADMIN}", [400], []),
    ("a chunk that is too long", f"{CHUNKED}\r\n1\r\nab\r\n0\r\n\r\n{ADMIN}", [400], []),
    (
        "chunks in HTTP/1.0",
        f"{CHUNKED}\r\n0\r\n\r\n{ADMIN}".replace("/1.1\r\nHost: x\r\nT", "/1.0\r\nHost: x\r\nT"),
        [400],
        [],
    ),
    ("two hosts", f"GET /open HTTP/1.1\r\nHost: x\r\nHost: y\r\n\r\n{ADMIN}", [400], []),
    ("no host", f"GET /open HTTP/1.1\r\n\r\n{ADMIN}", [400], []),
    ("a NUL in a value", f"GET /open HTTP/1.1\r\nHost: x\r\nX-A: \0\r\n\r\n{ADMIN}", [400], []),
    (
        "a CR in a value",
        f"GET /open HTTP/1.1\r\nHost: x\r\nX-A: b\rX-Application-Caller: eve\r\n\r\n{ADMIN}",
        [400],
        [],
    ),
    ("a blank in a target", f"GET /open /admin/ HTTP/1.1\r\nHost: x\r\n\r\n{ADMIN}", [400], []),
    ("a wrong version", f"GET /open HTTP/1.1 HTTP/9.1\r\nHost: x\r\n\r\n{ADMIN}", [400], []),
    ("HTTP/2 over TCP", f"PRI * HTTP/2.0\r\n\r\nSM\r\n\r\n{ADMIN}", [400], []),
    (
        "an upgrade to HTTP/2",
        "GET /open HTTP/1.1\r\nHost: x\r\nConnection: Upgrade, HTTP2-Settings\r\nUpgrade: h2c\r\nHTTP2-Settings: AAMAAABkAARAAAAAAAIAAAAA\r\n\r\n",
        [200],
        ["/open"],
    ),
    (
        "fields named by Connection",
        "GET /open HTTP/1.1\r\nHost: x\r\nConnection: close, X-Application-Secret, Cookie\r\n\r\n",
        [200],
        ["/open"],
    ),
]


def path_of(target: str) -> str:
    """The decoded path of a target that arrives."""
    return urllib.parse.unquote(target.partition("?")[0])


def see_decided(trial: Trial, what: str, before: int) -> list[str]:
    """Sees that what arrived at the application since is just what the container decided to hand over, and is by nobody."""
    taken = trial.application.taken()
    paths = [path_of(it.target) for it in taken]
    see(f"{what}: the paths that arrive", paths, trial.decided()[before:])
    see(
        f"{what}: its callers",
        [it.fields["x-application-caller"] for it in taken if "x-application-caller" in it.fields],
        [],
    )
    see(
        f"{what}: who sends it",
        [it.fields.get("x-application-secret") is None for it in taken],
        [False] * len(taken),
    )
    return [it.target for it in taken]


def try_targets(trial: Trial) -> None:
    """The path that arrives is the one that was decided, and none that the application could read differently."""
    for target, wanted in TARGETS:
        trial.visitor()
        before = len(trial.decided())
        lines = [
            f"GET {target} HTTP/1.1",
            "Host: localhost",
            "Connection: close",
            "Accept: text/html",
            "",
            "",
        ]
        came = raw(trial.port, "\r\n".join(lines).encode()).decode("latin-1")
        status = int(came.split(" ", 2)[1])
        targets = see_decided(trial, target, before)
        if isinstance(wanted, int):
            see(target, (status, targets), (wanted, []))
        elif wanted == LOGIN:
            see(target, (status, LOGIN in came, targets), (200, True, []))
        else:
            see(target, (status, targets), (200, [wanted]))


def try_smuggling(trial: Trial) -> None:
    """No message carries a request that the container has not decided about."""
    for what, text, statuses, paths in MESSAGES:
        trial.visitor()
        before = len(trial.decided())
        came = raw(trial.port, text.encode("latin-1"), len(statuses))
        parts = came.split(b"HTTP/1.1 ")[1:]
        see(f"{what}: the paths", [path_of(it) for it in see_decided(trial, what, before)], paths)
        see(f"{what}: the statuses", [int(it.split(b" ", 1)[0]) for it in parts], statuses)
