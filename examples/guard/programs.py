"""What is tried of real applications that are guarded: the two next to this module, one that is down, and a Tomcat."""
from __future__ import annotations

import contextlib
import http.client
import os
import shutil
import stat
import subprocess
import sys
from pathlib import Path
from typing import Iterator

from others import try_others
from parts import CONFIGURATION, HERE, SECRET, SITE, container, guard, program_at, see
from readme import try_readme
from recorder import recorder
from servers import TOP, wait_until
from sites import free_ports
from tomcat_trial import try_tomcat
from trials import see_page
from visitor import HTML, Visitor


# What the two examples answer: the request, and the fields X-Application-* that they see. The secret is none of them.
STRANGER = "{} caller= roles= bytes=0 fields=\n"
ANN = "{} caller=ann roles=member bytes={} fields=caller+roles\n"


def see_application(name: str, port: int) -> None:
    """Sees what an application of the two examples receives."""
    stranger, ann = Visitor(port), Visitor(port, "127.0.0.2")
    see(f"{name}, a stranger", stranger.get("/open").text, STRANGER.format("GET /open"))
    see_page(f"{name}, the page for the login", ann.get("/members/"), 200, "<h1>Log in</h1>")
    see(f"{name}, the login", ann.log_in("ann").status, 303)
    see(f"{name}, a caller", ann.get("/members;a=b/").text, ANN.format("GET /members/", 0))
    see(f"{name}, another role's page", ann.get("/admin/").status, 403)
    see(f"{name}, HEAD", ann.ask("HEAD", "/members/").status, 200)
    content = bytes(3_000_000)
    for method in ("POST", "PUT"):
        text = ANN.format(f"{method} /members/é", len(content))
        came = ann.ask(method, "/members/%C3%A9", HTML, content).text
        see(f"{name}, {method}", came.encode("latin-1").decode(), text)
    print(f"{name}: it receives callers, roles, the decided path, and uploads of 3 MB")


def python(port: int, folder: str) -> list[str]:
    """The command that starts the application in Python, which reads its secret in a file: others can see a command line."""
    path = Path(folder, "secret")
    path.touch(0o600)
    path.write_text(f"{SECRET}\n")
    return [sys.executable, str(HERE / "application.py"), str(port), str(path)]


def try_python(container_port: int, folder: str) -> None:
    (port,) = free_ports(1)
    address = f"127.0.0.1:{port}"
    words = python(port, folder)
    with program_at(words, address), guarded(container_port, folder, address) as guard_port:
        see("Python, its command line", SECRET in " ".join(words), False)
        see_application("Python", guard_port)
        peer = http.client.HTTPConnection("127.0.0.1", port, timeout=20)
        with contextlib.closing(peer):
            peer.request("GET", "/members/", headers={"X-Application-Caller": "eve"})
            answer = peer.getresponse()
            see(
                "Python, without the secret",
                (answer.status, answer.read()),
                (403, b"not by nginx\n"),
            )


def try_node(container_port: int, folder: str) -> None:
    if shutil.which("node") is None:
        print("Node: it is not installed, so it was not tried")
        return
    path = f"{folder}/proxy/application.sock"
    words = ["node", str(HERE / "application.js"), path]
    with program_at(words, f"unix:{path}"):
        if os.geteuid() == 0:
            shutil.chown(path, group="www-data")
        wait_until("the mode of the socket", lambda: stat.S_IMODE(os.stat(path).st_mode) == 0o660)
        with guarded(container_port, folder, f"unix:{path}") as port:
            see_application("Node", port)


def try_down(container_port: int, folder: str) -> None:
    """An application that is down gives 502, and its sessions go on."""
    (port,) = free_ports(1)
    address = f"127.0.0.1:{port}"
    with guarded(container_port, folder, address) as guard_port:
        ann = Visitor(guard_port)
        see("down, the login", ann.log_in("ann").status, 303)
        see("down, the page", ann.get("/members/").status, 502)
        see("down, another role's page", ann.get("/admin/").status, 403)
        with program_at(python(port, folder), address):
            see("up, the page", ann.get("/members/").text, ANN.format("GET /members/", 0))
    print(
        "down: without the application its pages are 502; when it is back, its callers still are logged in"
    )


def try_container_down(folder: str) -> None:
    """While the container is down, nothing arrives at the application."""
    (port,) = free_ports(1)
    with recorder() as application:
        with guarded(port, folder, f"127.0.0.1:{application.port}") as guard_port:
            stranger = Visitor(guard_port)
            for method, target in (("GET", "/open"), ("GET", "/members/"), ("POST", "/open")):
                see(f"{method} {target}", stranger.ask(method, target, HTML, b"x").status, 502)
            see("a login", stranger.log_in("ann").status, 502)
        see("what arrives", application.taken(), [])
    print("container down: each answer is 502, and nothing arrives at the application")


def try_edit(program: str, folder: str) -> None:
    """An edit of the policy decides the next request."""
    control = f"{folder}/control"
    (port,) = free_ports(1)
    address = f"127.0.0.1:{port}"
    words = python(port, folder)
    with container(program, str(SITE), "--control", control) as it, program_at(words, address):
        with guarded(it, folder, address) as guard_port:
            stranger = Visitor(guard_port)
            see("edit, before", stranger.get("/open/page").status, 200)
            number = controlled(program, control, "append", "/", "/open/*", "*", "nobody")
            see("edit, closed", stranger.get("/open/page").status, 403)
            controlled(program, control, "withdraw", "/", number.split()[-1])
            see("edit, opened again", stranger.get("/open/page").status, 200)
    print("edit: a constraint that is appended while all run closes a path, and its end opens it")


def try_imported(folder: str) -> None:
    """nginx accepts what the importer writes for an error page of each number of 3 digits, and for contexts with odd names."""
    codes = [
        f"<error-code>{it:03}</error-code><location>/{it}.html</location>" for it in range(1000)
    ]
    pages = "".join(f"<error-page>{it}</error-page>" for it in codes)
    file = Path(folder, "web.xml")
    file.write_text(f'<web-app metadata-complete="true">{pages}</web-app>')
    for number, context in enumerate(["/", "/a b", '/a"b', "/$a{b}", "/é'é", "/a/b.c"]):
        place = f"{folder}/imported-{number}"
        words = [f"{TOP}/tools/import-web-xml", str(file), "-o", place, "--context", context]
        guarding = ["--guard", "http://127.0.0.1:8080"]
        subprocess.run([*words, *guarding], stderr=subprocess.DEVNULL, check=True)
        tried = ["nginx", "-t", "-q", "-p", place, "-c", "nginx.conf", "-e", "nginx.log"]
        told = subprocess.run(tried, capture_output=True, text=True).stderr
        see(f"nginx, the context {context}", told, "")
    print("imported: nginx accepts the error pages and the context of any descriptor")


def controlled(program: str, control: str, *words: str) -> str:
    """The reply of the container to a line at its control socket."""
    command = [program, "ctl", control, *words]
    return subprocess.run(command, capture_output=True, text=True, check=True).stdout


@contextlib.contextmanager
def guarded(container_port: int, folder: str, address: str) -> Iterator[int]:
    """nginx by the configuration of this folder in front of an application."""
    with guard(CONFIGURATION.read_text(), folder, container_port, address) as port:
        yield port


def try_all(program: str, folder: str) -> None:
    with container(program, str(SITE)) as port:
        try_python(port, folder)
        try_node(port, folder)
        try_down(port, folder)
    try_container_down(folder)
    try_edit(program, folder)
    try_readme(program, folder)
    try_imported(folder)
    try_others(folder)
    try_tomcat(program, folder)
