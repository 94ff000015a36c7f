"""What the scripts `try` of these examples share: proxies in front of servers, a browser that asks them, a flood, and the comparison of what comes."""
import collections
import contextlib
import glob
import http.client
import os
import re
import shutil
import signal
import socket
import ssl
import subprocess
import sys
import tempfile

EXAMPLES = os.path.dirname(os.path.realpath(__file__))
sys.path.insert(0, f"{os.path.dirname(EXAMPLES)}/bench")

from servers import TOP, end_in_order, has, wait_until  # noqa: E402

RELEASED = f"{TOP}/release/sv"
SECONDS = 20
# A page of the Demo that its constraint protects, and the login of its only user.
PAGE = "/admin/x.txt"
LOGIN = "/j_security_check"
FORM = "j_username=ann&j_password=bc"
LOGIN_PAGE, SECRET = "login\n", "secret\n"
UNAVAILABLE, TOO_MANY = 503, 429
# How many sessions a context holds with a descriptor of version 1: MAX_SESSIONS_OF_VERSION_1 of sv_descriptor.
MOST_SESSIONS = 1_000
# How many sessions HAProxy's configurations give an address within a minute. nginx's lets it send as many requests at once.
MOST_OF_AN_ADDRESS = 100


def see(what, came, wanted):
    """Ends the script if a result differs from the expected one."""
    if came != wanted:
        sys.exit(f"{what}: {came!r} and not {wanted!r}")


def unit_words(unit, key):
    """Returns the words after a key of a unit of systemd."""
    with open(unit) as file:
        return [
            word
            for line in file
            if line.startswith(f"{key}=")
            for word in line.strip().partition("=")[2].split()
        ]


def free_ports(count):
    """So many ports that are free."""
    with contextlib.ExitStack() as stack:
        return [
            stack.enter_context(socket.create_server(("127.0.0.1", 0))).getsockname()[1]
            for _ in range(count)
        ]


def accepts(port):
    """Whether somebody listens at a port."""
    with socket.socket() as peer:
        return peer.connect_ex(("127.0.0.1", port)) == 0


@contextlib.contextmanager
def room(*programs):
    """A temporary folder with a certificate for localhost that is its own authority. If a program is not installed, the script says so and ends.

    The key is in its folder `keys`, which only the caller may read; `proxy` is the folder in which a proxy writes. Others may pass through
    the temporary folder, since a proxy that is started by root has workers of another user."""
    for program in programs:
        if not has(program):
            sys.exit(f"{program} is not installed: nothing was tried")
    end_in_order()
    with tempfile.TemporaryDirectory(prefix="sv-example-") as folder:
        for path, mode in (folder, 0o711), (f"{folder}/keys", 0o700), (f"{folder}/proxy", 0o755):
            os.makedirs(path, exist_ok=True)
            os.chmod(path, mode)
        words = "openssl req -x509 -newkey rsa:2048 -nodes -days 1 -subj /CN=localhost -addext subjectAltName=DNS:localhost -keyout keys/key.pem -out certificate.pem"
        subprocess.run(
            words.split(),
            cwd=folder,
            stdin=subprocess.DEVNULL,
            stderr=subprocess.DEVNULL,
            # A machine under load takes long to make a key.
            timeout=10 * SECONDS,
            check=True,
        )
        shutil.copy(f"{folder}/certificate.pem", f"{folder}/keys")
        with open(f"{folder}/keys/both.pem", "w") as both:
            for name in ("certificate.pem", "key.pem"):
                with open(f"{folder}/keys/{name}") as part:
                    both.write(part.read())
        yield folder


def configured(source, folder, **places):
    """A configuration file of these examples, with the words in capitals replaced, and the scripts of its folder in FOLDER."""
    places.update(FOLDER=f"{folder}/proxy", KEYS=f"{folder}/keys")
    with open(source) as file:
        text = re.sub(rf"\b({'|'.join(places)})\b", lambda it: str(places[it[1]]), file.read())
    path = f"{folder}/configuration"
    with open(path, "w") as file:
        file.write(text)
    for script in glob.glob(f"{os.path.dirname(source)}/*.lua"):
        shutil.copy(script, f"{folder}/proxy")
    return path


def command_of(name, folder):
    """The command that starts nginx or HAProxy by the configuration of a folder."""
    words = {
        "nginx": ["nginx", "-p", f"{folder}/proxy", "-e", f"{folder}/proxy/nginx.log", "-c"],
        "haproxy": ["haproxy", "-f"],
    }
    return [*words[name], f"{folder}/configuration"]


@contextlib.contextmanager
def started(name, folder, port):
    """nginx or HAProxy by the configuration of a folder, at a port. It ends when its caller is done."""
    with open(f"{folder}/told", "w+") as told, subprocess.Popen(
        command_of(name, folder), stdin=subprocess.DEVNULL, stderr=told, start_new_session=True
    ) as server:
        try:
            wait_until(f"{name} listens", lambda: server.poll() is not None or accepts(port))
            if server.poll() is not None:
                told.seek(0)
                sys.exit(f"{name} ends: {told.read()}")
            yield server
        finally:
            # nginx has a process of its own for its work. A server that did not start has none.
            with contextlib.suppress(ProcessLookupError):
                os.killpg(server.pid, signal.SIGKILL)


@contextlib.contextmanager
def proxy(name, source, folder, **places):
    """nginx or HAProxy with a configuration of these examples, whose words in capitals are replaced. It ends when its caller is done."""
    configured(source, folder, **places)
    with started(name, folder, places["TLS_PORT"]) as server:
        yield server


class Browser:
    """A client with cookies of its own, which asks by curl from an address of this machine."""

    count = 0

    def __init__(self, base, folder, address="127.0.0.1"):
        Browser.count += 1
        self.base, self.jar = base, f"{folder}/jar{Browser.count}"
        self.words = [
            "curl",
            "-s",
            "--max-time",
            str(SECONDS),
            "--cacert",
            f"{folder}/certificate.pem",
            "--interface",
            address,
            "-b",
            self.jar,
            "-c",
            self.jar,
        ]

    def ask(self, path, *more):
        """The status of the answer, and its body."""
        words = [*self.words, "-w", "%{http_code}", *more, f"{self.base}{path}"]
        text = subprocess.run(
            words,
            stdin=subprocess.DEVNULL,
            stdout=subprocess.PIPE,
            text=True,
            timeout=3 * SECONDS,
            check=False,
        ).stdout
        return int(text[-3:]), text[:-3]

    def log_in(self):
        """What becomes of a request for the page behind the constraint, and of the login that follows."""
        return self.ask(PAGE), self.ask(LOGIN, "-L", "-d", FORM)

    def cookies(self):
        """The lines of its jar: host, whether those below it, path, whether TLS alone, end, name, value."""
        with open(self.jar) as jar:
            return [line.removeprefix("#HttpOnly_").split() for line in jar if "JSESSIONID" in line]


def see_login(what, browser):
    """Sees that a caller who was not there before logs in."""
    see(f"{what}, the page behind the constraint", browser.ask(PAGE), (200, LOGIN_PAGE))
    see(f"{what}, the login", browser.ask(LOGIN, "-L", "-d", FORM), (200, SECRET))
    see(f"{what}, the caller", browser.ask("/who"), (200, "caller ann\n"))


def flood(port, count, folder=None, address="127.0.0.1", path=PAGE, **fields):
    """Asks so many times over one connection, and takes no cookie: how often each status came, and how many answers gave a session. With a folder, over TLS."""
    source = (address, 0)
    if folder:
        trusted = ssl.create_default_context(cafile=f"{folder}/certificate.pem")
        peer = http.client.HTTPSConnection(
            "localhost", port, timeout=SECONDS, source_address=source, context=trusted
        )
    else:
        peer = http.client.HTTPConnection("127.0.0.1", port, timeout=SECONDS, source_address=source)
    statuses, given = collections.Counter(), 0
    with contextlib.closing(peer):
        for _ in range(count):
            peer.request("GET", path, headers=fields)
            answer = peer.getresponse()
            answer.read()
            statuses[answer.status] += 1
            given += "set-cookie" in answer.headers
    return dict(statuses), given
