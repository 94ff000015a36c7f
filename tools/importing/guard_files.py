"""The files of a guarded application besides its descriptor: the configuration of nginx, and the pages that nginx shows."""
from __future__ import annotations

import argparse
import ipaddress
import os
import re
from pathlib import Path
from typing import NamedTuple
from urllib.parse import quote

from .elements import shortened
from .files import NewFile, read_regular
from .guarding import LOG_OUT, Page
from .told import Rank, Told

EXAMPLE = Path(__file__).resolve().parents[2] / "examples/guard"
# The folder of the pages, in that of the site.
PAGES = "pages"
# The ports of nginx and of the container.
GUARD_PORT, PORT = 8000, 8001
# The pages of the example, for those that the application has none of, or no static one.
PLAIN = ("login.html", "failed.html", "denied.html")

_ADDRESS = re.compile(
    r"http://(?:(unix:/[\w./-]*[\w.-])|([^/:@\s]+|\[[0-9A-Fa-f:.]+\]):([0-9]+))/?"
)
# A label of the name of a host (RFC 1123, section 2.1). The last one has a letter, unlike that of an address.
_LABEL = "[A-Za-z0-9](?:[A-Za-z0-9-]*[A-Za-z0-9])?"
_HOST = re.compile(rf"(?:{_LABEL}\.)*(?![0-9]+\.?$){_LABEL}\.?")
MAX_HOST_BYTES = 253
# The path of a Unix socket and a NUL byte (unix(7)).
MAX_SOCKET_BYTES = 108
PORTS = range(1, 65536)
_MADE_BY_CODE = (".jsp", ".jspx", ".jspf")


def application_address(text: str) -> str:
    """The address of an application in a configuration of nginx."""
    found = _ADDRESS.fullmatch(text)
    if found is None:
        raise argparse.ArgumentTypeError(
            f"{text!r} is neither http://HOST:PORT nor http://unix:/PATH"
        )
    socket, host, port = found.groups()
    if socket is not None:
        if len(socket.removeprefix("unix:").encode()) >= MAX_SOCKET_BYTES:
            raise argparse.ArgumentTypeError(
                f"the path in {text!r} has {MAX_SOCKET_BYTES} bytes or more"
            )
        return str(socket)
    if not _is_host(host):
        raise argparse.ArgumentTypeError(f"{host!r} in {text!r} is no name or address of a host")
    if len(port) > len(str(PORTS[-1])) or int(port) not in PORTS:
        raise argparse.ArgumentTypeError(f"{port} in {text!r} is no port from 1 to {PORTS[-1]}")
    return f"{host}:{int(port)}"


def _is_host(text: str) -> bool:
    """Whether a text is the name of a host, an IPv4 address, or an IPv6 address in brackets."""
    if _HOST.fullmatch(text):
        return len(text) <= MAX_HOST_BYTES
    kind = ipaddress.IPv6Address if text.startswith("[") else ipaddress.IPv4Address
    try:
        kind(text.strip("[]"))
    except ValueError:
        return False
    return True


class Guard(NamedTuple):
    """What differs between the configurations of two guarded applications."""

    address: str
    port: int
    secret: str
    context: str
    shown: list[Page]

    def configuration(self) -> str:
        """The configuration of nginx: that of the example, with paths that begin at the site's folder."""
        text = read_regular(EXAMPLE / "nginx.conf").decode()
        # The comments on top are about the words in capitals.
        text = (
            text[text.index("daemon off;") :].replace("FOLDER/", "").replace("PAGES/", f"{PAGES}/")
        )
        words = {
            "PORT": str(self.port),
            "GUARD_PORT": str(GUARD_PORT),
            "APPLICATION": self.address,
            "SECRET": self.secret,
        }
        text = re.sub(rf"\b({'|'.join(words)})\b", lambda it: words[it[1]], text)
        text = text.replace(_DENIED, _DENIED + self._error_pages())
        return self._head() + text.replace(_ALL, self._redirect() + _ALL)

    def _head(self) -> str:
        """The first lines, which say how a session ends if one can begin."""
        has_login = any(it.name == "login.html" for it in self.shown)
        return _HEAD + (_LOG_OUT.format(log_out=self.context + LOG_OUT) if has_login else "")

    def _redirect(self) -> str:
        """The location that adds a slash to the path of the context, as Tomcat and Jetty do: the container reads both paths alike."""
        if not self.context:
            return ""
        quoted = self.context.replace('"', r"\"")
        return _REDIRECT.format(context=quoted, escaped=quote(self.context, safe="/-._~"))

    def _error_pages(self) -> str:
        """The lines for the pages of other errors."""
        codes = [it.name.removesuffix(".html") for it in self.shown if it.name not in PLAIN]
        return "".join(f"            error_page {code} /.guard/{code}.html;\n" for code in codes)


_DENIED = "            error_page 403 $denied;\n"
_ALL = "        # Asks the container about every request, without its body."
_REDIRECT = """        # Links of the page are relative to a path with a slash at its end.
        location = "{context}" {{
            absolute_redirect off;
            return 302 {escaped}/$is_args$args;
        }}

"""
_HEAD = """# By tools/import-web-xml, of examples/guard/nginx.conf, whose README.md explains each part. Only root may read this file, since it has the secret.
# In this folder: `sv run server.toml`, and as root: nginx -p "$PWD" -c nginx.conf -e nginx.log
"""
_LOG_OUT = "# A POST to {log_out} ends the session of its caller.\n"


def page_files(web_xml: Path, shown: list[Page], may_replace: bool, told: Told) -> list[NewFile]:
    """The pages that nginx shows: copies of static ones, and plain ones in place of others, which are reported."""
    texts = {name: read_regular(EXAMPLE / "site/pages" / name).decode() for name in PLAIN}
    root = web_xml.absolute().parent
    for page in shown:
        text, why = _static(root.parent if root.name == "WEB-INF" else None, page.pattern)
        if text is not None:
            texts[page.name] = text
            continue
        _tell_plain(page, why, told)
    left = [it for it in shown if it.name not in texts]
    files = {**texts, **{it.name: _plain(it.name.removesuffix(".html")) for it in left}}
    return [NewFile(name, text, may_replace=may_replace) for name, text in sorted(files.items())]


def _tell_plain(page: Page, why: str, told: Told) -> None:
    told.tell(
        Rank.BEHAVIOR,
        page.line,
        f"the page {shortened(page.location)} {why}: {PAGES}/{page.name} is a plain page in its place",
    )


def _static(application: Path | None, path: str) -> tuple[str | None, str]:
    """The text of a static page of an application, or why there is none. No link is followed, be it a folder or a file."""
    if path.endswith(_MADE_BY_CODE):
        return None, "is a JSP page"
    if application is None:
        return None, "is not read, since the web.xml is in no folder WEB-INF"
    parts = [it for it in path.split("/") if it]
    folders = [application.joinpath(*parts[:place]) for place in range(1, len(parts))]
    if ".." in parts or any(it.is_symlink() for it in folders):
        return None, "leads through a link"
    try:
        return read_regular(application.joinpath(*parts)).decode(), ""
    except UnicodeDecodeError:
        return None, "is not UTF-8"
    except FileNotFoundError:
        return None, "is no file of the application"
    except OSError as error:
        return None, f"is not read ({error.strerror or os.strerror(error.errno or 0)})"


def _plain(code: str) -> str:
    """A plain page for an error."""
    text = read_regular(EXAMPLE / "site/pages" / PLAIN[2]).decode()
    text = re.sub("<p>.*</p>", "<p>The server cannot answer this request.</p>", text)
    return text.replace("Not for you", f"Error {code}")


def port_of(server_file: Path) -> int:
    """The port in a server file that exists, which nginx needs to know."""
    found = re.search(rb"(?m)^port *= *([0-9]+)", read_regular(server_file))
    if found is None or found[1] == b"0":
        raise OSError(22, "has no port of its own, which nginx needs: name one", str(server_file))
    return int(found[1])
