#!/usr/bin/env python3
"""examples/guard/application.py PORT FILE   serves a WSGI application that refuses every request without the secret, which is the text of FILE"""
import hmac
import sys
from pathlib import Path
from urllib.parse import unquote
from wsgiref.simple_server import make_server

PLAIN = ("Content-Type", "text/plain; charset=utf-8")
OURS = "HTTP_X_APPLICATION_"


def guarded(application, secret):
    """An application for requests that bring the secret, which it does not see: a page may show all fields."""

    def checked(environ, start_response):
        given = environ.pop(f"{OURS}SECRET", "")
        if secret and hmac.compare_digest(given.encode(), secret.encode()):
            return application(environ, start_response)
        start_response("403 Forbidden", [PLAIN])
        return [b"not by nginx\n"]

    return checked


def application(environ, start_response):
    caller = unquote(environ.get(f"{OURS}CALLER", ""))
    roles = [unquote(it) for it in environ.get(f"{OURS}ROLES", "").split(",") if it]
    fields = [it.removeprefix(OURS).lower() for it in environ if it.startswith(OURS)]
    length = len(environ["wsgi.input"].read(int(environ.get("CONTENT_LENGTH") or 0)))
    start_response("200 OK", [PLAIN])
    method, path = environ["REQUEST_METHOD"], environ["PATH_INFO"].encode("latin-1").decode()
    text = f"{method} {path} caller={caller} roles={'+'.join(roles)} bytes={length}"
    return [f"{text} fields={'+'.join(sorted(fields))}\n".encode()]


if __name__ == "__main__":
    text = Path(sys.argv[2]).read_text().strip()
    make_server("127.0.0.1", int(sys.argv[1]), guarded(application, text)).serve_forever()
