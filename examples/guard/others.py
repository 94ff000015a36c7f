"""What is tried of other proxies: what arrives at an application if they send a request on because of the response of another server."""
from __future__ import annotations

import contextlib
import os
import shutil
import subprocess
from pathlib import Path
from typing import Iterator, NamedTuple

from parts import accepts, see
from recorder import Recorder, recorder
from servers import wait_until
from sites import free_ports
from visitor import HTML, Visitor

CALLER = "X-Application-Caller"
CONTENT = b"hello"
HAPROXY = """defaults
  mode http
  timeout connect 90s
  timeout client 90s
  timeout server 90s
  retries 1
listen both
  bind 127.0.0.1:{port}
  option http-buffer-request
  option redispatch 1
  retry-on 425
  balance first
  server one 127.0.0.1:{first}
  server two 127.0.0.1:{second}
"""
APACHE = """LoadModule mpm_event_module /usr/lib/apache2/modules/mod_mpm_event.so
LoadModule authz_core_module /usr/lib/apache2/modules/mod_authz_core.so
LoadModule proxy_module /usr/lib/apache2/modules/mod_proxy.so
LoadModule proxy_http_module /usr/lib/apache2/modules/mod_proxy_http.so
ServerName localhost
PidFile {folder}/apache.pid
ErrorLog {folder}/apache.log
Listen 127.0.0.1:{port}
ProxyErrorOverride On 401
ErrorDocument 401 /application/page
ProxyPass /application http://127.0.0.1:{second}/application
ProxyPass / http://127.0.0.1:{first}/
"""
CADDY = """{{
  admin off
  auto_https off
}}
http://127.0.0.1:{port} {{
  reverse_proxy 127.0.0.1:{first} {{
    buffer_requests
    max_buffer_size 8MB
    @entered header X-Application-Caller *
    handle_response @entered {{
      reverse_proxy 127.0.0.1:{second} {{
        header_up X-Application-Caller {{rp.header.X-Application-Caller}}
      }}
    }}
  }}
}}
"""


class Proxy(NamedTuple):
    """A proxy: its program, the words after it, its configuration, and the status by which the first server answers."""

    program: str
    words: list[str]
    text: str
    status: int


PROXIES = [
    Proxy("haproxy", ["-db", "-f"], HAPROXY, 425),
    Proxy("apache2", ["-X", "-f"], APACHE, 401),
    Proxy("caddy", ["run", "--adapter", "caddyfile", "--config"], CADDY, 200),
]
# What arrives at the second server for a POST: the method, the bytes of the body, and the caller.
ARRIVES = {
    "haproxy": ("POST", len(CONTENT), None),
    "apache2": ("GET", 0, None),
}
BAD_GATEWAY = 502


@contextlib.contextmanager
def proxy(it: Proxy, folder: str, first: Recorder, second: Recorder) -> Iterator[int]:
    """A proxy in front of two servers: its port."""
    (port,) = free_ports(1)
    path = Path(folder, f"{it.program}.conf")
    path.write_text(it.text.format(port=port, folder=folder, first=first.port, second=second.port))
    with open(os.devnull, "wb") as nothing, subprocess.Popen(
        [it.program, *it.words, str(path)],
        stdin=subprocess.DEVNULL,
        stdout=nothing,
        stderr=nothing,
        env={**os.environ, "HOME": folder},
    ) as process:
        try:
            wait_until(f"{it.program} listens", lambda: accepts(f"127.0.0.1:{port}"), 90)
            yield port
        finally:
            process.terminate()


def try_others(folder: str) -> None:
    """HAProxy repeats a request without fields of the first response, Apache makes it a GET, and Caddy loses its body."""
    for it in PROXIES:
        if shutil.which(it.program) is None:
            print(f"{it.program}: it is not installed, so it was not tried")
            continue
        with recorder() as first, recorder() as second, proxy(it, folder, first, second) as port:
            target = f"/page?status={it.status}&{CALLER}=ann"
            status = Visitor(port).ask("POST", target, HTML, CONTENT).status
            asked, sent = first.taken(), second.taken()
        see(f"{it.program}, the first request", [len(asked), asked[0].length], [1, len(CONTENT)])
        came = [(one.method, one.length, one.fields.get(CALLER.lower())) for one in sent]
        if it.program in ARRIVES:
            see(f"{it.program}, what arrives", came, [ARRIVES[it.program]])
        else:
            see(f"{it.program}, the answer to a POST", status, BAD_GATEWAY)
    print("others: HAProxy sends no caller, Apache no POST, and Caddy no body")
