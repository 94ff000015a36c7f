"""Which trial fails without each line of nginx.conf, and the configurations in which a trial needs to see a line."""
from __future__ import annotations

from pathlib import Path
from typing import Callable, Iterator, NamedTuple, Optional

import hostile
import trials
from parts import replaced
from recorder import SEND_BUFFER
from trials import Trial

Try = Callable[[Trial], None]

# What the block of a line and the line begin with, and the trial that fails without the line. The first row that fits decides.
# A line without a trial names a place, or is only of use for speed.
ROWS: list[tuple[str, str, Optional[Try]]] = [
    ("map $uri", "", trials.try_strangers),
    ("map $http_if_none_match", "", trials.try_pages),
    ('map "$none_match', "", trials.try_strangers),
    ("map $accepted $login", "default", trials.try_json),
    ("map $accepted $login", "~*text", trials.try_strangers),
    ("map $types $denied", "default", trials.try_json),
    ("map $types $denied", "~*text", trials.try_denied),
    ('map "$request_method', "default", trials.try_json),
    ('map "$request_method', "", trials.try_failed_login),
    ('map "$http_content_length', "default", trials.try_bodies_of_all),
    ('map "$http_content_length', "", trials.try_bodies_of_address),
    ("map $request", "default", trials.try_fields_of_clients),
    ("map $request", "", trials.try_hosts),
    ('map "$scheme', '"~^https', trials.try_tls),
    ('map "$scheme', "", trials.try_strangers),
    ("map $with_body", "", trials.try_bodies_of_address),
    ("http", "limit_conn_zone $with_body", trials.try_bodies_of_all),
    ("http", "limit_conn", trials.try_bodies_of_address),
    ("http", "limit_req", trials.try_guesses),
    ("server", "client_max_body_size", trials.try_bodies),
    ("server", "limit_conn bodies", trials.try_bodies_of_all),
    ("server", "limit_conn senders", trials.try_bodies_of_address),
    ("server", "underscores_in_headers", trials.try_underscores),
    ("server", "proxy_http_version", trials.try_others_fields),
    ("server", "proxy_max_temp_file_size", trials.try_disk),
    ("server", "proxy_buffer", trials.try_long_targets),
    ("server", "proxy_cache off", trials.try_cache),
    ("server", "recursive_error_pages", trials.try_pages),
    ("location / ", "proxy_pass ", trials.try_strangers),
    ("location / ", "proxy_pass_request_body", hostile.try_smuggling),
    ("location / ", "proxy_set_header Content-Length", trials.try_bodies),
    ("location / ", "proxy_intercept_errors", trials.try_strangers),
    ("location / ", "error_page 401", trials.try_strangers),
    ("location / ", "error_page 403", trials.try_denied),
    ("location ~", "limit_req", trials.try_guesses),
    ("location ~", "proxy_pass", trials.try_login),
    ("location ~", "proxy_intercept_errors", trials.try_failed_login),
    ("location ~", "error_page 401", trials.try_failed_login),
    ("location ~", "error_page 403", trials.try_denied),
    ("location /.guard/", "add_header", trials.try_strangers),
    ("location /.guard/", "alias", trials.try_strangers),
    ("location /.guard/", "", trials.try_pages),
    ("location = /.guard/", "internal", trials.try_pages),
    ("location = /.guard/", "", trials.try_json),
    ("location @application", "set $cookies", trials.try_cookies),
    ("location @application", "set", trials.try_login),
    ("location @application", "proxy_pass", trials.try_strangers),
    ("location @application", "proxy_set_header Cookie", trials.try_cookies),
    ("location @application", "proxy_set_header Connection", trials.try_others_fields),
    ("location @application", "proxy_set_header Sec-WebSocket", trials.try_web_socket),
    ("location @application", "proxy_set_header", trials.try_fields_of_clients),
    ("location @application", "proxy_ignore_headers X-Accel-Redirect", trials.try_redirect),
    ("location @application", "proxy_ignore_headers X-Accel-Expires", trials.try_expires),
    ("location @application", "proxy_ignore_headers X-Accel-Limit-Rate", trials.try_limit_rate),
    ("location @application", "proxy_ignore_headers X-Accel-Buffering", trials.try_buffering),
    ("location @application", "proxy_ignore_headers X-Accel-Charset", trials.try_charset),
    ("location @application", "add_header Vary", trials.try_others_fields),
    ("", "daemon", None),
    ("", "worker_processes", None),
    ("", "user", None),
    ("", "pid", None),
    ("", "error_log", None),
    ("events", "worker_connections", None),
    ("http", "access_log", None),
    *[("http", f"{it}_temp_path", None) for it in "client_body proxy fastcgi uwsgi scgi".split()],
    ("upstream", "", None),
    ("server", "listen", None),
    ("location", 'proxy_set_header Connection "";', None),
]
LISTEN = "listen 127.0.0.1:GUARD_PORT;"
# The lines that README.md adds for TLS.
TLS = [
    "ssl_certificate KEYS/certificate.pem;",
    "ssl_certificate_key KEYS/key.pem;",
    "proxy_cookie_flags GUARDSESSION secure;",
]
# What README.md adds for the name of a host: a line for the server, and a server for other names.
NAMED = "named.example"
NAME = f"server_name {NAMED};"
OTHER_NAMES = f"server {{ {LISTEN.replace(';', ' default_server;')} return 421; }}"
# The line that README.md adds for paths whose clients expect JSON, and the one that it follows.
JSON_PATHS, TYPES = '"~/api/" "";', "default $http_accept;"
# The module that README.md loads, and the lines that it adds to the location of the application.
MODULE = Path("/usr/lib/nginx/modules/ngx_http_headers_more_filter_module.so")
NO_UPGRADE = "more_clear_input_headers Upgrade;"
NO_PREFIXES = "more_clear_input_headers 'X-Application-*' 'X-Forwarded-*' 'Remote-*';"
# Lines that are as wrong when they are changed: a line, another one in its place, and the trial that fails then.
CHANGES: list[tuple[str, str, Try]] = [
    (
        'location ~ "/j_security_check(;[^/]*)?$" {',
        "location = /j_security_check {",
        trials.try_contexts,
    ),
    (
        "proxy_pass http://application$target;",
        "proxy_pass http://application;",
        hostile.try_targets,
    ),
    ("set $target $upstream_http_x_application_target;", "set $target $uri;", hostile.try_targets),
    ("proxy_intercept_errors on;", "", trials.try_strangers),
    ('"" $types;', '"" $http_accept;', trials.try_json_paths),
    ("map $types $denied {", "map $http_accept $denied {", trials.try_json_paths),
    ("$none_match$http_if_match$", "$none_match$", trials.try_pages),
    ("$http_if_match$http_if_unmodified_since", "$http_if_match", trials.try_pages),
]


class Line(NamedTuple):
    """A line of the configuration, its number, from 0, and the trial that fails without it."""

    number: int
    text: str
    trial: Optional[Try]


def lines_of(text: str) -> Iterator[Line]:
    """The directives of a configuration that are one line. One that no row fits is a fault of these tables."""
    blocks = [""]
    for number, line in enumerate(map(str.strip, text.splitlines())):
        if line.startswith("#") or not line:
            continue
        if line.endswith("{"):
            blocks.append(line)
        elif line == "}":
            blocks.pop()
        else:
            fits = [it for block, it_text, it in ROWS if _fits(blocks[-1], line, block, it_text)]
            if not fits:
                raise LookupError(f"no trial is named for the line {line!r} of {blocks[-1]!r}")
            yield Line(number, line, fits[0])


def _fits(block: str, line: str, block_start: str, line_start: str) -> bool:
    return (
        block.startswith(block_start)
        and line.startswith(line_start)
        and bool(block_start) == bool(block)
    )


def _with_cache(text: str, lines: str) -> str:
    """A configuration that has a cache, and these lines for all its servers."""
    first = "upstream container {"
    return replaced(
        text, first, f"proxy_cache_path FOLDER/cache keys_zone=tried:1m;\n{lines}\n{first}"
    )


def _with_underscores(text: str) -> str:
    first = "upstream container {"
    return replaced(text, first, "underscores_in_headers on;\n" + first)


def _with_charset(text: str) -> str:
    first = "upstream container {"
    return replaced(text, first, "charset_map koi8-r utf-8 { 80 E282AC; }\n" + first)


def _with_cache_of_application(text: str) -> str:
    return _with_cache(text, "").replace("proxy_cache off;", "proxy_cache tried;")


def _with_cache_of_all(text: str) -> str:
    return _with_cache(text, "proxy_cache tried; proxy_cache_valid 200 1m;")


def _with_tls(text: str) -> str:
    return replaced(text, LISTEN, "\n".join([LISTEN.replace(";", " ssl;"), *TLS]))


def _with_name(text: str) -> str:
    first = "upstream container {"
    named = replaced(text, LISTEN, f"{LISTEN}\n{NAME}")
    return replaced(named, first, f"{OTHER_NAMES}\n{first}")


def _with_json_paths(text: str) -> str:
    return replaced(text, TYPES, f"{TYPES}\n{JSON_PATHS}")


def _with_small_buffers(text: str) -> str:
    """The system keeps few bytes of an answer that a client does not read."""
    return replaced(text, LISTEN, LISTEN.replace(";", f" sndbuf={SEND_BUFFER};"))


def _with_module(text: str, line: str) -> str:
    first, place = "daemon off;", "location @application {"
    loaded = replaced(text, first, f"load_module {MODULE};\n{first}")
    return replaced(loaded, place, f"{place}\n{line}")


def _without_upgrade(text: str) -> str:
    return _with_module(text, NO_UPGRADE)


def _without_prefixes(text: str) -> str:
    return _with_module(text, NO_PREFIXES)


# Additions to the configuration, for trials that otherwise cannot see whether its line is there.
VARIANTS: dict[Try, Callable[[str], str]] = {
    trials.try_buffering: _with_small_buffers,
    trials.try_charset: _with_charset,
    trials.try_expires: _with_cache_of_application,
    trials.try_cache: _with_cache_of_all,
    trials.try_json_paths: _with_json_paths,
    trials.try_names: _with_name,
    trials.try_no_switch: _without_upgrade,
    trials.try_prefixes: _without_prefixes,
    trials.try_tls: _with_tls,
    trials.try_underscores: _with_underscores,
}


def variant(trial: Try, text: str) -> str:
    """The configuration for a trial."""
    return VARIANTS.get(trial, str)(text)


def missing(trial: Try) -> str:
    """The package without which a trial is impossible here, nothing if it has all."""
    needs_module = trial in (trials.try_no_switch, trials.try_prefixes)
    return "libnginx-mod-http-headers-more-filter" if needs_module and not MODULE.exists() else ""
