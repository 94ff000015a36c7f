"""What the readers must say of messages and answers that RFC 9112 and RFC 9110 speak of."""
from attacking.messages import HOST, SMUGGLED, asked, chunked, corpus, sized
from attacking.requests import readings
from attacking.responses import judged

OK = b"HTTP/1.1 200 OK\r\ncontent-length: 0\r\n\r\n"
NO = b"HTTP/1.1 400 Bad Request\r\ncontent-length: 2\r\nconnection: close\r\n\r\nno"
GET = asked(b"GET", b"/who")
CHUNKED = b"Transfer-Encoding: chunked\r\n"
END = b"0\r\n\r\n"


def post(*lines, body=b"", version=b"HTTP/1.1"):
    return asked(b"POST", b"/who", *lines, body=body, version=version)


# The message, what may come for it, and what may not.
TRIALS = [
    ("a request is answered once", GET, [OK, NO], [b"", OK + OK, OK + NO]),
    ("two requests are answered in turn", GET + GET, [OK + OK, OK + NO, NO], [OK, OK + OK + OK]),
    ("empty lines in front of a request", b"\r\n\r\n" + GET, [OK, NO], [OK + OK]),
    ("empty lines alone", b"\r\n\n\r", [b""], [NO, OK]),
    (
        "a length beside a coding",
        post(b"Content-Length: 5\r\n", CHUNKED, body=END + SMUGGLED),
        [OK, NO, b""],
        [OK + OK],
    ),
    (
        "a coding beside a length",
        post(CHUNKED, b"Content-Length: 5\r\n", body=END + SMUGGLED),
        [OK, NO],
        [OK + OK],
    ),
    (
        "two lengths that differ",
        post(b"Content-Length: 1\r\nContent-Length: 2\r\n", body=b"ab"),
        [NO],
        [OK, OK + NO],
    ),
    (
        "two lengths that are one",
        post(b"Content-Length: 2\r\nContent-Length: 2\r\n", body=b"ab"),
        [NO, OK],
        [OK + OK],
    ),
    ("a length with a sign", post(b"Content-Length: +2\r\n", body=b"ab"), [NO, b""], [OK]),
    ("an empty length", post(b"Content-Length:\r\n"), [NO], [OK]),
    (
        "a coding that does not end in chunked",
        post(b"Transfer-Encoding: chunked, identity\r\n", body=END),
        [NO],
        [OK],
    ),
    ("chunked twice", post(CHUNKED + CHUNKED, body=END), [NO], [OK]),
    (
        "a coding in 1.0",
        post(CHUNKED, body=END + SMUGGLED, version=b"HTTP/1.0"),
        [OK, NO],
        [OK + OK],
    ),
    (
        "a coding behind a blank before its colon",
        post(b"Transfer-Encoding : chunked\r\n", body=END + SMUGGLED),
        [NO],
        [OK, OK + OK],
    ),
    (
        "a name with a byte of no token",
        post(b"Transfer-Encoding\0: chunked\r\n", body=END),
        [NO],
        [OK],
    ),
    ("a line without a colon", asked(b"GET", b"/who", b"none\r\n"), [NO], [OK]),
    ("a folded line", asked(b"GET", b"/who", b"X: a\r\n b\r\n"), [OK, NO], [OK + OK]),
    (
        "a folded coding",
        post(b"Transfer-Encoding:\r\n chunked\r\n", body=END + GET),
        [OK + OK, NO],
        [OK + OK + OK],
    ),
    ("a bare CR in a value", asked(b"GET", b"/who", b"X: a\rb\r\n"), [OK, NO], [OK + OK]),
    ("a NUL in a value", asked(b"GET", b"/who", b"X: a\0b\r\n"), [OK, NO], [OK + OK]),
    ("lines that end in LF alone", GET.replace(b"\r\n", b"\n"), [OK, NO], [OK + OK]),
    (
        "a size line that ends in LF alone",
        post(CHUNKED, body=b"1\na\r\n" + END),
        [NO],
        [OK, OK + OK],
    ),
    ("a size with a sign", post(CHUNKED, body=b"-1\r\na\r\n" + END), [NO], [OK]),
    ("a chunk without its end", post(CHUNKED, body=b"1\r\nabc" + END), [NO], [OK]),
    ("a request within a body", sized(b"/who", SMUGGLED), [OK], [OK + OK]),
    ("a request within a chunk", chunked(b"/who", SMUGGLED) + GET, [OK + OK], [OK + OK + OK, OK]),
    (
        "a request behind one that closes",
        asked(b"GET", b"/who", b"Connection: close\r\n") + GET,
        [OK, NO],
        [OK + OK],
    ),
    (
        "a request behind one of 1.0",
        asked(b"GET", b"/who", version=b"HTTP/1.0") + GET,
        [OK, NO],
        [OK + OK],
    ),
    ("no Host", GET.replace(HOST, b""), [NO], [OK]),
    ("two Hosts", asked(b"GET", b"/who", HOST), [NO], [OK]),
    ("another version", asked(b"GET", b"/who", version=b"HTTP/2.0"), [NO], [OK]),
    ("a part of a head", GET[:30], [b"", NO], [OK]),
    ("a part of a body", post(b"Content-Length: 10\r\n", body=b"abc"), [b"", NO], [OK]),
    (
        "a HEAD",
        asked(b"HEAD", b"/who"),
        [OK, OK.replace(b": 0", b": 9"), NO],
        [OK.replace(b": 0", b": 2") + b"no", NO.replace(b"400", b"404")],
    ),
    ("a CONNECT", asked(b"CONNECT", b"/who"), [NO, OK.replace(b"200", b"404"), b""], [OK]),
    (
        "an expectation",
        post(b"Expect: 100-continue\r\nContent-Length: 1\r\n", body=b"a"),
        [b"HTTP/1.1 100 Continue\r\n\r\n" + OK, OK],
        [b"HTTP/1.1 100 Continue\r\n\r\n"],
    ),
    ("no expectation", GET, [OK], [b"HTTP/1.1 100 Continue\r\n\r\n" + OK]),
    ("an answer behind one that closes", GET + GET, [NO], [NO + OK]),
    ("an answer that is cut", GET, [OK], [OK[:-3], NO[:-1], OK[:9]]),
    (
        "an answer out of form",
        GET,
        [OK],
        [
            OK.replace(b"HTTP/1.1", b"HTTP/2"),
            OK.replace(b"h: 0", b"h : 0"),
            OK.replace(b"\r\n", b"\n"),
            OK.replace(b": 0", b": -0"),
        ],
    ),
    (
        "a status that is not documented",
        GET,
        [OK],
        [OK.replace(b"200", b"500"), OK.replace(b"200", b"101")],
    ),
    (
        "bytes behind an answer without a body",
        GET,
        [b"HTTP/1.1 302 \r\ncontent-length: 0\r\n\r\n"],
        [b"HTTP/1.1 204 \r\n\r\nno"],
    ),
]


def tried():
    """A line for each trial whose readers say something else."""
    lines = []
    for name, message, rights, wrongs in TRIALS:
        found = [(it, judged(readings(message), it)[1]) for it in rights + wrongs]
        lines += [
            f"{name}: {it!r} may come, and the reader says: {wrong}"
            for it, wrong in found[: len(rights)]
            if wrong
        ]
        lines += [
            f"{name}: {it!r} may not come, and the reader lets it"
            for it, wrong in found[len(rights) :]
            if not wrong
        ]
    forms = corpus(b"JSESSIONID=0")
    return lines + [
        f"{message!r} is in form, and the reader has it otherwise"
        for message, statuses in forms
        if not is_in_form(message, statuses)
    ]


def is_in_form(message, statuses):
    """Whether a message of the corpus is read in one way, as whole requests that a server has to serve, one for each of its answers."""
    reading, *others = readings(message)
    strict = all(it.strict for it in reading.requests)
    return (
        not others
        and reading.rest == "nothing"
        and strict
        and len(reading.requests) == sum(it >= 200 for it in statuses)
    )
