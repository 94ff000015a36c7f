"""Requests in form, and what becomes of them under mutations."""
import re

HOST = b"Host: localhost\r\n"
FORM_TYPE = b"Content-Type: application/x-www-form-urlencoded\r\n"
FORM = b"j_username=ann&j_password=no"
SMUGGLED = b"GET /admin/x.txt HTTP/1.1\r\nHost: localhost\r\n\r\n"
TARGETS = [
    b"/who",
    b"/%77ho",
    b"/a/../who",
    b"//who",
    b"/who;x=1?y=2",
    b"/nest",
    b"/go",
    b"/two/keep",
    b"/login.html",
    b"/pages/7.txt",
    b"/pages",
    b"/none",
    b"/admin/x.txt",
    b"/%61dmin/x.txt",
    b"/who/../admin/x.txt",
    b"/admin;/x.txt",
    b"//admin//x.txt",
    b"/admin/./x.txt",
    b"/admin/x.txt;jsessionid=0",
    b"/admin/%78.txt?a",
    b"/ADMIN/x.txt",
    b"/two/../admin/x.txt",
    b"/admin%2Fx.txt",
    b"/WEB-INF/hidden.txt",
    b"/web-inf/hidden.txt",
    b"/./WEB-INF//hidden.txt",
    b"/%57EB-INF/hidden.txt",
    b"http://localhost/who",
    b"http://localhost/admin/x.txt",
    b"http://localhost:80/a%20b?c=%zz",
]
NUMBERS = [
    b"0",
    b"1",
    b"-1",
    b"+5",
    b"05",
    b"0x5",
    b"5, 5",
    b"5,6",
    b"5 5",
    b"4294967295",
    b"4294967301",
    b"9223372036854775807",
    b"18446744073709551615",
    b"18446744073709551621",
    b"9" * 100,
    b"9" * 6000,
]
SIZES = [
    b"00000000000000003",
    b"3" + b" " * 300,
    b"3;" + b"x" * 300,
    b"ffffffffffffffff",
    b"10000000000000003",
    b"fffffffffffffffff",
    b"100001",
    b"-3",
    b"+3",
    b"0x3",
    b" 3",
    b"3 ",
    b"3\t;a=b",
    b'3;a="\\""',
    b"",
]
CONTROLS = [
    b"\r",
    b"\n",
    b"\0",
    b"\r\n",
    b"\r\n\r\n",
    b"\n\n",
    b"\t",
    b" ",
    b"\x0b",
    b"\x7f",
    b"\x80",
    b"\xc0\xaf",
    b"\xff",
    b":",
    b"%",
    b"%00",
    b"%0d%0a",
    b"..",
    b";",
    b",",
    b"\\",
    b"\xe2\x80\xa8",
]
FRAMINGS = [
    b"Content-Length: 5\r\n",
    b"Content-Length: 0\r\n",
    b"content-length: 47\r\n",
    b"Content-Length: 5, 5\r\n",
    b"Transfer-Encoding: chunked\r\n",
    b"Transfer-Encoding: identity\r\n",
    b"Transfer-Encoding: gzip, chunked\r\n",
    b"Transfer-Encoding: chunked, identity\r\n",
    b"Transfer-Encoding: xchunked\r\n",
    b"Transfer-Encoding:\tchunked\r\n",
    b"Transfer-Encoding: ,chunked\r\n",
    b'Transfer-Encoding: "chunked"\r\n',
    b"Transfer-Encoding: chunked;q=1\r\n",
    b"Transfer-Encoding:\x0bchunked\r\n",
    b"Transfer-Encoding:\r\n chunked\r\n",
    b"Transfer_Encoding: chunked\r\n",
    b"Transfer-Encoding:\r\n",
]
LINES = [
    HOST,
    b"Host: other\r\n",
    b"Host: a b\r\n",
    b"Connection: close\r\n",
    b"Connection: keep-alive, Upgrade\r\n",
    b"Expect: 100-continue\r\n",
    b"Expect: 200-ok\r\n",
    b"Cookie: JSESSIONID=0; JSESSIONID=1\r\n",
    b"X: " + b"y" * 9000 + b"\r\n",
    b"X: y\r\n" * 130,
    b"X: " + b"z" * 70_000 + b"\r\n",
    b"X-Forwarded-User: ann\r\n",
    b"Authorization: Basic YW5uOmJj\r\n",
    b"no colon\r\n",
    b": none\r\n",
    b" folded\r\n",
    b"X\0Y: z\r\n",
]
VERSIONS = [
    b"HTTP/1.0",
    b"HTTP/1.2",
    b"HTTP/2.0",
    b"HTTP/0.9",
    b"http/1.1",
    b"HTTP/1.10",
    b"HTTP/11",
    b"HTTP /1.1",
    b"",
    b"HTTP/1.1 HTTP/1.1",
]
FIELD_LINE = rb"(?<=\n)[^\r\n]+:[^\r\n]+\r\n"
METHODS = [
    b"GET",
    b"HEAD",
    b"POST",
    b"PUT",
    b"DELETE",
    b"OPTIONS",
    b"TRACE",
    b"CONNECT",
    b"get",
    b"G\0T",
    b"A" * 16,
    b"M" * 5000,
]


def asked(method, target, *lines, body=b"", version=b"HTTP/1.1"):
    return (
        method + b" " + target + b" " + version + b"\r\n" + HOST + b"".join(lines) + b"\r\n" + body
    )


def sized(target, body, *lines, method=b"POST"):
    return asked(method, target, b"Content-Length: %d\r\n" % len(body), *lines, body=body)


def chunked(target, *parts, lines=(), trailers=b""):
    body = b"".join(b"%x\r\n%s\r\n" % (len(it), it) for it in parts) + b"0\r\n" + trailers + b"\r\n"
    return asked(b"POST", target, b"Transfer-Encoding: chunked\r\n", *lines, body=body)


def corpus(cookie):
    """Messages in form, each with the statuses that its answers have; the cookie is of a session without a caller."""
    line = b"Cookie: a=b; " + cookie + b"\r\n"
    return [
        (asked(b"GET", b"/who"), [200]),
        (asked(b"HEAD", b"/who", line), [200]),
        (asked(b"GET", b"/pages/7.txt", b"Accept: */*\r\nUser-Agent: x/1 (y)\r\n"), [200]),
        (asked(b"GET", b"/%77%68o/../who?a=%20b&c"), [200]),
        (asked(b"GET", b"http://localhost/who"), [200]),
        (asked(b"OPTIONS", b"*"), [200]),
        (asked(b"GET", b"/admin/x.txt", line), [200]),
        (asked(b"HEAD", b"/admin/x.txt", line), [200]),
        (asked(b"GET", b"/WEB-INF/hidden.txt"), [404]),
        (asked(b"GET", b"/none", version=b"HTTP/1.0"), [404]),
        (asked(b"DELETE", b"/pages/7.txt"), [405]),
        (sized(b"/who", b"a=1&b=2"), [200]),
        (sized(b"/who", SMUGGLED), [200]),
        (sized(b"/j_security_check", FORM, FORM_TYPE, line), [200]),
        (sized(b"/who", b"later", b"Expect: 100-continue\r\n"), [100, 200]),
        (chunked(b"/who", b"abc", b"d" * 300), [200]),
        (chunked(b"/who", SMUGGLED, trailers=b"X: y\r\nZ: w\r\n"), [200]),
        (chunked(b"/nest", b"abc", lines=(b"Expect: 100-Continue\r\n",)), [100, 200]),
        (
            asked(
                b"POST",
                b"/who",
                b"Transfer-Encoding: chunked\r\n",
                body=b'003;a=b ; c="d\\""\r\nabc\r\n0\r\n\r\n',
            ),
            [200],
        ),
        (
            asked(b"GET", b"/who")
            + asked(b"HEAD", b"/pages/7.txt")
            + sized(b"/who", b"x")
            + asked(b"GET", b"/go", b"Connection: close\r\n"),
            [200, 200, 200, 200],
        ),
        (
            b"\r\n" + asked(b"GET", b"/pages") + chunked(b"/who", b"abc") + asked(b"GET", b"/who"),
            [302, 200, 200],
        ),
    ]


def flip_bit(chance, text):
    place = chance.randrange(len(text))
    return text[:place] + bytes([text[place] ^ 1 << chance.randrange(8)]) + text[place + 1 :]


def delete(chance, text):
    place = chance.randrange(len(text))
    return text[:place] + text[place + chance.choice([1, 1, 2, 10]) :]


def double_part(chance, text):
    first, last = sorted(chance.randrange(len(text) + 1) for _ in range(2))
    return text[:last] + text[first:last] * chance.choice([1, 1, 1, 40]) + text[last:]


def insert_control(chance, text):
    place = chance.randrange(len(text) + 1)
    return text[:place] + chance.choice(CONTROLS) * chance.choice([1, 1, 1, 2, 200]) + text[place:]


def replaced(chance, pattern, text, change):
    """The text with one match of the pattern changed."""
    matches = list(re.finditer(pattern, text))
    if not matches:
        return text
    match = chance.choice(matches)
    return text[: match.start()] + change(match[0]) + text[match.end() :]


def blow_number(chance, text):
    return replaced(
        chance,
        rb"[0-9]+",
        text,
        lambda it: chance.choice(
            [*NUMBERS, it + it, b"0" * 20 + it, it + b"0", b"%x" % int(it[-9:])]
        ),
    )


def change_size(chance, text):
    zeros, blanks = b"0" * chance.randrange(30), b" " * chance.randrange(300)
    return replaced(
        chance,
        rb"(?<=\n)[0-9a-f]+(?=[;\r])",
        text,
        lambda it: chance.choice([*SIZES, it.upper(), zeros + it, it + blanks]),
    )


def double_line(chance, text):
    return replaced(chance, rb"[^\r\n]+\r\n", text, lambda it: it + it)


def add_line(chance, text):
    line = chance.choice(LINES)
    return replaced(chance, FIELD_LINE, text, lambda it: chance.choice([it + line, line + it]))


def add_framing(chance, text):
    line = chance.choice(FRAMINGS)
    return replaced(
        chance, FIELD_LINE, text, lambda it: chance.choice([it + line, line + it, line])
    )


def fold_line(chance, text):
    return replaced(
        chance, rb": ?", text, lambda it: chance.choice([b":\r\n ", b":\r\n\t", b":\n ", b":\r "])
    )


def change_end(chance, text):
    return replaced(
        chance,
        rb"\r\n",
        text,
        lambda _: chance.choice(
            [b"\n", b"\r", b"\r\r\n", b"\n\r", b" \r\n", b"\0\r\n", b"\r\n\r\n", b"\n\r\n"]
        ),
    )


def space_colon(chance, text):
    return replaced(
        chance, rb":", text, lambda _: chance.choice([b" :", b"\t:", b"\r\n:", b"\0:", b"::", b""])
    )


def change_target(chance, text):
    tails = [
        chance.choice(CONTROLS),
        b"/.." * chance.randrange(4),
        b"x" * chance.choice([10, 70_000]),
    ]
    return replaced(
        chance,
        rb"(?<=[A-Z] )[^ \r\n]+(?= HTTP)",
        text,
        lambda it: chance.choice([*TARGETS, *(it + tail for tail in tails)]),
    )


def change_version(chance, text):
    return replaced(chance, rb"HTTP/1\.[01]", text, lambda _: chance.choice(VERSIONS))


def change_method(chance, text):
    return replaced(chance, rb"(?:(?<=\n)|^)[A-Z]+(?= )", text, lambda _: chance.choice(METHODS))


def change_case(chance, text):
    return replaced(chance, rb"[A-Za-z-]+", text, lambda it: it.swapcase())


def cut_end(chance, text):
    return text[: chance.randrange(1, len(text) + 1)]


def go_on(chance, text):
    """With a request for the protected path behind it, which must not become one within it."""
    return text + chance.choice(
        [
            SMUGGLED,
            b"\r\n" + SMUGGLED,
            SMUGGLED * 3,
            SMUGGLED.replace(b"\r\n", b"\n"),
            SMUGGLED[:-2],
        ]
    )


MUTATIONS = [
    flip_bit,
    delete,
    double_part,
    insert_control,
    blow_number,
    change_size,
    double_line,
    add_line,
    add_framing,
    fold_line,
    change_end,
    space_colon,
    change_target,
    change_version,
    change_method,
    change_case,
    cut_end,
    go_on,
]


def mutated(chance, messages):
    """A message of these with one to four mutations, and their names."""
    text, names = chance.choice(messages), []
    for _ in range(chance.choice([1, 1, 2, 2, 3, 4])):
        mutation = chance.choice(MUTATIONS)
        text = mutation(chance, text) or b"\r\n"
        names.append(mutation.__name__)
    return text, names


def pieces(chance, text):
    """The text cut at some places."""
    places = sorted(
        {
            0,
            len(text),
            *(chance.randrange(len(text) + 1) for _ in range(chance.choice([1, 2, 5, 12]))),
        }
    )
    return [text[first:last] for first, last in zip(places, places[1:])]


def noise(chance):
    """Random bytes. Some of them begin as a request does, or have ends of lines."""
    alphabet = chance.choice(
        [
            bytes(range(256)),
            b"GETPOSH /:.1%\r\n\0abc",
            b"\r\n \t:",
            bytes(range(32, 127)) + b"\r\n" * 8,
        ]
    )
    text = bytes(chance.choice(alphabet) for _ in range(chance.choice([1, 10, 100, 1000, 3000])))
    first = chance.choice(
        [
            b"",
            b"",
            b"GET ",
            b"GET / HTTP/1.1\r\n",
            asked(b"POST", b"/who", b"Transfer-Encoding: chunked\r\n"),
        ]
    )
    return first + text + chance.choice([b"", b"\r\n\r\n"])
