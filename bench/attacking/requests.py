"""A reader of requests by RFC 9112, which knows nothing of the server that it is held against.

Where the RFC leaves a choice (a line feed alone as an end of line, a field that goes on in the next line, a length that is there twice, ..) it reads on as
the RFC allows, and notes that a server may refuse the request. What the RFC has a server refuse, or what is in no form that it names, is a fault, and ends
the reading."""
import re
from typing import NamedTuple

TOKEN = rb"[!#$%&'*+\-.^_`|~0-9A-Za-z]+"
TARGET = rb"(?:/|http://)[A-Za-z0-9\-._~:/?\[\]@!$&'()*+,;=%]*|\*"
REQUEST_LINE = re.compile(rb"(" + TOKEN + rb") (" + TARGET + rb") HTTP/1\.([01])")
VERSION = re.compile(rb"HTTP/([0-9])\.([0-9])")
HOST = re.compile(
    rb"(?:\[[0-9A-Za-z:.]+\]|(?:[A-Za-z0-9\-._~!$&'()*+,;=]|%[0-9A-Fa-f]{2})*)(?::[0-9]*)?"
)
# Hosts that our server accepts too, although the RFC requires it to refuse the request (docs/DECISIONS.md).
HOST_BYTES = re.compile(rb"[A-Za-z0-9\-._~%!$&'()*+,;=:\[\]]{0,255}")
QUOTED = rb'"(?:[\t !#-\[\]-~\x80-\xff]|\\[\t -~\x80-\xff])*"'
EXTENSIONS = re.compile(
    rb"(?:[ \t]*;[ \t]*" + TOKEN + rb"(?:[ \t]*=[ \t]*(?:" + TOKEN + rb"|" + QUOTED + rb"))?)*"
)
SIZE_LINE = re.compile(rb"([0-9A-Fa-f]+)([ \t]*|[ \t]*;[^\r\n]*)")
BLANKS = b" \t"
# Lines that a server drops in front of a request, and perhaps a part of one.
EMPTY_LINES = re.compile(rb"(?:\r?\n)*\r?")
NO_TEXT = re.compile(rb"[\x00-\x08\x0a-\x1f\x7f]")


class Fault(Exception):
    """The bytes are in no form of a request that the RFC lets a server serve."""


class Part(Exception):
    """The bytes end within a request."""


class Request(NamedTuple):
    """A whole request: whether a 100 may come, whether a server has to serve it, and whether it is the last of its connection."""

    method: bytes
    expects: bool
    strict: bool
    last: bool


class Reading(NamedTuple):
    """The requests, and the kind of the bytes after them: `nothing`, a `part` of a request or a `fault`, which a 100 may answer."""

    requests: list
    rest: str
    expects: bool


class Reader:
    """Reads bytes from a place on. It is strict until something is met that a server may refuse."""

    def __init__(self, data, lone_feeds):
        self.data = data
        self.place = 0
        self.lone_feeds = lone_feeds
        self.strict = True
        self.expects = False

    def line(self):
        """The next line without its end."""
        end = self.data.find(b"\n", self.place)
        if end < 0:
            raise Part
        line = self.data[self.place : end]
        self.place = end + 1
        if not line.endswith(b"\r"):
            self.strict = False
            return line
        return line[:-1]

    def request(self):
        """The next request."""
        self.strict, self.expects = True, False
        line, empty = self.line(), 0
        while not line:
            line, empty = self.line(), empty + 1
        self.strict = self.strict and empty < 2
        method, minor = self.request_line(line)
        fields = self.fields()
        self.check_host(fields, minor)
        options = self.listed(fields, b"connection")
        last = b"close" in options or minor == 0 and b"keep-alive" not in options
        self.expect(fields, minor)
        last = self.body(fields, minor) or last
        return Request(method, self.expects, self.strict, last)

    def request_line(self, line):
        """The method, and the version's second digit."""
        match = REQUEST_LINE.fullmatch(line)
        if match:
            self.strict = (
                self.strict
                and (match[2] != b"*" or match[1] == b"OPTIONS")
                and match[1] != b"CONNECT"
            )
            return match[1], int(match[3])
        self.strict = False
        words = re.split(rb"[ \t\v\f\r]+", line.strip(b" \t\v\f\r"))
        version = VERSION.fullmatch(words[-1])
        if (
            len(words) != 3
            or not re.fullmatch(TOKEN, words[0])
            or not version
            or version[1] != b"1"
        ):
            raise Fault
        return words[0], int(version[2])

    def fields(self):
        """The field lines up to the empty line: names in lower case, and values."""
        fields = []
        while line := self.line():
            if line[:1] in (b" ", b"\t", b"\r"):
                self.strict = False
                if fields:
                    name, value = fields[-1]
                    fields[-1] = name, (value + b" " + self.value(line)).strip(BLANKS)
                continue
            name, colon, value = line.partition(b":")
            if not colon or not re.fullmatch(TOKEN, name):
                raise Fault
            fields.append((name.lower(), self.value(value)))
        return fields

    def value(self, text):
        """A value without the blanks around it. Other bytes than those of texts may be refused; these three are blanks where they are not."""
        if NO_TEXT.search(text):
            self.strict = False
        return re.sub(rb"[\r\n\0]", b" ", text).strip(BLANKS)

    def listed(self, fields, name):
        """The members of a field's list, in lower case."""
        values = [value for key, value in fields if key == name]
        return [it.strip(BLANKS).lower() for value in values for it in value.split(b",")]

    def check_host(self, fields, minor):
        hosts = [value for key, value in fields if key == b"host"]
        if (
            len(hosts) > 1
            or minor > 0
            and not hosts
            or any(not HOST_BYTES.fullmatch(it) for it in hosts)
        ):
            raise Fault
        self.strict = self.strict and all(HOST.fullmatch(it) for it in hosts)

    def expect(self, fields, minor):
        wanted = self.listed(fields, b"expect")
        self.expects = minor > 0 and b"100-continue" in wanted
        if wanted not in ([], [b"100-continue"]):
            self.strict = False

    def body(self, fields, minor):
        """Skips the body, and returns whether its framing forbids reading anything after it."""
        codings, lengths = self.listed(fields, b"transfer-encoding"), self.listed(
            fields, b"content-length"
        )
        if not codings:
            self.skip(self.length(lengths))
            return False
        if codings != [b"chunked"]:
            self.strict = False
            codings = [it for it in codings if it]
        names = [it.partition(b";")[0].strip(BLANKS) for it in codings]
        if not names or names[-1] != b"chunked" or b"chunked" in names[:-1]:
            raise Fault
        faulty = bool(lengths) or minor == 0
        self.strict = self.strict and not faulty
        self.chunks()
        return faulty

    def length(self, lengths):
        if not all(it.isdigit() for it in lengths):
            raise Fault
        values = {int(it[-5000:]) if not it[:-5000].strip(b"0") else -1 for it in lengths}
        if len(values) > 1:
            raise Fault
        if len(lengths) > 1:
            self.strict = False
        value = values.pop() if values else 0
        if value < 0:
            raise Part
        return value

    def skip(self, count):
        if self.place + count > len(self.data):
            raise Part
        self.place += count

    def chunks(self):
        while True:
            end = self.data.find(b"\n", self.place)
            if end < 0:
                raise Part
            match = SIZE_LINE.fullmatch(self.data[self.place : end - 1])
            if not match or self.data[end - 1 : end] != b"\r":
                raise Fault
            self.strict = (
                self.strict and bool(EXTENSIONS.fullmatch(match[2])) and len(match[1]) <= 8
            )
            self.place = end + 1
            size = int(match[1], 16)
            if size == 0:
                return self.trailers()
            self.skip(size)
            ended = self.data[self.place : self.place + 2]
            if not b"\r\n".startswith(ended):
                raise Fault
            self.skip(2)

    def trailers(self):
        """Skips the trailer fields, which a server may drop unread. The server may choose whether a bare line feed ends a line among them."""
        if self.lone_feeds:
            while line := self.line():
                self.strict = self.strict and bool(
                    re.fullmatch(TOKEN + rb":[\t -~\x80-\xff]*", line)
                )
            return
        rest = self.data[self.place :]
        end = 0 if rest.startswith(b"\r\n") else rest.find(b"\r\n\r\n") + 2
        if end == 1:
            raise Part
        lines = rest[:end].split(b"\r\n")[:-1]
        self.strict = self.strict and all(
            re.fullmatch(TOKEN + rb":[\t -~\x80-\xff]*", it) for it in lines
        )
        self.place += end + 2


def read(data, lone_feeds):
    reader, requests = Reader(data, lone_feeds), []
    try:
        while not EMPTY_LINES.fullmatch(data, reader.place):
            requests.append(reader.request())
            if requests[-1].last:
                break
    except Part:
        return Reading(requests, "part", reader.expects)
    except Fault:
        return Reading(requests, "fault", reader.expects)
    return Reading(requests, "nothing", False)


def readings(data):
    """What the RFC lets a server take these bytes for."""
    both = [read(data, True), read(data, False)]
    return both[:1] if both[0] == both[1] else both
