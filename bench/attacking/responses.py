"""A strict reader of responses by RFC 9112, and the verdict on the responses to a message."""
import re
from typing import NamedTuple

from attacking.requests import TOKEN

STATUS_LINE = re.compile(rb"HTTP/1\.1 ([1-5][0-9][0-9]) [\t -~\x80-\xff]*")
FIELD_LINE = re.compile(
    rb"(" + TOKEN + rb"):[ \t]*([!-~\x80-\xff](?:[\t -~\x80-\xff]*[!-~\x80-\xff])?)?[ \t]*"
)
SIZE = re.compile(rb"[0-9A-Fa-f]+")
# They are described in docs/COMMANDS.md and docs/DIFFERENCES.md; 503 is for a context that has no capacity for another session.
STATUSES = {200, 302, 303, 400, 403, 404, 405, 413, 417, 431, 501, 503}
# A request is refused before its method is read, so the response to a HEAD may have a body (docs/DIFFERENCES.md).
REFUSALS = {400, 413, 417, 431, 501}


class Wrong(Exception):
    """The bytes are no response that is allowed."""


class Answer(NamedTuple):
    status: int
    closes: bool
    fields: dict
    body: bytes


class Answers:
    """Reads the answers of a connection."""

    def __init__(self, data):
        self.data = data
        self.place = 0

    def more(self):
        return self.place < len(self.data)

    def answer(self, method):
        """The next answer, which is to a request of that method."""
        end = self.data.find(b"\r\n\r\n", self.place)
        if end < 0:
            raise Wrong(f"an answer whose head is cut: {self.data[self.place:][:80]!r}")
        first, *lines = self.data[self.place : end].split(b"\r\n")
        self.place = end + 4
        match = STATUS_LINE.fullmatch(first)
        if not match:
            raise Wrong(f"no status line: {first[:80]!r}")
        fields = self.fields(lines)
        status = int(match[1])
        if (
            method == b"CONNECT"
            and 200 <= status < 300
            and (b"content-length" in fields or b"transfer-encoding" in fields)
        ):
            raise Wrong(f"{status} to CONNECT, which makes a tunnel, with a body")
        closes = b"close" in fields.get(b"connection", b"").lower()
        bare = (
            status < 200
            or status in (204, 304)
            or method == b"HEAD"
            and not (status in REFUSALS and closes and self.more())
        )
        return Answer(status, closes, fields, b"" if bare else self.body(fields))

    def fields(self, lines):
        found = {}
        for line in lines:
            match = FIELD_LINE.fullmatch(line)
            if not match:
                raise Wrong(f"no field line: {line[:80]!r}")
            name = match[1].lower()
            if name in found and name in (
                b"content-length",
                b"transfer-encoding",
                b"connection",
                b"date",
            ):
                raise Wrong(f"twice the field {name!r}")
            found[name] = match[2] or b""
        return found

    def body(self, fields):
        if b"transfer-encoding" in fields:
            if b"content-length" in fields or fields[b"transfer-encoding"] != b"chunked":
                raise Wrong("a coding other than chunked, or beside a length")
            return self.chunks()
        length = fields.get(b"content-length")
        if length is None:
            return self.taken(len(self.data) - self.place)
        if not length.isdigit():
            raise Wrong(f"no length: {length!r}")
        return self.taken(int(length))

    def taken(self, count):
        if self.place + count > len(self.data):
            raise Wrong(f"a body that is cut: {len(self.data) - self.place} bytes of {count}")
        self.place += count
        return self.data[self.place - count : self.place]

    def chunks(self):
        body = b""
        while True:
            line, found, _ = self.data[self.place :].partition(b"\r\n")
            if not found or not SIZE.fullmatch(line):
                raise Wrong(f"no chunk size: {line[:80]!r}")
            self.place += len(line) + 2
            body += self.taken(int(line, 16))
            if self.taken(2) != b"\r\n":
                raise Wrong("a chunk without its end")
            if int(line, 16) == 0:
                return body


def explained(reading, data):
    """The answers within these bytes where they are what this reading of the message lets come; otherwise it raises Wrong."""
    answers, source = [], Answers(data)
    final = 0
    while source.more():
        request = reading.requests[final] if final < len(reading.requests) else None
        if request is None and (reading.rest == "nothing" or final > len(reading.requests)):
            raise Wrong(f"more answers than the {len(reading.requests)} requests")
        if answers and answers[-1].closes:
            raise Wrong("an answer behind one that closes")
        answer = source.answer(request.method if request else b"")
        answers.append(answer)
        if answer.status < 200:
            check_interim(reading, request, answers)
            continue
        final += 1
        check_final(reading, request, answer)
    check_all_answered(reading, final, answers)
    return answers


def check_interim(reading, request, answers):
    expects = request.expects if request else reading.expects
    if answers[-1].status != 100 or not expects:
        raise Wrong(f"{answers[-1].status} where none was expected")
    if len(answers) > 1 and answers[-2].status == 100:
        raise Wrong("100 twice")


def check_final(reading, request, answer):
    if answer.status not in STATUSES:
        raise Wrong(f"the status {answer.status}, which is not documented")
    if request is None and not (answer.status in REFUSALS and answer.closes):
        raise Wrong(
            f"{answer.status}, as if it were whole, for a {reading.rest} behind {len(reading.requests)} requests"
        )


def check_all_answered(reading, final, answers):
    """A request that a server has to serve must be answered, unless an earlier response closed the connection."""
    if answers and answers[-1].closes:
        return
    wanted = 0
    while wanted < len(reading.requests) and reading.requests[wanted].strict:
        wanted += 1
    if final < wanted:
        raise Wrong(f"{final} answers to {wanted} requests that stand in the RFC's form")


def judged(all_readings, data):
    """The responses and no fault; or none, and the fault by each reading of the message."""
    wrongs = []
    for reading in all_readings:
        try:
            return explained(reading, data), None
        except Wrong as wrong:
            wrongs.append(str(wrong))
    return [], "; or ".join(wrongs)
