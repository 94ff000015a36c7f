"""Reads a file of cases/ into a Case. cases/README.md describes the notation."""
import contextlib
import re
from dataclasses import dataclass, field

# The sections that say what the program must give; a row may name others of these.
RESULTS = {"stdout", "stderr", "status", "visited"}
SECTIONS = RESULTS | {
    *("args", "stdin", "streams", "entries", "taken", "limits", "visits", "steps"),
    *("rows", "bytes", "generated", "forms"),
}
FLAGS = {"escaped", "repeated", "no newline"}

MARKER = re.compile(rb"(?m)^-- ([^()\n]+?)(?: \(([a-z, ]+)\))? --\n")
REPEATED = re.compile(r"<(\d+)\*([^<>]*)>")
ESCAPE = re.compile(rb"\\(x[0-9A-Fa-f]{2}|.)")
NAMED_BYTES = {b"r": b"\r", b"n": b"\n", b"t": b"\t", b"\\": b"\\"}


class NotationError(Exception):
    """Says what is wrong with the text of a case."""


@contextlib.contextmanager
def naming(name):
    """Has an error in the notation of a case begin with the case's name."""
    try:
        yield
    except NotationError as error:
        raise NotationError(f"{name}: {error}") from None


@dataclass
class Case:
    """A case: its sections by name, its files by path, and the results that rows name."""

    name: str
    comment: str = ""
    sections: dict[str, bytes] = field(default_factory=dict)
    files: dict[str, bytes] = field(default_factory=dict)
    results: dict[str, dict[str, bytes]] = field(default_factory=dict)

    def section(self, name, default=b""):
        return self.sections.get(name, default)

    def lines(self, name):
        return self.section(name).decode().splitlines()

    def place_of(self, name):
        """The dictionary and the key of the section that a marker names."""
        if name in SECTIONS:
            return self.sections, name
        if name.startswith("file "):
            return self.files, name.removeprefix("file ")
        section, _, result = name.partition(" of ")
        if section in RESULTS and result:
            return self.results.setdefault(result, {}), section
        raise NotationError(f"there is no section `{name}`")

    def add(self, name, flags, text):
        """Adds a section; its text ends with a line feed, which `no newline` removes."""
        place, key = self.place_of(name)
        if key in place:
            raise NotationError(f"the section `{name}` is there twice")
        place[key] = content_of(text, flags)


def repeated(text, pattern=REPEATED):
    """A text with each `<COUNT*PART>` written out once; `@` is the number of the repetition."""
    return pattern.sub(
        lambda it: "".join(it[2].replace("@", str(place)) for place in range(int(it[1]))), text
    )


def unescaped(text):
    """The bytes of a text with escapes."""

    def byte(it):
        if it[1][:1] == b"x" and len(it[1]) == 3:
            return bytes.fromhex(it[1][1:].decode())
        if it[1] not in NAMED_BYTES:
            raise NotationError(f"there is no escape `{it[0].decode()}`")
        return NAMED_BYTES[it[1]]

    return ESCAPE.sub(byte, text.encode())


def content_of(text, flags):
    """The bytes of a section with these flags."""
    if unknown := set(flags) - FLAGS:
        raise NotationError(f"there is no flag `{min(unknown)}`")
    if "no newline" in flags:
        if not text:
            raise NotationError("a section without a line has no last newline to leave out")
        text = text[:-1]
    if "repeated" in flags:
        text = repeated(text.decode()).encode()
    return unescaped(text.decode()) if "escaped" in flags else text


def parse(name, text):
    """The case that a text describes."""
    if not text.endswith(b"\n"):
        raise NotationError("the last line has no end")
    comment, *parts = MARKER.split(text)
    if comment.startswith(b"-- ") or b"\n-- " in comment:
        raise NotationError("a line of the comment begins as a marker does")
    case = Case(name, comment.decode())
    for section, flags, content in zip(parts[::3], parts[1::3], parts[2::3]):
        case.add(section.decode(), (flags or b"").decode().split(", ") if flags else [], content)
    return case
