"""The elements of an XML file with their lines. Entities, internal subsets and external references are refused: nothing but the file itself is read."""
from __future__ import annotations

import dataclasses
from typing import Iterator
from xml.parsers import expat

from .told import Rank, Told

# The greatest depth of nested elements: descriptors have six levels.
DEEPEST = 64
# The blanks of XML.
BLANKS = " \t\r\n"


@dataclasses.dataclass
class Element:
    """An element: its name without its namespace, the line of its start tag, and its content."""

    name: str
    namespace: str
    line: int
    attributes: dict[str, str]
    pieces: list[str] = dataclasses.field(default_factory=list)
    children: list[Element] = dataclasses.field(default_factory=list)

    @property
    def text(self) -> str:
        """The text of the element itself, without blanks at either end."""
        return "".join(self.pieces).strip(BLANKS)

    def all(self, name: str) -> Iterator[Element]:
        """The children of a name, in their order."""
        return (child for child in self.children if child.name == name)

    def first(self, name: str) -> Element | None:
        """The first child of a name."""
        return next(self.all(name), None)

    def texts(self, name: str) -> list[str]:
        """The texts of the children of a name, in their order."""
        return [child.text for child in self.all(name)]

    def text_of(self, name: str) -> str:
        """The text of the first child of a name, empty where there is none."""
        child = self.first(name)
        return child.text if child else ""


class _Builder:
    """Builds the tree from what the parser reports."""

    def __init__(self, told: Told) -> None:
        self.told = told
        self.root: Element | None = None
        self.open: list[Element] = []
        self.public_id: str | None = None
        self.doctype_line = 0
        self.parser = expat.ParserCreate(namespace_separator=" ")
        self.parser.buffer_text = True
        self.parser.StartElementHandler = self.start
        self.parser.EndElementHandler = self.end
        self.parser.CharacterDataHandler = self.characters
        self.parser.StartDoctypeDeclHandler = self.doctype
        self.parser.EntityDeclHandler = self.entity
        self.parser.SkippedEntityHandler = self.skipped
        self.parser.ProcessingInstructionHandler = self.instruction

    def start(self, name: str, attributes: dict[str, str]) -> None:
        namespace, _, local = name.rpartition(" ")
        line = self.parser.CurrentLineNumber
        element = Element(local, namespace, line, attributes)
        if len(self.open) >= DEEPEST:
            raise self.told.fault(line, f"more than {DEEPEST} elements are nested")
        if self.open:
            self.open[-1].children.append(element)
        else:
            self.root = element
        self.open.append(element)

    def end(self, _name: str) -> None:
        self.open.pop()

    def characters(self, text: str) -> None:
        self.open[-1].pieces.append(text)

    def doctype(
        self, _name: str, _system: str | None, public_id: str | None, internal: int
    ) -> None:
        self.public_id = public_id
        self.doctype_line = self.parser.CurrentLineNumber
        if internal:
            raise self.told.fault(
                self.doctype_line, "a DOCTYPE with declarations of its own is refused"
            )

    def entity(self, name: str, *_declared: object) -> None:
        raise self.told.fault(self.parser.CurrentLineNumber, f"the entity {name} is refused")

    def skipped(self, name: str, _is_parameter: int) -> None:
        raise self.told.fault(self.parser.CurrentLineNumber, f"the entity {name} is refused")

    def instruction(self, target: str, _text: str) -> None:
        self.told.tell(
            Rank.IGNORED,
            self.parser.CurrentLineNumber,
            f"the processing instruction {target} means nothing here",
        )


@dataclasses.dataclass
class Document:
    """The root of a file, and the public identifier and line of its DOCTYPE, if it has one."""

    root: Element
    public_id: str | None
    doctype_line: int


def read(text: bytes, told: Told) -> Document:
    """Reads the text of an XML file. A text that is no XML, or has a part that is refused, is a `Fault`."""
    builder = _Builder(told)
    try:
        builder.parser.Parse(text, True)
    except expat.ExpatError as error:
        raise told.fault(error.lineno, f"no XML: {expat.errors.messages[error.code]}") from error
    except (LookupError, ValueError) as error:
        raise told.fault(1, f"its encoding cannot be read: {error}") from error
    assert builder.root is not None  # A document without a root is no XML.
    return Document(builder.root, builder.public_id, builder.doctype_line)
