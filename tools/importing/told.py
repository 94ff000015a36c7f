"""The lines that an importer prints about a file, ranked, and the fault that ends a reading."""
from __future__ import annotations

import enum

# The most names of a list that a line has.
MOST_NAMED = 3


def visible(text: str) -> str:
    """A text whose letters all can be seen: it can neither end a line nor move a terminal."""
    return "".join(letter if letter.isprintable() else f"\\u{ord(letter):04X}" for letter in text)


def on_one_line(text: str) -> str:
    """A visible text whose blanks are single ones."""
    return visible(" ".join(text.split()))


def listed(names: list[str], count: int, most: int = MOST_NAMED) -> str:
    """The first names of a list that has `count` of them, at most so many, and how many more it has."""
    more = count - len(names[:most])
    return ", ".join(names[:most]) + (f" and {more} more" if more else "")


class Rank(enum.IntEnum):
    """How much a line matters. The lines of a file are printed in this order."""

    # The policy may differ from the access that the application grants.
    SECURITY = enum.auto()
    # Responses may differ from those of the application.
    BEHAVIOR = enum.auto()
    # No response depends on it.
    IGNORED = enum.auto()
    # A value is wrong by the schemas or the specification. Nothing is written.
    ERROR = enum.auto()

    def __str__(self) -> str:
        return self.name.lower()


class Fault(Exception):
    """The file cannot be imported at all; `str` of it is the line that says why."""

    def __init__(self, file: str, line: int, why: str) -> None:
        super().__init__(f"{file}:{line}: {Rank.ERROR}: {why}")


class Told:
    """The lines that are printed about one file, and its name in them."""

    def __init__(self, file: str) -> None:
        self.file = visible(file)
        self._told: list[tuple[Rank, int, str]] = []

    def tell(self, rank: Rank, line: int, sentence: str) -> None:
        """Adds a sentence about a line of the file."""
        self._told.append((rank, line, on_one_line(sentence)))

    def fault(self, line: int, why: str) -> Fault:
        """What ends the reading at a line."""
        return Fault(self.file, line, on_one_line(why))

    def has_errors(self) -> bool:
        """Whether the file has a wrong value."""
        return any(rank is Rank.ERROR for rank, _, _ in self._told)

    def lines(self) -> list[str]:
        """Returns the lines by rank, and within a rank by the line of the file. Sentences of one line keep their order."""
        return [
            f"{self.file}:{line}: {rank}: {sentence}"
            for rank, line, sentence in sorted(self._told, key=lambda it: it[:2])
        ]
