"""The rows of a case: its table, the values of its cells, and the forms in which a row is tried."""
import os
import re
import subprocess
from dataclasses import dataclass

from case_notation import NotationError, repeated, unescaped

TOOLS = os.path.dirname(os.path.realpath(__file__))
BYTE = re.compile(r"\\x[0-9A-Fa-f]{2}|\\?.")

# The faults of a configuration file in the order of their numbers, from 1, each with the message that
# follows the name of the file. LINE is any line and column, or none; TAKES is what the key takes in one
# of its tables.
FAULTS = {
    "NotToml": b":PLACE",
    "UnknownKey": b":LINE: the key `KEY` is not known here",
    "MissingKey": b":LINE: the key `KEY` is missing",
    "WrongType": b":LINE: the value of `KEY` is not TAKES",
    "BadPattern": b":LINE: the value of `KEY` is not a URL pattern",
    "DuplicatePattern": b":LINE: a pattern at `KEY` was mapped before",
    "UnknownServlet": b":LINE: no servlet is declared by the name at `KEY`",
    "UnknownFilter": b":LINE: no filter is declared by the name at `KEY`",
    "BothMethodLists": b":LINE: methods are listed beside `KEY`",
    "ReservedRole": b":LINE: a role at `KEY` is `*` or `**`, which have a meaning of their own",
    "BadTimeout": b":LINE: the value of `KEY` is not TAKES",
    "BadValue": b":LINE: the value of `KEY` is not TAKES",
    "DuplicateName": b":LINE: the name at `KEY` was given before",
    "TooMany": b":LINE: the value of `KEY` is not TAKES",
}
# The program prints no offending text for these.
WITHOUT_TEXT = {"NotToml", "UnknownKey", "MissingKey", "BothMethodLists", "TooMany"}
# Separates, in the value of a cell, a fault from its offending text.
OFFENDS = "\0offends\0"


@dataclass
class Row:
    """A row of a table: its line, what the program must give, and its cells in each form."""

    line: str
    expected: dict[str, bytes]
    forms: list[list[bytes]]


def fault_value(cell):
    """A cell that begins with the name of a fault, as its number, its key and its offending text."""
    name, _, rest = cell.partition(" ")
    if name not in FAULTS:
        return cell
    key, _, text = (rest, "", "") if name in WITHOUT_TEXT else rest.partition(": ")
    number = list(FAULTS).index(name) + 1
    return f"{number} {key or '-'}{text and OFFENDS + text}"


def fault_message(cell):
    """What the program prints of the fault of a cell after the name of the file."""
    fault, _, text = cell.partition(OFFENDS.encode())
    number, _, key = fault.partition(b" ")
    message = list(FAULTS.values())[int(number) - 1]
    return message.replace(b"KEY", b"" if key == b"-" else key) + (text and b": " + text)


def filled(text, cells):
    """A text with the values of a row's cells in place of `%1` to `%9`, all at once."""

    def value(it):
        cell = cells[int(it[1]) - 1]
        return fault_message(cell) if it[2] else cell.partition(OFFENDS.encode())[0]

    return re.sub(rb"%([1-9])(!?)", value, text) if cells else text


def cells_of(line):
    cells = [cell.strip() for cell in line.split("|")]
    return [fault_value("" if cell == '""' else cell) for cell in cells]


def in_form(cell, form):
    """The cells that replace the first one in a form, for each time that the row is tried."""
    if form == "cut":
        parts = BYTE.findall(cell)
        return [["".join(parts[:at]), "".join(parts[at:])] for at in range(1, len(parts))]
    if form == "reversed":
        return [[" ; ".join(reversed(cell.split(" ; ")))]]
    return [[form.replace("%", cell)]]


def lines_of(cell):
    """The value of a cell of `rows`."""
    return repeated(cell.replace(" ; ", "\n")).encode()


def table_of(case):
    """The lines of the table of a case without its comments, or None if it has no table."""
    if tool := case.section("generated").decode().strip():
        text = subprocess.run([f"{TOOLS}/{tool}"], check=True, stdout=subprocess.PIPE).stdout
    else:
        text = case.section("bytes") or case.section("rows", None)
    if text is None:
        return None
    lines = [it for it in text.decode().split("\n") if it and it != "--" and it[:3] != "-- "]
    if not lines:
        raise NotationError("its table has no rows")
    return lines


def check_results(case, table):
    """Raises an error if no row names one of the results of a case."""
    if unused := set(case.results) - {cells_of(line)[-1] for line in table}:
        raise NotationError(f"no row names `{min(unused)}`")


def rows_of(case):
    """The rows of a case; a case without a table has one row without cells."""
    table = table_of(case)
    check_results(case, table or [])
    if table is None:
        yield Row("", case.sections, [[]])
        return
    value_of = unescaped if "bytes" in case.sections else lines_of
    forms = case.lines("forms") or ["%"]
    for line in table:
        cells = cells_of(line)
        firsts = [first for form in forms for first in in_form(cells[0], form)]
        values = [[value_of(cell) for cell in [*first, *cells[1:]]] for first in firsts]
        yield Row(line, case.results.get(cells[-1], case.sections), values)
