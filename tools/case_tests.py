"""The tests of `tools/cases --selftest`: cases for the program case_shows, and malformed texts."""
import os
import re

TESTS = os.path.join(os.path.dirname(os.path.realpath(__file__)), "case_tests.cases")
HEAD = re.compile(rb"(?m)^== (\d+) rows?, (\d+) fails?\n")

# Texts that are no case, and the fault of each.
REFUSED = [
    (b"-- args --", "case: the last line has no end"),
    (b"-- nothing --\n", "case: there is no section `nothing`"),
    (b"-- rows of w --\n", "case: there is no section `rows of w`"),
    (b"-- args --\n-- args --\n", "case: the section `args` is there twice"),
    (b"-- file a --\n-- file a --\n", "case: the section `file a` is there twice"),
    (b"-- args (loud) --\n", "case: there is no flag `loud`"),
    (
        b"-- args (no newline) --\n",
        "case: a section without a line has no last newline to leave out",
    ),
    (b"-- args (escaped) --\n\\q\n", "case: there is no escape `\\q`"),
    (b"-- args(escaped) --\n", "case: a line of the comment begins as a marker does"),
    (b"-- rows --\n-- no row\n", "case: its table has no rows"),
    (b"-- rows --\na | v\n-- stdout of w --\n", "case: no row names `w`"),
    (b"-- stdout of w --\n", "case: no row names `w`"),
    (b"-- bytes --\n\\q\n", "case: there is no escape `\\q`"),
]


def self_tests():
    """The cases of the self-test: how many rows each has, how many of them fail, and its text."""
    with open(TESTS, "rb") as file:
        _, *parts = HEAD.split(file.read())
    return zip(map(int, parts[::3]), map(int, parts[1::3]), parts[2::3])
