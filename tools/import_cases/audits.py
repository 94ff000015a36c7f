"""Runs the audit of a web.xml, and the commands of ./sv that are no commands of the program."""
from __future__ import annotations

import os
import re
import shutil
import subprocess
import tempfile
from pathlib import Path
from typing import Iterator, NamedTuple, Optional

HERE = Path(__file__).resolve().parent
TOP = HERE.parent.parent
# A program that prints its arguments, and the files that are among them, and ends with 4.
PROGRAM = """#!/bin/sh
printf "%s\\n" "$@"
for word; do
    case $word in FOLDER/*|*/tmp*/*) echo "- $word"; cat "$word" ;; esac
done
exit 4
"""
# What the command rt is for a case: it ends with a fault, so no case builds anything.
NO_BUILD = "#!/bin/sh\necho no build >&2\nexit 9\n"
NAME = "-a b.xml"
OTHER = "other.xml"
WRONG = "wrong.xml"
TOMCAT_USERS = '<tomcat-users><user username="ann" roles="one"/></tomcat-users>\n'
SERVER = f"""port = 0
seed = "{'0' * 64}"

[[context]]
path = ""
descriptor = "web.toml"
files = ""
"""
SHOP = SERVER.replace('path = ""', 'path = "/shop"')
LINES = f"{NAME}\n3\n7\nrole 12\n"
USAGE = """sv audit WEB.XML [OPTION ..]
    imports the web.xml, and shows who may enter where by it; sets --lines, and without --files also --unknown-files,
    but neither with --diff; has three more options:
    --users FILE            the users: a tomcat-users.xml, or a users file
    --context PATH          the context path; the root without it
    --files FOLDER          the folder of the application, which has its files and its login page
help
audit
"""


class Ended(NamedTuple):
    """How a command ends: its status, and what it prints."""

    status: int
    stdout: str
    stderr: str


def ended(room: Path, command: list[str], path: str = os.environ["PATH"]) -> Ended:
    """How a command ends in a room, with what the room holds as temporary files named by their folder's name."""
    came = subprocess.run(
        command,
        cwd=room,
        env={**os.environ, "TMPDIR": str(room), "PATH": path},
        stdin=subprocess.DEVNULL,
        capture_output=True,
        text=True,
    )
    stdout = re.sub(f"{room}/tmp[^/]*", "FOLDER", came.stdout)
    stdout = re.sub('seed = "[0-9a-f]{64}"', f'seed = "{"0" * 64}"', stdout)
    return Ended(came.returncode, stdout, came.stderr)


def shown(words: list[str], files: dict[str, str]) -> str:
    """The output of the program of the cases for these words. The files among them are printed."""
    printed = [f"{word}\n" for word in words]
    return "".join(printed + [f"- {name}\n{text}" for name, text in files.items()])


def audits_that_pass() -> Iterator[tuple[list[str], str]]:
    """The arguments of audits that an importer lets pass, and what the program prints for them."""
    web = {"FOLDER/web/server.toml": SERVER, "FOLDER/web/web.lines": LINES}
    located = ["audit", "FOLDER/web/server.toml", "--lines", "FOLDER/web/web.lines"]
    words = [*located, "--unknown-files"]
    options = ["--format", "a  b", "", "--secure", "--path", "--users", "--method", "M", "--as"]
    yield [NAME, *options], shown([*words, *options], web)
    yield (
        [NAME, "--as", "ann", "--users", "tomcat.xml", "--context", "/shop", "--secure"],
        shown(
            [*words, "--as", "ann", "--secure"],
            {**web, "FOLDER/web/server.toml": SHOP + 'users = "FOLDER/users.toml"\n'},
        ),
    )
    yield (
        [NAME, "--users", "our.toml"],
        shown(words, {**web, "FOLDER/web/server.toml": SERVER + 'users = "ROOM/our.toml"\n'}),
    )
    yield (
        [NAME, "--secure", "--unknown-files", "--as", "ann"],
        shown([*located, "--secure", "--unknown-files", "--as", "ann"], web),
    )
    yield (
        [NAME, "--as", "--unknown-files", "--format", "json"],
        shown([*words, "--as", "--unknown-files", "--format", "json"], web),
    )
    files = {**web, "FOLDER/web/server.toml": SERVER.replace('files = ""', 'files = "ROOM/app"')}
    yield [NAME, "--files", "pages/../app"], shown(located, files)
    yield (
        [NAME, "--unknown-files", "--files", "app"],
        shown([*located, "--unknown-files"], files),
    )
    diff = ["--secure", "--diff", "FOLDER/other/server.toml", "--format", "json"]
    yield (
        [NAME, "--secure", "--diff", OTHER, "--format", "json", "--context", "/shop"],
        shown(
            ["audit", "FOLDER/web/server.toml", *diff],
            {"FOLDER/web/server.toml": SHOP, "FOLDER/other/server.toml": SHOP},
        ),
    )
    yield (
        [NAME, "--diff", "old.toml"],
        shown(
            ["audit", "FOLDER/web/server.toml", "--diff", "old.toml"],
            {"FOLDER/web/server.toml": SERVER},
        ),
    )
    yield (
        [NAME, "--lines", "our.lines", "--diff", "old.toml"],
        shown(
            ["audit", "FOLDER/web/server.toml", "--lines", "our.lines", "--diff", "old.toml"],
            {"FOLDER/web/server.toml": SERVER},
        ),
    )
    yield (
        ["old.toml", "--diff", OTHER],
        shown(
            ["audit", "old.toml", "--diff", "FOLDER/other/server.toml"],
            {"FOLDER/other/server.toml": SERVER},
        ),
    )
    yield ["old.toml", "--accept", OTHER], shown(["audit", "old.toml", "--accept", OTHER], {})
    yield [NAME, "--format", "json", "--help"], USAGE


def audits_that_fail() -> Iterator[tuple[list[str], Ended]]:
    """The arguments of audits that end before the program is run, and how."""
    wrong = (HERE / "a_wrong_value/told").read_text(encoding="utf-8")
    yield [WRONG, "--format", "json"], Ended(1, "", wrong.replace("web.xml", WRONG))
    for arguments, fault in [
        ([NAME, "--users"], "--users needs FILE"),
        ([NAME, "--secure", "--context"], "--context needs PATH"),
        ([NAME, "--users", "a", "--users", "b"], "--users is given twice"),
    ]:
        yield arguments, Ended(2, "", f"sv: usage\n  {fault}\n")


def furnish(room: Path) -> None:
    """Puts into a room what the audits read."""
    for name in (NAME, OTHER):
        shutil.copy(HERE / "rules_slash/web.xml", room / name)
    shutil.copy(HERE / "a_wrong_value/web.xml", room / WRONG)
    (room / "tomcat.xml").write_text(TOMCAT_USERS, encoding="utf-8")
    (room / "program").write_text(PROGRAM, encoding="utf-8")
    (room / "program").chmod(0o755)


def tried_audits(program: Optional[str]) -> list[tuple[str, list[str]]]:
    """What differs in the audits of a web.xml, by a program that prints what it is given, and by the real one, if it is named."""
    results = []
    with tempfile.TemporaryDirectory(prefix="sv-import-") as folder:
        room = Path(folder)
        furnish(room)
        before = sorted(room.iterdir())
        command = [str(TOP / "tools/audit-web-xml"), "./program"]
        for arguments, text in audits_that_pass():
            came = ended(room, [*command, *arguments])
            text = text.replace("ROOM", str(room))
            results.append((arguments, came[:2] == (4, text), came))
        for arguments, expected in audits_that_fail():
            came = ended(room, [*command, *arguments])
            results.append((arguments, came == expected, came))
        if program:
            command = [str(TOP / "tools/audit-web-xml"), program]
            arguments = [NAME, "--as", "ann", "--users", "tomcat.xml", "--context", "/shop"]
            came = ended(room, [*command, *arguments])
            results.append((arguments, shows_caller(came), came))
        left = sorted(room.iterdir())
        results.append((["after all"], left == before, Ended(0, f"{left} is left", "")))
    return [
        (f"an audit, {' '.join(arguments)}", [] if is_good else [f"it ends with {came}"])
        for arguments, is_good, came in results
    ]


def shows_caller(came: Ended) -> bool:
    """Whether a table says what the user ann, who has the role one, may enter: the context root, and no other path."""
    rows = [" ".join(line.split()) for line in came.stdout.splitlines()]
    return came.status == 0 and rows[:3:2] + rows[4:5] == [
        f"context /shop ({NAME})",
        '"" all yes 1, line 3',
        "/ all no (no role is allowed) 2, line 7",
    ]


def tried_commands() -> list[tuple[str, list[str]]]:
    """What differs in the commands of ./sv that build, if they must not begin a build, and in the commands that need a toolchain, if there is none."""
    build = (
        "sv build\n    proves and builds the program from its sources, in half an hour or more\n"
    )
    release = (
        "sv release\n"
        "    proves and builds sv, hello and guestbook, and makes them the released programs\n"
    )
    needed = "needs the Rattle toolchain (rt on the path)\n"
    with tempfile.TemporaryDirectory(prefix="sv-import-") as folder:
        room = Path(folder)
        (room / "rt").write_text(NO_BUILD, encoding="utf-8")
        (room / "rt").chmod(0o755)
        no_build = f"{room}:{os.environ['PATH']}"
        no_rt = path_of(room / "bin", ["bash", "dirname", "readlink"])
        results = [
            (command, ended(room, [str(TOP / command[0]), *command[1:]], path), expected)
            for path, command, expected in [
                (no_build, ["sv", "build", "--help"], Ended(0, build, "")),
                (no_build, ["sv", "build", "-h"], Ended(0, build, "")),
                (no_build, ["sv", "release", "--help"], Ended(0, release, "")),
                (no_build, ["sv", "build", "all"], Ended(2, "", "sv: usage\n  usage: sv build\n")),
                (
                    no_build,
                    ["sv", "release", "--help", "-h"],
                    Ended(2, "", "sv: usage\n  usage: sv release\n"),
                ),
                (
                    no_rt,
                    ["tools/try", "hello", "8080"],
                    Ended(1, "", f"try: running crates/hello without a proof {needed}"),
                ),
                (
                    no_rt,
                    ["tools/libraries", "hello"],
                    Ended(1, "", f"libraries: proving the libraries below crates/hello {needed}"),
                ),
                (no_rt, ["sv", "build"], Ended(1, "", f"sv: building from the sources {needed}")),
                (no_rt, ["sv", "release"], Ended(1, "", f"sv: building from the sources {needed}")),
                (no_rt, ["test"], Ended(1, "", f"test: proving and testing {needed}")),
                (
                    no_rt,
                    ["test", "wrong-bodies", "sv"],
                    Ended(1, "", f"test: trying the edits {needed}"),
                ),
            ]
        ]
    return [
        (" ".join(command), [] if came == expected else [f"it ends with {came}"])
        for command, came, expected in results
    ]


def path_of(folder: Path, commands: list[str]) -> str:
    """A path on which only these commands are found, as links in a new folder."""
    folder.mkdir()
    for command in commands:
        (folder / command).symlink_to(shutil.which(command) or command)
    return str(folder)
