"""Runs a program on the rows of cases, and says what differs from what they expect."""
import concurrent.futures
import contextlib
import functools
import os
import re
import resource
import shutil
import socket
import subprocess
import tempfile
import threading

from case_keys import TAKES
from case_notation import REPEATED, naming, repeated, unescaped
from case_steps import run_steps
from case_tables import filled, rows_of

SECONDS = 60
EXAMPLES = os.fsencode(os.path.dirname(os.path.dirname(os.path.realpath(__file__)))) + b"/examples"
# How each limit is set in a shell.
LIMITS = {"memory": "ulimit -v", "descriptors": "ulimit -n"}
# By this the modes of files bind a program that root runs.
BOUND = ["setpriv", "--bounding-set=-dac_override,-dac_read_search"]
# The streams that fail: which, the file in its place, and how it is opened.
STREAMS = {
    "stdin folder": ("stdin", "/", os.O_RDONLY),
    "stdout full": ("stdout", "/dev/full", os.O_WRONLY),
}
# How each line of `entries` is made.
ENTRIES = {
    "file": lambda path: open(path, "xb").close(),
    "folder": os.mkdir,
    "link": lambda path: os.symlink(b"nowhere", path),
    "pipe": os.mkfifo,
    "example": lambda path: shutil.copytree(os.path.join(EXAMPLES, os.path.basename(path)), path),
}


def make_zeros(path, count):
    """Makes a file of this many zero bytes, which take no space on the disk."""
    with open(path, "wb") as file:
        file.truncate(int(count))


# The entries with a number before the name.
NUMBERED = {
    "mode": lambda path, mode: os.chmod(path, int(mode, 8)),
    "zeros": make_zeros,
}


def make_files(room, case, cells):
    """Fills the folder that the program runs in."""
    for name, text in case.files.items():
        path = f"{room}/{name}"
        os.makedirs(os.path.dirname(path), exist_ok=True)
        with open(path, "wb") as file:
            file.write(filled(text, cells))
    for line in filled(case.section("entries"), cells).decode().split("\n")[:-1]:
        kind, name = line.split(" ", 1)
        number, _, file = name.partition(" ")
        path = os.path.join(os.fsencode(room), unescaped(file if kind in NUMBERED else name))
        if kind in NUMBERED:
            NUMBERED[kind](path, number)
        else:
            ENTRIES[kind](path)


@contextlib.contextmanager
def listening(port):
    """Has something listen at the port, if one is given; another listener there is as good."""
    with socket.socket() as listener:
        listener.setsockopt(socket.SOL_SOCKET, socket.SO_REUSEPORT, 1)
        with contextlib.suppress(OSError):
            if port:
                listener.bind(("127.0.0.1", int(port)))
                listener.listen()
        yield


def steps_of(case, cells):
    """The steps of a case, each as a list of its words."""
    script, count = case.section("steps").decode(), 1
    while count:
        script, count = REPEATED.subn(lambda it: repeated(it[0]).replace(" ; ", "\n"), script)
    for line in script.split("\n"):
        if line and not line.startswith("--"):
            word, *rest = line.split(" ", 2)
            yield word, *rest[:1], *(filled(unescaped(it), cells) for it in rest[1:])


def limits_of(case):
    lines = [line.split() for line in case.lines("limits") if line != "modes"]
    return [(kind, int(most)) for kind, most in lines]


def limited(command, case):
    """A command under the limits of a case."""
    sets = "".join(f"{LIMITS[kind]} {most} && " for kind, most in limits_of(case))
    if "modes" in case.lines("limits") and os.geteuid() == 0:
        command = [*BOUND, *command]
    return ["sh", "-c", f'{sets}exec "$0" "$@"', *command] if sets else command


@functools.cache
def is_bound_by_modes():
    """Whether the modes of files bind this process, or it can run a program that they bind."""
    if os.geteuid() != 0:
        return True
    return shutil.which(BOUND[0]) and subprocess.run([*BOUND, "true"], check=False).returncode == 0


def is_granted(case):
    """Whether the machine grants the limits of a case, and as many descriptors to this process."""
    most = resource.getrlimit(resource.RLIMIT_NOFILE)[1]
    counts = [count for kind, count in limits_of(case) if kind == "descriptors"]
    if "modes" in case.lines("limits") and not is_bound_by_modes():
        return False
    return most == resource.RLIM_INFINITY or all(2 * count <= most for count in counts)


def answer_to(port, request):
    """The bytes that come back on a connection of its own, or why none do."""
    try:
        with socket.create_connection(("127.0.0.1", port), SECONDS) as peer:
            peer.sendall(request)
            peer.shutdown(socket.SHUT_WR)
            answer = b"".join(iter(lambda: peer.recv(65_536), b""))
    except OSError as error:
        return str(error).encode()
    return re.sub(rb"(?m)^date: [^\r]*", b"date: DATE", answer)


@contextlib.contextmanager
def failing(lines):
    """The descriptors of the streams that fail, by their names."""
    streams = {}
    try:
        for name, path, mode in (STREAMS[line] for line in lines):
            streams[name] = os.open(path, mode)
        yield streams
    finally:
        for descriptor in streams.values():
            os.close(descriptor)


def run(command, room, stdin, visits, streams):
    """What the program prints, and what comes back on each visit. It is killed after SECONDS."""
    reads = subprocess.DEVNULL if visits else subprocess.PIPE
    pipes = {"stdin": reads, "stdout": subprocess.PIPE, "stderr": subprocess.PIPE, **streams}
    with subprocess.Popen(command, cwd=room, **pipes) as process:
        stop = threading.Timer(SECONDS, process.kill)
        stop.start()
        first, answers = b"", []
        if visits:
            first = process.stdout.readline()
            port = first.removeprefix(b"listening ").strip()
            if port.isdigit():
                first = first.replace(port, b"PORT")
                answers = [answer_to(int(port), request) for request in visits]
        stdout, stderr = process.communicate(None if visits else stdin)
        stop.cancel()
    printed = first + (stdout or b"")
    given = {"stdout": printed, "stderr": stderr, "status": b"%d\n" % process.returncode}
    return {**given, "visited": answers} if visits else given


def given_by(program, case, cells):
    """What the program gives for the values of a row's cells."""
    arguments = filled(case.section("args"), cells).split(b"\n")[:-1]
    visits = [unescaped(line) for line in case.lines("visits")]
    steps = list(steps_of(case, cells))
    with tempfile.TemporaryDirectory(prefix="sv-case-") as room:
        make_files(room, case, cells)
        command = limited([program, *arguments], case)
        with listening(case.section("taken")):
            if "steps" in case.sections:
                return run_steps(command, room, steps, SECONDS)
            with failing(case.lines("streams")) as streams:
                return run(command, room, filled(case.section("stdin"), cells), visits, streams)


def expected_of(case, row, cells):
    """What the program must give for the values of a row's cells."""
    status = b"killed\n" if "steps" in case.sections else b"0\n"
    defaults = {"stdout": b"", "stderr": b"", "status": status}
    expected = {it: filled(row.expected.get(it, text), cells) for it, text in defaults.items()}
    visited = row.expected.get("visited", b"").decode().splitlines()
    return {**expected, "visited": [unescaped(line) for line in visited], "step": b""}


def without_taken(it):
    """A message about a value, with TAKES for what its key takes if that is what the message says."""
    for text in [*TAKES.get(it[2].decode(), []), "a text"]:
        if it[3] == text.encode() or it[3].startswith(text.encode() + b": "):
            return it[1] + b"TAKES" + it[3][len(text.encode()) :]
    return it[0]


def without_places(given, expected):
    """What was given, with PLACE, LINE and TAKES for its places and for what keys take, if such are expected."""
    if b" is not TAKES" in expected:
        given = re.sub(rb"(?m)(: the value of `([^`\n]*)` is not )([^\n]+)$", without_taken, given)
    if b":PLACE\n" in expected:
        return re.sub(rb"(?m)^(  [^ \n]+):\d+:\d+: [^\n]+$", rb"\1:PLACE", given)
    if b":LINE: " in expected:
        return re.sub(rb"(?m)^(  [^ :\n]+)(?::\d+){0,2}: (?!\d)", rb"\1:LINE: ", given)
    return given


def differences(program, case, row):
    """How the program differs from what a row expects, in any of the row's forms, a line each."""
    lines = []
    for cells in row.forms:
        with naming(case.name):
            given, expected = given_by(program, case, cells), expected_of(case, row, cells)
        given["stderr"] = without_places(given["stderr"], expected["stderr"])
        for part in given:
            if given[part] != expected[part]:
                lines.append(f"{part} is {given[part]!r} and not {expected[part]!r}")
    return [f"case {case.name}: {row.line and row.line + ': '}{line}" for line in lines]


def named_rows(case):
    with naming(case.name):
        return list(rows_of(case))


def tried(program, cases):
    """The differences found on each row of the cases, row by row.

    Cases with steps mostly wait, so they have threads of their own."""
    rows = [(case, row) for case in cases for row in named_rows(case)]
    count = os.cpu_count()
    with (
        concurrent.futures.ThreadPoolExecutor(2 * count) as waiting,
        concurrent.futures.ThreadPoolExecutor(count) as working,
    ):
        pools = [(waiting if "steps" in case.sections else working) for case, _ in rows]
        runs = [pool.submit(differences, program, *it) for pool, it in zip(pools, rows)]
        return [it.result() for it in runs]
