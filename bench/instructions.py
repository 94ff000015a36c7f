"""The instructions of a request outside the kernel, counted by valgrind, for bench/request_costs and bench/speed."""
import contextlib
import subprocess
import sys

from servers import connections, running

# The requests before and during the count.
FIRST = 100
COUNTED = 200
BROWSER = b"""GET /who HTTP/1.1
Host: localhost:8080
Connection: keep-alive
Cache-Control: max-age=0
sec-ch-ua: "Chromium";v="130", "Not?A_Brand";v="99"
sec-ch-ua-mobile: ?0
sec-ch-ua-platform: "Linux"
Upgrade-Insecure-Requests: 1
User-Agent: Mozilla/5.0 (X11; Linux x86_64) AppleWebKit/537.36 (KHTML, like Gecko) Chrome/130.0.0.0 Safari/537.36
Accept: text/html,application/xhtml+xml,application/xml;q=0.9,image/avif,image/webp,image/apng,*/*;q=0.8,application/signed-exchange;v=b3;q=0.7
Sec-Fetch-Site: none
Sec-Fetch-Mode: navigate
Sec-Fetch-User: ?1
Sec-Fetch-Dest: document
Accept-Encoding: gzip, deflate, br, zstd
Accept-Language: en-US,en;q=0.9

""".replace(
    b"\n", b"\r\n"
)


def ask(peer, request, count):
    """Sends a request so many times, each after the previous answer."""
    for _ in range(count):
        peer.sendall(request)
        answer = peer.recv(65536)
        if not answer.startswith(b"HTTP/1.1 200 "):
            sys.exit(f"bench: {answer!r}")


@contextlib.contextmanager
def asked_first(arguments, folder, request):
    """A server that has answered some requests: its process id, and a function that sends more of them. A request that needs a session is a function of the
    connection, which opens one."""
    with running(arguments, folder) as (number, port), connections(port, 1) as (peer,):
        found = request(peer) if callable(request) else request
        ask(peer, found, FIRST)
        yield number, lambda count: ask(peer, found, count)


def counted_by_valgrind(program, folder, request, options=()):
    """The name of valgrind's second file, which has the counts after the first one."""
    file = f"{folder}/instructions"
    counting = [
        "valgrind",
        "-q",
        "--tool=callgrind",
        "--dump-instr=yes",
        f"--callgrind-out-file={file}",
        f"--vgdb-prefix={folder}/vgdb",
        program,
        "run",
        "server.toml",
        *options,
    ]
    with asked_first(counting, folder, request) as (number, ask_more):
        for count in (0, COUNTED):
            ask_more(count)
            subprocess.run(
                ["callgrind_control", f"--vgdb-prefix={folder}/vgdb", "-d", str(number)],
                capture_output=True,
                check=True,
            )
    return f"{file}.2"


def instructions(program, folder, request, options=()):
    """The instructions of a request of `run` on the configuration of a folder, with these options."""
    with open(counted_by_valgrind(program, folder, request, options)) as lines:
        total = next(line for line in lines if line.startswith("summary: "))
    return int(total.split()[1]) / COUNTED
