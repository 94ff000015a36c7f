"""What bench/serve, bench/run, bench/speed and bench/clients share: the servers that they measure, and what they measure them with."""
import contextlib
import os
import re
import resource
import shutil
import signal
import socket
import subprocess
import sys
import tempfile
import time

TOP = os.path.dirname(os.path.dirname(os.path.realpath(__file__)))
DEMO = f"{TOP}/examples/demo"
SERVER = f'port = 0\nseed = "{"0" * 64}"\ncontext = [{{ path = "", descriptor = "root.toml", files = "" }}]\n'
ROOT = 'servlet = [{ servlet-name = "who", servlet-class = "Who" }]\nservlet-mapping = [{ servlet-name = "who", url-pattern = ["/who"] }]\n'
NGINX = """daemon off; master_process off; worker_processes 1; pid nginx.pid; error_log stderr;
events {{ worker_connections 4096; }}
http {{
    access_log off; keepalive_requests 1000000000; default_type text/plain; tcp_nodelay on; sendfile on; tcp_nopush on;
    server {{
        listen 127.0.0.1:{port};
        location = /who {{ return 200 "caller -\\n"; }}
        location / {{ root files; }}
    }}
}}
"""
REQUEST = b"GET /who HTTP/1.1\r\nHost: localhost\r\n\r\n"
STARTS = 20
# Where so many ports are not free for connections of a run, it waits for them.
SPARE_PORTS = 1000
missed = []


def within(value, most, text):
    """The text of a figure, and what it may be at most."""
    if value > most:
        missed.append(text)
    return f"{text}, at most {most}"


def end_in_order():
    """Ends the servers of a script that is killed."""
    signal.signal(signal.SIGTERM, lambda *_: sys.exit(1))


@contextlib.contextmanager
def running(arguments, folder):
    """A server that tells its port by the line `listening PORT` or `listening ADDRESS:PORT`: its number as a process, and the port."""
    with subprocess.Popen(
        arguments, cwd=folder, stdin=subprocess.DEVNULL, stdout=subprocess.PIPE, text=True
    ) as server:
        try:
            line = server.stdout.readline()
            if not line.startswith("listening "):
                sys.exit(f"bench: {arguments}: {line!r}")
            yield server.pid, int(re.split("[ :]", line)[-1])
        finally:
            server.kill()


@contextlib.contextmanager
def nginx(folder, front=()):
    """nginx with one worker, which also serves the folder's files: its process id and port. `front` precedes its command."""
    with socket.create_server(("127.0.0.1", 0)) as free:
        port = free.getsockname()[1]
    with open(f"{folder}/nginx.conf", "w") as file:
        file.write(NGINX.format(port=port))
    with subprocess.Popen(
        [*front, "nginx", "-p", folder, "-c", f"{folder}/nginx.conf"], stdin=subprocess.DEVNULL
    ) as server:
        try:
            answered(port, 10)
            yield server.pid, port
        finally:
            server.kill()


@contextlib.contextmanager
def room():
    """A temporary folder. What is ended meanwhile leaves neither it nor a server behind."""
    end_in_order()
    with tempfile.TemporaryDirectory(prefix="sv-bench-") as folder:
        yield folder


@contextlib.contextmanager
def room_of_servers():
    """A folder with the configuration of one servlet, and our peers: the folder, and the program of the peers."""
    with room() as folder:
        peers = f"{folder}/peers"
        subprocess.run(
            ["cc", "-O2", "-D_GNU_SOURCE", "-o", peers, f"{TOP}/bench/serve_peers.c"], check=True
        )
        for name, text in ("server.toml", SERVER), ("root.toml", ROOT):
            with open(f"{folder}/{name}", "w") as file:
                file.write(text)
        yield folder, peers


def raise_open_files():
    """As many descriptors as may be had, for this script and for what it starts."""
    most = resource.getrlimit(resource.RLIMIT_NOFILE)[1]
    resource.setrlimit(resource.RLIMIT_NOFILE, (most, most))


def running_run(program, folder):
    """The command `run` on the configuration of a folder."""
    return running([program, "run", "server.toml"], folder)


@contextlib.contextmanager
def connections(port, count):
    """So many connections at once."""
    with contextlib.ExitStack() as stack:
        yield [
            stack.enter_context(socket.create_connection(("127.0.0.1", port))) for _ in range(count)
        ]


def wait_until(what, holds, seconds=20):
    """Waits until something holds, and ends the script if it does not within so many seconds."""
    end = time.monotonic() + seconds
    while not holds():
        if time.monotonic() > end:
            sys.exit(f"{what}: not within {seconds} seconds")
        time.sleep(0.05)


def answered(port, patience):
    """Asks once over a connection of its own, and reads the answer's first bytes; where nobody listens yet, again."""
    start = time.perf_counter()
    while True:
        try:
            with socket.create_connection(("127.0.0.1", port)) as peer:
                peer.sendall(REQUEST)
                answer = peer.recv(65536)
            break
        except ConnectionRefusedError:
            if time.perf_counter() - start > patience:
                raise
    if not answer.startswith(b"HTTP/1.1 200 "):
        sys.exit(f"bench: {answer!r}")


def asked(peers, port, way, *numbers):
    """The numbers that our client prints for so many requests, first the seconds that they took. `peers` is its name, or a command."""
    words = [*([peers] if isinstance(peers, str) else peers), way, str(port), *map(str, numbers)]
    ran = subprocess.run(
        words, stdin=subprocess.DEVNULL, stdout=subprocess.PIPE, text=True, check=True
    )
    return [float(it) for it in ran.stdout.split()]


def wait_for_ports(count):
    """Waits until so many ports are free for connections: each that was closed holds its port for a minute."""
    with open("/proc/sys/net/ipv4/ip_local_port_range") as file:
        first, last = map(int, file.read().split())
    for _ in range(90):
        with open("/proc/net/sockstat") as file:
            waiting = int(re.search(r"tw (\d+)", file.read())[1])
        if waiting < max(last - first - count - SPARE_PORTS, SPARE_PORTS):
            return
        time.sleep(1)


def memory(number):
    """What a process has taken of memory at most, and what it holds, in KiB."""
    with open(f"/proc/{number}/status") as file:
        fields = dict(line.split(":", 1) for line in file)
    return int(fields["VmHWM"].split()[0]), int(fields["VmRSS"].split()[0])


def start_time(serving):
    """The milliseconds from the start of a server to its first answer, the least of all runs."""
    times = []
    for _ in range(STARTS):
        start = time.perf_counter()
        with serving() as (_, port):
            answered(port, 0)
            times.append(time.perf_counter() - start)
    return min(times) * 1000


def has(program):
    return shutil.which(program) is not None
