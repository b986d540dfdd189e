"""What the tests of the adapters stand on: a broker, a small server, proxies, and curl."""
import contextlib
import http.server
import json
import os
import shutil
import signal
import socket
import subprocess
import sys
import tempfile
import threading
import time
from pathlib import Path

HERE = Path(__file__).resolve().parent
TOP = HERE.parent.parent
ADAPTERS = TOP / "adapters"
SCRIPTED = HERE / "scripted.py"
sys.path.insert(0, str(ADAPTERS))

from dnr_lines.client import Client
from dnr_lines.program import Missing, program


def built():
    """The built program, or None."""
    try:
        return program()
    except Missing:
        return None


def missing(*names):
    """The programs among these that aren't installed, in a few words."""
    absent = [name for name in names if not shutil.which(name, path=f"{os.environ['PATH']}:/usr/sbin:/sbin")]
    if built() is None:
        absent.append("the built program")
    return " and ".join(absent)


@contextlib.contextmanager
def room():
    """A folder that is gone afterwards."""
    with tempfile.TemporaryDirectory(prefix="dnr-test-") as name:
        yield Path(name)


def free_port():
    """A port on the loopback on which nobody listens."""
    with socket.socket() as probe:
        probe.bind(("127.0.0.1", 0))
        return probe.getsockname()[1]


def wait_for(condition, seconds=60, what="it"):
    """Waits until a condition holds."""
    until = time.monotonic() + seconds
    while not condition():
        if time.monotonic() > until:
            raise AssertionError(f"{what} didn't come in {seconds} s")
        time.sleep(0.02)


def listens(port):
    """Whether somebody listens at a port of the loopback."""
    with socket.socket() as probe:
        return probe.connect_ex(("127.0.0.1", port)) == 0


class Broker:
    """A running broker in a folder. `words` are those behind `--socket`; `environment` adds to that of the test."""

    def __init__(self, folder, *words, environment=()):
        self.folder, self.socket = folder, str(folder / "socket")
        self.said = open(folder / "said", "ab+")
        self.process = subprocess.Popen(
            [ADAPTERS / "dnrd/dnrd", "--socket", self.socket, *words],
            cwd=folder,
            stderr=self.said,
            env={**os.environ, **dict(environment)},
        )
        wait_for(lambda: self.process.poll() is not None or self.answers(), what="the broker's socket")

    def answers(self):
        """Whether clients can connect."""
        with socket.socket(socket.AF_UNIX) as probe:
            return probe.connect_ex(self.socket) == 0

    def client(self):
        """A connection to it."""
        return Client(self.socket, seconds=30)

    def words_said(self):
        """What it said on standard error."""
        return (self.folder / "said").read_text()

    def engines(self):
        """The ids of its engines' processes."""
        found = subprocess.run(["ps", "-o", "pid=", "--ppid", str(self.process.pid)], stdout=subprocess.PIPE, check=False)
        return [int(it) for it in found.stdout.split()]

    def stop(self, how=signal.SIGTERM):
        """Ends it, and gives its status."""
        if self.process.poll() is None:
            self.process.send_signal(how)
        status = self.process.wait(20)
        self.said.close()
        return status

    def __enter__(self):
        return self

    def __exit__(self, *_):
        self.stop()


class Handler(http.server.BaseHTTPRequestHandler):
    """Answers each request with what it was asked, as JSON."""

    protocol_version = "HTTP/1.1"

    def do_GET(self):
        """Answers, with some headers that rules may change."""
        self.server.seen.append(f"{self.headers['Host']}{self.path}")
        told = {"host": self.headers["Host"], "path": self.path, "headers": [list(it) for it in self.headers.items()]}
        body = json.dumps(told).encode()
        self.send_response(200)
        self.send_header("Content-Length", str(len(body)))
        self.send_header("Content-Type", "application/json")
        self.send_header("X-Kind", "tracking" if "tracking" in self.path else "plain")
        self.send_header("Set-Cookie", "a=1")
        self.end_headers()
        if self.command != "HEAD":
            self.wfile.write(body)

    do_POST = do_HEAD = do_GET

    def log_message(self, *_):
        """Says nothing."""


@contextlib.contextmanager
def web_server():
    """A server on the loopback; `seen` has the host and path of each request that reached it."""
    server = http.server.ThreadingHTTPServer(("127.0.0.1", 0), Handler)
    server.daemon_threads, server.seen = True, []
    thread = threading.Thread(target=server.serve_forever, daemon=True)
    thread.start()
    try:
        yield server
    finally:
        server.shutdown()
        server.server_close()


class Answer:
    """What curl got."""

    def __init__(self, text):
        head, _, self.body = text.rpartition("\r\n\r\n")
        lines = head.split("\r\n\r\n")[-1].split("\r\n")
        self.status = int(lines[0].split()[1]) if lines[0] else 0
        self.headers = {}
        for line in lines[1:]:
            name, _, value = line.partition(":")
            self.headers.setdefault(name.lower(), []).append(value.strip())

    def sent(self):
        """The headers that reached the server, by name."""
        return {name.lower(): value for name, value in json.loads(self.body)["headers"]}


def curl(proxy, url, *words):
    """Asks for a URL through a proxy on the loopback."""
    done = subprocess.run(
        ["curl", "--silent", "--include", "--max-time", "20", "--proxy", f"http://127.0.0.1:{proxy}", *words, url],
        stdout=subprocess.PIPE,
        stderr=subprocess.PIPE,
        check=False,
    )
    return Answer(done.stdout.decode("latin-1"))


def write_json(path, value):
    """Writes a file of JSON."""
    path.parent.mkdir(parents=True, exist_ok=True)
    path.write_text(json.dumps(value))
