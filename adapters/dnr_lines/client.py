"""A connection to the broker, for programs that ask one line after another."""
import socket
from collections import deque

from dnr_lines.lines import Cutter, dumped, loaded

CHUNK = 1 << 16


class Client:
    """A connection to the broker at `path`. Raises OSError where it can't be reached."""

    def __init__(self, path, seconds=None):
        self.connection = socket.socket(socket.AF_UNIX)
        self.connection.settimeout(seconds)
        self.connection.connect(path)
        self.cutter, self.lines = Cutter(), deque()

    def __enter__(self):
        return self

    def __exit__(self, *_):
        self.connection.close()

    def send(self, line):
        """Sends one line, an object, which has an `id` where its reply is to be told from others."""
        self.connection.sendall(dumped(line) + b"\n")

    def line(self):
        """The next reply that comes, in bytes without its LF."""
        while not self.lines:
            chunk = self.connection.recv(CHUNK)
            if not chunk:
                raise OSError("the broker has left")
            self.lines += self.cutter.lines(chunk)
        return self.lines.popleft()

    def reply(self):
        """The next reply that comes."""
        return loaded(self.line())

    def ask(self, line):
        """The reply to one line, where no other is open."""
        self.send(line)
        return self.reply()
