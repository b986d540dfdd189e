"""The socket side: clients, the lines that they send, and the replies that they are sent."""
import grp
import os
import socket
from functools import partial

from dnr_lines.lines import LONGEST, Cutter
from events import READ, WRITE

# So many bytes are read at once. (For many more than a line has, memory would be mapped and given back for each line.)
CHUNK = 1 << 14
# A client that has so many questions open, or leaves so many bytes unread, is not read from until that falls.
OPEN_QUESTIONS = 1_000
UNSENT = 1 << 20


class Client:
    """One connection. `open` counts its questions that have no reply yet."""

    def __init__(self, connection, events, receive, touched):
        connection.setblocking(False)
        self.connection, self.events, self.receive, self.touched = connection, events, receive, touched
        self.cutter, self.replies, self.unsent = Cutter(), [], b""
        self.open, self.mask = 0, 0
        self.ended = self.gone = False
        self.settle()

    def lines(self):
        """The whole lines that came; a line that is too long, or an end, ends the reading."""
        try:
            chunk = self.connection.recv(CHUNK)
        except (BlockingIOError, InterruptedError):
            return []
        except OSError:
            chunk = b""
            self.leave()
        lines = self.cutter.lines(chunk)
        if not chunk or len(self.cutter.rest) > LONGEST:
            self.ended = True
        return lines

    def reply(self, line):
        """Adds a reply, which is sent at the next `flush`."""
        self.open -= 1
        self.replies.append(line)
        self.touched.add(self)

    def flush(self):
        """Sends what the connection takes now."""
        if self.gone:
            return
        if self.replies:
            self.unsent += b"".join(self.replies)
            self.replies.clear()
        if self.unsent:
            try:
                self.unsent = self.unsent[self.connection.send(self.unsent) :]
            except (BlockingIOError, InterruptedError):
                pass
            except OSError:
                self.leave()
                return
        # (one that is read from, and was sent all, waits for what it waited for)
        if self.unsent or self.ended or self.mask != READ:
            self.settle()

    def settle(self):
        """Says what this client waits for; one that has ended and is owed nothing leaves."""
        if self.gone or self.ended and not self.open and not self.unsent:
            self.leave()
            return
        reading = not self.ended and self.open < OPEN_QUESTIONS and len(self.unsent) < UNSENT
        mask = (READ if reading else 0) | (WRITE if self.unsent else 0)
        if mask == self.mask:
            return
        if not mask:
            self.events.unregister(self.connection.fileno())
        elif not self.mask:
            self.events.register(self.connection.fileno(), mask, partial(self.receive, self))
        else:
            self.events.modify(self.connection.fileno(), mask)
        self.mask = mask

    def leave(self):
        """Closes the connection; replies that come later are dropped."""
        if self.gone:
            return
        if self.mask:
            self.events.unregister(self.connection.fileno())
        self.mask, self.gone = 0, True
        self.connection.close()


def answers_at(path):
    """Whether a broker answers at this socket."""
    with socket.socket(socket.AF_UNIX) as probe:
        try:
            probe.connect(path)
        except OSError:
            return False
        return True


def listening(path, group=None):
    """A socket at `path` on which clients may connect: those of this user, or those of a group.

    A socket that an ended broker left is taken away. Raises OSError, also where another broker answers there.
    """
    if answers_at(path):
        raise OSError(f"another broker answers at {path}")
    if os.path.lexists(path):
        os.unlink(path)
    listener = socket.socket(socket.AF_UNIX)
    mask = os.umask(0o177)
    try:
        listener.bind(path)
    finally:
        os.umask(mask)
    if group:
        os.chown(path, -1, grp.getgrnam(group).gr_gid)
        os.chmod(path, 0o660)
    listener.listen(128)
    listener.setblocking(False)
    return listener
