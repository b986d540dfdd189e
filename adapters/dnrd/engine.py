"""One running `dnr serve /dev/stdin`. What it is asked and what it answers are matched by the order of lines."""
import fcntl
import os
import subprocess
import time
from collections import deque

from dnr_lines.lines import SYNC, Cutter
from questions import NOBODY, Question

PIPE = 1 << 20
# So many bytes are read at once, the answers of a round. (For 128 KiB memory would be mapped and given back for each read.)
CHUNK = 1 << 16
# A session has at most 2^32 - 1 lines and 1,000,000 updates; an engine is replaced by a fresh one before.
LINES, UPDATES = 4_000_000_000, 900_000
# What stands behind the questions of a round, and is answered as the last of it; and what is asked where nothing is.
END, NOTHING = Question(NOBODY, b"", SYNC, "end", 0), Question(NOBODY, b"", b"", "nothing", 0)


class Doubt(Exception):
    """An engine that can't be relied on any more, and why."""


def widen(pipe):
    """Lets a pipe hold more bytes, where the system allows it."""
    try:
        fcntl.fcntl(pipe, fcntl.F_SETPIPE_SZ, PIPE)
    except (AttributeError, OSError):
        pass


class Engine:
    """A running program. `asked` is what it owes an answer to, in the order of its lines: the questions of a round and `END`.
    A round is asked when the answers of the last one are there, be they looked at or not; so there are two at most.

    `closed` says that it was let go, and an event of its pipes at hand is to be passed over;
    `watched` says whether somebody waits for room in its pipe.
    `count` is the number of updates that it accepted, and `shift` what is added to it in what clients are told.
    """

    def __init__(self, program, words, room):
        self.room = room
        self.process = subprocess.Popen(
            [program, "serve", *words, "/dev/stdin"],
            cwd=room,
            bufsize=0,
            stdin=subprocess.PIPE,
            stdout=subprocess.PIPE,
            # (a signal to the broker from a terminal is not one to the engine)
            start_new_session=True,
        )
        self.input, self.output = self.process.stdin.fileno(), self.process.stdout.fileno()
        for pipe in (self.input, self.output):
            os.set_blocking(pipe, False)
            widen(pipe)
        self.line = self.count = self.shift = 0
        self.asked = deque()
        self.unwritten, self.cutter, self.odd = b"", Cutter(), b""
        self.ended = self.watched = self.closed = False
        self.moved = time.monotonic()

    def lines(self, now):
        """Reads what the engine wrote: the whole lines."""
        try:
            chunk = os.read(self.output, CHUNK)
        except BlockingIOError:
            return []
        if not chunk:
            self.ended = True
            raise Doubt(f"it ended with status {self.status()}")
        self.moved = now
        return self.cutter.lines(chunk)

    def rest(self, text):
        """What stands in the next line behind its number. Raises `Doubt` where it is no answer to what was asked next."""
        beginning = b'{"line":%d,' % (self.line + 1)
        if not self.asked or not text.startswith(beginning) or not text.endswith(b"}"):
            self.odd = text
            raise Doubt(f"line {self.line + 1} was to be answered, and it wrote {text[:80]!r}")
        return text[len(beginning) :]

    def accepts(self, answer):
        """Whether this answer says that the next update was accepted; it is counted then."""
        if answer != b'"accepted":%d}' % (self.count + 1):
            return False
        self.count += 1
        return True

    def last_words(self):
        """The line that was no answer, or else what was left of one, and the status where it has ended."""
        return bytes(self.odd or self.cutter.rest).decode(errors="replace").strip(), self.status()

    def status(self):
        """The status of an engine that has ended, and None where it hasn't. Where its output has ended it soon does."""
        try:
            return self.process.wait(0.5 if self.ended else 0)
        except subprocess.TimeoutExpired:
            return None

    def close(self):
        """Ends the engine; its process is to be waited for later."""
        self.closed = True
        self.process.kill()
        self.process.stdin.close()
        self.process.stdout.close()
