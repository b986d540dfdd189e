"""The lines that `dnr` and the broker read and write: one JSON object each."""
import json

# A line of a script that is longer than 8,388,608 bytes ends the program; what is longer than this is never handed to it.
LONGEST = 8_000_000
SYNC = b'{"cmd":"sync"}'
QUESTIONS = ("request", "explain")
UPDATES = ("dynamic", "session", "rulesets", "static", "install", "uninstall", "batch")
VERDICTS = ("none", "block", "allow", "redirect", "upgrade")
# (`json.dumps` makes an encoder for each text whose form is not its own)
WITH_LETTERS = json.JSONEncoder(separators=(",", ":"), ensure_ascii=False).encode
ESCAPED = json.JSONEncoder(separators=(",", ":")).encode


def dumped(value):
    """A value as one line of JSON without its LF, in bytes; what is not ASCII stands as it is, where UTF-8 has it."""
    try:
        return WITH_LETTERS(value).encode()
    except UnicodeEncodeError:
        return ESCAPED(value).encode()


def loaded(line):
    """The object that a line of bytes holds. Raises ValueError where it is none, or nothing that `dnr` can be asked."""
    try:
        value = json.loads(line.decode())
    except RecursionError:
        raise ValueError("too many nestings") from None
    if not isinstance(value, dict):
        raise ValueError("no object")
    return value


class Cutter:
    """Cuts into lines what comes in chunks; `rest` is what came of a line that has no end yet."""

    def __init__(self):
        self.rest = bytearray()

    def lines(self, chunk):
        """The lines that end in a further chunk of bytes. Each byte of a line is copied once, however many chunks it comes in."""
        lines = chunk.split(b"\n")
        last = lines.pop()
        if not last and not self.rest:
            return lines
        if lines:
            lines[0] = bytes(self.rest) + lines[0]
            self.rest.clear()
        self.rest += last
        return lines
