"""Where in a text of JSON a value stands. The text is one that Python's decoder reads."""
import re
from bisect import bisect_right
from json import JSONDecoder
from json.decoder import scanstring

WHITE = re.compile(r"[ \t\n\r]*")
DECODER = JSONDecoder()


def children(text, at):
    """The entries of the list or object at an offset: for each its index or key, where it begins, and where its value does."""
    closing = {"[": "]", "{": "}"}.get(text[at : at + 1])
    if closing is None:
        return
    at, index = WHITE.match(text, at + 1).end(), 0
    while text[at] != closing:
        name, start = index, at
        if closing == "}":
            name, at = scanstring(text, at + 1)
            at = WHITE.match(text, WHITE.match(text, at).end() + 1).end()
        yield name, start, at
        at = WHITE.match(text, DECODER.raw_decode(text, at)[1]).end()
        if text[at] == ",":
            at = WHITE.match(text, at + 1).end()
        index += 1


def find(text, at, path):
    """Where what a path leads to begins, from the value at an offset: a field at its key. Of a path that is not there whole
    it is the last step that is there."""
    start = value = at
    for step in path:
        found = [(begins, inner) for name, begins, inner in children(text, value) if name == step]
        if not found:
            return start
        start, value = found[-1]
    return start


def begin(text):
    """The offset of the value that a text holds."""
    return WHITE.match(text).end()


class Lines:
    """Lines and columns of a text, both counted from 1."""

    def __init__(self, text):
        self.starts = [0] + [match.end() for match in re.finditer("\n", text)]

    def place(self, offset):
        """The line and the column of an offset."""
        line = bisect_right(self.starts, offset)
        return line, offset - self.starts[line - 1] + 1
