"""What clients ask: a line, its `id`, and the reply that it gets."""
import re

from dnr_lines.lines import QUESTIONS, UPDATES, dumped, loaded

# What a question keeps when it is asked again: neither headers nor frames, and nobody asks.
KEPT = ("cmd", "url", "type", "method", "tab")
KINDS = {
    **dict.fromkeys(QUESTIONS, "request"),
    **dict.fromkeys(UPDATES, "update"),
    **{name: name for name in ("exchange", "counts", "sync")},
}
# How a request begins of which nothing is read but its `id`.
PLAIN = re.compile(rb'\{"id": ?(0|[1-9][0-9]{0,17}|"[ !#-\[\]-~]*"),').match


class Nobody:
    """Who a question belongs to that no client asked, or whose client has had its reply."""

    def reply(self, _):
        """Drops a reply."""


NOBODY = Nobody()


class Question:
    """One line of a client. `kind` is "request", "update", "exchange", "counts" or "sync"; "json" or "command" where it is
    bad as such; or the broker's own "restore", "end" or "nothing". `name` is its `id` as JSON in bytes.
    """

    __slots__ = ("client", "name", "line", "kind", "until", "tries", "relaxed")

    def __init__(self, client, name, line, kind, until):
        self.client, self.name, self.line, self.kind, self.until = client, name, line, kind, until
        self.tries, self.relaxed = 0, False

    def relax(self):
        """Makes this the same question without headers and frames, asked by nobody."""
        whole = loaded(self.line)
        self.line = dumped({key: whole[key] for key in KEPT if key in whole})
        self.relaxed = True

    def reply(self, rest):
        """Tells the client what comes behind the `id`, in bytes that end with a brace."""
        self.client.reply(b'{"id":%s,%s\n' % (self.name, rest))


def read(client, line, until):
    """The question that a line of a client holds, which may wait until that time where it is a request.

    The line is handed on as it stands: to `dnr` the `id` is a key that it doesn't know. A line that begins with its `id`,
    and has no other key or text `id`, no `cmd` and no escapes, is a request with that `id` or no JSON at all; which of
    these `dnr` tells.
    """
    plain = PLAIN(line)
    if plain and b"\\" not in line and b'"cmd"' not in line and line.count(b'"id"') == 1:
        return Question(client, plain[1], line, "request", until)
    try:
        whole = loaded(line)
    except ValueError:
        return Question(client, b"null", line, "json", until)
    name, command = whole.get("id"), whole.get("cmd", "request")
    name = dumped(name) if name.__class__ in (str, int) else b"null"
    kind = KINDS.get(command, "command") if command.__class__ is str else "command"
    return Question(client, name, line, kind, until)
