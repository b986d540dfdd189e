"""What a reply of the broker asks a proxy to do."""
from typing import NamedTuple, Optional


class Decision(NamedTuple):
    """`action` is "pass", "block" or "redirect"; `url` is the target of a redirect; `ops` are the header changes."""

    action: str
    url: Optional[str] = None
    ops: list = []
    why: str = ""


def named(rule):
    """A rule in a few words."""
    return "/".join(map(str, rule))


def decided(reply):
    """The decision that a reply asks for.

    A target that no server can give, as a page of an extension, can't be sent by a proxy: such a request is blocked.
    A reply without a verdict is no leave to pass.
    """
    verdict = reply.get("verdict")
    why = named(reply["rule"]) if "rule" in reply else f"{reply.get('setting', 'no verdict')}: {reply.get('cause', '')}"
    if verdict in ("none", "allow"):
        return Decision("pass", ops=reply.get("ops", []), why=why)
    if verdict in ("redirect", "upgrade") and reply.get("url", "").startswith(("http://", "https://")):
        return Decision("redirect", url=reply["url"], why=why)
    return Decision("block", why=why)


def without_broker(setting):
    """The decision where the broker can't be asked: `closed` blocks, `open` lets pass."""
    return Decision("pass" if setting == "open" else "block", why=f"{setting}: no broker")
