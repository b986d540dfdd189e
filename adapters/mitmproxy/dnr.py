"""Asks the broker what becomes of each request, inside mitmproxy: mitmdump -s adapters/mitmproxy/dnr.py --set dnr_socket=PATH

A request is asked before it is sent, and again when the headers of its response are there, since rules may have conditions
on them. What is blocked gets the status 403, and what is sent elsewhere a 307; header changes are made on the headers that
come by.
"""
import asyncio
import os
import sys
from pathlib import Path

sys.path.append(str(Path(os.path.realpath(__file__)).parent.parent))

from mitmproxy import ctx, http

from dnr_lines.decision import decided, without_broker
from dnr_lines.lines import dumped, loaded
from dnr_lines.traffic import question

LONGEST_REPLY = 1 << 24


class Channel:
    """A connection to the broker, on which the questions of many requests are open at once."""

    def __init__(self, path):
        self.path, self.writer, self.number, self.waiting = path, None, 0, {}
        self.connecting = asyncio.Lock()

    async def connect(self):
        """Connects, where there is no connection."""
        async with self.connecting:
            if self.writer is None:
                reader, self.writer = await asyncio.open_unix_connection(self.path, limit=LONGEST_REPLY)
                asyncio.ensure_future(self.hear(reader, self.writer))

    async def hear(self, reader, writer):
        """Takes replies until the connection ends; what is open then has none."""
        try:
            while line := await reader.readline():
                reply = loaded(line)
                waiting = self.waiting.pop(reply.get("id"), None)
                if waiting and not waiting.done():
                    waiting.set_result(reply)
        except (OSError, ValueError):
            pass
        if writer is self.writer:
            self.close()

    def close(self):
        """Lets go of the connection."""
        self.writer.close()
        self.writer = None
        for waiting in self.waiting.values():
            if not waiting.done():
                waiting.set_exception(ConnectionError("the broker has left"))
        self.waiting.clear()

    async def ask(self, line, seconds):
        """The reply to a line. Raises OSError or asyncio.TimeoutError where there is none."""
        await self.connect()
        self.number += 1
        waiting = self.waiting[self.number] = asyncio.get_running_loop().create_future()
        number = self.number
        self.writer.write(dumped({"id": number, **line}) + b"\n")
        try:
            return await asyncio.wait_for(waiting, seconds)
        finally:
            self.waiting.pop(number, None)


def text_of(name_or_value):
    """A header's bytes as text: each byte a character, so none is lost."""
    return name_or_value.decode("latin-1")


def header_of(headers):
    """A function that gives the value of a header, or None."""
    values = {text_of(name).lower(): text_of(value) for name, value in headers.fields}
    return lambda name: values.get(name.lower())


def bytes_of(text):
    """The bytes of a header that a rule sets."""
    try:
        return text.encode("latin-1")
    except UnicodeEncodeError:
        return text.encode()


def pairs(headers):
    """Headers as a question has them."""
    return [[text_of(name), text_of(value)] for name, value in headers.fields]


def change(headers, ops, direction):
    """Makes the header changes of one direction."""
    for where, operation, name, value, _ in ops:
        if where != direction:
            continue
        name = bytes_of(name)
        kept = headers.fields
        if operation != "append":
            kept = tuple(field for field in kept if field[0].lower() != name)
        headers.fields = kept if operation == "remove" else (*kept, (name, bytes_of(value)))


def answer_of(decision):
    """The response in place of what a decision keeps from its server, or None."""
    if decision.action == "redirect":
        return http.Response.make(307, b"", {"Location": decision.url, "Cache-Control": "no-store"})
    if decision.action == "block":
        return http.Response.make(403, f"blocked by dnr: {decision.why}\n", {"Content-Type": "text/plain; charset=utf-8"})
    return None


class Instead:
    """Lets a body stand in the place of another that is streamed, which is dropped as it comes."""

    def __init__(self, body):
        self.left = [body] if body else []

    def __call__(self, _):
        left, self.left = self.left, []
        return left


class Dnr:
    """The addon. `dnr_line` in a flow's metadata is its question, and `dnr_ops` the header changes of the answer."""

    def __init__(self):
        self.channel = None

    def load(self, loader):
        """Names the options."""
        loader.add_option("dnr_socket", str, "/run/dnrd/socket", "where the broker listens")
        loader.add_option("dnr_undecided", str, "closed", "what becomes of requests while no broker answers: closed or open")
        loader.add_option("dnr_seconds", int, 5, "how long the broker may take")
        loader.add_option("dnr_responses", bool, True, "whether responses are asked for, too, since rules may test them")

    def configure(self, updated):
        """Takes the options in."""
        if "dnr_socket" in updated:
            self.channel = Channel(ctx.options.dnr_socket)

    async def decision(self, line):
        """The decision on a question; a connection that was lost is made anew once."""
        for _ in range(2):
            try:
                return decided(await self.channel.ask(line, ctx.options.dnr_seconds))
            except asyncio.TimeoutError:
                ctx.log.warn(f"dnr: the broker at {self.channel.path} didn't answer in time")
                break
            except OSError as error:
                ctx.log.warn(f"dnr: the broker at {self.channel.path} can't be asked: {error}")
        return without_broker(ctx.options.dnr_undecided)

    async def http_connect(self, flow):
        """Asks for a tunnel, of which no more than the site is known."""
        flow.response = answer_of(await self.decision(question(f"{flow.request.host}:{flow.request.port}", "CONNECT", {}.get)))

    async def request(self, flow):
        """Asks for a request before it is sent."""
        if flow.response:
            return
        url = flow.request.url.encode("utf-8", "surrogateescape").decode("latin-1")
        line = question(url, flow.request.method, header_of(flow.request.headers))
        line["requestHeaders"] = pairs(flow.request.headers)
        decision = await self.decision(line)
        flow.response = answer_of(decision)
        if not flow.response:
            flow.metadata.update(dnr_line=line, dnr_ops=decision.ops)
            change(flow.request.headers, decision.ops, "request")

    async def responseheaders(self, flow):
        """Asks again when the headers of the response are there, and changes them."""
        line, ops = flow.metadata.pop("dnr_line", None), flow.metadata.pop("dnr_ops", [])
        if line and ctx.options.dnr_responses:
            decision = await self.decision({**line, "responseHeaders": pairs(flow.response.headers)})
            answer, ops = answer_of(decision), decision.ops
            if answer:
                flow.response = answer
                flow.response.stream = Instead(b"" if flow.request.method == "HEAD" else answer.content)
                return
        change(flow.response.headers, ops, "response")


addons = [Dnr()]
