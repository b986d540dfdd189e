#!/usr/bin/env python3
"""The engine from Python, over the shared library: examples/c/dnr.py LIBRARY WORD.. <SCRIPT

The words are those of `dnr serve` or `dnr match`, without the name of the script, which is standard input. Files are read
from the current folder.
"""
import ctypes
import os
import sys

DONE, NO_MEMORY, CLOSED, OPEN, NO_ROOM, USAGE, REFUSED, NO_FILE, TOO_LONG, NO_TEXT, HOST_FAULT = range(11)

# The numbers of the header, in its order.
TYPES = """main_frame sub_frame stylesheet script image font object xmlhttprequest ping csp_report media websocket webtransport
webbundle other""".split()
METHODS = "connect delete get head options patch post put other".split()
OUTCOMES = "none block redirect upgrade allow".split()
DIRECTIONS, OPERATIONS = ("request", "response"), ("append", "set", "remove")


class Seat(ctypes.Structure):
    _fields_ = [("at", ctypes.c_void_p), ("is_open", ctypes.c_bool)]


class Text(ctypes.Structure):
    _fields_ = [("bytes", ctypes.c_char_p), ("length", ctypes.c_size_t)]


class File(ctypes.Structure):
    _fields_ = [("name", ctypes.c_char_p), ("name_length", ctypes.c_size_t), ("bytes", ctypes.c_char_p), ("length", ctypes.c_size_t)]


TEXT = [("", ctypes.c_char_p), ("_length", ctypes.c_size_t)]


def texts(*names):
    """The fields of texts of these names."""
    return [(name + part, kind) for name in names for part, kind in TEXT]


class Frame(ctypes.Structure):
    _fields_ = [
        *texts("url", "initiator"),
        ("method", ctypes.c_uint32),
        ("has_url", ctypes.c_bool),
        ("has_initiator", ctypes.c_bool),
    ]


class Header(ctypes.Structure):
    _fields_ = texts("name", "value")


class Request(ctypes.Structure):
    _fields_ = [
        *texts("url", "initiator"),
        ("frames", ctypes.POINTER(Frame)),
        ("frame_count", ctypes.c_size_t),
        ("request_headers", ctypes.POINTER(Header)),
        ("request_header_count", ctypes.c_size_t),
        ("response_headers", ctypes.POINTER(Header)),
        ("response_header_count", ctypes.c_size_t),
        *[(name, ctypes.c_uint32) for name in ("type", "method", "tab")],
        *[(name, ctypes.c_bool) for name in ("has_initiator", "has_tab", "has_request_headers", "has_response_headers")],
    ]


class Span(ctypes.Structure):
    _fields_ = [("begin", ctypes.c_size_t), ("length", ctypes.c_size_t)]


class Rule(ctypes.Structure):
    _fields_ = [("extension", Span), ("ruleset", Span), ("id", ctypes.c_uint32)]


class Change(ctypes.Structure):
    _fields_ = [
        ("name", Span),
        ("value", Span),
        ("rule", Rule),
        ("direction", ctypes.c_uint32),
        ("operation", ctypes.c_uint32),
        ("has_value", ctypes.c_bool),
    ]


class Verdict(ctypes.Structure):
    _fields_ = [
        ("rule", Rule),
        ("target", Span),
        ("bytes", ctypes.c_size_t),
        ("changes", ctypes.c_size_t),
        ("outcome", ctypes.c_uint32),
        ("generation", ctypes.c_uint32),
        ("has_rule", ctypes.c_bool),
        ("has_target", ctypes.c_bool),
    ]


def text_in(name, text):
    """The fields of a text, which is empty where there is none."""
    text = (text or "").encode()
    return {name: text, name + "_length": len(text)}


def frame_of(asked):
    return Frame(
        **text_in("url", asked["url"]),
        **text_in("initiator", asked.get("initiator")),
        method=METHODS.index(asked.get("method", "get")),
        has_url=asked["url"] is not None,
        has_initiator=asked.get("initiator") is not None,
    )


def headers_of(name, asked):
    """The fields of a list of headers, which has one item at least in memory."""
    found = [Header(**text_in("name", it), **text_in("value", value)) for it, value in asked or []]
    return {name + "s": (Header * max(1, len(found)))(*found), name + "_count": len(found), f"has_{name}s": asked is not None}


def request_of(asked):
    """A request by its parts. What it is asked as has the form of a line of a script."""
    frames = [frame_of(it) for it in asked.get("frames", [])]
    return Request(
        **text_in("url", asked["url"]),
        **text_in("initiator", asked.get("initiator")),
        frames=(Frame * max(1, len(frames)))(*frames),
        frame_count=len(frames),
        **headers_of("request_header", asked.get("requestHeaders")),
        **headers_of("response_header", asked.get("responseHeaders")),
        type=TYPES.index(asked["type"]),
        method=METHODS.index(asked.get("method", "get")),
        tab=asked.get("tab", 0),
        has_initiator=asked.get("initiator") is not None,
        has_tab="tab" in asked,
    )


class Refused(Exception):
    """An engine is not opened, or a line is not answered: the code, and the line that says why, if there is one."""


class Engine:
    """An engine of its own: one thread at a time calls it."""

    def __init__(self, library, room=1 << 16):
        self.calls, self.seat, self.out, self.length = library, Seat(), ctypes.create_string_buffer(room), ctypes.c_size_t()

    @classmethod
    def over(cls, library, words, files):
        """An engine as `dnr WORD..` opens it over these files, which are bytes by name."""
        self = cls(library)
        words = [os.fsencode(it) for it in words]
        pairs = [(os.fsencode(name), content) for name, content in files.items()]
        texts = (Text * max(1, len(words)))(*[Text(it, len(it)) for it in words])
        given = (File * max(1, len(pairs)))(*[File(name, len(name), content, len(content)) for name, content in pairs])
        self.check(library.dnr_open(texts, ctypes.c_size_t(len(words)), given, ctypes.c_size_t(len(pairs)), ctypes.byref(self.seat), *self.room()))
        return self

    def room(self):
        return self.out, ctypes.c_size_t(len(self.out)), ctypes.byref(self.length)

    def check(self, code):
        if code != DONE:
            raise Refused(code, self.out.raw[: self.length.value] if code == REFUSED else b"")

    def ask(self, line, number=1):
        """The answer to a line of a script, which has no LF."""
        code = self.calls.dnr_ask(ctypes.byref(self.seat), ctypes.c_uint32(number), line, ctypes.c_size_t(len(line)), *self.room())
        if code == NO_ROOM:
            self.out = ctypes.create_string_buffer(self.length.value)
            return self.ask(line, number)
        self.check(code)
        return self.out.raw[: self.length.value]

    def decide(self, asked, most=64):
        """What becomes of a request that is given by its parts, as the fields of an answer's line."""
        request, verdict, changes = request_of(asked), Verdict(), (Change * most)()
        room = self.out, ctypes.c_size_t(len(self.out))
        asks = ctypes.byref(self.seat), ctypes.byref(request), ctypes.byref(verdict), changes, ctypes.c_size_t(most)
        code = self.calls.dnr_decide(*asks, *room)
        if code == NO_ROOM:
            self.out = ctypes.create_string_buffer(max(len(self.out), verdict.bytes))
            return self.decide(asked, max(most, verdict.changes))
        self.check(code)
        texts = self.out.raw

        def text_at(span):
            return texts[span.begin : span.begin + span.length].decode()

        def rule_at(rule):
            return [text_at(rule.extension), text_at(rule.ruleset), rule.id]

        def change_of(it):
            value = text_at(it.value) if it.has_value else None
            return [DIRECTIONS[it.direction], OPERATIONS[it.operation], text_at(it.name), value, rule_at(it.rule)]

        answer = {"generation": verdict.generation, "verdict": OUTCOMES[verdict.outcome]}
        if verdict.has_rule:
            answer["rule"] = rule_at(verdict.rule)
        if verdict.has_target:
            answer["url"] = text_at(verdict.target)
        if verdict.changes:
            answer["ops"] = [change_of(it) for it in changes[: verdict.changes]]
        return answer

    def share(self):
        """A second engine on the state as it stands, for another thread."""
        other = Engine(self.calls)
        self.check(self.calls.dnr_share(ctypes.byref(self.seat), ctypes.byref(other.seat)))
        return other

    def close(self):
        self.calls.dnr_close(ctypes.byref(self.seat))

    def __enter__(self):
        return self

    def __exit__(self, *_):
        self.close()


def files_of(words):
    """The files that the words name, and those in the folders of extensions, by name."""
    names = words[1:2] if words[:1] == ["match"] else []
    for option, value in zip(words[1::2], words[2::2]):
        if option == "--psl":
            names.append(value)
        elif option == "--list":
            names.append(value.partition("=")[2])
        elif option == "--ext":
            names += [os.path.join(folder, it) for folder, _, inside in os.walk(value) for it in inside]
    found = {}
    for name in names:
        if os.path.isfile(name):
            with open(name, "rb") as file:
                found[name] = file.read()
    return found


def lines_of(script):
    """The lines of a script: an LF ends each, and a CR before it is dropped."""
    lines = script.split(b"\n")
    last = lines.pop()
    return [it[:-1] if it.endswith(b"\r") else it for it in lines] + ([last] if last else [])


def main(library, *words):
    words = list(words)
    try:
        engine = Engine.over(ctypes.CDLL(os.path.abspath(library)), [*words, "script"], files_of(words))
    except Refused as refused:
        sys.stdout.buffer.write(refused.args[1])
        return refused.args[0]
    with engine:
        for number, line in enumerate(lines_of(sys.stdin.buffer.read()), 1):
            sys.stdout.buffer.write(engine.ask(line, number))
    return 0


if __name__ == "__main__":
    sys.exit(main(*sys.argv[1:]))
