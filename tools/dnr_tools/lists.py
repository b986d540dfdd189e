"""A filter list line by line, as the built program reads it.

`dnr compile` tells which lines it doesn't support, and gives the rules of all others together. Which line gives which rules
is found by a second list, in which a filter that marks the place stands before each: the rules come in the order of lines.
Lines such as `||host^$options` differ in the host alone, and become one rule; so of all that have the same options one is
asked, with a mark in place of the host.
"""
import json
import re
from typing import NamedTuple, Optional

from dnr_lines.session import run_on

MARK = "dnr-mark-4f1c"
PLAIN = re.compile(rb"(@@)?\|\|([a-z0-9_-]+(?:\.[a-z0-9_-]+)*)\^(\$.*)?")
# Markers and lines of one compilation; with its rules it stays below the limit of a list.
CHUNK = 60_000


class Unread(Exception):
    """The program refuses a list; the text is what it says."""


class Line(NamedTuple):
    """A line. `kind` is blank, comment, header, filter or the code by which the program reports it, and `name` the option
    that it names. `rules` are those of a filter, as if it stood alone, without ids; a filter may have none."""

    number: int
    text: str
    kind: str
    name: Optional[str] = None
    rules: tuple = ()


def compiled(data):
    """What `compile` says of a list: the report as objects by their line, and the rules."""
    status, output = run_on(data, "compile")
    lines = output.decode().splitlines()
    if status != 0:
        raise Unread("\n".join(lines) or f"dnr compile ended with status {status}")
    report = [json.loads(line) for line in lines[:-2]]
    return {it["line"]: it for it in report}, json.loads(lines[-1])


def silent_kind(text):
    """The kind of a line that the program doesn't report, by its form."""
    if not text:
        return "blank"
    if text.startswith(b"!"):
        return "comment"
    return "header" if text.startswith(b"[Adblock") and text.endswith(b"]") else "filter"


def shape(text):
    """The filter that is asked for a line, and what a mark in it stands for."""
    plain = PLAIN.fullmatch(text)
    if not plain:
        return text, ""
    return (plain[1] or b"") + MARK.encode() + (plain[3] or b""), f"||{plain[2].decode()}^"


def rules_of_shapes(shapes):
    """The rules of each of these filters, by the filter."""
    found, shapes = {}, list(shapes)
    for start in range(0, len(shapes), CHUNK):
        chunk = shapes[start : start + CHUNK]
        marked = b"".join(b"%s-%d-\n%s\n" % (MARK.encode(), number, text) for number, text in enumerate(chunk))
        current = None
        for rule in compiled(marked)[1]:
            mark = re.fullmatch(rf"{MARK}-(\d+)-", rule["condition"].get("urlFilter", ""))
            if mark:
                current = found.setdefault(chunk[int(mark[1])], [])
            else:
                del rule["id"]
                current.append(rule)
    return found


def unmarked(rule, meant):
    """A rule of a shape with what its mark stands for."""
    text = rule["condition"].get("urlFilter", "")
    if not meant or MARK not in text:
        return rule
    return {**rule, "condition": {**rule["condition"], "urlFilter": text.replace(MARK, meant)}}


def read(data):
    """The lines of a list in bytes, and how many rules it gives. Raises `Unread`."""
    report, rules = compiled(data)
    texts = [text.strip(b" \t\r") for text in data.split(b"\n")]
    if texts and not texts[-1]:
        texts.pop()
    filters = {}
    for number, text in enumerate(texts, 1):
        if number not in report and silent_kind(text) == "filter":
            filters[number] = shape(text)
    found = rules_of_shapes(dict.fromkeys(text for text, _ in filters.values()))
    return [line_of(number, text, report.get(number), filters, found) for number, text in enumerate(texts, 1)], len(rules)


def line_of(number, text, reported, filters, found):
    """One line, of what was found."""
    shown = text.decode(errors="replace")
    if reported:
        return Line(number, shown, reported["unsupported"], reported.get("name"))
    if number not in filters:
        return Line(number, shown, silent_kind(text))
    asked, meant = filters[number]
    return Line(number, shown, "filter", None, tuple(unmarked(rule, meant) for rule in found.get(asked, ())))
