"""Lines of a filter list that are read as something else than they look like."""
import re

from dnr_tools.known import FURTHER_OPTIONS, OPTIONS, OTHER_NAMES, meant
from dnr_tools.never import never
from dnr_tools.words import UNSUPPORTED

HOSTS_FILE = re.compile(r"(?:0\.0\.0\.0|127\.0\.0\.1|::1?)[ \t]+([A-Za-z0-9._-]+)")
BARE_HOST = re.compile(r"(?:@@)?((?:[a-z0-9-]+\.)+[a-z]{2,})\^?", re.I)
OPEN_HOST = re.compile(r"(?:@@)?\|\|((?:[a-z0-9-]+\.)+[a-z]{2,})", re.I)
PLAIN_WORD = re.compile(r"[A-Za-z0-9_-]+")
ENDINGS = """js mjs css png jpg jpeg gif webp svg ico php html htm asp aspx jsp json xml txt swf mp4 webm woff woff2 cgi min
gz zip""".split()
ENTRY = re.compile(r"~?[A-Za-z0-9_-]+(=.*)?")


def hints(line):
    """What is to be said of a line, in sentences."""
    if line.kind == "comment":
        return directive(line)
    if line.kind == "filter":
        return list(filter_hints(line))
    return list(unsupported_hints(line))


def directive(line):
    """What is to be said of a directive."""
    if not line.text.startswith("!#"):
        return []
    return [f"{line.text.split()[0]} is read as a comment, so what stands between directives is always read"]


def filter_hints(line):
    """What is to be said of a filter."""
    if not line.rules:
        yield "it is for no type, so it says nothing"
        return
    condition = line.rules[0]["condition"]
    text, regex = condition.get("urlFilter", ""), condition.get("regexFilter", "")
    looks = looks_like_options(text)
    if looks:
        yield looks
    if PLAIN_WORD.fullmatch(regex):
        yield f"between slashes it is a regular expression, which fits wherever {regex} stands; /{regex}/* is the folder"
    if line.text.startswith("#"):
        yield "a comment begins with !; this is a filter"
    else:
        yield from host_hints(text)
    if not looks:
        reasons = [never(rule) for rule in line.rules]
        if all(reasons):
            yield f"it can hold on no request: {reasons[0]}"


def host_hints(text):
    """What is to be said of a pattern that is a host alone."""
    bare, begun = BARE_HOST.fullmatch(text), OPEN_HOST.fullmatch(text)
    if bare and bare[1].rpartition(".")[2].lower() not in ENDINGS:
        yield f"a host without || is a text that may stand anywhere in a URL; ||{bare[1]}^ is the host"
    elif begun:
        yield f"it fits other hosts that begin so, as {begun[1]}.example; ||{begun[1]}^ is this one and its subdomains"


def looks_like_options(text):
    """Why what looks like options is read as a part of the pattern, or None."""
    for at in (match.start() for match in re.finditer(r"\$", text)):
        pieces = text[at + 1 :].split(",")
        first = pieces[0].lstrip("~").partition("=")[0].lower()
        if first in OPTIONS or first in OTHER_NAMES or first in FURTHER_OPTIONS:
            wrong = next((piece for piece in pieces if not ENTRY.fullmatch(piece)), "")
            why = f"{wrong} is no option" if wrong else "an entry is empty"
            return f"{text[at:]} is read as a part of the pattern, since {why}"
    return None


def unsupported_hints(line):
    """What is to be said of a line that the program reports."""
    hosts = HOSTS_FILE.match(line.text)
    if hosts:
        yield f"a line of a hosts file is no filter; ||{hosts[1]}^ blocks that host"
    elif line.text.startswith("# ") or line.text == "#":
        yield "a comment begins with !"
    elif line.kind == "unknown-option":
        near = OTHER_NAMES.get(line.name) or meant(line.name, OPTIONS)
        if near:
            yield f"the option {line.name} is not known, and the line gives nothing; {near} is meant?"
    elif line.kind in UNSUPPORTED and line.kind not in ("element-hiding", "document-on-block"):
        named = f" ({line.name})" if line.name else ""
        yield f"{UNSUPPORTED[line.kind]}{named}; the line gives nothing"
