#!/usr/bin/env python3
"""What `dnr hide LIST HOST` has to print, worked out slowly: tests/hide/slow.py LIST HOST

It reads docs/BEHAVIOUR.md and docs/FORMATS.md as a person would, line by line and without any table: for each line
that hides something it asks which of its domains cover the host, and takes the longest. The program's answer has to be
the same bytes.
"""
import sys

MOST_BYTES = 65536
MOST_LINES = 300_000
SEPARATORS = (b"##", b"#@#", b"#?#", b"#$#", b"#%#")
LABEL_BYTES = frozenset(b"abcdefghijklmnopqrstuvwxyzABCDEFGHIJKLMNOPQRSTUVWXYZ0123456789-_")
ADDRESS_BYTES = frozenset(b"0123456789abcdefABCDEF:.")
SHORT_ESCAPES = {8: "\\b", 9: "\\t", 10: "\\n", 12: "\\f", 13: "\\r", 34: '\\"', 92: "\\\\"}


class Unsupported(Exception):
    """A line that can't be used, with the code of its reason."""


def is_name(text):
    """Labels with a dot between each two."""
    return all(label and LABEL_BYTES.issuperset(label) for label in text.split(b"."))


def is_address(text):
    """An address between brackets, of which only the bytes are looked at."""
    return len(text) >= 2 and text[:1] == b"[" and text[-1:] == b"]" and ADDRESS_BYTES.issuperset(text[1:-1])


def domains_of(text):
    """The domains before a separator, as pairs of a domain in lower case and whether a `~` stands before it."""
    if not text:
        return []
    pairs = []
    for entry in text.split(b","):
        excluded = entry.startswith(b"~")
        domain = (entry[1:] if excluded else entry).lower()
        if not (is_name(domain) or is_address(domain)):
            raise Unsupported("bad-domain")
        pairs.append((domain, excluded))
    return pairs


def cut(text):
    """What stands before the leftmost separator, the separator, and what stands behind it; None where there is none."""
    for place in range(len(text)):
        for separator in SEPARATORS:
            if text.startswith(separator, place):
                return text[:place], separator, text[place + len(separator):]
    return None


def read(line):
    """A hiding line as (is it an exception, its domains, its selector); None for a line of another kind."""
    if len(line) > MOST_BYTES:
        raise Unsupported("line-too-long")
    text = line.strip(b" \t\r")
    if not text or text.startswith(b"!") or (text.startswith(b"[Adblock") and text.endswith(b"]")):
        return None
    parts = cut(text)
    if parts is None:
        return None
    before, separator, behind = parts
    if separator not in (b"##", b"#@#"):
        raise Unsupported("hide-syntax")
    selector = behind.strip(b" \t")
    try:
        selector.decode("utf-8")
    except UnicodeDecodeError:
        raise Unsupported("not-utf8") from None
    domains = domains_of(before)
    if not selector:
        raise Unsupported("empty-selector")
    if any((domain, not excluded) in domains for domain, excluded in domains):
        raise Unsupported("both-domains")
    return separator == b"#@#", domains, selector


def is_ip(host):
    """Whether a host is an address: in brackets, or with a last label of digits alone."""
    return host.startswith(b"[") or host.rsplit(b".", 1)[-1].isdigit()


def covers(domain, host):
    """Whether a domain covers a host: it is the host, or the host is one of its subdomains and no address."""
    return domain == host or (not is_ip(host) and host.endswith(b"." + domain))


def applies(domains, host):
    """Whether a line of these domains is for pages of the host."""
    covering = [(len(domain), not excluded) for domain, excluded in domains if covers(domain, host)]
    if covering:
        longest = max(length for length, _ in covering)
        return any(listed for length, listed in covering if length == longest)
    return all(excluded for _, excluded in domains)


def string(text):
    """A text as JSON writes it, with what is not ASCII as it is."""
    return '"' + "".join(SHORT_ESCAPES.get(ord(c)) or (f"\\u{ord(c):04x}" if ord(c) < 32 else c) for c in text) + '"'


def run(name, content, host):
    """The lines that the program prints, and its status."""
    hiding, report = [], []
    for number, line in enumerate(content.split(b"\n"), 1):
        try:
            found = read(line)
        except Unsupported as reason:
            report.append(f'{{"line":{number},"unsupported":"{reason}"}}\n')
        else:
            if found is not None:
                hiding.append(found)
    if len(hiding) > MOST_LINES:
        return f'{{"file":{string(name)},"refused":"too-many-rules","count":{len(hiding)}}}\n', 1
    here = [(exception, selector) for exception, domains, selector in hiding if applies(domains, host.encode())]
    kept = {selector for exception, selector in here if exception}
    hidden = sorted({selector for exception, selector in here if not exception} - kept)
    texts = ",".join(string(selector.decode()) for selector in hidden)
    return "".join(report) + f'{{"host":{string(host)},"selectors":[{texts}]}}\n', 0


def main():
    name, host = sys.argv[1:]
    with open(name, "rb") as file:
        content = file.read()
    text, status = run(name, content, host)
    sys.stdout.buffer.write(text.encode())
    return status


if __name__ == "__main__":
    sys.exit(main())
