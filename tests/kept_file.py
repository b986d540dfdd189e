"""The form of a file that keeps dynamic rules, by docs/FORMATS.md: for tests/keep and tests/crash."""


def file_of(*payloads):
    """The bytes of a file of these payloads."""
    return b"".join(b"\1" + len(it).to_bytes(4, "big") + it for it in map(str.encode, payloads)) + b"\0"


def payloads(file):
    """The payloads of a file's records."""
    found, at = [], 0
    while file[at : at + 1] == b"\1":
        size = int.from_bytes(file[at + 1 : at + 5], "big")
        if size == 0 or at + 5 + size >= len(file):
            break
        found.append(file[at + 5 : at + 5 + size])
        at += 5 + size
    return found
