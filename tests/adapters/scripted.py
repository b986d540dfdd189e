#!/usr/bin/env python3
"""A child that answers as `dnr serve /dev/stdin` does, for tests of the broker's queueing alone, and goes wrong when told.

It knows one kind of rule, `||HOST^` in a dynamic update, and these URLs, each once for a folder that SCRIPTED_ROOM names:

    http://dies.test/       the child ends without an answer
    http://skips.test/      this line's answer is left out
    http://elsewhen.test/   the answer names another generation
    http://sleeps.test/     no answer for a long time
    http://repeats.test/    the `sync` behind it is answered twice
"""
import json
import os
import sys
import time
from urllib.parse import urlsplit

hosts, count, out, repeats = {}, 0, [], False


def first_time(name):
    """Whether this goes wrong now: it does once."""
    try:
        os.close(os.open(os.path.join(os.environ["SCRIPTED_ROOM"], name), os.O_CREAT | os.O_EXCL))
    except FileExistsError:
        return False
    return True


def request(number, line):
    """The answer to a request, or None."""
    global repeats
    repeats = False
    host = urlsplit(line["url"]).hostname
    if "\u00e9" in line.get("initiator", "") or line.get("requestHeaders") == "bad":
        return {"line": number, "bad": "url", "path": "initiator", "why": "bad-url"}
    if host == "faulty.test":
        return {"line": number, "generation": count, "fault": "pattern-host", "rule": ["a", "s", 1]}
    if host == "dies.test" and first_time(host):
        sys.exit(7)
    if host == "sleeps.test" and first_time(host):
        time.sleep(60)
    if host == "skips.test" and first_time(host):
        return None
    repeats = host == "repeats.test" and first_time(host)
    shift = 1 if host == "elsewhen.test" and first_time(host) else 0
    if host in hosts.values():
        rule = next(it for it, name in hosts.items() if name == host)
        return {"line": number, "generation": count + shift, "verdict": "block", "rule": ["a", "_dynamic", rule]}
    return {"line": number, "generation": count + shift, "verdict": "none"}


def update(number, line):
    """The answer to an update; rules with the id 0 are refused."""
    global count
    if any(rule["id"] == 0 for rule in line.get("addRules", ())):
        return {"line": number, "refused": "bad-id", "place": 0, "id": None}
    for rule in line.get("removeRuleIds", ()):
        hosts.pop(rule, None)
    for rule in line.get("addRules", ()):
        hosts[rule["id"]] = rule["condition"]["urlFilter"][2:-1]
    count += 1
    return {"line": number, "accepted": count}


def answer(number, line):
    """The answer to a line."""
    command = line.get("cmd", "request")
    if command == "sync":
        return {"line": number, "sync": count}
    return request(number, line) if command in ("request", "explain") else update(number, line)


def main():
    if "refused=refused" in sys.argv:
        print('{"file":"refused","refused":"too-many-rules","count":3}', flush=True)
        sys.exit(1)
    for number, text in enumerate(sys.stdin.buffer, 1):
        try:
            told = answer(number, json.loads(text.decode()))
        except (ValueError, RecursionError):
            told = {"line": number, "bad": "json"}
        if told:
            out.append(json.dumps(told, separators=(",", ":")) + "\n")
        if b'"sync"' in text:
            out.extend([f'{{"line":{number + 1},"sync":{count}}}\n'] * repeats)
            sys.stdout.write("".join(out))
            sys.stdout.flush()
            out.clear()


main()
