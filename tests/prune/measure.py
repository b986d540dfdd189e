#!/usr/bin/env python3
"""Measures `dnr prune` on the filters of lists, and compares verdicts: tests/prune/measure.py LIST [LIST ..]

Of the rules that `dnr compile` makes of the lists some are drawn and pruned. The program must print of a few what slow.py
says. With the rest in place of the rules `dnr match` must print the same verdicts, but for the rule that each names.
Then come as many rules as may be pruned, drawn and hostile: such as have no filter, and differ in one field each.
The lists are yours: Debian's package webext-ublock-origin-firefox has EasyList and EasyPrivacy as text.
"""
import json
import os
import random
import subprocess
import sys
import tempfile
from pathlib import Path

sys.dont_write_bytecode = True
HERE = Path(__file__).resolve().parent
sys.path[:0] = [str(HERE), str(HERE.parent.parent / "bench")]
import slow
from measured import best, compiled

PROGRAM = HERE.parent.parent / "crates/dnr/out/dnr"
DRAWN, FEW, MOST = 5_000, 400, 10_000
REQUESTS = 20_000
SECONDS, MEBIBYTES, HOSTILE_SECONDS = 0.5, 30, 10
TYPES = slow.TYPES
WORDS = "ads banner track pixel analytics js img static api collect player video main app vendor user data".split()


# ---- rules


def numbered(rules):
    """The rules with ids from 1, as one line of JSON."""
    return json.dumps([{**rule, "id": number} for number, rule in enumerate(rules, 1)], separators=(",", ":")) + "\n"


def hostile():
    """Lists of rules without a filter that differ in one field, by that field."""
    fields = {
        "priority": lambda n: {},
        "initiatorDomains": lambda n: {"initiatorDomains": [f"site{n}.example"]},
        "excludedInitiatorDomains": lambda n: {"excludedInitiatorDomains": [f"site{n}.example"]},
        "requestDomains": lambda n: {"requestDomains": [f"site{n}.example"]},
        "excludedRequestDomains": lambda n: {"excludedRequestDomains": [f"site{n}.example"]},
        "resourceTypes": lambda n: {"resourceTypes": [name for bit, name in enumerate(TYPES) if n >> bit & 1]},
        "requestMethods": lambda n: {"requestMethods": [name for bit, name in enumerate(slow.METHODS) if (n % 511 + 1) >> bit & 1]},
        "responseHeaders": lambda n: {"responseHeaders": [{"header": "server", "values": [f"value{n}"]}]},
        "excludedResponseHeaders": lambda n: {"excludedResponseHeaders": [{"header": f"name{n}"}]},
        "nothing": lambda n: {},
    }
    for name, field in fields.items():
        yield name, [
            {"priority": n if name == "priority" else 1, "condition": field(n), "action": {"type": "block"}}
            for n in range(1, MOST + 1)
        ]


# ---- requests


def hosts_of(rules):
    """Hosts that the rules name."""
    for rule in rules:
        condition = rule["condition"]
        yield from condition.get("requestDomains", ())[:20]
        text = condition.get("urlFilter", "")
        if text.startswith("||"):
            host = text[2:].split("^")[0].split("/")[0]
            if host.replace(".", "").replace("-", "").isalnum():
                yield host


def request(draw, hosts):
    host = draw.choice(hosts) if draw.random() < 0.5 else f"site{draw.randrange(5_000)}.example"
    path = "/".join(draw.choice(WORDS) for _ in range(draw.randint(1, 4)))
    fields = {
        "url": f"https://{draw.choice(('', 'www.', 'cdn.'))}{host}/{path}.js?id={draw.getrandbits(32):08x}",
        "type": draw.choice(TYPES),
        "initiator": f"https://{draw.choice(hosts)}/" if draw.random() < 0.5 else f"https://page{draw.randrange(500)}.example/",
    }
    return json.dumps(fields, separators=(",", ":")) + "\n"


def verdicts(room, rules):
    """The answers of `match`, without the rules that they name."""
    out = subprocess.run([PROGRAM, "match", rules, "requests.jsonl"], stdout=subprocess.PIPE, cwd=room, check=True).stdout
    answers = [json.loads(line) for line in out.splitlines()]
    for answer in answers:
        answer.pop("rule", None)
    return answers


# ---- runs


def pruned(room, name):
    """What `prune` prints of the file of this name: the pairs, and the last line."""
    out = subprocess.run([PROGRAM, "prune", name], stdout=subprocess.PIPE, cwd=room, check=True).stdout.decode()
    lines = out.splitlines()
    return out, [json.loads(line) for line in lines[:-2]], lines[-1]


def compare_few(room, rules):
    (room / "few.json").write_text(numbered(rules))
    out, pairs, _ = pruned(room, "few.json")
    wanted, _ = slow.output("few.json", (room / "few.json").read_text())
    if out != wanted:
        sys.exit("tests/prune/measure.py: slow.py says otherwise of few rules")
    print(f"{len(rules):,} rules: {len(pairs):,} needless, as slow.py says")


def compare_verdicts(room, rules, requests):
    (room / "rules.json").write_text(numbered(rules))
    (room / "requests.jsonl").write_text(requests)
    _, pairs, rest = pruned(room, "rules.json")
    (room / "rest.json").write_text(rest + "\n")
    before, after = verdicts(room, "rules.json"), verdicts(room, "rest.json")
    if before != after:
        sys.exit("tests/prune/measure.py: the rest decides otherwise")
    # (a line whose host is none is `bad`, before and after)
    told = sum(answer.get("verdict", "none") != "none" for answer in before)
    print(f"{len(rules):,} rules: {len(pairs):,} needless; {len(before):,} verdicts are the same, {told:,} of them by a rule")


def measure(room, name, rules, seconds, mebibytes):
    """The time and the memory of `prune`, less those of `check`, which reads the same file."""
    (room / "rules.json").write_text(numbered(rules))
    read = best([PROGRAM, "check", "static", "rules.json"], room / "out", room)
    whole = best([PROGRAM, "prune", "rules.json"], room / "out", room)
    removed = sum(line.startswith(b'{"removed"') for line in (room / "out").read_bytes().splitlines())
    took, held = whole[0] - read[0], whole[1] - read[1]
    within = took <= seconds and held <= mebibytes
    print(f"{name:26} {removed:6,} needless {took:8.2f} s {held:7.1f} MiB{'' if within else '   ABOVE ITS LIMIT'}")
    return within


def main(lists):
    if not os.access(PROGRAM, os.X_OK):
        sys.exit("tests/prune/measure.py: the program is not built; ./build builds it")
    lists = [source for source in lists if Path(source).is_file()]
    if not lists:
        sys.exit("usage: tests/prune/measure.py LIST [LIST ..]")
    draw = random.Random(1)
    with tempfile.TemporaryDirectory(prefix="dnr-prune-") as name:
        room = Path(name)
        found = []
        for source in lists:
            (room / "list").write_bytes(Path(source).read_bytes())
            found += compiled(PROGRAM, "list", room)
        some = draw.sample(found, min(DRAWN, len(found)))
        hosts = list(hosts_of(some))
        compare_few(room, draw.sample(found, min(FEW, len(found))))
        compare_verdicts(room, some, "".join(request(draw, hosts) for _ in range(REQUESTS)))
        fits = [measure(room, "drawn", draw.sample(found, min(MOST, len(found))), SECONDS, MEBIBYTES)]
        fits += [measure(room, field, rules, HOSTILE_SECONDS, float("inf")) for field, rules in hostile()]
        sys.exit(0 if all(fits) else 1)


if __name__ == "__main__":
    main(sys.argv[1:])
