#!/usr/bin/env python3
"""Asks `dnr serve` what becomes of requests while it runs, as a proxy or a browser would: examples/proxy/ask.py

The engine reads its script from /dev/stdin, a pipe of this program: so it ends when this program does. It answers a round of
lines when the round has ended, and a `sync` ends one: so each question is a line and a `sync`, and the answer comes at once.
Updates go the same way.
"""
import contextlib
import json
import subprocess
import sys
import time
from pathlib import Path

EXAMPLES = Path(__file__).resolve().parent.parent
DNR = EXAMPLES.parent / "dnr"


class Engine:
    """A running engine. `words` are those of `dnr serve` but for the script; names are looked up in `folder`."""

    def __init__(self, words, folder):
        words = [DNR, "serve", *words, "/dev/stdin"]
        self.process = subprocess.Popen(words, cwd=folder, stdin=subprocess.PIPE, stdout=subprocess.PIPE)

    def ask(self, line):
        """Hands the engine one line of a script, an object, and gives its answer."""
        with contextlib.suppress(BrokenPipeError):
            self.process.stdin.write(json.dumps(line).encode() + b'\n{"cmd":"sync"}\n')
            self.process.stdin.flush()
        answer = self.process.stdout.readline()
        if not answer:
            raise SystemExit(f"the engine ended, with status {self.process.wait()}")
        # (the answer of the sync)
        self.process.stdout.readline()
        return json.loads(answer)

    def close(self):
        """Ends the script, and gives the engine's status."""
        self.process.stdin.close()
        return self.process.wait()


def main():
    engine = Engine(["--psl", "suffixes.dat", "--ext", "shop"], EXAMPLES)
    request = {"url": "https://ads.example/banner.js", "type": "script", "initiator": "https://news.example"}
    rule = {"id": 1, "condition": {"urlFilter": "||ads.example^"}, "action": {"type": "block"}}
    for line in (
        request,
        {"cmd": "dynamic", "extension": "shop", "addRules": [rule]},
        request,
        {"cmd": "dynamic", "extension": "shop", "addRules": [rule]},
    ):
        before = time.perf_counter()
        answer = engine.ask(line)
        print(json.dumps(answer))
        took = time.perf_counter() - before
    print(f"the last answer took {1e6 * took:.0f} microseconds", file=sys.stderr)
    return engine.close()


if __name__ == "__main__":
    raise SystemExit(main())
