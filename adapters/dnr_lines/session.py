"""A session with the built program, for tools: lines are asked one by one, or many at once."""
import subprocess
import tempfile
from itertools import islice
from threading import Thread

from dnr_lines.lines import SYNC, dumped, loaded
from dnr_lines.program import program

ROUND = 1_000


class Refused(Exception):
    """The program ended, and this is what it wrote last, or its status."""


class Session:
    """A running `dnr serve WORDS /dev/stdin`; names in `words` are looked up in `folder`."""

    def __init__(self, words=(), folder=None):
        self.process = subprocess.Popen(
            [program(), "serve", *words, "/dev/stdin"], cwd=folder, stdin=subprocess.PIPE, stdout=subprocess.PIPE
        )
        self.line = 0

    def __enter__(self):
        return self

    def __exit__(self, *_):
        try:
            self.process.stdin.close()
        except BrokenPipeError:
            pass
        self.process.stdout.close()
        self.process.wait()

    def ask(self, line):
        """The answer to one line, an object."""
        return self.ask_all([line])[0]

    def ask_all(self, lines):
        """The answers to some lines, each an object, in their order."""
        lines, answers = iter(lines), []
        while batch := list(islice(lines, ROUND)):
            writing = Thread(target=self._write, args=(batch,))
            writing.start()
            answers += [self._answer() for _ in batch]
            self._answer()
            writing.join()
        return answers

    def _write(self, batch):
        try:
            self.process.stdin.write(b"".join(dumped(line) + b"\n" for line in batch) + SYNC + b"\n")
            self.process.stdin.flush()
        except BrokenPipeError:
            pass

    def _answer(self):
        """The next answer, which must be that of the next line."""
        text = self.process.stdout.readline()
        self.line += 1
        answer = loaded(text) if text.endswith(b"\n") else {}
        if answer.pop("line", None) != self.line:
            raise Refused(text.decode().strip() or f"dnr serve ended with status {self.process.wait()}")
        return answer


def run(*words, folder=None):
    """Runs the program to its end: its status and its output, in bytes."""
    done = subprocess.run([program(), *words], cwd=folder, stdin=subprocess.DEVNULL, stdout=subprocess.PIPE)
    return done.returncode, done.stdout


def run_on(text, *words):
    """Runs the program on words and, as the last of them, a file of these bytes: its status and its output."""
    with tempfile.NamedTemporaryFile(prefix="dnr-") as file:
        file.write(text)
        file.flush()
        return run(*words, file.name)
