"""Which engine answers: one at a time, and now and then another that is brought to take its place."""
import os
import shutil
import time
from functools import partial
from itertools import islice
from typing import NamedTuple

from dnr_lines.lines import SYNC, loaded
from engine import END, NOTHING, Doubt, Engine
from events import READ, WRITE
from questions import NOBODY, Question

# So many updates of a fresh engine stand in a round, so that making them holds up nobody.
RESTORED = 4


class Failed(Exception):
    """The first engine can't be started."""


class Coming(NamedTuple):
    """An engine that is being brought to a state by `lines`; `exchange` is the question that wants it, if one does."""

    engine: Engine
    installed: object
    lines: object
    exchange: object = None


def refusal(last, reason):
    """What a client is told of an engine that didn't come to answer: what the program wrote, where it is a refusal."""
    try:
        told = loaded(last.encode())
    except ValueError:
        told = {}
    return told if "refused" in told else {"refused": "engine", "why": reason}


class Succession:
    """`engine` answers, `coming` is to take its place, and `ending` answers its last round; each may be None.

    The owner has `verdict`, which takes a line where it is the verdict that was asked for; `undecided` and `updated`, which
    take an answer and say whether it is one; `next_round`, which may ask an engine whose last answers are there; `ask_again`,
    which takes what was left unanswered; and `exchanged` and `not_exchanged`, which are told what became of an exchange.
    """

    def __init__(self, settings, journal, events, say, owner):
        self.settings, self.journal, self.events, self.say, self.owner = settings, journal, events, say, owner
        self.engine = self.coming = self.ending = None
        self.begun, self.dying = 0, []
        self.failures, self.not_before = 0, 0.0

    @property
    def quiet(self):
        """Whether there is an engine, and nothing is under way."""
        return self.engine and not self.engine.asked and not self.coming and not self.ending

    def engines(self):
        """All engines that run."""
        return list(filter(None, (self.engine, self.ending, self.coming and self.coming.engine)))

    def start(self, installed, exchange=None):
        """Starts an engine and hands it the updates that bring it to a state."""
        workers = ["--workers", str(self.settings.workers)] if self.settings.workers > 1 else []
        room = self.journal.room(installed)
        engine = Engine(self.settings.program, [*workers, *installed.words()], room)
        self.coming = Coming(engine, installed, installed.lines(), exchange)
        self.events.register(engine.output, READ, partial(self.hear, engine))
        # (its `sync` is answered when the files are read)
        self.ask(engine, self.restoring())

    def start_if_due(self, now):
        """Starts an engine where there is none, unless the last one could not be started a moment ago."""
        if now >= self.not_before:
            self.start(self.journal.installed)

    def restoring(self):
        """The next updates that the engine which comes is to make."""
        return [Question(NOBODY, b"", line, "restore", 0) for line in islice(self.coming.lines, RESTORED)]

    def ask(self, engine, questions):
        """Begins a round of an engine with these questions, which have a `line` each."""
        engine.moved = self.events.now
        engine.asked += questions
        engine.asked.append(END)
        engine.unwritten += b"\n".join([question.line for question in questions] + [SYNC, b""])
        self.write(engine)

    def write(self, engine, _=None):
        """Writes what an engine's pipe takes now, and waits for room exactly while there is more."""
        if engine.closed:
            return
        try:
            engine.unwritten = engine.unwritten[os.write(engine.input, engine.unwritten) :]
        except BlockingIOError:
            pass
        except OSError as error:
            self.lose(engine, f"it takes no more lines ({error.strerror})")
            return
        if engine.unwritten and not engine.watched:
            self.events.register(engine.input, WRITE, partial(self.write, engine))
            engine.watched = True
        elif engine.watched and not engine.unwritten:
            self.events.unregister(engine.input)
            engine.watched = False

    def hear(self, engine, _):
        """Takes what an engine wrote. Where that is all that it owes it is asked again before the answers are looked at."""
        if engine.closed:
            return
        asked, verdict = engine.asked, self.owner.verdict
        try:
            lines = engine.lines(self.events.now)
            if self.owner.waiting and engine is self.engine and len(lines) == len(asked):
                self.owner.next_round(engine)
                if engine.closed:
                    return
            for text in lines:
                question = asked[0] if asked else NOTHING
                if question.kind == "request" and verdict(engine, question, text):
                    pass
                elif question.kind != "end" or text != b'{"line":%d,"sync":%d}' % (engine.line + 1, engine.count):
                    self.settle(engine, question, text)
                engine.line += 1
                asked.popleft()
        except Doubt as doubt:
            self.lose(engine, str(doubt))
        if not asked and engine is not self.engine and not engine.closed:
            self.go_on(engine)

    def settle(self, engine, question, text):
        """Takes an answer that is neither a verdict nor the end of a round, or raises `Doubt`."""
        answer, kind = engine.rest(text), question.kind
        if kind == "request":
            done = self.owner.undecided(engine, question, answer)
        elif kind == "update":
            done = self.owner.updated(engine, question, answer)
        else:
            done = kind == "restore" and engine.accepts(answer)
        if not done:
            raise Doubt(f"to line {engine.line + 1} it wrote {answer[:120]!r}")

    def go_on(self, engine):
        """What is to be done with an engine that has answered all, and is not the one that is asked."""
        if engine is self.ending:
            self.ending = None
            self.end(engine)
            return
        updates = self.restoring()
        if updates:
            self.ask(engine, updates)
        else:
            self.switch()

    def switch(self):
        """Lets the engine that came take the place of the one before it, which answers its last round."""
        coming, self.coming = self.coming, None
        if self.engine and not self.engine.asked:
            self.end(self.engine)
        elif self.engine:
            self.ending = self.engine
        self.engine, self.failures = coming.engine, 0
        self.begun += 1
        if coming.exchange:
            self.owner.exchanged(coming)
        self.engine.shift = self.journal.number - self.engine.count

    def end(self, engine):
        """Lets go of an engine."""
        self.events.unregister(engine.output)
        if engine.watched:
            self.events.unregister(engine.input)
        engine.close()
        self.dying.append(engine.process)
        shutil.rmtree(engine.room, ignore_errors=True)

    def lose(self, engine, reason):
        """Ends an engine that can't be relied on; what it had not answered is asked again."""
        last, status = engine.last_words()
        self.end(engine)
        if self.coming and engine is self.coming.engine:
            self.come_to_nothing(last, status, reason)
            return
        self.say(f"the engine is ended after {engine.line:,} lines, since {reason}; another one is asked")
        if engine is self.engine:
            self.engine = None
        else:
            self.ending = None
        for question in reversed(engine.asked):
            self.owner.ask_again(question)

    def come_to_nothing(self, last, status, reason):
        """What follows where an engine didn't come so far as to answer."""
        coming, self.coming = self.coming, None
        said = last or reason
        if coming.exchange:
            self.say(f"the exchange came to nothing: {said}")
            self.owner.not_exchanged(coming, refusal(last, reason))
        elif not self.begun and (last.startswith("{") or (status or 0) > 0):
            raise Failed(said)
        else:
            self.failures = min(self.failures + 1, 6)
            pause = 0.1 * 2**self.failures
            self.not_before = time.monotonic() + pause
            self.say(f"no engine could be started: {said}; the next try is in {pause:.1f} s")

    def check(self, now, updating):
        """Ends engines that gave nothing for too long; those that make updates may take longer."""
        self.dying = [process for process in self.dying if process.poll() is None]
        for engine in self.engines():
            patient = updating or (self.coming and engine is self.coming.engine)
            limit = self.settings.patience if patient else self.settings.deadline
            if engine.asked and now - engine.moved > limit:
                self.lose(engine, f"it gave nothing for {limit:g} s")

    def close(self):
        """Ends all engines."""
        for engine in self.engines():
            self.end(engine)
        for process in self.dying:
            process.wait()
