"""The broker: hands what clients ask to an engine, round by round, and what it answers back to who asked.

A round is what came while the last one was answered; no timer makes one. Updates have a round of their own, so each answer
is known to be by one count of updates, and is held to that.
"""
import re
from collections import Counter, deque
from functools import partial
from typing import NamedTuple

from clients import OPEN_QUESTIONS, Client
from dnr_lines.lines import VERDICTS, dumped, loaded
from engine import LINES, UPDATES
from events import READ, WRITE, Bell, Events
from questions import NOBODY, read
from succession import Succession

ROUND, ROUND_BYTES = 1_000, 4_000_000
TRIES = 3
# The causes of what can't be asked.
BAD = {"json": {"bad": "json"}, "command": {"bad": "command", "path": "cmd"}}
VERDICT = re.compile(rb'"verdict":"(%s)"(?:,.*)?\}' % "|".join(VERDICTS).encode(), re.DOTALL).fullmatch


class Settings(NamedTuple):
    """How a broker works. `undecided` is "closed" or "open"; times are seconds."""

    program: str
    undecided: str = "closed"
    workers: int = 1
    deadline: float = 2.0
    patience: float = 60.0
    lines: int = LINES


class Broker:
    """One broker over a journal. Requests wait in `waiting`, updates and exchanges in `updates`."""

    def __init__(self, settings, journal, listener, say):
        self.settings, self.journal, self.say = settings, journal, say
        self.events = Events()
        self.events.register(listener.fileno(), READ, partial(self.connect, listener))
        self.engines = Succession(settings, journal, self.events, say, self)
        self.waiting, self.updates, self.updating, self.updated_last = deque(), deque(), False, False
        self.touched = set()
        self.verdicts, self.counts = dict.fromkeys(map(str.encode, VERDICTS), 0), Counter()
        self.tick = min(0.1, settings.deadline / 4)
        self.bell, self.stopping = Bell(self.events, self.check), False

    def stop(self):
        """Ends `run` when the events at hand are done; a signal may call this."""
        self.stopping = True
        self.bell.ring()

    def run(self):
        """Serves until `stop` is called. Raises `Failed` where no engine can be started at first."""
        while not self.stopping:
            self.turn()
            self.events.wait()

    def turn(self):
        """What is to be done after some events."""
        engine = self.engines.engine
        if self.updates or not engine or engine.line > self.settings.lines or engine.count > UPDATES:
            self.change()
            engine = self.engines.engine
        if self.waiting and engine and not engine.asked:
            self.ask_waiting(engine)
        while self.touched:
            self.touched.pop().flush()
        if not self.bell.often and not self.quiet:
            self.bell.every(self.tick)

    @property
    def quiet(self):
        """Whether nothing is under way."""
        return not self.waiting and not self.updates and self.engines.quiet

    # Clients.

    def connect(self, listener, _):
        """Takes in a new client."""
        try:
            connection, _ = listener.accept()
        except OSError as error:
            self.say(f"a client couldn't connect: {error.strerror}")
            return
        Client(connection, self.events, self.receive, self.touched)

    def receive(self, client, mask):
        """Takes in the lines that a client sent, and sends what it was not sent."""
        if mask & ~WRITE:
            until = self.events.now + self.settings.deadline
            for line in client.lines():
                if line and not line.isspace():
                    client.open += 1
                    question = read(client, line, until)
                    if question.kind == "request":
                        self.waiting.append(question)
                    else:
                        self.take(question)
            if client.ended or client.open >= OPEN_QUESTIONS:
                client.settle()
        if mask & ~READ:
            client.flush()

    def take(self, question):
        """Takes in what is no request."""
        if question.kind in BAD:
            self.by_setting(question, BAD[question.kind])
        elif question.kind == "counts":
            question.reply(dumped(self.state())[1:])
        else:
            self.updates.append(question)

    def state(self):
        """What `counts` tells."""
        return {
            "counts": {
                **{name.decode(): count for name, count in self.verdicts.items()},
                **{name: self.counts[name] for name in ("relaxed", "closed", "open", "late")},
            },
            "engines": self.engines.begun,
            "generation": self.journal.number,
            "installed": [item.name for item in self.journal.installed.items],
        }

    # Rounds.

    def next_questions(self):
        """The questions of the next round. One with which an engine ended is asked alone."""
        waiting = self.waiting
        if len(waiting) == 1 or waiting[0].tries:
            return [waiting.popleft()]
        questions, size = [], 0
        while waiting and len(questions) < ROUND and size < ROUND_BYTES and not waiting[0].tries:
            questions.append(waiting.popleft())
            size += len(questions[-1].line)
        return questions

    def next_round(self, engine):
        """Asks an engine whose last answers are there what waits, where no update is due before."""
        if not self.updates and not engine.unwritten:
            self.ask_waiting(engine)

    def ask_waiting(self, engine):
        """Begins a round of what waits."""
        self.updated_last = False
        self.engines.ask(engine, self.next_questions())

    def verdict(self, engine, question, text):
        """Hands a line to who asked, where it is the verdict that is to come next, and tells whether it is."""
        count = engine.count
        beginning = b'{"line":%d,"generation":%d,' % (engine.line + 1, count)
        if not text.startswith(beginning):
            return False
        rest = text[len(beginning) :]
        word = VERDICT(rest)
        if not word:
            return False
        client = question.client
        if client is not NOBODY:
            self.verdicts[word[1]] += 1
            if question.relaxed:
                self.counts["relaxed"] += 1
                rest = rest[:-1] + b',"relaxed":true}'
            client.reply(b'{"id":%s,"generation":%d,%s\n' % (question.name, count + engine.shift, rest))
        return True

    def undecided(self, engine, question, answer):
        """Takes an answer that is no verdict, and whether it is one to a request.

        The request is asked again, without what may have kept `dnr` from deciding it; then the setting counts.
        """
        if not answer.startswith((b'"generation":%d,"fault":' % engine.count, b'"bad":')):
            return False
        if question.client is NOBODY:
            return True
        if question.relaxed:
            self.by_setting(question, loaded(b"{" + answer))
            return True
        try:
            question.relax()
            self.waiting.appendleft(question)
        except ValueError:
            question.name = b"null"
            self.by_setting(question, BAD["json"])
        return True

    def by_setting(self, question, cause):
        """Replies what the setting says where there is no verdict, and why there is none."""
        setting = self.settings.undecided
        verdict = "none" if setting == "open" else "block"
        self.counts[setting] += 1
        told = {"generation": self.journal.number, "verdict": verdict, "setting": setting, "cause": cause}
        question.reply(dumped(told)[1:])

    # Updates.

    def change(self):
        """Begins the next update or exchange, where no other is under way."""
        engine = self.engines.engine
        if self.engines.coming:
            return
        if not engine:
            self.engines.start_if_due(self.events.now)
            return
        while self.updates and self.updates[0].kind == "sync":
            self.updates.popleft().reply(b'"sync":%d}' % self.journal.number)
        if self.updating or self.engines.ending:
            return
        if self.updates and self.updates[0].kind == "exchange":
            self.exchange(self.updates.popleft())
        elif engine.line > self.settings.lines or engine.count > UPDATES:
            self.say(f"a fresh engine takes over after {engine.line:,} lines and {engine.count:,} updates")
            self.engines.start(self.journal.installed)
        elif self.updates and not engine.asked and not (self.waiting and self.updated_last):
            self.updating = self.updated_last = True
            self.engines.ask(engine, [self.updates.popleft()])

    def updated(self, engine, question, answer):
        """Takes the answer to an update, and whether it is one."""
        if engine.accepts(answer):
            try:
                self.journal.add_update(question.line)
            except OSError as error:
                self.say(f"update {self.journal.number} isn't in the journal: {error.strerror}")
            question.reply(b'"accepted":%d}' % self.journal.number)
        elif answer.startswith((b'"refused":', b'"bad":')):
            question.reply(answer)
        else:
            return False
        self.updating = False
        return True

    def exchange(self, question):
        """Starts an engine that has another list, or another folder, for one of the extensions that the words named."""
        line, installed = loaded(question.line), self.journal.installed
        name, file = line.get("extension"), line.get("file")
        item = installed.item(name)
        if item is None or item.kind == "install":
            question.reply(dumped({"refused": "no-extension", "extension": name})[1:])
            return
        try:
            stored = self.journal.copy(name, file if isinstance(file, str) else item.source)
        except (OSError, ValueError) as error:
            question.reply(dumped({"refused": "no-file", "file": file, "why": str(error)})[1:])
            return
        source = file if isinstance(file, str) else item.source
        self.engines.start(installed.with_exchanged(name, source, stored), question)

    def exchanged(self, coming):
        """Keeps an exchange that was made, and replies."""
        name = loaded(coming.exchange.line)["extension"]
        before = self.journal.installed.item(name)
        if before.enabled or before.disabled:
            self.say(f"{name} was exchanged: which of its rulesets and rules were enabled or disabled is as in its new files")
        try:
            self.journal.add_exchange(coming.installed, name)
        except OSError as error:
            self.say(f"the exchange of {name} isn't in the journal: {error.strerror}")
        coming.exchange.reply(b'"accepted":%d}' % self.journal.number)

    def not_exchanged(self, coming, told):
        """Replies why an exchange was not made."""
        coming.exchange.reply(dumped(told)[1:])

    # What takes too long, or goes wrong.

    def ask_again(self, question):
        """Puts a question back in front, unless engines ended with it again and again."""
        question.tries += 1
        if question.client is NOBODY:
            return
        if question.kind == "update":
            self.updating = False
            if question.tries < TRIES:
                self.updates.appendleft(question)
            else:
                question.reply(dumped({"refused": "engine"})[1:])
        elif question.tries < TRIES:
            self.waiting.appendleft(question)
        else:
            self.by_setting(question, {"engine": "ended"})

    def check(self):
        """Looks for questions that have waited too long, and for engines that give nothing; the bell calls it."""
        now = self.events.now
        self.engines.check(now, self.updating)
        late = [question for question in self.waiting if question.until < now]
        if late:
            self.waiting = deque(question for question in self.waiting if question.until >= now)
        for engine in self.engines.engines():
            late += [it for it in engine.asked if it.kind == "request" and it.until < now and it.client is not NOBODY]
        for question in late:
            self.counts["late"] += 1
            self.by_setting(question, {"late": True})
            question.client = NOBODY
        if self.quiet:
            self.bell.every(0)

    def close(self):
        """Ends all engines."""
        self.engines.close()
        self.bell.close()
        self.events.close()
