"""The broker over the built program: many clients, engines that are killed, lists that are exchanged."""
import json
import os
import random
import signal
import stat
import threading
import time
import unittest

from proxy_cases import write_extension
from support import Broker, missing, room, wait_for

LACKING = missing()


def blocked(*hosts):
    """A list that blocks these hosts."""
    return "".join(f"||{host}^\n" for host in hosts)


def rule(number, host, **more):
    """A rule that blocks a host."""
    return {"id": number, "condition": {"urlFilter": f"||{host}^"}, "action": {"type": "block"}, **more}


def asked(host, number=1, **more):
    """A request to a host."""
    return {"id": number, "url": f"http://{host}/x.js", "type": "script", **more}


class Threads:
    """Threads that tell what they found wrong."""

    def __init__(self):
        self.threads, self.wrong = [], []

    def start(self, work, *words):
        """Starts one; what `work` raises counts as wrong."""

        def run():
            try:
                work(*words)
            except Exception as error:  # pylint: disable=broad-except
                self.wrong.append(repr(error))

        self.threads.append(threading.Thread(target=run))
        self.threads[-1].start()

    def join(self):
        """Waits for all of them."""
        for thread in self.threads:
            thread.join()


@unittest.skipIf(LACKING, f"{LACKING} missing")
class OverTheProgram(unittest.TestCase):
    """A broker over the built program, anew for each test."""

    def setUp(self):
        self.folder = self.enterContext(room())
        (self.folder / "list.txt").write_text(blocked(*(f"even{number}.test" for number in range(0, 40, 2))))

    def start(self, *words):
        """Starts a broker over the list and the extension `guard`."""
        write_extension(self.folder)
        if "--deadline" not in words:
            words += ("--deadline", "60")
        return self.enterContext(Broker(self.folder, "--ext", "guard", "--list", "easy=list.txt", *words))

    def test_twenty_clients_at_once(self):
        broker, threads = self.start(), Threads()

        def ask(place):
            with broker.client() as client:
                for number in range(100):
                    client.send(asked(f"even{place}.test", f"{place}.{number}"))
                for _ in range(100):
                    told = client.reply()
                    wanted = "none" if place % 2 else "block"
                    if told.pop("id").split(".")[0] != str(place) or told["verdict"] != wanted:
                        threads.wrong.append(told)

        for place in range(20):
            threads.start(ask, place)
        threads.join()
        self.assertEqual(threads.wrong, [])
        with broker.client() as client:
            counts = client.ask({"id": 1, "cmd": "counts"})
        self.assertEqual((counts["counts"]["block"], counts["counts"]["none"]), (1_000, 1_000))

    def test_an_engine_that_is_killed_twenty_times_in_two_thousand_requests(self):
        broker, threads = self.start("--deadline", "60"), Threads()
        done, kills = [0] * 20, 0

        def ask(place):
            draw = random.Random(place)
            with broker.client() as client:
                for number in range(100):
                    if number % 25 == 10:
                        added = rule(place * 100 + number + 1, f"n{number}.p{place}.test")
                        told = client.ask({"id": "u", "cmd": "dynamic", "extension": "easy", "addRules": [added]})
                        if "accepted" not in told:
                            threads.wrong.append(told)
                    host = draw.choice((f"even{place}.test", f"n{draw.randrange(100)}.p{place}.test"))
                    told = client.ask(asked(host, number))
                    is_added = host[0] == "n" and int(host[1:].split(".")[0]) in range(10, number + 1, 25)
                    wanted = "block" if is_added or host == f"even{place}.test" and place % 2 == 0 else "none"
                    if (told["id"], told["verdict"], "setting" in told) != (number, wanted, False):
                        threads.wrong.append((host, number, told))
                    done[place] += 1

        for place in range(20):
            threads.start(ask, place)
        while sum(done) < 2_000 and any(thread.is_alive() for thread in threads.threads):
            if sum(done) >= 95 * kills and kills < 20:
                kills += self.kill(broker)
            time.sleep(0.002)
        threads.join()
        self.assertEqual((threads.wrong, kills), ([], 20))
        with broker.client() as client:
            self.assertEqual(client.ask({"id": 1, "cmd": "sync"})["sync"], 80)
            for place in range(20):
                for number in range(10, 100, 25):
                    told = client.ask(asked(f"n{number}.p{place}.test"))
                    self.assertEqual(told["rule"], ["easy", "_dynamic", place * 100 + number + 1])

    def kill(self, broker):
        """Kills an engine of a broker, and whether there was one."""
        for engine in broker.engines()[:1]:
            os.kill(engine, signal.SIGKILL)
            return True
        return False

    def test_a_list_is_exchanged_under_load(self):
        broker, threads, stop, exchanged = self.start(), Threads(), threading.Event(), []
        versions = [self.folder / name for name in ("odd.txt", "even.txt")]
        for version, path in enumerate(versions, 1):
            path.write_text(blocked(f"v{version % 2}.test"))

        def ask(place):
            with broker.client() as client:
                while not stop.is_set():
                    settled = len(exchanged)
                    host = f"v{place % 2}.test"
                    told = client.ask(asked(host))
                    generation = told["generation"]
                    wanted = "block" if generation and generation % 2 == place % 2 else "none"
                    if told["verdict"] != wanted or generation < settled:
                        threads.wrong.append((told, settled))

        for place in range(8):
            threads.start(ask, place)
        with broker.client() as client:
            for number in range(6):
                told = client.ask({"id": 1, "cmd": "exchange", "extension": "easy", "file": str(versions[number % 2])})
                self.assertEqual(told, {"id": 1, "accepted": number + 1})
                exchanged.append(number)
                time.sleep(0.05)
            stop.set()
            threads.join()
            told = client.ask({"cmd": "explain", **asked("v0.test")})
        self.assertEqual(threads.wrong, [])
        self.assertEqual((told["why"][0]["rule"], told["why"][0]["lines"]), (["easy", "list", 1], [1]))

    def test_what_is_not_decided_is_asked_again(self):
        broker = self.start()
        with broker.client() as client:
            for more in (
                {"initiator": "http://a!b.test/"},
                {"initiator": "about:blank"},
                {"requestHeaders": [["x\u00e9", "1"]]},
                {"requestHeaders": [["x-a", "1\n2"]]},
                {"responseHeaders": [["", ""]]},
                {"frames": [{"url": "data:x"}]},
                {"initiator": "\ud800"},
            ):
                told = client.ask(json.loads(json.dumps(asked("even2.test", **more))))
                self.assertEqual((told["verdict"], told["relaxed"]), ("block", True), more)
                self.assertEqual(client.ask(asked("even3.test", **more))["verdict"], "none", more)
            told = client.ask({**asked("even3.test"), "url": "file:///x"})
            self.assertEqual((told["verdict"], told["setting"], told["cause"]["why"]), ("block", "closed", "bad-scheme"))

    def test_an_engine_that_stands_still_is_replaced(self):
        broker = self.start("--deadline", "1")
        with broker.client() as client:
            wait_for(lambda: client.ask(asked("even2.test")).get("rule"), what="an engine")
            os.kill(broker.engines()[0], signal.SIGSTOP)
            told = client.ask(asked("even3.test"))
            self.assertEqual((told["verdict"], told["cause"]), ("block", {"late": True}))
            wait_for(lambda: client.ask({"cmd": "counts"})["engines"] == 2, what="another engine")
            self.assertEqual(client.ask(asked("even3.test"))["verdict"], "none")

    def test_a_fresh_engine_takes_over_before_lines_run_out(self):
        broker = self.start("--lines", "300")
        with broker.client() as client:
            client.ask({"id": 1, "cmd": "session", "extension": "easy", "addRules": [rule(1, "s.test")]})
            for number in range(1_000):
                told = client.ask(asked("s.test", number))
                self.assertEqual((told["generation"], told["rule"]), (1, ["easy", "_session", 1]))
            wait_for(lambda: client.ask({"cmd": "counts"})["engines"] > 1, what="another engine")
            self.assertEqual(client.ask(asked("s.test"))["rule"], ["easy", "_session", 1])

    def test_the_journal_outlives_its_broker(self):
        broker = self.start()
        (self.folder / "other.txt").write_text(blocked("other.test"))
        with broker.client() as client:
            client.ask({"cmd": "dynamic", "extension": "easy", "addRules": [rule(1, "d.test")]})
            client.ask({"cmd": "session", "extension": "easy", "addRules": [rule(1, "s.test")]})
            client.ask({"cmd": "rulesets", "extension": "guard", "disableRulesetIds": ["guard"]})
            client.ask({"cmd": "exchange", "extension": "easy", "file": "other.txt"})
            self.assertEqual(client.ask(asked("s.test"))["verdict"], "block")
        broker.stop(signal.SIGKILL)
        with open(self.folder / "socket.journal/journal", "ab") as file:
            file.write(b'{"number":5,"update":{"cmd":"dyn')
        broker = self.start()
        with broker.client() as client:
            hosts = ("d.test", "s.test", "other.test", "even2.test", "blocked.localhost")
            told = [client.ask(asked(host))["verdict"] for host in hosts]
            self.assertEqual(told, ["block", "none", "block", "none", "none"])
            self.assertEqual(client.ask({"cmd": "sync", "id": 1}), {"id": 1, "sync": 4})
        broker.stop()
        other = Broker(self.folder, "--list", "easy=list.txt")
        self.assertEqual((other.process.wait(20), "--anew" in other.words_said()), (1, True))
        other.stop()

    def test_the_socket_is_for_its_user_alone(self):
        broker = self.start()
        self.assertEqual(stat.S_IMODE(os.stat(broker.socket).st_mode), 0o600)
        second = Broker(self.folder, "--ext", "guard")
        self.assertEqual((second.process.wait(20), "another broker" in second.words_said()), (1, True))
        second.stop()
        broker.stop()
        self.assertFalse(os.path.exists(broker.socket))

    def test_a_fresh_engine_has_the_same_state(self):
        broker, draw = self.start(), random.Random(7)
        hosts = [f"h{number}.test" for number in range(30)]
        requests = [{"cmd": "explain", **asked(host, number)} for number, host in enumerate(hosts)]
        with broker.client() as client:
            for line in updates(draw, 120):
                client.ask(line)
            before = [client.ask(line) for line in requests]
            self.kill(broker)
            after = [client.ask(line) for line in requests]
        self.assertEqual(before, after)
        self.assertTrue(any(it["verdict"] == "block" for it in before))


def updates(draw, count):
    """Some updates of all kinds; some are refused."""
    for number in range(count):
        extension = draw.choice(("easy", "guard", "more"))
        rules = [rule(draw.randrange(1, 20), f"h{draw.randrange(30)}.test", priority=draw.randrange(1, 4)) for _ in range(2)]
        changed = {"extension": extension, "removeRuleIds": [draw.randrange(1, 20)], "addRules": rules}
        ruleset = {"id": "m", "enabled": draw.random() < 0.5, "rules": [rule(1, "h1.test")]}
        switched = {draw.choice(("disableRuleIds", "enableRuleIds")): [1]}
        one = draw.choice(
            (
                {"cmd": "dynamic", **changed},
                {"cmd": "session", **changed},
                {"cmd": "batch", "updates": [{"cmd": "dynamic", **changed}, {"cmd": "session", **changed}]},
                {"cmd": "install", "extension": "more", "rulesets": [ruleset]},
                {"cmd": "uninstall", "extension": "more"},
                {"cmd": "rulesets", "extension": "more", "enableRulesetIds": ["m"]},
                {"cmd": "static", "extension": "more", "rulesetId": "m", "disableRuleIds": [1]},
                {"cmd": "static", "extension": "easy", "rulesetId": "list", **switched},
            )
        )
        yield {"id": number, **one}


if __name__ == "__main__":
    unittest.main()
