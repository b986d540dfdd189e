"""How the broker queues, over a scripted child that goes wrong when told: no built program is asked here."""
import json
import threading
import time
import unittest

from support import SCRIPTED, Broker, room, wait_for


def block(number, host):
    """An update that blocks a host."""
    rule = {"id": number, "condition": {"urlFilter": f"||{host}^"}, "action": {"type": "block"}}
    return {"id": "u", "cmd": "dynamic", "extension": "a", "addRules": [rule]}


def asked(host, number=1, **more):
    """A request to a host."""
    return {"id": number, "url": f"http://{host}/", "type": "script", **more}


class Queue(unittest.TestCase):
    """A broker over the child, anew for each test."""

    def start(self, *words):
        """Starts a broker."""
        folder = self.enterContext(room())
        (folder / "list.txt").touch()
        if "--deadline" not in words:
            words += ("--deadline", "60")
        environment = {"DNR_PROGRAM": SCRIPTED, "SCRIPTED_ROOM": folder}
        return self.enterContext(Broker(folder, "--list", "a=list.txt", *words, environment=environment))

    def test_an_engine_that_ends_is_asked_again(self):
        with self.start().client() as client:
            client.ask(block(1, "a.test"))
            self.assertEqual(client.ask(asked("dies.test"))["verdict"], "none")
            wanted = {"id": 1, "generation": 1, "verdict": "block", "rule": ["a", "_dynamic", 1]}
            self.assertEqual(client.ask(asked("a.test")), wanted)

    def test_an_answer_that_is_left_out_gives_no_wrong_one(self):
        with self.start().client() as client:
            client.ask(block(1, "a.test"))
            for number, host in enumerate(["x.test", "skips.test", "a.test", "y.test"]):
                client.send(asked(host, number))
            told = {reply["id"]: reply["verdict"] for reply in (client.reply() for _ in range(4))}
            self.assertEqual(told, {0: "none", 1: "none", 2: "block", 3: "none"})

    def test_an_answer_of_another_generation_is_no_answer(self):
        broker = self.start()
        with broker.client() as client:
            self.assertEqual(client.ask(asked("elsewhen.test")), {"id": 1, "generation": 0, "verdict": "none"})
        self.assertIn("another one is asked", broker.words_said())

    def test_an_answer_too_many_gives_no_wrong_one(self):
        broker = self.start()
        with broker.client() as client:
            client.ask(block(1, "a.test"))
            for number, host in enumerate(["repeats.test", "a.test", "b.test"]):
                told = client.ask(asked(host, number))
                self.assertEqual((told["id"], told["verdict"]), (number, "block" if host == "a.test" else "none"))
        self.assertIn("another one is asked", broker.words_said())

    def test_a_question_may_wait_so_long_and_then_the_setting_counts(self):
        for setting, verdict in (("closed", "block"), ("open", "none")):
            broker = self.start("--deadline", "0.4", "--undecided", setting)
            with broker.client() as client:
                wait_for(lambda: client.ask({"cmd": "counts"})["engines"] == 1, what="an engine")
                told = client.ask(asked("sleeps.test"))
                self.assertEqual((told["verdict"], told["setting"], told["cause"]), (verdict, setting, {"late": True}))
                wait_for(lambda: client.ask({"cmd": "counts"})["engines"] == 2, what="another engine")
                self.assertEqual(client.ask(asked("sleeps.test"))["verdict"], "none")

    def test_a_fault_is_asked_again_and_then_the_setting_counts(self):
        with self.start().client() as client:
            told = client.ask(asked("faulty.test"))
            self.assertEqual((told["verdict"], told["cause"]["fault"]), ("block", "pattern-host"))

    def test_a_bad_line_is_asked_again_without_what_may_be_bad(self):
        with self.start().client() as client:
            client.ask(block(1, "a.test"))
            for more in ({"initiator": "http://\u00e9"}, {"requestHeaders": "bad"}):
                told = client.ask(asked("a.test", **more))
                self.assertEqual((told["verdict"], told["relaxed"]), ("block", True), more)
                told = client.ask(asked("b.test", **more))
                self.assertEqual((told["verdict"], told["relaxed"]), ("none", True), more)

    def test_lines_that_cannot_be_asked_are_no_leave_to_pass(self):
        with self.start().client() as client:
            for line, name, cause in (
                (b"{", None, "json"),
                (b"[]", None, "json"),
                (b'{"id":1,', None, "json"),
                (b'{"id":1,"url":"http://b.test/"}}', None, "json"),
                (b'{"id":1,"url":"http://b.test/","x":"\xff"}', None, "json"),
                (b'{"id":1,"url":"http://b.test/","x":' + b"[" * 5_000 + b"]" * 5_000 + b"}", None, "json"),
                (b'{"cmd":"zzz","id":1}', 1, "command"),
                (b'{"id":1,"cmd":[]}', 1, "command"),
                (b'{"cmd":1}', None, "command"),
            ):
                client.connection.sendall(line + b"\n")
                told = client.reply()
                self.assertEqual((told["id"], told["verdict"], told["cause"]["bad"]), (name, "block", cause), line)
            client.connection.sendall(b"\n  \n")
            self.assertEqual(client.ask(asked("b.test"))["verdict"], "none")

    def test_a_reply_has_the_id_of_its_line_whatever_its_form(self):
        with self.start().client() as client:
            for line, name in (
                (b'{"id":1,%s}', b"1"),
                (b'{"id": 1, %s}', b"1"),
                (b'\t{"id" :1 ,%s} \r', b"1"),
                (b'{%s,"id":"a"}', b'"a"'),
                (b'{"id":1,%s,"id":2}', b"2"),
                (b'{"id":1,"x":{"id":2},%s}', b"1"),
                (b'{"id":1,%s,"\\u0069d":3}', b"3"),
                (b'{"id":"\\u0041\\"",%s}', b'"A\\""'),
                (b'{"id":"\xc3\xa9","cmd":"explain",%s}', b'"\xc3\xa9"'),
                (b'{"id":1234567890123456789012,%s}', b"1234567890123456789012"),
                (b'{"id":-0,%s}', b"0"),
                (b'{"id":1.5,%s}', b"null"),
                (b'{"id":true,%s}', b"null"),
                (b"{%s}", b"null"),
            ):
                client.connection.sendall(line % b'"url":"http://b.test/"' + b"\n")
                self.assertEqual(client.line(), b'{"id":%s,"generation":0,"verdict":"none"}' % name, line)
            client.connection.sendall(b'{"id":1,"\\u0063md":"sync"}\n')
            self.assertEqual(client.line(), b'{"id":1,"sync":0}')

    def test_lines_may_come_in_pieces_and_many_at_once(self):
        with self.start().client() as client:
            lines = b"".join(b'{"id":%d,"url":"http://b.test/"}\n' % number for number in range(3_000))
            for start in range(0, len(lines), 9_973):
                client.connection.sendall(lines[start : start + 9_973])
                time.sleep(0.001)
            self.assertEqual([client.reply()["id"] for _ in range(3_000)], list(range(3_000)))

    def test_a_line_without_an_end_ends_its_client_alone(self):
        broker = self.start()
        with broker.client() as flood, broker.client() as other:
            with self.assertRaises(OSError):
                for _ in range(200):
                    flood.connection.sendall(b"x" * 100_000)
                flood.reply()
            self.assertEqual(other.ask(asked("b.test"))["verdict"], "none")

    def test_an_update_is_made_once_though_engines_end(self):
        broker = self.start()
        with broker.client() as client:
            for number in range(1, 4):
                client.send(block(number, f"h{number}.test"))
                client.send(asked("dies.test"))
            told = [client.reply() for _ in range(6)]
            self.assertEqual(sorted(it["accepted"] for it in told if "accepted" in it), [1, 2, 3])
            self.assertEqual(client.ask({"id": 1, "cmd": "sync"}), {"id": 1, "sync": 3})
            for number in range(1, 4):
                self.assertEqual(client.ask(asked(f"h{number}.test"))["rule"], ["a", "_dynamic", number])

    def test_a_refused_update_changes_nothing(self):
        with self.start().client() as client:
            self.assertEqual(client.ask(block(0, "a.test"))["refused"], "bad-id")
            self.assertEqual(client.ask(asked("a.test")), {"id": 1, "generation": 0, "verdict": "none"})

    def test_a_client_that_leaves_or_does_not_read_holds_up_nobody(self):
        broker = self.start()
        with broker.client() as silent, broker.client() as other:
            with broker.client() as leaving:
                leaving.send(asked("b.test"))
            line = json.dumps(asked("b.test")).encode() + b"\n"
            silent.connection.settimeout(0.5)
            try:
                for _ in range(200):
                    silent.connection.sendall(line * 1_000)
            except OSError:
                pass
            self.assertEqual(other.ask(asked("b.test"))["verdict"], "none")

    def test_replies_come_to_who_asked(self):
        broker, wrong = self.start(), []

        def ask(number):
            with broker.client() as client:
                for count in range(100):
                    name = f"{number}.{count}"
                    told = client.ask(asked("b.test", name))
                    if told != {"id": name, "generation": 0, "verdict": "none"}:
                        wrong.append(told)

        threads = [threading.Thread(target=ask, args=(number,)) for number in range(20)]
        for thread in threads:
            thread.start()
        for thread in threads:
            thread.join()
        self.assertEqual(wrong, [])

    def test_an_exchange_that_is_refused_leaves_what_was(self):
        broker = self.start()
        with broker.client() as client:
            told = client.ask({"id": 1, "cmd": "exchange", "extension": "a", "file": "missing.txt"})
            self.assertEqual(told["refused"], "no-file")
            told = client.ask({"id": 1, "cmd": "exchange", "extension": "b", "file": "list.txt"})
            self.assertEqual(told, {"id": 1, "refused": "no-extension", "extension": "b"})
            self.assertEqual(client.ask(asked("b.test")), {"id": 1, "generation": 0, "verdict": "none"})

    def test_a_first_engine_that_is_refused_ends_the_broker(self):
        folder = self.enterContext(room())
        (folder / "list.txt").touch()
        broker = Broker(folder, "--list", "refused=list.txt", environment={"DNR_PROGRAM": SCRIPTED, "SCRIPTED_ROOM": folder})
        self.assertEqual(broker.process.wait(20), 1)
        self.assertIn("too-many-rules", broker.words_said())
        broker.stop()


if __name__ == "__main__":
    unittest.main()
