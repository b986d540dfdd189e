"""The cases that every proxy before the broker must pass: the same rules, the same requests.

Hosts end in `.localhost`; each proxy is set up so that they lead to the server of the test.
"""
from concurrent.futures import ThreadPoolExecutor

from support import curl, write_json

RULES = [
    {"id": 1, "condition": {"urlFilter": "||blocked.localhost^"}, "action": {"type": "block"}},
    {
        "id": 2,
        "condition": {"urlFilter": "||moved.localhost^", "resourceTypes": ["main_frame", "other"]},
        "action": {"type": "redirect", "redirect": {"transform": {"host": "new.localhost"}}},
    },
    {"id": 3, "condition": {"urlFilter": "||secure.localhost^"}, "action": {"type": "upgradeScheme"}},
    {
        "id": 4,
        "condition": {"urlFilter": "||headers.localhost^"},
        "action": {
            "type": "modifyHeaders",
            "requestHeaders": [
                {"header": "dnt", "operation": "set", "value": "1"},
                {"header": "cookie", "operation": "remove"},
            ],
            "responseHeaders": [{"header": "set-cookie", "operation": "remove"}],
        },
    },
    {"id": 5, "priority": 2, "condition": {"urlFilter": "||blocked.localhost/allowed/"}, "action": {"type": "allow"}},
    {
        "id": 6,
        "condition": {"urlFilter": "||third.localhost^", "domainType": "thirdParty", "resourceTypes": ["script"]},
        "action": {"type": "block"},
    },
    {
        "id": 7,
        "condition": {"urlFilter": "||extension.localhost^"},
        "action": {"type": "redirect", "redirect": {"extensionPath": "/empty.js"}},
    },
]
BY_RESPONSE = {
    "id": 8,
    "condition": {"urlFilter": "||answers.localhost^", "responseHeaders": [{"header": "x-kind", "values": ["track*"]}]},
    "action": {"type": "block"},
}


def write_extension(folder, *more):
    """Writes the extension `guard` of these rules."""
    write_json(folder / "guard/rules.json", [*RULES, *more])
    resources = {"rule_resources": [{"id": "guard", "enabled": True, "path": "rules.json"}]}
    write_json(folder / "guard/manifest.json", {"name": "Guard", "manifest_version": 3, "declarative_net_request": resources})


class ProxyCases:
    """The cases. `self.proxy` and `self.server` are set by the class that has them."""

    def asked(self, path, *words):
        """The answer to a request through the proxy, and whether it reached the server."""
        before = len(self.server.seen)
        answer = curl(self.proxy, f"http://{path}", *words)
        host = path.partition("/")[0]
        return answer, any(it.startswith(host) for it in self.server.seen[before:])

    def test_what_no_rule_is_for_passes(self):
        answer, reached = self.asked("plain.localhost/x")
        self.assertEqual((answer.status, reached), (200, True))
        self.assertEqual(answer.headers["set-cookie"], ["a=1"])

    def test_a_blocked_request_does_not_reach_its_server(self):
        answer, reached = self.asked("blocked.localhost/x")
        self.assertEqual((answer.status, reached), (403, False))

    def test_an_allowed_one_does(self):
        answer, reached = self.asked("blocked.localhost/allowed/x")
        self.assertEqual((answer.status, reached), (200, True))

    def test_a_redirected_one_is_sent_elsewhere(self):
        answer, reached = self.asked("moved.localhost/x?y")
        self.assertEqual((answer.status, reached), (307, False))
        self.assertEqual(answer.headers["location"], ["http://new.localhost/x?y"])

    def test_an_upgraded_one_is_sent_to_https(self):
        answer, reached = self.asked("secure.localhost/x")
        self.assertEqual((answer.status, reached), (307, False))
        self.assertEqual(answer.headers["location"], ["https://secure.localhost/x"])

    def test_headers_are_set_and_removed(self):
        answer, _ = self.asked("headers.localhost/x", "--header", "Cookie: a=b", "--header", "DNT: 0")
        sent = answer.sent()
        self.assertEqual(sent.get("dnt"), "1")
        self.assertNotIn("cookie", sent)
        self.assertNotIn("set-cookie", answer.headers)

    def test_headers_of_other_requests_stay(self):
        answer, _ = self.asked("plain.localhost/x", "--header", "Cookie: a=b", "--header", "DNT: 0")
        self.assertEqual((answer.sent()["cookie"], answer.sent()["dnt"]), ("a=b", "0"))

    def test_a_page_of_an_extension_is_blocked_since_no_server_has_it(self):
        answer, reached = self.asked("extension.localhost/x")
        self.assertEqual((answer.status, reached), (403, False))

    def test_type_and_initiator_are_told_by_headers(self):
        script = ("--header", "Sec-Fetch-Dest: script")
        for words, status in (
            ((*script, "--header", "Referer: http://news.localhost.example/a"), 403),
            ((*script, "--header", "Origin: http://third.localhost"), 200),
            (("--header", "Sec-Fetch-Dest: image", "--header", "Referer: http://news.localhost.example/a"), 200),
        ):
            self.assertEqual(self.asked("third.localhost/x", *words)[0].status, status, words)

    def test_a_header_past_ascii_passes_nothing_that_is_blocked(self):
        for header in (b"X-Name: \xe9\xff", b"Referer: http://\xe9.example/", b"User-Agent: \xf0\x9f"):
            answer, reached = self.asked("blocked.localhost/x", "--header", header)
            self.assertEqual((answer.status, reached), (403, False), header)
            self.assertEqual(self.asked("plain.localhost/x", "--header", header)[0].status, 200, header)

    def test_a_url_past_ascii_is_asked_as_it_is(self):
        for path in (b"/\xe9", "/\u00e9".encode(), b"/x?\xff"):
            statuses = [curl(self.proxy, b"http://%s.localhost%s" % (host, path)).status for host in (b"plain", b"blocked")]
            # (mitmproxy takes no such URL)
            self.assertIn(statuses, ([200, 403], [400, 400]), path)
        self.assertFalse(any("blocked" in it for it in self.server.seen if "allowed" not in it))

    def test_a_malformed_referer_passes_nothing_that_is_blocked(self):
        for referer in ("http://a!b.example/", "about:blank", "nonsense", "http://[::1", "https://"):
            answer, reached = self.asked("blocked.localhost/x", "--referer", referer)
            self.assertEqual((answer.status, reached), (403, False), referer)
            self.assertEqual(self.asked("plain.localhost/x", "--referer", referer)[0].status, 200, referer)

    def test_a_tunnel_to_a_blocked_site_is_refused(self):
        before = len(self.server.seen)
        answer = curl(self.proxy, "https://blocked.localhost/x")
        self.assertEqual((answer.status, len(self.server.seen)), (403, before))

    def test_twenty_clients_at_once(self):
        paths = ["blocked.localhost/x", "blocked.localhost/allowed/x", "moved.localhost/x", "plain.localhost/x"] * 10
        with ThreadPoolExecutor(20) as pool:
            statuses = list(pool.map(lambda path: curl(self.proxy, f"http://{path}").status, paths))
        self.assertEqual(statuses, [403, 200, 307, 200] * 10)

    def test_without_a_broker_nothing_passes(self):
        self.broker.stop()
        try:
            self.assertEqual(self.asked("plain.localhost/x")[0].status, 403)
        finally:
            type(self).broker = self.start_broker()
        self.assertEqual(self.asked("plain.localhost/x")[0].status, 200)
