"""What is told of a request from what a proxy sees."""
import unittest

import support  # pylint: disable=unused-import
from dnr_lines.decision import decided, without_broker
from dnr_lines.traffic import question

ASKED = [
    # The URL, the method, the headers, and what is asked.
    ("https://a.test/", "GET", {"Sec-Fetch-Dest": "document"}, {"type": "main_frame", "method": "get"}),
    ("https://a.test/", "GET", {"Sec-Fetch-Dest": "iframe"}, {"type": "sub_frame"}),
    ("https://a.test/x", "GET", {"Sec-Fetch-Dest": "style"}, {"type": "stylesheet"}),
    ("https://a.test/x", "GET", {"Sec-Fetch-Dest": "worker"}, {"type": "script"}),
    ("https://a.test/x", "GET", {"Sec-Fetch-Dest": "Image"}, {"type": "image"}),
    ("https://a.test/x", "GET", {"Sec-Fetch-Dest": "video"}, {"type": "media"}),
    ("https://a.test/x", "GET", {"Sec-Fetch-Dest": "embed"}, {"type": "object"}),
    ("https://a.test/x", "POST", {"Sec-Fetch-Dest": "report"}, {"type": "csp_report", "method": "post"}),
    ("https://a.test/x", "GET", {"Sec-Fetch-Dest": "manifest"}, {"type": "other"}),
    ("https://a.test/x", "GET", {"Sec-Fetch-Dest": "empty", "Sec-Fetch-Mode": "cors"}, {"type": "xmlhttprequest"}),
    ("https://a.test/x", "POST", {"Sec-Fetch-Dest": "empty", "Sec-Fetch-Mode": "no-cors"}, {"type": "ping"}),
    ("https://a.test/x", "GET", {"Sec-Fetch-Dest": "empty", "Sec-Purpose": "prefetch"}, {"type": "other"}),
    ("https://a.test/x", "POST", {"Ping-To": "https://b.test/", "Sec-Fetch-Dest": "empty"}, {"type": "ping"}),
    ("http://a.test/x", "GET", {"Upgrade": "websocket"}, {"type": "websocket", "url": "ws://a.test/x"}),
    ("https://a.test/x", "GET", {"Sec-Fetch-Dest": "empty", "Sec-Fetch-Mode": "websocket"}, {"url": "wss://a.test/x"}),
    ("ws://a.test/x", "GET", {}, {"type": "websocket", "url": "ws://a.test/x"}),
    ("a.test:443", "CONNECT", {}, {"type": "other", "method": "connect", "url": "https://a.test:443/"}),
    ("http://a.test/", "GET", {"Accept": "text/html,application/xhtml+xml"}, {"type": "main_frame"}),
    ("http://a.test/x", "GET", {"Accept": "text/css,*/*;q=0.1"}, {"type": "stylesheet"}),
    ("http://a.test/x", "GET", {"Accept": "image/avif,*/*"}, {"type": "image"}),
    ("http://a.test/x.js?y.css", "GET", {"Accept": "*/*"}, {"type": "script"}),
    ("http://a.test/x.WOFF2", "GET", {}, {"type": "font"}),
    ("http://a.test/x", "GET", {"X-Requested-With": "XMLHttpRequest"}, {"type": "xmlhttprequest"}),
    ("http://a.test/x", "BREW", {}, {"type": "other", "method": "other"}),
    ("http://a.test/x", "GET", {"Origin": "http://b.test", "Referer": "http://c.test/"}, {"initiator": "http://b.test"}),
    ("http://a.test/x", "GET", {"Referer": "http://c.test/d"}, {"initiator": "http://c.test/d"}),
    ("http://a.test/x", "GET", {"Referer": "http://c.test/d"}, {"frames": [{"url": None}, {"url": "http://c.test/d"}]}),
    ("http://a.test/x", "GET", {"Origin": "null"}, {"initiator": None}),
    ("http://a.test/x", "GET", {"Sec-Fetch-Site": "same-origin"}, {"initiator": "http://a.test/x"}),
    ("http://a.test/x", "GET", {"Sec-Fetch-Site": "cross-site"}, {"initiator": None}),
    ("http://a.test/", "GET", {"Accept": "text/html", "Referer": "http://c.test/"}, {"frames": None}),
]


class Traffic(unittest.TestCase):
    """The tables."""

    def test_questions(self):
        for url, method, headers, wanted in ASKED:
            asked = question(url, method, headers.get)
            self.assertEqual({key: asked.get(key) for key in wanted}, wanted, (url, method, headers))

    def test_decisions(self):
        for reply, action in (
            ({"verdict": "none"}, "pass"),
            ({"verdict": "allow", "rule": ["a", "b", 1]}, "pass"),
            ({"verdict": "block", "rule": ["a", "b", 1]}, "block"),
            ({"verdict": "redirect", "rule": ["a", "b", 1], "url": "https://b.test/"}, "redirect"),
            ({"verdict": "upgrade", "rule": ["a", "b", 1], "url": "https://b.test/"}, "redirect"),
            ({"verdict": "redirect", "rule": ["a", "b", 1], "url": "chrome-extension://a/x"}, "block"),
            ({"refused": "engine"}, "block"),
            ({}, "block"),
        ):
            self.assertEqual(decided(reply).action, action, reply)
        self.assertEqual([without_broker(setting).action for setting in ("closed", "open")], ["block", "pass"])


if __name__ == "__main__":
    unittest.main()
