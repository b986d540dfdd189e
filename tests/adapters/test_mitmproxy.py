"""mitmproxy before the broker."""
import unittest

from proxies import mitmproxy
from proxy_cases import BY_RESPONSE, ProxyCases, write_extension
from support import Broker, missing, room, web_server

LACKING = missing("mitmdump", "curl")


@unittest.skipIf(LACKING, f"{LACKING} missing")
class Mitmproxy(ProxyCases, unittest.TestCase):
    """The cases of all proxies, and those of responses."""

    @classmethod
    def start_broker(cls):
        return Broker(cls.folder, "--ext", "guard", "--deadline", "20")

    @classmethod
    def setUpClass(cls):
        cls.folder = cls.enterClassContext(room())
        cls.server = cls.enterClassContext(web_server())
        write_extension(cls.folder, BY_RESPONSE)
        cls.broker = cls.start_broker()
        cls.addClassCleanup(lambda: cls.broker.stop())
        cls.proxy = cls.enterClassContext(mitmproxy(cls.folder, cls.server.server_port, cls.broker.socket))

    def test_a_response_may_be_blocked_by_its_headers(self):
        answer, reached = self.asked("answers.localhost/tracking")
        self.assertEqual((answer.status, reached), (403, True))
        self.assertIn("blocked by dnr", answer.body)
        self.assertNotIn("headers", answer.body)
        self.assertEqual(self.asked("answers.localhost/x")[0].status, 200)

    def test_one_that_has_no_body_may_be_blocked_by_its_headers(self):
        answer, reached = self.asked("answers.localhost/tracking", "--head")
        self.assertEqual((answer.status, reached), (403, True))


if __name__ == "__main__":
    unittest.main()
