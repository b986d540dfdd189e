"""squid before the broker."""
import unittest

from proxies import group_of_squid, squid
from proxy_cases import ProxyCases, write_extension
from support import Broker, missing, room, web_server

LACKING = missing("squid", "curl")


@unittest.skipIf(LACKING, f"{LACKING} missing")
class Squid(ProxyCases, unittest.TestCase):
    """The cases of all proxies."""

    @classmethod
    def start_broker(cls):
        return Broker(cls.folder, "--ext", "guard", "--deadline", "20", *group_of_squid())

    @classmethod
    def setUpClass(cls):
        cls.folder = cls.enterClassContext(room())
        cls.server = cls.enterClassContext(web_server())
        write_extension(cls.folder)
        cls.broker = cls.start_broker()
        cls.addClassCleanup(lambda: cls.broker.stop())
        cls.proxy = cls.enterClassContext(squid(cls.folder, cls.server.server_port, cls.broker.socket))


if __name__ == "__main__":
    unittest.main()
