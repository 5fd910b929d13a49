"""Times of flags that have units."""
import time
import unittest

from tests.calling import asking
from tests.frames import HELLO
from tests.peers import rest_of
from tests.program import Ended, run
from tests.serving import Server, until
from tools.lib.servers import address


class Times(unittest.TestCase):
    def test_a_window_of_days_is_told_in_milliseconds(self):
        for word, wanted in (("7d", 604_800_000), ("2h", 7_200_000), ("3m", 180_000), ("4s", 4000), ("5ms", 5), ("6", 6), ("0d", 0)):
            with self.subTest(word), Server(window=word, idle="90s", hello="2m", reload="50ms", connections=0) as server:
                until(lambda: server.status() is not None, "there is a status")
                self.assertEqual(server.status()["window"], wanted)

    def test_a_peer_that_is_silent_for_a_second_is_closed(self):
        with Server(idle="1s", hello="1h", connections=0) as server, server.welcomed(HELLO) as peer:
            begin = time.monotonic()
            self.assertEqual(rest_of(peer), b"")
            self.assertGreater(time.monotonic() - begin, 0.5)

    def test_a_call_waits_for_a_time_with_a_unit(self):
        begin = time.monotonic()
        self.assertEqual(run(asking(address(), "create", "0", flags=["--wait", "1s"])), Ended(1, b"", b"s4d: cannot connect: Connection refused\n"))
        self.assertGreaterEqual(time.monotonic() - begin, 1)
