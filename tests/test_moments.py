"""At which moment a server begins."""
import re
import time
import unittest

from tests.calling import asking
from tests.program import run
from tests.serving import Server


def now():
    """The time in milliseconds since 1970."""
    return time.time_ns() // 1_000_000


class Moments(unittest.TestCase):
    def since(self, server):
        """The moment since which an object that is made now is there."""
        self.assertEqual(run(asking(server.address, "create", "0")).out, b"made 7.0.1\n")
        self.assertEqual(run(asking(server.address, "write", "7.0.1", "0", "61")).out, b"done\n")
        told = run(asking(server.address, "read", "7.0.1", "0", "1")).out
        return int(re.fullmatch(rb"data 61 by 0 since ([0-9]+)\n", told)[1])

    def test_a_server_may_begin_at_the_time_of_its_start(self):
        begin = now()
        with Server(connections=3, keeps=True, first_moment="now") as server:
            moment = self.since(server)
            # The clock of the moments isn't set back where that of the time is; a minute is more than both may be apart.
            self.assertTrue(begin - 60_000 <= moment <= now() + 60_000, (begin, moment))
            server.check_end(self, (3, 3), errors=r"(s4d: journal: start 1 .*\n)*")
            told = run(["history", "list", server.folder / "journal"]).out
            self.assertIn(b"%d" % moment, told)

    def test_a_number_is_the_moment_whatever_the_time_is(self):
        with Server(connections=3, first_moment=7) as server:
            self.assertIn(self.since(server), server.moments())
            server.check_end(self, (3, 3))
