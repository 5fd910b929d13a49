"""Shares of a server's time: whoever asks much doesn't hold up whoever asks little."""
import contextlib
import json
import unittest

from tests.frames import DENIED, FOREIGN_READ, HELLO, OTHER_HELLO
from tests.peers import exactly
from tests.program import run
from tests.serving import Server

# How many connections the one has who asks much, and how many requests come on each. What they are replied is small enough to wait for its peer.
MANY, ASKED = 16, 500
# In the time of one request of the other, whoever asks much has so many at most; where each connection had a share he would have MANY.
MOST = 4


def told_of(server):
    """Who asked, in the order in which it was answered, of a server with one cell."""
    listed = run(["history", "list", server.folder / "journal", "--json"])
    return [json.loads(line)["who"] for line in listed.out.splitlines()]


class Shares(unittest.TestCase):
    """Principals 7, who asks much, and 8."""

    def test_many_connections_of_one_principal_have_one_share(self):
        with Server(workers=1, cells=1, connections=0, keeps=True) as server, contextlib.ExitStack() as peers:
            many = [peers.enter_context(server.welcomed(HELLO)) for _ in range(MANY)]
            other = peers.enter_context(server.welcomed(OTHER_HELLO))
            for peer in many:
                peer.sendall(FOREIGN_READ * ASKED)
            other.sendall(FOREIGN_READ * ASKED)
            for peer in (other, *many):
                self.assertEqual(exactly(peer, len(DENIED) * ASKED), DENIED * ASKED)
            server.end()
            who = told_of(server)
            first, last = who.index(8), len(who) - who[::-1].index(8)
            self.assertEqual(who.count(8), ASKED)
            self.assertLessEqual(who[first:last].count(7), MOST * ASKED)


if __name__ == "__main__":
    unittest.main()
