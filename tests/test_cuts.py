"""Servers that drop the records that no reply needs any more."""
import socket
import time
import unittest

from tests.frames import CREATE, DATA, DONE, HELLO, MADE, READ, WELCOME, WRITE
from tests.serving import Server, until
from tools.lib.servers import everything

# How long it takes up to what is asked late, in seconds.
LATE = 2


class Cuts(unittest.TestCase):
    """A peer that says some frames, and each of others much later than all before."""

    def check(self, first, later, sent, records, counts=None, **settings):
        with Server("--cut", idle=60000, hello=60000, **settings) as server:
            with server.connect() as peer:
                peer.sendall(b"".join(first))
                for frame in later:
                    time.sleep(LATE)
                    peer.sendall(frame)
                # What is older than the window by then goes a round or three later.
                until(lambda: self.is_cut(server, len(first + later) - 1, records[1]), "the records are cut")
                peer.shutdown(socket.SHUT_WR)
                got = everything(peer)
            self.assertTrue(server.is_sent(got, sent), got.hex())
            server.check_end(self, records, counts)

    def is_cut(self, server, asked, most):
        """Whether the server tells that it replied to all that is asked, and has not more than so many records."""
        status = server.status()
        return status is not None and status["replies"] >= asked and status["records"] <= most

    def test_what_no_reply_needs_any_more_is_cut(self):
        self.check([HELLO, CREATE, WRITE], [READ], [WELCOME, MADE, DONE, DATA], (0, 1), [3], cells=1)

    def test_a_cell_that_nobody_asks_holds_up_no_cut(self):
        # Twelve requests are asked, all in one of two cells.
        self.check([HELLO, CREATE, WRITE, *[READ] * 8], [READ] * 2, [WELCOME, MADE, DONE, *[DATA] * 10], (2, 6))
