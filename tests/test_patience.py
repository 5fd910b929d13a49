"""Peers with whom a server loses its patience."""
import contextlib
import time
import unittest

from tests.frames import CALL, HELLO, MADE, SLOW_WRITE, WELCOME
from tests.peers import exactly, rest_of
from tests.serving import PAUSE, Server, until
from tools.lib.servers import everything

# How many strangers are silent.
SILENT = 300


def say_slowly(peer, said):
    """Says it byte by byte, with a pause before each, until the connection ends, and gives what was sent there. That has to be before all is said."""
    for at in range(len(said)):
        time.sleep(PAUSE)
        try:
            peer.sendall(said[at : at + 1])
        except ConnectionError:
            # A connection that is closed with bytes unread ends by a reset.
            return rest_of(peer)
    raise AssertionError("all of it is taken")


class Patience(unittest.TestCase):
    """Peers that are too slow. Bounds are in milliseconds."""

    def test_a_silent_peer_is_closed_once_it_is_idle(self):
        with Server(idle=200) as server:
            with server.connect() as peer:
                self.assertEqual(everything(peer), b"")
            server.check_end(self, (0, 0))

    def test_who_is_not_welcomed_in_time_is_closed_whatever_bytes_come(self):
        # All of it would take 3 seconds.
        with Server(idle=60000, hello=400) as server:
            with server.connect() as peer:
                self.assertEqual(say_slowly(peer, HELLO), b"")
            server.check_end(self, (0, 0))

    def test_who_sends_no_whole_frame_is_idle_whatever_bytes_come(self):
        # All of it would take 6 seconds.
        with Server(idle=1000, hello=60000) as server:
            with server.connect() as peer:
                peer.sendall(HELLO)
                self.assertEqual(exactly(peer, 6), WELCOME)
                self.assertEqual(say_slowly(peer, SLOW_WRITE), b"")
            server.check_end(self, (0, 0))

    def test_strangers_hold_no_place_for_longer_than_they_may(self):
        with Server(workers=2, connections=SILENT + 1, idle=60000, hello=2000, open=SILENT) as server, contextlib.ExitStack() as silent:
            for _ in range(SILENT):
                silent.enter_context(server.connect())
            sent = []
            until(lambda: self.is_served(server, sent), "one is served who comes after the strangers")
            self.assertEqual(sent, [WELCOME + MADE])
            server.check_end(self, (1, 1))

    def is_served(self, server, sent):
        """Whether a peer is served now that asks for a Create; what it is sent is added then."""
        try:
            got = server.tell(CALL)
        except ConnectionError:
            return False
        if got:
            sent.append(got)
        return bool(got)
