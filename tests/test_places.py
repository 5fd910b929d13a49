"""Places at a server: how many connections may be open, of whom, and from where."""
import contextlib
import resource
import socket
import unittest

from tests.frames import ANSWER, CALL, CREATE, HELLO, WELCOME
from tests.peers import exactly, hello, rest_of
from tests.program import PROGRAM, SECONDS
from tests.serving import LOGINS, SECRETS, Server, until
from tools.lib import servers

# The administrator's secret, and who says so who it is. Logins with that.
SECRET = bytes(range(32, 48))
ADMINISTRATOR = hello(0, 1, SECRET)
ALL_LOGINS = servers.logins_of({0: SECRET} | SECRETS)
# Of so many places one is the administrator's.
PLACES = 16
# So many descriptors, of which a server with one worker takes so many for itself.
DESCRIPTORS, OTHERS = 40, 16
# How long it is looked whether a connection is still open, in seconds.
LOOK = 0.05


def is_open(peer):
    """Whether a connection on which nothing is sent is still open."""
    peer.settimeout(LOOK)
    try:
        return peer.recv(1) != b""
    except TimeoutError:
        return True
    except ConnectionError:
        return False


def connect_from(server, host):
    """A connection from this address."""
    return socket.create_connection(servers.host_and_port(server.address), servers.PATIENCE, source_address=(host, 0))


class Places(unittest.TestCase):
    """Servers whose places are all taken."""

    def test_the_oldest_that_is_not_welcomed_makes_room(self):
        with Server(workers=2, connections=7, open=4) as server, contextlib.ExitStack() as peers:
            silent = [peers.enter_context(server.connect()) for _ in range(4)]
            for place in range(2):
                until(lambda: self.greeting(server) == 4, "the server knows of all that are silent")
                self.assertEqual(server.tell(CALL)[: len(WELCOME)], WELCOME)
                # Whoever was served has gone, so there is one place again; the next one takes that.
                until(lambda: sum(map(is_open, silent)) == 3, "the oldest is turned out")
                self.assertFalse(any(map(is_open, silent[: place + 1])))
                if place == 0:
                    silent.append(peers.enter_context(server.connect()))
            for peer in silent:
                peer.close()
            server.check_end(self, (2, 2))

    def test_no_flood_of_silent_peers_keeps_a_newcomer_out(self):
        with Server(workers=2, connections=0, open=64) as server, contextlib.ExitStack() as peers:
            for count in range(8):
                for _ in range(40):
                    peers.enter_context(server.connect())
                self.assertEqual(server.tell(HELLO), WELCOME, count)
            server.ask_to_end()
            server.check_end(self, (0, 0))

    def test_some_places_are_the_administrators(self):
        with Server(connections=0, open=PLACES, logins=ALL_LOGINS) as server, contextlib.ExitStack() as peers:
            tenants = [peers.enter_context(server.welcomed(HELLO)) for _ in range(PLACES - 1)]
            with server.connect() as late:
                late.sendall(HELLO)
                self.assertEqual(rest_of(late), b"")
            with server.welcomed(ADMINISTRATOR) as administrator:
                # Now each place is taken, and nobody makes room.
                with server.connect() as late:
                    self.assertEqual(rest_of(late), b"")
                tenants.pop().close()
                until(lambda: server.status()["connections"]["open"] == PLACES - 1, "a place is free")
                tenants.append(peers.enter_context(server.welcomed(HELLO)))
                administrator.sendall(CREATE)
                self.assertEqual(exactly(administrator, 13)[:5], b"\0\0\0\x09\x01")
            until(lambda: server.status()["connections"]["turned_away"] == 2, "both that came late are counted")
            server.ask_to_end()
            server.check_end(self, (1, 1))

    def test_an_address_has_so_many_places(self):
        with Server("--open-each", 2, connections=0) as server, contextlib.ExitStack() as peers:
            first, _ = (peers.enter_context(server.welcomed(HELLO)) for _ in range(2))
            with server.connect() as third:
                self.assertEqual(rest_of(third), b"")
            with connect_from(server, "127.0.0.2") as other:
                other.sendall(CALL)
                self.assertEqual(exactly(other, len(ANSWER)), ANSWER)
            first.close()
            until(lambda: self.is_served(server), "there is a place for the address again")
            server.ask_to_end()
            server.check_end(self, (1, 1))

    def test_no_more_may_be_open_than_there_are_descriptors(self):
        def bound():
            resource.setrlimit(resource.RLIMIT_NOFILE, (DESCRIPTORS, DESCRIPTORS))

        words = ("--workers", 1, "--hello", 0, "--idle", 0)
        told = f"s4d: --open 1024 is lowered to {DESCRIPTORS - OTHERS}: the system gives {DESCRIPTORS} descriptors"
        with servers.Server(PROGRAM, *words, logins=LOGINS, seconds=SECONDS, preexec_fn=bound) as server, contextlib.ExitStack() as peers:
            for _ in range(2 * DESCRIPTORS):
                peers.enter_context(server.connect())
            self.assertEqual(server.tell(HELLO), WELCOME)
            self.assertEqual(server.end()[1], [told])

    def greeting(self, server):
        """How many connections aren't welcomed, as far as the server tells."""
        status = server.status()
        return status and status["connections"]["greeting"]

    def is_served(self, server):
        """Whether a peer is welcomed now."""
        with contextlib.suppress(ConnectionError):
            return server.tell(HELLO) == WELCOME
        return False


if __name__ == "__main__":
    unittest.main()
