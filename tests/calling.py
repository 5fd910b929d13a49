"""Calls by the program, and the side of a connection on which they are heard."""
import contextlib
import socket
import struct
import time

from tests.frames import CALL
from tests.peers import exactly, rest_of
from tests.serving import SECRETS
from tools.lib.servers import PATIENCE, host_and_port

# The secret of principal 7.
SECRET = SECRETS[7].hex()


def asking(place, *asked, secret=SECRET, flags=()):
    """The words by which principal 7 calls that place as client 1."""
    return ["call", *flags, place, "7", "1", secret, *asked]


class Side:
    """One who listens at a place, and is called there."""

    def __init__(self, place):
        self.listener = socket.create_server(host_and_port(place))
        self.listener.settimeout(PATIENCE)

    def answer(self, pieces, hears=CALL, resets=False):
        """Hears one call of that many bytes, says these pieces apart, and then no more. Where it `resets` the connection, that ends so. Gives all
        that is heard."""
        with self.listener, self.listener.accept()[0] as peer:
            peer.settimeout(PATIENCE)
            peer.setsockopt(socket.IPPROTO_TCP, socket.TCP_NODELAY, 1)
            heard = exactly(peer, len(hears))
            # Who isn't answered as is wanted may hang up before all is said.
            with contextlib.suppress(OSError):
                for piece in pieces:
                    peer.sendall(piece)
                    time.sleep(0.002 if len(pieces) > 5 else 0)
                if resets:
                    peer.setsockopt(socket.SOL_SOCKET, socket.SO_LINGER, struct.pack("ii", 1, 0))
                    return heard
                peer.shutdown(socket.SHUT_WR)
            return heard + rest_of(peer)
