"""What peers say over a connection, and what they are sent."""
import contextlib
import struct

# A moment in what is sent, of which only the bounds are known.
NOW = object()
# How many bytes a moment has.
MOMENT = 8


def frame(body):
    """The frame of a body: its length, and the body."""
    return struct.pack(">I", len(body)) + body


def hello(who, client, secret, version=1):
    """A principal says as a client who it is."""
    return frame(struct.pack(">BBII", 0, version, who, client) + secret)


def exactly(peer, count):
    """So many bytes that a peer is sent."""
    got = b""
    while len(got) < count:
        more = peer.recv(count - len(got))
        if not more:
            raise ConnectionError(f"the connection ended behind {got.hex()}, and {count} bytes are wanted")
        got += more
    return got


def rest_of(peer):
    """All that a peer is sent up to the end of its connection, which may also fail."""
    got = bytearray()
    with contextlib.suppress(ConnectionError):
        while more := peer.recv(1 << 16):
            got += more
    return bytes(got)


def flat(pieces):
    """The pieces in their order; a piece may be a tuple of others."""
    for piece in pieces:
        if isinstance(piece, tuple):
            yield from flat(piece)
        else:
            yield piece


def is_joined(got, pieces, moments):
    """Whether the bytes are these pieces, one behind the other, where each NOW is one of the moments."""
    for piece in flat(pieces):
        size = MOMENT if piece is NOW else len(piece)
        part, got = got[:size], got[size:]
        if len(part) < size or (int.from_bytes(part, "big") not in moments if piece is NOW else part != piece):
            return False
    return not got
