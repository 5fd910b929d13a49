"""What every kind of connection does with what comes: bytes to frames, and frames to replies."""
from __future__ import annotations

from collections.abc import Iterator
from typing import Any, TypeVar

from visorgal.errors import Fault, Refused, Unreadable
from visorgal.replies import Welcome, read_body
from visorgal.requests import Request
from visorgal.wire import LENGTH_OF_BODY

T = TypeVar("T")


class Incoming:
    """Bytes that came, of which whole frames are taken."""

    def __init__(self, version: int) -> None:
        self.version, self.held = version, bytearray()

    def add(self, piece: bytes) -> None:
        self.held += piece

    def bodies(self) -> Iterator[bytes]:
        """The bodies of the whole frames that are there."""
        while len(self.held) >= 4:
            length = length_in(bytes(self.held[:4]), self.version)
            if len(self.held) < 4 + length:
                return
            body = bytes(self.held[4 : 4 + length])
            del self.held[: 4 + length]
            yield body


def length_in(front: bytes, version: int) -> int:
    """The length of a body, by the four bytes before it."""
    length = int.from_bytes(front, "big")
    if not 1 <= length <= LENGTH_OF_BODY[version]:
        raise Unreadable(f"no frame has {length} bytes")
    return length


def reply_to(asked: Request[T], body: bytes, version: int) -> T | Refused:
    """What a body replies to a request. A fault is raised."""
    said: Any = read_body(body, version)
    if isinstance(said, Fault):
        raise said
    if not isinstance(said, (asked.replied, Refused)):
        raise Unreadable(f"{type(said).__name__} is no reply to a {type(asked).__name__}")
    return said


def check_welcome(body: bytes, version: int) -> None:
    """That a body welcomes a Hello of that version. A fault is raised."""
    said: Any = read_body(body, version)
    if isinstance(said, Fault):
        raise said
    if said != Welcome(version):
        raise Unreadable(f"{type(said).__name__} is no answer to a Hello of version {version}")
