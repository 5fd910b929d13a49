"""A connection of a principal, which threads may share."""
from __future__ import annotations

import contextlib
import select
import socket
import threading
from collections.abc import Callable, Iterator, Sequence
from types import TracebackType
from typing import Any, TypeVar

from visorgal.addresses import host_and_port, secret_of
from visorgal.errors import Closed, Lost, Refused, Unreadable, VisorgalError
from visorgal.exchange import Incoming, check_welcome, reply_to
from visorgal.requests import Hello, Request
from visorgal.wire import LENGTH_OF_BODY

T = TypeVar("T")
Self = TypeVar("Self", bound="Connection")

# How many bytes are read or written at once.
PIECE = 1 << 18


class Connection:
    """A connection of a principal, as a client, by a version of the wire. Threads may share it: each exchange has it to itself. Where anything is raised in the
    middle of one, but for a refusal, the connection is closed: so no reply is ever taken for another request's. `timeout` bounds in seconds how long connecting may
    take, and each wait for bytes; None for no bound."""

    def __init__(self, address: str, who: int, client: int, secret: bytes | str, version: int = 2, timeout: float | None = 60.0) -> None:
        if version not in LENGTH_OF_BODY:
            raise ValueError(f"there is no version {version} of the wire: it is 1 or 2")
        self.address, self.who, self.client, self.version, self.timeout = address, who, client, version, timeout
        self._hello = Hello(version, who, client, secret_of(secret)).frame(version)
        # (the first is held for an exchange; the second where it's ended, so that nobody ends a socket that is closed already)
        self._lock, self._ending = threading.RLock(), threading.Lock()
        self._socket: socket.socket | None = None
        self._why = "it was closed"
        self.reconnect()

    def __enter__(self: Self) -> Self:
        return self

    def __exit__(self, kind: type[BaseException] | None, why: BaseException | None, trace: TracebackType | None) -> None:
        self.close()

    def __repr__(self) -> str:
        # (the secret isn't shown)
        return f"{type(self).__name__}({self.address!r}, who={self.who}, client={self.client}, version={self.version})"

    @property
    def is_open(self) -> bool:
        """Whether the connection is open, as far as is known."""
        return self._socket is not None

    def close(self) -> None:
        """Closes it. What was carried out stays. A thread that waits for a reply on it is told that it's lost."""
        with self._ending:
            here, self._socket = self._socket, None
            if here is None:
                return
            self._why = "it was closed"
            # (that thread hears of an end, and not of a close, behind which the socket's number may be another one's)
            with contextlib.suppress(OSError):
                here.shutdown(socket.SHUT_RDWR)
        with self._lock:
            here.close()

    def reconnect(self) -> None:
        """Opens it anew, where it is closed: for whoever knows what became of what was asked last. BadLogin where the secret is another one."""
        with self._lock:
            if self._socket is not None:
                return
            made = socket.create_connection(host_and_port(self.address), self.timeout)
            try:
                made.setsockopt(socket.IPPROTO_TCP, socket.TCP_NODELAY, 1)
                made.settimeout(self.timeout)
                self._socket, self._incoming = made, Incoming(self.version)
                with self._breaking():
                    made.sendall(self._hello)
                    check_welcome(next(self._bodies(made, 1)), self.version)
            except BaseException:
                made.close()
                raise

    def ask(self, asked: Request[T]) -> T:
        """The reply to a request. A refusal is raised."""
        said = self.ask_all([asked])[0]
        if isinstance(said, Refused):
            raise said
        return said  # type: ignore[no-any-return]

    def ask_all(self, asked: Sequence[Request[Any]]) -> list[Any]:
        """The replies to requests that are sent together, in their order. Refusals are among them and not raised."""
        said: list[Any] = []
        self.exchange(asked, said.append)
        return said

    def exchange(self, asked: Sequence[Request[Any]], tell: Callable[[Any], object]) -> None:
        """Sends requests together, and tells what each is replied, in their order, as it comes."""
        frames = b"".join(it.frame(self.version) for it in asked)
        with self._lock:
            self._prepare()
            with self._breaking():
                for one, body in zip(asked, self._replies(frames, len(asked))):
                    tell(reply_to(one, body, self.version))
                if self._incoming.held:
                    raise Unreadable("more came than was asked for")

    def _replies(self, frames: bytes, count: int) -> Iterator[bytes]:
        """Sends frames and gives so many bodies: it reads while it writes, since the drive carries out no more once too many bytes of replies wait."""
        here = self._open()
        if count <= 1:
            here.sendall(frames)
            yield from self._bodies(here, count)
            return
        left = memoryview(frames)
        here.setblocking(False)
        try:
            while count:
                for body in self._incoming.bodies():
                    yield body
                    count -= 1
                if count:
                    left = self._step(here, left)
        finally:
            here.settimeout(self.timeout)

    def _step(self, here: socket.socket, left: memoryview) -> memoryview:
        """Waits until something can be written or read, and does that. Gives what is left to be written."""
        readable, writable = self._ready(here, bool(left), self.timeout)
        if not readable and not writable:
            raise Lost(f"nothing came for {self.timeout} seconds")
        if writable:
            with contextlib.suppress(BlockingIOError):
                left = left[here.send(left[:PIECE]) :]
        if readable:
            with contextlib.suppress(BlockingIOError):
                self._take(here)
        return left

    def _ready(self, here: socket.socket, writes: bool, seconds: float | None) -> tuple[bool, bool]:
        """Whether something can be read, and be written where that is wanted, once either is so or the time is over."""
        try:
            readable, writable, _ = select.select([here], [here] if writes else [], [], seconds)
        except ValueError as why:
            # (another thread has closed it)
            raise Lost(f"the connection is closed: {self._why}") from why
        return bool(readable), bool(writable)

    def _bodies(self, here: socket.socket, count: int) -> Iterator[bytes]:
        """The next bodies, as they come."""
        while count:
            for body in self._incoming.bodies():
                yield body
                count -= 1
                if not count:
                    return
            self._take(here)

    def _take(self, here: socket.socket) -> None:
        """Takes what came."""
        piece = here.recv(PIECE)
        if not piece:
            raise Lost("the drive closed the connection" if self._socket is here else f"the connection is closed: {self._why}")
        self._incoming.add(piece)

    def _open(self) -> socket.socket:
        if self._socket is None:
            raise Closed(f"the connection is closed: {self._why}")
        return self._socket

    def _prepare(self) -> None:
        """That the connection is open. One that the drive has closed since the last exchange is opened anew: nothing was sent on it that may have been carried out."""
        here = self._open()
        if self._ready(here, False, 0)[0]:
            # (unasked the drive says nothing: so this is the end, or a fault before it)
            self._break("the drive closed it")
            self.reconnect()

    @contextlib.contextmanager
    def _breaking(self) -> Iterator[None]:
        """Closes the connection where anything is raised."""
        try:
            yield
        except VisorgalError as why:
            self._break(str(why) or type(why).__name__)
            raise
        except TimeoutError as why:
            self._break(f"nothing came for {self.timeout} seconds")
            raise Lost(self._why) from why
        except OSError as why:
            self._break(f"it was lost: {why}")
            raise Lost(self._why) from why
        except BaseException as why:
            self._break(f"{type(why).__name__} was raised in the middle of an exchange")
            raise

    def _break(self, why: str) -> None:
        """Closes it, for whoever has it to itself."""
        with self._ending:
            here, self._socket = self._socket, None
            if here is not None:
                self._why = why
                here.close()
