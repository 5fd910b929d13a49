"""Some connections of one principal, which threads take in turn."""
from __future__ import annotations

import contextlib
import queue
from collections.abc import Iterator
from types import TracebackType

from visorgal.drive import Drive


class Pool:
    """At most so many connections of a principal, opened as they are wanted. Each is a client of its own, by the numbers from the first on: so an audit tells how far each
    came, where it is lost."""

    def __init__(self, address: str, who: int, first_client: int, secret: bytes | str, version: int = 2, timeout: float | None = 60.0, size: int = 4) -> None:
        if size < 1:
            raise ValueError("a pool has a connection at least")
        self._given = address, who, secret, version, timeout
        self._places: queue.LifoQueue[tuple[int, Drive | None]] = queue.LifoQueue()
        for client in reversed(range(first_client, first_client + size)):
            self._places.put((client, None))

    @contextlib.contextmanager
    def drive(self, timeout: float | None = None) -> Iterator[Drive]:
        """A connection that nobody else has meanwhile. Where all are taken it waits, for so many seconds at most; a TimeoutError where none comes free by then."""
        try:
            client, drive = self._places.get(timeout=timeout)
        except queue.Empty as why:
            raise TimeoutError(f"no connection of the pool came free within {timeout} seconds") from why
        try:
            if drive is None or not drive.is_open:
                address, who, secret, version, bound = self._given
                drive = Drive(address, who, client, secret, version, bound)
            yield drive
        finally:
            self._places.put((client, drive))

    def close(self) -> None:
        """Closes all connections that nobody has."""
        taken = []
        with contextlib.suppress(queue.Empty):
            while True:
                taken.append(self._places.get_nowait())
        for client, drive in taken:
            if drive is not None:
                drive.close()
            self._places.put((client, None))

    def __enter__(self) -> Pool:
        return self

    def __exit__(self, kind: type[BaseException] | None, why: BaseException | None, trace: TracebackType | None) -> None:
        self.close()
