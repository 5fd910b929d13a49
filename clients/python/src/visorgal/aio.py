"""A served drive for asyncio. Its methods are those of visorgal.Drive, which says what each does, and what it may raise."""
from __future__ import annotations

import asyncio
from collections.abc import Awaitable, Sequence
from types import TracebackType
from typing import Any, TypeVar

from visorgal import requests as ask
from visorgal.addresses import host_and_port, secret_of
from visorgal.connection import PIECE
from visorgal.errors import Closed, Lost, Refused, Unreadable, VisorgalError
from visorgal.exchange import Incoming, check_welcome, reply_to
from visorgal.replies import Attr, Audit, Data, Entry, Mounted, Names
from visorgal.requests import Hello, Request
from visorgal.values import ObjectId, Place, Purse, Rights
from visorgal.wire import LENGTH_OF_BODY

T = TypeVar("T")


class Drive:
    """A connection to a served drive, which tasks may share: each exchange has it to itself. Where anything is raised in the middle of one, but for a refusal, the connection is
    closed; so it is where a task is cancelled there.

        async with await aio.Drive.connect("127.0.0.1:4710", who=7, client=1, secret=secret) as drive:
            made = await drive.create()
    """

    def __init__(self, address: str, who: int, client: int, secret: bytes | str, version: int = 2, timeout: float | None = 60.0) -> None:
        """A connection that isn't open yet: `connect` gives one that is."""
        if version not in LENGTH_OF_BODY:
            raise ValueError(f"there is no version {version} of the wire: it is 1 or 2")
        self.address, self.who, self.client, self.version, self.timeout = address, who, client, version, timeout
        self._hello = Hello(version, who, client, secret_of(secret)).frame(version)
        self._lock = asyncio.Lock()
        self._streams: tuple[asyncio.StreamReader, asyncio.StreamWriter] | None = None
        self._incoming = Incoming(version)
        self._why = "it was never opened"

    @classmethod
    async def connect(cls, address: str, who: int, client: int, secret: bytes | str, version: int = 2, timeout: float | None = 60.0) -> Drive:
        """A connection on which the principal was welcomed."""
        drive = cls(address, who, client, secret, version, timeout)
        await drive.reconnect()
        return drive

    def __repr__(self) -> str:
        # (the secret isn't shown)
        return f"{type(self).__name__}({self.address!r}, who={self.who}, client={self.client}, version={self.version})"

    async def __aenter__(self) -> Drive:
        return self

    async def __aexit__(self, kind: type[BaseException] | None, why: BaseException | None, trace: TracebackType | None) -> None:
        self.close()

    @property
    def is_open(self) -> bool:
        """Whether the connection is open, as far as is known."""
        return self._streams is not None

    def close(self) -> None:
        """Closes it. What was carried out stays."""
        self._break("it was closed")

    async def reconnect(self) -> None:
        """Opens it anew, where it is closed: for whoever knows what became of what was asked last."""
        async with self._lock:
            await self._connect()

    async def ask(self, asked: Request[T]) -> T:
        """The reply to a request. A refusal is raised."""
        said = (await self.ask_all([asked]))[0]
        if isinstance(said, Refused):
            raise said
        return said  # type: ignore[no-any-return]

    async def ask_all(self, asked: Sequence[Request[Any]]) -> list[Any]:
        """The replies to requests that are sent together, in their order. Refusals are among them and not raised."""
        frames = b"".join(it.frame(self.version) for it in asked)
        async with self._lock:
            await self._prepare()
            return await self._guarded(self._talk(frames, asked))

    async def _connect(self) -> None:
        if self._streams is not None:
            return
        host, port = host_and_port(self.address)
        self._streams = await asyncio.wait_for(asyncio.open_connection(host, port), self.timeout)
        self._incoming = Incoming(self.version)
        await self._guarded(self._greet())

    async def _greet(self) -> None:
        _, writer = self._open()
        writer.write(self._hello)
        check_welcome(await self._body(), self.version)

    async def _talk(self, frames: bytes, asked: Sequence[Request[Any]]) -> list[Any]:
        """Sends frames and takes the replies: the loop writes meanwhile, since the drive carries out no more once too many bytes of replies wait."""
        _, writer = self._open()
        writer.write(frames)
        said = [reply_to(one, await self._body(), self.version) for one in asked]
        if self._incoming.held:
            raise Unreadable("more came than was asked for")
        return said

    async def _body(self) -> bytes:
        """The next body."""
        reader, _ = self._open()
        while (body := next(self._incoming.bodies(), None)) is None:
            piece = await asyncio.wait_for(reader.read(PIECE), self.timeout)
            if not piece:
                raise Lost("the drive closed the connection")
            self._incoming.add(piece)
        return body

    async def _prepare(self) -> None:
        """That the connection is open. One that the drive has closed since the last exchange is opened anew: nothing was sent on it that may have been carried out."""
        reader, _ = self._open()
        # (a turn of the loop lets an end be seen that is there)
        await asyncio.sleep(0)
        if reader.at_eof() or reader.exception() is not None:
            self._break("the drive closed it")
            await self._connect()

    async def _guarded(self, work: Awaitable[T]) -> T:
        """What work comes to. The connection is closed where it raises anything."""
        try:
            return await work
        except VisorgalError as why:
            self._break(str(why) or type(why).__name__)
            raise
        except (asyncio.TimeoutError, TimeoutError) as why:
            self._break(f"nothing came for {self.timeout} seconds")
            raise Lost(self._why) from why
        except OSError as why:
            self._break(f"it was lost: {why}")
            raise Lost(self._why) from why
        except BaseException as why:
            self._break(f"{type(why).__name__} was raised in the middle of an exchange")
            raise

    def _open(self) -> tuple[asyncio.StreamReader, asyncio.StreamWriter]:
        if self._streams is None:
            raise Closed(f"the connection is closed: {self._why}")
        return self._streams

    def _break(self, why: str) -> None:
        streams, self._streams = self._streams, None
        if streams is not None:
            self._why = why
            streams[1].close()

    async def create(self, purse: int = 0) -> ObjectId:
        """As Drive.create."""
        return (await self.ask(ask.Create(purse))).object

    async def delete(self, made: ObjectId) -> None:
        """As Drive.delete."""
        await self.ask(ask.Delete(made))

    async def read(self, made: ObjectId, offset: int = 0, length: int = 65536, at: int | None = None) -> Data:
        """As Drive.read."""
        return await self.ask(ask.Read(made, offset, length, at))

    async def write(self, made: ObjectId, data: bytes, offset: int = 0) -> None:
        """As Drive.write."""
        await self.ask(ask.Write(made, offset, data))

    async def append(self, made: ObjectId, data: bytes) -> None:
        """As Drive.append."""
        await self.ask(ask.Append(made, data))

    async def truncate(self, made: ObjectId, length: int) -> None:
        """As Drive.truncate."""
        await self.ask(ask.Truncate(made, length))

    async def get_attributes(self, made: ObjectId, at: int | None = None) -> Attr:
        """As Drive.get_attributes."""
        return await self.ask(ask.GetAttr(made, at))

    async def set_attributes(self, made: ObjectId, data: bytes) -> None:
        """As Drive.set_attributes."""
        await self.ask(ask.SetAttr(made, data))

    async def get_entry(self, made: ObjectId, user: int, at: int | None = None) -> Entry:
        """As Drive.get_entry."""
        return await self.ask(ask.GetAclByUser(made, user, at))

    async def get_entry_at(self, made: ObjectId, index: int, at: int | None = None) -> Entry:
        """As Drive.get_entry_at."""
        return await self.ask(ask.GetAclByIndex(made, index, at))

    async def set_entry(self, made: ObjectId, user: int, rights: Rights) -> None:
        """As Drive.set_entry."""
        await self.ask(ask.SetAcl(made, user, rights))

    async def bind(self, name: str, made: ObjectId) -> None:
        """As Drive.bind."""
        await self.ask(ask.PCreate(name, made))

    async def unbind(self, purse: Purse, name: str) -> None:
        """As Drive.unbind."""
        await self.ask(ask.PDelete(purse, name))

    async def list_names(self, range: int, after: Place | None = None, at: int | None = None) -> Names:
        """As Drive.list_names."""
        return await self.ask(ask.PList(range, after, at))

    async def mount(self, purse: Purse, name: str, at: int | None = None) -> Mounted:
        """As Drive.mount."""
        return await self.ask(ask.PMount(purse, name, at))

    async def flush(self, begin: int, end: int) -> None:
        """As Drive.flush."""
        await self.ask(ask.Flush(begin, end))

    async def flush_object(self, made: ObjectId, begin: int, end: int) -> None:
        """As Drive.flush_object."""
        await self.ask(ask.FlushO(made, begin, end))

    async def set_window(self, ticks: int) -> None:
        """As Drive.set_window."""
        await self.ask(ask.SetWindow(ticks))

    async def set_budget(self, purse: Purse, budget: int) -> None:
        """As Drive.set_budget."""
        await self.ask(ask.SetBudget(purse, budget))

    async def audit(self, range: int, skip: int = 0) -> Audit:
        """As Drive.audit."""
        return await self.ask(ask.ReadAudit(range, skip))
