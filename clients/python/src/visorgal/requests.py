"""What is asked, as values and as bytes. Each request knows the kind of its reply. The methods of `Drive` say what each does."""
from __future__ import annotations

from dataclasses import dataclass
from typing import Any, ClassVar, Generic, TypeVar

from visorgal import replies
from visorgal.values import ObjectId, Place, Purse, Rights
from visorgal.wire import AFTER, ASKED, AT, DATA, LENGTH_OF_BODY, MOMENT, NAME, NUMBER, OBJECT, PRINCIPAL, PURSE, U8, U32, USER, Number, Parts, Secret, spell_fields

T = TypeVar("T")


@dataclass(frozen=True)
class Body:
    """A body that is sent: the code at its front, and its fields."""

    code: ClassVar[int]
    parts: ClassVar[Parts]

    def frame(self, version: int) -> bytes:
        """Its frame. A ValueError where a field is out of its range, or the body longer than a frame's."""
        body = bytes([self.code]) + spell_fields(self, self.parts, version)
        if len(body) > LENGTH_OF_BODY[version]:
            raise ValueError(f"a body of {len(body)} bytes is too long for a frame")
        return len(body).to_bytes(4, "big") + body


@dataclass(frozen=True)
class Hello(Body):
    """Who speaks, as which client, and by which version."""

    version: int
    who: int
    client: int
    secret: bytes
    code: ClassVar[int] = 0
    parts: ClassVar[Parts] = {"version": U8, "who": PRINCIPAL, "client": U32, "secret": Secret()}


@dataclass(frozen=True)
class Request(Body, Generic[T]):
    """A request, whose reply is of this kind."""

    replied: ClassVar[type[Any]]


@dataclass(frozen=True)
class Create(Request[replies.Made]):
    number: int
    code: ClassVar[int] = 1
    parts: ClassVar[Parts] = {"number": NUMBER}
    replied: ClassVar[type[Any]] = replies.Made


@dataclass(frozen=True)
class Delete(Request[replies.Done]):
    object: ObjectId
    code: ClassVar[int] = 2
    parts: ClassVar[Parts] = {"object": OBJECT}
    replied: ClassVar[type[Any]] = replies.Done


@dataclass(frozen=True)
class Read(Request[replies.Data]):
    object: ObjectId
    offset: int
    length: int
    at: int | None = None
    code: ClassVar[int] = 3
    parts: ClassVar[Parts] = {"object": OBJECT, "offset": U32, "length": U32, "at": AT}
    replied: ClassVar[type[Any]] = replies.Data


@dataclass(frozen=True)
class Write(Request[replies.Done]):
    object: ObjectId
    offset: int
    data: bytes
    code: ClassVar[int] = 4
    parts: ClassVar[Parts] = {"object": OBJECT, "offset": U32, "data": DATA}
    replied: ClassVar[type[Any]] = replies.Done


@dataclass(frozen=True)
class Append(Request[replies.Done]):
    object: ObjectId
    data: bytes
    code: ClassVar[int] = 5
    parts: ClassVar[Parts] = {"object": OBJECT, "data": DATA}
    replied: ClassVar[type[Any]] = replies.Done


@dataclass(frozen=True)
class Truncate(Request[replies.Done]):
    object: ObjectId
    length: int
    code: ClassVar[int] = 6
    parts: ClassVar[Parts] = {"object": OBJECT, "length": U32}
    replied: ClassVar[type[Any]] = replies.Done


@dataclass(frozen=True)
class GetAttr(Request[replies.Attr]):
    object: ObjectId
    at: int | None = None
    code: ClassVar[int] = 7
    parts: ClassVar[Parts] = {"object": OBJECT, "at": AT}
    replied: ClassVar[type[Any]] = replies.Attr


@dataclass(frozen=True)
class SetAttr(Request[replies.Done]):
    object: ObjectId
    data: bytes
    code: ClassVar[int] = 8
    parts: ClassVar[Parts] = {"object": OBJECT, "data": DATA}
    replied: ClassVar[type[Any]] = replies.Done


@dataclass(frozen=True)
class GetAclByUser(Request[replies.Entry]):
    object: ObjectId
    user: int
    at: int | None = None
    code: ClassVar[int] = 9
    parts: ClassVar[Parts] = {"object": OBJECT, "user": USER, "at": AT}
    replied: ClassVar[type[Any]] = replies.Entry


@dataclass(frozen=True)
class GetAclByIndex(Request[replies.Entry]):
    object: ObjectId
    index: int
    at: int | None = None
    code: ClassVar[int] = 10
    parts: ClassVar[Parts] = {"object": OBJECT, "index": U8, "at": AT}
    replied: ClassVar[type[Any]] = replies.Entry


@dataclass(frozen=True)
class SetAcl(Request[replies.Done]):
    object: ObjectId
    user: int
    rights: Rights
    code: ClassVar[int] = 11
    parts: ClassVar[Parts] = {"object": OBJECT, "user": USER, "rights": ASKED}
    replied: ClassVar[type[Any]] = replies.Done


@dataclass(frozen=True)
class PCreate(Request[replies.Done]):
    name: str
    object: ObjectId
    code: ClassVar[int] = 12
    parts: ClassVar[Parts] = {"name": NAME, "object": OBJECT}
    replied: ClassVar[type[Any]] = replies.Done


@dataclass(frozen=True)
class PDelete(Request[replies.Done]):
    purse: Purse
    name: str
    code: ClassVar[int] = 13
    parts: ClassVar[Parts] = {"purse": PURSE, "name": NAME}
    replied: ClassVar[type[Any]] = replies.Done


@dataclass(frozen=True)
class PList(Request[replies.Names]):
    range: int
    after: Place | None = None
    at: int | None = None
    code: ClassVar[int] = 14
    parts: ClassVar[Parts] = {"range": PRINCIPAL, "after": AFTER, "at": AT}
    replied: ClassVar[type[Any]] = replies.Names


@dataclass(frozen=True)
class PMount(Request[replies.Mounted]):
    purse: Purse
    name: str
    at: int | None = None
    code: ClassVar[int] = 15
    parts: ClassVar[Parts] = {"purse": PURSE, "name": NAME, "at": AT}
    replied: ClassVar[type[Any]] = replies.Mounted


@dataclass(frozen=True)
class Flush(Request[replies.Done]):
    begin: int
    end: int
    code: ClassVar[int] = 16
    parts: ClassVar[Parts] = {"begin": MOMENT, "end": MOMENT}
    replied: ClassVar[type[Any]] = replies.Done


@dataclass(frozen=True)
class FlushO(Request[replies.Done]):
    object: ObjectId
    begin: int
    end: int
    code: ClassVar[int] = 17
    parts: ClassVar[Parts] = {"object": OBJECT, "begin": MOMENT, "end": MOMENT}
    replied: ClassVar[type[Any]] = replies.Done


@dataclass(frozen=True)
class SetWindow(Request[replies.Done]):
    ticks: int
    code: ClassVar[int] = 18
    parts: ClassVar[Parts] = {"ticks": MOMENT}
    replied: ClassVar[type[Any]] = replies.Done


@dataclass(frozen=True)
class SetBudget(Request[replies.Done]):
    purse: Purse
    budget: int
    code: ClassVar[int] = 19
    parts: ClassVar[Parts] = {"purse": PURSE, "budget": U32}
    replied: ClassVar[type[Any]] = replies.Done


@dataclass(frozen=True)
class ReadAudit(Request[replies.Audit]):
    range: int
    skip: int = 0
    code: ClassVar[int] = 20
    parts: ClassVar[Parts] = {"range": PRINCIPAL, "skip": U32}
    replied: ClassVar[type[Any]] = replies.Audit


REQUESTS: tuple[type[Request[Any]], ...] = (
    *(Create, Delete, Read, Write, Append, Truncate, GetAttr, SetAttr, GetAclByUser, GetAclByIndex),
    *(SetAcl, PCreate, PDelete, PList, PMount, Flush, FlushO, SetWindow, SetBudget, ReadAudit),
)
