"""What comes: replies, refusals, faults and the Welcome, as values and as bytes."""
from __future__ import annotations

from collections.abc import Callable
from dataclasses import dataclass
from typing import Any

from visorgal import errors
from visorgal.errors import Unreadable
from visorgal.values import AuditLine, Grant, NameLine, ObjectId, Rights
from visorgal.wire import AUDIT_LINES, DATA, FLAG, GRANT, GRANTED, INDEX, LACKING, MOMENT, NAME_LINES, OBJECT, U32, USER, Number, Parts, Rest, take_fields


@dataclass(frozen=True)
class Done:
    """It was carried out."""


@dataclass(frozen=True)
class Made:
    """The object that was made."""

    object: ObjectId


@dataclass(frozen=True)
class Data:
    """The bytes that were read, and by which entry; None for the administrator."""

    grant: Grant | None
    data: bytes


@dataclass(frozen=True)
class Attr:
    """The attributes that were read, and by which entry."""

    grant: Grant | None
    data: bytes


@dataclass(frozen=True)
class Entry:
    """The entry of that index in an access list: which user has which rights. It was read by another one, or as the administrator."""

    grant: Grant | None
    index: int
    user: int
    rights: Rights


@dataclass(frozen=True)
class Mounted:
    """The object that a name is bound to."""

    grant: Grant | None
    object: ObjectId


@dataclass(frozen=True)
class Names:
    """Up to 64 names that may be mounted, and whether more follow."""

    lines: tuple[NameLine, ...]
    more: bool


@dataclass(frozen=True)
class Audit:
    """Up to 32 records, and whether more follow."""

    lines: tuple[AuditLine, ...]
    more: bool


@dataclass(frozen=True)
class Welcome:
    """A login is good."""

    version: int


# What comes, by the bytes at the front of a body.
COMES: dict[bytes, tuple[Callable[..., object], Parts]] = {
    bytes([0]): (Done, {}),
    bytes([1]): (Made, {"object": OBJECT}),
    bytes([2]): (Data, {"grant": GRANT, "data": DATA}),
    bytes([3]): (Attr, {"grant": GRANT, "data": DATA}),
    bytes([4]): (Entry, {"grant": GRANT, "index": INDEX, "user": USER, "rights": GRANTED}),
    bytes([5]): (Mounted, {"grant": GRANT, "object": OBJECT}),
    bytes([6]): (Names, {"lines": NAME_LINES, "more": FLAG}),
    bytes([7]): (Audit, {"lines": AUDIT_LINES, "more": FLAG}),
    bytes([16]): (Welcome, {"version": Number(1, 1, 2)}),
    bytes([8, 1]): (errors.Denied, {"lacking": LACKING}),
    bytes([8, 2]): (errors.NoObject, {}),
    bytes([8, 3]): (errors.NoPartition, {}),
    bytes([8, 4]): (errors.Future, {}),
    bytes([8, 5]): (errors.TooOld, {"horizon": MOMENT}),
    bytes([8, 6]): (errors.Flushed, {}),
    bytes([8, 7]): (errors.TooLong, {}),
    bytes([8, 8]): (errors.AclFull, {}),
    bytes([8, 9]): (errors.NoEntry, {}),
    bytes([8, 10]): (errors.Exists, {}),
    bytes([8, 11]): (errors.PartsFull, {}),
    bytes([8, 12]): (errors.Named, {}),
    bytes([8, 13]): (errors.NamesSpent, {}),
    bytes([8, 14]): (errors.OverBudget, {"spent": U32, "charge": U32, "budget": U32}),
    bytes([8, 15]): (errors.BadRange, {}),
    bytes([8, 16]): (errors.NoMemory, {}),
    bytes([17, 1]): (errors.Malformed, {}),
    bytes([17, 2]): (errors.BadLogin, {}),
    bytes([17, 3]): (errors.FrameLength, {}),
}


def read_body(body: bytes, version: int) -> Any:
    """What the body of a frame says: a reply, a refusal, a Welcome or a fault."""
    front = next((it for it in (body[:1], body[:2]) if it in COMES), None)
    if front is None:
        raise Unreadable(f"no body begins with {body[:2].hex() or 'nothing'}")
    kind, parts = COMES[front]
    rest = Rest(body, version)
    rest.take(len(front))
    said = kind(*take_fields(rest, parts))
    rest.end()
    return said
