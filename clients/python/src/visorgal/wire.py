"""Values as bytes: the parts of bodies, by both versions of the wire. PROTOCOL.md of the drive has them in tables."""
from __future__ import annotations

import re
from collections.abc import Callable, Mapping
from typing import Any, Generic, TypeVar

from visorgal.errors import Unreadable
from visorgal.values import EVERYONE, AuditLine, Grant, NameLine, ObjectId, Place, Purse, Rights

T = TypeVar("T")

# By version: in how many bytes the length of data is written, and how many bytes a body has at most.
LENGTH_OF_DATA = {1: 2, 2: 4}
LENGTH_OF_BODY = {1: 8192, 2: 131072}
A_NAME = re.compile("[a-z0-9-]{1,32}")


class Rest:
    """What isn't read yet of a body, by a version of the wire."""

    def __init__(self, body: bytes, version: int) -> None:
        self.body, self.version, self.place = body, version, 0

    def take(self, count: int) -> bytes:
        """The next bytes."""
        self.place += count
        if self.place > len(self.body):
            raise Unreadable("a body ends too early")
        return self.body[self.place - count : self.place]

    def end(self) -> None:
        """That nothing is left."""
        if self.place != len(self.body):
            raise Unreadable("more stands behind a body")


class Part(Generic[T]):
    """A part of a body: it spells a value as bytes, and takes one from the rest of a body. A ValueError tells that a value isn't in the part's range."""

    def spell(self, value: T, version: int) -> bytes:
        raise NotImplementedError

    def take(self, rest: Rest) -> T:
        raise NotImplementedError


Parts = Mapping[str, Part[Any]]


class Number(Part[int]):
    """A number of so many bytes, from `least` to `most`, and so many bytes 0 behind it."""

    def __init__(self, size: int, least: int = 0, most: int | None = None, pad: int = 0) -> None:
        self.size, self.least, self.most, self.pad = size, least, 256**size - 1 if most is None else most, bytes(pad)

    def spell(self, value: int, version: int) -> bytes:
        if not self.least <= value <= self.most:
            raise ValueError(f"{value} isn't from {self.least} to {self.most}")
        return int(value).to_bytes(self.size, "big") + self.pad

    def take(self, rest: Rest) -> int:
        value = int.from_bytes(rest.take(self.size), "big")
        if not self.least <= value <= self.most:
            raise Unreadable(f"{value} isn't from {self.least} to {self.most}")
        if rest.take(len(self.pad)) != self.pad:
            raise Unreadable("no byte 0 stands behind a number")
        return value


class As(Part[T]):
    """A number that stands for something else."""

    def __init__(self, number: Number, kind: Callable[[int], T]) -> None:
        self.number, self.kind = number, kind

    def spell(self, value: T, version: int) -> bytes:
        return self.number.spell(int(value), version)  # type: ignore[call-overload]

    def take(self, rest: Rest) -> T:
        return self.kind(self.number.take(rest))


class Secret(Part[bytes]):
    """16 bytes."""

    def spell(self, value: bytes, version: int) -> bytes:
        if len(value) != 16:
            raise ValueError(f"a secret has 16 bytes, and not {len(value)}")
        return value

    def take(self, rest: Rest) -> bytes:
        return rest.take(16)


class Data(Part[bytes]):
    """Bytes behind their length."""

    def spell(self, value: bytes, version: int) -> bytes:
        return Number(LENGTH_OF_DATA[version]).spell(len(value), version) + value

    def take(self, rest: Rest) -> bytes:
        return rest.take(int.from_bytes(rest.take(LENGTH_OF_DATA[rest.version]), "big"))


class Name(Part[str]):
    """A name behind its length."""

    def spell(self, value: str, version: int) -> bytes:
        if not A_NAME.fullmatch(value):
            raise ValueError(f"{value!r} is no name: it has 1 to 32 of a-z, 0-9 and -")
        return bytes([len(value)]) + value.encode("ascii")

    def take(self, rest: Rest) -> str:
        name = rest.take(rest.take(1)[0]).decode("latin-1")
        if not A_NAME.fullmatch(name):
            raise Unreadable(f"{name!r} is no name")
        return name


class Fields(Part[T]):
    """The fields of a value, one behind the other."""

    def __init__(self, kind: Callable[..., T], **parts: Part[Any]) -> None:
        self.kind, self.parts = kind, parts

    def spell(self, value: T, version: int) -> bytes:
        return spell_fields(value, self.parts, version)

    def take(self, rest: Rest) -> T:
        return self.kind(*take_fields(rest, self.parts))


class Maybe(Part["T | None"], Generic[T]):
    """A byte 0 for None, or a byte 1 and a value."""

    def __init__(self, part: Part[T]) -> None:
        self.part = part

    def spell(self, value: T | None, version: int) -> bytes:
        return b"\0" if value is None else b"\1" + self.part.spell(value, version)

    def take(self, rest: Rest) -> T | None:
        return self.part.take(rest) if Number(1, 0, 1).take(rest) else None


class Lines(Part["tuple[T, ...]"], Generic[T]):
    """So many values at most, behind their count."""

    def __init__(self, part: Part[T], most: int) -> None:
        self.part, self.count = part, Number(1, 0, most)

    def spell(self, value: tuple[T, ...], version: int) -> bytes:
        return self.count.spell(len(value), version) + b"".join(self.part.spell(it, version) for it in value)

    def take(self, rest: Rest) -> tuple[T, ...]:
        return tuple(self.part.take(rest) for _ in range(self.count.take(rest)))


def spell_fields(value: object, parts: Parts, version: int) -> bytes:
    """The fields of a value with these names."""
    return b"".join(part.spell(getattr(value, name), version) for name, part in parts.items())


def take_fields(rest: Rest, parts: Parts) -> list[Any]:
    """The values of these fields, in their order."""
    return [part.take(rest) for part in parts.values()]


U8, U32, MOMENT, DATA, NAME = Number(1), Number(4), Number(8), Data(), Name()
FLAG = As(Number(1, 0, 1), bool)
PRINCIPAL, USER, NUMBER, INDEX = Number(4, 0, EVERYONE - 1), U32, Number(1, 0, 15), Number(1, 0, 15)
PURSE = Fields(Purse, creator=PRINCIPAL, number=NUMBER)
OBJECT = Fields(ObjectId, creator=Number(4, 0, EVERYONE - 1, pad=1), purse=NUMBER, serial=Number(2, 1))
GRANT = Maybe(Fields(Grant, index=INDEX, since=MOMENT))
AT = Maybe(MOMENT)
AFTER = Maybe(Fields(Place, purse=NUMBER, name=NAME))
# Rights that are asked for, those of an entry, and the one that is missing.
ASKED, GRANTED, LACKING = (As(Number(1, least, most), Rights) for least, most in ((0, 31), (1, 31), (1, 32)))
NAME_LINES = Lines(Fields(NameLine, name=NAME, object=OBJECT, grant=GRANT), 64)
AUDIT_LINES = Lines(Fields(AuditLine, moment=MOMENT, who=PRINCIPAL, client=U32, code=Number(1, 1, 20), is_wide=FLAG, reply=Number(1, 0, 15)), 32)
