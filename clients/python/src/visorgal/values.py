"""The values that requests and replies have."""
from __future__ import annotations

from dataclasses import dataclass
from enum import IntFlag

# The user of an entry for everyone, who is no principal.
EVERYONE = 0xFFFFFFFF


class Rights(IntFlag):
    """What an entry of an access list allows. RECOVER is for reads of the past, beside READ. ADMIN is in no entry: Denied alone names it."""

    READ = 1
    WRITE = 2
    DELETE = 4
    CONTROL = 8
    RECOVER = 16
    ADMIN = 32


@dataclass(frozen=True)
class Purse:
    """One of the 16 purses of a principal, 0 to 15."""

    creator: int
    number: int

    def __str__(self) -> str:
        return f"{self.creator}.{self.number}"


@dataclass(frozen=True)
class ObjectId:
    """An object: the principal who made it, the purse, and its serial there, 1 to 65535."""

    creator: int
    purse: int
    serial: int

    def __str__(self) -> str:
        return f"{self.creator}.{self.purse}.{self.serial}"

    @classmethod
    def parse(cls, text: str) -> ObjectId:
        """The object that a text as 7.0.1 names; a ValueError where it names none."""
        creator, purse, serial = map(int, text.split("."))
        return cls(creator, purse, serial)


@dataclass(frozen=True)
class Grant:
    """By which entry of an access list a read was granted, and since which moment that has been in force."""

    index: int
    since: int


@dataclass(frozen=True)
class Place:
    """Behind which name of which purse a list goes on."""

    purse: int
    name: str


@dataclass(frozen=True)
class NameLine:
    """A name that may be mounted: the object that it is bound to, and by which grant; None for the administrator."""

    name: str
    object: ObjectId
    grant: Grant | None


@dataclass(frozen=True)
class AuditLine:
    """A record, as an audit shows it: its moment, who asked as which client, the code of the request (1 to 20), whether it was about all purses, and the number of
    the refusal, or 0."""

    moment: int
    who: int
    client: int
    code: int
    is_wide: bool
    reply: int
