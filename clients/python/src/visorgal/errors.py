"""What is raised. Each refusal and each fault is an exception of its own, with its fields."""
from __future__ import annotations

from dataclasses import dataclass

from visorgal.values import Rights


class VisorgalError(Exception):
    """What this package raises."""


class Lost(VisorgalError, ConnectionError):
    """The connection ended, or its time was over, before a reply had come. What was asked last may have been carried out: an audit of its range tells, by the
    client's number. The connection is closed."""


class Closed(VisorgalError, ConnectionError):
    """The connection was closed before: by `close`, or since something was raised in the middle of an exchange. Nothing was sent. `reconnect` opens it anew."""


class Unreadable(VisorgalError):
    """What came is no reply to what was asked. The connection is closed."""


class Refused(VisorgalError):
    """What was asked is refused. Nothing was changed, and the connection goes on."""


@dataclass(unsafe_hash=True)
class Denied(Refused):
    """The caller lacks a right: one of Rights, or ADMIN for what the administrator alone may ask."""

    lacking: Rights


@dataclass(unsafe_hash=True)
class NoObject(Refused):
    """There is no such object, or it doesn't live at that moment."""


@dataclass(unsafe_hash=True)
class NoPartition(Refused):
    """The name isn't bound at that moment."""


@dataclass(unsafe_hash=True)
class Future(Refused):
    """The moment isn't yet."""


@dataclass(unsafe_hash=True)
class TooOld(Refused):
    """The moment is below the horizon, which is told: the past isn't kept so long."""

    horizon: int


@dataclass(unsafe_hash=True)
class Flushed(Refused):
    """The value of that moment was erased by a flush."""


@dataclass(unsafe_hash=True)
class TooLong(Refused):
    """More bytes than data or attributes may have: 4096 and 256, or 65536 and 256 by version 2."""


@dataclass(unsafe_hash=True)
class AclFull(Refused):
    """The access list has 16 entries."""


@dataclass(unsafe_hash=True)
class NoEntry(Refused):
    """The access list has no such entry."""


@dataclass(unsafe_hash=True)
class Exists(Refused):
    """The name is bound already."""


@dataclass(unsafe_hash=True)
class PartsFull(Refused):
    """The purse has 64 names."""


@dataclass(unsafe_hash=True)
class Named(Refused):
    """The object has a name: that has to go first."""


@dataclass(unsafe_hash=True)
class NamesSpent(Refused):
    """The purse has drawn all of its 65535 serials."""


@dataclass(unsafe_hash=True)
class OverBudget(Refused):
    """What would become past costs more than the purse's budget has left, in bytes: what is spent, what this would cost, and the budget."""

    spent: int
    charge: int
    budget: int


@dataclass(unsafe_hash=True)
class BadRange(Refused):
    """The begin of the span is behind its end."""


@dataclass(unsafe_hash=True)
class NoMemory(Refused):
    """The drive has no memory for it. It leaves no record."""


class Fault(VisorgalError):
    """The drive can't serve what was sent, and closes the connection."""


@dataclass(unsafe_hash=True)
class Malformed(Fault):
    """A body that spells nothing, or one that may not come there."""


@dataclass(unsafe_hash=True)
class BadLogin(Fault):
    """No such principal, or another secret."""


@dataclass(unsafe_hash=True)
class FrameLength(Fault):
    """A length that no frame has."""
