"""A client of Visorgal, the drive of versioned objects that secures itself.

    from visorgal import Drive

    with Drive("127.0.0.1:4710", who=7, client=1, secret="000102030405060708090a0b0c0d0e0f") as drive:
        made = drive.create()
        drive.write(made, b"hello")
        print(drive.read(made).data)

`Drive` has a method for each request. A refusal is an exception of its own, with its fields, as in `except Denied as why: why.lacking`. visorgal.requests has requests as
values, for `Drive.ask` and for pipelines; visorgal.aio has a drive for asyncio.
"""
from visorgal.drive import Drive
from visorgal.errors import (
    AclFull,
    BadLogin,
    BadRange,
    Closed,
    Denied,
    Exists,
    Fault,
    Flushed,
    FrameLength,
    Future,
    Lost,
    Malformed,
    Named,
    NamesSpent,
    NoEntry,
    NoMemory,
    NoObject,
    NoPartition,
    OverBudget,
    PartsFull,
    Refused,
    TooLong,
    TooOld,
    Unreadable,
    VisorgalError,
)
from visorgal.pipeline import Answer, Pipeline
from visorgal.pool import Pool
from visorgal.values import EVERYONE, AuditLine, Grant, NameLine, ObjectId, Place, Purse, Rights

__all__ = [
    *("Answer", "Drive", "Pipeline", "Pool"),
    *("EVERYONE", "AuditLine", "Grant", "NameLine", "ObjectId", "Place", "Purse", "Rights"),
    *("Closed", "Fault", "Lost", "Refused", "Unreadable", "VisorgalError"),
    *("BadLogin", "FrameLength", "Malformed"),
    *("AclFull", "BadRange", "Denied", "Exists", "Flushed", "Future", "Named", "NamesSpent", "NoEntry", "NoMemory", "NoObject", "NoPartition"),
    *("OverBudget", "PartsFull", "TooLong", "TooOld"),
]
