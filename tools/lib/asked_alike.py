"""Requests of each kind, to be asked for again and again."""
import time
from dataclasses import dataclass

from tools.lib import client as it
from tools.lib.servers import SECRETS

WHO, OTHER, CLIENT, VERSION = 7, 9, 1, 2
# How many values there are of an object whose oldest is read, and how many lines a page of an audit has.
VALUES, LINES = 1000, 32
GREAT = 4096


@dataclass(frozen=True)
class Kind:
    """A kind of request: what makes it by a client and for an object of its own; and whether it is one that clients ask for all the time."""

    name: str
    made: object
    is_ordinary: bool = True


def oldest(drive, made):
    """A read of the oldest of many values."""
    drive.write(made, bytes(16))
    moment = drive.audit(WHO).lines[-1].moment
    while drive.audit(WHO).lines[-1].moment == moment:
        time.sleep(0.01)
    with drive.pipeline() as pipeline:
        for _ in range(VALUES):
            pipeline.ask(it.Write(made, 0, bytes(16)))
    return it.Read(made, 0, 16, moment)


def written(drive, made, count):
    """A read of so many bytes, which are written first."""
    drive.write(made, bytes(count))
    return it.Read(made, 0, count)


def page(drive, _made):
    """A full page of an audit."""
    for _ in range(LINES):
        drive.audit(WHO)
    return it.ReadAudit(WHO)


def refused(drive, made):
    """A write to an object that grants the caller nothing."""
    with it.Drive(drive.address, OTHER, CLIENT, SECRETS[OTHER], VERSION) as other:
        foreign = other.create()
    return it.Write(foreign, 0, bytes(16))


KINDS = (
    Kind("read of 16 bytes", lambda drive, made: written(drive, made, 16)),
    Kind(f"read of {GREAT} bytes", lambda drive, made: written(drive, made, GREAT)),
    Kind("write of 16 bytes", lambda drive, made: it.Write(made, 0, bytes(16))),
    Kind(f"write of {GREAT} bytes", lambda drive, made: it.Write(made, 0, bytes(GREAT))),
    Kind("write that is refused", refused),
    Kind("attributes", lambda drive, made: it.GetAttr(made)),
    Kind("an entry of an access list", lambda drive, made: it.GetAclByUser(made, WHO)),
    Kind("create", lambda drive, made: it.Create(0)),
    Kind(f"page of {LINES} lines of an audit", page, False),
    Kind(f"read of the oldest of {VALUES} values", oldest, False),
)
