"""A served drive, request by request."""
from __future__ import annotations

from collections.abc import Iterator

from visorgal import requests as ask
from visorgal.connection import Connection
from visorgal.pipeline import Pipeline
from visorgal.replies import Attr, Audit, Data, Entry, Mounted, Names
from visorgal.values import AuditLine, NameLine, ObjectId, Place, Purse, Rights

# How many lines a page of an audit has at most.
PAGE = 32


class Drive(Connection):
    """A connection to a served drive, with a method for each request.

        with Drive("127.0.0.1:4710", who=7, client=1, secret="000102030405060708090a0b0c0d0e0f") as drive:
            made = drive.create()
            drive.write(made, b"hello")
            print(drive.read(made).data)

    Moments are ticks of the drive, milliseconds of a server; lengths and offsets are bytes. Each method may raise what is beside it, all of them NoMemory, and
    Lost where the connection ends in the middle. A request that names a moment may be Future or TooOld as well; `at` None is now. A number out of its range is a ValueError,
    before anything is sent."""

    def create(self, purse: int = 0) -> ObjectId:
        """Makes an object in one of the caller's purses, 0 to 15. NamesSpent."""
        return self.ask(ask.Create(purse)).object

    def delete(self, made: ObjectId) -> None:
        """Ends an object; its past stays readable for the window. Denied, NoObject, Named, OverBudget."""
        self.ask(ask.Delete(made))

    def read(self, made: ObjectId, offset: int = 0, length: int = 65536, at: int | None = None) -> Data:
        """At most so many bytes of an object's data from an offset on, now or at a moment: no more than 65536, or 4096 by version 1. Denied, NoObject, Flushed."""
        return self.ask(ask.Read(made, offset, length, at))

    def write(self, made: ObjectId, data: bytes, offset: int = 0) -> None:
        """Puts bytes over an object's data, from an offset on; what lies between its end and the offset becomes zeros. TooLong, Denied, NoObject, OverBudget."""
        self.ask(ask.Write(made, offset, data))

    def append(self, made: ObjectId, data: bytes) -> None:
        """Puts bytes behind an object's data. TooLong, Denied, NoObject, OverBudget."""
        self.ask(ask.Append(made, data))

    def truncate(self, made: ObjectId, length: int) -> None:
        """Cuts an object's data to so many bytes, or fills them with zeros. TooLong, Denied, NoObject, OverBudget."""
        self.ask(ask.Truncate(made, length))

    def get_attributes(self, made: ObjectId, at: int | None = None) -> Attr:
        """An object's attributes, now or at a moment. Denied, NoObject, Flushed."""
        return self.ask(ask.GetAttr(made, at))

    def set_attributes(self, made: ObjectId, data: bytes) -> None:
        """Makes these bytes an object's attributes, 256 at most. TooLong, Denied, NoObject, OverBudget."""
        self.ask(ask.SetAttr(made, data))

    def get_entry(self, made: ObjectId, user: int, at: int | None = None) -> Entry:
        """The entry for a user, or for EVERYONE, in an object's access list, now or at a moment. Denied, NoObject, NoEntry."""
        return self.ask(ask.GetAclByUser(made, user, at))

    def get_entry_at(self, made: ObjectId, index: int, at: int | None = None) -> Entry:
        """The entry of an index, 0 to 255, in an object's access list, now or at a moment. Denied, NoObject, NoEntry."""
        return self.ask(ask.GetAclByIndex(made, index, at))

    def set_entry(self, made: ObjectId, user: int, rights: Rights) -> None:
        """Gives a user, or EVERYONE, these rights; Rights(0) takes the entry away. Denied, NoObject, NoEntry, AclFull, OverBudget."""
        self.ask(ask.SetAcl(made, user, rights))

    def bind(self, name: str, made: ObjectId) -> None:
        """Binds a name, of 1 to 32 of a-z, 0-9 and -, to an object, in the object's purse. Denied, NoObject, Exists, PartsFull."""
        self.ask(ask.PCreate(name, made))

    def unbind(self, purse: Purse, name: str) -> None:
        """Ends the binding of a name. NoPartition, Denied, OverBudget."""
        self.ask(ask.PDelete(purse, name))

    def list_names(self, range: int, after: Place | None = None, at: int | None = None) -> Names:
        """Up to 64 names in a principal's purses that the caller may mount, from behind a place on, now or at a moment."""
        return self.ask(ask.PList(range, after, at))

    def all_names(self, range: int, at: int | None = None) -> Iterator[NameLine]:
        """All names in a principal's purses that the caller may mount, page by page. What changes meanwhile may be there or not, where no moment is named."""
        after, more = None, True
        while more:
            page = self.list_names(range, after, at)
            yield from page.lines
            more = page.more and bool(page.lines)
            if more:
                after = Place(page.lines[-1].object.purse, page.lines[-1].name)

    def mount(self, purse: Purse, name: str, at: int | None = None) -> Mounted:
        """The object that a name is bound to, now or at a moment. NoPartition, Denied."""
        return self.ask(ask.PMount(purse, name, at))

    def flush(self, begin: int, end: int) -> None:
        """Erases the past data and attributes of all objects that began at one moment or later and ended at another or before. The administrator's. BadRange, Denied."""
        self.ask(ask.Flush(begin, end))

    def flush_object(self, made: ObjectId, begin: int, end: int) -> None:
        """Erases the same of one object. The administrator's. BadRange, Denied."""
        self.ask(ask.FlushO(made, begin, end))

    def set_window(self, ticks: int) -> None:
        """Sets the window: for how many ticks the past is kept. The administrator's. Denied."""
        self.ask(ask.SetWindow(ticks))

    def set_budget(self, purse: Purse, budget: int) -> None:
        """Sets how many bytes a purse's past may cost. The administrator's. Denied."""
        self.ask(ask.SetBudget(purse, budget))

    def audit(self, range: int, skip: int = 0) -> Audit:
        """Up to 32 records about a principal's objects that the caller may see, behind the first so many."""
        return self.ask(ask.ReadAudit(range, skip))

    def whole_audit(self, range: int) -> list[AuditLine]:
        """All records about a principal's objects that the caller may see, in their order. Pages are asked for with a line of overlap: where the horizon has moved meanwhile, it
        goes back until one begins with a line that was read. Two records that are shown alike may then be taken for one."""
        lines: list[AuditLine] = []
        skip = 0
        while True:
            page = self.audit(range, skip)
            fresh = behind(lines, page.lines)
            if skip and (fresh is None or not page.lines):
                # (lines in front of these are shown no more, so some were skipped)
                skip = max(0, skip - PAGE)
                continue
            lines += page.lines if fresh is None else fresh
            if not page.more:
                return lines
            skip += max(1, len(page.lines) - 1)

    def pipeline(self) -> Pipeline:
        """Requests that are sent together: add them by `ask`, as values of visorgal.requests."""
        return Pipeline(self)


def behind(known: list[AuditLine], page: tuple[AuditLine, ...]) -> tuple[AuditLine, ...] | None:
    """The lines of a page that come behind those that are known; None where some may lie between."""
    if not known or not page:
        return page
    for place in reversed([place for place, line in enumerate(known) if line == page[0]]):
        shared = min(len(known) - place, len(page))
        if tuple(known[place : place + shared]) == page[:shared]:
            return page[shared:]
    return None
