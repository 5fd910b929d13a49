"""The frames that docs/PROTOCOL.md shows: whether the client for Python spells them so, and reads them as that."""
import re

from tools.lib import client as it
from tools.lib.cases import outcome
from tools.lib.servers import SECRETS

PAGE = "docs/PROTOCOL.md"
FRAMES = re.compile(r"`([0-9a-f]{8}(?: [0-9a-f]+)+)`")
FILE, OTHER, PAST = it.ObjectId(7, 0, 1), it.ObjectId(9, 0, 2), 258

# What the examples of the page say, by the names of its rows and in their order. By version 2 a Hello and a Welcome say that instead.
SENT = {
    "Hello": [it.Hello(1, 7, 1, SECRETS[7])],
    "Create": [it.Create(0)],
    "Delete": [it.Delete(FILE)],
    "Read": [it.Read(FILE, 0, 5)],
    "Write": [it.Write(FILE, 0, b"hello")],
    "Append": [it.Append(FILE, b"")],
    "Truncate": [it.Truncate(FILE, 4096)],
    "GetAttr": [it.GetAttr(FILE, PAST)],
    "SetAttr": [it.SetAttr(FILE, b"a")],
    "GetAclByUser": [it.GetAclByUser(FILE, 9), it.GetAclByUser(FILE, it.EVERYONE)],
    "GetAclByIndex": [it.GetAclByIndex(FILE, 255)],
    "SetAcl": [it.SetAcl(FILE, 9, 31), it.SetAcl(FILE, it.EVERYONE, 17)],
    "PCreate": [it.PCreate("home", FILE)],
    "PDelete": [it.PDelete(it.Purse(7, 15), "a-0")],
    "PList": [it.PList(9, at=PAST), it.PList(9, it.Place(1, "b1"))],
    "PMount": [it.PMount(it.Purse(7, 0), "home")],
    "Flush": [it.Flush(5, 6)],
    "FlushO": [it.FlushO(FILE, 5, 6)],
    "SetWindow": [it.SetWindow(2**64 - 1)],
    "SetBudget": [it.SetBudget(it.Purse(2**32 - 2, 1), 65536)],
    "ReadAudit": [it.ReadAudit(9, 2)],
}
COMES = {
    "Done": [it.Done()],
    "Made": [it.Made(FILE)],
    "Data": [it.Data(it.Grant(0, 6), b"hello")],
    "Attr": [it.Attr(None, b"\x00\xff")],
    "Entry": [it.Entry(it.Grant(15, PAST), 15, 9, 31), it.Entry(None, 15, it.EVERYONE, 17)],
    "Mounted": [it.Mounted(it.Grant(1, 3), OTHER)],
    "Names": [it.Names((it.NameLine("home", FILE, it.Grant(1, 3)),), True)],
    "Audit": [it.Audit((it.AuditLine(8, 7, 0, 3, False, 1), it.AuditLine(8, 7, 0, 18, True, 0)), False)],
    "Welcome": [it.Welcome(1)],
    "Fault": [it.Malformed(), it.BadLogin(), it.FrameLength()],
    "Denied": [it.Denied(1), it.Denied(32)],
    "NoObject": [it.NoObject()],
    "NoPartition": [it.NoPartition()],
    "Future": [it.Future()],
    "TooOld": [it.TooOld(50)],
    "Flushed": [it.Flushed()],
    "TooLong": [it.TooLong()],
    "AclFull": [it.AclFull()],
    "NoEntry": [it.NoEntry()],
    "Exists": [it.Exists()],
    "PartsFull": [it.PartsFull()],
    "Named": [it.Named()],
    "NamesSpent": [it.NamesSpent()],
    "OverBudget": [it.OverBudget(64, 164, 200)],
    "BadRange": [it.BadRange()],
    "NoMemory": [it.NoMemory()],
}
BY_TWO = {"Hello": [it.Hello(2, 7, 1, SECRETS[7])], "Welcome": [it.Welcome(2)]}


def frames_of(page, heading):
    """The frames in the tables below a heading, by the names of their rows."""
    section = page.partition(f"\n## {heading}\n")[2].partition("\n## ")[0]
    found = {}
    for line in section.splitlines():
        cells = line.split("|")
        name = re.search(r"[A-Z]\w+", " ".join(cells[1:3]))
        if len(cells) > 3 and name and FRAMES.search(cells[-2]):
            found[name[0]] = [bytes.fromhex(frame) for frame in FRAMES.findall(cells[-2])]
    return found


def is_whole(body, version):
    """Whether a body is read, and isn't with a byte less or with one more."""
    return not any(isinstance(outcome(lambda given=given: it.read_body(given, version)), tuple({kind for kind, _ in it.COMES.values()})) for given in (body[:-1], body + b"\0"))


def compare_page(cases, page):
    """Each frame that the page shows: whether the client spells it so, or reads it as that."""
    greeted, asked, replied, by_two = (frames_of(page, heading) for heading in ("Greeting", "Requests", "Replies", "Two versions"))
    for version in (1, 2):
        sent, comes = greeted | asked, dict(replied)
        if version == 2:
            sent, comes = ({name: by_two.get(name, frames) for name, frames in table.items()} for table in (sent, comes))
        cases.add(f"version {version}: rows of the page", sorted({*sent, *comes, *(by_two if version == 2 else ())}), sorted({*SENT, *COMES}))
        more = BY_TWO if version == 2 else {}
        for name, said in (SENT | {"Hello": more.get("Hello", SENT["Hello"])}).items():
            cases.add(f"version {version}: {name} as it is sent", [outcome(lambda value=value: it.frame_of(value, version)) for value in said], sent.get(name))
        for name, said in (COMES | {"Welcome": more.get("Welcome", COMES["Welcome"])}).items():
            frames = comes.get(name, [])
            found = [outcome(lambda frame=frame: it.read_body(frame[4:], version)) for frame in frames]
            cases.add(f"version {version}: {name} as it comes", found, said)
            cases.add(f"version {version}: {name} with a byte less or more", [is_whole(frame[4:], version) for frame in frames], [True] * len(said))
