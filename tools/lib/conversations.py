"""Conversations of the client for Python with a server, and what each request is replied."""
from dataclasses import astuple

from tools.lib import client as it
from tools.lib.cases import outcome
from tools.lib.page_frames import frames_of
from tools.lib.servers import SECRETS

# Of an audit the lines of a conversation below: who, and the code, whether it is wide, and the number of the refusal.
TENANTS = [(1, 0), (20, 0), (4, 0), (5, 0), (3, 0), (6, 0), (3, 0), (3, 4), (8, 0), (7, 0), (8, 7), (9, 9), (9, 0), (10, 0), (10, 9), (12, 0), (12, 10)]
TENANTS += [(15, 0), (14, 0), (14, 0), (2, 12), (13, 0), (15, 3), (11, 0), (16, 15), (17, 1), (18, 1), (19, 1), (2, 0), (3, 2)]
AUDITED = [(7, (code, False, refusal)) for code, refusal in TENANTS]
AUDITED += [(0, shown) for shown in ((3, False, 2), (16, True, 0), (17, False, 0), (18, True, 0), (19, False, 0))]



def asked_by_tenant(made, home, since):
    """What the owner of an object asks about it once it is made, and what each request is replied."""
    purse, own = it.Purse(7, 0), it.Grant(0, since)
    line = it.NameLine(home, made, own)
    return (
        (it.Write(made, 0, b"hello"), it.Done()),
        (it.Append(made, b" there"), it.Done()),
        (it.Read(made, 1, 100), it.Data(own, b"ello there")),
        (it.Truncate(made, 5), it.Done()),
        (it.Read(made, 0, 100), it.Data(own, b"hello")),
        (it.Read(made, 0, 100, 2**63), it.Future()),
        (it.SetAttr(made, b"\x00\xff"), it.Done()),
        (it.GetAttr(made), it.Attr(own, b"\x00\xff")),
        (it.SetAttr(made, bytes(257)), it.TooLong()),
        (it.GetAclByUser(made, 9), it.NoEntry()),
        (it.GetAclByUser(made, 7), it.Entry(own, 0, 7, 31)),
        (it.GetAclByIndex(made, 0), it.Entry(own, 0, 7, 31)),
        (it.GetAclByIndex(made, 255), it.NoEntry()),
        (it.PCreate(home, made), it.Done()),
        (it.PCreate(home, made), it.Exists()),
        (it.PMount(purse, home), it.Mounted(own, made)),
        (it.PList(7), it.Names((line,), False)),
        (it.PList(7, it.Place(0, home)), it.Names((), False)),
        (it.Delete(made), it.Named()),
        (it.PDelete(purse, home), it.Done()),
        (it.PMount(purse, home), it.NoPartition()),
        (it.SetAcl(made, 9, 1), it.Done()),
        (it.Flush(6, 5), it.BadRange()),
        (it.FlushO(made, 0, since), it.Denied(32)),
        (it.SetWindow(5), it.Denied(32)),
        (it.SetBudget(purse, 5), it.Denied(32)),
        (it.Delete(made), it.Done()),
        (it.Read(made, 0, 100), it.NoObject()),
    )


def asked_by_administrator(made):
    """What the administrator asks once that object is deleted, and what each request is replied."""
    return (
        (it.Read(made, 0, 100), it.NoObject()),
        (it.Flush(0, 0), it.Done()),
        (it.FlushO(made, 0, 0), it.Done()),
        (it.SetWindow(86400000), it.Done()),
        (it.SetBudget(it.Purse(7, 0), 2000000), it.Done()),
    )


def converse(cases, server, version):
    """Each of the twenty requests by a version. What is wanted follows from docs/MODEL.md; the moment of a grant is that of the Create in the audit."""
    name, number, made = f"version {version}", 10 + version, it.ObjectId(7, 0, version)
    with server.log_in(7, number, version) as tenant, server.log_in(0, number, version) as administrator:
        cases.ask(name, tenant, it.Create(0), it.Made(made))
        since = [line for line in tenant.whole_audit(7) if line.client == number][0].moment
        for asked, wanted in asked_by_tenant(made, f"home-{version}", since):
            cases.ask(name, tenant, asked, wanted)
        for asked, wanted in asked_by_administrator(made):
            cases.ask(f"{name}, as administrator", administrator, asked, wanted)
    with server.log_in(0, number + 10, version) as reader:
        told = [astuple(line)[1:] for line in reader.whole_audit(7) if line.client == number]
        cases.add(f"{name}: what the audit shows of all these", told, [(who, number, *shown) for who, shown in AUDITED])


def converse_ahead(cases, server, version):
    """Many requests at once, whose replies come in their order."""
    most = {1: 4096, 2: 65536}[version]
    with server.log_in(9, 1, version) as drive:
        made = drive.ask(it.Create(0)).object
        whole = bytes(place * 7 % 251 for place in range(most))
        grant = drive.ask_all([it.Write(made, 0, whole), it.Read(made, 0, 1)])[1].grant
        asked = [it.Read(made, place, most if place % 3 else 2) for place in range(90)] + [it.PCreate("x", it.ObjectId(9, 1, 1)), it.Read(made, 0, 3)]
        wanted = [it.Data(grant, whole[place : place + (most if place % 3 else 2)]) for place in range(90)] + [it.NoObject(), it.Data(grant, whole[:3])]
        cases.add(f"version {version}: {len(asked)} requests in one write", outcome(lambda: drive.ask_all(asked)), wanted)
        cases.ask(f"version {version}, data that fill a frame", drive, it.Write(made, 0, bytes({1: 8177, 2: 131055}[version])), it.TooLong())
        cases.ask(f"version {version}, more than data may have", drive, it.Write(made, 1, whole), it.TooLong())


def converse_on_one(cases, server):
    """Both versions on one object: what a caller of version 1 reads and changes of more than they could write."""
    whole, part = bytes(place % 253 for place in range(65536)), b"." * 4096
    with server.log_in(7, 31, 1) as first, server.log_in(7, 32, 2) as second:
        made = second.ask(it.Create(1)).object
        cases.ask("one object, by version 2", second, it.Write(made, 0, whole), it.Done())
        grant = first.ask(it.GetAttr(made)).grant
        for name, drive, asked, wanted in (
            ("its beginning, by version 1", first, it.Read(made, 0, 65536), it.Data(grant, whole[:4096])),
            ("its next part, by version 1", first, it.Read(made, 4096, 65536), it.Data(grant, whole[4096:8192])),
            ("its end, by version 1", first, it.Read(made, 65530, 65536), it.Data(grant, whole[65530:])),
            ("all of it, by version 2", second, it.Read(made, 0, 65536), it.Data(grant, whole)),
            ("its beginning, by version 1", first, it.Write(made, 0, part), it.Done()),
            ("what is behind it stays, by version 2", second, it.Read(made, 0, 65536), it.Data(grant, part + whole[4096:])),
            ("behind the limit, by version 1", first, it.Write(made, 4096, b"x"), it.TooLong()),
            ("behind its end, by version 1", first, it.Append(made, b"x"), it.TooLong()),
            ("above the limit, by version 1", first, it.Truncate(made, 4097), it.TooLong()),
            ("all of it still, by version 2", second, it.Read(made, 0, 65536), it.Data(grant, part + whole[4096:])),
            ("cut, by version 1", first, it.Truncate(made, 4095), it.Done()),
            ("what is left, by version 2", second, it.Read(made, 0, 65536), it.Data(grant, part[:4095])),
            ("a byte more, by version 1", first, it.Append(made, b"x"), it.Done()),
            ("filled, by version 2", second, it.Truncate(made, 65536), it.Done()),
            ("its end, by version 2", second, it.Read(made, 65000, 65536), it.Data(grant, bytes(536))),
            ("above the limit, by version 2", second, it.Truncate(made, 65537), it.TooLong()),
        ):
            cases.ask(f"one object, {name}", drive, asked, wanted)


def compare_faults(cases, server, page):
    """What can't be served, as bytes and by the client."""
    greeted, replied, by_two = (frames_of(page, heading) for heading in ("Greeting", "Replies", "Two versions"))
    hello, [hello_two], [welcome], [welcome_two] = greeted["Hello"][0], by_two["Hello"], replied["Welcome"], by_two["Welcome"]
    malformed, bad_login, frame_length = replied["Fault"]
    for name, sent, wanted in (
        ("a Hello of version 3", hello[:5] + b"\3" + hello[6:], malformed),
        ("a Hello of version 0", hello[:5] + b"\0" + hello[6:], malformed),
        ("a Hello with another secret", hello[:-1] + b"\0", bad_login),
        ("a frame of 8193 bytes before the Hello", (8193).to_bytes(4, "big"), frame_length),
        ("a frame of no bytes before the Hello", bytes(4), frame_length),
        ("version 1: a frame of 8193 bytes", hello + (8193).to_bytes(4, "big"), welcome + frame_length),
        ("version 2: a frame of 131073 bytes", hello_two + (131073).to_bytes(4, "big"), welcome_two + frame_length),
        ("version 1: a second Hello", hello + hello, welcome + malformed),
        ("version 2: a Write as version 1 spells it", hello_two + bytes.fromhex("00000014040000000700000001000000000005") + b"hello", welcome_two + malformed),
    ):
        cases.add(name, outcome(lambda sent=sent: server.tell(sent)), wanted)
    for version in (1, 2):
        cases.add(f"version {version}: the client with another secret", outcome(lambda version=version: server.log_in(9, 1, version, bytes(16))), it.BadLogin())
        with server.log_in(9, 1, version) as drive:
            cases.ask(f"version {version}, a second time", drive, it.Hello(version, 9, 1, SECRETS[9]), it.Malformed())
