"""Servers that keep a journal while principals ask at random, and what the journal then tells of their replies."""
import contextlib
import json
import random
import signal
import threading
import time
from dataclasses import dataclass, field

from tools.lib.chance import Chance
from tools.lib.findings import Wrong
from tools.lib.programs import run
from tools.lib.servers import Server, connect, logins_of, secret_of

# Who asks.
PRINCIPALS = (0, 7, 8, 9)
# Replies of these kinds have more than one line.
PAGES = ("audit", "plist")
WINDOW = 400
# A round of a server takes a tenth of a second; on a busy machine it comes late, in seconds.
ROUND = 2
# How long a server that cuts its records may take until some went, and how long it is left alone between two looks, in seconds.
PATIENCE, PAUSE = 60, 0.1


@dataclass
class Asked:
    """What a principal asked, what it was replied, and when it had each reply."""

    who: int
    replies: list = field(default_factory=list)
    times: list = field(default_factory=list)
    # When each login with a wrong secret was answered.
    failed: list = field(default_factory=list)


def call(program, address, who, words, secret, version=1):
    """The reply to a call by that version of the wire, and its status."""
    ran = run(program, ["call", "--wait", "5000", "--wire", version, address, who, "1", secret.hex(), *words])
    return ran.out.decode().rstrip("\n"), ran.status


def ask_at_random(program, address, asked, seed, begun, count, over):
    """Has a principal ask so often, by either version of the wire, now and then by a wrong secret, or in a connection that breaks."""
    chance = Chance(seed)
    chance.who, chance.principals = asked.who, list(PRINCIPALS)
    for _ in range(count):
        chance.moment = int((time.monotonic() - begun) * 1000)
        kinds = chance.kinds()
        kind = chance.it.choices(list(kinds), [0 if it in PAGES else weight for it, (weight, _) in kinds.items()])[0]
        if chance.it.random() < 0.05:
            break_off(address)
        if chance.it.random() < 0.05:
            _, status = call(program, address, asked.who, ["create", "0"], secret_of(0xBAD))
            if not over.is_set() and status == 1:
                asked.failed.append(time.monotonic())
        words = kinds[kind][1]().split(" ")
        reply, status = call(program, address, asked.who, words, secret_of(asked.who), chance.it.choice((1, 2)))
        if over.is_set() or status != 0:
            return
        asked.replies.append(reply)
        asked.times.append(time.monotonic())
        time.sleep(0.003)


def break_off(address):
    """A connection that says what is no frame."""
    with contextlib.suppress(OSError), connect(address, 5) as sock:
        sock.sendall(bytes(7))


def told(program, *words, script=None, status=0):
    """What the program writes; it has to succeed, or to end with that status."""
    ran = run(program, words, (script or "").encode())
    if ran.status != status:
        raise Wrong(f"{' '.join(map(str, words))}: status {ran.status}: {ran.err.decode().strip()} behind {ran.out.decode()[-200:]!r}")
    return ran.out.decode()


# With which status a check ends whose last line says so.
STATUSES = {"sound": 0, "broken off": 3}


def checked_as(program, folder, wanted, *flags):
    """What is told of the one start in a folder, which has to be that."""
    checked = told(program, "history", "check", folder, *flags, status=STATUSES[wanted])
    if not checked.endswith(f"start 1 {wanted}\n"):
        raise Wrong(f"the journal isn't {wanted}: {checked!r}")
    return checked


def is_own(words):
    """Whether the words are what a server that cuts asks by itself, as administrator, in a cell that nobody asks."""
    return words.startswith("plist ") and words.endswith(" at 18446744073709551615")


def replies_in(program, script, who):
    """What a script replies to a principal, but for what the server asked by itself."""
    lines = script.split("\n")[1:-1]
    replies = told(program, "run", script=script).split("\n")[:-1]
    if len(lines) != len(replies):
        raise Wrong(f"{len(lines)} lines of a script have {len(replies)} replies")
    asked = [line.split(" ", 2)[1:] for line in lines]
    spoken = [(by.partition("/")[0], words) for by, words in asked]
    return [reply for (by, words), reply in zip(spoken, replies) if by == str(who) and not (by == "0" and is_own(words))]


def span(times, died):
    """How many of what was answered at these times have to be told at least, and may be at most."""
    return (sum(it < died - ROUND for it in times), len(times) + 1) if died else (len(times), len(times))


def told_of_connections(folder, all_asked, died):
    """The principal whom each connection was welcomed as, and its peer. Each failed login is told, and each connection's end, but for those of the
    last round of a server that died."""
    welcomed, peers, failed, ended = {}, {}, {asked.who: 0 for asked in all_asked}, set()
    for line in (folder / "1" / "connections.jsonl").read_text(encoding="utf-8").splitlines(keepends=True):
        if not line.endswith("\n"):
            break
        event = json.loads(line)
        if event["event"] == "ended":
            continue
        number = event["connection"]
        peers.setdefault(number, event["peer"])
        if event["event"] == "welcome":
            welcomed[number] = event["who"]
        elif event["event"] == "bad-login":
            failed[event["who"]] += 1
        elif event["event"] in ("closed", "idle", "late", "reset", "revoked", "no-memory"):
            ended.add(number)
    for asked in all_asked:
        least, most = span(asked.failed, died)
        if not least <= failed[asked.who] <= most:
            raise Wrong(f"{failed[asked.who]} failed logins of {asked.who} are told, who had {len(asked.failed)}, {least} of them in time")
    if not died and ended != set(peers):
        raise Wrong(f"of the connections {sorted(set(peers) - ended)} no end is told")
    return welcomed, peers


def compare_ended(folder, checked, died):
    """Whether the last line tells that the start ended, where it did, and with which counts and sums, which are those that `check` finds."""
    events = [json.loads(line) for line in (folder / "1" / "connections.jsonl").read_text(encoding="utf-8").splitlines(keepends=True) if line.endswith("\n")]
    ends = [place for place, event in enumerate(events) if event["event"] == "ended"]
    if ends != ([] if died else [len(events) - 1]):
        raise Wrong(f"of {len(events)} lines {ends} tell the end of a server that {'was killed' if died else 'ended'}")
    if died:
        return
    found = [line.rpartition(" ")[2] for line in checked.splitlines() if " sum " in line][:2]
    cells = [int(line.rpartition(" ")[2]) for line in checked.splitlines() if " records " in line]
    told, sizes = events[-1], [(folder / "1" / name).stat().st_size for name in ("records", "calls")]
    wanted = ({"bytes": sizes[0], "sum": found[0], "cells": cells}, {"bytes": sizes[1], "sum": found[1], "count": told["calls"]["count"]}, len(events) - 1)
    if (told["records"], told["calls"], told["lines"]) != wanted:
        raise Wrong(f"the last line is {told}, and {wanted} is found")


def compare_list(program, folder, all_asked, died, cuts):
    """Whether the list has each record once, by its number, with the connection of its principal, and that one's peer. Tells how many it has, how many
    of them the server asked by itself, which have none, and how many are of all cells."""
    welcomed, peers = told_of_connections(folder, all_asked, died)
    plain = [line for line in told(program, "history", "list", folder).splitlines() if " -> " in line]
    try:
        rows = [json.loads(line) for line in told(program, "history", "list", folder, "--json").splitlines()]
    except ValueError as why:
        raise Wrong(f"the list is no JSON: {why}") from why
    if len(plain) != len(rows):
        raise Wrong(f"the list has {len(plain)} lines, and as JSON {len(rows)}")
    unknown, own, wide = 0, 0, 0
    for n, (line, row) in enumerate(zip(plain, rows)):
        spot = f"{n} {row['cell']} {row['place']} {row['moment']} {row['who']} {row['client']} {row['ask']} -> {row['reply']}"
        if line != spot or row["n"] != n or row["verb"] != row["ask"].split(" ")[0]:
            raise Wrong(f"the list has {line!r} as record {n}, and as JSON {row}")
        wide += row["who"] == 0 and row["verb"] in ("flush", "setwindow")
        if cuts and row["who"] == 0 and is_own(row["ask"]) and row["connection"] is None and row["reply"] == "future":
            own += 1
            continue
        if row["connection"] is None:
            unknown += 1
        elif died and row["connection"] not in welcomed:
            unknown += 1
        elif welcomed.get(row["connection"]) != row["who"] or peers[row["connection"]] != row["peer"]:
            raise Wrong(f"the list names another connection: {row}")
    if unknown and not died:
        raise Wrong(f"of {unknown} records the list names no connection")
    if [row["moment"] for row in rows] != sorted(row["moment"] for row in rows):
        raise Wrong("the list isn't in the order of the moments")
    return len(rows), own, wide


@dataclass
class Found:
    """What was found in a journal: how many replies were compared, how many records are what the server asked by itself, and how many all cells have,
    each of which has the wide ones."""

    compared: int
    own: int
    of_cells: int

    @property
    def records(self):
        return self.compared + self.own


def compare(program, folder, all_asked, died, cuts):
    """Whether nothing is wrong with the journal, and it tells of each principal what they were replied: all of it, or where the server died, all but the
    last."""
    checked = checked_as(program, folder, "broken off" if died else "sound")
    if not died and (" uncalled " in checked or " beyond " in checked or " torn " in checked):
        raise Wrong(f"of a server that ended it tells {checked!r}")
    compare_ended(folder, checked, died)
    counted = sum(int(line.rpartition(" ")[2]) for line in checked.splitlines() if " records " in line)
    listed, own, wide = compare_list(program, folder, all_asked, died, cuts)
    # Each cell has the records of all cells, but where the server died in between.
    once = counted - wide * (len([line for line in checked.splitlines() if " records " in line]) - 1)
    lacking = sum(int(line.rpartition(" ")[2]) for line in checked.splitlines() if " lacks " in line)
    if listed != once + lacking:
        raise Wrong(f"the list has {listed} records, and the cells {once + lacking}")
    script = told(program, "history", "script", folder)
    records = 0
    for asked in all_asked:
        kept = [("the script", replies_in(program, script, asked.who))]
        if asked.who != 0:
            struck = told(program, "strike", str(asked.who), script=script)
            kept.append(("the script without strangers", replies_in(program, struck, asked.who)))
        for name, found in kept:
            least, most = span(asked.times, died)
            if not least <= len(found) <= most:
                raise Wrong(f"{name} has {len(found)} replies of {asked.who}, who had {len(asked.replies)}, {least} of them in time")
            count = min(len(found), len(asked.replies))
            for place in range(count):
                if found[place] != asked.replies[place]:
                    raise Wrong(f"{name} gives {found[place]!r} as reply {place} of {asked.who}, who had {asked.replies[place]!r}")
        records += len(kept[0][1])
    return Found(records, own, counted)


def compare_count(output, found, cuts):
    """Whether the server tells as many records as its journal has; where it cuts, no more, and how many its cells ever had. Tells how many went."""
    *ever, closed = output or [""]
    count = closed.removeprefix("closed ")
    if not count.isdigit() or not (int(count) == found.records or cuts and int(count) < found.records):
        raise Wrong(f"the server writes {output!r}, and its journal has {found.records} records")
    if [sum(map(int, line.split(" ")[1:])) for line in ever] != [found.of_cells] * cuts:
        raise Wrong(f"the server writes {output!r}, and its journal has {found.of_cells} records of its cells")
    return found.records - int(count)


def change_bytes(program, folder, chance):
    """Changes bytes of the three files in turn, and cuts these: each is found."""
    for name in ("records", "calls", "connections.jsonl"):
        path = folder / "1" / name
        whole = path.read_bytes()
        for _ in range(5):
            place = chance.randrange(len(whole))
            changed = whole[:place] + bytes([whole[place] ^ 1 << chance.randrange(8)]) + whole[place + 1 :]
            for what, data in (("changed", changed), ("the first that lacks", whole[:place])):
                path.write_bytes(data)
                ran = run(program, ["history", "check", folder])
                if ran.status == 0:
                    raise Wrong(f"byte {place} of {name} is {what}, and the journal is sound: {ran.out.decode()!r}")
        path.write_bytes(whole)


@dataclass
class Plan:
    """A server that is asked at random: by the numbers of this seed, so often by each principal; whether it is killed; how its command line goes on,
    and whether it cuts its records."""

    seed: int
    count: int
    kill: bool

    def __post_init__(self):
        self.chance = random.Random(self.seed)
        some = self.chance.choice
        self.flags = ["--cells", some((1, 2, 4, 16)), "--workers", some((1, 3)), "--sync", some(("second", "never"))]
        self.cuts = self.chance.random() < 0.5
        self.flags += ["--cut"] * self.cuts


def ask_all_at_random(program, server, plan):
    """Has all principals ask a server up to their end, or its own. Tells what each asked, and when it was killed, or none."""
    over, all_asked, begun, died = threading.Event(), [Asked(who) for who in PRINCIPALS], time.monotonic(), None
    given = [(program, server.address, it, plan.seed * 10 + it.who, begun, plan.count, over) for it in all_asked]
    threads = [threading.Thread(target=ask_at_random, args=it) for it in given]
    for it in threads:
        it.start()
    if plan.kill:
        time.sleep(plan.chance.uniform(1, 4))
        over.set()
        died = time.monotonic()
        server.process.send_signal(signal.SIGKILL)
    for it in threads:
        it.join()
    return all_asked, died


def records_since(server, begun):
    """How many records a server's cells have, as it said since then; none where it said nothing since."""
    path = server.folder / "status"
    if not path.exists() or path.stat().st_mtime < begun:
        return None
    return sum(it["records"] for it in server.status()["cells"])


def wait_for_a_cut(server, all_asked):
    """Returns once a server says that it has fewer records than were replied to."""
    replied, begun, last = sum(len(it.replies) for it in all_asked), time.time() + PAUSE, time.monotonic() + PATIENCE
    while (found := records_since(server, begun)) is None or found >= replied:
        if time.monotonic() > last:
            raise Wrong(f"of {replied} records none went in {PATIENCE} s")
        time.sleep(PAUSE)


def compare_sums(program, kept, sums):
    """Whether each sum that the server kept is found, the last one at the end of its records."""
    checked = checked_as(program, kept, "sound", "--sums", sums)
    found = [line.split(" ")[3] for line in checked.splitlines() if " kept, " in line]
    wanted = list(dict.fromkeys(line.split(" ")[1] for line in sums.read_text(encoding="ascii").splitlines()))
    if found != wanted or not wanted or f"start 1 bytes {wanted[-1]} kept, 0 blocks follow\n" not in checked:
        raise Wrong(f"the sums at the bytes {wanted} were kept, and {checked!r} is found")


def compare_end(program, kept, sums, found, output, errors, plan):
    """Whether a server that ends tells the sums of its journal and its records, whether those that it kept are found, and whether changed bytes and cuts
    of the journal are. Tells of one that cuts how many of its records went; else None."""
    for line in errors:
        if " sum " in line:
            told(program, "history", "check", kept, "--sum", line.rpartition(" sum ")[2])
    compare_sums(program, kept, sums)
    gone = compare_count(output, found, plan.cuts)
    change_bytes(program, kept, plan.chance)
    return gone if plan.cuts else None


def serve_at_random(program, plan):
    """Serves while all principals ask at random, and compares. Tells how many replies were compared, and of a server that cuts and ends how many of its
    records went; else None."""
    logins = logins_of({who: secret_of(who) for who in PRINCIPALS})
    flags = ["--journal", "kept", "--sums", "sums", "--window", WINDOW, *plan.flags]
    with Server(program, *flags, logins=logins, tells=plan.cuts) as server:
        all_asked, died = ask_all_at_random(program, server, plan)
        if plan.cuts and not plan.kill:
            wait_for_a_cut(server, all_asked)
        output, errors = server.end()
        kept = server.folder / "kept"
        found = compare(program, kept, all_asked, died, plan.cuts)
        return found.compared, None if plan.kill else compare_end(program, kept, server.folder / "sums", found, output, errors, plan)
