"""Measures what peers cost a server in memory, where many do the same.

  ./check measure peers
                        1024 peers each: that say nothing; that announce a greatest frame; that send half of it, or all of it but a byte;
                        that read 65536 bytes and are silent then; that ask again and again for them, and read nothing; and the dearest that
                        were found, which do the like behind a greatest frame
      --peers N         so many of each
      --program PATH    the program; else bin/s4d or crates/s4d/out/s4d, the one that was built last

It prints for each kind how much more memory the server has resident for each peer than when it was idle, and what is wanted at most, where
something is (docs/OPERATIONS.md, "Memory"). Each kind has a server of its own, which closes no peer for its silence. The dearest take 300
megabytes of memory, and some 150 of the system's.
"""
import contextlib
import resource
import selectors
import socket
import time
from typing import NamedTuple

from tools.lib import client as it
from tools.lib.commands import Options
from tools.lib.processes import resident
from tools.lib.programs import program_of
from tools.lib.servers import SECRETS, Server, host_and_port

OPTIONS = Options(numbers={"peers": 1024}, texts=("program",))

WHO, VERSION = 7, 2
MOST_DATA, LONGEST_BODY, READS = 65536, 131072, 2000
# Memory is settled where so many looks in a row, each so many seconds behind the last, differ by so little of it.
LOOKS, REST, SAME, PATIENCE = 8, 0.25, 0.002, 90
# Descriptors that aren't peers'.
OTHERS = 100
# Reads of a server that is called idle: so many, so that what it needs once is there.
WARM = 20
KINDS = 7


class Kind(NamedTuple):
    """What peers do, how many bytes one may cost, where that is bounded, what each sends, and how many bytes of replies it reads then."""

    name: str
    bound: int | None
    sent: bytes
    read: int = 0


def kinds(made):
    """All kinds of peers, which ask for this object. The last one's replies wait with as many bytes as can, behind a frame for which room was made."""
    hello = it.frame_of(it.Hello(VERSION, WHO, 1, SECRETS[WHO]), VERSION)
    # (a Write whose frame is a greatest one: it is more than an object may have, and changes nothing)
    whole = it.frame_of(it.Write(made, 0, bytes(LONGEST_BODY - 17)), VERSION)
    read = it.frame_of(it.Read(made, 0, MOST_DATA), VERSION)
    # (with the 19 bytes before the data this reply has a byte less than those behind which no more is served)
    less = it.frame_of(it.Read(made, 0, MOST_DATA - 20), VERSION)
    # (the Welcome, and a reply's length, its 15 bytes before the data, and the data)
    told = 6 + 4 + 15 + MOST_DATA
    return [
        Kind("silent", 1 << 10, b""),
        Kind(f"announces a body of {LONGEST_BODY} bytes", 20 << 10, hello + whole[:4]),
        Kind("sends half of such a body", 170 << 10, hello + whole[: LONGEST_BODY // 2]),
        Kind("sends all of it but a byte", None, hello + whole[:-1]),
        Kind(f"reads {MOST_DATA} bytes, and is silent then", 20 << 10, hello + read, told),
        Kind(f"asks {READS} times for {MOST_DATA} bytes, and reads nothing", 350 << 10, hello + read * READS),
        Kind(f"sends such a body, then asks for {MOST_DATA - 20} and {MOST_DATA} bytes in turn, and reads nothing", 350 << 10, hello + whole + (less + read) * (READS // 2)),
    ]


def settled(server):
    """The resident bytes once they stay the same."""
    seen, end = [], time.monotonic() + PATIENCE
    while time.monotonic() < end:
        seen.append(resident(server.process.pid))
        last = seen[-LOOKS:]
        if len(last) == LOOKS and max(last) - min(last) <= SAME * max(last):
            break
        time.sleep(REST)
    return seen[-1]


def connected(address):
    """A peer that takes segments of a network's size, and keeps little that isn't read: else the system itself holds megabytes for each."""
    peer = socket.socket()
    peer.setsockopt(socket.SOL_SOCKET, socket.SO_RCVBUF, 4096)
    peer.setsockopt(socket.IPPROTO_TCP, socket.TCP_MAXSEG, 1448)
    peer.connect(host_and_port(address))
    peer.setblocking(False)
    return peer


def send_all(peers, sent):
    """Sends this of each peer, as fast as it is taken. Ends where all is sent, or where nothing was taken for a while."""
    with selectors.DefaultSelector() as waiting:
        for peer in peers:
            if sent:
                waiting.register(peer, selectors.EVENT_WRITE, [sent])
        while ready := waiting.select(timeout=2):
            for key, _ in ready:
                count = key.fileobj.send(key.data[0])
                key.data[0] = key.data[0][count:]
                if not key.data[0]:
                    waiting.unregister(key.fileobj)
            if not waiting.get_map():
                return


def read_all(peer, count):
    """Reads so many bytes as a peer, and no more."""
    peer.settimeout(PATIENCE)
    while count:
        got = len(peer.recv(count))
        if not got:
            raise ConnectionError(f"{count} bytes more aren't sent")
        count -= got


def act(peers, kind):
    """Has all peers do as their kind does: at once, or one behind the other where each reads what it is sent, so that what one gives back the next may take."""
    for some in [[it] for it in peers] if kind.read else [peers]:
        send_all(some, kind.sent)
        for peer in some:
            read_all(peer, kind.read)


def replies(server):
    """How many requests the server has replied to, by its next status."""
    status = server.folder / "status"
    before, end = status.stat().st_mtime_ns, time.monotonic() + PATIENCE
    while status.stat().st_mtime_ns == before and time.monotonic() < end:
        time.sleep(REST)
    return server.status()["replies"]


def cost(program, choose, count):
    """A kind of peers, how many bytes each of so many costs a server, and how many replies each has there."""
    flags = ["--open", str(count + OTHERS), "--idle", "0", "--hello", "0"]
    with Server(program, *flags) as server, server.log_in(WHO, 2, VERSION) as drive, contextlib.ExitStack() as opened:
        made = drive.ask(it.Create(0)).object
        drive.ask(it.Write(made, 0, bytes(MOST_DATA)))
        for _ in range(WARM):
            drive.ask(it.Read(made, 0, MOST_DATA))
        kind, idle, before = kinds(made)[choose], settled(server), replies(server)
        peers = [opened.enter_context(connected(server.address)) for _ in range(count)]
        act(peers, kind)
        return kind, max(0, settled(server) - idle) / count, (replies(server) - before) / count


def allow_open(count):
    """Raises this process's bound of descriptors, and so the server's, where it is lower than so many."""
    soft, hard = resource.getrlimit(resource.RLIMIT_NOFILE)
    resource.setrlimit(resource.RLIMIT_NOFILE, (min(hard, max(soft, count)), hard))


def run(given):
    """Prints what each kind of peers costs."""
    program, count = program_of("peers", given), given.peers
    allow_open(count + 2 * OTHERS)
    above = 0
    for choose in range(KINDS):
        kind, each, replied = cost(program, choose, count)
        wanted = f", at most {kind.bound >> 10} wanted" if kind.bound else ""
        above += bool(kind.bound) and each > kind.bound
        print(f"{kind.name}: {each / 1024:.1f} KiB each{wanted}, {replied:.0f} replies each", flush=True)
    print(f"peers: {KINDS} kinds of {count} peers, {above} cost more than is wanted")
    return not above
