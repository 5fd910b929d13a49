"""What attackers of a server do: each of these works is a process of so many connections, which goes on until it is over."""
import collections
import select
import socket
import struct
import time

from tools.lib import client as it
from tools.lib.crews import PATIENCE
from tools.lib.findings import Wrong
from tools.lib.servers import connect, secret_of

# Who attacks, by version 2, and the bytes of the largest object.
WHO, CLIENT, VERSION, LARGEST = 4, 1, 2, 65536
# How many records a range has whose audit is asked for, how many values a track whose oldest is, and how many requests are sent at once to make them: what they are
# replied fits the buffers of the system.
RECORDS, VERSIONS, AT_ONCE = 1_000_000, 16_000, 500
# How many connections are made in a second that say nothing, and how many of them are held open.
SILENT, HELD = 1000, 1500
# In seconds: how long one waits before it looks whether it is over.
LOOK = 0.05


def logged_in(address):
    """A connection of the attacker."""
    return it.Connection(address, WHO, CLIENT, secret_of(WHO), VERSION, PATIENCE)


class Asker:
    """A connection that asks for the same things again and again, so many at once, and forgets what it is replied."""

    def __init__(self, address, asked):
        self.socket, self.count = logged_in(address).socket, len(asked)
        self.sent = b"".join(it.frame_of(one, VERSION) for one in asked)
        self.left, self.rest, self.head, self.buffer = 0, 0, b"", memoryview(bytearray(1 << 18))

    def ask(self):
        self.left = self.count
        self.socket.sendall(self.sent)

    def hear(self):
        """Takes what came, and tells whether all is replied."""
        count, at = self.socket.recv_into(self.buffer), 0
        if not count:
            raise Wrong("the server closed a connection of the attacker")
        while at < count:
            if not self.rest:
                part = bytes(self.buffer[at : min(count, at + 4 - len(self.head))])
                self.head, at = self.head + part, at + len(part)
                if len(self.head) < 4:
                    break
                self.rest, self.head = int.from_bytes(self.head, "big"), b""
            taken = min(self.rest, count - at)
            self.rest, at = self.rest - taken, at + taken
            self.left -= not self.rest
        return self.left == 0

    def ask_once(self):
        """Asks, and waits until all is replied."""
        self.ask()
        while not self.hear():
            pass


def go_on(askers, stage):
    """Has all of these ask, each again once it is replied."""
    with select.epoll() as waiting:
        by_number = {one.socket.fileno(): one for one in askers}
        for number, one in by_number.items():
            waiting.register(number, select.EPOLLIN)
            one.ask()
        while not stage.is_over.value:
            for number, _ in waiting.poll(LOOK):
                if by_number[number].hear():
                    by_number[number].ask()


def asks(address, connections, asked, stage):
    """A work that asks for these things by so many connections."""
    askers = [Asker(address, asked) for _ in range(connections)]
    yield None
    go_on(askers, stage)
    yield None


def made_records(address, count):
    """Has the attacker's range have so many records more, each of a read of an object that isn't there."""
    asker = Asker(address, [it.Read(it.ObjectId(WHO, 15, 65535), 0, 1)] * AT_ONCE)
    for _ in range(count // AT_ONCE):
        asker.ask_once()
    asker.socket.close()


def ask_for_audits(address, connections, is_first, stage):
    """Asks for pages of the audit of a million records."""
    if is_first:
        made_records(address, RECORDS)
    yield from asks(address, connections, [it.ReadAudit(WHO, 0)] * 64, stage)


def made_versions(address, is_first):
    """An object whose attributes have many values, which the first process makes, and a moment at which the oldest was in force."""
    with logged_in(address) as drive:
        if is_first:
            drive.ask(it.Create(0))
        while not (lines := drive.ask(it.ReadAudit(WHO, 0)).lines):
            time.sleep(LOOK)
    made = it.ObjectId(WHO, 0, 1)
    if is_first:
        time.sleep(LOOK)
        asker = Asker(address, [it.SetAttr(made, b"")] * AT_ONCE)
        for _ in range(VERSIONS // AT_ONCE):
            asker.ask_once()
        asker.socket.close()
    return made, lines[0].moment


def ask_for_the_oldest(address, connections, is_first, stage):
    """Asks for the oldest of 16,000 values."""
    made, moment = made_versions(address, is_first)
    yield from asks(address, connections, [it.GetAttr(made, moment)] * 64, stage)


def made_large(address):
    """An object of the most bytes that one may have."""
    with logged_in(address) as drive:
        made = drive.ask(it.Create(0)).object
        drive.ask(it.Write(made, 0, bytes(LARGEST)))
    return made


def ask_for_much(address, connections, _is_first, stage):
    """Reads an object of 65536 bytes."""
    yield from asks(address, connections, [it.Read(made_large(address), 0, LARGEST)] * 32, stage)


def ask_in_vain(address, connections, _is_first, stage):
    """Writes 65536 bytes to an object that isn't there."""
    yield from asks(address, connections, [it.Write(it.ObjectId(WHO, 15, 65535), 0, bytes(LARGEST))] * 16, stage)


def reset(address, sent):
    """Asks, and has the connection reset in the middle of the replies."""
    try:
        sock = logged_in(address).socket
        sock.setsockopt(socket.SOL_SOCKET, socket.SO_LINGER, struct.pack("ii", 1, 0))
        sock.sendall(sent)
        sock.recv(1 << 16)
        sock.close()
    except (OSError, it.Fault, it.Unreadable):
        # (it wasn't let in, or was reset itself)
        return


def reset_again(address, _connections, _is_first, stage):
    """Reads an object of 65536 bytes fifty times at once, and has the connection reset in the middle of that, again and again."""
    sent = it.frame_of(it.Read(made_large(address), 0, LARGEST), VERSION) * 50
    yield None
    while not stage.is_over.value:
        reset(address, sent)
    yield None


def say_nothing(address, _connections, is_first, stage):
    """Connects a thousand times a second, and says nothing."""
    held = collections.deque()
    yield None
    due = stage.begin.value
    while is_first and not stage.is_over.value:
        time.sleep(max(0, due - time.monotonic()))
        try:
            held.append(connect(address))
        except OSError:
            # (the system lets no more in)
            pass
        if len(held) > HELD:
            held.popleft().close()
        due += 1 / SILENT
    yield None
