"""A load for a served drive: processes that keep it busy, and one that takes the time of each reply that it has."""
import array
import heapq
import itertools
import select
import time
from typing import NamedTuple

from tools.lib import client as it
from tools.lib.crews import PATIENCE, REST, Crew
from tools.lib.findings import Wrong
from tools.lib.servers import secret_of

VERSION, PURSE, CLIENT = 1, 0, 1
# The bytes of a small and of a large value, and how many objects of each size a connection has.
SMALL, LARGE, OBJECTS = 16, 1024, 16
# How many kinds of requests there are, in equal numbers: a write and a read of a small value, and of a large one.
KINDS = 4
# In seconds: how long a connection may be behind its rate and make up for it, and how long one waits at most before it looks whether the load is
# over.
LATE, LOOK = 0.5, 0.05


class Shape(NamedTuple):
    """What a load consists of: so many processes, each of so many connections, each of which asks for so many things at once. Each connection
    asks as a principal of its own, and the process that takes times as the first of them."""

    processes: int
    connections: int
    depth: int
    principals: tuple

    def asked_by(self, place):
        """As whom the connections of a process ask."""
        return self.principals[1 + place * self.connections :][: self.connections]


def shape_of(processes, connections, depth, cells, idle):
    """A load of such a size that asks nothing in the idle cell."""
    outside = (who for who in itertools.count(1) if who % cells != idle)
    return Shape(processes, connections, depth, tuple(itertools.islice(outside, 1 + processes * connections)))


def said(frames):
    """What the first of these frames says, for people."""
    body = frames[4 : 4 + int.from_bytes(frames[:4], "big")]
    try:
        text = repr(it.read_body(body, VERSION))
    except it.Unreadable:
        text = body.hex()
    return text if len(text) <= 80 else f"{text[:76]} .."


class Batch:
    """Requests that are sent at once, and each byte of their replies."""

    def __init__(self, asked):
        self.count, frames = len(asked), [it.frame_of(reply, VERSION) for _, reply in asked]
        self.sent, self.wanted = b"".join(it.frame_of(request, VERSION) for request, _ in asked), b"".join(frames)
        self.ends = list(itertools.accumulate(map(len, frames)))

    def taken(self, before, came):
        """How many bytes came, where those before are known to be as wanted; raises where a reply is another."""
        if not came:
            raise Wrong("the server closed a connection")
        if not self.wanted.startswith(came, before):
            whole = self.wanted[:before] + came
            at = next((begin for begin, end in zip([0, *self.ends], self.ends) if not self.wanted.startswith(whole[begin:end], begin)), None)
            if at is None:
                raise Wrong("more is replied than was asked for")
            raise Wrong(f"a request is replied {said(whole[at:])} in the place of {said(self.wanted[at:])}")
        return before + len(came)


class Caller:
    """A connection that asks for the same things again and again, so many at once."""

    def __init__(self, address, who):
        self.drive = it.Connection(address, who, CLIENT, secret_of(who), VERSION, PATIENCE)
        self.socket, self.batch, self.came, self.due, self.prepared = self.drive.socket, None, 0, 0.0, 0

    def prepare(self, size):
        """Makes objects that have so many bytes. Gives for each a write of them and a read, each with its reply."""
        pairs = []
        for place in range(OBJECTS):
            made, data = self.drive.ask(it.Create(PURSE)).object, bytes([1 + place]) * size
            write, read = it.Write(made, 0, data), it.Read(made, 0, size)
            done, reply = self.drive.ask(write), self.drive.ask(read)
            if done != it.Done() or not isinstance(reply, it.Data) or reply.data != data:
                raise Wrong(f"{reply!r} is read of what {data!r} was written to")
            self.prepared += 3
            pairs.append(((write, done), (read, reply)))
        return pairs

    def prepare_batch(self, depth):
        """So many requests of all kinds in equal numbers."""
        of_sizes = [self.prepare(size) for size in (SMALL, LARGE)]
        self.batch = Batch([one for place in range(depth // KINDS) for pairs in of_sizes for one in pairs[place % OBJECTS]])
        self.socket.settimeout(None)
        return self

    def ask(self):
        self.socket.sendall(self.batch.sent)

    def hear(self):
        """Takes what came, and tells whether all that was asked for is answered."""
        self.came = self.batch.taken(self.came, self.socket.recv(1 << 20)) % len(self.batch.wanted)
        return not self.came


class Asking:
    """Connections that ask until the load is over, each again once it is answered. Where `each` isn't 0, it is so many seconds from one time to
    the next."""

    def __init__(self, callers, each, stage, place):
        self.callers, self.each, self.stage, self.place = {one.socket.fileno(): one for one in callers}, each, stage, place
        self.waiting, self.due, self.unanswered = select.epoll(), [], 0
        for number in self.callers:
            self.waiting.register(number, select.EPOLLIN)

    def begin(self):
        """All begin at once, or one behind the other in the time of one."""
        for place, (number, caller) in enumerate(self.callers.items()):
            caller.due = self.stage.begin.value + self.each * place / len(self.callers)
            self.due.append((caller.due, number))
        heapq.heapify(self.due)

    def ask(self, now):
        """Has those ask whose time has come."""
        while self.due and self.due[0][0] <= now:
            self.callers[heapq.heappop(self.due)[1]].ask()
            self.unanswered += 1

    def hear(self, now):
        """Takes what comes until the next has to ask."""
        pause = max(0, self.due[0][0] - now) if self.due else LOOK
        for number, _ in self.waiting.poll(min(LOOK, pause)):
            caller = self.callers[number]
            if caller.hear():
                self.stage.replies[self.place] += caller.batch.count
                self.unanswered -= 1
                caller.due = max(caller.due + self.each, now - LATE) if self.each else now
                heapq.heappush(self.due, (caller.due, number))

    def run(self):
        self.begin()
        while not self.stage.is_over.value:
            now = time.monotonic()
            self.ask(now)
            self.hear(now)
        end = time.monotonic() + PATIENCE
        self.due.clear()
        while self.unanswered:
            self.hear(end)
            self.due.clear()
            if time.monotonic() > end:
                raise Wrong(f"{self.unanswered} connections aren't answered within {PATIENCE} seconds")


def ask_much(address, shape, each, stage, place):
    """A process of the load: first it makes its objects, and tells how many requests that took; then it asks."""
    callers = [Caller(address, who).prepare_batch(shape.depth) for who in shape.asked_by(place)]
    yield sum(one.prepared for one in callers)
    Asking(callers, each, stage, place).run()
    yield None


def take_times(address, shape, stage, place):
    """The process that takes times: it asks for one thing at a time, a write and a read of a small value in turn. Tells when it asked for each,
    in seconds since the load's begin, and how long that took."""
    caller = Caller(address, shape.principals[0])
    turns = [Batch([one]) for one in caller.prepare(SMALL)[0]]
    sock, whens, times = caller.socket, array.array("f"), array.array("f")
    yield caller.prepared
    while not stage.is_over.value:
        for turn in turns:
            begin, came = time.monotonic(), 0
            sock.sendall(turn.sent)
            while came < len(turn.wanted):
                came = turn.taken(came, sock.recv(1 << 16))
            times.append(time.monotonic() - begin)
            whens.append(begin - stage.begin.value)
            stage.replies[place] += 1
            time.sleep(REST)
    yield whens, times


class Load(Crew):
    """A load of a server, at a rate of requests a second in all, or as much as it takes. It is over where its `with` ends."""

    def __init__(self, address, shape, rate):
        super().__init__(shape.processes + 1)
        # (of the processes that ask much, each connection has its turn once in so many seconds)
        each = shape.processes * shape.connections * shape.depth / rate if rate else 0
        with self.killed_if_raised():
            for place in range(shape.processes):
                self.start(False, ask_much, address, shape, each, self.stage, place)
            self.start(True, take_times, address, shape, self.stage, shape.processes)
            self.prepared = sum(self.prepare())

    def end(self):
        """Ends it once all is answered, and gives the times that were taken."""
        return self.ended()[-1]
