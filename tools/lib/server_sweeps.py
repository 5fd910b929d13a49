"""Each allocation of each thread of a server refused in turn, while clients ask it."""
import struct
from concurrent.futures import ThreadPoolExecutor
from dataclasses import dataclass, field, replace

from tools.lib import client
from tools.lib.findings import Wrong
from tools.lib.judging import ENDED, REFUSED, frames_in, judged
from tools.lib.refusing import NONE, Refusal
from tools.lib.servers import address, connect, logins_of
from tools.lib.sweeps import QUICK, Swept, spread

SECRET, VERSION = bytes(range(16)), 1
WINDOW = 1_000_000_000
WELCOME = client.frame_of(client.Welcome(VERSION), VERSION)
# How long a client waits for an answer, in seconds.
PATIENCE = 10
STAYS, OWN = client.ObjectId(8, 0, 1), client.ObjectId(7, 0, 1)
AUDITORS = (3, 4, 5)
RANGES = (0, 7, 8)
# What is asked, in this order: on which connection, which is opened by its first step, the range that it lies in, and the request; none closes
# it. Wide ones have no range. The first connection stands open while the others come and go. The last three ask for audits of all: two refusals
# leave one of them.
STEPS = [
    (0, 8, client.Create(0)),
    (0, 8, client.Write(STAYS, 0, b"stays")),
    (1, 7, client.Create(0)),
    (1, 7, client.Write(OWN, 0, b"hello")),
    (1, 7, client.SetAcl(OWN, 8, 17)),
    (1, 7, client.SetAttr(OWN, b"why")),
    (1, 7, client.PCreate("home", OWN)),
    (1, 7, client.PList(7)),
    (1, 7, client.Read(OWN, 0, 100)),
    (0, 7, client.Read(OWN, 0, 100)),
    (1, 7, client.PDelete(client.Purse(7, 0), "home")),
    (1, 7, client.ReadAudit(7, 0)),
    (1, None, None),
    (2, None, client.SetWindow(WINDOW - 1)),
    (2, 7, client.SetBudget(client.Purse(7, 0), 70_000)),
    (2, None, client.Flush(0, 5)),
    (2, 7, client.Delete(OWN)),
    (2, None, None),
    (0, 8, client.Append(STAYS, b" on")),
    (0, 8, client.Read(STAYS, 0, 100)),
    (0, None, None),
    *[(conn, who, client.ReadAudit(who, 0)) for conn in AUDITORS for who in RANGES],
    *[(conn, None, None) for conn in AUDITORS],
]
CALLERS = {0: 8, 1: 7, 2: 0} | dict.fromkeys(AUDITORS, 0)


# What is known, and told in docs/OPERATIONS.md and docs/LIMITS.md: these runs don't count as wrong.
TOLD_TO_LISTEN = "it tells that it listens, and then that there is no memory"
KNOWN = (TOLD_TO_LISTEN,)


def known(heard, ran, listens):
    """Which known thing it is, or none."""
    if ran.met() and listens and not any(it.reply for it in heard.asked) and (ran.status, ran.errors) == (1, ENDED):
        return TOLD_TO_LISTEN
    return None


def hello(conn):
    return client.frame_of(client.Hello(VERSION, CALLERS[conn], conn, SECRET), VERSION)


@dataclass
class Asked:
    """A request that was asked: its step, as a frame, and its reply, or none where the connection ended before it."""

    conn: int
    range: int | None
    sent: bytes
    reply: bytes | None

    @property
    def code(self):
        return self.sent[4]

    def record(self):
        """What an audit says of it, but for its moment."""
        number = self.reply[5] if self.reply and self.reply[4] == 8 else 0
        return CALLERS[self.conn], self.conn, self.code, number


@dataclass
class Heard:
    """What clients asked and heard of a server, and how it ended."""

    asked: list = field(default_factory=list)
    sockets: dict = field(default_factory=dict)
    ended: set = field(default_factory=set)


def receive(sock):
    """The next frame, or none where the connection ended before it was whole."""
    got = b""
    while len(got) < 4 or len(got) < 4 + int.from_bytes(got[:4], "big"):
        missing = (4 if len(got) < 4 else 4 + int.from_bytes(got[:4], "big")) - len(got)
        try:
            more = sock.recv(missing)
        except TimeoutError as error:
            raise Wrong("a client waits in vain for an answer") from error
        except ConnectionError:
            return None
        if not more:
            return None
        got += more
    return got


def ask(sock, sent):
    """Sends, and gives the frame that answers."""
    try:
        sock.sendall(sent)
    except ConnectionError:
        return None
    return receive(sock)


def greet(heard, conn, place):
    """Opens a connection. One that isn't welcomed has ended. Nobody else may have been served where nobody listens."""
    try:
        sock = connect(place, PATIENCE)
    except ConnectionError as error:
        if heard.sockets:
            raise Wrong(f"connection {conn} isn't accepted") from error
        return False
    heard.sockets[conn] = sock
    welcome = ask(sock, hello(conn))
    if welcome is None:
        heard.ended.add(conn)
    elif welcome != WELCOME:
        raise Wrong(f"connection {conn} is welcomed by {welcome.hex()}")
    return True


def go(heard, place):
    """Goes through all steps, but those on connections that ended."""
    for conn, range_, request in STEPS:
        if conn not in heard.sockets and not greet(heard, conn, place):
            return
        if request is None:
            heard.sockets[conn].close()
        elif conn not in heard.ended:
            sent = client.frame_of(request, VERSION)
            reply = ask(heard.sockets[conn], sent)
            heard.asked.append(Asked(conn, range_, sent, reply))
            if reply is None:
                heard.ended.add(conn)


def audited(heard):
    """What the last audit that was answered for each range shows, as pairs of a moment and a record, and behind which request it came."""
    found = {}
    for at, it in enumerate(heard.asked):
        if it.code == client.ReadAudit.code and CALLERS[it.conn] == 0 and it.reply and it.reply[4] == 7 and it.conn in AUDITORS:
            lines = struct.iter_unpack(">QIIBBB", it.reply[6 : 6 + 19 * it.reply[5]])
            found[it.range] = (at, [(moment, (who, client, code, reply)) for moment, who, client, code, _, reply in lines])
    return found


def moments(heard):
    """The moments of the requests that were carried out, by their places, as the audits tell them; raises where these tell something else. A
    request that no audit tells of is at the moment of the one before it: nothing that was heard says at which it was."""
    told, audits = {}, audited(heard)
    for range_, (end, lines) in audits.items():
        at = 0
        for place, it in enumerate(heard.asked[:end]):
            if it.range not in (range_, None) or it.reply == REFUSED:
                continue
            if at < len(lines) and lines[at][1] == it.record():
                told[place] = lines[at][0]
                at += 1
            elif it.reply is not None:
                raise Wrong(f"request {place + 1} was answered, and the audit of {range_} lacks it")
        if at < len(lines):
            raise Wrong(f"the audit of {range_} has a record of what wasn't carried out: {lines[at][1]}")
    last = 0
    for place, it in enumerate(heard.asked):
        is_audited = any(place < end and it.range in (range_, None) for range_, (end, _) in audits.items())
        if place not in told and it.reply not in (None, REFUSED) and not is_audited:
            told[place] = last
        last = max(last, told.get(place, 0))
    return told


def arrivals(heard, told):
    """The arrivals of a hall that was asked what was carried out."""
    lines, greeted, last = [b"window %d\n" % WINDOW], set(), 0
    for place, it in enumerate(heard.asked):
        if place not in told:
            continue
        last = max(last, told[place])
        sent = (b"" if it.conn in greeted else hello(it.conn)) + it.sent
        greeted.add(it.conn)
        lines.append(b"%d %d %s\n" % (last, it.conn, sent.hex().encode()))
    return b"".join(lines)


def plants(heard, ran):
    """What was heard and how it ended, with a mistake in it: names of mistakes, what was heard and how it ended."""
    def with_asked(change):
        asked = [replace(it) for it in heard.asked]
        change(asked)
        return replace(heard, asked=asked)

    refused = replace(ran, told=ran.told | {"refusals": 1})
    other = with_asked(lambda asked: setattr(asked[2], "reply", asked[2].reply[:-1] + b"\x02"))
    later = with_asked(lambda asked: setattr(asked[8], "reply", asked[8].reply[:-1] + b"x"))
    unrecorded = with_asked(lambda asked: asked.insert(5, replace(asked[4])))
    return [
        ("another object is made", other, ran),
        ("other bytes are read", later, ran),
        ("a request that was answered left no record", unrecorded, ran),
        ("a request that wasn't asked left a record", with_asked(lambda asked: asked.pop(4)), ran),
        ("a request that was refused left a record", with_asked(lambda asked: setattr(asked[5], "reply", REFUSED)), refused),
        ("a connection ended for nothing", replace(heard, ended={1}), ran),
        ("two connections ended for one refusal", replace(heard, ended={1, 2}), refused),
        ("another count of records at its end", heard, replace(ran, output=ran.output.replace(b"closed 2", b"closed 3"))),
        ("an end with no memory for nothing", heard, replace(ran, status=1, errors=ENDED)),
        ("an end with no memory that tells a count", heard, replace(refused, status=1, errors=ENDED)),
        ("another status", heard, replace(refused, status=3)),
        ("a crash", heard, replace(refused, status=-11)),
    ]


class ServerSweep:
    """Sweeps a server."""

    def __init__(self, program, jobs, quick):
        self.program, self.quick, self.pool = program, quick, ThreadPoolExecutor(jobs)
        self.logins = program.file("logins-of-server", logins_of(dict.fromkeys((0, 7, 8), SECRET)).encode())

    def run(self, refusal):
        """Runs a server and goes through the steps. Gives what was heard, how it ended, whether it told that it listens, and what was wrong."""
        place = address()
        words = ["serve", place, self.logins, "--workers", "1", "--cells", "2", "--window", str(WINDOW), "--connections", str(len(CALLERS))]
        server, heard, trouble = self.program.open(words, refusal), Heard(), None
        first = server.line()
        try:
            if first:
                go(heard, place)
        except Wrong as why:
            trouble = str(why)
        for it in heard.sockets.values():
            it.close()
        return heard, server.end(by_force=trouble is not None), first == f"listening {place}\n".encode(), trouble

    def judge(self, heard, ran, listens, trouble):
        """Raises why it isn't right."""
        if trouble or not ran.told:
            raise Wrong(trouble or "it ended so that its allocations aren't told")
        if ran.status < 0:
            raise Wrong(f"it is ended by signal {-ran.status}")
        refused = sum(it.reply == REFUSED for it in heard.asked)
        if len(heard.ended) + refused + (ran.status != 0) > ran.met():
            raise Wrong(f"status {ran.status}, the connections {sorted(heard.ended)} ended, {refused} requests are refused, and only {ran.met()} allocations were")
        wanted = moments(heard)
        if (ran.status, ran.errors) == (1, ENDED):
            if ran.output.count(b"\n") != listens or listens and len(heard.sockets) < len(CALLERS):
                raise Wrong(f"it ends with no memory, and {len(heard.sockets)} connections were accepted; it writes {ran.output!r}")
        elif (ran.status, ran.errors) != (0, b"") or not listens:
            raise Wrong(f"status {ran.status}, and on standard error {ran.errors.decode(errors='replace')!r}")
        else:
            unsure = sum(it.reply is None and place not in wanted for place, it in enumerate(heard.asked))
            if not any(ran.output.endswith(b"\nclosed %d\n" % (len(wanted) + it)) for it in range(unsure + 1)):
                raise Wrong(f"it writes {ran.output!r}, and {len(wanted)} requests were carried out")
        self.compare(heard, wanted)

    def compare(self, heard, told):
        """What each connection heard is what a hall sends it that is asked what was carried out."""
        for place, reply in self.replies(arrivals(heard, told), heard, told).items():
            if heard.asked[place].reply not in (None, reply):
                raise Wrong(f"request {place + 1} is answered {heard.asked[place].reply.hex()}, and not {reply.hex()}")

    def replies(self, text, heard, told):
        """The replies of a hall to what was carried out, by place."""
        place = self.program.place()
        (place / "arrivals").write_bytes(text)
        ran = self.program.run(("hall", self.logins), str(place / "arrivals"))
        if (ran.status, ran.errors) != (0, b""):
            raise Wrong("a hall isn't run to its end that is asked the same")
        sent = {}
        for line in ran.output.splitlines():
            conn, stream = line.split(b" ")
            stream = bytes.fromhex(stream.decode())
            sent[int(conn)] = [stream[begin:end] for begin, end in frames_in(stream)][1:]
        return {place: sent[heard.asked[place].conn].pop(0) for place in sorted(told)}

    def tried(self, refusal):
        """A run with this refusal, why it isn't right, and whether that is known."""
        heard, ran, listens, trouble = self.run(refusal)
        why = judged(lambda: self.judge(heard, ran, listens, trouble))
        return (ran, f"{refusal} refused: {why}", known(heard, ran, listens)) if why else (ran, None, None)

    def sweep(self):
        """Sweeps all threads, once it's seen that mistakes are found in what a server with ample memory told."""
        heard, ample, listens, trouble = self.run(NONE)
        why = judged(lambda: self.judge(heard, ample, listens, trouble))
        if why:
            return [Swept("serve", wrong=[f"serve, with ample memory: {why}"])]
        unseen = [name for name, other, ran in plants(heard, ample) if not judged(lambda it=(other, ran): self.judge(*it, True, None))]
        every = [self.sweep_thread(it, count) for it, count in sorted(ample.by_thread().items()) if count]
        every[-1].wrong += [f"serve: a planted mistake isn't found: {it}" for it in unseen]
        lacking = [] if self.quick else sorted(set(KNOWN) - {it for swept in every for it in swept.known})
        every[-1].wrong += [f"serve: it is known no more, so take it out of the list: {it}" for it in lacking]
        return every

    def sweep_thread(self, thread, allocations):
        swept = Swept(f"serve, thread {thread}", allocations)
        for count in (1, 2):
            numbers, unmet = spread(allocations, QUICK if self.quick else allocations), 0
            swept.met[count] = 0
            for ran, why, is_known in self.pool.map(lambda it: self.tried(Refusal(it, count, thread)), numbers):
                swept.met[count] += ran.met() > 0
                unmet += ran.met_none()
                if is_known:
                    swept.known[is_known] = swept.known.get(is_known, 0) + 1
                elif why:
                    swept.wrong.append(f"serve, {why}")
            if unmet:
                swept.wrong.append(f"{swept.name}: {unmet} of {len(numbers)} refusals weren't met")
        return swept
