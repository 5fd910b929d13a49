"""Bytes of many connections made at random, the same for the same seed: callers of both versions of the wire who ask for all kinds of things of
each other's objects, and here and there one who says what may not be said."""
import random

from tools.lib import client as it
from tools.lib.chance import Chance

# How many bytes are written, read or kept: those of small values, and those at the limits of one version and of the other.
LENGTHS = {"small": (0, 1, 2, 5, 70), "of version 1": (4095, 4096, 4097), "of version 2": (8176, 65535, 65536, 65537)}
WEIGHTS = {"small": 30, "of version 1": 10, "of version 2": 4}
# What is said in the place of a request, once in so many times.
FOUL = 150
# The first connections are opened so, and then one in so many times.
OPENED, ONE_MORE = 4, 40


def secret_of(who):
    return bytes([who % 256]) * 16


def moment_of(words):
    """The moment behind `at`, where the last two words are that."""
    return (words[:-2], int(words[-1])) if words[-2:-1] == ["at"] else (words, None)


def object_of(word):
    return it.ObjectId(*map(int, word.split(".")))


def purse_of(word):
    return it.Purse(*map(int, word.split(".")))


def user_of(word):
    return it.EVERYONE if word == "everyone" else int(word)


def bytes_of(word):
    return b"" if word == "empty" else bytes.fromhex(word)


# By the verb of a line: the class of the request, and what each word behind it is read by.
VERBS = {
    "create": (it.Create, int),
    "delete": (it.Delete, object_of),
    "read": (it.Read, object_of, int, int),
    "write": (it.Write, object_of, int, bytes_of),
    "append": (it.Append, object_of, bytes_of),
    "truncate": (it.Truncate, object_of, int),
    "getattr": (it.GetAttr, object_of),
    "setattr": (it.SetAttr, object_of, bytes_of),
    "acl-user": (it.GetAclByUser, object_of, user_of),
    "acl-index": (it.GetAclByIndex, object_of, int),
    "setacl": (it.SetAcl, object_of, user_of, int),
    "pcreate": (it.PCreate, str, object_of),
    "pdelete": (it.PDelete, purse_of, str),
    "pmount": (it.PMount, purse_of, str),
    "flush": (it.Flush, int, int),
    "flusho": (it.FlushO, object_of, int, int),
    "setwindow": (it.SetWindow, int),
    "setbudget": (it.SetBudget, purse_of, int),
    "audit": (it.ReadAudit, int, int),
}


def request_of(line):
    """The request that a line of a script asks for, from its verb on."""
    words, at = moment_of(line.split())
    if words[0] == "plist":
        after = it.Place(int(words[3]), words[4]) if words[2:3] == ["after"] else None
        return it.PList(int(words[1]), after, at)
    called, *readers = VERBS[words[0]]
    values = [read(word) for read, word in zip(readers, words[1:], strict=True)]
    return called(*values, at) if "at" in called.parts else called(*values)


class Connection:
    """A connection: its number, who calls by which version, and what it has said that didn't arrive yet."""

    def __init__(self, number, who, version):
        self.number, self.who, self.version, self.said = number, who, version, b""


class Streams(Chance):
    """Arrivals in the making."""

    def __init__(self, seed, most):
        super().__init__(seed)
        self.most = most
        self.logins = "".join(f"{who} {secret_of(who).hex()}\n" for who in self.principals)
        self.connections = [self.first()]

    def first(self):
        """The first connection, whose caller of version 2 makes an object for everyone. Half of what is asked for is that."""
        first = Connection(1, self.principals[1], 2)
        self.drawn[f"{first.who}.0"] = 1
        self.shared = f"{first.who}.0.1"
        lines = "create 0", f"setacl {self.shared} everyone 31", f"truncate {self.shared} {self.length()}"
        asked = [it.Hello(2, first.who, 1, secret_of(first.who)), *map(request_of, lines)]
        first.said = b"".join(it.frame_of(one, 2) for one in asked)
        return first

    def object(self):
        return self.shared if self.it.random() < 0.5 else super().object()

    def length(self):
        few = {name: weight for name, weight in WEIGHTS.items() if max(LENGTHS[name]) <= self.most}
        return self.it.choice(LENGTHS[self.it.choices(list(few), list(few.values()))[0]])

    def bytes(self):
        return self.it.randbytes(self.length()).hex() or "empty"

    def kinds(self):
        some, o, kinds = self.it, self.object(), super().kinds()
        kinds["delete"] = (1, kinds["delete"][1])
        kinds["read"] = (16, lambda: f"read {o} {some.choice((0, 0, 0, 1, 4090))} {self.length() + some.choice((0, 0, 9, 4096))}{self.at()}")
        kinds["truncate"] = (3, lambda: f"truncate {o} {self.length()}")
        kinds["setacl"] = (14, lambda: f"setacl {o} {self.user()} {some.choice((1, 3, 17, 31, 31, 31))}")
        return kinds

    def open(self):
        """Opens a connection by a Hello. Few are of another version, or have another's secret."""
        who, version = self.it.choice(self.principals), self.it.choice((1, 2))
        opened = Connection(len(self.connections) + 1, who, version)
        told = self.it.choice((0, 3, 255)) if self.it.random() < 0.04 else version
        secret = secret_of(who + (self.it.random() < 0.04))
        opened.said = it.frame_of(it.Hello(told, who, self.it.randrange(4), secret), version)
        self.connections.append(opened)

    def foul(self, version):
        """Bytes that are no request there: of no frame, or a frame of the other version, or one too long, or any."""
        other = it.frame_of(it.Append(it.ObjectId(1, 0, 1), b"a"), 3 - version)
        return self.it.choice((b"\0\0\0\0", (it.LENGTH_OF_BODY[version] + 1).to_bytes(4, "big"), other, b"\0\0\0\3" + self.it.randbytes(3)))

    def say(self):
        """Has a connection say something more."""
        if len(self.connections) < OPENED or self.it.randrange(ONE_MORE) == 0:
            return self.open()
        caller = self.it.choice(self.connections)
        self.who = caller.who
        kinds = self.kinds()
        kind = self.it.choices(list(kinds), [weight for weight, _ in kinds.values()])[0]
        asked = request_of(kinds[kind][1]())
        try:
            caller.said += self.foul(caller.version) if self.it.randrange(FOUL) == 0 else it.frame_of(asked, caller.version)
        except ValueError:
            # (more than a frame of this version holds)
            pass

    def arrive(self):
        """Has a beginning of what was said arrive, or all of it."""
        waiting = [one for one in self.connections if one.said]
        if waiting:
            one = self.it.choice(waiting)
            count = self.it.randint(1, len(one.said)) if self.it.random() < 0.4 else len(one.said)
            piece, one.said = one.said[:count], one.said[count:]
            self.lines.append(f"{self.moment} {one.number} {piece.hex()}")

    def add(self):
        self.moment += self.it.choice((0, 0, 0, 1, 1, 2, 7))
        self.say()
        self.arrive()
        if self.it.random() < 0.05:
            self.lines.append(f"sweep {self.it.choice((1, 5, 1000))}")


def streams_at_random(seed, count, most=65537):
    """A table of logins, and a list of at least so many lines of arrivals and sweeps, in which data have so many bytes at most."""
    made = Streams(seed, most)
    while len(made.lines) < count:
        made.add()
    return made.logins, "\n".join(made.lines) + "\n"


def in_pieces(arrivals, seed):
    """The same bytes at the same moments in other pieces, and no sweeps."""
    some, lines = random.Random(seed), []
    for line in arrivals.splitlines():
        moment, number, *given = line.split()
        if moment == "sweep":
            continue
        piece, start = "".join(given), 0
        while piece and moment.isdigit() and start < len(piece):
            count = 2 * some.choice((1, 2, 5, 30, 4000))
            lines.append(f"{moment} {number} {piece[start : start + count]}")
            start += count
        if not moment.isdigit():
            lines.append(line)
    return "\n".join(lines) + "\n"
