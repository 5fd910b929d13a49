"""What a program holds in the end for each read of a value that it keeps: the record of the read, and no copy of the value. And what it holds
at most for writes where sweeps and cuts come between: no more for many of them than for few."""
from dataclasses import dataclass

from tools.lib.sweeps import Swept

# The value has so many bytes, and it is read so often.
BYTES = 4096
COUNTS = (2_000, 4_000)
# A read leaves fewer bytes than these.
LEAST_OF_A_COPY = 500
# A write whose record went leaves fewer than these. Its line stays, in a vector of all lines that may have room for as many more.
LEAST_OF_A_RECORD = 200
WINDOW = 100

HEAD = b"window 1000000000\n1 7 create 0\n1 7 write 7.0.1 0 " + b"61" * BYTES + b"\n"


@dataclass(frozen=True)
class Reads:
    """Reads of so many bytes of the value, from its first byte on."""

    bytes: int

    def __str__(self):
        return f"reads of {self.bytes} of {BYTES} bytes"

    def script(self, count):
        return HEAD + b"".join(b"%d 7 read 7.0.1 0 %d\n" % (it + 2, self.bytes) for it in range(count))

    def wanted(self, count):
        """The lines that are replied."""
        return [b"made 7.0.1", b"done", *[b"data %s by 0 since 1" % (b"61" * self.bytes)] * count]

    def is_right(self, held, count):
        """Whether this is to be held for so many more. Each is held by a record, so by a byte at least."""
        return count <= held < LEAST_OF_A_COPY * count


@dataclass(frozen=True)
class Writes:
    """Writes, and behind every so many of them a sweep and a cut at the horizon."""

    every: int

    def __str__(self):
        return f"writes with a cut behind every {self.every}"

    def cuts(self, count):
        """The moments of the cuts, and how many records go at each."""
        below = 1
        for newest in range(self.every + 1, count + 2, self.every):
            moment = max(newest - WINDOW, below)
            yield moment, moment - below
            below = moment

    def script(self, count):
        lines, cuts = [b"window %d" % WINDOW, b"1 7 create 0"], self.cuts(count)
        for it in range(count):
            lines.append(b"%d 7 write 7.0.1 0 %032x" % (it + 2, it))
            if (it + 1) % self.every == 0:
                lines += [b"sweep 1000", b"cut %d" % next(cuts)[0]]
        return b"\n".join(lines) + b"\n"

    def wanted(self, count):
        """The lines that are replied."""
        cuts = [b"cut %d" % went for _, went in self.cuts(count)]
        return [b"made 7.0.1", *(line for it in cuts for line in [b"done"] * self.every + [it])]

    def is_right(self, held, count):
        """Whether this is to be held for so many more."""
        return held < LEAST_OF_A_RECORD * count


READS, WRITES = [Reads(BYTES), Reads(1)], [Writes(100)]
KINDS = READS + WRITES


def faults_of_holding(kind, name, held, count):
    """What isn't as it should be of what so many more requests hold."""
    return [] if kind.is_right(held, count) else [f"{name}: {held / count:.1f} bytes are held for each of {count}"]


def faults_of(kind, count, ran):
    """What isn't as it should be in a run of so many requests."""
    name, lines = f"{count} {kind}", ran.output.splitlines()
    if (ran.status, ran.errors) != (0, b"") or not ran.told.get("most_held", 0):
        return [f"{name}: status {ran.status}, {ran.errors.decode(errors='replace')!r}, and {ran.told.get('most_held', 0)} bytes held"]
    return [] if lines == kind.wanted(count) else [f"{name}: the replies are others"]


def held(program, kind):
    """Runs the scripts of a kind, and compares what is held at most."""
    swept, most = Swept(f"holding, {kind}"), []
    for count in COUNTS:
        ran = program.run(("run",), program.file("given", kind.script(count)), measures=True)
        swept.wrong += faults_of(kind, count, ran)
        most.append(ran.told.get("most_held", 0))
    few, many = COUNTS
    swept.wrong += faults_of_holding(kind, swept.name, most[1] - most[0], many - few)
    swept.told = f"{(most[1] - most[0]) / (many - few):.1f} bytes held for each"
    return swept
