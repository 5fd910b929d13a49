"""A script with sweeps and with a stranger's lines anywhere, and what is told of it."""

# What stands behind each line.
SWEEPS = ("", "sweep 0\n", "sweep 1\n", "sweep 2\n", "sweep 1000000\n")
# What 9 does in a purse of its own: what it asks up to the purse's number, and the rest. It is told of an object that is made, and then that all
# is done.
OWN = (
    ("create ", ""),
    ("write 9.", ".1 0 6161"),
    ("append 9.", ".1 61"),
    ("truncate 9.", ".1 1"),
    ("setattr 9.", ".1 61"),
    ("setacl 9.", ".1 7 31"),
    ("pcreate home 9.", ".1"),
    ("pdelete 9.", " home"),
    ("delete 9.", ".1"),
)


class Mixed:
    """A script, before and behind each of whose lines, at its moment, 9 does what it does in a purse of its own and makes these requests, or nothing
    where they are none; and behind each line, what 9 does too, a sweep may stand."""

    def __init__(self, script, replies, sweep, requests):
        self.sweep, self.requests, self.purse = sweep, requests, 0
        self.script, self.replies = [], []
        told = iter(replies.splitlines())
        for line in script.splitlines():
            moment, _, request = line.partition(" ")
            if moment == "window":
                self.script.append(f"{line}\n")
                continue
            self.add_stranger(moment)
            self.add(moment, request, next(told))
            self.add_stranger(moment)

    def add(self, moment, request, reply):
        """Adds a line, and what is told of it."""
        self.script.append(f"{moment} {request}\n{self.sweep}")
        self.replies.append(f"{reply}\n")

    def add_stranger(self, moment):
        """Adds what 9 does at a moment, in a purse where it did nothing before and elsewhere."""
        if self.requests is None:
            return
        self.script += [f"{moment} 9 {verb}{self.purse}{rest}\n" for verb, rest in OWN] + [self.sweep]
        self.replies += [f"made 9.{self.purse}.1\n", *["done\n"] * (len(OWN) - 1)]
        self.purse += 1
        for request, reply in self.requests:
            self.add(moment, request, reply)

    def texts(self):
        """The script, and what is told of it."""
        return "".join(self.script).encode(), "".join(self.replies).encode()
