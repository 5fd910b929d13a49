"""A server with a folder and an address of its own."""
import re
import time
from dataclasses import dataclass

from tests import peers
from tests.program import PROGRAM, SECONDS
from tools.lib import servers

# The secrets of principals 7 and 8, and their logins.
SECRETS = {7: bytes(range(16)), 8: bytes(range(16, 32))}
LOGINS = servers.logins_of(SECRETS)
# Two cells and one worker, which has all the patience. Its moments begin with 5.
PLAIN = {"window": 100, "cells": 2, "workers": 1, "connections": 1, "idle": 0, "hello": 0, "open": 1024, "first-moment": 5, "reload": 50}
# How long it is waited between two tries, in seconds.
PAUSE = 0.1


def until(is_so, what):
    """Waits until something is so; `what` says what is waited for."""
    last = time.monotonic() + SECONDS / 2
    while not is_so():
        if time.monotonic() > last:
            raise TimeoutError(f"in vain it is waited for this: {what}")
        time.sleep(PAUSE)


@dataclass(frozen=True)
class Closed:
    """What a server tells at its end: how many records there are, and the counts of its cells, or none where it doesn't tell them."""

    records: int
    counts: list | None


class Server(servers.Server):
    """A server that listens. Settings are those of PLAIN, but for those that are given by name; `flags` are further words of its command line. It has its
    journal in its folder where it `keeps` one, and lasts no longer than SECONDS. `how` is what the system is told of its process."""

    def __init__(self, *flags, logins=LOGINS, setup="", tells=True, keeps=False, how=None, **settings):
        told = PLAIN | {name.replace("_", "-"): value for name, value in settings.items()}
        self.cells, self.first_moment, self.start = told["cells"], told["first-moment"], time.monotonic()
        words = [word for name, value in told.items() for word in (f"--{name}", value)] + ["--journal", "journal"] * keeps
        super().__init__(PROGRAM, *words, *flags, logins=logins, setup=setup, tells=tells, seconds=SECONDS, **(how or {}))
        if not self.listens():
            errors = self.errors()
            self.kill()
            raise AssertionError(f"it doesn't listen: {errors}")

    def welcomed(self, hello):
        """A connection on which this Hello was welcomed."""
        peer = self.connect()
        peer.sendall(hello)
        welcome = peers.exactly(peer, 6)
        assert welcome == b"\0\0\0\2\x10" + hello[5:6], welcome.hex()
        return peer

    def moments(self):
        """The moments that its clock may have told up to now."""
        return range(self.first_moment, self.first_moment + int((time.monotonic() - self.start) * 1000) + 1)

    def is_sent(self, got, pieces):
        """Whether a peer was sent these pieces, one behind the other, where each NOW is a moment of its clock."""
        return peers.is_joined(got, pieces, self.moments())

    def closed(self, errors=""):
        """What it tells at its end, to which it comes by itself and without a fault, with such errors (a regular expression)."""
        told = self.process.stdout.read()
        status = self.process.wait()
        assert status == 0 and re.fullmatch(errors, self.errors()), (status, self.errors())
        *counted, closed = told.splitlines()
        assert closed.startswith("closed ") and len(counted) < 2, told
        counts = [int(word) for word in counted[0].removeprefix("counted ").split(" ")] if counted else None
        return Closed(int(closed.removeprefix("closed ")), counts)

    def check_end(self, case, records, counts=None, errors=""):
        """That it comes to its end by itself with so many records (the least and the most), each counted in a cell, and with these counts of its
        cells where they are known. Gives how many records there are."""
        closed = self.closed(errors)
        least, most = records
        case.assertTrue(least <= closed.records <= most, closed)
        if self.tells:
            case.assertEqual(len(closed.counts), self.cells)
            case.assertLessEqual(closed.records, sum(closed.counts))
            case.assertIn(counts, (None, closed.counts))
        else:
            case.assertIsNone(closed.counts)
        return closed.records
