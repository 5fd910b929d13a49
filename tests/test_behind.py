"""A journal that is behind: whose records it lacks too many waits for it, and nobody else; where it can't be written nobody waits."""
import contextlib
import os
import resource
import string
import tempfile
import unittest
from concurrent.futures import ThreadPoolExecutor
from pathlib import Path

from tests.frames import HELLO, OTHER_HELLO
from tests.peers import exactly, frame
from tests.serving import Server, until
from tests.test_records import ASKED, RECORD, ask, bytes_of
from tools.lib.refusing import HERE, compiled

# How many bytes of a principal's records the journal may lack (docs/LIMITS.md, "Numbers"), and of how many requests a turn is.
MOST, TURN = 64 << 20, 64
WORKERS = 2
# Principal 7 has a name of each letter and digit, and others; the page of all of them is asked for. A record of it counts so many bytes, which are far more
# than its request, its reply, and its part of a journal have.
NAMES = [*string.ascii_lowercase, *string.digits, *(f"x{it}" for it in string.ascii_lowercase), "y1", "y2"]
SETUP = "7 create 0\n" + "".join(f"7 pcreate {name} 7.0.1\n" for name in NAMES)
PAGE = frame(bytes.fromhex("0e 00000007 00 00"))
LEFT = RECORD + 80 * len(NAMES)
# By so many connections it asks for that page, and so often on each that all are more than that, whatever turns were under way.
PEERS, EACH = 4, 3200
assert PEERS * EACH * LEFT > MOST + WORKERS * TURN * LEFT
# So many milliseconds pass at the server while it waits: a request that waits for room would have been told by then that there is none.
WAITS = 2500
# No file may have more bytes than these, where the disk is to be full.
FULL = 4096


def replied(peer):
    """The frame of a reply."""
    length = exactly(peer, 4)
    return length + exactly(peer, int.from_bytes(length, "big"))


def moment(server):
    """The moment that the server tells."""
    return server.status()["moment"]


def fails(server):
    """Whether the server tells that its journal can't be written."""
    status = server.status()
    return status and status["journal"]["fails"]


class Behind(unittest.TestCase):
    """Principals 7, of whose records a journal lacks many, and 8."""

    def setUp(self):
        self.behind = contextlib.ExitStack()
        self.addCleanup(self.behind.close)
        self.hearing = self.behind.enter_context(ThreadPoolExecutor(PEERS))

    def serve(self, **how):
        """A server that keeps a journal."""
        return self.behind.enter_context(Server(connections=0, workers=WORKERS, keeps=True, setup=SETUP, how=how))

    def serve_held(self):
        """A server whose disk takes nothing as long as there is a file `held` in its folder."""
        room = Path(self.behind.enter_context(tempfile.TemporaryDirectory()))
        library = compiled(HERE / "hold.c", room / "hold.so", "-shared", "-fPIC")
        return self.serve(env=os.environ | {"LD_PRELOAD": str(library), "HOLD_WHILE": "held", "HOLD_TELLS": "holds"})

    def ask_much(self, server):
        """Has principal 7 ask all that, and gives what each connection will have heard."""
        peers = [self.behind.enter_context(server.welcomed(HELLO)) for _ in range(PEERS)]
        for peer in peers:
            peer.sendall(PAGE * EACH)
        return [self.hearing.submit(lambda peer=peer: {replied(peer) for _ in range(EACH)}) for peer in peers]

    def check_all_replied(self, heard):
        """That all of that is replied: by the page, and nothing else."""
        pages = set().union(*(it.result() for it in heard))
        self.assertEqual([it[4:7] + it[-1:] for it in pages], [b"\6" + bytes([len(NAMES)]) + b"\1" + b"\0"])

    def check_end(self, server, records, errors):
        """That the server ends with so many records beside those of its setup."""
        records += 1 + len(NAMES)
        server.ask_to_end()
        server.check_end(self, (records, records), errors=errors)

    def test_whose_records_a_journal_lacks_waits_for_it_and_another_goes_on(self):
        server = self.serve_held()
        (server.folder / "held").touch()
        eight = self.behind.enter_context(server.welcomed(OTHER_HELLO))
        until((server.folder / "holds").exists, "the journal waits for its disk")
        heard = self.ask_much(server)
        until(lambda: (bytes_of(server, 7) or 0) >= MOST, "the journal lacks as much of 7 as it may")
        since = moment(server)
        for request, wanted in ASKED:
            self.assertEqual(ask(eight, request, len(wanted))[0], wanted)
        until(lambda: moment(server) > since + WAITS, "7 waits for long")
        # Of each worker a turn may have been under way.
        self.assertLess(bytes_of(server, 7), MOST + WORKERS * TURN * LEFT)
        (server.folder / "held").unlink()
        self.check_all_replied(heard)
        self.check_end(server, PEERS * EACH + len(ASKED), r"(s4d: journal: start 1 .*\n)*")

    def test_nobody_waits_for_a_journal_that_cannot_be_written(self):
        # (the signal of a file that has no room is ignored, and so it is by what Python starts)
        server = self.serve(restore_signals=False, preexec_fn=lambda: resource.setrlimit(resource.RLIMIT_FSIZE, (FULL, FULL)))
        self.check_all_replied(self.ask_much(server))
        until(lambda: fails(server), "the server tells that its journal can't be written")
        self.check_end(server, PEERS * EACH, r"s4d: journal: cannot write\n(s4d: journal: .*\n)*")


if __name__ == "__main__":
    unittest.main()
