"""How much memory the records of one principal may take at a server: whoever has left that many is told so, and nobody else."""
import contextlib
import struct
import time
import unittest

from tests.frames import CREATE, DENIED, DONE, FOREIGN_READ, HELLO, OTHER_HELLO, OTHER_MADE, WRITE_DENIED
from tests.peers import exactly, frame, hello
from tests.program import run
from tests.serving import SECRETS, Server, until
from tools.lib import servers

# What a record takes beside its data (docs/LIMITS.md, "Numbers"), and how many of such records a bound is for.
RECORD, FEW = 260, 20
# The most bytes of a Write by version 2, and by how many connections they are sent, how many on each.
SIZE, PEERS, EACH = 65536, 4, 8
# Principal 7 says who it is by version 2, and writes as many bytes to 8.0.1, which it mayn't.
HELLO_2 = hello(7, 1, SECRETS[7], 2)
GREAT_WRITE = frame(b"\4" + bytes.fromhex("00000008 00 000001") + struct.pack(">II", 0, SIZE) + b"a" * SIZE)
# The refusal for want of memory, which comes behind a wait of a second at most, of which this much is waited for sure, in seconds.
NO_MEMORY, LEAST = bytes.fromhex("00000002 08 10"), 0.5
# Within how many seconds others are replied meanwhile.
SOON = 0.5
# The administrator's secret, and who says so who it is. Logins with that.
SECRET = bytes(range(32, 48))
ADMINISTRATOR = hello(0, 1, SECRET)
ALL_LOGINS = servers.logins_of({0: SECRET} | SECRETS)
# What principal 8 asks, and is replied where nobody else asks anything; no moment stands there.
OBJECT = bytes.fromhex("00000008 00 000001")
ASKED = (
    (CREATE, OTHER_MADE),
    (frame(b"\4" + OBJECT + struct.pack(">IH", 0, 5) + b"hello"), DONE),
    (frame(b"\5" + OBJECT + struct.pack(">H", 5) + b"again"), DONE),
    (FOREIGN_READ, DENIED),
    (frame(b"\2" + OBJECT), DONE),
)


def ask(peer, request, size):
    """What a peer is replied, in so many bytes, and within how many seconds."""
    since = time.monotonic()
    peer.sendall(request)
    return exactly(peer, size), time.monotonic() - since


def bytes_of(server, who):
    """How many bytes the records of a principal take, as the server tells; none where it doesn't yet."""
    status = server.status()
    return status and {it["who"]: it["bytes"] for it in status["record_bytes"]}.get(who)


class Records(unittest.TestCase):
    """Principals 7, who leaves many records, and 8."""

    def fill(self, peer, count=FEW):
        """Has a principal leave so many records."""
        for _ in range(count):
            self.assertEqual(ask(peer, FOREIGN_READ, len(DENIED))[0], DENIED)

    def check_full(self, peer):
        """That a principal may leave no more of them: it is told so, behind a wait."""
        told, passed = ask(peer, FOREIGN_READ, len(NO_MEMORY))
        self.assertEqual(told, NO_MEMORY)
        self.assertGreater(passed, LEAST)

    def check_other(self, peer, count):
        """That principal 8 is replied as if nobody else had asked, and soon."""
        for request, wanted in ASKED[:count]:
            told, passed = ask(peer, request, len(wanted))
            self.assertEqual(told, wanted)
            self.assertLess(passed, SOON)

    def test_whoever_left_that_many_is_told_so_and_another_goes_on(self):
        with Server("--records", RECORD * FEW, connections=2, workers=2, keeps=True) as server:
            with server.welcomed(HELLO) as seven, server.welcomed(OTHER_HELLO) as eight:
                self.fill(seven)
                # Several at once: each waits by itself.
                seven.sendall(FOREIGN_READ * 2)
                self.check_other(eight, len(ASKED))
                self.assertEqual(exactly(seven, 2 * len(NO_MEMORY)), NO_MEMORY * 2)
                self.check_full(seven)
                until(lambda: bytes_of(server, 7) == RECORD * FEW, "the status tells of 7")
                self.assertEqual(bytes_of(server, 8), RECORD * len(ASKED) + 10)
                until(lambda: server.status()["refusals"]["no_memory"] == 3, "the status tells of the refusals")
            server.check_end(self, (FEW + len(ASKED), FEW + len(ASKED)), errors=r"(s4d: journal: .*\n)*")
            told = run(["history", "check", "journal"], folder=server.folder)
            self.assertEqual((told.status, told.out.decode().splitlines()[-1]), (0, "start 1 sound"))

    def test_a_bound_is_of_all_workers_together(self):
        with Server("--records", RECORD * FEW, connections=0, workers=4) as server, contextlib.ExitStack() as peers:
            several = [peers.enter_context(server.welcomed(HELLO)) for _ in range(4)]
            for peer in several:
                self.fill(peer, FEW // 4)
            for peer in several:
                self.check_full(peer)
            with server.welcomed(OTHER_HELLO) as eight:
                self.check_other(eight, len(ASKED))
            server.ask_to_end()
            server.check_end(self, (FEW + len(ASKED), FEW + len(ASKED)))

    def test_writes_that_are_refused_fill_nobody_elses_memory(self):
        most = 16 * SIZE
        with Server("--records", most, connections=0, workers=2) as server, contextlib.ExitStack() as peers:
            several = [peers.enter_context(server.welcomed(HELLO_2)) for _ in range(PEERS)]
            for peer in several:
                peer.sendall(GREAT_WRITE * EACH)
            with server.welcomed(OTHER_HELLO) as eight:
                self.check_other(eight, len(ASKED))
            until(lambda: (bytes_of(server, 7) or 0) >= most, "7 has left all that it may")
            # Of each worker one may have been under way.
            self.assertLess(bytes_of(server, 7), most + 2 * (RECORD + SIZE))
            with server.welcomed(OTHER_HELLO) as eight:
                self.assertEqual(ask(eight, FOREIGN_READ, len(DENIED))[0], DENIED)
            refused = sum(self.refused(peer) for peer in several)
            self.assertGreater(refused, 0)
            server.ask_to_end()
            records = PEERS * EACH - refused + len(ASKED) + 1
            server.check_end(self, (records, records))

    def refused(self, peer):
        """How many of the writes of a peer were refused for want of memory; the others were denied."""
        count = 0
        for _ in range(EACH):
            reply = exactly(peer, len(NO_MEMORY))
            if reply == NO_MEMORY:
                count += 1
            else:
                self.assertEqual(reply + exactly(peer, 1), WRITE_DENIED)
        return count

    def test_what_is_cut_makes_room(self):
        with Server("--records", RECORD * FEW, "--cut", connections=0, window=2000) as server, server.welcomed(HELLO) as seven:
            self.fill(seven)
            self.check_full(seven)
            until(lambda: self.is_served(seven), "what was left is cut")
            self.fill(seven, FEW // 2)
            server.ask_to_end()
            server.closed()

    def is_served(self, peer):
        """Whether a request is replied, and not for want of memory."""
        peer.sendall(FOREIGN_READ)
        reply = exactly(peer, len(NO_MEMORY))
        return reply != NO_MEMORY and reply + exactly(peer, 1) == DENIED

    def test_the_administrators_records_are_not_bounded(self):
        with Server("--records", 1, connections=0, logins=ALL_LOGINS) as server:
            with server.welcomed(ADMINISTRATOR) as administrator, server.welcomed(HELLO) as seven:
                made = bytes.fromhex("00000009 01 00000000 00 0000")
                for _ in range(FEW):
                    told, passed = ask(administrator, CREATE, 13)
                    self.assertEqual(told[:-1], made[:12])
                    self.assertLess(passed, SOON)
                self.fill(seven, 1)
                self.check_full(seven)
            server.ask_to_end()
            server.check_end(self, (FEW + 1, FEW + 1))


if __name__ == "__main__":
    unittest.main()
