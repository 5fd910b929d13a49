"""Who reads all that it can while its server keeps a journal: it holds up neither the end of its own login, nor the server's, nor the status, nor
what is kept of others."""
import contextlib
import mmap
import socket
import struct
import threading
import time
import unittest

from tests import frames
from tests.peers import exactly, frame, hello
from tests.program import run
from tests.serving import SECRETS, Server, until

# The most bytes of a Write by version 2, and how many Reads of them a thief sends at once.
SIZE, AT_ONCE = 65536, 4
# How many connections a thief has, and for how long each rests behind what it asked at once, in seconds: so they read at most 100 MB a second, of which
# the disk has to have room for some seconds.
THIEVES, REST = 4, 0.01
# For how many seconds they read before anything is asked of the server, and within how many it then has to be done: it takes less than one, but for a
# machine that is busy.
BEFORE, WITHIN = 0.2, 60
# Principal 7 says by version 2 who it is, makes an object, writes to all of it, and reads it.
HELLO = hello(7, 1, SECRETS[7], 2)
CREATE = frame(b"\1\0")
OBJECT = bytes.fromhex("00000007 00 000001")
WRITE = frame(b"\4" + OBJECT + struct.pack(">II", 0, SIZE) + b"a" * SIZE)
READ = frame(b"\3" + OBJECT + struct.pack(">IIB", 0, SIZE, 0))
# What each reply to a Read has: a length, what it is of and by which right, a moment, a length, and what was read.
REPLY = 4 + 3 + 8 + 4 + SIZE
# The logins without principal 7.
WITHOUT = f"8 {SECRETS[8].hex()}\n"
# What a server with a journal writes to standard error at its end.
SUMS = r"(s4d: journal: start 1 (calls |connections |)bytes [0-9]+ sum [0-9a-f]{64}\n){3}"


class Thief:
    """One connection of a thief, which reads until that ends."""

    def __init__(self, server):
        self.peer, self.read, self.has_ended = server.welcomed(HELLO), 0, False
        self.thread = threading.Thread(target=self.steal)
        self.thread.start()

    def steal(self):
        room = bytearray(1 << 20)
        with contextlib.suppress(OSError):
            while True:
                self.peer.sendall(READ * AT_ONCE)
                left = REPLY * AT_ONCE
                while left and (count := self.peer.recv_into(room, min(left, len(room)))):
                    left -= count
                if left:
                    break
                self.read += AT_ONCE
                time.sleep(REST)
        self.has_ended = True

    def close(self):
        with contextlib.suppress(OSError):
            self.peer.shutdown(socket.SHUT_RDWR)
        self.thread.join()
        self.peer.close()


class Thieves(unittest.TestCase):
    """Several connections of a thief to a server that keeps a journal."""

    @contextlib.contextmanager
    def served(self):
        """A server, and thieves who have read there for a while."""
        with Server(connections=0, cells=4, workers=4, idle=60000, reload=200, keeps=True) as server, contextlib.ExitStack() as thieves:
            with server.welcomed(HELLO) as owner:
                owner.sendall(CREATE + WRITE)
                exactly(owner, 13 + 5)
            stolen = [thieves.enter_context(contextlib.closing(Thief(server))) for _ in range(THIEVES)]
            time.sleep(BEFORE)
            until(lambda: all(it.read for it in stolen) and server.status(), "all thieves read, and the status is there")
            yield server, stolen

    def check_ended(self, thieves, since):
        """That all their connections end soon after this time."""
        for it in thieves:
            it.thread.join(max(0, since + WITHIN - time.monotonic()))
            self.assertTrue(it.has_ended, "it still reads")

    def end(self, server, thieves):
        """How many records the server has once it comes to its end."""
        closed = server.closed(SUMS)
        self.assertGreaterEqual(closed.records, sum(it.read for it in thieves))
        return closed.records

    def has_moved(self, told, status):
        """Whether a status is newer than the one that was told, and tells of a longer journal."""
        return status["moment"] > told["moment"] and status["journal"]["bytes"] > told["journal"]["bytes"]

    def is_kept(self, server, reply):
        """Whether this reply stands in the journal."""
        with open(server.folder / "journal/1/records", "rb") as records, mmap.mmap(records.fileno(), 0, access=mmap.ACCESS_READ) as it:
            return it.find(reply) >= 0

    def test_a_login_that_is_taken_back_ends_soon(self):
        with self.served() as (server, thieves):
            since = time.monotonic()
            server.write("logins", WITHOUT)
            self.check_ended(thieves, since)
            server.ask_to_end()
            records = self.end(server, thieves)
            told = run(["history", "check", "journal"], folder=server.folder)
        self.assertEqual((told.status, told.err), (0, b""))
        lines = told.out.decode().splitlines()
        self.assertEqual(lines[-1], "start 1 sound")
        self.assertEqual(sum(int(line.split(" records ")[1]) for line in lines if " records " in line), records)

    def test_a_server_that_is_to_end_ends_them_soon_and_keeps_others_records_meanwhile(self):
        with self.served() as (server, thieves):
            told, since = server.status(), time.monotonic()
            # Principal 8 has another cell.
            self.assertEqual(server.tell(frames.OTHER_HELLO, frames.CREATE), frames.WELCOME + frames.OTHER_MADE)
            until(lambda: self.is_kept(server, frames.OTHER_MADE), "another's record stands in the journal")
            until(lambda: self.has_moved(told, server.status()), "the status tells that more stands in the journal")
            self.assertLess(time.monotonic() - since, WITHIN)
            since = time.monotonic()
            server.ask_to_end()
            self.check_ended(thieves, since)
            self.end(server, thieves)
