"""What a server writes into its journal, byte by byte, as docs/JOURNAL.md says it; and what it writes at its end."""
import json
import resource
import signal
import tempfile
import time
import unittest
from pathlib import Path

from tests import frames
from tests.journals import CALLS, LINES, RECORDS, read_start, summed
from tests.peers import exactly, frame
from tests.serving import Server, until

# Data of 65 bytes, the least that are summed, and of 64.
LONG, SHORT = bytes(range(65)), bytes(range(64))
OBJECT = bytes.fromhex("00000007 00 000001".replace(" ", ""))
WRITE = b"\x04" + OBJECT + bytes(4) + len(LONG).to_bytes(2, "big") + LONG
WINDOW, CELLS, FIRST = 100, 2, 5
# The cell of principal 7, and that of principal 8.
CELL, OTHER = 7 % CELLS, 8 % CELLS


def reply_to(peer):
    """The body of the next reply."""
    return exactly(peer, int.from_bytes(exactly(peer, 4), "big"))


def read(length):
    """A request for the first bytes of the object."""
    return b"\x03" + OBJECT + bytes(4) + length.to_bytes(4, "big") + b"\0"


def last_of(written):
    """The line by which a start says that it ended, without its clocks; none where it doesn't."""
    line = written.lines[-1] if written.lines else {}
    return {name: it for name, it in line.items() if name not in ("wall", "moment")} if line.get("event") == "ended" else None


class Files(unittest.TestCase):
    maxDiff = None

    def check_end(self, written):
        """That the last line tells what the files have, and no other line tells an end."""
        cells = [len(written.entries(cell)) for cell in range(CELLS)]
        lines = b"".join(json.dumps(it, separators=(",", ":")).encode() + b"\n" for it in written.lines)
        self.assertEqual(len(lines), written.bytes[LINES])
        self.assertEqual(
            last_of(written),
            {
                "connection": None,
                "peer": None,
                "event": "ended",
                "records": {"bytes": written.bytes[RECORDS], "sum": written.sums[RECORDS].hex(), "cells": cells},
                "calls": {"bytes": written.bytes[CALLS], "sum": written.sums[CALLS].hex(), "count": sum(len(calls) for _, calls, _ in written.calls)},
                "lines": len(written.lines) - 1,
                "sum": written.sums[LINES].hex(),
            },
        )
        self.assertEqual([it["event"] for it in written.lines].count("ended"), 1)
        ended = written.lines[-1]
        self.assertEqual(ended["wall"] - written.header[3], ended["moment"] - FIRST)

    def check_told(self, server, written):
        """That the server says the same sums at its end."""
        told = {line.split(" ")[4]: line.split(" ")[-1] for line in server.errors().splitlines() if " sum " in line}
        names = {"calls": CALLS, "connections": LINES, "bytes": RECORDS}
        self.assertEqual({names[name]: it for name, it in told.items()}, {name: it.hex() for name, it in written.sums.items()})

    def test_what_a_server_writes(self):
        with Server(connections=1, window=WINDOW, cells=CELLS, first_moment=FIRST, keeps=True) as server:
            begun = int(time.time() * 1000)
            with server.welcomed(frames.HELLO) as seven:
                seven.sendall(b"".join(frame(it) for it in (b"\x01\0", WRITE, read(65), read(64), read(3))))
                replies = [reply_to(seven) for _ in range(5)]
            server.closed(r"(s4d: journal: start 1 .*\n){3}")
            written = read_start(server.folder / "journal" / "1")
            window, cells, first, wall, first_record, *link = written.header
            self.assertEqual((window, cells, first, first_record, link), (WINDOW, CELLS, FIRST, 0, [1, bytes(32), WINDOW, 0, 0, bytes(32)]))
            self.assertLess(abs(wall - begun), 60000)
            self.assertEqual(written.entries(OTHER), [])
            entries = written.entries(CELL)
            self.assertEqual([it[1:4] for it in entries], [(7, 1, 1)] * 5)
            self.assertEqual([it[4] for it in entries], [b"\x01\0", WRITE, read(65), read(64), read(3)])
            # The reply that has more than 64 bytes of data has their length and sum in its place; the others stand as they were sent.
            self.assertEqual(replies[2][-67:], b"\0\x41" + LONG)
            told = [it[5] for it in entries]
            self.assertEqual(told[2], summed(replies[2][1:-67], LONG))
            self.assertEqual(told[:2] + told[3:], replies[:2] + replies[3:])
            self.assertEqual([calls for _, calls, _ in written.calls if calls], [[(CELL, place, 1) for place in range(5)]])
            self.assertEqual([it["event"] for it in written.lines], ["opened", "welcome", "closed", "ended"])
            self.check_end(written)
            self.check_told(server, written)

    def test_each_start_stands_behind_the_one_before(self):
        with tempfile.TemporaryDirectory() as room:
            before = bytes(32)
            for number in (1, 2, 3):
                with Server("--journal", Path(room, "kept"), connections=0, tells=False) as server:
                    self.assertEqual(server.tell(frames.HELLO, frames.CREATE), frames.ANSWER)
                    server.end()
                written = read_start(Path(room, "kept", str(number)))
                self.assertEqual(written.header[5:], (number, before, 100, 0, 0, bytes(32)))
                before = written.sums[RECORDS]
            # Behind a start of which a part is torn off it is the last whole block's; behind one that has no header there is none.
            records = Path(room, "kept", "3", RECORDS)
            records.write_bytes(records.read_bytes()[:-1])
            self.assertEqual(len(written.batches), 1)
            self.check_behind(room, 4, records.read_bytes()[140:172])
            Path(room, "kept", "4", RECORDS).write_bytes(b"")
            self.check_behind(room, 5, bytes(32))

    def check_behind(self, room, number, before):
        """That a start of that number is begun behind one of that last sum."""
        with Server("--journal", Path(room, "kept"), connections=0, tells=False) as server:
            server.end()
        self.assertEqual(read_start(Path(room, "kept", str(number))).header[5:7], (number, before))

    def test_a_start_that_is_killed_does_not_say_that_it_ended(self):
        with Server(connections=0, keeps=True, tells=False) as server:
            self.assertEqual(server.tell(frames.HELLO, frames.CREATE), frames.ANSWER)
            start = server.folder / "journal" / "1"
            until(lambda: b'"closed"' in (start / LINES).read_bytes(), "the connection's end is told")
            server.process.send_signal(signal.SIGKILL)
            server.process.wait()
            self.assertNotIn(b'"ended"', (start / LINES).read_bytes())

    def test_a_start_that_could_not_be_written_does_not_say_that_it_ended(self):
        # Its files may have so many bytes: the headers, and little else.
        with Server(connections=1, keeps=True, tells=False, how={"preexec_fn": limit_files}) as server:
            with server.welcomed(frames.HELLO) as seven:
                seven.sendall(frame(WRITE) * 20)
                self.assertEqual({reply_to(seven) for _ in range(20)}, {b"\x08\x02"})
            server.closed(r"s4d: journal: cannot write\n(s4d: journal: .*\n)*")
            self.assertNotIn(b'"ended"', (server.folder / "journal" / "1" / LINES).read_bytes())


def limit_files():
    """Has no file grow beyond 700 bytes; a write that would is a fault, and not the process' end."""
    signal.signal(signal.SIGXFSZ, signal.SIG_IGN)
    resource.setrlimit(resource.RLIMIT_FSIZE, (700, 700))


if __name__ == "__main__":
    unittest.main()
