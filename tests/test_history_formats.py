"""Journals of format 2 (docs/JOURNAL.md), as `s4d history` tells them beside those of format 1."""
import tempfile
import unittest
from hashlib import sha256
from pathlib import Path
from struct import pack

from tests.journals import CALLS, DONE, LINES, RECORDS, Chain, ChainOfSums, Kept, call, creation, heading, journal, journal_of_2, object_of, record, setting, summed, write
from tests.program import run
from tests.serving import Server
from tests.test_history_scripts import SCRIPT, TWO_CELLS
from tests.test_history_starts import CELLS, JSON, LISTED, TEXTS

# Data of 65 bytes, the least that are summed, and of 64, and why they are granted: by the first entry of an ACL that is in force since moment 5.
LONG, SHORT = bytes(range(65)), bytes(range(64))
GRANT, GRANTED = b"\x01\x00" + pack(">Q", 5), "by 0 since 5"
# The header and its sum.
FRONT = 172


def read(moment, length, told):
    """Principal 2 reads so many bytes of their object, of which that is told."""
    return (0, record(moment, 2, b"\x03" + object_of(2) + pack(">IIB", 0, length, 0), told))


def given(data):
    """A reply that gives all of the data, by version 1."""
    return b"\x02" + GRANT + pack(">H", len(data)) + data


def history(told):
    """An object with 65 bytes is read as a whole, of which that is told, and then but for its last byte."""
    return (0, creation(5, 2)), (0, record(6, 2, write(LONG), DONE)), read(7, 65, told), read(8, 64, given(SHORT))


def listed(told):
    """The lines of these records."""
    first = f"0 0 0 5 2 0 create 0 -> made 2.0.1\n1 0 1 6 2 0 write 2.0.1 0 {LONG.hex()} -> done\n"
    return f"{first}2 0 2 7 2 0 read 2.0.1 0 65 -> {told}\n3 0 3 8 2 0 read 2.0.1 0 64 -> data {SHORT.hex()} {GRANTED}\n"


# What is told of the data by each format.
TOLD = f"data summed 65 {sha256(LONG).hexdigest()} {GRANTED}"
GIVEN = f"data {LONG.hex()} {GRANTED}"


class Formats(unittest.TestCase):
    maxDiff = None

    def kept(self, records, calls=b"", lines=b""):
        """A folder that has these files."""
        it = Kept(records, calls, lines)
        self.addCleanup(it.room.cleanup)
        return it

    def check(self, fault, records, calls=b"", telling="check"):
        self.assertEqual(self.kept(records, calls).tell(telling).fault, f"start 2: {fault}")

    def test_both_formats_are_told_alike(self):
        # Of records that give no data all is told by both.
        records, first = journal_of_2(2, *TWO_CELLS)
        chain = ChainOfSums(first)
        calls = chain.calls(0, [call(1, 0, 1), call(0, 0, 2)]) + chain.calls(1, [call(1, 1, 0), call(0, 1, 2)], (1, 2))
        it = self.kept(records, calls, Chain(first).lines(*TEXTS))
        self.assertEqual(it.tell("list").text, LISTED)
        self.assertEqual(it.tell("list", "--json").text, JSON)
        self.assertEqual(it.tell("script").text, SCRIPT)
        # That a start lacks before it, and whether it ended, is told by format 2 alone.
        told = it.check()
        self.assertEqual(told.lines[:2], ["start 1 lacks", f"start 2 blocks 4 sum {records[-32:].hex()}"])
        self.assertEqual(told.lines[2], f"start 2 calls blocks 2 sum {calls[-32:].hex()}")
        self.assertEqual(told.fault, "start 2: broken off")
        self.assertEqual(told.lines[4:], [*CELLS.splitlines()[:-1], "start 2 broken off"])

    def test_summed_data_are_told(self):
        it = self.kept(journal_of_2(1, *history(summed(GRANT, LONG)))[0])
        self.assertEqual(it.tell("list").text, listed(TOLD))
        self.assertEqual(it.tell("list", "--from", 7, "--to", 7).text, listed(TOLD).splitlines(True)[2])
        self.assertIn(f'"ask":"read 2.0.1 0 65","reply":"{TOLD}"', it.tell("list", "--json").text)
        self.assertEqual(it.check().lines[-1], "start 2 broken off")
        # A script has the requests alone, and is the same by both formats. It gives the data again.
        script = it.tell("script").text
        other = self.kept(journal(1, *history(given(LONG)))[0])
        self.assertEqual((other.tell("list").text, other.tell("script").text), (listed(GIVEN), script))
        self.assertEqual(run(["run"], script.encode()).out.decode().splitlines()[2:], [GIVEN, f"data {SHORT.hex()} {GRANTED}"])

    def test_other_data_are_found(self):
        # Another sum, another length under the sum of as many bytes, and another grant.
        for told in (summed(GRANT, LONG[::-1]), summed(GRANT, LONG + b"\0"), summed(b"\x01\x01" + GRANT[2:], LONG), summed(GRANT[:-1] + b"\x04", LONG), summed(b"\x00", LONG)):
            self.check("cell 0 record 2: another reply", journal_of_2(1, *history(told))[0])
        # The first such is told, whatever comes behind it.
        wrong = summed(GRANT, LONG[::-1])
        self.check("cell 0 record 2: another reply", journal_of_2(1, *history(wrong), read(9, 65, wrong))[0])

    def test_replies_have_one_spelling(self):
        # Data of more than 64 bytes are summed by format 2, and none by format 1; fewer never are.
        self.check("byte 172: no block", journal_of_2(1, read(7, 65, given(LONG)))[0], telling="list")
        self.check("byte 172: no block", journal_of_2(1, read(7, 64, summed(GRANT, SHORT)))[0], telling="list")
        self.check("byte 76: no block", journal(1, read(7, 65, summed(GRANT, LONG)))[0], telling="list")

    def test_blocks_stand_under_the_sums_of_their_format(self):
        front, first = heading(1)
        self.check("byte 172: no block", front + first + Chain(first).batch(0, creation(5, 2)))
        good = front + first + ChainOfSums(first).batch(0, creation(5, 2))
        self.check("broken off", good, ChainOfSums(first).calls(0, [call(0, 0, 1)]))
        self.check("calls: byte 0: no block", good, Chain(first).calls(0, [call(0, 0, 1)]))

    def test_a_header_of_the_other_length_is_none(self):
        # The mark of format 2 in front of 44 bytes, and that of format 1 in front of 140.
        short, long = b"S4DJRNL2" + journal(1)[0][8:44], b"S4DJRNL1" + heading(1)[0][8:]
        for it in (short, long):
            self.check("no journal", it + sha256(it).digest() + bytes(200))

    def test_a_journal_is_cut_anywhere(self):
        records, first = journal_of_2(1, (0, creation(5, 2)), (0, setting(6)))
        middle = FRONT + len(ChainOfSums(first).batch(0, creation(5, 2)))
        lines = ["0 0 0 5 2 0 create 0 -> made 2.0.1", "1 0 1 6 0 0 setwindow 4 -> done"]
        it = self.kept(records)
        for length in range(len(records) + 1):
            it.write(RECORDS, records[:length])
            told = it.tell("list")
            if length < FRONT:
                self.assertEqual((told.fault, told.text), ("start 2: no journal", ""), length)
                continue
            count = 0 if length < middle else 1 if length < len(records) else 2
            end = (FRONT, middle, len(records))[count]
            self.assertEqual((told.fault, told.lines), ("", lines[:count]), length)
            tallied = [line for line in it.check().lines if line.startswith(("start 2 blocks ", "start 2 torn "))]
            wanted = [f"start 2 blocks {count} sum {records[end - 32 : end].hex()}"]
            self.assertEqual(tallied, wanted if length == end else [*wanted, f"start 2 torn {end} {length}"], length)

    def test_a_journal_is_changed_anywhere(self):
        # Where a byte of the block's length is greater, the block seems to go on behind the end of the bytes.
        records, _ = journal_of_2(1, (0, creation(5, 2)))
        it = self.kept(records)
        for place in range(len(records)):
            it.write(RECORDS, records[:place] + bytes([records[place] ^ 1]) + records[place + 1 :])
            told = it.tell("list")
            fault = "" if place - FRONT in (1, 2, 3) else "start 2: byte 172: no block" if place >= FRONT else "start 2: no journal"
            self.assertEqual((told.fault, told.text), (fault, ""), place)

    def test_a_server_begins_behind_a_start_of_format_2(self):
        # Also behind one that ended before it had a header.
        front, first = heading(1)
        for records in (front + first, front + first[:-1], front[:8], b""):
            with tempfile.TemporaryDirectory() as room:
                (Path(room) / "1").mkdir()
                for name, content in ((RECORDS, records), (CALLS, b""), (LINES, b"")):
                    (Path(room) / "1" / name).write_bytes(content)
                (Path(room) / "lock").touch()
                server = Server("--journal", room, tells=False, connections=0)
                server.kill()
                self.assertEqual(sorted(it.name for it in Path(room).iterdir()), ["1", "2", "lock"])


if __name__ == "__main__":
    unittest.main()
