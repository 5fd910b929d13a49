"""What is written of a history that isn't told."""
import os
import subprocess
import unittest

from tests.journals import CALLS, LINES, RECORDS, Chain, Kept, call, create, creation, journal, made, record, setting
from tests.program import PROGRAM, SECONDS
from tests.test_history_lists import JOURNAL, ORDERED
from tests.test_history_lines import BOTH, FIRST, RECORDS as OF_LINES

# Cell 1 of two has three records.
THREE = ((1, creation(5, 7)), (1, creation(6, 7, serial=2)), (1, creation(7, 7, serial=3)))


class Faults(unittest.TestCase):
    def check(self, fault, cells, *batches, calls=None, telling="check"):
        """That this is told of a journal of so many cells, and of calls that are made of its header's sum."""
        records, sum = journal(cells, *batches)
        with Kept(records, calls(sum) if calls else b"") as kept:
            self.assertEqual(kept.tell(telling).fault, f"start 2: {fault}")

    def test_faults_of_bytes(self):
        with Kept(b"S4DJRNL1") as kept:
            self.assertEqual(kept.check().fault, "start 2: no journal")
            kept.write(RECORDS, JOURNAL[:76] + bytes(36))
            self.assertEqual(kept.check().fault, "start 2: byte 76: no block")
        with Kept(OF_LINES, lines=BOTH[:FIRST] + b"{}\n") as kept:
            self.assertEqual(kept.check().fault, "start 2: lines: byte 114: no line")

    def test_faults_of_cells(self):
        self.check("no cell 4", 4, (4, creation(5, 4)), telling="list")
        self.check("cell 1: a record of another cell", 2, (1, creation(5, 2)))
        # Each cell has a record of all cells next, and they aren't the same.
        self.check("cell 1: another record of all cells", 2, (0, setting(6)), (1, setting(6, ticks=5)))

    def test_faults_of_records(self):
        another = record(7, 7, create(), made(7, serial=4))
        self.check("cell 1 record 2: another reply", 2, *THREE[:2], (1, another))
        self.check("merged record 3: moment goes back", 2, *THREE, (1, creation(6, 7, serial=4)))

    def test_faults_of_calls(self):
        two = [call(1, 0, 1), call(1, 1, 1)]
        self.check("calls: cell 1 record 2: no call", 2, *THREE, calls=lambda sum: Chain(sum).calls(0, two, (0, 3)))
        twice = [*two, call(1, 2, 1), call(1, 2, 1)]
        self.check("calls: cell 1 record 2: too many calls", 2, *THREE, calls=lambda sum: Chain(sum).calls(0, twice))

    def test_files_that_cannot_be_read(self):
        for name, fault in ((RECORDS, "start 2: cannot read"), (CALLS, "start 2: cannot read"), (LINES, "start 2: cannot read")):
            with Kept(JOURNAL) as kept:
                os.remove(kept.start / name)
                self.assertEqual(kept.check().fault, fault)
        # What is a folder may be looked at, and not read.
        for name, fault in ((RECORDS, "start 2: cannot read"), (CALLS, "start 2: calls: cannot read"), (LINES, "start 2: lines: cannot read")):
            with Kept(JOURNAL) as kept:
                os.remove(kept.start / name)
                os.mkdir(kept.start / name)
                self.assertEqual(kept.check().fault, fault)
                os.rmdir(kept.start / name)
                # Whoever opens a pipe waits for its other end.
                os.mkfifo(kept.start / name)
                self.assertEqual(kept.check().fault, fault)

    def test_an_output_that_fails(self):
        for telling, records in (("list", ORDERED), ("check", JOURNAL)):
            with Kept(records) as kept, open("/dev/full", "wb") as full:
                words = [PROGRAM, "history", telling, kept.folder]
                ran = subprocess.run(words, stdout=full, stderr=subprocess.PIPE, stdin=subprocess.DEVNULL, timeout=SECONDS)
                self.assertEqual((ran.returncode, ran.stderr), (1, b"s4d: cannot write: No space left on device\n"), telling)


if __name__ == "__main__":
    unittest.main()
