"""Lines of connections under sums, of a file that another program made, as `s4d history check` tells of them."""
import unittest

from tests.journals import LINES, Chain, Kept, creation, journal
from tests.test_history_lists import JOURNAL

# Two texts, and their lines, the first under a sum of zeros.
TEXTS = ('{"connection":1,"peer":"127.0.0.1:5000"', '{"connection":1,"ended":"closed"')
UNDER_ZEROS = b"""\
{"connection":1,"peer":"127.0.0.1:5000","sum":"eb8dd0fecdbb870daf9936ca47f06d7a6d5c1d0e257d6ed0cf22ffaf9aac7fa2"}
{"connection":1,"ended":"closed","sum":"ddf2fb0347d965c003c463cf7e0def744d0cc8822c432d0e8e9b714b6393202c"}
"""
# Where the first line ends, behind its line feed, and where the second one ends.
FIRST, SECOND = 114, 221
# A journal of one record, under whose header's sum the lines stand.
RECORDS, SUM = journal(1, (0, creation(5, 7)))
BOTH = Chain(SUM).lines(*TEXTS)
# Two texts, and their lines under the sum of a journal's header, all of them made by another program (docs/JOURNAL.md).
OPENED = (
    '{"connection":12,"peer":"127.0.0.1:50000","wall":1700000000002,"moment":7,"event":"opened"',
    '{"connection":12,"peer":"127.0.0.1:50000","wall":1700000000002,"moment":7,"event":"welcome","who":7,"client":1,"version":1',
)
UNDER_JOURNAL = b"""\
{"connection":12,"peer":"127.0.0.1:50000","wall":1700000000002,"moment":7,"event":"opened","sum":"c6209e4c9e939dfce50988a64423de0be117aff4a84ad26f64918647b274b2fd"}
{"connection":12,"peer":"127.0.0.1:50000","wall":1700000000002,"moment":7,"event":"welcome","who":7,"client":1,"version":1,"sum":"6d6ac59f02c5eb40b1f70649387a0720b10ce31ce1b70c7fbebe7cf7c78dcad6"}
"""


class Lines(unittest.TestCase):
    def setUp(self):
        self.kept = Kept(RECORDS)
        self.addCleanup(self.kept.room.cleanup)

    def told(self, lines):
        """What is told of these lines: how many there are, their last sum, and where they are torn; or the fault."""
        self.kept.write(LINES, lines)
        told = self.kept.check()
        found = [line.removeprefix("start 2 connections ") for line in told.lines if line.startswith("start 2 connections ")]
        self.assertNotEqual(bool(found), bool(told.fault))
        return found or told.fault

    def check(self, lines, count, end):
        """That so many lines are found, of which the last one ends there."""
        chain = Chain(SUM)
        chain.lines(*TEXTS[:count])
        torn = [f"torn {end} {len(lines)}"] if end < len(lines) else []
        self.assertEqual(self.told(lines), [f"lines {count} sum {chain.last.hex()}", *torn])

    def test_what_makes_the_lines_here_makes_those_of_another_program(self):
        self.assertEqual(Chain(bytes(32)).lines(*TEXTS), UNDER_ZEROS)
        self.assertEqual((len(BOTH), BOTH.index(b"\n") + 1), (SECOND, FIRST))

    def test_lines_are_read(self):
        self.check(BOTH, 2, SECOND)
        # In pieces of 1 to 8 bytes, each of which is a file that goes on in the next one.
        for size in range(1, 9):
            with Kept(RECORDS, lines=BOTH[:size]) as kept:
                for place in range(size, SECOND, size):
                    kept.write(f"{LINES}-{place}", BOTH[place : place + size])
                chain = Chain(SUM)
                chain.lines(*TEXTS)
                self.assertIn(f"start 2 connections lines 2 sum {chain.last.hex()}", kept.check().lines)

    def test_lines_are_cut_anywhere(self):
        # Of the first bytes, however many, the lines are counted that lie wholly in them.
        for length in range(SECOND + 1):
            count, end = (0, 0) if length < FIRST else (1, FIRST) if length < SECOND else (2, SECOND)
            self.check(BOTH[:length], count, end)

    def test_lines_are_changed_anywhere(self):
        # Wherever a byte is changed, no line stands there; without its line feed the last line is torn.
        for place in range(SECOND):
            changed = bytearray(BOTH)
            changed[place] ^= 1
            if place < SECOND - 1:
                self.assertEqual(self.told(changed), f"start 2: lines: byte {0 if place < FIRST else FIRST}: no line", place)
            else:
                self.check(changed, 1, FIRST)

    def test_lines_stand_behind_others(self):
        # The second line isn't one behind what is in front of the first.
        self.assertEqual(self.told(BOTH[FIRST:]), "start 2: lines: byte 0: no line")

    def test_lines_that_another_program_made(self):
        lines = Chain(JOURNAL[44:76]).lines(*OPENED)
        self.assertEqual(lines, UNDER_JOURNAL)
        first = lines.index(b"\n")
        with Kept(JOURNAL, lines=lines) as kept:
            self.assertIn("start 2 connections lines 2 sum 6d6ac59f02c5eb40b1f70649387a0720b10ce31ce1b70c7fbebe7cf7c78dcad6", kept.check().lines)
            for place in range(first):
                changed = bytearray(lines)
                changed[place] ^= 1
                kept.write(LINES, changed)
                self.assertEqual(kept.check().fault, "start 2: lines: byte 0: no line", place)
                kept.write(LINES, lines[:place] + b"\n")
                self.assertEqual(kept.check().fault, "start 2: lines: byte 0: no line", place)
        # They don't stand behind another header.
        self.assertEqual(self.told(lines), "start 2: lines: byte 0: no line")

    def test_lines_are_bounded(self):
        # A line has 4096 bytes at most, of which 75 are its sum and its line feed.
        chain = Chain(SUM)
        longest = chain.line("x" * 4021)
        self.assertEqual(len(longest), 4096)
        self.assertEqual(self.told(longest), [f"lines 1 sum {chain.last.hex()}"])
        self.check(longest[:4095], 0, 0)
        longer = Chain(SUM).line("x" * 4022)
        self.assertEqual(len(longer), 4097)
        self.assertEqual(self.told(longer), "start 2: lines: byte 0: no line")
        self.check(longer[:4095], 0, 0)
        self.assertEqual(self.told(longer[:4096]), "start 2: lines: byte 0: no line")

    def test_a_file_that_fails_behind_its_first_line_is_not_one_that_ends_there(self):
        # It goes on in what is a folder.
        self.kept.write(LINES, BOTH[:FIRST])
        (self.kept.start / f"{LINES}-{FIRST}").mkdir()
        self.assertEqual(self.kept.check().fault, "start 2: lines: cannot read")


if __name__ == "__main__":
    unittest.main()
